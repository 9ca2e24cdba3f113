package rbbroker.client;

import static java.util.concurrent.TimeUnit.DAYS;
import static java.util.concurrent.TimeUnit.MILLISECONDS;
import static java.util.concurrent.TimeUnit.NANOSECONDS;
import static java.util.concurrent.TimeUnit.SECONDS;

import java.util.List;
import java.util.concurrent.Delayed;
import java.util.concurrent.Executors;
import java.util.concurrent.ScheduledExecutorService;
import org.junit.Test;
import rbbroker.client.Request.Element;

/** Jobs by themselves, and as a server's queue places them. */
public class JobTest extends QueueTest {
    private final Runs runs = new Runs("a place", it -> { });

    private Job shown(long id, long expiry, int attempt) {
        return new Job(new Element(id, expiry, attempt, "a"), runs.begin(null), null);
    }

    /** The server's clock read this moment at a time between these two. */
    private void told(long moment, long sent, long received) {
        runs.tell(runs.begin(null), new Contact.Told(0, moment), sent, received);
    }

    private static void assertBetween(long least, long most, long number) {
        assertTrue(number + " is not from " + least + " to " + most, least <= number && number <= most);
    }

    @Test
    public void payloadsAreOneTo64PrintableCharacters() {
        for (String payload : List.of("a", "!", "~", "x".repeat(64), "{\"key\":1}")) {
            assertEquals(payload, due(payload).payload());
        }
        for (String payload : List.of("", " ", "a b", "a\n", "a\r", "\u00e9", "\u007f", "\u0000", "x".repeat(65))) {
            assertThrows(payload, IllegalArgumentException.class, () -> due(payload));
        }
        assertThrows(NullPointerException.class, () -> due(null));
        assertThrows(NullPointerException.class, () -> new Job("a", 0, null));
    }

    @Test
    public void aJobThatIsNotOffered() {
        Job job = new Job("a", 100, SECONDS);
        assertEquals(1, job.attempt());
        assertThrows(IllegalStateException.class, job::id);
        assertEquals("job a, not offered", job.toString());
        assertEquals(job, job);
        assertNotEquals(job, new Job("a", 100, SECONDS));
        assertBetween(SECONDS.toNanos(60), SECONDS.toNanos(100), job.getDelay(NANOSECONDS));
        assertBetween(60, 100, job.getDelay(SECONDS));
    }

    @Test
    public void theGreatestAndTheLeastDelay() {
        Job never = new Job("never", Long.MAX_VALUE, DAYS);
        Job longAgo = new Job("ago", Long.MIN_VALUE, DAYS);
        assertBetween(Long.MAX_VALUE - SECONDS.toNanos(60), Long.MAX_VALUE, never.getDelay(NANOSECONDS));
        assertBetween(Long.MIN_VALUE, Long.MIN_VALUE / 2, longAgo.getDelay(NANOSECONDS));
        assertTrue(longAgo.compareTo(never) < 0);
        assertTrue(never.compareTo(longAgo) > 0);
        assertTrue(never.compareTo(due("now")) > 0);
        assertTrue(longAgo.compareTo(due("now")) < 0);
    }

    @Test
    public void jobsOfOneServerCompareByTheirExpiries() {
        Job early = shown(0, 5, 1);
        Job late = shown(1, Long.MAX_VALUE, 1);
        Job last = shown(2, -1, 1);
        assertTrue(early.compareTo(late) < 0 && late.compareTo(last) < 0 && early.compareTo(last) < 0);
        assertTrue(last.compareTo(early) > 0);
        assertEquals(0, early.compareTo(shown(7, 5, 2)));
    }

    @Test
    public void jobsCompareWithOtherDelayedElements() {
        ScheduledExecutorService timer = Executors.newSingleThreadScheduledExecutor();
        Delayed other = timer.schedule(() -> { }, 50, SECONDS);
        timer.shutdownNow();
        assertTrue(new Job("a", 10, SECONDS).compareTo(other) < 0);
        assertTrue(new Job("a", 90, SECONDS).compareTo(other) > 0);
        assertTrue(new Job("a", 10, SECONDS).compareTo(shown(0, SECONDS.toNanos(60), 1)) < 0);
    }

    @Test
    public void equalJobsAreTheSameAttempt() {
        Job job = shown(4, 5, 1);
        assertEquals(job, shown(4, 5, 1));
        assertEquals(job.hashCode(), shown(4, 5, 1).hashCode());
        for (Job other : List.of(shown(3, 5, 1), shown(4, 6, 1), shown(4, 5, 2),
                new Job(new Element(4, 5, 1, "b"), runs.begin(null), null))) {
            assertNotEquals(job, other);
        }
        assertFalse(job.equals("a"));
        assertEquals("job a, id 4, attempt 1", job.toString());
        assertEquals("job a, id 18446744073709551615, attempt 2", shown(-1, 5, 2).toString());
    }

    @Test
    public void aClockIsShortOfTheTruthAndLearns() {
        assertEquals(1_000, runs.until(1_000));
        assertEquals(Long.MAX_VALUE, runs.until(-1));
        long sent = System.nanoTime();
        long late = MILLISECONDS.toNanos(1);
        for (long exchange : new long[] {late, 1, late}) {
            told(SECONDS.toNanos(10_000), sent, sent + exchange);
            assertBetween(SECONDS.toNanos(60), SECONDS.toNanos(100) + exchange, runs.until(SECONDS.toNanos(10_100)));
        }
        assertEquals(SECONDS.toNanos(10_000) - 1, runs.momentOf(sent));
        // A clock that is behind is that of another server.
        told(SECONDS.toNanos(50), sent, sent + 1);
        assertBetween(SECONDS.toNanos(60), SECONDS.toNanos(100) + 1, runs.until(SECONDS.toNanos(150)));
        runs.forgetClock();
        assertEquals(7, runs.until(7));
    }

    @Test
    public void aClockAfterTheMiddleOf64Bits() {
        long moment = Long.MIN_VALUE + SECONDS.toNanos(5); // 2^63 and five seconds, unsigned
        long sent = System.nanoTime();
        told(moment, sent, sent);
        assertTrue(runs.until(moment) <= 0);
        assertTrue(runs.until(0) < 0);
        assertEquals(Long.MAX_VALUE - SECONDS.toNanos(5), runs.until(-1), SECONDS.toNanos(60));
        long before = runs.momentOf(sent - SECONDS.toNanos(10));
        assertEquals(0, Long.MAX_VALUE - SECONDS.toNanos(5) - before, SECONDS.toNanos(1));
    }

    @Test
    public void noMomentIsBeforeTheServersFirst() {
        long now = System.nanoTime();
        told(1_000_000, now, now);
        assertEquals(0, runs.momentOf(now - SECONDS.toNanos(1)));
        assertEquals(600_000, runs.momentOf(now - 400_000));
    }
}

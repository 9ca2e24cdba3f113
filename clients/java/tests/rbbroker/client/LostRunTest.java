package rbbroker.client;

import static java.util.concurrent.TimeUnit.HOURS;
import static java.util.concurrent.TimeUnit.MILLISECONDS;
import static java.util.concurrent.TimeUnit.MINUTES;

import java.util.List;
import java.util.Map;
import java.util.concurrent.CopyOnWriteArrayList;
import java.util.function.LongSupplier;
import java.util.logging.Level;
import java.util.logging.LogRecord;
import java.util.logging.Logger;
import java.util.logging.SimpleFormatter;
import org.junit.Test;

/** Ids of a run that may be lost: which server they are used at. */
public class LostRunTest extends QueueTest {
    /** How far the first server's clock is ahead of this machine's. */
    private static final long AHEAD = HOURS.toNanos(1) - System.nanoTime();

    /** For how long the first server was there, as far as its client knows. */
    private volatile long lasted;

    /**
     * Whether the job is removed at a second server, whose clock is behind the first one's, and which gives this id to
     * another job that shows so. If it is asked for the first job then, it replies this. The first server accepts that
     * as element 5, counts once, and is lost.
     */
    private boolean removed(long id, LongSupplier behind, String reply) throws Exception {
        FakeServer.Script first = talk -> {
            long begun = System.nanoTime();
            talk.greet().accept(5, AHEAD).hear("SIZE");
            lasted = System.nanoTime() - begun;
            talk.say("SIZE 1");
        };
        FakeServer.Script second = talk -> {
            talk.greet().accept(id, AHEAD - behind.getAsLong());
            if (reply != null) {
                talk.hear("REMOVE 5").say(reply);
            }
            talk.hear("QUIT").say("BYE").hearNothing();
        };
        try (FakeServer server = new FakeServer(first, second)) {
            boolean isRemoved;
            try (RemoteDelayQueue queue = new RemoteDelayQueue.Builder(server.port(), Acknowledge.BY_CALL).build()) {
                Job job = in(600_000, "a");
                queue.offer(job);
                assertEquals(5, job.id());
                Thread.sleep(400); // so long the server was there, as far as the queue knows
                assertEquals(1, queue.size());
                Thread.sleep(800);
                queue.offer(in(600_000, "b"));
                isRemoved = queue.remove(job);
            }
            server.finish();
            return isRemoved;
        }
    }

    @Test
    public void theSameServerOrOneThatContinuesTheRunIsAskedForTheJob() throws Exception {
        assertTrue(removed(6, () -> 0, "REMOVED yes"));
        assertFalse(removed(6, () -> 0, "REMOVED no"));
        assertTrue(removed(6, () -> lasted / 4, "REMOVED yes"));
    }

    @Test
    public void aServerThatMayHaveLostTheRunIsNotAsked() throws Exception {
        // Neither its ids nor its moments have gone back, but it may have begun where the first one did.
        try (Log log = new Log()) {
            assertFalse(removed(50, () -> lasted + MILLISECONDS.toNanos(400), null));
            assertEquals(List.of(), log.lines(Level.SEVERE));
            assertEquals(1, log.lines(Level.WARNING).size());
        }
        assertFalse(removed(50, () -> -MINUTES.toNanos(10), null)); // of another series
    }

    @Test
    public void aRunThatIsLostIsReported() throws Exception {
        Map<Long, Long> signs = Map.of(5L, 0L, 3L, 0L, 50L, MINUTES.toNanos(30));
        for (Map.Entry<Long, Long> sign : signs.entrySet()) {
            try (Log log = new Log()) {
                assertFalse(removed(sign.getKey(), sign::getValue, null));
                assertEquals(1, log.lines(Level.SEVERE).size());
                String line = log.lines(Level.SEVERE).get(0);
                assertTrue(line, line.matches("the server at 127.0.0.1:\\d+ has lost a run: it gave the id \\d+ at the "
                    + "moment \\d+, after the id 5 at \\d+\\. Jobs .*"));
            }
        }
    }

    /** Whether a job is removed at a second server that greets, which is asked for it if that says so. */
    private boolean removed(long run, long lost, boolean isAsked, List<LostRun> told) throws Exception {
        FakeServer.Script first = talk -> talk.greetOf(7, 2).accept(5, AHEAD).hear("SIZE").say("SIZE 1");
        FakeServer.Script second = talk -> {
            talk.greetOf(run, lost);
            if (isAsked) {
                talk.hear("REMOVE 5").say("REMOVED yes");
            }
            talk.hear("QUIT").say("BYE").hearNothing();
        };
        try (FakeServer server = new FakeServer(first, second)) {
            boolean isRemoved;
            try (RemoteDelayQueue queue = new RemoteDelayQueue.Builder(server.port(), Acknowledge.BY_CALL)
                    .onLostRun(told::add).build()) {
                Job job = in(600_000, "a");
                queue.offer(job);
                assertEquals(1, queue.size());
                Thread.sleep(100);
                isRemoved = queue.remove(job);
            }
            server.finish();
            return isRemoved;
        }
    }

    @Test
    public void aServerThatGreetsSaysWhetherItHasTheRun() throws Exception {
        List<LostRun> told = new CopyOnWriteArrayList<>();
        try (Log log = new Log()) {
            assertTrue(removed(7, 2, true, told));
            assertTrue(removed(9, 2, true, told));
            assertEquals(List.of(), log.lines(Level.WARNING));
            assertEquals(List.of(), told);
        }
        // The last two are of another service.
        long[][] others = {{8, 3, 35, 40}, {9, 4, 35, 45}, {1, 0, 0, -1}, {6, 2, 0, -1}};
        for (long[] it : others) {
            try (Log log = new Log()) {
                told.clear();
                assertFalse(removed(it[0], it[1], false, told));
                for (int tries = 0; told.isEmpty() && tries < 1_000; tries++) {
                    Thread.sleep(1);
                }
                assertEquals(List.of(new LostRun(it[2], it[3])), told);
                String line = log.lines(Level.WARNING).get(0);
                assertTrue(line, line.matches("the server at .* has lost a run: what it accepted in the .* seconds "
                    + "before its run " + it[0] + " is in doubt"));
            }
        }
        assertEquals(5, new LostRun(35, 40).length().toNanos());
        assertEquals(Long.MAX_VALUE, LostRun.ALL.length().toNanos());
    }

    @Test
    public void queuesUnderOneNameHaveIdsAndClocksOfTheirOwn() {
        long date = 1_800_000_000_000_000_000L;
        long now = System.nanoTime();
        Runs runs = new Runs("a place", it -> { });
        try (Log log = new Log()) {
            for (long[] it : new long[][] {{64 * 9 + 3, 900}, {64 * 2, 200}, {64 * 2 + 1, 100}, {64 * 10 + 3, 900}}) {
                runs.tell(runs.begin(null), new Contact.Told(it[0], date + it[1]), now, now);
            }
            assertEquals(List.of(), log.lines(Level.SEVERE));
            runs.tell(runs.begin(null), new Contact.Told(64 * 2, date + 300), now, now);
            assertEquals(1, log.lines(Level.SEVERE).size());
        }
    }

    /** What the package logs, until this is closed. */
    private static final class Log implements AutoCloseable {
        private final Logger logger = Logger.getLogger("rbbroker.client");
        private final List<LogRecord> records = new CopyOnWriteArrayList<>();

        Log() {
            logger.setFilter(records::add);
        }

        /** The lines of a level. */
        List<String> lines(Level level) {
            var formatter = new SimpleFormatter();
            return records.stream().filter(it -> it.getLevel().equals(level)).map(formatter::formatMessage).toList();
        }

        @Override
        public void close() {
            logger.setFilter(null);
        }
    }
}

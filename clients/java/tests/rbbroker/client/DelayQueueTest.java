package rbbroker.client;

import static java.util.concurrent.TimeUnit.MILLISECONDS;
import static java.util.concurrent.TimeUnit.NANOSECONDS;
import static java.util.concurrent.TimeUnit.SECONDS;

import java.util.ArrayList;
import java.util.Collection;
import java.util.List;
import java.util.TreeSet;
import java.util.concurrent.ArrayBlockingQueue;
import org.junit.Test;

/** Queues that one thread uses. */
public class DelayQueueTest extends EveryQueueTest {
    @Test
    public void rows() throws Exception {
        for (String row : Steps.rows("queues.txt")) {
            new Steps(queue, this::settle).play(row);
            queue.clear();
        }
    }

    @Test
    public void elementsOfOneExpiryComeInAnyOrderEachOnce() throws Exception {
        Thread.sleep(500); // no element can have expired before a server began
        long deadline = System.nanoTime() - MILLISECONDS.toNanos(5);
        numbers(20).forEach(it -> queue.offer(new Job(it, deadline)));
        queue.offer(new Job("younger", deadline + 1));
        List<String> taken = takeAll(21);
        assertEquals("younger", taken.get(20));
        assertEquals(numbers(20), List.copyOf(new TreeSet<>(taken.subList(0, 20))));
    }

    @Test
    public void delaysCountDown() throws Exception {
        queue.add(in(FAR, "late"));
        long delay = queue.peek().getDelay(NANOSECONDS);
        assertTrue(String.valueOf(delay), delay > MILLISECONDS.toNanos(FAR) - SECONDS.toNanos(60));
        assertTrue(String.valueOf(delay), delay <= MILLISECONDS.toNanos(FAR));
        Thread.sleep(20);
        long later = queue.peek().getDelay(NANOSECONDS);
        assertTrue(delay + " and then " + later, later <= delay - MILLISECONDS.toNanos(20));
        queue.add(due("a"));
        Job taken = queue.take();
        settle(taken);
        assertTrue(taken.getDelay(NANOSECONDS) <= 0);
    }

    @Test
    public void elementsCompareByWhatIsLeftOfTheirDelays() throws Exception {
        Job late = in(FAR, "late");
        Job later = in(2 * FAR, "later");
        for (int offered = 0; offered < 2; offered++) {
            assertTrue(late.compareTo(later) < 0);
            assertTrue(later.compareTo(late) > 0);
            assertEquals(0, late.compareTo(late));
            queue.addAll(List.of(later, late));
        }
    }

    @Test
    public void oneDrainGivesAllButWhereJobsAreHeldOnly64() {
        long now = System.nanoTime();
        numbers(150).forEach(it -> queue.add(new Job(it, now + Integer.parseInt(it))));
        List<Job> drained = new ArrayList<>();
        List<String> payloads = new ArrayList<>();
        assertEquals(kind == Kind.BY_CALL ? 64 : 150, queue.drainTo(drained));
        while (!drained.isEmpty()) {
            payloads.addAll(payloads(drained));
            drained.clear();
            queue.drainTo(drained);
        }
        assertEquals(numbers(150), payloads);
    }

    @Test
    public void aDrainToNothingOrToItselfIsRefused() {
        queue.add(due("a"));
        assertThrows(NullPointerException.class, () -> queue.drainTo(null));
        assertThrows(NullPointerException.class, () -> queue.drainTo(null, 1));
        assertThrows(IllegalArgumentException.class, () -> queue.drainTo(queue));
        assertThrows(IllegalArgumentException.class, () -> queue.drainTo(queue, 1));
        assertEquals(1, queue.size());
    }

    @Test
    public void noElementIsLostIfACollectionRefusesIt() throws Exception {
        numbers(5).forEach(it -> queue.add(due(it)));
        Collection<Job> small = new ArrayBlockingQueue<>(2);
        assertThrows(IllegalStateException.class, () -> queue.drainTo(small));
        List<String> payloads = new ArrayList<>(payloads(small));
        assertEquals(2, payloads.size());
        payloads.addAll(takeAll(3));
        assertEquals(numbers(5), List.copyOf(new TreeSet<>(payloads)));
        assertTrue(queue.isEmpty());
    }

    @Test
    public void allOfACollectionAreAddedAndRemoved() {
        List<Job> jobs = List.of(in(FAR, "a"), in(FAR, "b"), in(FAR, "c"));
        assertTrue(queue.addAll(jobs));
        assertEquals(3, queue.size());
        assertThrows(IllegalArgumentException.class, () -> queue.addAll(queue));
        assertTrue(queue.removeAll(jobs.subList(0, 2)));
        assertFalse(queue.removeAll(jobs.subList(0, 2)));
        assertEquals("c", queue.peek().payload());
        assertEquals(1, queue.size());
    }

    // Where the queues must differ.

    @Test
    public void aTakenElementEqualsTheOneOfferedAndInTheJdkIsTheSame() throws Exception {
        Job offered = due("a");
        queue.add(offered);
        Job taken = queue.take();
        settle(taken);
        assertEquals(offered, taken);
        assertEquals(offered.hashCode(), taken.hashCode());
        assertEquals(isRemote(), offered != taken);
    }

    @Test
    public void anObjectOfferedTwiceIsRemovedTwiceInTheJdkAndByItsLastIdAtAServer() {
        Job twice = in(FAR, "late");
        queue.addAll(List.of(twice, twice));
        assertEquals(2, queue.size());
        assertTrue(queue.remove(twice));
        assertEquals(!isRemote(), queue.remove(twice));
        assertEquals(isRemote() ? 1 : 0, queue.size());
    }

    @Test
    public void allElementsAreShownInTheJdkAndNoneButTheHeadByAServer() {
        Job late = in(FAR, "late");
        queue.add(late);
        List<Runnable> views = List.of(() -> assertEquals(late, queue.iterator().next()),
            () -> assertEquals(1, queue.toArray().length), () -> assertEquals(1, queue.toArray(new Job[0]).length),
            () -> assertEquals(1, queue.toArray(Job[]::new).length), () -> assertEquals(1, queue.stream().count()),
            () -> assertEquals(1, queue.parallelStream().count()), () -> assertNotNull(queue.spliterator()),
            () -> queue.forEach(it -> assertEquals(late, it)), () -> assertTrue(queue.contains(late)),
            () -> assertTrue(queue.containsAll(List.of(late))), () -> assertFalse(queue.retainAll(List.of(late))),
            () -> assertFalse(queue.removeIf(it -> it != late)));
        for (Runnable view : views) {
            if (isRemote()) {
                String why = assertThrows(UnsupportedOperationException.class, view::run).getMessage();
                assertTrue(why, why.contains(" "));
            } else {
                view.run();
            }
        }
        assertEquals(1, queue.size());
    }
}

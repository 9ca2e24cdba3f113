package rbbroker.client;

import static java.util.concurrent.TimeUnit.MILLISECONDS;
import static java.util.concurrent.TimeUnit.SECONDS;

import java.util.ArrayList;
import java.util.List;
import java.util.Queue;
import java.util.concurrent.Callable;
import java.util.concurrent.ConcurrentLinkedQueue;
import java.util.concurrent.ThreadLocalRandom;
import java.util.stream.Stream;
import org.junit.Test;

/** Queues that several threads use: waits, interrupts, and that each element is given once. */
public class SharedQueueTest extends EveryQueueTest {
    private static final String END = "end";

    private final Queue<Job> got = new ConcurrentLinkedQueue<>();

    // Waits.

    @Test
    public void aThreadThatWaitsGetsWhatExpiresFirst() throws Exception {
        for (Callable<Job> wait : List.<Callable<Job>>of(queue::take, () -> queue.poll(60, SECONDS),
                () -> queue.poll(Long.MAX_VALUE, SECONDS))) {
            queue.add(in(1_000, "expires"));
            assertEquals("expires", startAndWait(wait).get(30, SECONDS));
            Work<String> taken = startAndWait(wait);
            queue.add(due("offered"));
            assertEquals("offered", taken.get(30, SECONDS));
            queue.add(in(FAR, "late"));
            taken = startAndWait(wait);
            queue.add(in(50, "earlier"));
            assertEquals("earlier", taken.get(30, SECONDS));
            assertEquals(1, queue.size());
            queue.clear();
        }
    }

    private Work<String> startAndWait(Callable<Job> wait) throws InterruptedException {
        Work<String> work = start(() -> payload(wait.call()));
        Thread.sleep(300);
        assertFalse(work.isDone());
        return work;
    }

    @Test
    public void eachWaitingThreadGetsAnElementAndNoOfferWaitsForIt() throws Exception {
        List<Work<String>> taken = Stream.generate(() -> start(this::take)).limit(6).toList();
        Thread.sleep(300);
        assertTrue(taken.stream().noneMatch(Work::isDone));
        long begun = System.nanoTime();
        numbers(6).forEach(it -> queue.add(in(4_000, it)));
        assertTrue(System.nanoTime() - begun < SECONDS.toNanos(3));
        assertEquals(numbers(6), allOf(taken, 60).stream().sorted().toList());
    }

    // Interrupts.

    @Test
    public void anInterruptEndsAWait() throws Exception {
        assertInterruptible(queue::take);
        assertInterruptible(() -> queue.poll(FAR, MILLISECONDS));
        queue.add(in(FAR, "late"));
        assertInterruptible(queue::take);
        queue.add(due("a"));
        assertEquals("a", take());
        assertEquals(1, queue.size());
    }

    @Test
    public void anInterruptedThreadTakesNothing() throws Exception {
        queue.add(due("a"));
        for (Callable<Job> wait : List.<Callable<Job>>of(queue::take, () -> queue.poll(1, SECONDS))) {
            Thread.currentThread().interrupt();
            assertThrows(InterruptedException.class, wait::call);
            assertFalse(Thread.currentThread().isInterrupted());
        }
        assertEquals(1, queue.size());
        assertEquals("a", take());
    }

    @Test
    public void whatDoesNotWaitMindsNoInterrupt() throws Exception {
        Thread.currentThread().interrupt();
        new Steps(queue, this::settle)
            .play("add a 0, add late 600000, size = 2, peek = a, poll = a, poll = null, remove late, clear");
        assertTrue(Thread.interrupted());
    }

    @Test
    public void noElementIsLostByInterrupts() throws Exception {
        Callable<Job> polls = () -> queue.poll(5, MILLISECONDS);
        List<Work<Void>> takers = startTaking(List.of(polls, queue::take, polls, queue::take));
        for (String it : numbers(400)) {
            queue.add(in(random(30), it));
            takers.get(random(takers.size())).thread.interrupt();
            Thread.sleep(1);
        }
        assertGivenOnce(400, takers);
    }

    // Many threads.

    @Test
    public void eachElementIsGivenToOneThread() throws Exception {
        List<Work<Void>> takers = startTaking(
            List.of(queue::take, this::drainOne, queue::poll, () -> queue.poll(7, MILLISECONDS)));
        List<Work<Void>> producing = new ArrayList<>();
        for (int it = 0; it < 3; it++) {
            List<String> payloads = numbers(1_500).subList(500 * it, 500 * it + 500);
            producing.add(start(() -> {
                payloads.forEach(payload -> queue.add(in(random(20), payload)));
                return null;
            }));
        }
        allOf(producing, 60);
        assertGivenOnce(1_500, takers);
    }

    private static int random(int bound) {
        return ThreadLocalRandom.current().nextInt(bound);
    }

    private Job drainOne() {
        List<Job> jobs = new ArrayList<>();
        queue.drainTo(jobs, 1);
        return jobs.isEmpty() ? null : jobs.get(0);
    }

    /** Has threads take elements, each in one of these ways. */
    private List<Work<Void>> startTaking(List<Callable<Job>> ways) {
        return ways.stream().map(way -> start(() -> takeUntilEnd(way))).toList();
    }

    /** Takes elements until one is an end, in spite of interrupts. Leaves the ends of others alone. */
    private Void takeUntilEnd(Callable<Job> way) throws Exception {
        while (true) {
            try {
                Job job = way.call();
                String payload = payload(job);
                if (END.equals(payload)) {
                    return null;
                }
                if (payload == null) {
                    Thread.sleep(1);
                } else {
                    got.add(job);
                }
            } catch (InterruptedException interrupt) {
                continue;
            }
        }
    }

    /** Ends the threads. Expects that together they were given each of this many elements once, and no other. */
    private void assertGivenOnce(int count, List<Work<Void>> takers) throws Exception {
        takers.forEach(it -> queue.add(in(300, END)));
        allOf(takers, 60);
        assertEquals(numbers(count), got.stream().map(Job::payload).sorted().toList());
        assertTrue(got.stream().allMatch(it -> it.attempt() == 1));
        assertTrue(queue.isEmpty());
    }
}

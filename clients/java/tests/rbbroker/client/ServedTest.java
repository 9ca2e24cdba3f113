package rbbroker.client;

import static java.util.concurrent.TimeUnit.MILLISECONDS;
import static java.util.concurrent.TimeUnit.NANOSECONDS;
import static java.util.concurrent.TimeUnit.SECONDS;

import java.time.Duration;
import java.util.ArrayList;
import java.util.Collections;
import java.util.List;
import java.util.stream.IntStream;
import java.util.stream.Stream;
import org.junit.Test;
import rbbroker.client.RefusedException.Reason;

/**
 * What a queue at a server has beyond the JDK's: jobs that are held, sessions that end, servers that follow each other.
 */
public class ServedTest extends QueueTest {
    private static final Object[] POLICY = {"--delay", 1_000_000, "--attempts", 3};

    private Server server;
    private boolean isToEnd;

    /** Starts a server that ends in good order when its queues, of which this gives one, are closed. */
    private RemoteDelayQueue serve(int workers, int sessions, Object... more) throws Exception {
        Object[] options = {"--workers", workers, "--sessions", sessions, "--history", path("history")};
        server = opened(Server.start(Stream.of(options, POLICY, more).flatMap(Stream::of).toArray()));
        isToEnd = true;
        opened(() -> assertEnds(0));
        return byCall();
    }

    /** Starts another server at the port of the one that has ended. */
    private void serveNext(Object... options) throws Exception {
        isToEnd = false;
        server = opened(Server.startAt(server.port(), options));
    }

    /** Expects that the server ends in good order, with this many jobs lost, unless that was seen before. */
    private void assertEnds(int lost) throws Exception {
        if (isToEnd) {
            isToEnd = false;
            server.assertEnds(lost, path("history"), POLICY);
        }
    }

    private RemoteDelayQueue.Builder builder() {
        return untimed(new RemoteDelayQueue.Builder(server.port(), Acknowledge.BY_CALL));
    }

    private RemoteDelayQueue byCall() {
        return opened(builder().build());
    }

    private RemoteDelayQueue onTake() {
        return opened(new RemoteDelayQueue.Builder(server.port(), Acknowledge.ON_TAKE).build());
    }

    /** Has threads take a job each, and do it. */
    private static List<Work<String>> startTaking(RemoteDelayQueue queue, int threads) {
        return IntStream.range(0, threads).mapToObj(it -> start(() -> {
            Job job = queue.take();
            job.done();
            return job.payload();
        })).toList();
    }

    /** Offers jobs in a session before. */
    private void offerBefore(int times) {
        try (RemoteDelayQueue queue = builder().build()) {
            queue.addAll(Collections.nCopies(times, due("a")));
        }
    }

    // Jobs.

    @Test
    public void rows() throws Exception {
        for (String row : Steps.rows("served.txt")) {
            String[] columns = row.split(" \\| ");
            serve(1, 30, "--calls", columns[0]);
            try (RemoteDelayQueue queue = builder().patience(Duration.ofSeconds(1)).build()) {
                new Steps(queue, job -> { }).play(columns[2]);
            }
            assertEnds(Integer.parseInt(columns[1]));
        }
    }

    @Test
    public void aJobThatWasAcknowledgedWhenItWasTakenIsGoneForEver() throws Exception {
        serve(2, 2);
        try (RemoteDelayQueue queue = onTake()) {
            queue.offer(due("a"));
            Job job = queue.take();
            job.done();
            assertRefused(Reason.NOT_HELD, job::fail);
            queue.addAll(List.of(due("b"), due("c")));
            assertEquals(2, queue.drainTo(new ArrayList<>()));
        }
        assertNull(byCall().poll(20, MILLISECONDS));
    }

    @Test
    public void aJobThatIsHeldComesBackWhenTheQueueIsClosed() throws Exception {
        serve(2, 2);
        Job job;
        try (RemoteDelayQueue queue = byCall()) {
            queue.offer(due("a"));
            job = queue.take();
        }
        assertFalse(assertThrows(ServerLostException.class, job::done).isInDoubt());
        Job again = byCall().take();
        assertEquals(2, again.attempt());
        assertEquals("a", again.payload());
        assertFalse(job.equals(again));
        again.done();
    }

    @Test
    public void aSessionHolds64Jobs() throws Exception {
        serve(2, 2);
        offerBefore(70);
        RemoteDelayQueue queue = opened(builder().waiters(1).build());
        List<Job> jobs = new ArrayList<>();
        assertEquals(60, queue.drainTo(jobs, 60));
        assertEquals(4, queue.drainTo(jobs));
        jobs.get(0).done();
        jobs.set(0, queue.take());
        assertEquals(5, queue.size());
        jobs.forEach(Job::done);
        jobs.clear();
        assertEquals(5, queue.drainTo(jobs));
        jobs.forEach(Job::done);
    }

    @Test
    public void moreThan64HeldJobsTakeAnotherSession() throws Exception {
        serve(2, 3);
        offerBefore(129);
        // A busy machine may take long to serve the other one.
        RemoteDelayQueue queue = opened(builder().waiters(1).longestWait(Duration.ofSeconds(10)).build());
        List<Job> jobs = new ArrayList<>();
        while (jobs.size() < 128) {
            jobs.add(queue.take());
        }
        assertRefused(Reason.TOO_MANY_HELD, queue::take);
        assertRefused(Reason.TOO_MANY_HELD, queue::poll);
        assertRefused(Reason.TOO_MANY_HELD, () -> queue.poll(1, SECONDS));
        assertRefused(Reason.TOO_MANY_HELD, () -> queue.drainTo(new ArrayList<>()));
        assertEquals(1, queue.size());
        jobs.forEach(Job::done);
        queue.take().done();
    }

    @Test
    public void theDelayOfAnothersJobIsThatOfTheServersClock() throws Exception {
        RemoteDelayQueue queue = serve(2, 2);
        Thread.sleep(500);
        Job offered = in(10_000, "a");
        byCall().offer(offered);
        assertTrue(queue.peek().getDelay(NANOSECONDS) > SECONDS.toNanos(10)); // all of its expiry
        queue.offer(in(20_000, "b"));
        long known = offered.getDelay(NANOSECONDS);
        long told = queue.peek().getDelay(NANOSECONDS);
        assertTrue(known + " and " + told, Math.abs(known - told) < MILLISECONDS.toNanos(200));
    }

    @Test
    public void aJobThatIsNeverDoneKeepsNoOthers() throws Exception {
        RemoteDelayQueue queue = serve(4, 50);
        queue.offer(due("hangs"));
        Job hanging = queue.take();
        List<Work<String>> taken = startTaking(queue, 60);
        for (int it = 0; it < 60; it++) {
            queue.offer(due("quick"));
            Thread.sleep(20);
        }
        assertEquals(Collections.nCopies(60, "quick"), allOf(taken, 30));
        assertEquals(1, hanging.attempt());
        hanging.done();
    }

    // Sessions.

    @Test
    public void aSessionIsKeptWhileItHoldsAJobAndAnIdleQueueHoldsNoServerUp() throws Exception {
        RemoteDelayQueue queue = serve(1, 2);
        queue.offer(due("a"));
        Job job = queue.take();
        Work<Void> ending = start(() -> {
            assertEnds(0);
            return null;
        });
        Thread.sleep(600);
        assertFalse(ending.isDone());
        assertEquals(0, queue.size());
        job.done();
        ending.get(30, SECONDS);
    }

    @Test
    public void aThreadThatWaitsGoesFromServerToServer() throws Exception {
        RemoteDelayQueue queue = serve(2, 6);
        List<Work<String>> taken = startTaking(queue, 1);
        Thread.sleep(300);
        assertEnds(0);
        serveNext("--workers", 2, "--sessions", 50, "--from", path("history"));
        queue.offer(due("a"));
        assertEquals("a", taken.get(0).get(30, SECONDS));
    }

    @Test
    public void moreThreadsThanMayWait() throws Exception {
        serve(3, 3);
        RemoteDelayQueue queue = opened(builder().waiters(2).build());
        List<Work<String>> taken = startTaking(queue, 8);
        assertNull(start(() -> queue.poll(300, MILLISECONDS)).get(30, SECONDS));
        queue.addAll(Collections.nCopies(8, due("a")));
        assertEquals(Collections.nCopies(8, "a"), allOf(taken, 30));
    }

    @Test
    public void noOfferWaitsForTheThreadThatWaits() throws Exception {
        serve(2, 2);
        RemoteDelayQueue queue = opened(builder().waiters(1).longestWait(Duration.ofSeconds(20)).build());
        Work<Job> taken = start(queue::take);
        Thread.sleep(300);
        long begun = System.nanoTime();
        queue.offer(in(60_000, "late"));
        assertEquals(1, queue.size());
        assertTrue(System.nanoTime() - begun < SECONDS.toNanos(5));
        queue.offer(due("a"));
        taken.get(10, SECONDS).done();
    }

    @Test
    public void aServerWithFewerWorkersThanThreads() throws Exception {
        RemoteDelayQueue queue = serve(1, 20);
        List<Work<String>> taken = startTaking(queue, 3);
        Thread.sleep(500);
        queue.addAll(List.of(due("a"), due("b"), due("c")));
        assertEquals(List.of("a", "b", "c"), allOf(taken, 15).stream().sorted().toList());
    }

    @Test
    public void aJobIsAnsweredWhileTheThreadThatTookItWaits() throws Exception {
        serve(1, 50);
        RemoteDelayQueue queue = opened(builder().longestWait(Duration.ofMillis(100)).build());
        queue.offer(due("a"));
        Job job = queue.take();
        Work<Job> taken = start(() -> queue.poll(3, SECONDS));
        Thread.sleep(200);
        long begun = System.nanoTime();
        job.done();
        assertTrue(System.nanoTime() - begun < SECONDS.toNanos(2));
        assertNull(taken.get(30, SECONDS));
    }

    @Test
    public void aQueueThatIsClosedWhileAThreadWaits() throws Exception {
        RemoteDelayQueue queue = serve(2, 2);
        Work<Throwable> wait = start(() -> assertThrows(Throwable.class, queue::take));
        Thread.sleep(300);
        queue.close();
        assertSame(IllegalStateException.class, wait.get(10, SECONDS).getClass());
        assertThrows(IllegalStateException.class, () -> queue.offer(due("a")));
        assertThrows(IllegalStateException.class, queue::size);
    }

    // Servers.

    @Test
    public void whatOneServerLeftTheNextOneGives() throws Exception {
        RemoteDelayQueue queue = serve(2, 50, "--calls", 3, "--greeting", "RUN 1 lost 0 at 0");
        queue.addAll(List.of(due("a"), in(1_000, "b")));
        queue.take().done();
        Work<Boolean> offered = start(() -> queue.offer(in(8_000, "c")));
        Thread.sleep(200);
        assertFalse(offered.isDone());
        assertEnds(0);
        serveNext("--workers", 2, "--sessions", 50, "--from", path("history"), "--greeting", "RUN 2 lost 0 at 5");
        assertTrue(offered.get(30, SECONDS));
        for (String payload : List.of("b", "c")) {
            Job job = queue.take();
            assertEquals(payload, job.payload());
            job.done();
        }
        queue.close();
        assertTrue(server.end().get(1).contains("\"given\":2,\"left\":0,\"offered\":1,\"opening\":1"));
    }

    @Test
    public void aServerThatIsKilledWhileAThreadHoldsAJobAndOneWaits() throws Exception {
        RemoteDelayQueue queue = serve(2, 2);
        queue.offer(due("a"));
        Job job = queue.take();
        List<Work<String>> taken = startTaking(queue, 1);
        Thread.sleep(300);
        server.kill();
        ServerLostException fault = assertThrows(ServerLostException.class, job::done);
        assertFalse(fault.getMessage(), fault.isInDoubt());
        serveNext("--sessions", 4);
        queue.offer(due("c"));
        assertEquals(List.of("c"), allOf(taken, 30));
    }

    // Runs that are lost or go on.

    @Test
    public void aJobOfALostRunIsNotTakenForAnothersJob() throws Exception {
        RemoteDelayQueue queue = serve(2, 50);
        RemoteDelayQueue stranger = byCall();
        Job job = in(600_000, "mine");
        queue.offer(job);
        assertEquals(1, queue.size());
        server.kill();
        serveNext("--sessions", 50);
        Job other = in(600_000, "a-strangers");
        stranger.offer(other);
        assertEquals(job.id(), other.id());
        assertFalse(queue.remove(job));
        assertEquals("a-strangers", queue.peek().payload());
        assertTrue(stranger.remove(other));
        assertEquals(0, queue.size());
    }

    @Test
    public void aJobIsRemovedThoughItsSessionHasEndedAlsoByAnotherQueue() throws Exception {
        serve(2, 50, "--greeting", "RUN 1 lost 0 at 0", "--silent", 400_000_000);
        RemoteDelayQueue queue = onTake();
        Job job = in(600_000, "a");
        Job another = in(600_000, "b");
        queue.addAll(List.of(job, another));
        Thread.sleep(1_500);
        assertTrue(byCall().remove(another));
        assertTrue(queue.remove(job));
        assertFalse(queue.remove(job));
        assertEquals(0, queue.size());
    }

    @Test
    public void aJobIsRemovedThoughItsServerWasReplaced() throws Exception {
        serve(2, 5, "--greeting", "RUN 1 lost 0 at 0");
        RemoteDelayQueue queue = onTake();
        Job job = in(600_000, "a");
        queue.offer(job);
        server.end();
        serveNext("--sessions", 50, "--from", path("history"), "--greeting", "RUN 2 lost 0 at 5");
        assertTrue(queue.remove(job));
    }

    @Test
    public void aJobThatWasShownIsRemovedWhileOthersWait() throws Exception {
        serve(4, 50);
        RemoteDelayQueue other = byCall();
        RemoteDelayQueue queue = opened(builder().waiters(2).build());
        other.offer(in(600_000, "a"));
        start(() -> queue.poll(3, SECONDS));
        start(() -> queue.poll(3, SECONDS));
        Thread.sleep(300);
        for (int it = 0; it < 20; it++) {
            assertTrue(queue.remove(queue.peek()));
            other.offer(in(600_000, "a"));
        }
    }
}

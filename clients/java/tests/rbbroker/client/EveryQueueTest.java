package rbbroker.client;

import java.util.ArrayList;
import java.util.Collection;
import java.util.List;
import java.util.concurrent.BlockingQueue;
import java.util.concurrent.DelayQueue;
import java.util.stream.IntStream;
import org.junit.Before;
import org.junit.runner.RunWith;
import org.junit.runners.Parameterized;
import org.junit.runners.Parameterized.Parameter;
import org.junit.runners.Parameterized.Parameters;

/**
 * Tests of what the pages of {@code DelayQueue} and {@code BlockingQueue} say, each over the JDK's own queue and over
 * queues at a server, whose history is checked afterwards, and nothing was lost. Where queues must differ, the name of
 * the test says so.
 */
@RunWith(Parameterized.class)
public abstract class EveryQueueTest extends QueueTest {
    /** More than any test waits for an element that is not to come. */
    static final long FAR = 600_000;

    /** The JDK's own, and those at a server whose jobs are gone when they are taken, or held until they are done. */
    public enum Kind { JDK, ON_TAKE, BY_CALL }

    @Parameter
    public Kind kind;

    BlockingQueue<Job> queue;

    @Parameters(name = "{0}")
    public static Kind[] kinds() {
        return Kind.values();
    }

    @Before
    public final void makeQueue() throws Exception {
        queue = isRemote() ? newRemoteQueue() : new DelayQueue<>();
        // A queue at a server learns of its clock from an offer. Before that an overdue element has no age there.
        queue.offer(due("first"));
        assertEquals("first", take());
    }

    private RemoteDelayQueue newRemoteQueue() throws Exception {
        Server server = opened(Server.start("--workers", 8, "--sessions", 60, "--calls", 200_000, "--history",
            path("history")));
        opened(() -> server.assertEnds(0, path("history")));
        return opened(new RemoteDelayQueue.Builder(server.port(), Acknowledge.valueOf(kind.name())).build());
    }

    final boolean isRemote() {
        return kind != Kind.JDK;
    }

    /** What a caller of this queue does with each element that it took. */
    final void settle(Job job) {
        if (job != null && kind == Kind.BY_CALL) {
            job.done();
        }
    }

    /** Takes an element. Returns its payload. */
    final String take() throws InterruptedException {
        return payload(queue.take());
    }

    /** Takes this many elements. Returns their payloads, in the order in which they came. */
    final List<String> takeAll(int count) throws InterruptedException {
        List<String> payloads = new ArrayList<>();
        while (payloads.size() < count) {
            payloads.add(take());
        }
        return payloads;
    }

    /** The payload of an element that was taken, or null if there is none. */
    final String payload(Job job) {
        settle(job);
        return job == null ? null : job.payload();
    }

    final List<String> payloads(Collection<Job> jobs) {
        return jobs.stream().map(this::payload).toList();
    }

    static List<String> numbers(int count) {
        return IntStream.range(0, count).mapToObj(it -> String.format("%04d", it)).toList();
    }
}

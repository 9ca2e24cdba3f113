package rbbroker.client;

import static java.util.concurrent.TimeUnit.MILLISECONDS;
import static java.util.concurrent.TimeUnit.MINUTES;
import static java.util.concurrent.TimeUnit.SECONDS;

import java.nio.file.Path;
import java.time.Duration;
import java.util.ArrayDeque;
import java.util.ArrayList;
import java.util.Deque;
import java.util.List;
import java.util.concurrent.Callable;
import java.util.concurrent.FutureTask;
import org.junit.After;
import org.junit.Assert;
import org.junit.Rule;
import org.junit.function.ThrowingRunnable;
import org.junit.rules.TemporaryFolder;
import org.junit.rules.Timeout;

/** What tests share: a limit of their time, a folder, what is closed at their end, threads and jobs. */
public abstract class QueueTest extends Assert {
    @Rule
    public final Timeout timeout = new Timeout(3, MINUTES);
    @Rule
    public final TemporaryFolder folder = new TemporaryFolder();

    private final Deque<AutoCloseable> open = new ArrayDeque<>();

    /** Closes what was opened, the last first. */
    @After
    public final void closeAll() throws Exception {
        while (!open.isEmpty()) {
            open.pop().close();
        }
    }

    /** This is closed at the end of the test. */
    final <T extends AutoCloseable> T opened(T it) {
        open.push(it);
        return it;
    }

    final Path path(String name) {
        return folder.getRoot().toPath().resolve(name);
    }

    static Job due(String payload) {
        return in(0, payload);
    }

    static Job in(long millis, String payload) {
        return new Job(payload, millis, MILLISECONDS);
    }

    /** Of a queue that asks for no server's clock, however long a busy machine takes to offer a job. */
    static RemoteDelayQueue.Builder untimed(RemoteDelayQueue.Builder builder) {
        return builder.overdue(Duration.ofHours(1));
    }

    static void assertRefused(RefusedException.Reason reason, ThrowingRunnable call) {
        assertEquals(reason, assertThrows(RefusedException.class, call).reason());
    }

    /** What a thread of its own does. */
    static final class Work<T> extends FutureTask<T> {
        final Thread thread = new Thread(this);

        private Work(Callable<T> work) {
            super(work);
            thread.setDaemon(true);
            thread.start();
        }
    }

    static <T> Work<T> start(Callable<T> work) {
        return new Work<>(work);
    }

    /** Interrupts a thread that waits, which is thrown out without its mark. */
    static void assertInterruptible(Callable<Job> wait) throws Exception {
        Work<Boolean> work = start(() -> {
            assertThrows(InterruptedException.class, wait::call);
            return Thread.currentThread().isInterrupted();
        });
        Thread.sleep(200);
        assertFalse(work.isDone());
        work.thread.interrupt();
        assertFalse(work.get(5, SECONDS));
    }

    /** The results of all of this, each of which comes within these seconds. */
    static <T> List<T> allOf(List<Work<T>> all, int seconds) throws Exception {
        List<T> results = new ArrayList<>();
        for (Work<T> it : all) {
            results.add(it.get(seconds, SECONDS));
        }
        return results;
    }
}

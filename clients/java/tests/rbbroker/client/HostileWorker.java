package rbbroker.client;

import java.io.FileOutputStream;
import java.io.IOException;
import java.nio.charset.StandardCharsets;
import java.time.Duration;
import java.util.List;
import java.util.stream.Stream;

/**
 * A worker in a process of its own, which is killed at any moment. The words are a port and a file, to which it adds a
 * line for all that becomes of a job, with one write: {@code took}, and then {@code done}, {@code failed},
 * {@code back}, {@code doubt} or {@code gone}. It ends in good order when its standard input does.
 */
public final class HostileWorker {
    private static final int THREADS = 2;

    private final RemoteDelayQueue queue;
    private final FileOutputStream log;

    private HostileWorker(int port, String log) throws IOException {
        queue = new RemoteDelayQueue.Builder(port, Acknowledge.BY_CALL).waiters(THREADS)
            .longestWait(Duration.ofMillis(100)).patience(Duration.ofMinutes(10))
            .build();
        this.log = new FileOutputStream(log, true);
    }

    /**
     * Works until standard input ends.
     *
     * @param words a port and the path of a file
     * @throws Exception if anything is not as it must be
     */
    public static void main(String[] words) throws Exception {
        HostileWorker worker = new HostileWorker(Integer.parseInt(words[0]), words[1]);
        List<Thread> threads = Stream.generate(() -> new Thread(worker::work)).limit(THREADS).toList();
        threads.forEach(Thread::start);
        while (System.in.read() >= 0) {
            continue;
        }
        threads.forEach(Thread::interrupt);
        for (Thread it : threads) {
            it.join();
        }
        worker.queue.close();
    }

    private void work() {
        while (!Thread.currentThread().isInterrupted()) {
            try {
                Job job = queue.take();
                note("took", job);
                note(answer(job), job);
            } catch (InterruptedException interrupt) {
                return;
            }
        }
    }

    /** Does a job, or fails each tenth in its first attempt. Returns what became of that. */
    private static String answer(Job job) {
        try {
            if (job.attempt() == 1 && Integer.parseInt(job.payload()) % 10 == 0) {
                job.fail();
                return "failed";
            }
            job.done();
            return "done";
        } catch (ServerLostException fault) {
            return fault.isInDoubt() ? "doubt" : "back";
        } catch (RefusedException refusal) {
            if (refusal.reason() != RefusedException.Reason.FULL) {
                throw refusal;
            }
            return "gone";
        }
    }

    private void note(String what, Job job) {
        try {
            log.write((what + " " + job.payload() + " " + job.attempt() + "\n").getBytes(StandardCharsets.US_ASCII));
        } catch (IOException fault) {
            throw new IllegalStateException(fault);
        }
    }
}

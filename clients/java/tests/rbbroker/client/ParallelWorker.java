package rbbroker.client;

import java.time.Duration;
import java.util.List;
import java.util.concurrent.CountDownLatch;
import java.util.concurrent.ThreadLocalRandom;
import java.util.stream.Stream;

/**
 * A worker in a process of its own, whose threads take a job each. The words are the servers' addresses and how many
 * threads it has. Each line of what it says is {@code runs}, {@code done} or {@code fault}, with the job's payload and
 * attempt. Once its standard input ends the jobs in hand end, and each later one soon.
 */
public final class ParallelWorker {
    private static final CountDownLatch MAY_END = new CountDownLatch(1);

    private final RemoteDelayQueue queue;

    private ParallelWorker(String addresses) {
        queue = new RemoteDelayQueue.Builder(addresses, Acknowledge.BY_CALL).waiters(3)
            .patience(Duration.ofMinutes(1)).build();
    }

    /**
     * Works until it is killed.
     *
     * @param words the addresses, and a number of threads
     * @throws Exception if standard input can't be read
     */
    public static void main(String[] words) throws Exception {
        var worker = new ParallelWorker(words[0]);
        List<Thread> threads =
            Stream.generate(() -> new Thread(worker::work)).limit(Integer.parseInt(words[1])).toList();
        threads.forEach(Thread::start);
        System.in.readAllBytes();
        MAY_END.countDown();
        for (Thread it : threads) {
            it.join();
        }
    }

    private void work() {
        try {
            while (true) {
                Job job = queue.take();
                say("runs", job);
                MAY_END.await();
                Thread.sleep(ThreadLocalRandom.current().nextInt(1_000));
                say(isDone(job) ? "done" : "fault", job);
            }
        } catch (InterruptedException never) {
            throw new IllegalStateException(never);
        }
    }

    private static boolean isDone(Job job) {
        try {
            job.done();
            return true;
        } catch (BrokerException fault) {
            return false;
        }
    }

    private static void say(String what, Job job) {
        System.out.println(what + " " + job.payload() + " " + job.attempt());
    }
}

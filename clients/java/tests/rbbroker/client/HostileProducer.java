package rbbroker.client;

import static java.util.concurrent.TimeUnit.MILLISECONDS;

import java.time.Duration;
import java.util.concurrent.ThreadLocalRandom;

/** A producer in a process of its own. It prints a line for each job: whether its offer was answered or is in doubt. */
public final class HostileProducer {
    private HostileProducer() { }

    /**
     * Offers jobs, at about 400 a second. One that is in doubt is not offered again.
     *
     * @param words a port, and how many jobs
     * @throws InterruptedException never, as nobody interrupts this thread
     */
    public static void main(String[] words) throws InterruptedException {
        try (RemoteDelayQueue queue = new RemoteDelayQueue.Builder(Integer.parseInt(words[0]), Acknowledge.BY_CALL)
                .waiters(1).patience(Duration.ofMinutes(10)).build()) {
            for (int number = 0; number < Integer.parseInt(words[1]); number++) {
                int delay = ThreadLocalRandom.current().nextInt(-5, 500);
                String what = "offered ";
                try {
                    queue.offer(new Job(String.valueOf(number), delay, MILLISECONDS));
                } catch (ServerLostException fault) {
                    if (!fault.isInDoubt()) {
                        throw fault;
                    }
                    what = "doubted ";
                }
                System.out.println(what + number);
                Thread.sleep(number % 2 * 5);
            }
        }
    }
}

package rbbroker.client;

import static java.util.concurrent.TimeUnit.MILLISECONDS;
import static java.util.concurrent.TimeUnit.NANOSECONDS;
import static java.util.concurrent.TimeUnit.SECONDS;

import java.io.IOException;
import java.net.ProtocolException;
import java.nio.file.Files;
import java.nio.file.Path;
import java.util.ArrayList;
import java.util.HashMap;
import java.util.List;
import java.util.Map;
import java.util.NoSuchElementException;
import java.util.concurrent.BlockingQueue;
import java.util.function.Consumer;
import java.util.stream.Collectors;
import org.junit.Assert;

/**
 * The calls of a queue that a row names, one after the other, with a comma between them: each with its words, and its
 * result unless that is {@code true}. Delays and timeouts are milliseconds; delays count from the row's beginning, or
 * from the last {@code sleep}. No job may be given before its delay has passed, and no poll end before its timeout.
 */
final class Steps {
    /** How many milliseconds a step may last. */
    private static final long LONGEST = 30_000;

    private final BlockingQueue<Job> queue;
    private final Consumer<Job> settle;
    private final Map<String, Job> jobs = new HashMap<>();
    private final Map<String, Long> deadlines = new HashMap<>();
    private long begun = System.nanoTime();
    /** The job that was shown or taken last. */
    private Job last;

    /** Steps of this queue, of which each job that it gives is settled so. */
    Steps(BlockingQueue<Job> queue, Consumer<Job> settle) {
        this.queue = queue;
        this.settle = settle;
    }

    /** The rows of a file beside this one. */
    static List<String> rows(String file) throws IOException {
        return Files.readAllLines(Path.of("tests", "rbbroker", "client", file)).stream()
            .filter(it -> !it.isEmpty() && !it.startsWith("#")).toList();
    }

    void play(String row) throws Exception {
        for (String step : row.split(", ")) {
            String[] sides = step.split(" = ");
            String[] words = sides[0].split(" ");
            long asked = System.nanoTime();
            String result = String.valueOf(result(words));
            long millis = NANOSECONDS.toMillis(System.nanoTime() - asked);
            String where = step + " in " + row + ", after " + millis + " ms";
            Assert.assertEquals(where, sides.length > 1 ? sides[1] : "true", result);
            Assert.assertTrue(where, millis < LONGEST);
            if (words[0].equals("poll") && words.length > 1 && result.equals("null")) {
                Assert.assertTrue(where, millis >= Long.parseLong(words[1]));
            }
        }
    }

    private Object result(String[] words) throws InterruptedException {
        boolean isAlone = words.length == 1;
        try {
            return switch (words[0]) {
                case "offer" -> queue.offer(made(words));
                case "offer-again" -> queue.offer(last);
                case "offer-timed" -> queue.offer(made(words), 0, MILLISECONDS);
                case "add" -> queue.add(made(words));
                case "put" -> did(() -> queue.put(made(words)));
                case "id" -> (isAlone ? last : jobs.get(words[1])).id();
                case "poll" -> taken(isAlone ? queue.poll() : queue.poll(Long.parseLong(words[1]), MILLISECONDS));
                case "take" -> taken(queue.take());
                case "drain" -> drained(isAlone ? Integer.MAX_VALUE : Integer.parseInt(words[1]));
                case "done" -> did(isAlone ? last::done : named(words[1])::done);
                case "fail" -> last.fail();
                case "attempt" -> last.attempt();
                case "peek" -> shown(queue.peek());
                case "element" -> shown(queue.element());
                case "remove" -> isAlone ? taken(queue.remove()) : queue.remove(named(words[1]));
                case "remove-text" -> queue.remove((Object) words[1]);
                case "size" -> queue.size();
                case "empty" -> queue.isEmpty();
                case "capacity" -> queue.remainingCapacity();
                case "expires-after" -> last.getDelay(SECONDS) >= Long.parseLong(words[1]);
                case "clear" -> did(queue::clear);
                case "sleep" -> did(() -> sleep(Long.parseLong(words[1])));
                default -> throw new IllegalArgumentException(words[0]);
            };
        } catch (ServerLostException fault) {
            return fault.getCause() instanceof ProtocolException ? "wrong" : fault.isInDoubt() ? "in doubt" : "lost";
        } catch (RefusedException refusal) {
            return refusal.reason();
        } catch (NullPointerException | NoSuchElementException fault) {
            return fault.getClass().getSimpleName();
        }
    }

    /** A call that may wait, and gives nothing. */
    private interface Call {
        void make() throws InterruptedException;
    }

    private static boolean did(Call call) throws InterruptedException {
        call.make();
        return true;
    }

    private void sleep(long millis) throws InterruptedException {
        Thread.sleep(millis);
        begun = System.nanoTime();
    }

    /** A job of this name and delay. */
    private Job made(String[] words) {
        long deadline = begun + MILLISECONDS.toNanos(Long.parseLong(words[2]));
        Job job = words[1].equals("null") ? null : new Job(words[1], deadline);
        jobs.put(words[1], job);
        deadlines.put(words[1], deadline);
        return job;
    }

    private Job named(String name) {
        return switch (name) {
            case "null" -> null;
            case "peeked" -> last;
            default -> jobs.getOrDefault(name, QueueTest.due(name));
        };
    }

    private String taken(Job job) {
        Assert.assertTrue(job == null || System.nanoTime() >= deadlines.getOrDefault(job.payload(), Long.MIN_VALUE));
        settle.accept(job);
        return shown(job);
    }

    private String shown(Job job) {
        last = job;
        return job == null ? null : job.payload();
    }

    private String drained(int most) {
        List<Job> drained = new ArrayList<>();
        int count = queue.drainTo(drained, most);
        Assert.assertEquals(count, drained.size());
        return count == 0 ? "none" : drained.stream().map(this::taken).collect(Collectors.joining(" "));
    }
}

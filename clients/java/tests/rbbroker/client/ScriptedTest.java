package rbbroker.client;

import static java.util.concurrent.TimeUnit.HOURS;
import static java.util.concurrent.TimeUnit.MILLISECONDS;
import static java.util.concurrent.TimeUnit.NANOSECONDS;
import static java.util.concurrent.TimeUnit.SECONDS;

import java.lang.ref.WeakReference;
import java.time.Duration;
import java.util.List;
import java.util.function.IntFunction;
import org.junit.Test;
import org.junit.function.ThrowingRunnable;
import rbbroker.client.FakeServer.Script;
import rbbroker.client.FakeServer.Talk;

/** Servers that are lost, full, silent or wrong, as scripts of the protocol. */
public class ScriptedTest extends QueueTest {
    private static final Duration PATIENCE = Duration.ofSeconds(20);
    /** That of a queue that is to lose it. */
    private static final Duration SHORT = Duration.ofSeconds(1);

    /** To which is played now, and by whom. */
    private volatile RemoteDelayQueue queue;
    private volatile Thread caller;

    private interface Play {
        void with(RemoteDelayQueue queue) throws Exception;
    }

    private static IntFunction<RemoteDelayQueue.Builder> byCall(Duration patience) {
        return port -> untimed(new RemoteDelayQueue.Builder(port, Acknowledge.BY_CALL).patience(patience));
    }

    private static RemoteDelayQueue.Builder onTake(int port) {
        return new RemoteDelayQueue.Builder(port, Acknowledge.ON_TAKE);
    }

    /** Plays scripts to a queue, which is not closed before they are over. */
    private void play(Play play, Script... scripts) throws Exception {
        playTo(byCall(PATIENCE), play, scripts);
    }

    private void playTo(IntFunction<RemoteDelayQueue.Builder> settings, Play play, Script... scripts) throws Exception {
        caller = Thread.currentThread();
        try (FakeServer server = new FakeServer(scripts); RemoteDelayQueue it = settings.apply(server.port()).build()) {
            queue = it;
            play.with(it);
            server.finish();
        }
    }

    private static void assertLost(String why, ThrowingRunnable call) {
        ServerLostException fault = assertThrows(ServerLostException.class, call);
        assertFalse(fault.isInDoubt());
        assertTrue(fault.getMessage(), fault.getMessage().contains(why));
    }

    /** Has a thread close the queue, which waits for what goes on there, unless that has ended. */
    private void startClosing() throws InterruptedException {
        var closing = new Thread(queue::close);
        closing.start();
        while (closing.isAlive() && closing.getState() != Thread.State.TIMED_WAITING) {
            Thread.sleep(1);
        }
    }

    @Test
    public void dialogues() throws Exception {
        for (String row : Steps.rows("dialogues.txt")) {
            List<String> columns = List.of(row.split(" \\| "));
            Script[] sessions = columns.stream().skip(1).map(ScriptedTest::session).toArray(Script[]::new);
            Duration patience = row.matches(".*(lost|in doubt) \\|.* > silence") ? SHORT : PATIENCE;
            playTo(byCall(patience), it -> new Steps(it, job -> { }).play(columns.get(0)), sessions);
        }
    }

    /** The script of a session, as a column has it. */
    private static Script session(String column) {
        return talk -> {
            talk.greet();
            for (String exchange : column.split(", ")) {
                String[] words = exchange.split(" > ");
                talk.hear(words[0]);
                for (String reply : words[1].split(" / ")) {
                    answer(talk, reply);
                }
            }
        };
    }

    private static void answer(Talk talk, String reply) throws Exception {
        switch (reply) {
            case "end" -> { }
            case "reset" -> talk.reset();
            case "silence" -> talk.hearNothing();
            default -> talk.sayBytes(reply.endsWith("..") ? reply.substring(0, reply.length() - 2)
                : reply.translateEscapes() + "\n");
        }
    }

    @Test
    public void anOverdueJobIsPlacedAlsoIfItIsTheFirstOfItsSession() throws Exception {
        List<Job> jobs = List.of(in(-50_000, "a"), in(-40_000, "b")); // their delays count from here
        playTo(port -> new RemoteDelayQueue.Builder(port, Acknowledge.BY_CALL), it -> jobs.forEach(it::offer), talk -> {
            talk.greet().accept(7, HOURS.toNanos(1) - System.nanoTime()).hear("REMOVE 7").say("REMOVED yes");
            long first = Long.parseLong(talk.heard("OFFERAT ").split(" ")[0]);
            long second = Long.parseLong(talk.say("OFFERED 8 5").heard("OFFERAT ").split(" ")[0]);
            talk.say("OFFERED 9 6");
            assertEquals(10, NANOSECONDS.toSeconds(second - first + 500_000_000));
        });
    }

    @Test
    public void anOverdueJobThatSomebodyTookAtOnceIsNotPlaced() throws Exception {
        playTo(port -> new RemoteDelayQueue.Builder(port, Acknowledge.BY_CALL), it -> {
            Job job = in(-50_000, "a");
            it.offer(job);
            assertEquals(7, job.id());
        }, talk -> talk.greet().accept(7, HOURS.toNanos(1) - System.nanoTime()).hear("REMOVE 7").say("REMOVED no"));
    }

    @Test
    public void anOverdueJobIsOfferedOnceThoughItsRunIsFullBehindIt() throws Exception {
        playTo(port -> new RemoteDelayQueue.Builder(port, Acknowledge.BY_CALL), it -> {
            Job job = in(-50_000, "a");
            it.offer(job);
            assertEquals(7, job.id());
        }, talk -> talk.greet().accept(7, HOURS.toNanos(1) - System.nanoTime()).hear("REMOVE 7").say("ERR 6 full"));
    }

    @Test
    public void theClockOfAServiceGoesOnThroughItsRuns() throws Exception {
        long ahead = HOURS.toNanos(1) - System.nanoTime();
        playTo(port -> new RemoteDelayQueue.Builder(port, Acknowledge.BY_CALL), it -> {
            it.offer(in(600_000, "a")); // which is not overdue, however slow the machine is
            Thread.sleep(100);
            it.offer(in(-50_000, "b"));
        }, talk -> talk.greetOf(7, 2).accept(5, ahead), talk -> {
            long moment = Long.parseLong(talk.greetOf(8, 3).heard("OFFERAT ").split(" ")[0]);
            talk.say("OFFERED 6 5");
            assertEquals(50, NANOSECONDS.toSeconds(System.nanoTime() + ahead - moment));
        });
    }

    @Test
    public void aServerThatGreetsEndsItsSessionsItself() throws Exception {
        play(it -> {
            assertNull(it.peek());
            Thread.sleep(50);
            Job job = it.take();
            assertNull(it.poll(0, MILLISECONDS));
            job.done();
            Thread.sleep(50);
            assertEquals(0, it.size());
        }, talk -> talk.greetOf(7, 2).hear("PEEK").say("NONE").hear("POLLFOR ").say("ITEM 4 0 1 a").hear("POLLFOR ")
            .say("STOPPED").hear("DONE 4").say("DONE 4"),
            talk -> talk.greetOf(8, 2).hear("SIZE").say("SIZE 0"));
    }

    @Test
    public void whatARunDidNotAnswerThatAnotherOneContinuesIsOfferedThere() throws Exception {
        Script unheard = talk -> talk.greetOf(7, 2).hear("OFFER ");
        play(it -> assertTrue(it.offer(due("a"))), unheard, talk -> talk.greetOf(8, 2).accept(4, 0));
        play(it -> assertTrue(it.offer(due("a"))), unheard, talk -> talk.greetOf(7, 2),
            talk -> talk.greetOf(8, 2).accept(4, 0));
        for (long[] other : new long[][] {{8, 3}, {7, 2}}) {
            playTo(byCall(SHORT), it -> {
                ServerLostException fault = assertThrows(ServerLostException.class, () -> it.offer(due("a")));
                assertTrue(fault.isInDoubt());
            }, unheard, talk -> talk.greetOf(other[0], other[1]));
        }
    }

    @Test
    public void nothingIsLeftOfAClosedQueue() throws Exception {
        WeakReference<String> host = hostOfAClosedQueue();
        long deadline = System.nanoTime() + SECONDS.toNanos(10);
        while (host.get() != null && System.nanoTime() < deadline) {
            System.gc();
            Thread.sleep(50);
        }
        assertNull("a timer keeps it", host.get());
    }

    private static WeakReference<String> hostOfAClosedQueue() throws Exception {
        var host = new String("127.0.0.1".toCharArray());
        try (FakeServer server = new FakeServer(talk -> talk.greet().hear("PEEK").say("NONE").hearAll());
                RemoteDelayQueue it = byCall(PATIENCE).apply(server.port()).host(host).build()) {
            assertNull(it.peek());
        }
        return new WeakReference<>(host);
    }

    @Test
    public void portsAtWhichNoServerCanBe() {
        for (int port : new int[] {0, -1, 70_000}) {
            assertThrows(IllegalArgumentException.class, () -> onTake(port));
        }
    }

    @Test
    public void refusalsTellTheReply() {
        RefusedException.BY_REPLY.forEach((reply, reason) -> {
            String message = new RefusedException(reason).getMessage();
            assertTrue(message, message.startsWith(reply + ": "));
        });
    }

    @Test
    public void nobodyListens() throws Exception {
        FakeServer gone = new FakeServer();
        gone.close();
        try (RemoteDelayQueue it = byCall(SHORT).apply(gone.port()).build()) {
            for (ThrowingRunnable call : List.<ThrowingRunnable>of(() -> it.offer(due("a")), it::size, it::take)) {
                assertLost("no server at 127.0.0.1:" + gone.port(), call);
            }
        }
    }

    @Test
    public void aServerThatServesNobodyElseIsAskedNothing() throws Exception {
        playTo(byCall(SHORT), it -> assertLost("all its workers are busy", () -> it.offer(due("a"))),
            talk -> talk.hear("AT 0").hearNothing());
    }

    @Test
    public void whatIsNoBrokerIsAskedNothing() throws Exception {
        for (String reply : List.of("HTTP/1.1 400 Bad Request", "220 mail.example", "BYE", "NOW x",
                "NOW 18446744073709551616")) {
            play(it -> assertLost("it sent '" + reply + "'", () -> it.offer(due("a"))),
                talk -> talk.hear("AT 0").say(reply).hearNothing());
        }
    }

    @Test
    public void anInterruptWhileServiceIsAwaitedAsksNothing() throws Exception {
        play(it -> assertThrows(InterruptedException.class, it::take), talk -> {
            talk.hear("AT 0");
            caller.interrupt();
            talk.hearNothing();
        });
    }

    @Test
    public void aJobThatIsGivenAtAnInterruptIsReturned() throws Exception {
        playTo(ScriptedTest::onTake, it -> {
            assertEquals("a", it.take().payload());
            assertTrue(Thread.interrupted());
            assertEquals(0, it.size());
        }, talk -> {
            talk.greet().hear("POLLFOR 250000000");
            caller.interrupt();
            talk.say("ITEM 4 0 1 a").hear("DONE 4").say("DONE 4").hear("SIZE").say("SIZE 0");
        });
    }

    @Test
    public void aQueueThatIsClosedWhileASessionBeginsEndsItAtOnce() throws Exception {
        for (int times = 0; times < 5; times++) { // a thread that looks in time gives the session up
            play(it -> assertThrows(IllegalStateException.class, it::poll), talk -> {
                talk.hear("AT 0");
                startClosing();
                talk.say("ERR 1 syntax").hearAll();
            });
        }
    }

    @Test
    public void aJobThatIsGivenToAClosedQueueGoesBack() throws Exception {
        play(it -> assertThrows(IllegalStateException.class, it::take), talk -> {
            talk.greet().hear("POLLFOR ");
            startClosing();
            talk.say("ITEM 4 0 1 a").hear("QUIT").say("BYE").hearNothing();
        });
    }

    @Test
    public void aFullRunIsAskedAgainWhileASessionHoldsAJobOfIt() throws Exception {
        play(it -> {
            assertEquals("a", it.poll().payload());
            assertNull(it.poll());
        }, talk -> talk.greet().hear("POLL").say("ITEM 4 0 1 a").hear("POLL").say("ERR 6 full").hear("POLL")
            .say("NONE"));
    }

    @Test
    public void aReplyMayComeByteByByte() throws Exception {
        play(it -> {
            assertEquals("letter", it.poll().payload());
            assertNull(it.peek());
        }, talk -> {
            talk.greet().hear("POLL");
            for (char character : "ITEM 0 0 1 letter\n".toCharArray()) {
                talk.sayBytes(String.valueOf(character));
                Thread.sleep(2);
            }
            talk.hear("PEEK").say("NONE");
        });
    }

    @Test
    public void aTimedPollAsksForWhatIsLeft() throws Exception {
        playTo(port -> byCall(PATIENCE).apply(port).longestWait(Duration.ofSeconds(3)), it -> {
            assertNull(it.peek()); // to connect takes long on a busy machine
            long begun = System.nanoTime();
            assertNull(it.poll(5, SECONDS));
            assertTrue(System.nanoTime() - begun >= SECONDS.toNanos(5));
        }, talk -> {
            talk.greet().hear("PEEK").say("NONE").hear("POLLFOR 3000000000");
            Thread.sleep(2_500);
            long left = Long.parseLong(talk.say("NONE").heard("POLLFOR "));
            assertTrue("asked for " + left, 0 < left && left <= 2_500_000_000L);
            NANOSECONDS.sleep(left);
            talk.say("NONE");
        });
    }

    @Test
    public void anAcknowledgementThatIsLostLosesNoJob() throws Exception {
        playTo(ScriptedTest::onTake, it -> assertEquals("a", it.poll().payload()),
            talk -> talk.greet().hear("POLL").say("ITEM 4 0 1 a").hear("DONE 4"));
    }
}

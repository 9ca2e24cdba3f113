package rbbroker.client;

import java.net.InetAddress;
import java.net.ServerSocket;
import java.time.Duration;
import java.util.ArrayList;
import java.util.List;
import java.util.Map;
import java.util.stream.Collectors;
import java.util.stream.Stream;
import org.junit.Test;
import rbbroker.client.FakeServer.Script;

/** Queues that know several servers: when one serves no more the next is used, and jobs are answered where they are. */
public class AddressesTest extends QueueTest {
    private static final String WAIT = "POLLFOR 250000000";

    private final List<FakeServer> servers = new ArrayList<>();

    private int played(Script... scripts) throws Exception {
        FakeServer server = opened(new FakeServer(scripts));
        servers.add(server);
        return server.port();
    }

    private static int unused() throws Exception {
        try (ServerSocket it = new ServerSocket(0, 1, InetAddress.getLoopbackAddress())) {
            return it.getLocalPort();
        }
    }

    private RemoteDelayQueue queueAt(Integer... ports) {
        String addresses = Stream.of(ports).map(it -> "127.0.0.1:" + it).collect(Collectors.joining(","));
        return opened(untimed(new RemoteDelayQueue.Builder(addresses, Acknowledge.BY_CALL))
            .patience(Duration.ofSeconds(20)).build());
    }

    /** All has come that the scripts expect. */
    private void finish(RemoteDelayQueue queue) throws Exception {
        queue.close();
        for (FakeServer it : servers) {
            it.finish();
        }
    }

    @Test
    public void whatIsReadAndWhatIsWrong() {
        assertEquals(List.of(new Address("a.example", 65535, "a.example:65535"), new Address("::1", 7, "[::1]:7")),
            Address.read("a.example:65535,[::1]:7"));
        Map<String, String> wrong = Map.of("a:1,b", "'b'", "a:1,", "''", "a:1, b:1", "' b:1'", "a:0", "'a:0'",
            "a:65536", "'a:65536'", "a:x,b:1", "'a:x'", ":1", "':1'", "::1:7", "'::1:7'", "7011", "'7011'");
        wrong.forEach((text, part) -> {
            var fault = assertThrows(IllegalArgumentException.class,
                () -> new RemoteDelayQueue.Builder(text, Acknowledge.ON_TAKE));
            assertTrue(fault.getMessage(), fault.getMessage().startsWith(part + " is no address, such as "));
        });
        assertEquals("the address a:01 stands twice", assertThrows(IllegalArgumentException.class,
            () -> Address.read("a:1,b:1,a:01")).getMessage());
        assertThrows(IllegalArgumentException.class,
            () -> new RemoteDelayQueue.Builder("a:1,b:1", Acknowledge.ON_TAKE).host("c"));
    }

    @Test
    public void oneThatRefusesOrServesNoMoreIsFollowedByTheNextOne() throws Exception {
        int first = played(talk -> talk.greet().hear("SIZE").say("SIZE 1"),
            talk -> talk.greet().hear("SIZE").say("SIZE 3").hear("QUIT").say("BYE").hearNothing());
        int second = played(talk -> talk.greet().hear("SIZE").say("SIZE 2").hear("SIZE"));
        RemoteDelayQueue queue = queueAt(unused(), first, second);
        assertEquals(1, queue.size());
        assertEquals(2, queue.size());
        assertEquals(3, queue.size()); // the second hangs up, and the one that is not there is passed over
        finish(queue);
    }

    @Test
    public void triesThatMayBeMadeElsewhereNeedNoPause() throws Exception {
        var options = new Options(Address.read("a:1,b:1,c:1"), null, Acknowledge.ON_TAKE, 1, 1, Long.MAX_VALUE / 8, 1);
        var tries = new Tries(Session.Use.LOOK, options);
        var fault = new RefusedException(RefusedException.Reason.FULL);
        long[] pauses = new long[4];
        for (int it = 0; it < pauses.length; it++) {
            long begun = System.nanoTime();
            tries.pauseAfter(fault, it > 0);
            pauses[it] = System.nanoTime() - begun;
        }
        assertTrue(pauses[0] >= 50_000_000 && pauses[3] >= 100_000_000); // the fourth comes after a whole round
        assertTrue(Math.min(pauses[1], pauses[2]) < 50_000_000);
    }

    @Test
    public void anOfferInDoubtIsNotMadeElsewhere() throws Exception {
        int first = played(talk -> talk.greet().hear("OFFER 0 a"));
        int second = played(talk -> talk.greet().hear("OFFER 0 b").say("OFFERED 1 2")
            .hear("QUIT").say("BYE").hearNothing());
        RemoteDelayQueue queue = queueAt(first, second);
        assertTrue(assertThrows(ServerLostException.class, () -> queue.offer(due("a"))).isInDoubt());
        queue.offer(due("b"));
        finish(queue);
    }

    @Test
    public void aGatewayThatGivesAWaitUpHearsOfItsJobsWhileTheNextOneGivesMore() throws Exception {
        int first = played(talk -> talk.greet().hear(WAIT).say("ITEM 4 0 1 a").hear("POLLFOR 0").say("ITEM 5 0 1 b")
            .hear("POLLFOR 0").say("ITEM 6 0 1 c").hear("POLLFOR 0").say("NONE").hear(WAIT).say("STOPPED")
            .hear("DONE 4").say("DONE 4").hear("FAIL 5").say("AGAIN 9 9").hear("DONE 6").say("DONE 6")
            .hear("QUIT").say("BYE").hearNothing());
        int second = played(talk -> talk.greet().hear("POLLFOR ").say("ITEM 7 0 1 d").hear("DONE 7").say("DONE 7")
            .hear("POLL").say("NONE").hear("QUIT").say("BYE").hearNothing());
        RemoteDelayQueue queue = queueAt(first, second);
        List<Job> jobs = new ArrayList<>(List.of(queue.take(), queue.poll()));
        assertEquals(1, queue.drainTo(jobs));
        Job last = queue.take();
        assertEquals(List.of("a", "b", "c", "d"),
            Stream.concat(jobs.stream(), Stream.of(last)).map(Job::payload).toList());
        jobs.get(0).done();
        assertTrue(jobs.get(1).fail());
        last.done();
        jobs.get(2).done();
        assertNull(queue.poll());
        finish(queue);
    }
}

package rbbroker.client;

import java.time.Duration;
import javax.net.ssl.SSLException;
import javax.net.ssl.SSLSocketFactory;
import org.junit.BeforeClass;
import org.junit.ClassRule;
import org.junit.Test;
import org.junit.rules.TemporaryFolder;

/** Servers behind TLS, with certificates that are right and wrong. */
public class TlsTest extends QueueTest {
    @ClassRule
    public static final TemporaryFolder FOLDER = new TemporaryFolder();

    private static final Duration PATIENCE = Duration.ofMinutes(1);

    private static Certificates certificates;

    @BeforeClass
    public static void makeCertificates() throws Exception {
        certificates = new Certificates(FOLDER.getRoot().toPath().resolve("store.p12"));
    }

    private Server serve(int sessions) throws Exception {
        return opened(Server.start("--workers", 4, "--sessions", sessions));
    }

    /** A proxy that shows this certificate and wants one of the authority's, in front of a server at this port. */
    private FakeServer proxy(String name, int port) throws Exception {
        return opened(FakeServer.before(port, certificates.context(name, "authority").getServerSocketFactory()));
    }

    private RemoteDelayQueue.Builder builder(int port, String name, String authority) throws Exception {
        SSLSocketFactory factory = certificates.context(name, authority).getSocketFactory();
        return new RemoteDelayQueue.Builder(port, Acknowledge.BY_CALL).tls(factory).patience(PATIENCE);
    }

    private RemoteDelayQueue queue(FakeServer proxy) throws Exception {
        return opened(builder(proxy.port(), "client", "authority").build());
    }

    /** Expects that a call meets a fault of TLS at once, and asks the server nothing. */
    private void assertRefused(String says, RemoteDelayQueue.Builder builder) {
        RemoteDelayQueue queue = opened(builder.build());
        long begun = System.nanoTime();
        ServerLostException fault = assertThrows(ServerLostException.class, () -> queue.offer(due("a")));
        assertFalse(fault.isInDoubt());
        assertTrue(fault.getCause() instanceof SSLException);
        assertTrue(fault.getMessage(), fault.getMessage().matches("no server at [^ ]*: .*" + says + ".*"));
        assertThrows(ServerLostException.class, queue::take);
        assertTrue(System.nanoTime() - begun < PATIENCE.toNanos() * 2 / 3);
    }

    @Test
    public void certificatesThatAreRight() throws Exception {
        RemoteDelayQueue queue = queue(proxy("server", serve(50).port()));
        new Steps(queue, job -> { }).play("add a 0, add late 600000, take = a, fail, take = a, attempt = 2, done, "
            + "remove late, size = 0, poll = null");
    }

    @Test
    public void anInterruptEndsAWaitAndNoSession() throws Exception {
        RemoteDelayQueue queue = queue(proxy("server", serve(1).port()));
        queue.offer(due("a"));
        Job job = queue.take();
        assertInterruptible(queue::take);
        job.done();
    }

    @Test
    public void aServerThatIsReplaced() throws Exception {
        Server server = serve(50);
        RemoteDelayQueue queue = queue(proxy("server", server.port()));
        queue.offer(due("a"));
        Job job = queue.take();
        server.kill();
        assertThrows(ServerLostException.class, job::done);
        opened(Server.startAt(server.port(), "--sessions", 50));
        queue.offer(due("b"));
        assertEquals("b", queue.take().payload());
    }

    @Test
    public void certificatesThatTheClientRefuses() throws Exception {
        int port = proxy("server", 1).port();
        assertRefused("unable to find valid certification path", builder(port, "client", "stranger"));
        assertRefused("validity check failed", builder(proxy("expired", 1).port(), "client", "authority"));
        assertRefused("No (name matching|subject alternative)", builder(port, "client", "authority").host("localhost"));
    }

    @Test
    public void aClientWithoutACertificateOrWithAStrangers() throws Exception {
        int port = proxy("server", serve(50).port()).port();
        assertRefused("(certificate|alert)", builder(port, null, "authority"));
        assertRefused("(certificate|alert)", builder(port, "stranger", "authority"));
    }

    @Test
    public void aServerWithoutTls() throws Exception {
        FakeServer.Script plain = talk -> talk.sayBytes("ERR 8 line\nERR 8 line\n").hearAll();
        assertRefused("", builder(opened(new FakeServer(plain, plain)).port(), "client", "authority"));
    }

    @Test
    public void nobodyListens() throws Exception {
        FakeServer proxy = proxy("server", 1);
        proxy.close();
        RemoteDelayQueue queue =
            opened(builder(proxy.port(), "client", "authority").patience(Duration.ofSeconds(1)).build());
        ServerLostException fault = assertThrows(ServerLostException.class, queue::size);
        assertFalse(fault.getCause() instanceof SSLException);
        assertTrue(fault.getMessage(), fault.getMessage().contains("no server at 127.0.0.1:" + proxy.port()));
    }
}

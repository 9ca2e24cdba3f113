package rbbroker.client;

import java.io.BufferedReader;
import java.io.IOException;
import java.io.InputStreamReader;
import java.net.InetAddress;
import java.net.ServerSocket;
import java.net.Socket;
import java.nio.charset.StandardCharsets;
import java.util.List;
import java.util.concurrent.CopyOnWriteArrayList;
import java.util.stream.Stream;
import javax.net.ServerSocketFactory;
import javax.net.ssl.SSLSocket;

/** A server that plays a script for each connection, in the order in which they come, and hangs up at its end. */
final class FakeServer implements AutoCloseable {
    /** What the server does in one session. */
    interface Script {
        void play(Talk talk) throws Exception;
    }

    private final ServerSocket door;
    private final List<Socket> sockets = new CopyOnWriteArrayList<>();
    private final List<QueueTest.Work<Void>> plays = new CopyOnWriteArrayList<>();
    private final QueueTest.Work<Void> playing;

    FakeServer(Script... scripts) throws IOException {
        this(ServerSocketFactory.getDefault(), List.of(scripts));
    }

    private FakeServer(ServerSocketFactory factory, Iterable<Script> scripts) throws IOException {
        door = factory.createServerSocket(0, 200, InetAddress.getLoopbackAddress());
        playing = QueueTest.start(() -> {
            for (Script script : scripts) {
                Socket socket = door.accept();
                sockets.add(socket);
                plays.add(QueueTest.start(() -> play(script, socket)));
            }
            return null;
        });
    }

    /** A server that passes on what its clients, which connect by this factory, and the server at another port say. */
    static FakeServer before(int port, ServerSocketFactory factory) throws IOException {
        return new FakeServer(factory, () -> Stream.<Script>generate(() -> talk -> talk.passTo(port)).iterator());
    }

    int port() {
        return door.getLocalPort();
    }

    /** Waits until all scripts were played to their ends, and throws what went wrong in them. */
    void finish() throws Exception {
        QueueTest.allOf(List.of(playing), Server.PATIENCE);
        QueueTest.allOf(plays, Server.PATIENCE);
    }

    @Override
    public void close() throws IOException {
        door.close();
        for (Socket it : sockets) {
            it.close();
        }
    }

    private static Void play(Script script, Socket socket) throws Exception {
        try (socket) {
            socket.setTcpNoDelay(true);
            if (socket instanceof SSLSocket tls) {
                tls.setNeedClientAuth(true);
                tls.startHandshake();
            }
            script.play(new Talk(socket));
        }
        return null;
    }

    /** One session, from the server's side. */
    static final class Talk {
        private final Socket socket;
        private final BufferedReader lines;

        private Talk(Socket socket) throws IOException {
            this.socket = socket;
            lines = new BufferedReader(new InputStreamReader(socket.getInputStream(), StandardCharsets.US_ASCII));
        }

        /** Passes on what the client and the server at another port say, until one of them ends. */
        void passTo(int port) throws IOException {
            try (Socket server = new Socket(InetAddress.getLoopbackAddress(), port)) {
                if (server.getLocalPort() != port) { // else nobody listens, and it found itself
                    server.setTcpNoDelay(true);
                    QueueTest.start(() -> {
                        try (socket; server) { // it ends with what the client asks
                            return socket.getInputStream().transferTo(server.getOutputStream());
                        }
                    });
                    server.getInputStream().transferTo(socket.getOutputStream());
                }
            }
        }

        /** Says first what the server of a service does, of a run that began at moment 5, and is served then. */
        Talk greetOf(long run, long lost) throws IOException {
            return say("RUN " + run + " lost " + lost + " at " + 5 * run).greet();
        }

        /** Answers the request by which a client learns that it is served. */
        Talk greet() throws IOException {
            return hear("AT 0").say("ERR 1 syntax");
        }

        /** Expects a line that begins so. */
        Talk hear(String begin) throws IOException {
            heard(begin);
            return this;
        }

        /** Accepts an offer, as a server whose clock is this far ahead of {@link System#nanoTime} does. */
        Talk accept(long id, long ahead) throws IOException {
            long expiry = System.nanoTime() + ahead + Long.parseLong(heard("OFFER ").split(" ")[0]);
            return say("OFFERED " + id + " " + Long.toUnsignedString(expiry));
        }

        /** Expects that the client hangs up and says nothing more. */
        void hearNothing() {
            try {
                String line = lines.readLine();
                if (line != null) {
                    throw new AssertionError("heard " + line + " in place of the end");
                }
            } catch (IOException reset) {
                return; // it hung up
            }
        }

        /** Reads whatever else the client says, until it hangs up. */
        void hearAll() throws IOException {
            while (lines.readLine() != null) {
                continue;
            }
        }

        Talk say(String line) throws IOException {
            return sayBytes(line + "\n");
        }

        Talk sayBytes(String text) throws IOException {
            socket.getOutputStream().write(text.getBytes(StandardCharsets.ISO_8859_1));
            return this;
        }

        /** Ends the connection by a reset. */
        void reset() throws IOException {
            socket.setSoLinger(true, 0);
        }

        /** Expects a line that begins so. Returns the rest. */
        String heard(String begin) throws IOException {
            String line = lines.readLine();
            if (line == null || !line.startsWith(begin)) {
                throw new AssertionError("heard " + line + " in place of " + begin);
            }
            return line.substring(begin.length());
        }
    }
}

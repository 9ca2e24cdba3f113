package rbbroker.client;

import static org.junit.Assert.assertEquals;
import static org.junit.Assert.assertTrue;

import java.io.BufferedReader;
import java.io.IOException;
import java.lang.ProcessBuilder.Redirect;
import java.nio.file.Path;
import java.util.List;
import java.util.concurrent.ThreadLocalRandom;
import java.util.concurrent.TimeUnit;
import java.util.stream.Stream;

/**
 * The program as a server, at a port that nobody else uses. The property {@code rbbroker.program} names the program.
 */
final class Server implements AutoCloseable {
    /** Seconds that a test waits for anything. */
    static final int PATIENCE = 30;

    private static final String PROGRAM = System.getProperty("rbbroker.program");

    private final int port;
    private final Process process;
    private final BufferedReader output;

    private Server(int port, Object... options) throws IOException {
        this.port = port;
        process = run(Stream.concat(Stream.of(PROGRAM, "serve", "--port", port, "--until-input-ends"),
            Stream.of(options)));
        output = process.inputReader();
    }

    /** Starts a server with these options. */
    static Server start(Object... options) throws IOException {
        for (int tries = 0; tries < 20; tries++) {
            Server server = startAt(ThreadLocalRandom.current().nextInt(32_000, 32_500), options);
            if (server != null) {
                return server;
            }
        }
        throw new IOException("no server could be started");
    }

    /** Starts a server with these options at this port, or returns null if it does not start. */
    static Server startAt(int port, Object... options) throws IOException {
        Server server = new Server(port, options);
        if (("listening 127.0.0.1:" + port).equals(server.output.readLine())) {
            return server;
        }
        server.kill();
        return null;
    }

    int port() {
        return port;
    }

    /** Expects that it ends in good order, with this many jobs lost, and a history that its own replay finds legal. */
    void assertEnds(int lost, Path history, Object... policy) throws Exception {
        List<String> lines = end();
        assertTrue(lines.get(0), lines.get(0).matches("sessions \\d+ faults 0 lost " + lost));
        Stream<?> replay = Stream.of(PROGRAM, "replay", history, "--chains");
        assertEquals(lines.get(1), said(Stream.concat(replay, Stream.of(policy))));
    }

    /** Has it end once no session holds a job, and waits for that. Returns its two last lines: counts and audit. */
    List<String> end() throws Exception {
        try (var input = process.outputWriter()) {
            input.write("drain\n");
            input.flush();
            process.waitFor(PATIENCE, TimeUnit.SECONDS);
        } catch (IOException ignored) {
            // its sessions were used up, and it has ended
        }
        assertTrue("the server goes on", process.waitFor(PATIENCE, TimeUnit.SECONDS));
        assertEquals(0, process.exitValue());
        return output.lines().toList();
    }

    /** Ends it at once, if it has not ended. */
    void kill() {
        process.destroyForcibly().onExit().join();
    }

    @Override
    public void close() {
        kill();
    }

    /** What a command says that succeeds. */
    static String said(Stream<?> words) throws Exception {
        Process process = run(words);
        String said = new String(process.getInputStream().readAllBytes()).strip();
        assertTrue("it goes on: " + said, process.waitFor(10 * PATIENCE, TimeUnit.SECONDS));
        assertEquals(said, 0, process.exitValue());
        return said;
    }

    /** Runs a command, which does not outlive the tests. */
    private static Process run(Stream<?> words) throws IOException {
        var builder = new ProcessBuilder(words.map(String::valueOf).toList());
        Process process = builder.redirectError(Redirect.DISCARD).start();
        Runtime.getRuntime().addShutdownHook(new Thread(process::destroyForcibly));
        return process;
    }
}

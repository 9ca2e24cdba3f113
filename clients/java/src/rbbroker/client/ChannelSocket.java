package rbbroker.client;

import java.io.IOException;
import java.io.InputStream;
import java.io.OutputStream;
import java.net.ConnectException;
import java.net.Socket;
import java.net.SocketAddress;
import java.net.SocketTimeoutException;
import java.net.StandardSocketOptions;
import java.nio.ByteBuffer;
import java.nio.channels.SelectionKey;
import java.nio.channels.Selector;
import java.nio.channels.SocketChannel;
import java.util.function.Predicate;

/**
 * A socket that waits by a selector, and over which TLS can be laid as over any other.
 *
 * <p>An interrupt breaks no wait off here and closes nothing, so that no reply is lost: what waits goes on, and the
 * thread is interrupted afterwards. One thread at a time may use it.
 */
final class ChannelSocket extends Socket {
    /** After so many milliseconds a wait that may be broken off asks whether it is to go on. */
    private static final long LOOK_AFTER = 50;

    /** What was received and not read yet. */
    private final ByteBuffer received = ByteBuffer.allocate(8_192).limit(0);
    private SocketChannel channel;
    private Selector selector;
    private SelectionKey key;
    private long deadline;
    private Predicate<Boolean> goesOn;

    /**
     * Waits end at a deadline of {@link System#nanoTime}, or once this predicate, which is told whether the thread was
     * interrupted, says that they do not go on. It may be null.
     */
    void limitWaits(long until, Predicate<Boolean> orWhile) {
        deadline = until;
        goesOn = orWhile;
    }

    @Override
    public void connect(SocketAddress address) throws IOException {
        channel = SocketChannel.open();
        selector = Selector.open();
        channel.configureBlocking(false);
        key = channel.register(selector, 0);
        channel.connect(address);
        while (!channel.finishConnect()) {
            await(SelectionKey.OP_CONNECT);
        }
        // If nobody listens, the system may give this side the very port that it looks for, so that it finds itself. To
        // stay connected would keep the port from the next server.
        if (channel.getLocalAddress().equals(channel.getRemoteAddress())) {
            throw new ConnectException("Connection refused");
        }
        channel.setOption(StandardSocketOptions.TCP_NODELAY, true);
    }

    @Override
    public boolean isConnected() {
        return channel != null && channel.isConnected();
    }

    /** Keeps what has come, and does not wait. Gives how many bytes that are, or -1 at the end. */
    int receive() throws IOException {
        received.compact();
        try {
            return channel.read(received);
        } finally {
            received.flip();
        }
    }

    @Override
    public InputStream getInputStream() {
        return new InputStream() {
            @Override
            public int read() throws IOException {
                return awaitInput() < 0 ? -1 : received.get() & 0xFF;
            }

            @Override
            public int read(byte[] bytes, int offset, int most) throws IOException {
                int count = Math.min(most, awaitInput());
                received.get(bytes, offset, Math.max(0, count));
                return count;
            }
        };
    }

    @Override
    public OutputStream getOutputStream() {
        return new OutputStream() {
            @Override
            public void write(int one) throws IOException {
                write(new byte[] {(byte) one});
            }

            @Override
            public void write(byte[] bytes, int offset, int count) throws IOException {
                ByteBuffer left = ByteBuffer.wrap(bytes, offset, count);
                while (left.hasRemaining()) {
                    if (channel.write(left) == 0) {
                        await(SelectionKey.OP_WRITE);
                    }
                }
            }
        };
    }

    @Override
    public int getSoLinger() {
        return -1; // TLS asks when it closes
    }

    @Override
    public void close() throws IOException {
        if (channel != null) {
            channel.close();
        }
        if (selector != null) {
            selector.close();
        }
    }

    /** Waits until something is received. Gives how many bytes are here, or -1 at the end. */
    private int awaitInput() throws IOException {
        int count = received.remaining();
        while (count == 0) {
            count = receive();
            if (count == 0) {
                await(SelectionKey.OP_READ);
            }
        }
        return count;
    }

    private void await(int operation) throws IOException {
        boolean wasInterrupted = false;
        key.interestOps(operation);
        try {
            long look;
            do {
                wasInterrupted |= Thread.interrupted(); // which would end each look at once
                long left = deadline - System.nanoTime();
                if (left <= 0 || goesOn != null && !goesOn.test(wasInterrupted)) {
                    throw new SocketTimeoutException("the server does not answer");
                }
                look = Math.min(left / 1_000_000 + 1, goesOn == null ? Long.MAX_VALUE : LOOK_AFTER);
            } while (selector.select(ready -> { }, look) == 0);
        } finally {
            if (wasInterrupted) {
                Thread.currentThread().interrupt();
            }
        }
    }
}

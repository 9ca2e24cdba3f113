package rbbroker.client;

import java.io.BufferedInputStream;
import java.io.EOFException;
import java.io.IOException;
import java.io.InputStream;
import java.net.InetAddress;
import java.net.InetSocketAddress;
import java.net.Socket;
import java.net.SocketTimeoutException;
import java.nio.charset.StandardCharsets;
import java.util.ArrayList;
import java.util.List;
import java.util.Set;
import java.util.concurrent.ConcurrentHashMap;
import java.util.function.BooleanSupplier;
import java.util.stream.Collectors;
import javax.net.ssl.SSLParameters;
import javax.net.ssl.SSLSocket;
import rbbroker.client.RefusedException.Reason;
import rbbroker.client.Request.Element;

/**
 * A session with the server, from its connection to its end. The thread that the pool has lent it to may use it.
 *
 * <p>It begins with a request that changes nothing and is no call. The reply shows that a worker of the server serves
 * this session; before that nothing is asked, and so nothing is in doubt.
 */
final class Session {
    /**
     * What a session is wanted for: a call that changes nothing, so that it is never in doubt; one that takes no job,
     * and is not made again if it is in doubt; one that takes jobs at once; or one that waits for a job.
     */
    enum Use {
        LOOK, CHANGE, TAKE, WAIT;

        boolean takes() {
            return this == TAKE || this == WAIT;
        }
    }

    /** How many jobs a session may hold. */
    static final int MOST_HELD = 64;

    /** What it is lent for, or null. It is set under the pool's lock, and the borrower reads it too. */
    volatile Use use;

    // The pool's, under its lock.
    /** How many threads wait for this very session, to answer a job that it holds. */
    int answering;
    /** The thread that last took jobs on it, or 0. */
    long taker;

    /** The ids of the jobs that it holds. */
    final Set<Long> held = ConcurrentHashMap.newKeySet();
    /** What it shows of its server, once a worker of the server serves it. */
    volatile Contact contact;
    /** How many times it was asked and answered. */
    volatile long answered;
    /** Whether its run is full or its gateway is to end, so that it is to be left as soon as it holds no job. */
    volatile boolean isUsedUp;
    /** Whether it has ended. If not, it may be lost all the same. */
    volatile boolean isClosed;

    /** Where its server is. */
    final Address address;

    private final Options options;
    private final ChannelSocket channel = new ChannelSocket();
    /** The channel, or TLS over it. */
    private Socket socket = channel;
    private InputStream input = channel.getInputStream();

    Session(Options options, Address address) {
        this.options = options;
        this.address = address;
    }

    /**
     * Connects, and waits until the session is served, or is no longer wanted. Before that nothing is asked. Several
     * servers share the patience.
     */
    void open(Runs runs, BooleanSupplier isWanted) {
        channel.limitWaits(System.nanoTime() + options.patience() / options.addresses().size(),
            isInterrupted -> !(isInterrupted && use == Use.WAIT) && isWanted.getAsBoolean());
        String late = "it does not accept the connection";
        try {
            channel.connect(new InetSocketAddress(InetAddress.getByName(address.host()), address.port()));
            if (options.tls() != null) {
                encrypt();
            }
            late = "all its workers are busy";
            send(Request.GREETING.line() + "\n");
            contact = runs.begin(Request.GREETING.receive(input));
        } catch (IOException fault) {
            throw new ServerLostException("no server at " + address.name(), false,
                fault instanceof SocketTimeoutException ? new SocketTimeoutException(late) : fault);
        } finally {
            if (!isServed()) {
                close();
            }
        }
    }

    private void encrypt() throws IOException {
        var tls = (SSLSocket) options.tls().createSocket(channel, address.host(), address.port(), true);
        socket = tls;
        SSLParameters parameters = tls.getSSLParameters();
        parameters.setEndpointIdentificationAlgorithm("HTTPS"); // the other side must be whom this one looks for
        tls.setSSLParameters(parameters);
        tls.startHandshake();
        input = new BufferedInputStream(tls.getInputStream());
    }

    private void send(String text) throws IOException {
        socket.getOutputStream().write(text.getBytes(StandardCharsets.US_ASCII));
    }

    boolean isServed() {
        return contact != null;
    }

    /** Asks, and gives the answer. A server that is lost meanwhile leaves in doubt what changes anything. */
    <T> T ask(Request<T> request) {
        return askAll(List.of(request));
    }

    /** Asks several requests in one piece, and gives the last answer, or throws the first refusal. */
    <T> T askAll(List<Request<T>> requests) {
        String text = requests.stream().map(it -> it.line() + "\n").collect(Collectors.joining());
        long wait = requests.stream().mapToLong(Request::longestWait).sum();
        long sent = System.nanoTime();
        T answer = null;
        RefusedException refusal = null;
        try {
            channel.limitWaits(sent + options.patience() + wait, null);
            send(text);
            for (Request<T> it : requests) {
                try {
                    answer = it.receive(input);
                } catch (RefusedException refused) {
                    refusal = refusal == null ? refused : refusal;
                }
            }
            contact.until = sent;
            answered++;
        } catch (IOException fault) {
            close(); // which line answers which request is no longer known
            String what = "no answer of the server at " + address.name() + " to " + text.strip();
            throw new ServerLostException(what, use != Use.LOOK, fault);
        }
        if (refusal != null) {
            isUsedUp |= refusal.reason() == Reason.FULL;
            throw refusal;
        }
        return answer;
    }

    /**
     * Takes a job that has expired, or returns null. A gateway that is to end gives a wait up, but by a {@code POLL}
     * the session ends, and its jobs with it. So where another gateway can go on, nothing else than a wait is asked
     * beside jobs.
     */
    Element poll() {
        return isToWait() ? pollFor(0) : ask(Request.POLL);
    }

    /** Takes a job, and waits for one up to a time. Returns null if there is none. */
    Element pollFor(long nanos) {
        Element element = ask(Request.pollFor(nanos));
        if (element != Request.STOPPED) {
            return element;
        }
        if (isToWait()) {
            isUsedUp = true;
            throw new ServerLostException("the server at " + address.name() + " gave a wait up", false,
                new EOFException("another one is to give jobs"));
        }
        return null;
    }

    /** Takes up to so many jobs that have expired, as {@link #poll} does. */
    List<Element> drain(int most) {
        if (!isToWait()) {
            return ask(Request.drain(most));
        }
        List<Element> elements = new ArrayList<>();
        try {
            while (elements.size() < Math.min(most, MOST_HELD - held.size())) {
                Element element = pollFor(0);
                if (element == null) {
                    break;
                }
                elements.add(element);
            }
        } catch (ServerLostException fault) {
            if (isClosed || elements.isEmpty()) {
                throw fault;
            }
        }
        return elements;
    }

    private boolean isToWait() {
        return options.areSeveral() && contact.greeting == null && !held.isEmpty();
    }

    /** Ends it in good order, as far as that can be had. The jobs that it holds fail. */
    void leave() {
        try {
            if (!isClosed) {
                ask(Request.QUIT);
            }
        } catch (BrokerException ignored) {
            // it has ended in another way
        } finally {
            close();
        }
    }

    /** Looks whether it is lost, and if so closes it. */
    boolean isLost() {
        try {
            if (isServed() && !isClosed && channel.receive() < 0) {
                close();
            }
        } catch (IOException ended) {
            close();
        }
        return isClosed;
    }

    /** Hangs up. */
    private void close() {
        isClosed = true;
        try {
            socket.close();
        } catch (IOException ignored) {
            // there is nothing left that could be lost
        }
    }
}

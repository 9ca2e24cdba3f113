package rbbroker.client;

import static java.util.concurrent.TimeUnit.NANOSECONDS;

import java.io.EOFException;
import java.util.ArrayList;
import java.util.Comparator;
import java.util.List;
import java.util.Optional;
import java.util.concurrent.TimeUnit;
import rbbroker.client.RefusedException.Reason;
import rbbroker.client.Session.Use;

/**
 * The sessions of a queue, each of which is lent to one thread at a time.
 *
 * <p>A thread that waits for a job keeps its session busy. There is one session more than may be lent for waits, so
 * that a call that does not wait finds one. A job can be answered on the session that holds it alone: who answers comes
 * before others that want this session.
 *
 * <p>Where a server does not serve a further session in the time of a wait, the others have to do for a while. The
 * server ends a session when it is to be left, or it is left as soon as it holds no job if the run is full.
 *
 * <p>Of several servers one is used at a time. When it serves no more, further sessions are at the next one. Those
 * whose gateway is to end part: they are lent to answer the jobs that they hold, and for nothing else.
 */
final class SessionPool {
    /** After so long a thread looks again, as a session may take jobs again, or a server serve another. */
    private static final long LOOK_AGAIN = TimeUnit.MILLISECONDS.toNanos(500);
    /** For so long the others have to do where the server does not serve a further session. */
    private static final long MAKE_DO = TimeUnit.SECONDS.toNanos(30);

    private final Options options;
    private final Runs runs;
    /** Those that are served, and those that are being opened, which are lent. */
    private final List<Session> sessions = new ArrayList<>();
    /** Which server is used, of several. */
    private int current;
    /** Threads that wait for a session for a call that does not wait at the server. They come before those that do. */
    private int calling;
    /** Until when the others have to do, since the server did not serve a further session. */
    private long crowdedUntil = System.nanoTime();
    volatile boolean isClosed;

    SessionPool(Options options, Runs runs) {
        this.options = options;
        this.runs = runs;
    }

    /** Lends a session for a call that does not wait, and that no interrupt ends. */
    Session lend(Use use) {
        return lend(use, Long.MAX_VALUE);
    }

    /** Lends a session for a use, or gives null if none can be had for so long, or if an interrupt ends a wait. */
    Session lend(Use use, long nanos) {
        long deadline = System.nanoTime() + nanos;
        int others = options.addresses().size() - 1; // which are tried at once
        Session session;
        do {
            session = find(use, deadline);
        } while (session != null && !session.isServed() && !open(session, others-- > 0));
        return session;
    }

    /** Lends the session that shows its server so, if it goes on, or otherwise another one, for a change. */
    Session lend(Contact contact) {
        synchronized (this) {
            Optional<Session> session = sessions.stream().filter(it -> it.contact == contact).findFirst();
            if (session.isPresent() && await(session.get())) {
                return lent(session.get(), Use.CHANGE);
            }
        }
        return lend(Use.CHANGE);
    }

    /** Lends this session, to answer a job that it holds. */
    synchronized void lend(Session session, long id) {
        boolean goesOn = await(session);
        if (!session.held.contains(id)) {
            notifyAll();
            throw new RefusedException(Reason.NOT_HELD);
        } else if (!goesOn) {
            var fault = new EOFException("the session that held it has ended");
            throw new ServerLostException("job " + Long.toUnsignedString(id) + " failed", false, fault);
        }
        lent(session, Use.CHANGE);
    }

    /** The borrower needs the session no longer. If it is to be left, this leaves it. */
    void giveBack(Session session) {
        boolean isLost = session.isClosed;
        if (isClosed || session.isUsedUp && session.held.isEmpty()) {
            session.leave();
        }
        synchronized (this) {
            session.use = null;
            if (session.isClosed || session.isUsedUp) {
                moveOnFrom(session);
            }
            if (isLost) {
                forgetIfLost(session);
            } else if (session.isClosed) {
                sessions.remove(session);
            }
            notifyAll();
        }
    }

    /** Ends all sessions, each once it is given back. Waits for that, but not for ever. */
    synchronized void close() {
        isClosed = true;
        notifyAll();
        for (Session it : sessions.stream().filter(it -> it.use == null).toList()) {
            it.leave();
            sessions.remove(it);
        }
        long deadline = System.nanoTime() + options.patience() + options.longestWait();
        while (!sessions.isEmpty() && deadline - System.nanoTime() > 0 && !Thread.currentThread().isInterrupted()) {
            awaitChange(LOOK_AGAIN);
        }
    }

    /** Lends a session that is served or to be opened, or gives null if there is none until then. */
    private synchronized Session find(Use use, long deadline) {
        while (true) {
            if (isClosed) {
                throw new IllegalStateException("the queue is closed");
            }
            if (isInterrupted(use)) {
                return null;
            }
            Session session = choose(use);
            long left = deadline - System.nanoTime();
            if (session != null) {
                if (!forgetIfLost(session)) {
                    return lent(session, use);
                }
            } else if (left <= 0) {
                return null;
            } else if (use == Use.WAIT) {
                awaitChange(left);
            } else {
                calling++;
                awaitChange(left);
                calling--;
            }
        }
    }

    private static boolean isInterrupted(Use use) {
        return use == Use.WAIT && Thread.currentThread().isInterrupted();
    }

    /** Waits for a change, but not for long. An interrupt is put off. */
    private void awaitChange(long most) {
        boolean wasInterrupted = Thread.interrupted();
        try {
            NANOSECONDS.timedWait(this, Math.min(most, LOOK_AGAIN));
        } catch (InterruptedException interrupt) {
            wasInterrupted = true;
        }
        if (wasInterrupted) {
            Thread.currentThread().interrupt();
        }
    }

    /** Waits until nobody uses this session. Who waits for it comes before others. Gives whether it goes on. */
    private boolean await(Session session) {
        session.answering++;
        while (session.use != null && !session.isClosed) {
            awaitChange(LOOK_AGAIN);
        }
        session.answering--;
        return !session.isClosed && !forgetIfLost(session);
    }

    /** Marks a session as lent. */
    private Session lent(Session session, Use use) {
        session.use = use;
        if (use.takes()) {
            session.taker = Thread.currentThread().getId();
        }
        return session;
    }

    /** A session that can be lent, or a new one, or null. */
    private Session choose(Use use) {
        if (use == Use.WAIT && sessions.stream().filter(it -> it.use == Use.WAIT).count() >= options.waiters()) {
            return null;
        }
        boolean isToYield = use == Use.WAIT && calling > 0;
        List<Session> free = sessions.stream().filter(it -> !isToYield && isFree(it)).toList();
        if (!use.takes()) {
            return free.isEmpty() ? another() : free.get(0);
        }
        // A thread takes its jobs on one session if it can: so none of them waits for another thread to be answered.
        long thread = Thread.currentThread().getId();
        return free.stream().filter(it -> it.taker == thread && it.held.size() < Session.MOST_HELD).findFirst()
            .or(() -> free.stream().filter(it -> it.held.isEmpty()).findFirst())
            .or(() -> Optional.ofNullable(another()))
            .or(() -> free.stream().min(Comparator.comparingInt(it -> it.held.size()))).orElse(null);
    }

    private boolean isFree(Session session) {
        return session.use == null && session.answering == 0 && !parts(session);
    }

    /** Whether it is to answer its jobs, while another server gives more. */
    private boolean parts(Session session) {
        return session.isUsedUp && options.areSeveral();
    }

    /** Leaves the server of a session for the next one, unless another session of it has done so. */
    private void moveOnFrom(Session session) {
        List<Address> addresses = options.addresses();
        if (addresses.get(current) == session.address) {
            current = (current + 1) % addresses.size();
        }
    }

    /** A further session, or null if there is no place. */
    private Session another() {
        crowdedUntil = hasServed() ? crowdedUntil : System.nanoTime();
        boolean isCrowded = System.nanoTime() - crowdedUntil < 0;
        if (sessions.stream().filter(it -> !parts(it)).count() > options.waiters() || isCrowded) {
            return null;
        }
        var session = new Session(options, options.addresses().get(current));
        sessions.add(session);
        return session;
    }

    private boolean hasServed() {
        return sessions.stream().anyMatch(it -> it.isServed() && !parts(it));
    }

    /**
     * Opens a session. Gives whether it is served: if not, others are, or the next server is to be tried, or the queue
     * was closed meanwhile.
     */
    private boolean open(Session session, boolean isAnotherLeft) {
        long begun = System.nanoTime();
        try {
            session.open(runs, () -> isWanted(begun));
        } catch (ServerLostException fault) {
            if (!isInterrupted(session.use) && !(fault.mayPass && (isAnotherLeft || makesDo()))) {
                throw fault;
            }
        } finally {
            endOpening(session);
        }
        if (isClosed) {
            giveBack(session);
        }
        return !session.isClosed;
    }

    /** Whether a session that was begun at this time is waited for: not for long, if there are others. */
    private synchronized boolean isWanted(long begun) {
        return !isClosed && (!hasServed() || System.nanoTime() - begun < options.longestWait());
    }

    /** The server serves no further session. Gives whether there are others, which have to do for a while. */
    private synchronized boolean makesDo() {
        if (isClosed || !hasServed()) {
            return isClosed;
        }
        crowdedUntil = System.nanoTime() + MAKE_DO;
        return true;
    }

    /** A session is served now, or its place is free again. */
    private synchronized void endOpening(Session session) {
        if (!session.isServed()) {
            sessions.remove(session);
            moveOnFrom(session);
            if (!hasServed()) {
                runs.forgetClock();
            }
        }
        notifyAll();
    }

    /**
     * Forgets a session that nobody uses, if it has ended but was not left. Its server may have ended, and the next one
     * has another clock. Gives whether it did.
     */
    private boolean forgetIfLost(Session session) {
        if (session.isLost()) {
            sessions.remove(session);
            moveOnFrom(session);
            runs.forgetClock();
            notifyAll();
        }
        return session.isClosed;
    }
}

package rbbroker.client;

import static java.util.concurrent.TimeUnit.MILLISECONDS;
import static java.util.concurrent.TimeUnit.NANOSECONDS;

import java.io.EOFException;
import java.lang.System.Logger.Level;
import java.time.Duration;
import java.util.AbstractQueue;
import java.util.ArrayList;
import java.util.Collection;
import java.util.Iterator;
import java.util.List;
import java.util.Objects;
import java.util.Spliterator;
import java.util.Spliterators;
import java.util.concurrent.BlockingQueue;
import java.util.concurrent.TimeUnit;
import java.util.function.Consumer;
import java.util.function.Function;
import java.util.function.Supplier;
import javax.net.ssl.SSLSocketFactory;
import rbbroker.client.RefusedException.Reason;
import rbbroker.client.Request.Element;
import rbbroker.client.Session.Use;

/**
 * The queue of an {@code rb_broker serve}, as a {@link BlockingQueue} that behaves as
 * {@link java.util.concurrent.DelayQueue} does: an element can be taken once its delay has passed, the one that expired
 * first before the others.
 *
 * <p>Any number of threads, queues and programs may use one server at the same time. All methods are thread-safe. What
 * becomes of a job that is taken depends on when it is {@linkplain Acknowledge acknowledged}.
 *
 * <p><b>Sessions.</b> The queue connects when it is first used. It keeps a session for each thread that waits, up to a
 * number that is set, and one for calls that do not wait. Each keeps one of the server's workers busy, and holds up to
 * 64 jobs. The server of a service ends a session that holds no job when its run is to end, and the queue goes on at
 * the next. A held job must be answered on its own session: if another thread waits there at the time, the answer takes
 * up to {@link Builder#longestWait}.
 *
 * <p><b>Lost servers.</b> If there is no server, or its run is full, a call is made again until the
 * {@linkplain Builder#patience patience} is over; it then throws a {@link ServerLostException} or a
 * {@link RefusedException}. An interrupted thread does not wait for a server. If a server is lost between a request and
 * its reply, the call is in doubt. One that looks at jobs or takes them is made again then too, and so is any other if
 * the next run of a service says that it continues one which ended in good order. Otherwise it throws a
 * {@code ServerLostException} that {@linkplain ServerLostException#isInDoubt says so}. Every method that asks the
 * server may throw these, and {@link IllegalStateException} once the queue is closed.
 */
public final class RemoteDelayQueue extends AbstractQueue<Job> implements BlockingQueue<Job>, AutoCloseable {
    private static final System.Logger LOG = System.getLogger("rbbroker.client");
    /** The least time from one wait to the next, at a server that gives waits up. */
    private static final long LEAST_WAIT = MILLISECONDS.toNanos(20);

    private final Options options;
    private final Runs runs;
    private final SessionPool pool;

    private RemoteDelayQueue(Options options, Consumer<LostRun> onLostRun) {
        this.options = options;
        runs = new Runs(options.address(), onLostRun);
        pool = new SessionPool(options, runs);
    }

    /** How a queue deals with its server, and what makes it. */
    public static final class Builder {
        private final Acknowledge acknowledge;
        private List<Address> addresses;
        private boolean hasHosts;
        private SSLSocketFactory tls;
        private int waiters = 4;
        private Duration longestWait = Duration.ofMillis(250);
        private Duration patience = Duration.ofSeconds(30);
        private Duration overdue = Duration.ofMillis(100);
        private Consumer<LostRun> onLostRun = it -> { };

        /**
         * Begins with the server at this port.
         *
         * @param port the server's port, 1 to 65,535
         * @param acknowledge when the server is told that a job is finished
         */
        public Builder(int port, Acknowledge acknowledge) {
            addresses = List.of(Address.at("127.0.0.1", port));
            this.acknowledge = Objects.requireNonNull(acknowledge);
        }

        /**
         * Begins with several servers that have one queue, such as gateways on a Redis. One of them is used until it
         * serves no more, and then the next one at once, with a pause only after a round in which none served. If one
         * gives a wait up while jobs are held there, they are answered there, and jobs are taken at the next one: so
         * {@link #longestWait} is to be no longer than the gateways' {@code --wait}.
         *
         * @param addresses {@code gateway-1:7011,gateway-2:7011}: no {@link #host} is named besides
         * @param acknowledge when the server is told that a job is finished
         * @throws IllegalArgumentException if a part of it is no address, or stands twice
         */
        public Builder(String addresses, Acknowledge acknowledge) {
            this.addresses = Address.read(addresses);
            this.acknowledge = Objects.requireNonNull(acknowledge);
            hasHosts = true;
        }

        /**
         * The machine that leads to the server, which itself listens on 127.0.0.1 alone.
         *
         * @param name a name or an address; 127.0.0.1 if it is not set
         * @return this builder
         */
        public Builder host(String name) {
            if (hasHosts) {
                throw new IllegalArgumentException("the addresses name their hosts, so " + name + " can't be one");
            }
            addresses = List.of(Address.at(Objects.requireNonNull(name), addresses.get(0).port()));
            return this;
        }

        /**
         * Connects by TLS, for a server behind stunnel or a proxy like it. The other side's certificate must be
         * for the {@linkplain #host host}, and of an authority that the factory trusts.
         *
         * @param factory what makes the connections, such as that of an {@link javax.net.ssl.SSLContext}; it has this
         *        side's certificate if the other side wants one
         * @return this builder
         */
        public Builder tls(SSLSocketFactory factory) {
            tls = Objects.requireNonNull(factory);
            return this;
        }

        /**
         * How many threads may wait at the server at the same time. Further ones wait here until one of these has its
         * job or looks anew. The queue keeps at most this many sessions and one more.
         *
         * @param count 1 or more; 4 if it is not set
         * @return this builder
         */
        public Builder waiters(int count) {
            if (count < 1) {
                throw new IllegalArgumentException("one waiter at least, not " + count);
            }
            waiters = count;
            return this;
        }

        /**
         * How long one wait at the server may last, and so how long it takes at most until a thread that waits has
         * noticed an interrupt. A thread that waits in vain makes a call each time, of the 1,000,000 that a run may
         * have: 14,400 an hour if this is not set.
         *
         * @param time more than 0; 250 ms if it is not set
         * @return this builder
         */
        public Builder longestWait(Duration time) {
            longestWait = time;
            return this;
        }

        /** From which delay on a job is overdue for which the server's clock is asked, which tests make long. */
        Builder overdue(Duration time) {
            overdue = time;
            return this;
        }

        /**
         * How long a call tries to find a server that carries it out, and how long the reply may take.
         *
         * @param time more than 0; 30 seconds if it is not set
         * @return this builder
         */
        public Builder patience(Duration time) {
            patience = time;
            return this;
        }

        /**
         * What is told, in a thread of its own, when the server has lost a run: it may offer again what was accepted
         * meanwhile. The server of a service tells that itself. Another one shows it by an id or a moment that goes
         * back.
         *
         * @param told what is told; nothing if it is not set
         * @return this builder
         */
        public Builder onLostRun(Consumer<LostRun> told) {
            onLostRun = Objects.requireNonNull(told);
            return this;
        }

        /** {@return a queue, which does not connect yet} */
        public RemoteDelayQueue build() {
            return new RemoteDelayQueue(new Options(addresses, tls, acknowledge, waiters, nanos(longestWait),
                nanos(patience), nanos(overdue)), onLostRun);
        }

        private static long nanos(Duration time) {
            long nanos = NANOSECONDS.convert(time);
            if (nanos <= 0) {
                throw new IllegalArgumentException("a time is more than 0, not " + time);
            }
            return Math.min(nanos, Long.MAX_VALUE / 8); // which can be added to a time
        }
    }

    /**
     * Offers a job, which may be taken once its delay has passed. The job then has the id and the expiry that the
     * server gave it. A job that is offered again, even while the queue has it, is a new element with an id of its own.
     *
     * <p>A job that is overdue comes before those that are less so, as far as the server's clock goes back. While that
     * clock is not known, a job that is overdue by a tenth of a second is offered as one that is due now, and then, if
     * nobody has taken it yet, removed and offered at its place: the first reply tells of the clock.
     */
    @Override
    public boolean offer(Job job) {
        Objects.requireNonNull(job);
        return make(Use.CHANGE, session -> {
            long deadline = job.deadline();
            long delay = deadline - System.nanoTime();
            // A job that is overdue keeps its place before those that are less so. That takes the server's clock, as
            // this session told it, or the service: by another server's clock the job might come late.
            boolean isPlaced = delay < 0 && runs.isClockKnown(session.contact);
            Element element = isPlaced ? placed(session, deadline, job.payload())
                : offerIn(session, Math.max(0, delay), job.payload());
            if (!isPlaced && delay <= -options.overdue() && isTakenBack(session, element)) {
                element = placed(session, deadline, job.payload());
            }
            job.place = new Job.Place(session.contact, element);
            return true;
        });
    }

    /** As {@link #offer(Job)}: it never waits for room. */
    @Override
    public void put(Job job) {
        offer(job);
    }

    /** As {@link #offer(Job)}: it never waits for room, so the timeout is ignored. */
    @Override
    public boolean offer(Job job, long timeout, TimeUnit unit) {
        return offer(job);
    }

    /** Takes the job that expired first, or returns {@code null} if none has expired, though some may be there. */
    @Override
    public Job poll() {
        return unlessClosed(make(Use.TAKE, session -> taken(session, session.poll())));
    }

    /**
     * Takes the job that expired first, and waits for one up to a time. Returns {@code null} if none has expired by
     * then. An interrupt is noticed within {@link Builder#longestWait}, and loses no job: if one is given at that
     * moment, it is returned and the thread stays interrupted.
     */
    @Override
    public Job poll(long timeout, TimeUnit unit) throws InterruptedException {
        long deadline = System.nanoTime() + Math.max(0, unit.toNanos(timeout));
        while (true) {
            if (Thread.interrupted()) { // one that comes while the server is asked is put off to here
                throw new InterruptedException();
            }
            long asked = System.nanoTime();
            Job job = make(() -> lendToWait(deadline), Use.WAIT,
                session -> taken(session, session.pollFor(waitUntil(deadline))));
            long left = waitUntil(deadline);
            if (job != null || left == 0) {
                return unlessClosed(job);
            }
            NANOSECONDS.sleep(Math.min(left, asked + LEAST_WAIT - System.nanoTime())); // if the wait was given up
        }
    }

    /** Takes the job that expired first, and waits until there is one: as {@link #poll(long, TimeUnit)} does. */
    @Override
    public Job take() throws InterruptedException {
        return poll(Long.MAX_VALUE, NANOSECONDS); // 292 years
    }

    /**
     * Shows the job that expires first or has expired first, and takes nothing out. Returns {@code null} if the queue
     * is empty. If several jobs expire at the same moment, a call that takes one may give another of them.
     */
    @Override
    public Job peek() {
        return make(Use.LOOK, session -> {
            Element element = session.ask(Request.PEEK);
            return element == null ? null : new Job(element, session.contact, null);
        });
    }

    /**
     * Takes a job out of the queue, expired or not, wherever it was offered. Which one is told by its {@link Job#id}: a
     * job that was not offered is in no queue, and one that failed has come back as another.
     */
    @Override
    public boolean remove(Object job) {
        Job.Place place = job instanceof Job it ? it.place : null;
        return place != null && make(() -> pool.lend(place.contact()), Use.CHANGE,
            session -> hasRunOf(place.contact(), session) && session.ask(Request.remove(place.element().id())));
    }

    /** Takes each job of a collection out of the queue, one after the other, as {@link #remove(Object)} does. */
    @Override
    public boolean removeAll(Collection<?> jobs) {
        return jobs.stream().map(this::remove).reduce(false, Boolean::logicalOr);
    }

    /** Takes all jobs out of the queue at once, expired or not, whoever offered them. Held jobs are not in it. */
    @Override
    public void clear() {
        make(Use.CHANGE, session -> session.ask(Request.CLEAR));
    }

    /** How many jobs are in the queue, expired or not. Held jobs are not. */
    @Override
    public int size() {
        long size = make(Use.LOOK, session -> session.ask(Request.SIZE));
        return size < 0 ? Integer.MAX_VALUE : (int) Math.min(size, Integer.MAX_VALUE);
    }

    /** Always {@code Integer.MAX_VALUE}: an offer waits for no room. How many calls a run has left is not told. */
    @Override
    public int remainingCapacity() {
        return Integer.MAX_VALUE;
    }

    /** Takes all jobs that have expired, and adds them to a collection, as {@link #drainTo(Collection, int)} does. */
    @Override
    public int drainTo(Collection<? super Job> jobs) {
        return drainTo(jobs, Integer.MAX_VALUE);
    }

    /**
     * Takes up to a number of jobs that have expired, and adds them to a collection in the order of their expiry. With
     * {@link Acknowledge#BY_CALL} no more than 64 are taken, since a session holds no more: call it again when these
     * are answered. With {@link Acknowledge#ON_TAKE} they are taken 64 at a time, and other clients' calls may come in
     * between. Jobs that the collection refuses by an exception fail, and come back as their next attempts.
     */
    @Override
    public int drainTo(Collection<? super Job> jobs, int most) {
        Objects.requireNonNull(jobs);
        if (jobs == this) {
            throw new IllegalArgumentException("a queue can't be drained to itself");
        }
        int count = 0;
        while (count < most) {
            int asked = Math.min(most - count, Session.MOST_HELD);
            int drained = make(Use.TAKE, session -> drain(session, jobs, asked));
            count += drained;
            if (drained < asked || options.acknowledge() == Acknowledge.BY_CALL) {
                break;
            }
        }
        return count;
    }

    /**
     * Ends all sessions, and waits for that. The jobs that they hold fail and come back to the queue. Threads that wait
     * here get an {@link IllegalStateException}, as does each later call.
     */
    @Override
    public void close() {
        pool.close();
    }

    /** The address of the server. */
    @Override
    public String toString() {
        return "RemoteDelayQueue[" + options.address() + "]";
    }

    /**
     * Can't be had, as the server shows the head alone. It throws an {@link UnsupportedOperationException}, and so does
     * all that is made of it: arrays, streams, {@code contains}.
     */
    @Override
    public Iterator<Job> iterator() {
        throw new UnsupportedOperationException("the server shows no job other than the head");
    }

    /** Can't be had, as {@link #iterator}. */
    @Override
    public Spliterator<Job> spliterator() {
        return Spliterators.spliteratorUnknownSize(iterator(), 0);
    }

    private <T> T make(Use use, Function<Session, T> exchange) {
        return make(() -> pool.lend(use), use, exchange);
    }

    /**
     * Makes a call on a session, and again if that is safe, while the patience lasts: if it was surely not carried out,
     * or if it only looks or takes, as a job that was given to a session which is lost comes back by itself. Returns
     * null if it is lent none.
     */
    private <T> T make(Supplier<Session> lender, Use use, Function<Session, T> exchange) {
        Tries tries = new Tries(use, options);
        while (true) {
            Greeting unheard = null; // of a server that was asked, and has answered nothing
            boolean movesOn = false; // to another server, if there is one
            try {
                Session session = lender.get();
                if (session == null) {
                    return null;
                }
                long answered = session.answered;
                try {
                    return exchange.apply(session);
                } finally {
                    unheard = session.answered == answered ? session.contact.greeting : null;
                    movesOn = session.isClosed || session.isUsedUp;
                    pool.giveBack(session);
                }
            } catch (BrokerException fault) {
                if (use != Use.CHANGE || !(fault.getCause() instanceof EOFException) || !isContinued(unheard)) {
                    tries.pauseAfter(fault, movesOn);
                }
            }
        }
    }

    /**
     * Whether the run of a server that was asked has ended in good order, and another one continues it: such a run
     * answers what it carries out. Behind TLS a proxy may have taken the answer with it.
     */
    private boolean isContinued(Greeting unheard) {
        if (unheard == null || options.tls() != null) {
            return false;
        }
        Tries tries = new Tries(Use.LOOK, options);
        try {
            while (true) {
                Greeting now = make(Use.LOOK, session -> session.contact.greeting);
                if (now == null || now.run() != unheard.run()) {
                    return now != null && now.follows(unheard);
                }
                // A run that ends lets clients in for some more milliseconds.
                tries.pauseAfter(new ServerLostException("run " + now.run() + " goes on", false, new EOFException()),
                    false);
            }
        } catch (BrokerException gone) {
            return false;
        }
    }

    private boolean hasRunOf(Contact contact, Session session) {
        return session.contact == contact || runs.isKnownToContinue(session.contact, contact);
    }

    /** An offer of what is overdue, at its moment. */
    private Element placed(Session session, long deadline, String payload) {
        return session.ask(Request.offerAt(runs.momentOf(deadline), payload));
    }

    /** Takes out an element again. If the run is full, it stays: it has been offered, and must not be once more. */
    private static boolean isTakenBack(Session session, Element element) {
        try {
            return session.ask(Request.remove(element.id()));
        } catch (RefusedException full) {
            return false;
        }
    }

    /** Makes an offer, whose reply tells the server's moment. */
    private Element offerIn(Session session, long delay, String payload) {
        long sent = System.nanoTime();
        Element element = session.ask(Request.offer(delay, payload));
        Contact.Told told = new Contact.Told(element.id(), element.expiry() - delay);
        runs.tell(session.contact, told, sent, System.nanoTime());
        return element;
    }

    /** How long a wait at the server may last. */
    private long waitUntil(long deadline) {
        return Math.max(0, Math.min(deadline - System.nanoTime(), options.longestWait()));
    }

    /** A session for a wait, or null if none can be had now. When the time is over it is one that does not wait. */
    private Session lendToWait(long deadline) {
        Session session = pool.lend(Use.WAIT, waitUntil(deadline));
        return session == null && waitUntil(deadline) == 0 ? pool.lend(Use.TAKE) : session;
    }

    /** The job that a session was given by a call that takes one, or null if it was given none. */
    private Job taken(Session session, Element element) {
        Job job = element == null ? null : given(session, element);
        if (job != null && options.acknowledge() == Acknowledge.ON_TAKE) {
            settle(session, List.of(Request.answer(element.id(), true)));
        }
        return job;
    }

    /** Adds the jobs of one drain. Those that the collection has are acknowledged, if that is due; others come back. */
    private int drain(Session session, Collection<? super Job> jobs, int asked) {
        List<Element> elements = session.drain(asked);
        if (elements.isEmpty() && session.held.size() >= Session.MOST_HELD) {
            throw new RefusedException(Reason.TOO_MANY_HELD);
        }
        int count = 0;
        try {
            for (Element element : elements) {
                jobs.add(given(session, element));
                count++;
            }
        } finally {
            List<Request<Boolean>> answers = new ArrayList<>();
            for (Element element : elements.subList(count, elements.size())) {
                session.held.remove(element.id());
                answers.add(Request.answer(element.id(), false));
            }
            if (options.acknowledge() == Acknowledge.ON_TAKE) {
                elements.subList(0, count).forEach(it -> answers.add(Request.answer(it.id(), true)));
            }
            settle(session, answers);
        }
        return count;
    }

    /** Answers jobs that the caller has already, or never gets. No fault of that is the caller's. */
    private void settle(Session session, List<Request<Boolean>> answers) {
        try {
            if (!answers.isEmpty()) {
                session.askAll(answers);
            }
        } catch (BrokerException fault) {
            LOG.log(Level.WARNING, "a job that was taken may be given again: {0}", fault.getMessage());
        }
    }

    /** The job of an element that a session was given, which holds it unless it is acknowledged when it is taken. */
    private Job given(Session session, Element element) {
        if (options.acknowledge() == Acknowledge.ON_TAKE) {
            return new Job(element, session.contact, isDone -> {
                if (!isDone) {
                    throw new RefusedException(Reason.NOT_HELD);
                }
                return false;
            });
        }
        session.held.add(element.id());
        return new Job(element, session.contact, isDone -> answer(session, element.id(), isDone));
    }

    /** Answers a job on the session that holds it. Returns whether it comes back. */
    private boolean answer(Session session, long id, boolean isDone) {
        pool.lend(session, id);
        try {
            boolean comesBack = session.ask(Request.answer(id, isDone));
            session.held.remove(id);
            return comesBack;
        } catch (RefusedException refusal) {
            if (refusal.reason() != Reason.MEMORY) { // else the job is gone, and its session need not be kept for it
                session.held.remove(id);
            }
            throw refusal;
        } finally {
            pool.giveBack(session);
        }
    }

    /** The job, unless the queue was closed meanwhile, by which a job that is held went back. */
    private Job unlessClosed(Job job) {
        if (job != null && options.acknowledge() == Acknowledge.BY_CALL && pool.isClosed) {
            throw new IllegalStateException("the queue was closed, and the job that it took went back");
        }
        return job;
    }
}

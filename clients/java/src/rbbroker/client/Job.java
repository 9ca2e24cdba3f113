package rbbroker.client;

import static java.util.concurrent.TimeUnit.NANOSECONDS;

import java.util.concurrent.Delayed;
import java.util.concurrent.TimeUnit;
import java.util.function.Predicate;
import java.util.regex.Pattern;
import rbbroker.client.Request.Element;

/**
 * An element of a {@link RemoteDelayQueue}: a payload and the delay after which it may be taken.
 *
 * <p>A caller makes a job and offers it. From then on the job has the {@link #id} and the expiry that the server gave
 * it. What a queue gives back is another object, which is {@linkplain #equals equal}. With {@link Acknowledge#BY_CALL}
 * a job that was taken has to be answered, by {@link #done} or {@link #fail}.
 *
 * <p>Jobs can be elements of {@link java.util.concurrent.DelayQueue} too. Any thread may use any job.
 */
public final class Job implements Delayed {
    private static final Pattern PAYLOAD = Pattern.compile(Request.PAYLOAD);

    private final String payload;
    /** When it expires by {@link System#nanoTime}, if it was not offered. */
    private final long deadline;
    /** Answers it: told whether it is done, it gives whether the job comes back. It is null if it was not taken. */
    private final Predicate<Boolean> holder;
    /** Where a server's queue has it, or had it before it was given. It is null until the job is offered. */
    volatile Place place;

    /** An element of the queue that a contact shows. */
    record Place(Contact contact, Element element) { }

    /**
     * Makes a job that may be taken once a delay has passed, counted from now.
     *
     * @param payload 1 to 64 characters of printable ASCII, none of which is a space
     * @param delay how long; zero or less means at once. One of more than 292 years counts as 292 years
     * @param unit the unit of the delay
     * @throws IllegalArgumentException if the payload is anything else
     */
    public Job(String payload, long delay, TimeUnit unit) {
        this(payload, System.nanoTime() + Math.max(Long.MIN_VALUE / 2, unit.toNanos(delay)));
    }

    /** Makes a job that expires at this time of {@link System#nanoTime}. */
    Job(String payload, long deadline) {
        if (!PAYLOAD.matcher(payload).matches()) {
            throw new IllegalArgumentException("a payload is 1 to 64 characters of printable ASCII without spaces");
        }
        this.payload = payload;
        this.deadline = deadline;
        holder = null;
    }

    /** Makes a job that a server's queue has given, or has shown if nobody holds it. */
    Job(Element element, Contact contact, Predicate<Boolean> holder) {
        payload = element.payload();
        deadline = 0;
        place = new Place(contact, element);
        this.holder = holder;
    }

    /** {@return what the job is about} */
    public String payload() {
        return payload;
    }

    /**
     * {@return the number of this attempt at the server, unsigned} A job that comes back has a new one.
     *
     * @throws IllegalStateException if the job has not been offered
     */
    public long id() {
        Place here = place;
        if (here == null) {
            throw new IllegalStateException("the job has not been offered");
        }
        return here.element.id();
    }

    /** {@return how often the job has been offered, 1 to 1,000: by its producer, and each time that it failed} */
    public int attempt() {
        Place here = place;
        return here == null ? 1 : here.element.attempt();
    }

    /**
     * The time until the job may be taken; zero or less once it may. Once the job was offered, the server's clock tells
     * it, of which the queue learns from the replies to its offers. It is never over before it is over at the server,
     * unless the server has been replaced since the last offer.
     *
     * <p>A queue that has offered no job knows no clock. The delay of a job that it shows is then the server's moment
     * at which it expires, the most that it can be. One of more than 292 years is {@link Long#MAX_VALUE} nanoseconds.
     */
    @Override
    public long getDelay(TimeUnit unit) {
        return unit.convert(delay(), NANOSECONDS);
    }

    /** Compares by the delay that is left. Two jobs may compare as 0 and not be equal. */
    @Override
    public int compareTo(Delayed other) {
        if (other instanceof Job that) {
            Place here = place;
            Place there = that.place;
            if (here == null && there == null) {
                long now = System.nanoTime();
                return Long.compare(deadline - now, that.deadline - now);
            }
            if (here != null && there != null && here.contact.runs == there.contact.runs) {
                return Long.compareUnsigned(here.element.expiry(), there.element.expiry());
            }
        }
        return Long.compare(delay(), other.getDelay(NANOSECONDS));
    }

    /**
     * The job is finished, and leaves the queue for ever. Nothing happens if it was {@linkplain Acknowledge#ON_TAKE
     * acknowledged when it was taken}.
     *
     * @throws RefusedException if the job was not taken, or has been answered before
     * @throws ServerLostException if the session that held the job has ended; in doubt if the server may have heard
     *         that the job is done, otherwise the job comes back as its next attempt
     */
    public void done() {
        answer(true);
    }

    /**
     * The job failed. It is offered again as its next attempt, after the delay that the server was told, unless this
     * was its last one.
     *
     * @return whether the job comes back
     * @throws RefusedException {@link RefusedException.Reason#NOT_HELD NOT_HELD} if the job was not taken, or has been
     *         answered before, or was acknowledged when it was taken; {@link RefusedException.Reason#FULL FULL} if the
     *         run takes no job back, so that the job is gone from the queue; or {@link RefusedException.Reason#MEMORY
     *         MEMORY} if the server has no memory for it now, so that the job is held on, and may be answered again
     * @throws ServerLostException if the session that held the job has ended, by which the job failed
     */
    public boolean fail() {
        return answer(false);
    }

    /** Whether the other is the same attempt of the same job. A job that was not offered equals none but itself. */
    @Override
    public boolean equals(Object other) {
        if (!(other instanceof Job that)) {
            return false;
        }
        Place here = place;
        Place there = that.place;
        return this == that || here != null && there != null && here.element.equals(there.element);
    }

    /** The hash code of the payload, which an offer does not change. */
    @Override
    public int hashCode() {
        return payload.hashCode();
    }

    /** The payload with the job's id and attempt, if it was offered. */
    @Override
    public String toString() {
        Place here = place;
        return "job " + payload + (here == null ? ", not offered"
            : ", id " + Long.toUnsignedString(here.element.id()) + ", attempt " + here.element.attempt());
    }

    /** When it expires by {@link System#nanoTime}. */
    long deadline() {
        return place == null ? deadline : System.nanoTime() + delay();
    }

    private long delay() {
        Place here = place;
        if (here == null) {
            return deadline - System.nanoTime();
        }
        long delay = here.contact.runs.until(here.element.expiry());
        return holder == null ? delay : Math.min(0, delay);
    }

    private boolean answer(boolean isDone) {
        if (holder == null) {
            throw new RefusedException(RefusedException.Reason.NOT_HELD);
        }
        return holder.test(isDone);
    }
}

package rbbroker.client;

import java.time.Duration;

/**
 * What a server has lost: what it accepted from one moment of its clock on, until its present run began, is in doubt.
 *
 * @param since the first moment, in nanoseconds, unsigned
 * @param until the moment at which the present run began; 2^64 - 1 if nothing is known
 */
public record LostRun(long since, long until) {
    /** All that was accepted before. */
    static final LostRun ALL = new LostRun(0, -1);

    /** {@return for how long before its present run began the server accepted what is in doubt} */
    public Duration length() {
        return Duration.ofNanos(until - since < 0 ? Long.MAX_VALUE : until - since);
    }
}

package rbbroker.client;

import java.util.Map;

/**
 * What one session shows of its server: since when and until when it was surely there, and how far its clock is ahead
 * of {@link System#nanoTime}.
 *
 * <p>Times are of {@link System#nanoTime}. They and moments go round at 64 bits, so differences are compared and not
 * numbers. A job that one queue offered may be removed by another, so any thread may read a contact.
 */
final class Contact {
    /** The clocks of two machines drift by a nanosecond in this many, at the most. */
    private static final int DRIFT = 4_096;

    final Runs runs;
    /** What the server said first, or null if it is one that does not greet. */
    final Greeting greeting;
    /** What was told last of each queue before the session began. */
    final Map<Integer, Told> before;
    private final long since = System.nanoTime();
    /** When the last request that was answered was sent. */
    volatile long until = since;
    /** Whether the server's moment was told. */
    volatile boolean isTold;
    /** How far the server's clock is ahead is between these two. */
    private volatile long least;
    private volatile long most;
    /** How many runs were seen to be lost when its moment was told. */
    volatile int losses;
    /** A later contact, whose server has all that the one here had. */
    volatile Contact continuedBy;

    /** An id that a server gave, and its moment then. Both are unsigned. */
    record Told(long id, long moment) {
        /** A moment from this on is a date: that of a broker on a Redis. No server has run for 36 years. */
        private static final long FIRST_DATE = 1L << 60;
        /** So many queues such a broker may have under one name. Its ids count by this number, from the queue's. */
        private static final long QUEUES = 64;

        /** The number of the queue, which has ids and a clock of its own, or -1 for the only one. */
        int queue() {
            boolean isDate = Long.compareUnsigned(moment, FIRST_DATE) >= 0;
            return isDate ? (int) Long.remainderUnsigned(id, QUEUES) : -1;
        }

        /** Whether the queue of which this is told lost the run in which the other was told of it before. */
        boolean isBehind(Told other) {
            return Long.compareUnsigned(id, other.id) <= 0 || Long.compareUnsigned(moment, other.moment) < 0;
        }
    }

    /** A server has just answered in a session for the first time. Before that this was told last of its queues. */
    Contact(Runs runs, Greeting greeting, Map<Integer, Told> before) {
        this.runs = runs;
        this.greeting = greeting;
        this.before = Map.copyOf(before);
    }

    /** The server's clock read {@code moment} at some time between these two. */
    void learn(long moment, long sent, long received) {
        least = isTold && least - (moment - received) > 0 ? least : moment - received;
        most = isTold && most - (moment - sent) < 0 ? most : moment - sent;
        isTold = true;
    }

    /**
     * Whether the server here surely has all that the server of an earlier contact had: it is the same one, or
     * continues its run. A server that greets says so.
     *
     * <p>At another one, if that run had been lost, the clock here would be behind by at least the time for which the
     * lost server was there: a run that takes its place goes on at the moment at which it began, or an earlier one. So
     * the run was not lost if the clocks differ by less than the earlier contact lasted.
     */
    boolean continues(Contact earlier) {
        if (greeting != null && earlier.greeting != null) {
            return greeting.continues(earlier.greeting);
        }
        long lasted = earlier.until - earlier.since - Math.max(0, since - earlier.until) / DRIFT;
        return isTold && earlier.isTold && earlier.losses == earlier.runs.losses && earlier.most - least < lasted
            && least - earlier.most < lasted;
    }

    /** The last contact that is known to continue it, from one to the next. */
    Contact last() {
        Contact last = this;
        while (last.continuedBy != null) {
            last = last.continuedBy;
        }
        continuedBy = last == this ? null : last;
        return last;
    }
}

package rbbroker.client;

/**
 * What a server of a service says first in each session: the number of its run, how many were lost before it, and the
 * moment of its clock at which it began. All are unsigned.
 */
record Greeting(long run, long lost, long moment) {
    /** Whether the run here is that of an earlier greeting, or continues it, and none was lost between them. */
    boolean continues(Greeting earlier) {
        return lost == earlier.lost && Long.compareUnsigned(run, earlier.run) >= 0;
    }

    /** Whether the run of an earlier greeting has ended in good order, and the one here continues it. */
    boolean follows(Greeting earlier) {
        return continues(earlier) && run != earlier.run && Long.compareUnsigned(moment, earlier.moment) >= 0;
    }

    /** What is in doubt if the run here does not continue that of an earlier greeting. */
    LostRun lostSince(Greeting earlier) {
        boolean isLater = Long.compareUnsigned(run, earlier.run) > 0
            && Long.compareUnsigned(moment, earlier.moment) >= 0; // else it is another service
        return isLater ? new LostRun(earlier.moment, moment) : LostRun.ALL;
    }
}

package rbbroker.client;

/** When the server is told that a job which was taken is finished. */
public enum Acknowledge {
    /**
     * At once, before the call that took it returns: the job leaves the queue for ever, as an element of
     * {@link java.util.concurrent.DelayQueue} does, also if the program dies while it works on the job.
     */
    ON_TAKE,

    /**
     * When the caller says so, by {@link Job#done} or {@link Job#fail}. Until then the job is held for this program,
     * and comes back to the queue as its next attempt if the program dies, is disconnected, or closes the queue. A job
     * that is never answered keeps its session, and with it the server, for as long as the queue is open.
     */
    BY_CALL
}

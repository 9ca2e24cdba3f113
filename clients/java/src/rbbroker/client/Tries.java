package rbbroker.client;

import java.util.concurrent.ThreadLocalRandom;
import java.util.concurrent.TimeUnit;
import java.util.concurrent.locks.LockSupport;
import rbbroker.client.Session.Use;

/**
 * The tries of one call, which is made again while its faults may pass and its patience lasts. A server that serves no
 * more is followed by the next one without a pause, once for each other one.
 *
 * <p>Each pause between two tries is twice as long as the one before, up to a longest. From that a random part is taken
 * off, up to a half: clients that lose their server at the same moment do not all come back at the same moment.
 */
final class Tries {
    private static final long LONGEST_PAUSE = TimeUnit.SECONDS.toNanos(2);

    private final Use use;
    private final long patience;
    private final long begun = System.nanoTime();
    private long nextPause = TimeUnit.MILLISECONDS.toNanos(100);
    private BrokerException doubt;
    /** How many tries may follow without a pause. */
    private int atOnce;

    Tries(Use use, Options options) {
        this.use = use;
        patience = options.patience();
        atOnce = options.addresses().size() - 1;
    }

    /**
     * Pauses after a fault, before the next try, unless that can be at another server. Throws the fault if there is to
     * be none: once a try is in doubt, no later one takes that back. An interrupt ends the pause, and all tries of a
     * call that does not wait.
     */
    void pauseAfter(BrokerException fault, boolean movesOn) {
        boolean isInDoubt = fault instanceof ServerLostException lost && lost.isInDoubt();
        if (!fault.mayPass || isInDoubt && use == Use.CHANGE) {
            throw fault;
        }
        doubt = doubt == null && isInDoubt ? fault : doubt;
        long pause = 0;
        if (!movesOn || atOnce-- <= 0) {
            pause = nextPause - ThreadLocalRandom.current().nextLong(nextPause / 2);
            nextPause = Math.min(2 * nextPause, LONGEST_PAUSE);
        }
        boolean isOver = System.nanoTime() - begun + pause > patience;
        if (!isOver && pause > 0) {
            LockSupport.parkNanos(pause);
        }
        if (isOver || use != Use.WAIT && Thread.currentThread().isInterrupted()) {
            throw doubt == null ? fault : doubt;
        }
    }
}

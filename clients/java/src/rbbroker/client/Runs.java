package rbbroker.client;

import java.lang.System.Logger.Level;
import java.util.HashMap;
import java.util.Map;
import java.util.function.Consumer;

/**
 * The runs of the server at one address, as the sessions of a queue show them.
 *
 * <p>A server that is killed loses its run. The next one goes on where that one had begun, and gives its ids again, to
 * other jobs. So an id of an earlier session is used only if the server surely has what that session's had, which the
 * clocks of both show ({@link Contact#continues}).
 */
final class Runs {
    private static final System.Logger LOG = System.getLogger("rbbroker.client");

    private final String address;
    /** Is told of each run that was lost. */
    private final Consumer<LostRun> onLostRun;
    /** The last one, if the server greets. */
    private Greeting greeting;
    /** How far the server's clock is surely ahead of {@link System#nanoTime}, if anything is known of it. */
    private long ahead;
    private boolean isClockKnown;
    /** The contact whose moment was told for the first time last. */
    private Contact latest;
    /** The one before, unless the latest is known to continue it. */
    private Contact previous;
    /** The greatest id of each queue, with its moment. */
    private final Map<Integer, Contact.Told> greatest = new HashMap<>();
    /** How many were seen to be lost. */
    volatile int losses;

    Runs(String address, Consumer<LostRun> onLostRun) {
        this.address = address;
        this.onLostRun = onLostRun;
    }

    /** A session has begun: its server has answered, and has said this first, or nothing, which is null. */
    synchronized Contact begin(Greeting now) {
        if (now != null && greeting != null && !now.continues(greeting)) {
            LostRun lost = now.lostSince(greeting);
            isClockKnown &= lost != LostRun.ALL;
            LOG.log(Level.WARNING, "the server at {0} has lost a run: what it accepted in the {1} seconds before its"
                + " run {2} is in doubt", address, lost.length().toSeconds(), Long.toUnsignedString(now.run()));
            lose(lost);
        }
        greeting = now;
        return new Contact(this, now, greatest);
    }

    private void lose(LostRun lost) {
        greatest.clear();
        losses++;
        new Thread(() -> onLostRun.accept(lost), "rbbroker.client-tells").start(); // it may use the queue
    }

    /** A server was lost: the next one has a clock of its own, unless it is of a service, whose clock goes on. */
    synchronized void forgetClock() {
        isClockKnown &= greeting != null;
    }

    /** Whether a moment is known in a session which shows this. Most calls need no lock to see it. */
    boolean isClockKnown(Contact contact) {
        return contact.isTold || contact.greeting != null && isClockKnown();
    }

    private synchronized boolean isClockKnown() {
        return isClockKnown;
    }

    /** The nanoseconds until a moment at the server, at the most. If nothing is known they count from moment 0. */
    synchronized long until(long moment) {
        long now = isClockKnown ? System.nanoTime() + ahead : 0;
        long delay = moment - now;
        boolean isToCome = Long.compareUnsigned(moment, now) >= 0;
        return isToCome == delay >= 0 ? delay : isToCome ? Long.MAX_VALUE : Long.MIN_VALUE;
    }

    /** The server's moment at a time that has passed: 0 if it passed before the server's first. */
    synchronized long momentOf(long time) {
        long now = System.nanoTime();
        return Long.compareUnsigned(now + ahead, now - time) < 0 ? 0 : time + ahead;
    }

    /** A server gave a new id to an offer, which was sent and answered at these times of {@link System#nanoTime}. */
    synchronized void tell(Contact contact, Contact.Told told, long sent, long received) {
        if (!contact.isTold) {
            noticeLoss(told, contact.before.get(told.queue()));
            contact.losses = losses;
            previous = latest;
            latest = contact;
        }
        contact.learn(told.moment(), sent, received);
        boolean isAnothers = told.moment() - sent - ahead < 0; // as it is behind what was known
        long least = told.moment() - received;
        ahead = isClockKnown && !isAnothers && least - ahead < 0 ? ahead : least;
        isClockKnown = true;
        if (contact == latest && previous != null && contact.continues(previous)) {
            previous.continuedBy = contact;
            previous = null;
        }
        greatest.merge(told.queue(), told, (before, now) -> now.isBehind(before) ? before : now);
    }

    /** Whether the server of a contact surely has all that the one of an earlier contact had. Says so if not. */
    synchronized boolean isKnownToContinue(Contact contact, Contact earlier) {
        Contact last = earlier.last();
        boolean isKnown = last == contact.last() || contact.continues(last) || contact.continues(earlier);
        if (!isKnown) {
            LOG.log(Level.WARNING, "a job is not removed: the server at {0} may have lost its run", address);
        }
        return isKnown;
    }

    /** Says so, once, if what a server tells first shows that it lost the run in which the other was told before. */
    private void noticeLoss(Contact.Told told, Contact.Told before) {
        if (before == null || !told.isBehind(before)) {
            return;
        }
        Contact.Told known = greatest.get(told.queue());
        if (known != before && (known == null || known.isBehind(before))) {
            return; // it was said when another session was told
        }
        lose(LostRun.ALL);
        LOG.log(Level.ERROR, "the server at {0} has lost a run: it gave the id {1} at the moment {2}, after the id {3}"
            + " at {4}. Jobs that were offered since that run began may be gone, and their ids are not used any more",
            address, Long.toUnsignedString(told.id()), Long.toUnsignedString(told.moment()),
            Long.toUnsignedString(before.id()), Long.toUnsignedString(before.moment()));
    }
}

package rbbroker.client;

import java.io.IOException;
import java.net.ProtocolException;
import java.util.Objects;
import javax.net.ssl.SSLException;

/**
 * There is no server, it serves nobody else at the moment, or it was lost before it answered.
 *
 * <p>The cause is a {@link ProtocolException} if the other side sent a line that answers no such request, and an
 * {@link SSLException} if there is no TLS with it, such as where one side does not accept the other's certificate. The
 * same call would meet the same fault then, so it is not made again.
 *
 * <p>A call {@linkplain #isInDoubt in doubt} may have been carried out. A job whose offer is in doubt may run twice if
 * it is offered again, and never if it is not. Jobs that a call in doubt was given fail with their session, and come
 * back to the queue as their next attempts, unless these were their last ones. So does a job whose {@link Job#done} was
 * not heard. One whose {@link Job#fail} is in doubt has failed either way.
 */
public final class ServerLostException extends BrokerException {
    private static final long serialVersionUID = 1;

    /** Whether the server may have carried out the call. */
    private final boolean isInDoubt;

    ServerLostException(String text, boolean isInDoubt, IOException cause) {
        super(text + ": " + Objects.requireNonNullElse(cause.getMessage(), cause.getClass().getSimpleName())
            + (isInDoubt ? "; the call is in doubt" : ""), mayPass(cause), cause);
        this.isInDoubt = isInDoubt;
    }

    /** Whether the other side is not known to be another one than it must be. */
    private static boolean mayPass(IOException cause) {
        boolean isTls = cause instanceof SSLException && !(cause.getCause() instanceof IOException);
        return !isTls && !(cause instanceof ProtocolException);
    }

    /** {@return whether the server may have carried out the call; if not, it surely did not} */
    public boolean isInDoubt() {
        return isInDoubt;
    }
}

package rbbroker.client;

/** What may become of a call other than its result: it was refused, or the server was lost. */
public abstract class BrokerException extends RuntimeException {
    private static final long serialVersionUID = 1;

    /** Whether the same call may succeed later. */
    final boolean mayPass;

    BrokerException(String text, boolean mayPass, Throwable cause) {
        super(text, cause);
        this.mayPass = mayPass;
    }
}

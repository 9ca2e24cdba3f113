package rbbroker.client;

import java.util.Arrays;
import java.util.Map;
import java.util.stream.Collectors;

/** The server refused the request and changed nothing. */
public final class RefusedException extends BrokerException {
    private static final long serialVersionUID = 1;

    /** Why a server refuses a request. */
    public enum Reason {
        /** {@code ERR 3}: the job would expire after 2<sup>64</sup> - 1, the last moment of the server's clock. */
        RANGE("ERR 3 range", "it would expire after the last moment of the server's clock"),
        /** {@code ERR 5}: the job was not taken, or was answered before, or was acknowledged when it was taken. */
        NOT_HELD("ERR 5 not-held", "the job is not held"),
        /**
         * {@code ERR 6}: the run has made all the calls that it has room for, and no other server took its place in
         * time. A job whose failure it refuses is gone from the queue.
         */
        FULL("ERR 6 full", "the run has made all the calls that it has room for, and takes no failed job back"),
        /** {@code ERR 7}: the server has no memory for it now. The same call may be made again. */
        MEMORY("ERR 7 memory", "the server has no memory for it now"),
        /** {@code ERR 9}: the session holds 64 jobs, and can be given no more before some are done or fail. */
        TOO_MANY_HELD("ERR 9 held", "the session holds as many jobs as it may; finish some first");

        private final String reply;
        private final String text;

        Reason(String reply, String text) {
            this.reply = reply;
            this.text = text;
        }
    }

    /** The reasons by the reply lines that tell them. */
    static final Map<String, Reason> BY_REPLY =
        Arrays.stream(Reason.values()).collect(Collectors.toMap(it -> it.reply, it -> it));

    /** Why. */
    private final Reason reason;

    RefusedException(Reason reason) {
        super(reason.reply + ": " + reason.text, reason == Reason.FULL || reason == Reason.MEMORY, null);
        this.reason = reason;
    }

    /** {@return why the server refused the request} */
    public Reason reason() {
        return reason;
    }
}

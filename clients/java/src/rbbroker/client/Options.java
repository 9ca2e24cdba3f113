package rbbroker.client;

import java.util.List;
import java.util.stream.Collectors;
import javax.net.ssl.SSLSocketFactory;

/** How a queue deals with its servers. Times are nanoseconds; without TLS the factory is null. */
record Options(List<Address> addresses, SSLSocketFactory tls, Acknowledge acknowledge, int waiters, long longestWait,
               long patience, long overdue) {
    String address() {
        return addresses.stream().map(Address::name).collect(Collectors.joining(","));
    }

    /** Whether there is another server to go to. */
    boolean areSeveral() {
        return addresses.size() > 1;
    }
}

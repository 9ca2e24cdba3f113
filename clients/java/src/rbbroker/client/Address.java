package rbbroker.client;

import java.util.ArrayList;
import java.util.List;
import java.util.regex.Matcher;
import java.util.regex.Pattern;

/** Where a server is, and what a log or a fault calls it. */
record Address(String host, int port, String name) {
    private static final Pattern FORM = Pattern.compile("(?:\\[([^\\]\\[,\\s]+)\\]|([^\\]\\[:,\\s]+)):([0-9]{1,5})");

    /** The server at a port of a host. */
    static Address at(String host, int port) {
        return new Address(host, checkedPort(port), host + ":" + port);
    }

    static int checkedPort(int port) {
        if (port < 1 || port > 65_535) {
            throw new IllegalArgumentException("a port is 1 to 65535, not " + port);
        }
        return port;
    }

    /**
     * Those of {@code HOST:PORT,HOST:PORT}. One that stands twice is refused: it is rather meant to be another than to
     * be tried twice.
     */
    static List<Address> read(String text) {
        List<Address> addresses = new ArrayList<>();
        for (String part : text.split(",", -1)) {
            Matcher words = FORM.matcher(part);
            int port = words.matches() ? Integer.parseInt(words.group(3)) : 0;
            if (port < 1 || port > 65_535) {
                throw new IllegalArgumentException(
                    "'" + part + "' is no address, such as gateway-1:7011 or [::1]:7011");
            }
            String host = words.group(1) == null ? words.group(2) : words.group(1);
            if (addresses.stream().anyMatch(it -> it.host.equals(host) && it.port == port)) {
                throw new IllegalArgumentException("the address " + part + " stands twice");
            }
            addresses.add(new Address(host, port, part));
        }
        return List.copyOf(addresses);
    }
}

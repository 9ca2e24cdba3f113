package rbbroker.client;

import java.io.IOException;
import java.nio.file.Path;
import java.security.GeneralSecurityException;
import java.security.KeyStore;
import java.util.stream.Stream;
import javax.net.ssl.KeyManagerFactory;
import javax.net.ssl.SSLContext;
import javax.net.ssl.TrustManagerFactory;

/**
 * Certificates that the JDK's {@code keytool} makes: of two authorities, {@code authority} and
 * {@code stranger}, and of whom the first has signed: {@code server}, {@code expired} and {@code client}.
 */
final class Certificates {
    private static final char[] PASSWORD = "changeit".toCharArray();

    private final Path path;
    private final KeyStore store;

    /** Makes a store at this path. */
    Certificates(Path path) throws Exception {
        this.path = path;
        make("authority", "-ext", "bc:c");
        make("stranger", "-ext", "bc:c");
        make("server", "-signer", "authority", "-ext", "san=ip:127.0.0.1");
        make("expired", "-signer", "authority", "-ext", "san=ip:127.0.0.1", "-startdate", "-3d", "-validity", "1");
        make("client", "-signer", "authority");
        store = KeyStore.getInstance(path.toFile(), PASSWORD);
    }

    /** A side that shows the certificate of this name, if it is not null, and trusts this authority. */
    SSLContext context(String name, String authority) throws GeneralSecurityException, IOException {
        KeyStore own = empty();
        if (name != null) {
            own.setKeyEntry(name, store.getKey(name, PASSWORD), PASSWORD, store.getCertificateChain(name));
        }
        KeyManagerFactory keys = KeyManagerFactory.getInstance("PKIX");
        keys.init(own, PASSWORD);
        KeyStore trusted = empty();
        trusted.setCertificateEntry(authority, store.getCertificate(authority));
        TrustManagerFactory trust = TrustManagerFactory.getInstance("PKIX");
        trust.init(trusted);
        SSLContext context = SSLContext.getInstance("TLS");
        context.init(keys.getKeyManagers(), trust.getTrustManagers(), null);
        return context;
    }

    private static KeyStore empty() throws GeneralSecurityException, IOException {
        KeyStore empty = KeyStore.getInstance("PKCS12");
        empty.load(null, null);
        return empty;
    }

    private void make(String name, String... options) throws Exception {
        String keytool = Path.of(System.getProperty("java.home"), "bin", "keytool").toString();
        Stream<String> words = Stream.of(keytool, "-genkeypair", "-alias", name, "-dname", "CN=" + name, "-keyalg",
            "EC", "-keystore", path.toString(), "-storetype", "PKCS12", "-storepass", "changeit");
        Server.said(Stream.concat(words, Stream.of(options)));
    }
}

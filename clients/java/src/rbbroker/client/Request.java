package rbbroker.client;

import java.io.EOFException;
import java.io.IOException;
import java.io.InputStream;
import java.net.ProtocolException;
import java.util.ArrayList;
import java.util.List;
import java.util.function.Function;
import java.util.regex.MatchResult;
import java.util.regex.Matcher;
import java.util.regex.Pattern;

/**
 * A request: its line without the line feed, how many nanoseconds it may wait at the server, the form of the first line
 * of its reply, and what reads that line and those that follow.
 *
 * <p>Replies are read as strictly as the protocol has them: one space between two words, numbers without leading zeros,
 * payloads of printable ASCII. Ids and moments are unsigned.
 */
record Request<T>(String line, long longestWait, Pattern form, Reader<T> reader) {
    static final String PAYLOAD = "[!-~]{1,64}";
    /** Characters of the longest reply line. */
    private static final int LONGEST_REPLY = 116;

    private static final Pattern OFFERED = form("OFFERED # #");
    private static final Pattern AWAITED = form("ITEM @|NONE|STOPPED");
    private static final Pattern DRAINED = form("DRAINED ([1-5]?[0-9]|6[0-4])");
    private static final Pattern ITEM = form("ITEM @");
    private static final Pattern REMOVED = form("REMOVED (yes|no)");

    private static final Pattern REFUSED = form("ERR 1 syntax|NOW #");

    /**
     * Of no effect and no call: the {@code AT} that a server refuses. Its reply tells that the session is served. It
     * gives what the server said before, if it is one that greets, or null.
     */
    static final Request<Greeting> GREETING =
        new Request<>("AT 0", 0, form("RUN # lost # at #|ERR 1 syntax|NOW #"), (first, rest) -> {
            if (first.group(1) == null) {
                number(first, 4);
                return null;
            }
            number(matched(REFUSED, receiveLine(rest)), 1);
            return new Greeting(number(first, 1), number(first, 2), number(first, 3));
        });
    /** What a wait gives that the server gave up. */
    static final Element STOPPED = new Element(0, 0, 0, "");
    /** Takes a job that has expired, or returns null. */
    static final Request<Element> POLL = of("POLL", form("ITEM @|NONE"), Request::element);
    /** Shows the head, or returns null. */
    static final Request<Element> PEEK = of("PEEK", form("HEAD @|NONE"), Request::element);
    /** Takes all elements out of the queue. */
    static final Request<Void> CLEAR = of("CLEAR", form("CLEARED"), it -> null);
    /** Counts the elements in the queue. */
    static final Request<Long> SIZE = of("SIZE", form("SIZE #"), it -> number(it, 1));
    /** Ends the session. */
    static final Request<Void> QUIT = of("QUIT", form("BYE"), it -> null);

    /** Reads a reply, whose first line is of the right form. Further ones can be received. */
    interface Reader<T> {
        T read(MatchResult first, InputStream rest) throws IOException;
    }

    /** An element as the server tells it. */
    record Element(long id, long expiry, int attempt, String payload) { }

    /** Adds an element that expires {@code delay} nanoseconds from now. */
    static Request<Element> offer(long delay, String payload) {
        return of("OFFER " + Long.toUnsignedString(delay) + " " + payload, OFFERED, it -> offered(it, payload));
    }

    /** Adds an element that expires at {@code expiry}. */
    static Request<Element> offerAt(long expiry, String payload) {
        return of("OFFERAT " + Long.toUnsignedString(expiry) + " " + payload, OFFERED, it -> offered(it, payload));
    }

    /** Takes a job, and waits for one up to {@code timeout} nanoseconds. Returns null, or {@link #STOPPED}. */
    static Request<Element> pollFor(long timeout) {
        return new Request<>("POLLFOR " + timeout, timeout, AWAITED,
            (first, rest) -> first.group().equals("STOPPED") ? STOPPED : element(first));
    }

    /** Takes up to {@code most} jobs that have expired, and no more than the session may hold. */
    static Request<List<Element>> drain(int most) {
        return new Request<>("DRAIN " + most, 0, DRAINED, (first, rest) -> {
            List<Element> elements = new ArrayList<>();
            for (long left = number(first, 1); left > 0; left--) {
                elements.add(element(matched(ITEM, receiveLine(rest))));
            }
            return elements;
        });
    }

    /** Says that the job that is held under this id is done, or that it failed. Returns whether it comes back. */
    static Request<Boolean> answer(long id, boolean isDone) {
        String name = Long.toUnsignedString(id);
        return isDone ? of("DONE " + name, form("DONE " + name), it -> false)
            : of("FAIL " + name, form("AGAIN # #|DEAD " + name), it -> it.group(1) != null && offered(it, "") != null);
    }

    /** Takes the element of this id out of the queue. Returns whether it was there. */
    static Request<Boolean> remove(long id) {
        return of("REMOVE " + Long.toUnsignedString(id), REMOVED, it -> it.group(1).equals("yes"));
    }

    /** Receives the reply. Throws a {@link RefusedException}, or a {@link ProtocolException} if it is no such reply. */
    T receive(InputStream input) throws IOException {
        String line = receiveLine(input);
        if (RefusedException.BY_REPLY.containsKey(line)) {
            throw new RefusedException(RefusedException.BY_REPLY.get(line));
        }
        try {
            return reader.read(matched(form, line), input);
        } catch (IllegalArgumentException wrongNumber) {
            throw new ProtocolException("it sent '" + line + "'");
        }
    }

    /** The next line, without its line feed. Each byte is a character. */
    private static String receiveLine(InputStream input) throws IOException {
        var line = new StringBuilder();
        for (int it = input.read(); it != '\n'; it = input.read()) {
            if (it < 0) {
                throw new EOFException("the server closed the connection");
            }
            if (line.length() == LONGEST_REPLY) {
                throw new ProtocolException("it sent '" + line + "..'");
            }
            line.append((char) it);
        }
        return line.toString();
    }

    /** A request that does not wait, and whose reply is one line. */
    private static <T> Request<T> of(String line, Pattern form, Function<MatchResult, T> reading) {
        return new Request<>(line, 0, form, (first, rest) -> reading.apply(first));
    }

    /** The pattern of a form of lines, where # stands for a number, and @ for what is told of an element. */
    private static Pattern form(String form) {
        return Pattern.compile(form.replace("@", "# # ([1-9][0-9]{0,2}|1000) (" + PAYLOAD + ")")
            .replace("#", "(0|[1-9][0-9]*)"));
    }

    private static MatchResult matched(Pattern form, String line) throws ProtocolException {
        Matcher words = form.matcher(line);
        if (!words.matches()) {
            throw new ProtocolException("it sent '" + line + "'");
        }
        return words;
    }

    /** The number that a group of a form has matched, or 0 if it has matched nothing. */
    private static long number(MatchResult words, int group) {
        return words.group(group) == null ? 0 : Long.parseUnsignedLong(words.group(group));
    }

    /** The first attempt of an element that the queue accepted. */
    private static Element offered(MatchResult words, String payload) {
        return new Element(number(words, 1), number(words, 2), 1, payload);
    }

    /** What a line tells of an element, or null if it is another line. */
    private static Element element(MatchResult words) {
        return words.group(4) == null ? null
            : new Element(number(words, 1), number(words, 2), (int) number(words, 3), words.group(4));
    }
}

package fbcheck;

import java.util.Optional;

/** The library whose calls this package makes. */
public final class Fbcheck {
    private Fbcheck() {}

    /**
     * The commit that last changed the library's sources, 40 hexadecimal digits; none if they weren't committed when it
     * was built.
     */
    public static Optional<String> commit() {
        return Optional.of(Calls.commit()).filter(text -> !text.startsWith("?"));
    }
}

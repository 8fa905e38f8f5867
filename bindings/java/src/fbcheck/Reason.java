package fbcheck;

/** Why a message is refused. As a text it is the code and the name: {@code V10 NoTerminator}. */
public enum Reason {
    // made from fbcheck.h by bindings/make; don't edit
    /** The message has 2^31 bytes or more; nothing of it was read. */
    TOO_LONG,
    /** The prefix isn't the number of bytes after it. */
    WRONG_PREFIX,
    /** The data there doesn't lie wholly in the buffer. */
    OUT_OF_BUFFER,
    /** The position isn't a multiple of the alignment. */
    MISALIGNED,
    /** An offset is 0. */
    ZERO_OFFSET,
    /** The file identifier isn't the one asked for. */
    WRONG_IDENTIFIER,
    /** One table more than {@link Options#maxDepth} allows. */
    TOO_DEEP,
    /** One table more than {@link Options#maxTables} allows. */
    TOO_MANY_TABLES,
    /** A vtable's size is odd or below 4. */
    BAD_VTABLE,
    /** A required field is absent. */
    MISSING_REQUIRED,
    /** The byte after a string isn't 0. */
    NO_TERMINATOR,
    /** A vector of unions and its vector of types differ in length. */
    LENGTHS_DIFFER,
    /** A field ends past its table's inline size. */
    PAST_TABLE,
    /** More reads were counted than the options allow. */
    TOO_MANY_READS,
    /** Strict: a field holds a flexbuffer, which isn't checked. */
    FLEX_CONTENT,
    /** A string isn't UTF-8. */
    NOT_UTF8,
    /** A table has a field that the schema lacks or deprecates. */
    UNKNOWN_FIELD,
    // end of what is made
    ;

    private static final Reason[] ALL = values();

    static Reason of(int code) {
        return ALL[code];
    }

    @Override
    public String toString() {
        return this == TOO_LONG ? "TooLong" : Calls.faultName(Codes.BAD, ordinal());
    }
}

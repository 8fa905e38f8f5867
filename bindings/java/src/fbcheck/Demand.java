package fbcheck;

/** What is demanded of a message beyond the rules of the format. A schema must be loaded with it, and keeps it. */
public enum Demand {
    /**
     * What code that flatc generates relies on is checked too. After such an ok a reader may follow the offset of a
     * union's value before it checks the type, if it reads nothing there (an element of type 0 in a vector of unions
     * may still lead outside the message); and it may go through a vector of unions by the length of either vector.
     * Nested buffers are ok in the same sense, and there are no flexbuffers.
     */
    STRICT(Codes.STRICT),
    /** Tables must have no fields that the schema lacks or deprecates. */
    KNOWN_FIELDS(Codes.KNOWN_FIELDS),
    /** Strings must be UTF-8. Each of their bytes counts as a read. */
    UTF8(Codes.UTF8),
    /**
     * {@link #STRICT} treats fields of type {@code [ubyte]} as plain bytes, whatever the schema file says about nested
     * buffers and flexbuffers.
     */
    PLAIN_BYTES(Codes.PLAIN_BYTES);

    /** That of the library. */
    final int bit;

    Demand(int bit) {
        this.bit = bit;
    }
}

package fbcheck;

import static java.lang.foreign.ValueLayout.JAVA_BYTE;
import static java.lang.foreign.ValueLayout.JAVA_INT;
import static java.lang.foreign.ValueLayout.JAVA_LONG;

import java.lang.foreign.MemorySegment;
import java.nio.charset.StandardCharsets;
import java.util.HashSet;
import java.util.Set;

/**
 * What a check asks of a message. {@link #DEFAULT} asks for the plain checks within a budget of reads, and each method
 * returns options with one thing changed. A limit of 0 allows nothing; all limits are unsigned. Schema files are always
 * loaded within the default limits. The defaults are in parentheses.
 *
 * @param root the root table, by its name with its namespace, such as {@code game.Monster} (null: the schema's own)
 * @param maxDepth the most levels of tables, the root being the first (64; at most 4,096); each thread keeps room for
 *     as many
 * @param maxTables the most tables visited (1,000,000)
 * @param maxReads the most counted reads (100,000,000)
 * @param readsPerByte the most counted reads per byte, as if the message had 64 bytes more (64)
 * @param ident the file identifier that a message must have, of four bytes (null: any, or none)
 * @param ownIdent whether a message must have the schema's own file identifier, or any if it declares none (false)
 * @param prefixed whether a message begins with its size, 4 bytes from which positions count (false)
 * @param alignment whether positions must be aligned (true)
 * @param inlineSize whether a field must end within its table's inline size (false)
 * @param demands what is demanded beyond the rules of the format (nothing)
 */
public record Options(String root, int maxDepth, int maxTables, long maxReads, int readsPerByte, String ident,
        boolean ownIdent, boolean prefixed, boolean alignment, boolean inlineSize, Set<Demand> demands) {
    /** The defaults. */
    public static final Options DEFAULT =
            new Options(null, Codes.INIT_MAX_DEPTH, Codes.INIT_MAX_TABLES, Codes.INIT_MAX_READS,
                    Codes.INIT_READS_PER_BYTE, null, false, false, true, false, Set.of());

    /** Copies the set of demands. */
    public Options {
        demands = Set.copyOf(demands);
    }

    /** With the table of this name as the root; null for the schema's own. */
    public Options root(String name) {
        return new Options(name, maxDepth, maxTables, maxReads, readsPerByte, ident, ownIdent, prefixed, alignment,
                inlineSize, demands);
    }

    /** Allows at most this many levels of tables. */
    public Options maxDepth(int tables) {
        return new Options(root, tables, maxTables, maxReads, readsPerByte, ident, ownIdent, prefixed, alignment,
                inlineSize, demands);
    }

    /** Allows at most this many tables visited. */
    public Options maxTables(int tables) {
        return new Options(root, maxDepth, tables, maxReads, readsPerByte, ident, ownIdent, prefixed, alignment,
                inlineSize, demands);
    }

    /** Allows at most this many counted reads. */
    public Options maxReads(long reads) {
        return new Options(root, maxDepth, maxTables, reads, readsPerByte, ident, ownIdent, prefixed, alignment,
                inlineSize, demands);
    }

    /** Allows at most this many counted reads per byte, as if the message had 64 bytes more. */
    public Options readsPerByte(int reads) {
        return new Options(root, maxDepth, maxTables, maxReads, reads, ident, ownIdent, prefixed, alignment,
                inlineSize, demands);
    }

    /** Asks for this file identifier, whatever the schema declares. */
    public Options ident(String four) {
        return new Options(root, maxDepth, maxTables, maxReads, readsPerByte, four, false, prefixed, alignment,
                inlineSize, demands);
    }

    /** Asks for the schema's own file identifier, as generated verifiers do. */
    public Options ownIdent(boolean asked) {
        return new Options(root, maxDepth, maxTables, maxReads, readsPerByte, null, asked, prefixed, alignment,
                inlineSize, demands);
    }

    /** Whether a message begins with its size. */
    public Options prefixed(boolean begins) {
        return new Options(root, maxDepth, maxTables, maxReads, readsPerByte, ident, ownIdent, begins, alignment,
                inlineSize, demands);
    }

    /** Whether positions must be aligned. */
    public Options alignment(boolean asked) {
        return new Options(root, maxDepth, maxTables, maxReads, readsPerByte, ident, ownIdent, prefixed, asked,
                inlineSize, demands);
    }

    /** Whether a field must end within its table's inline size. */
    public Options inlineSize(boolean asked) {
        return new Options(root, maxDepth, maxTables, maxReads, readsPerByte, ident, ownIdent, prefixed, alignment,
                asked, demands);
    }

    /** Whether to check also what code that flatc generates relies on: {@link Demand#STRICT}. */
    public Options strict(boolean asked) {
        return demanding(Demand.STRICT, asked);
    }

    /** Whether to refuse fields that the schema lacks or deprecates: {@link Demand#KNOWN_FIELDS}. */
    public Options knownFields(boolean asked) {
        return demanding(Demand.KNOWN_FIELDS, asked);
    }

    /** Whether strings must be UTF-8: {@link Demand#UTF8}. */
    public Options utf8(boolean asked) {
        return demanding(Demand.UTF8, asked);
    }

    /** Whether strict checks treat fields of type {@code [ubyte]} as plain bytes: {@link Demand#PLAIN_BYTES}. */
    public Options plainBytes(boolean asked) {
        return demanding(Demand.PLAIN_BYTES, asked);
    }

    private Options demanding(Demand demand, boolean asked) {
        Set<Demand> all = new HashSet<>(demands);
        if (asked) {
            all.add(demand);
        } else {
            all.remove(demand);
        }
        return demands(all);
    }

    /** Demands all of these beyond the rules of the format, and nothing else. */
    public Options demands(Set<Demand> all) {
        return new Options(root, maxDepth, maxTables, maxReads, readsPerByte, ident, ownIdent, prefixed, alignment,
                inlineSize, all);
    }

    /** Writes these as the library's options, from this root table on. */
    void write(MemorySegment to, int table) {
        byte[] four = ident == null ? new byte[4] : ident.getBytes(StandardCharsets.ISO_8859_1);
        if (four.length != 4) {
            throw new IllegalArgumentException("ident must be four bytes");
        }
        if (demands.contains(Demand.PLAIN_BYTES) && !demands.contains(Demand.STRICT)) {
            throw new IllegalArgumentException("plainBytes needs strict");
        }
        if (Integer.compareUnsigned(maxDepth, Codes.DEEPEST) > 0) {
            throw FbcheckException.of(FbcheckException.Status.OUT_OF_RANGE, null);
        }
        int from = ownIdent ? Codes.IDENT_OWN : ident == null ? Codes.IDENT_ANY : Codes.IDENT_THIS;
        to.set(JAVA_INT, Codes.OPTIONS_VERSION, Codes.VERSION);
        to.set(JAVA_INT, Codes.OPTIONS_ROOT, table);
        to.set(JAVA_LONG, Codes.OPTIONS_MAX_READS, maxReads);
        to.set(JAVA_INT, Codes.OPTIONS_MAX_DEPTH, maxDepth);
        to.set(JAVA_INT, Codes.OPTIONS_MAX_TABLES, maxTables);
        to.set(JAVA_INT, Codes.OPTIONS_READS_PER_BYTE, readsPerByte);
        MemorySegment.copy(four, 0, to, JAVA_BYTE, Codes.OPTIONS_IDENT, four.length);
        to.set(JAVA_BYTE, Codes.OPTIONS_IDENT_FROM, (byte) from);
        to.set(JAVA_BYTE, Codes.OPTIONS_PREFIXED, (byte) (prefixed ? 1 : 0));
        to.set(JAVA_BYTE, Codes.OPTIONS_NO_ALIGNMENT, (byte) (alignment ? 0 : 1));
        to.set(JAVA_BYTE, Codes.OPTIONS_INLINE_SIZE, (byte) (inlineSize ? 1 : 0));
        to.set(JAVA_INT, Codes.OPTIONS_DEMANDS, demands.stream().mapToInt(demand -> demand.bit).sum());
    }
}

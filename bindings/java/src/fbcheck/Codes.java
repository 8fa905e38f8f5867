// made from fbcheck.h by bindings/make; don't edit
package fbcheck;

import static java.lang.foreign.ValueLayout.ADDRESS;
import static java.lang.foreign.ValueLayout.JAVA_INT;
import static java.lang.foreign.ValueLayout.JAVA_LONG;

import java.lang.foreign.FunctionDescriptor;

/** The numbers of {@code fbcheck.h}, the places in its structs, and what its calls take. */
final class Codes {
    static final int VERSION = 1;
    static final int DEEP = 64;
    static final int DEEPEST = 4096;
    static final int NONE = -1;
    static final int NO_TABLE = -2;
    static final int STRICT = 1;
    static final int KNOWN_FIELDS = 2;
    static final int UTF8 = 4;
    static final int PLAIN_BYTES = 8;
    static final int STEPS = 31;
    static final int LONGEST_PLACE = 4098;
    static final int LONGEST_HINT = 1024;

    // enum fbcheck_status
    static final int OK = 0;
    static final int BAD = 1;
    static final int NULL = 2;
    static final int UNKNOWN_OPTIONS = 3;
    static final int OUT_OF_RANGE = 4;
    static final int NO_IDENT = 5;
    static final int NO_ROOT = 6;
    static final int TOO_LONG = 7;
    static final int NOT_WELL_FORMED = 8;
    static final int BAD_SCHEMA = 9;
    static final int ROOT_NOT_LISTED = 10;
    static final int NO_MEMORY = 11;
    static final int NO_SPAN = 12;
    static final int MORE = 13;
    static final int OVERSIZE = 14;
    static final int TRUNCATED = 15;
    static final int FAILED = 16;
    static final int BAD_PATH = 17;
    static final int NO_ROOM = 18;
    static final int MISFIT = 19;
    static final int TOO_MUCH_SHARED = 20;
    static final int NOT_PLANNED = 21;
    static final int UNMARKED_BYTES = 22;
    static final int NO_SUCH_TABLE = 23;
    static final int CHANGED = 24;

    // enum fbcheck_path_fault
    static final int BAD_TEXT = 1;
    static final int NO_SUCH_FIELD = 2;
    static final int NOT_INDEXABLE = 3;
    static final int NOT_A_UNION = 4;
    static final int NO_SUCH_MEMBER = 5;
    static final int NOT_A_TABLE = 6;

    // enum fbcheck_kind
    static final int ABSENT = 0;
    static final int NO_ELEMENT = 1;
    static final int OTHER_MEMBER = 2;
    static final int BOOL = 3;
    static final int INT = 4;
    static final int UINT = 5;
    static final int FLOAT = 6;
    static final int TEXT = 7;
    static final int STRUCT = 8;
    static final int VECTOR = 9;
    static final int TABLE = 10;
    static final int UNION = 11;
    static final int DEFAULT_FLOAT = 12;

    // enum fbcheck_ident
    static final int IDENT_ANY = 0;
    static final int IDENT_THIS = 1;
    static final int IDENT_OWN = 2;

    // enum fbcheck_step_kind
    static final int STEP_FIELD = 1;
    static final int STEP_ELEMENT = 2;
    static final int STEP_MEMBER = 3;

    // fbcheck_options: the place of each field in it, and how many bytes it has
    static final int OPTIONS_VERSION = 0;
    static final int OPTIONS_ROOT = 4;
    static final int OPTIONS_MAX_READS = 8;
    static final int OPTIONS_MAX_DEPTH = 16;
    static final int OPTIONS_MAX_TABLES = 20;
    static final int OPTIONS_READS_PER_BYTE = 24;
    static final int OPTIONS_IDENT = 28;
    static final int OPTIONS_IDENT_FROM = 32;
    static final int OPTIONS_PREFIXED = 33;
    static final int OPTIONS_NO_ALIGNMENT = 34;
    static final int OPTIONS_INLINE_SIZE = 35;
    static final int OPTIONS_DEMANDS = 36;
    static final int OPTIONS_RESERVED = 40;
    static final int OPTIONS_BYTES = 64;

    // fbcheck_verdict: the place of each field in it, and how many bytes it has
    static final int VERDICT_STATUS = 0;
    static final int VERDICT_REASON = 4;
    static final int VERDICT_OBJECT = 8;
    static final int VERDICT_FIELD = 12;
    static final int VERDICT_TABLES = 16;
    static final int VERDICT_DEPTH = 20;
    static final int VERDICT_AT = 24;
    static final int VERDICT_READS = 32;
    static final int VERDICT_RESERVED = 40;
    static final int VERDICT_BYTES = 64;

    // fbcheck_span: the place of each field in it, and how many bytes it has
    static final int SPAN_AT = 0;
    static final int SPAN_LENGTH = 8;
    static final int SPAN_BYTES = 16;

    // fbcheck_framer: the place of each field in it, and how many bytes it has
    static final int FRAMER_HELD = 0;
    static final int FRAMER_FAILED = 8;
    static final int FRAMER_DECLARED = 12;
    static final int FRAMER_BYTES = 16;

    // fbcheck_step: the place of each field in it, and how many bytes it has
    static final int STEP_KIND = 0;
    static final int STEP_NUMBER = 4;
    static final int STEP_BYTES = 8;

    // fbcheck_path: the place of each field in it, and how many bytes it has
    static final int PATH_COUNT = 0;
    static final int PATH_EACH = 4;
    static final int PATH_STEPS = 8;
    static final int PATH_BYTES = 256;

    // fbcheck_value: the place of each field in it, and how many bytes it has
    static final int VALUE_KIND = 0;
    static final int VALUE_RESERVED = 4;
    static final int VALUE_NUMBER = 8;
    static final int VALUE_INTEGER = 16;
    static final int VALUE_AT = 24;
    static final int VALUE_SIZE = 32;
    static final int VALUE_BYTES = 40;

    // fbcheck_sizes: the place of each field in it, and how many bytes it has
    static final int SIZES_OPTIONS = 0;
    static final int SIZES_VERDICT = 8;
    static final int SIZES_SPAN = 16;
    static final int SIZES_FRAMER = 24;
    static final int SIZES_PATH = 32;
    static final int SIZES_VALUE = 40;
    static final int SIZES_BYTES = 48;

    // FBCHECK_OPTIONS_INIT
    static final long INIT_MAX_READS = 100_000_000;
    static final int INIT_MAX_DEPTH = 64;
    static final int INIT_MAX_TABLES = 1_000_000;
    static final int INIT_READS_PER_BYTE = 64;

    // What each call returns, and what it takes.
    static final FunctionDescriptor SCHEMA_NEW_WORDS =
            FunctionDescriptor.of(ADDRESS, ADDRESS, JAVA_LONG, ADDRESS, ADDRESS);
    static final FunctionDescriptor SCHEMA_FREE_WORDS = FunctionDescriptor.ofVoid(ADDRESS);
    static final FunctionDescriptor SCRATCH_NEW_WORDS = FunctionDescriptor.of(ADDRESS, JAVA_INT);
    static final FunctionDescriptor SCRATCH_FREE_WORDS = FunctionDescriptor.ofVoid(ADDRESS);
    static final FunctionDescriptor TABLE_WORDS = FunctionDescriptor.of(JAVA_INT, ADDRESS, ADDRESS, JAVA_LONG);
    static final FunctionDescriptor VERIFY_WORDS =
            FunctionDescriptor.of(JAVA_INT, ADDRESS, ADDRESS, ADDRESS, ADDRESS, JAVA_LONG, ADDRESS);
    static final FunctionDescriptor VERIFY_EACH_WORDS =
            FunctionDescriptor.of(JAVA_INT, ADDRESS, ADDRESS, ADDRESS, ADDRESS, JAVA_LONG, ADDRESS, ADDRESS, JAVA_LONG);
    static final FunctionDescriptor LOCATE_WORDS =
            FunctionDescriptor.of(JAVA_INT, ADDRESS, ADDRESS, ADDRESS, ADDRESS, JAVA_LONG, ADDRESS, JAVA_LONG, ADDRESS,
                    ADDRESS);
    static final FunctionDescriptor RESOLVE_WORDS =
            FunctionDescriptor.of(JAVA_INT, ADDRESS, ADDRESS, ADDRESS, JAVA_LONG, ADDRESS, ADDRESS);
    static final FunctionDescriptor READ_WORDS =
            FunctionDescriptor.of(JAVA_INT, ADDRESS, ADDRESS, ADDRESS, ADDRESS, JAVA_LONG, ADDRESS, ADDRESS, JAVA_LONG,
                    ADDRESS);
    static final FunctionDescriptor READ_AGAIN_WORDS =
            FunctionDescriptor.of(JAVA_INT, ADDRESS, ADDRESS, ADDRESS, JAVA_LONG, ADDRESS, ADDRESS, JAVA_LONG, ADDRESS);
    static final FunctionDescriptor READ_EACH_WORDS =
            FunctionDescriptor.of(JAVA_INT, ADDRESS, ADDRESS, ADDRESS, JAVA_LONG, ADDRESS, JAVA_LONG, ADDRESS,
                    JAVA_LONG, ADDRESS, ADDRESS);
    static final FunctionDescriptor MOST_READS_WORDS =
            FunctionDescriptor.of(JAVA_INT, ADDRESS, ADDRESS, JAVA_LONG, ADDRESS);
    static final FunctionDescriptor FAULT_NAME_WORDS =
            FunctionDescriptor.of(JAVA_LONG, JAVA_INT, JAVA_INT, ADDRESS, JAVA_LONG);
    static final FunctionDescriptor REASON_NAME_WORDS = FunctionDescriptor.of(JAVA_LONG, JAVA_INT, ADDRESS, JAVA_LONG);
    static final FunctionDescriptor STATUS_TEXT_WORDS = FunctionDescriptor.of(JAVA_LONG, JAVA_INT, ADDRESS, JAVA_LONG);
    static final FunctionDescriptor OBJECT_NAME_WORDS =
            FunctionDescriptor.of(JAVA_LONG, ADDRESS, JAVA_INT, ADDRESS, JAVA_LONG);
    static final FunctionDescriptor FIELD_NAME_WORDS =
            FunctionDescriptor.of(JAVA_LONG, ADDRESS, JAVA_INT, JAVA_INT, ADDRESS, JAVA_LONG);
    static final FunctionDescriptor PATH_HINT_WORDS =
            FunctionDescriptor.of(JAVA_LONG, ADDRESS, JAVA_INT, ADDRESS, JAVA_LONG, ADDRESS, JAVA_LONG);
    static final FunctionDescriptor ROOT_HINT_WORDS =
            FunctionDescriptor.of(JAVA_LONG, ADDRESS, ADDRESS, JAVA_LONG, ADDRESS, JAVA_LONG);
    static final FunctionDescriptor FRAMER_FEED_WORDS =
            FunctionDescriptor.of(JAVA_INT, ADDRESS, ADDRESS, JAVA_LONG, ADDRESS, JAVA_LONG, ADDRESS);
    static final FunctionDescriptor FRAMER_NEXT_WORDS = FunctionDescriptor.of(JAVA_INT, ADDRESS, ADDRESS, JAVA_LONG);
    static final FunctionDescriptor FRAMER_FINISH_WORDS = FunctionDescriptor.of(JAVA_INT, ADDRESS, ADDRESS, JAVA_LONG);
    static final FunctionDescriptor OPTIONS_INIT_WORDS = FunctionDescriptor.of(JAVA_INT, ADDRESS);
    static final FunctionDescriptor VERSION_WORDS = FunctionDescriptor.of(JAVA_INT);
    static final FunctionDescriptor COMMIT_WORDS = FunctionDescriptor.of(ADDRESS);
    static final FunctionDescriptor STRUCT_SIZES_WORDS = FunctionDescriptor.of(JAVA_INT, ADDRESS);

    private Codes() {}
}

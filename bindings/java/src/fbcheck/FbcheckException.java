package fbcheck;

import java.util.Optional;

/** Says why a call failed. */
public class FbcheckException extends RuntimeException {
    private static final long serialVersionUID = 1;

    /** Why a call failed: the statuses of {@code fbcheck.h}. */
    public enum Status {
        /** A message is bad: {@link BadBufferException} has the verdict. */
        BAD(Codes.BAD, ""),
        /** {@link Options#maxDepth} is above 4,096. */
        OUT_OF_RANGE(Codes.OUT_OF_RANGE, "maxDepth is above " + Codes.DEEPEST),
        /** The schema's own identifier was asked for, and it declares one that isn't 4 bytes long. */
        NO_IDENT(Codes.NO_IDENT, "the schema's identifier isn't four bytes"),
        /** The schema has no root table of its own, or none of the name that was asked for. */
        NO_ROOT(Codes.NO_ROOT, "no root table"),
        /** The schema file has 2^31 bytes or more. */
        TOO_LONG(Codes.TOO_LONG, "schema: L5 TooLong"),
        /** The schema file isn't a binary schema, or is damaged. */
        NOT_WELL_FORMED(Codes.NOT_WELL_FORMED, ""),
        /** Its contents aren't a legal schema. */
        BAD_SCHEMA(Codes.BAD_SCHEMA, ""),
        /** Its root table isn't listed in it. */
        ROOT_NOT_LISTED(Codes.ROOT_NOT_LISTED, "schema: L3 RootNotListed"),
        /** Memory was refused. */
        NO_MEMORY(Codes.NO_MEMORY, "out of memory"),
        /** A message of the stream is longer than is allowed. */
        OVERSIZE(Codes.OVERSIZE, ""),
        /** The stream ends inside a message. */
        TRUNCATED(Codes.TRUNCATED, ""),
        /** The stream has failed before. */
        FAILED(Codes.FAILED, "stream: S4 Failed"),
        /** The text isn't a path of the schema. */
        BAD_PATH(Codes.BAD_PATH, ""),
        /** The path has more than 31 steps. */
        TOO_MANY_STEPS(Codes.NO_ROOM, "the path has more than " + Codes.STEPS + " steps"),
        /** A path isn't one of this schema from this root table. */
        MISFIT(Codes.MISFIT, "a path is none of this schema from this root"),
        /** The schema file has more rows, or longer names, than its length allows. */
        TOO_MUCH_SHARED(Codes.TOO_MUCH_SHARED, "schema: L6 TooMuchShared"),
        /** The options have demands, such as {@link Demand#STRICT}, that the schema wasn't loaded with. */
        NOT_PLANNED(Codes.NOT_PLANNED, "the schema was loaded with other demands: ask for these when you load it"),
        /** Strict checks can't tell whether a field of type {@code [ubyte]} is a nested buffer or flexbuffer. */
        UNMARKED_BYTES(Codes.UNMARKED_BYTES, "strict can't tell which bytes are nested buffers or flexbuffers: %s;"
                + " flatc --bfbs-builtins writes it to the .bfbs, plainBytes takes such fields as bytes"),
        /** The schema file marks a field as a nested buffer of a table that the file doesn't have. */
        NO_SUCH_TABLE(Codes.NO_SUCH_TABLE, "strict can't find the table of a nested buffer: %s;"
                + " plainBytes takes such fields as bytes");

        private final int number;
        private final String text;

        Status(int number, String text) {
            this.number = number;
            this.text = text;
        }

        static Status of(int number) {
            for (Status status : values()) {
                if (status.number == number) {
                    return status;
                }
            }
            throw new AssertionError("fbcheck answers " + number);
        }
    }

    /** What is said behind the fault of a file that isn't well-formed. */
    private static final String NO_SCHEMA = "; this is no binary schema, which flatc --binary --schema makes";

    private final Status status;

    FbcheckException(Status status, String text) {
        super(text);
        this.status = status;
    }

    /** Why the call failed. */
    public Status status() {
        return status;
    }

    /**
     * The exception of a call that told these numbers, with the text that the program tells, and with the file or path
     * that was asked for, or null.
     */
    static FbcheckException of(long[] told, Object asked) {
        return of(told, null, asked);
    }

    /** The same where numbers are of a field, which has this name. */
    static FbcheckException of(long[] told, String field, Object asked) {
        Status status = Status.of(Told.status(told));
        int code = Told.code(told);
        return new FbcheckException(status, naming(asked, switch (status) {
            case NOT_WELL_FORMED -> "schema: L1 " + Told.bad(told, "").toString().substring("bad ".length())
                    + NO_SCHEMA;
            case BAD_SCHEMA -> "schema: L2 " + Calls.faultName(status.number, code) + " owner=" + Told.object(told)
                    + " part=" + Told.dash(Told.field(told));
            case BAD_PATH -> "path: " + Calls.faultName(status.number, code)
                    + (code == Codes.BAD_TEXT ? " at=" : " step=") + Told.at(told);
            case UNMARKED_BYTES, NO_SUCH_TABLE -> status.text.formatted(field);
            default -> status.text;
        }));
    }

    /** The exception of this status, with what was asked for, or null. */
    static FbcheckException of(Status status, String asked) {
        return new FbcheckException(status, naming(asked, status.text));
    }

    /** The same exception with what helps behind its text, where something does. */
    FbcheckException with(Optional<String> hint) {
        return hint.isEmpty() ? this : new FbcheckException(status, getMessage() + "; " + hint.get());
    }

    /** A text with what was asked for, unless that is null. */
    private static String naming(Object asked, String text) {
        return asked == null ? text : text + " (\"" + asked + "\")";
    }
}

package fbcheck;

import static java.lang.foreign.ValueLayout.JAVA_DOUBLE_UNALIGNED;
import static java.lang.foreign.ValueLayout.JAVA_FLOAT_UNALIGNED;

import java.lang.foreign.MemorySegment;
import java.nio.ByteOrder;
import java.nio.charset.StandardCharsets;
import java.util.OptionalInt;

/** What the library tells, by the places of its structs in longs: of two numbers of 32 bits in one the first is low. */
final class Told {
    private Told() {}

    static int status(long[] verdict) {
        return numberAt(verdict, Codes.VERDICT_STATUS);
    }

    /** The number of a reason, or of the code of another fault. */
    static int code(long[] verdict) {
        return numberAt(verdict, Codes.VERDICT_REASON);
    }

    static int object(long[] verdict) {
        return numberAt(verdict, Codes.VERDICT_OBJECT);
    }

    static OptionalInt field(long[] verdict) {
        int field = numberAt(verdict, Codes.VERDICT_FIELD);
        return field == Codes.NONE ? OptionalInt.empty() : OptionalInt.of(field);
    }

    static long at(long[] verdict) {
        return longAt(verdict, Codes.VERDICT_AT);
    }

    /** What a check told, with as much of a place of so many bytes as there was room for. */
    static Verdict verdict(long[] verdict, byte[] place, long written) {
        if (status(verdict) == Codes.OK) {
            return good(verdict);
        }
        return bad(verdict, new String(place, 0, (int) Math.min(written, place.length), StandardCharsets.UTF_8));
    }

    static Verdict.Good good(long[] verdict) {
        long tables = Integer.toUnsignedLong(numberAt(verdict, Codes.VERDICT_TABLES));
        return new Verdict.Good(tables, numberAt(verdict, Codes.VERDICT_DEPTH), longAt(verdict, Codes.VERDICT_READS));
    }

    static Verdict.Bad bad(long[] verdict, String place) {
        Reason reason = Reason.of(code(verdict));
        long reads = longAt(verdict, Codes.VERDICT_READS);
        return new Verdict.Bad(reason, at(verdict), object(verdict), field(verdict), reads, place);
    }

    /** The value that stands from this byte on. */
    static Value value(long[] values, int place, MemorySegment message) {
        long number = longAt(values, place + Codes.VALUE_NUMBER);
        long at = longAt(values, place + Codes.VALUE_AT);
        MemorySegment bytes = message.asSlice(at, longAt(values, place + Codes.VALUE_SIZE));
        int kind = numberAt(values, place + Codes.VALUE_KIND);
        return switch (kind) {
            case Codes.ABSENT -> new Value.Absent();
            case Codes.NO_ELEMENT -> new Value.NoElement();
            case Codes.OTHER_MEMBER -> new Value.OtherMember();
            case Codes.BOOL -> new Value.Bool(number != 0);
            case Codes.INT -> new Value.Int(longAt(values, place + Codes.VALUE_INTEGER));
            case Codes.UINT -> new Value.UInt(number);
            case Codes.FLOAT -> new Value.Float(floating(bytes));
            case Codes.DEFAULT_FLOAT -> new Value.Float(Double.longBitsToDouble(number));
            case Codes.TEXT -> new Value.Text(bytes);
            case Codes.STRUCT -> new Value.Struct(bytes);
            case Codes.VECTOR -> new Value.Vector(number, bytes);
            case Codes.TABLE -> new Value.Table();
            case Codes.UNION -> new Value.Union((int) number);
            default -> throw new AssertionError("fbcheck tells no kind " + kind);
        };
    }

    /** The text of a number, or {@code -}. */
    static String dash(OptionalInt number) {
        return number.isPresent() ? Integer.toUnsignedString(number.getAsInt()) : "-";
    }

    private static double floating(MemorySegment bytes) {
        return bytes.byteSize() == 4
                ? bytes.get(JAVA_FLOAT_UNALIGNED.withOrder(ByteOrder.LITTLE_ENDIAN), 0)
                : bytes.get(JAVA_DOUBLE_UNALIGNED.withOrder(ByteOrder.LITTLE_ENDIAN), 0);
    }

    /** The number of 64 bits from this byte of a struct on. */
    static long longAt(long[] struct, int place) {
        return struct[place / Long.BYTES];
    }

    /** The number of 32 bits from this byte of a struct on. */
    static int numberAt(long[] struct, int place) {
        return (int) (struct[place / Long.BYTES] >>> place % Long.BYTES * Byte.SIZE);
    }
}

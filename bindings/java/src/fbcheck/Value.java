package fbcheck;

import static java.lang.foreign.ValueLayout.JAVA_BYTE;

import java.lang.foreign.MemorySegment;
import java.nio.charset.StandardCharsets;

/**
 * What is at the end of a path. Bytes are slices of the message; numbers in them are little-endian.
 *
 * <p>As a text it is the string, Bool or number; otherwise the kind, with a vector's length or a union's type.
 */
public sealed interface Value {
    /** Nothing: the field, or one on the way, is absent and has no default. */
    record Absent() implements Value {
        @Override
        public String toString() {
            return "Absent";
        }
    }

    /** Nothing: the vector has fewer elements. */
    record NoElement() implements Value {
        @Override
        public String toString() {
            return "NoElement";
        }
    }

    /** Nothing: the union has another type. */
    record OtherMember() implements Value {
        @Override
        public String toString() {
            return "OtherMember";
        }
    }

    /** A Bool. */
    record Bool(boolean value) implements Value {
        @Override
        public String toString() {
            return Boolean.toString(value);
        }
    }

    /** A Byte, Short, Int or Long. */
    record Int(long value) implements Value {
        @Override
        public String toString() {
            return Long.toString(value);
        }
    }

    /** A UType, UByte, UShort, UInt or ULong. It is unsigned: use {@link Long#toUnsignedString} and the like. */
    record UInt(long value) implements Value {
        @Override
        public String toString() {
            return Long.toUnsignedString(value);
        }
    }

    /** A Float or Double, or the default of an absent one. */
    record Float(double value) implements Value {
        @Override
        public String toString() {
            return Double.toString(value);
        }
    }

    /** The bytes of a string, which need not be UTF-8. */
    record Text(MemorySegment bytes) implements Value {
        /** The string; what isn't UTF-8 is replaced. */
        public String string() {
            return new String(bytes.toArray(JAVA_BYTE), StandardCharsets.UTF_8);
        }

        @Override
        public String toString() {
            return string();
        }
    }

    /** The bytes of a struct, padding included. */
    record Struct(MemorySegment bytes) implements Value {
        @Override
        public String toString() {
            return "Struct";
        }
    }

    /** How many elements a vector or array has, and their bytes if they are scalars or structs (else none). */
    record Vector(long length, MemorySegment bytes) implements Value {
        @Override
        public String toString() {
            return "Vector(" + length + ")";
        }
    }

    /** A table. */
    record Table() implements Value {
        @Override
        public String toString() {
            return "Table";
        }
    }

    /** A union, with its type, which is 0 for none. */
    record Union(int type) implements Value {
        @Override
        public String toString() {
            return "Union(" + type + ")";
        }
    }
}

package fbcheck;

import java.util.OptionalInt;

/** What a check reports about a message. As a text it is what the program's line has. */
public sealed interface Verdict {
    /** Whether the message is ok; {@link Schema} says what that means. */
    boolean ok();

    /**
     * An ok message.
     *
     * @param tables the tables visited
     * @param depth the greatest depth of nested tables; the root alone is 1
     * @param reads the reads counted
     */
    record Good(long tables, int depth, long reads) implements Verdict {
        @Override
        public boolean ok() {
            return true;
        }

        @Override
        public String toString() {
            return "ok tables=" + tables + " depth=" + depth + " reads=" + Long.toUnsignedString(reads);
        }
    }

    /**
     * A bad message: its first fault.
     *
     * @param reason why it's refused
     * @param position where the fault is, in bytes from the message's beginning; a wrong offset may put it past the end
     * @param object the number of the object under check, which {@link Schema#objectName} names
     * @param field the number of the field under check, unless it's the whole object
     * @param reads the reads counted up to then
     * @param place the place in words, such as {@code in items[2].name [game.Item.name]}, cut after 1,024 bytes
     */
    record Bad(Reason reason, long position, int object, OptionalInt field, long reads, String place)
            implements Verdict {
        @Override
        public boolean ok() {
            return false;
        }

        @Override
        public String toString() {
            String text = "bad " + reason + " at=" + position + " object=" + object + " field="
                    + Told.dash(field) + " reads=" + Long.toUnsignedString(reads);
            return place.isEmpty() ? text : text + " " + place;
        }
    }
}

package fbcheck;

import static java.lang.foreign.ValueLayout.JAVA_INT_UNALIGNED;

import java.io.IOException;
import java.io.InputStream;
import java.io.UncheckedIOException;
import java.lang.foreign.MemorySegment;
import java.util.Arrays;
import java.util.Iterator;
import java.util.NoSuchElementException;

/** The messages of a stream, to go through once, by one thread at a time. */
public final class Messages implements Iterable<Messages.Message>, Iterator<Messages.Message> {
    /** A message of a stream, which any thread may use. */
    public static final class Message {
        private final Schema schema;
        private final byte[] bytes;
        private Verdict verdict;

        private Message(Schema schema, byte[] bytes) {
            this.schema = schema;
            this.bytes = bytes;
        }

        /** Its own bytes, with its size in front, unchecked: {@link #verdict} and the schema check them. */
        public byte[] bytes() {
            return bytes;
        }

        /** The verdict on it. The first call checks the message. */
        public synchronized Verdict verdict() {
            if (verdict == null) {
                verdict = schema.check(bytes);
            }
            return verdict;
        }
    }

    private final Schema schema;
    private final InputStream stream;
    private final int maxBytes;
    private final byte[] small;
    private final byte[] piece = new byte[1 << 16];
    private final MemorySegment pieces = MemorySegment.ofArray(piece);
    private int at; // what of the piece isn't fed yet
    private int end;
    private byte[] room; // for the message that is coming
    private long[] framer;
    private Message next;

    Messages(Schema schema, InputStream stream, int maxBytes) {
        if (maxBytes < 8) {
            throw new IllegalArgumentException("maxBytes is " + maxBytes + ", and must be 8 at least");
        }
        this.schema = schema;
        this.stream = stream;
        this.maxBytes = maxBytes;
        small = new byte[Math.min(maxBytes, 256)];
        begin(small);
    }

    @Override
    public Iterator<Message> iterator() {
        return this;
    }

    @Override
    public boolean hasNext() {
        try {
            while (next == null) {
                if (feed()) {
                    int length = held();
                    next = new Message(schema, room == small ? Arrays.copyOf(room, length) : room);
                    begin(small);
                } else if (at == end && !fill()) {
                    return false;
                }
            }
            return true;
        } catch (IOException thrown) {
            throw new UncheckedIOException(thrown);
        }
    }

    @Override
    public Message next() {
        if (!hasNext()) {
            throw new NoSuchElementException();
        }
        Message message = next;
        next = null;
        return message;
    }

    /** Begins a message in this room. */
    private void begin(byte[] room) {
        this.room = room;
        framer = new long[Codes.FRAMER_BYTES / Long.BYTES];
    }

    /** How many bytes are held of a message. */
    private int held() {
        return (int) Told.longAt(framer, Codes.FRAMER_HELD);
    }

    /** Feeds what is left of the piece, and tells whether a whole message is held. */
    private boolean feed() {
        int held = held();
        long[] used = {0};
        int status = Calls.feed(MemorySegment.ofArray(framer), MemorySegment.ofArray(room),
                pieces.asSlice(at, end - at), MemorySegment.ofArray(used));
        at += (int) used[0];
        if (status == Codes.OK || status == Codes.MORE) {
            return status == Codes.OK;
        }
        FbcheckException.Status why = FbcheckException.Status.of(status);
        if (why != FbcheckException.Status.OVERSIZE) {
            throw FbcheckException.of(why, null);
        }
        int declared = Told.numberAt(framer, Codes.FRAMER_DECLARED);
        if (Integer.compareUnsigned(declared, maxBytes - 4) > 0) {
            throw new FbcheckException(why, "stream: S1 Oversize declared=" + Integer.toUnsignedString(declared));
        }
        // Of this message its size alone has come, which is put in front of the piece's rest, and fed once more.
        at -= held;
        pieces.set(JAVA_INT_UNALIGNED, at, declared);
        begin(new byte[declared + 4]);
        return feed();
    }

    /** Reads the next piece, and tells whether there is one. */
    private boolean fill() throws IOException {
        int front = 3; // room for as much of a size as an earlier piece may have had
        int length = stream.read(piece, front, piece.length - front);
        at = front;
        end = front + Math.max(length, 0);
        if (length < 0 && Calls.finish(MemorySegment.ofArray(framer), MemorySegment.ofArray(room)) != Codes.OK) {
            throw new FbcheckException(FbcheckException.Status.TRUNCATED, "stream: S2 Truncated held=" + held());
        }
        return length >= 0;
    }
}

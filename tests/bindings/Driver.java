// Does what the lines of standard input say, by the package; tests/test_bindings.py tells what each line means.

import fbcheck.BadBufferException;
import fbcheck.Fbcheck;
import fbcheck.FbcheckException;
import fbcheck.FieldPath;
import fbcheck.Messages;
import fbcheck.Options;
import fbcheck.Schema;
import fbcheck.Value;
import fbcheck.Verdict;
import java.io.BufferedOutputStream;
import java.io.BufferedReader;
import java.io.IOException;
import java.io.InputStream;
import java.io.InputStreamReader;
import java.io.PrintStream;
import java.lang.foreign.Arena;
import java.lang.foreign.MemorySegment;
import java.lang.foreign.ValueLayout;
import java.nio.ByteBuffer;
import java.nio.ByteOrder;
import java.nio.file.Files;
import java.nio.file.Path;
import java.util.ArrayList;
import java.util.Arrays;
import java.util.HexFormat;
import java.util.List;
import java.util.Locale;
import java.util.concurrent.atomic.AtomicLong;

final class Driver {
    private static Schema schema;

    /** A stream of bytes in pieces of a size, the first of another one. */
    private static final class Pieces extends InputStream {
        private final byte[] bytes;
        private final int size;
        private int at;
        private int next;

        Pieces(byte[] bytes, int first, int size) {
            this.bytes = bytes;
            this.next = first;
            this.size = size;
        }

        @Override
        public int read() {
            throw new UnsupportedOperationException();
        }

        @Override
        public int read(byte[] to, int place, int room) {
            int length = Math.min(Math.min(next, room), bytes.length - at);
            System.arraycopy(bytes, at, to, place, length);
            at += length;
            next = size;
            return length == 0 ? -1 : length;
        }
    }

    private static Options options(List<String> words) {
        Options asked = Options.DEFAULT;
        for (String word : words) {
            String[] parts = word.split("=", 2);
            boolean set = parts[1].equals("1");
            asked = switch (parts[0]) {
                case "root" -> asked.root(parts[1]);
                case "max_depth" -> asked.maxDepth(Integer.parseUnsignedInt(parts[1]));
                case "max_tables" -> asked.maxTables(Integer.parseUnsignedInt(parts[1]));
                case "max_reads" -> asked.maxReads(Long.parseUnsignedLong(parts[1]));
                case "reads_per_byte" -> asked.readsPerByte(Integer.parseUnsignedInt(parts[1]));
                case "ident" -> parts[1].equals("own") ? asked.ownIdent(true) : asked.ident(parts[1]);
                case "prefixed" -> asked.prefixed(set);
                case "alignment" -> asked.alignment(set);
                case "inline_size" -> asked.inlineSize(set);
                case "strict" -> asked.strict(set);
                case "known_fields" -> asked.knownFields(set);
                case "utf8" -> asked.utf8(set);
                case "plain_bytes" -> asked.plainBytes(set);
                default -> throw new IllegalArgumentException(word);
            };
        }
        return asked;
    }

    private static String hex(MemorySegment bytes) {
        return HexFormat.of().formatHex(bytes.toArray(ValueLayout.JAVA_BYTE));
    }

    private static String text(Value value) {
        return switch (value) {
            case Value.NoElement() -> "no-element";
            case Value.OtherMember() -> "other-member";
            case Value.Float(double number) -> "float:" + HexFormat.of().formatHex(
                    ByteBuffer.allocate(8).order(ByteOrder.LITTLE_ENDIAN).putDouble(number).array());
            case Value.Text(MemorySegment bytes) -> "text:" + hex(bytes);
            case Value.Struct(MemorySegment bytes) -> "struct:" + hex(bytes);
            case Value.Vector(long length, MemorySegment bytes) -> "vector:" + length + ":" + hex(bytes);
            case Value.Union(int type) -> "union:" + type;
            default -> value.toString().toLowerCase(Locale.ROOT);
        };
    }

    private static void same(Object one, Object other) {
        if (!one.equals(other)) {
            throw new AssertionError(one + " and " + other);
        }
    }

    /** The verdict on a message, wherever its bytes are. */
    private static String check(byte[] message) {
        Verdict verdict = schema.check(message);
        try {
            schema.verify(message);
            same(verdict.ok(), true);
        } catch (BadBufferException thrown) {
            same(thrown.verdict(), verdict);
        }
        for (int shift = 0; shift < 16; shift++) {
            byte[] moved = new byte[shift + message.length];
            System.arraycopy(message, 0, moved, shift, message.length);
            ByteBuffer heap = ByteBuffer.wrap(moved).position(shift);
            ByteBuffer direct = ByteBuffer.allocateDirect(moved.length).put(moved).position(shift);
            for (ByteBuffer buffer : List.of(heap, heap.asReadOnlyBuffer(), direct, direct.asReadOnlyBuffer())) {
                same(schema.check(buffer), verdict);
                same(schema.check(buffer.slice()), verdict);
                same(schema.check(MemorySegment.ofBuffer(buffer)), verdict);
                same(buffer.position(), shift);
            }
            try (Arena arena = Arena.ofConfined()) {
                MemorySegment segment = arena.allocate(moved.length + 1, 16);
                MemorySegment.copy(moved, 0, segment, ValueLayout.JAVA_BYTE, 0, moved.length);
                same(schema.check(segment.asSlice(shift, message.length)), verdict);
            }
        }
        return verdict.toString();
    }

    private static String stream(List<String> words, PrintStream to) throws IOException {
        byte[] bytes = bytes(words.get(0));
        InputStream pieces = new Pieces(bytes, Integer.parseInt(words.get(1)), Integer.parseInt(words.get(2)));
        int number = 0;
        for (Messages.Message message : schema.messages(pieces, Integer.parseInt(words.get(3)))) {
            number++;
            same(message.verdict(), schema.check(message.bytes()));
            to.println(number + " " + message.verdict());
        }
        return "end";
    }

    private static String read(byte[] message, FieldPath... paths) {
        List<String> told = Arrays.stream(schema.read(message, paths)).map(Driver::text).toList();
        ByteBuffer direct = ByteBuffer.allocateDirect(message.length).put(message).flip();
        same(Arrays.stream(schema.read(direct, paths)).map(Driver::text).toList(), told);
        for (int i = 0; i < paths.length; i++) {
            same(text(schema.read(message, paths[i])[0]), told.get(i));
        }
        return String.join(" ", told);
    }

    private static String threads(List<String> words) throws IOException, InterruptedException {
        byte[] message = bytes(words.get(0));
        int count = Integer.parseInt(words.get(1));
        Verdict want = schema.check(message);
        AtomicLong alike = new AtomicLong();
        List<Thread> running = new ArrayList<>();
        for (int thread = Integer.parseInt(words.get(2)); thread > 0; thread--) {
            Thread.Builder kind = thread % 2 == 0 ? Thread.ofPlatform() : Thread.ofVirtual();
            running.add(kind.start(() -> {
                for (int i = 0; i < count; i++) {
                    if (schema.check(message).equals(want)) {
                        alike.incrementAndGet();
                    }
                }
            }));
        }
        for (Thread thread : running) {
            thread.join();
        }
        return alike.toString();
    }

    private static long kilobytes() throws IOException {
        return 4 * Long.parseLong(Files.readString(Path.of("/proc/self/statm")).split(" ")[1]);
    }

    private static String loads(List<String> words) throws IOException {
        byte[] file = bytes(words.get(0));
        int count = Integer.parseInt(words.get(1));
        long before = 0;
        for (int i = 0; i < count; i++) {
            if (i == count / 2) {
                before = kilobytes();
            }
            try (Schema one = Schema.load(file)) {
                try (Schema other = one.with(Options.DEFAULT.prefixed(true))) {
                    same(other.check(new byte[0]).ok(), false);
                }
                same(one.check(new byte[0]).ok(), false);
            }
            if (i % 8 == 0) {
                try {
                    Schema.load(Arrays.copyOf(file, i % (file.length / 2))).close();
                    throw new AssertionError("a schema");
                } catch (FbcheckException thrown) {
                    same(thrown.status(), FbcheckException.Status.NOT_WELL_FORMED);
                }
            }
        }
        return String.valueOf(kilobytes() - before);
    }

    private static String time(byte[] message, int count) {
        boolean ok = schema.check(message).ok();
        long best = Long.MAX_VALUE;
        for (int round = 0; round < 400; round++) {
            long begun = System.nanoTime();
            for (int i = 0; i < count / 400; i++) {
                if (schema.check(message).ok() != ok) {
                    throw new AssertionError("another verdict");
                }
            }
            best = Math.min(best, (System.nanoTime() - begun) * 400 / count);
        }
        return String.valueOf(best);
    }

    private static byte[] bytes(String file) throws IOException {
        return Files.readAllBytes(Path.of(file));
    }

    private static String done(List<String> words, PrintStream to) throws IOException, InterruptedException {
        List<String> rest = words.subList(1, words.size());
        switch (words.get(0)) {
            case "load" -> schema = Schema.load(Path.of(rest.get(0)), options(rest.subList(1, rest.size())));
            case "with" -> schema = schema.with(options(rest));
            case "close" -> {
                schema.close();
                schema.close();
            }
            case "check" -> {
                return check(bytes(rest.get(0)));
            }
            case "stream" -> {
                return stream(rest, to);
            }
            case "read" -> {
                FieldPath[] paths = rest.stream().skip(1).map(schema::path).toArray(FieldPath[]::new);
                return read(bytes(rest.get(0)), paths);
            }
            case "misfit" -> read(bytes(rest.get(2)), schema.with(options(rest.subList(0, 1))).path(rest.get(1)));
            case "threads" -> {
                return threads(rest);
            }
            case "loads" -> {
                return loads(rest);
            }
            case "commit" -> {
                return Fbcheck.commit().orElse("-");
            }
            case "time" -> {
                return time(bytes(rest.get(0)), Integer.parseInt(rest.get(1)));
            }
            case "most" -> {
                return Long.toUnsignedString(schema.mostReads(Long.parseLong(rest.get(0))));
            }
            case "object" -> {
                return schema.objectName(Integer.parseUnsignedInt(rest.get(0))).orElse("-");
            }
            case "field" -> {
                int object = Integer.parseUnsignedInt(rest.get(0));
                return schema.fieldName(object, Integer.parseUnsignedInt(rest.get(1))).orElse("-");
            }
            default -> throw new IllegalArgumentException("what is " + words.get(0));
        }
        return "done";
    }

    public static void main(String[] none) throws Exception {
        BufferedReader lines = new BufferedReader(new InputStreamReader(System.in));
        PrintStream to = new PrintStream(new BufferedOutputStream(System.out), false);
        for (String line = lines.readLine(); line != null; line = lines.readLine()) {
            String told;
            try {
                told = done(List.of(line.split(" ")), to);
            } catch (RuntimeException thrown) {
                told = "error " + thrown.getMessage();
            }
            to.println(told + "\n.");
        }
        to.flush();
    }

    private Driver() {}
}

package fbcheck;

import java.io.IOException;
import java.io.InputStream;
import java.io.UncheckedIOException;
import java.lang.foreign.Arena;
import java.lang.foreign.FunctionDescriptor;
import java.lang.foreign.Linker;
import java.lang.foreign.MemorySegment;
import java.lang.foreign.SymbolLookup;
import java.lang.invoke.MethodHandle;
import java.nio.charset.StandardCharsets;
import java.nio.file.Files;
import java.nio.file.Path;
import java.nio.file.StandardCopyOption;
import java.util.Optional;

/**
 * The calls of the library for C, which take what {@link Codes} says. The system property {@code fbcheck.library} names
 * the file libfbcheck.so.1; else it is the one in the jar, or else it is looked for where the system looks.
 *
 * <p>Calls are critical ones, so that arrays of Java are read where they are; a garbage collection waits for them.
 */
@SuppressWarnings("restricted") // the calls of another language
final class Calls {
    private static final Linker LINKER = Linker.nativeLinker();
    private static final String NAME = "libfbcheck.so.1";
    private static final SymbolLookup LIBRARY = library(System.getProperty("fbcheck.library"));
    private static final Linker.Option CRITICAL = Linker.Option.critical(true);

    private static final MethodHandle COMMIT = call("fbcheck_commit", Codes.COMMIT_WORDS);
    private static final MethodHandle LOCATE = call("fbcheck_locate", Codes.LOCATE_WORDS, CRITICAL);
    private static final MethodHandle LOCATE_LONG = call("fbcheck_locate", Codes.LOCATE_WORDS);
    private static final MethodHandle READ = call("fbcheck_read", Codes.READ_WORDS, CRITICAL);
    private static final MethodHandle RESOLVE = call("fbcheck_resolve", Codes.RESOLVE_WORDS, CRITICAL);
    private static final MethodHandle TABLE = call("fbcheck_table", Codes.TABLE_WORDS, CRITICAL);
    private static final MethodHandle MOST_READS = call("fbcheck_most_reads", Codes.MOST_READS_WORDS, CRITICAL);
    private static final MethodHandle FAULT_NAME = call("fbcheck_fault_name", Codes.FAULT_NAME_WORDS, CRITICAL);
    private static final MethodHandle OBJECT_NAME = call("fbcheck_object_name", Codes.OBJECT_NAME_WORDS, CRITICAL);
    private static final MethodHandle FIELD_NAME = call("fbcheck_field_name", Codes.FIELD_NAME_WORDS, CRITICAL);
    private static final MethodHandle PATH_HINT = call("fbcheck_path_hint", Codes.PATH_HINT_WORDS, CRITICAL);
    private static final MethodHandle ROOT_HINT = call("fbcheck_root_hint", Codes.ROOT_HINT_WORDS, CRITICAL);
    private static final MethodHandle SCHEMA_NEW = call("fbcheck_schema_new", Codes.SCHEMA_NEW_WORDS, CRITICAL);
    private static final MethodHandle SCHEMA_FREE = call("fbcheck_schema_free", Codes.SCHEMA_FREE_WORDS);
    private static final MethodHandle SCRATCH_NEW = call("fbcheck_scratch_new", Codes.SCRATCH_NEW_WORDS);
    private static final MethodHandle SCRATCH_FREE = call("fbcheck_scratch_free", Codes.SCRATCH_FREE_WORDS);
    private static final MethodHandle FEED = call("fbcheck_framer_feed", Codes.FRAMER_FEED_WORDS, CRITICAL);
    private static final MethodHandle FINISH = call("fbcheck_framer_finish", Codes.FRAMER_FINISH_WORDS, CRITICAL);

    static {
        MethodHandle version = call("fbcheck_version", Codes.VERSION_WORDS);
        int found = told(() -> (int) version.invokeExact());
        if (found != Codes.VERSION) {
            throw new LinkageError("another libfbcheck was found: its version is " + found);
        }
    }

    /** A call, of which a handle may throw that an arena is closed, or of another thread. */
    private interface Call<T> {
        T told() throws Throwable;
    }

    /** A call that copies a name or a hint where there is room for it, and tells its length either way. */
    private interface Naming {
        long told(MemorySegment room) throws Throwable;
    }

    private Calls() {}

    private static SymbolLookup library(String file) {
        try (InputStream carried = file == null ? Calls.class.getResourceAsStream(NAME) : null) {
            return carried != null ? carried(carried)
                    : SymbolLookup.libraryLookup(file != null ? file : NAME, Arena.global());
        } catch (IllegalArgumentException thrown) {
            throw new UnsatisfiedLinkError((file != null ? file : NAME) + " can't be opened: -Dfbcheck.library=FILE"
                    + " names libfbcheck.so.1, or else ldconfig must know its folder");
        } catch (IOException thrown) {
            throw new UncheckedIOException(thrown);
        }
    }

    /** The library that the jar carries, by way of a file that is gone once it's loaded. */
    private static SymbolLookup carried(InputStream bytes) throws IOException {
        Path file = Files.createTempFile("libfbcheck", ".so.1");
        try {
            Files.copy(bytes, file, StandardCopyOption.REPLACE_EXISTING);
            return SymbolLookup.libraryLookup(file, Arena.global());
        } finally {
            Files.delete(file);
        }
    }

    private static MethodHandle call(String name, FunctionDescriptor words, Linker.Option... options) {
        return LINKER.downcallHandle(LIBRARY.find(name).orElseThrow(), words, options);
    }

    private static <T> T told(Call<T> call) {
        try {
            return call.told();
        } catch (RuntimeException | Error thrown) {
            throw thrown;
        } catch (Throwable thrown) {
            throw new AssertionError(thrown);
        }
    }

    static String commit() {
        MemorySegment text = told(() -> (MemorySegment) COMMIT.invokeExact());
        return text.reinterpret(Long.MAX_VALUE).getString(0);
    }

    /** Of a bad message it writes the place, as much of it as there is room for, and how many bytes the whole has. */
    static int locate(MemorySegment schema, MemorySegment scratch, MemorySegment options, MemorySegment message,
            MemorySegment place, MemorySegment written, MemorySegment verdict) {
        return told(() -> (int) LOCATE.invokeExact(schema, scratch, options, message, message.byteSize(), place,
                place.byteSize(), written, verdict));
    }

    /** The same where all of these are outside of Java's heap, while which garbage is collected. */
    static int locateLong(MemorySegment schema, MemorySegment scratch, MemorySegment options, MemorySegment message,
            MemorySegment place, MemorySegment written, MemorySegment verdict) {
        return told(() -> (int) LOCATE_LONG.invokeExact(schema, scratch, options, message, message.byteSize(), place,
                place.byteSize(), written, verdict));
    }

    static int read(MemorySegment schema, MemorySegment scratch, MemorySegment options, MemorySegment message,
            MemorySegment paths, MemorySegment values, long count, MemorySegment verdict) {
        return told(() -> (int) READ.invokeExact(schema, scratch, options, message, message.byteSize(), paths, values,
                count, verdict));
    }

    static int resolve(MemorySegment schema, MemorySegment options, MemorySegment text, MemorySegment path,
            MemorySegment verdict) {
        return told(() -> (int) RESOLVE.invokeExact(schema, options, text, text.byteSize(), path, verdict));
    }

    static int table(MemorySegment schema, MemorySegment name) {
        return told(() -> (int) TABLE.invokeExact(schema, name, name.byteSize()));
    }

    static long mostReads(MemorySegment schema, MemorySegment options, long length) {
        long[] reads = {0};
        int _ = told(() -> (int) MOST_READS.invokeExact(schema, options, length, MemorySegment.ofArray(reads)));
        return reads[0];
    }

    static String faultName(int status, int reason) {
        return name(room -> (long) FAULT_NAME.invokeExact(status, reason, room, room.byteSize())).orElseThrow();
    }

    static Optional<String> objectName(MemorySegment schema, int object) {
        return name(room -> (long) OBJECT_NAME.invokeExact(schema, object, room, room.byteSize()));
    }

    static Optional<String> fieldName(MemorySegment schema, int object, int field) {
        return name(room -> (long) FIELD_NAME.invokeExact(schema, object, field, room, room.byteSize()));
    }

    /** What helps with a text that is no path from this root. */
    static Optional<String> pathHint(MemorySegment schema, int root, MemorySegment path) {
        return name(room -> (long) PATH_HINT.invokeExact(schema, root, path, path.byteSize(), room, room.byteSize()));
    }

    /** What helps with a name that no table has. */
    static Optional<String> rootHint(MemorySegment schema, MemorySegment root) {
        return name(room -> (long) ROOT_HINT.invokeExact(schema, root, root.byteSize(), room, room.byteSize()));
    }

    private static Optional<String> name(Naming call) {
        byte[] text = new byte[told(() -> (int) call.told(MemorySegment.NULL))];
        long _ = told(() -> call.told(MemorySegment.ofArray(text)));
        return text.length == 0 ? Optional.empty() : Optional.of(new String(text, StandardCharsets.UTF_8));
    }

    /** A schema that is freed with the arena, or null. */
    static MemorySegment schemaNew(MemorySegment file, MemorySegment options, MemorySegment verdict, Arena arena) {
        MemorySegment made = told(() -> (MemorySegment) SCHEMA_NEW.invokeExact(file, file.byteSize(), options,
                verdict));
        return made.address() == 0 ? null : made.reinterpret(arena, schema -> freed(SCHEMA_FREE, schema));
    }

    /** Room for the open tables of one check, which is freed with the arena. */
    static MemorySegment scratchNew(int depth, Arena arena) {
        MemorySegment made = told(() -> (MemorySegment) SCRATCH_NEW.invokeExact(depth));
        if (made.address() == 0) {
            throw new OutOfMemoryError("fbcheck has no room for " + depth + " open tables");
        }
        return made.reinterpret(arena, scratch -> freed(SCRATCH_FREE, scratch));
    }

    private static void freed(MethodHandle free, MemorySegment segment) {
        told(() -> {
            free.invokeExact(segment);
            return null;
        });
    }

    static int feed(MemorySegment framer, MemorySegment room, MemorySegment piece, MemorySegment used) {
        return told(() -> (int) FEED.invokeExact(framer, room, room.byteSize(), piece, piece.byteSize(), used));
    }

    static int finish(MemorySegment framer, MemorySegment room) {
        return told(() -> (int) FINISH.invokeExact(framer, room, room.byteSize()));
    }
}

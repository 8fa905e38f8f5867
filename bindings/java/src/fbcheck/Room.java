package fbcheck;

import java.lang.foreign.Arena;
import java.lang.foreign.MemorySegment;

/**
 * Room for the open tables of one check, and for the place of a fault, which a thread keeps for the next one. A check
 * would do with its own stack, but then it clears 5 KB where more than three tables are open; a virtual thread has it
 * do so, since there may be millions of them.
 */
final class Room implements AutoCloseable {
    /** How many bytes of a place are told. */
    static final int PLACE = 1024;

    private static final ThreadLocal<Room> KEPT = new ThreadLocal<>();
    private static final Room STACK = new Room(Codes.DEEP, MemorySegment.NULL, null, null);

    private final int depth;
    private final MemorySegment scratch;
    private final Arena own; // null where it's kept
    private final byte[] place; // null where it isn't

    private Room(int depth, MemorySegment scratch, Arena own, byte[] place) {
        this.depth = depth;
        this.scratch = scratch;
        this.own = own;
        this.place = place;
    }

    /** Room for a check to this depth on this thread. */
    static Room of(int depth) {
        if (Thread.currentThread().isVirtual()) {
            return depth <= Codes.DEEP ? STACK : forOnce(depth);
        }
        Room kept = KEPT.get();
        if (kept == null || kept.depth < depth) {
            int most = Math.max(depth, Codes.DEEP);
            kept = new Room(most, Calls.scratchNew(most, Arena.ofAuto()), null, new byte[PLACE]);
            KEPT.set(kept);
        }
        return kept;
    }

    private static Room forOnce(int depth) {
        Arena own = Arena.ofConfined();
        return new Room(depth, Calls.scratchNew(depth, own), own, null);
    }

    /** The library's scratch, which this check alone has. */
    MemorySegment scratch() {
        return scratch;
    }

    /** Room for the text of a place. */
    byte[] place() {
        return place != null ? place : new byte[PLACE];
    }

    @Override
    public void close() {
        if (own != null) {
            own.close();
        }
    }
}

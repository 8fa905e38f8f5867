//! Room for the open tables of a check.

use std::alloc::{handle_alloc_error, Layout};
use std::cell::Cell;
use std::ptr::null_mut;

use crate::calls;

/// A scratch of the library, or none, and how many tables it has room for.
struct Room {
    at: *mut calls::Scratch,
    depth: u32,
}

impl Default for Room {
    fn default() -> Room {
        let (at, depth) = (null_mut(), 0);
        Room { at, depth }
    }
}

impl Drop for Room {
    fn drop(&mut self) {
        if !self.at.is_null() {
            // SAFETY: it was made by fbcheck_scratch_new, and no call has it.
            unsafe { calls::fbcheck_scratch_free(self.at) }
        }
    }
}

thread_local! {
    /// The room of this thread, while no call has it.
    static KEPT: Cell<Room> = const {
        Cell::new(Room {
            at: null_mut(),
            depth: 0,
        })
    };
}

/// The room of this thread for one call. A call would do with its own stack, but then it clears 5 KB where it
/// has more than three tables open.
pub struct Scratch(Room);

impl Scratch {
    /// Room for so many tables.
    pub fn of(depth: u32) -> Scratch {
        let depth = depth.max(calls::DEEP);
        let mut room = KEPT.try_with(Cell::take).unwrap_or_default();
        if room.depth < depth {
            // SAFETY: the call takes a number.
            let at = unsafe { calls::fbcheck_scratch_new(depth) };
            if at.is_null() {
                handle_alloc_error(Layout::new::<[u64; 8]>());
            }
            room = Room { at, depth };
        }
        Scratch(room)
    }

    /// The library's scratch, which this call alone has.
    pub fn at(&self) -> *mut calls::Scratch {
        self.0.at
    }
}

impl Drop for Scratch {
    fn drop(&mut self) {
        let room = std::mem::take(&mut self.0);
        // Where the thread is ending there's no place to keep it, and it is freed.
        let _ = KEPT.try_with(|kept| kept.set(room));
    }
}

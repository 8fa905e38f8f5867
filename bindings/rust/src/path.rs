//! Resolved paths, and how they are lent to calls.

use std::mem::MaybeUninit;
use std::ptr::addr_of_mut;

use crate::calls;

/// Of which schema a path is, from which root table.
#[derive(Clone, Copy, Debug, PartialEq, Eq)]
pub(crate) struct Origin {
    pub schema: u64,
    pub root: u32,
}

/// A resolved path, such as `items[0]@Parcel.name`.
///
/// It serves the schema that resolved it, its clones, and what [`Schema::with`](crate::Schema::with) makes from it with
/// the same root table. Reading by another schema or root panics.
#[derive(Clone, Copy, Debug)]
#[repr(C)] // what a short path needs comes first
pub struct Path {
    origin: Origin,
    steps: calls::Path,
}

impl Path {
    pub(crate) fn new(steps: calls::Path, origin: Origin) -> Path {
        Path { steps, origin }
    }

    /// The path with another index at its last `[n]`, such as `items[7].name` instead of `items[0].name`. No vector has
    /// more than 2^31 elements: with a greater index, values are [`Value::NoElement`](crate::Value::NoElement).
    ///
    /// # Panics
    /// If it has no `[n]`.
    #[must_use]
    #[track_caller]
    pub fn at(&self, index: u64) -> Path {
        let mut path = *self;
        let steps = &mut path.steps.steps[..self.steps.count as usize];
        let mut backwards = steps.iter_mut().rev();
        let element = backwards.find(|step| step.kind == calls::STEP_ELEMENT);
        let Some(element) = element else {
            panic!("the path has no [n]");
        };
        element.number = u32::try_from(index).unwrap_or(u32::MAX);
        path
    }

    /// Its steps for a call, which looks at no more than there are.
    #[inline]
    fn lend(&self, to: &mut MaybeUninit<calls::Path>) {
        let count = self.steps.count as usize;
        let (from, to) = (self.steps.steps.as_ptr(), to.as_mut_ptr());
        // SAFETY: all places are in the paths, which have as many steps; no reference is made to one that isn't set.
        unsafe {
            addr_of_mut!((*to).count).write(self.steps.count);
            addr_of_mut!((*to).each).write(self.steps.each);
            let steps = addr_of_mut!((*to).steps).cast::<calls::Step>();
            steps.copy_from_nonoverlapping(from, SHORT); // by no call
            if count > SHORT {
                let more = count - SHORT;
                steps
                    .add(SHORT)
                    .copy_from_nonoverlapping(from.add(SHORT), more);
            }
        }
    }
}

/// So many steps are copied at least.
const SHORT: usize = 4;

/// Room for what a call takes or gives, of which few need no memory.
pub(crate) struct Room<T> {
    few: [MaybeUninit<T>; 8],
    many: Vec<MaybeUninit<T>>,
}

impl<T: Copy> Room<T> {
    #[inline(always)]
    pub fn new() -> Room<T> {
        Room {
            few: [MaybeUninit::uninit(); 8],
            many: Vec::new(),
        }
    }

    /// Room for so many, none of which is set.
    #[inline]
    pub fn of(&mut self, count: usize) -> &mut [MaybeUninit<T>] {
        match self.few.get_mut(..count) {
            Some(few) => few,
            None => {
                self.many.resize(count, MaybeUninit::uninit());
                &mut self.many
            }
        }
    }
}

/// Puts paths for a call into as much room.
///
/// # Panics
/// If one is of another schema or root.
#[inline]
#[track_caller]
pub(crate) fn lend(paths: &[Path], origin: Origin, room: &mut [MaybeUninit<calls::Path>]) {
    for (path, to) in paths.iter().zip(room) {
        let same = path.origin == origin;
        assert!(same, "a path is none of this schema from this root");
        path.lend(to);
    }
}

//! The messages of a stream.

use std::fmt;
use std::io::{ErrorKind, Read};
use std::slice;

use crate::{calls, Schema, Verdict};

/// How many bytes are asked of the reader at once.
const PIECE: usize = 1 << 16;

/// How much room the first messages get.
const FIRST: usize = 256;

/// How many bytes of a message are its size.
const PREFIX: usize = 4;

/// The messages of a stream, one after another, whatever pieces it comes in.
///
/// ```no_run
/// # fn main() -> Result<(), Box<dyn std::error::Error>> {
/// let schema = fbcheck::Options::new().prefixed(true).load(&std::fs::read("my.bfbs")?)?;
/// let mut messages = schema.messages(std::io::stdin()).max_bytes(1 << 20);
/// while let Some((message, verdict)) = messages.next_message()? {
///     match verdict {
///         Ok(_) => println!("{} bytes", message.len()),
///         Err(fault) => eprintln!("refused: {fault}"),
///     }
/// }
/// # Ok(())
/// # }
/// ```
#[derive(Debug)]
pub struct Messages<R> {
    schema: Schema,
    reader: R,
    max_bytes: usize,
    framer: calls::Framer,
    /// As much room as the messages up to now have needed. The framer says how many bytes of it are set.
    room: Vec<u8>,
    piece: Vec<u8>,
    /// What of the piece isn't fed yet.
    at: usize,
    end: usize,
    count: u64,
    begin: u64,
    /// Where the next message begins.
    next: u64,
}

impl<R: Read> Messages<R> {
    pub(crate) fn new(schema: Schema, reader: R) -> Messages<R> {
        Messages {
            schema,
            reader,
            max_bytes: 64 << 20,
            framer: calls::FRAMER_INIT,
            room: Vec::new(),
            piece: vec![0; PIECE],
            at: 0,
            end: 0,
            count: 0,
            begin: 0,
            next: 0,
        }
    }

    /// The most bytes of a message, its size included. Default: 64 MiB. It also bounds the memory for messages: up to
    /// twice what the longest one declares is reserved, and kept, but only what comes is used.
    ///
    /// # Panics
    /// If it's below 8 or above 2^31 - 1, or a message was asked for already.
    #[must_use]
    #[track_caller]
    pub fn max_bytes(mut self, bytes: usize) -> Messages<R> {
        let allowed = (8..=0x7fff_ffff).contains(&bytes);
        assert!(allowed, "max_bytes({bytes}) isn't from 8 to 2^31 - 1");
        let begun = self.room.capacity() > 0;
        assert!(!begun, "max_bytes after the first message");
        self.max_bytes = bytes;
        self
    }

    /// How many messages came up to now: the number of the last one.
    pub fn count(&self) -> u64 {
        self.count
    }

    /// Where that one begins in the stream, in bytes.
    pub fn begin(&self) -> u64 {
        self.begin
    }

    /// The next message, with its size in front, and the verdict on it; `None` at the stream's end.
    ///
    /// # Errors
    /// The reader failed, a message is too long, memory was refused, or the stream ends inside a message. After
    /// [`StreamError::Read`] and [`StreamError::NoMemory`] you may call again: nothing is lost.
    pub fn next_message(&mut self) -> Result<Option<(&[u8], Verdict)>, StreamError> {
        if self.next_unchecked()?.is_none() {
            return Ok(None);
        }
        let message = self.held();
        Ok(Some((message, self.schema.check(message))))
    }

    /// The next message, with its size in front, unchecked: [`Schema::read`] checks it, or another thread a copy of it.
    ///
    /// # Errors
    /// Those of [`Messages::next_message`].
    pub fn next_unchecked(&mut self) -> Result<Option<&[u8]>, StreamError> {
        if self.room.capacity() == 0 {
            self.room = self.room_for(FIRST)?;
        }
        let size = self.size();
        // SAFETY: the room has its size, and the framer is this room's.
        unsafe { calls::fbcheck_framer_next(&mut self.framer, self.room.as_ptr(), size) };
        while !self.feed()? {
            if !self.fill()? {
                return self.finish().map(|()| None);
            }
        }
        self.count += 1;
        self.begin = self.next;
        self.next += self.framer.held as u64;
        Ok(Some(self.held()))
    }

    /// How many bytes the room has for the framer, as long as it's the same room.
    fn size(&self) -> usize {
        self.room.capacity().min(self.max_bytes)
    }

    /// Room for so many bytes, or for what is allowed. None of it is set.
    fn room_for(&self, bytes: usize) -> Result<Vec<u8>, StreamError> {
        let mut room = Vec::new();
        let bytes = bytes.min(self.max_bytes);
        match room.try_reserve_exact(bytes) {
            Ok(()) => Ok(room),
            Err(_) => Err(StreamError::NoMemory {
                number: self.count + 1,
                begin: self.next,
                bytes,
            }),
        }
    }

    /// How many bytes the message has, if its size has come.
    fn size_of_message(&self) -> Option<usize> {
        let prefix = self.held().get(..PREFIX)?.try_into().ok()?;
        Some(PREFIX + u32::from_le_bytes(prefix) as usize)
    }

    /// What of a message has come.
    fn held(&self) -> &[u8] {
        // SAFETY: the framer has set so many bytes of the room.
        unsafe { slice::from_raw_parts(self.room.as_ptr(), self.framer.held) }
    }

    /// Feeds what is left of the piece, and tells whether a whole message is held.
    fn feed(&mut self) -> Result<bool, StreamError> {
        let before = self.framer;
        let mut status = self.feed_rest();
        if status == calls::OVERSIZE {
            self.grow(before)?;
            status = self.feed_rest();
        }
        match status {
            calls::OK => Ok(true),
            calls::MORE => Ok(false),
            _ => Err(StreamError::Failed),
        }
    }

    fn feed_rest(&mut self) -> u32 {
        let rest = &self.piece[self.at..self.end];
        let (size, mut used) = (self.size(), 0);
        // SAFETY: room and rest have as many bytes, and are apart.
        let status = unsafe {
            calls::fbcheck_framer_feed(
                &mut self.framer,
                self.room.as_mut_ptr(),
                size,
                rest.as_ptr(),
                rest.len(),
                &mut used,
            )
        };
        self.at += used;
        status
    }

    /// Makes room for a message whose size has come, with the first bytes of the piece. What was held before stays held
    /// if there is none.
    fn grow(&mut self, before: calls::Framer) -> Result<(), StreamError> {
        let declared = self.framer.declared;
        let size = declared as usize + PREFIX;
        if size > self.max_bytes {
            return Err(StreamError::Oversize {
                number: self.count + 1,
                begin: self.next,
                declared,
                max_bytes: self.max_bytes,
            });
        }
        self.framer = before;
        self.room = self.room_for(2 * size)?;
        self.framer = calls::FRAMER_INIT;
        self.at += PREFIX - before.held;
        let (room, prefix, mut used) = (self.size(), declared.to_le_bytes(), 0);
        // SAFETY: the room has its size, and the prefix as many bytes.
        unsafe {
            let (framer, to) = (&mut self.framer, self.room.as_mut_ptr());
            calls::fbcheck_framer_feed(framer, to, room, prefix.as_ptr(), PREFIX, &mut used)
        };
        Ok(())
    }

    /// Reads the next piece, and tells whether there is one.
    fn fill(&mut self) -> Result<bool, StreamError> {
        (self.at, self.end) = (0, 0);
        self.end = loop {
            match self.reader.read(&mut self.piece) {
                Err(error) if error.kind() == ErrorKind::Interrupted => {}
                told => break told.map_err(StreamError::Read)?,
            }
        };
        Ok(self.end > 0)
    }

    fn finish(&mut self) -> Result<(), StreamError> {
        let (size, framer) = (self.size(), &mut self.framer);
        // SAFETY: the room has its size, and the framer is this room's.
        match unsafe { calls::fbcheck_framer_finish(framer, self.room.as_ptr(), size) } {
            calls::OK => Ok(()),
            _ => Err(StreamError::Truncated {
                number: self.count + 1,
                begin: self.next,
                held: self.framer.held,
                size: self.size_of_message(),
            }),
        }
    }
}

/// Why a stream can't go on. Messages are numbered from 1, and begin where their size does.
#[derive(Debug)]
#[non_exhaustive]
pub enum StreamError {
    /// The reader failed.
    Read(std::io::Error),
    /// A message is longer than [`Messages::max_bytes`].
    Oversize {
        /// Its number.
        number: u64,
        /// Where it begins in the stream, in bytes.
        begin: u64,
        /// How many bytes its size declares, which aren't counted in it.
        declared: u32,
        /// How many were allowed, its size included.
        max_bytes: usize,
    },
    /// The stream ends inside a message.
    Truncated {
        /// Its number.
        number: u64,
        /// Where it begins in the stream, in bytes.
        begin: u64,
        /// How many of its bytes came, those of its size included.
        held: usize,
        /// How many it has, if its size came.
        size: Option<usize>,
    },
    /// Memory for a message was refused.
    NoMemory {
        /// Its number.
        number: u64,
        /// Where it begins in the stream, in bytes.
        begin: u64,
        /// How many bytes were asked for.
        bytes: usize,
    },
    /// It has failed before.
    Failed,
}

/// The program's text, and what it doesn't say.
impl fmt::Display for StreamError {
    fn fmt(&self, to: &mut fmt::Formatter) -> fmt::Result {
        match *self {
            StreamError::Read(ref error) => write!(to, "read failed: {error}"),
            StreamError::Oversize {
                number,
                begin,
                declared,
                max_bytes,
            } => {
                write!(
                    to,
                    "stream: S1 Oversize declared={declared}; message {number} at {begin} "
                )?;
                write!(to, "is longer than max_bytes, {max_bytes}")
            }
            StreamError::Truncated {
                number,
                begin,
                held,
                size,
            } => {
                write!(
                    to,
                    "stream: S2 Truncated held={held}; message {number} at {begin} "
                )?;
                match size {
                    Some(size) => write!(to, "has {size} bytes"),
                    None => write!(to, "ends inside its size"),
                }
            }
            StreamError::NoMemory {
                number,
                begin,
                bytes,
            } => write!(
                to,
                "out of memory: {bytes} bytes for message {number} at {begin}"
            ),
            StreamError::Failed => write!(to, "stream: S4 Failed"),
        }
    }
}

impl std::error::Error for StreamError {
    fn source(&self) -> Option<&(dyn std::error::Error + 'static)> {
        match self {
            StreamError::Read(error) => Some(error),
            _ => None,
        }
    }
}

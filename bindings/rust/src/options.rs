//! What a check asks of a message.

use crate::{calls, Error, Schema};

/// What a check asks of a message. Schema files are always loaded within the default limits.
///
/// Each method changes one option, and names its default. A limit of 0 allows nothing.
#[derive(Clone, Debug)]
#[must_use]
pub struct Options {
    pub(crate) root: Option<String>,
    pub(crate) asked: calls::Options,
}

impl Default for Options {
    fn default() -> Options {
        Options::new()
    }
}

impl Options {
    /// The defaults: plain checks from the schema's own root table, for any identifier, within a budget of reads.
    pub fn new() -> Options {
        Options {
            root: None,
            asked: calls::OPTIONS_INIT,
        }
    }

    /// Makes a schema from the bytes of a schema file. The bytes aren't needed afterwards.
    ///
    /// # Errors
    /// The file isn't a binary schema, memory was refused, or the options can't be served.
    pub fn load(&self, file: &[u8]) -> Result<Schema, Error> {
        Schema::load(file, self)
    }

    /// The root table, by its name with its namespace, such as `game.Monster`. Default: the schema's own.
    pub fn root(mut self, name: &str) -> Options {
        self.root = Some(name.to_owned());
        self
    }

    /// The most levels of tables, the root being the first; at most 4,096. Each thread keeps room for as many. Default:
    /// 64.
    pub fn max_depth(mut self, tables: u32) -> Options {
        self.asked.max_depth = tables;
        self
    }

    /// The most tables visited. Default: 1,000,000.
    pub fn max_tables(mut self, tables: u32) -> Options {
        self.asked.max_tables = tables;
        self
    }

    /// The most counted reads. Default: 100,000,000.
    pub fn max_reads(mut self, reads: u64) -> Options {
        self.asked.max_reads = reads;
        self
    }

    /// The most counted reads per byte, as if the message had 64 bytes more. Default: 64.
    pub fn reads_per_byte(mut self, reads: u32) -> Options {
        self.asked.reads_per_byte = reads;
        self
    }

    /// A message must have this file identifier, whatever the schema declares. Default: any, or none.
    pub fn ident(mut self, ident: [u8; 4]) -> Options {
        self.asked.ident = ident;
        self.asked.ident_from = calls::IDENT_THIS as u8;
        self
    }

    /// A message must have the schema's own file identifier, as generated verifiers ask; any if it declares none.
    pub fn own_ident(mut self) -> Options {
        self.asked.ident_from = calls::IDENT_OWN as u8;
        self
    }

    /// Whether a message begins with its size (4 bytes), from which positions count. Default: false.
    pub fn prefixed(mut self, prefixed: bool) -> Options {
        self.asked.prefixed = u8::from(prefixed);
        self
    }

    /// Whether positions must be aligned. Default: true.
    pub fn alignment(mut self, asked: bool) -> Options {
        self.asked.no_alignment = u8::from(!asked);
        self
    }

    /// Whether a field must end within its table's inline size. Default: false.
    pub fn inline_size(mut self, asked: bool) -> Options {
        self.asked.inline_size = u8::from(asked);
        self
    }

    /// Whether to check also what code that `flatc` generates relies on. Default: false. After such an ok a reader may
    /// follow the offset of a union's value before it checks the type, if it reads nothing there (an element of type 0
    /// in a vector of unions may still lead outside the message); and it may go through a vector of unions by the
    /// length of either vector. Nested buffers are ok in the same sense, and there are no flexbuffers. A schema must be
    /// loaded with this option, and keeps it.
    pub fn strict(self, asked: bool) -> Options {
        self.demanding(calls::STRICT, asked)
    }

    /// Whether to refuse fields that the schema lacks or deprecates. Default: false. A schema must be loaded with this
    /// option, and keeps it.
    pub fn known_fields(self, asked: bool) -> Options {
        self.demanding(calls::KNOWN_FIELDS, asked)
    }

    /// Whether strings must be UTF-8; each of their bytes then counts as a read. Default: false. A schema must be
    /// loaded with this option, and keeps it.
    pub fn utf8(self, asked: bool) -> Options {
        self.demanding(calls::UTF8, asked)
    }

    /// Whether strict checks treat fields of type `[ubyte]` as plain bytes, whatever the schema file says about nested
    /// buffers and flexbuffers. Default: false. This needs [`Options::strict`].
    pub fn plain_bytes(self, asked: bool) -> Options {
        self.demanding(calls::PLAIN_BYTES, asked)
    }

    fn demanding(mut self, demand: u32, asked: bool) -> Options {
        let others = self.asked.demands & !demand;
        self.asked.demands = if asked { others | demand } else { others };
        self
    }
}

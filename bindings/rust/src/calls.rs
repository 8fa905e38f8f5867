// made from fbcheck.h by bindings/make; don't edit
//! The library for C as its header `fbcheck.h` declares it.
#![allow(dead_code)]

use std::ffi::c_char;

pub const VERSION: u32 = 1;
pub const DEEP: u32 = 64;
pub const DEEPEST: u32 = 4096;
pub const NONE: u32 = 0xffffffff;
pub const NO_TABLE: u32 = 0xfffffffe;
pub const STRICT: u32 = 1;
pub const KNOWN_FIELDS: u32 = 2;
pub const UTF8: u32 = 4;
pub const PLAIN_BYTES: u32 = 8;
pub const STEPS: u32 = 31;
pub const LONGEST_PLACE: u32 = 4098;
pub const LONGEST_HINT: u32 = 1024;

// enum fbcheck_status
pub const OK: u32 = 0;
pub const BAD: u32 = 1;
pub const NULL: u32 = 2;
pub const UNKNOWN_OPTIONS: u32 = 3;
pub const OUT_OF_RANGE: u32 = 4;
pub const NO_IDENT: u32 = 5;
pub const NO_ROOT: u32 = 6;
pub const TOO_LONG: u32 = 7;
pub const NOT_WELL_FORMED: u32 = 8;
pub const BAD_SCHEMA: u32 = 9;
pub const ROOT_NOT_LISTED: u32 = 10;
pub const NO_MEMORY: u32 = 11;
pub const NO_SPAN: u32 = 12;
pub const MORE: u32 = 13;
pub const OVERSIZE: u32 = 14;
pub const TRUNCATED: u32 = 15;
pub const FAILED: u32 = 16;
pub const BAD_PATH: u32 = 17;
pub const NO_ROOM: u32 = 18;
pub const MISFIT: u32 = 19;
pub const TOO_MUCH_SHARED: u32 = 20;
pub const NOT_PLANNED: u32 = 21;
pub const UNMARKED_BYTES: u32 = 22;
pub const NO_SUCH_TABLE: u32 = 23;
pub const CHANGED: u32 = 24;

// enum fbcheck_path_fault
pub const BAD_TEXT: u32 = 1;
pub const NO_SUCH_FIELD: u32 = 2;
pub const NOT_INDEXABLE: u32 = 3;
pub const NOT_A_UNION: u32 = 4;
pub const NO_SUCH_MEMBER: u32 = 5;
pub const NOT_A_TABLE: u32 = 6;

// enum fbcheck_kind
pub const ABSENT: u32 = 0;
pub const NO_ELEMENT: u32 = 1;
pub const OTHER_MEMBER: u32 = 2;
pub const BOOL: u32 = 3;
pub const INT: u32 = 4;
pub const UINT: u32 = 5;
pub const FLOAT: u32 = 6;
pub const TEXT: u32 = 7;
pub const STRUCT: u32 = 8;
pub const VECTOR: u32 = 9;
pub const TABLE: u32 = 10;
pub const UNION: u32 = 11;
pub const DEFAULT_FLOAT: u32 = 12;

// enum fbcheck_ident
pub const IDENT_ANY: u32 = 0;
pub const IDENT_THIS: u32 = 1;
pub const IDENT_OWN: u32 = 2;

// enum fbcheck_step_kind
pub const STEP_FIELD: u32 = 1;
pub const STEP_ELEMENT: u32 = 2;
pub const STEP_MEMBER: u32 = 3;

/// `fbcheck_schema`
#[repr(C)]
pub struct Schema {
    _hidden: [u8; 0],
}

/// `fbcheck_scratch`
#[repr(C)]
pub struct Scratch {
    _hidden: [u8; 0],
}

/// `fbcheck_options`
#[derive(Clone, Copy, Debug, Default)]
#[repr(C)]
pub struct Options {
    pub version: u32,
    pub root: u32,
    pub max_reads: u64,
    pub max_depth: u32,
    pub max_tables: u32,
    pub reads_per_byte: u32,
    pub ident: [u8; 4],
    pub ident_from: u8,
    pub prefixed: u8,
    pub no_alignment: u8,
    pub inline_size: u8,
    pub demands: u32,
    pub reserved: [u32; 6],
}

/// `FBCHECK_OPTIONS_INIT`
pub const OPTIONS_INIT: Options = Options {
    version: 1,
    root: 0xffffffff,
    max_reads: 100_000_000,
    max_depth: 64,
    max_tables: 1_000_000,
    reads_per_byte: 64,
    ident: [0; 4],
    ident_from: 0,
    prefixed: 0,
    no_alignment: 0,
    inline_size: 0,
    demands: 0,
    reserved: [0; 6],
};

/// `fbcheck_verdict`
#[derive(Clone, Copy, Debug, Default)]
#[repr(C)]
pub struct Verdict {
    pub status: u32,
    pub reason: u32,
    pub object: u32,
    pub field: u32,
    pub tables: u32,
    pub depth: u32,
    pub at: u64,
    pub reads: u64,
    pub reserved: [u64; 3],
}

/// `fbcheck_span`
#[derive(Clone, Copy, Debug, Default)]
#[repr(C)]
pub struct Span {
    pub at: usize,
    pub length: usize,
}

/// `fbcheck_framer`
#[derive(Clone, Copy, Debug, Default)]
#[repr(C)]
pub struct Framer {
    pub held: usize,
    pub failed: u32,
    pub declared: u32,
}

/// `FBCHECK_FRAMER_INIT`
pub const FRAMER_INIT: Framer = Framer {
    held: 0,
    failed: 0,
    declared: 0,
};

/// `fbcheck_step`
#[derive(Clone, Copy, Debug, Default)]
#[repr(C)]
pub struct Step {
    pub kind: u32,
    pub number: u32,
}

/// `fbcheck_path`
#[derive(Clone, Copy, Debug, Default)]
#[repr(C)]
pub struct Path {
    pub count: u32,
    pub each: u32,
    pub steps: [Step; 31],
}

/// `fbcheck_value`
#[derive(Clone, Copy, Debug, Default)]
#[repr(C)]
pub struct Value {
    pub kind: u32,
    pub reserved: u32,
    pub number: u64,
    pub integer: i64,
    pub at: u64,
    pub size: u64,
}

/// `fbcheck_sizes`
#[derive(Clone, Copy, Debug, Default)]
#[repr(C)]
pub struct Sizes {
    pub options: usize,
    pub verdict: usize,
    pub span: usize,
    pub framer: usize,
    pub path: usize,
    pub value: usize,
}

extern "C" {
    pub fn fbcheck_schema_new(
        file: *const u8,
        length: usize,
        options: *const Options,
        verdict: *mut Verdict,
    ) -> *mut Schema;
    pub fn fbcheck_schema_free(schema: *mut Schema);
    pub fn fbcheck_scratch_new(depth: u32) -> *mut Scratch;
    pub fn fbcheck_scratch_free(scratch: *mut Scratch);
    pub fn fbcheck_table(schema: *const Schema, name: *const c_char, length: usize) -> u32;
    pub fn fbcheck_verify(
        schema: *const Schema,
        scratch: *mut Scratch,
        options: *const Options,
        buffer: *const u8,
        length: usize,
        verdict: *mut Verdict,
    ) -> u32;
    pub fn fbcheck_verify_each(
        schema: *const Schema,
        scratch: *mut Scratch,
        options: *const Options,
        block: *const u8,
        length: usize,
        spans: *const Span,
        verdicts: *mut Verdict,
        count: usize,
    ) -> u32;
    pub fn fbcheck_locate(
        schema: *const Schema,
        scratch: *mut Scratch,
        options: *const Options,
        buffer: *const u8,
        length: usize,
        text: *mut c_char,
        room: usize,
        written: *mut usize,
        verdict: *mut Verdict,
    ) -> u32;
    pub fn fbcheck_resolve(
        schema: *const Schema,
        options: *const Options,
        text: *const c_char,
        length: usize,
        path: *mut Path,
        verdict: *mut Verdict,
    ) -> u32;
    pub fn fbcheck_read(
        schema: *const Schema,
        scratch: *mut Scratch,
        options: *const Options,
        buffer: *const u8,
        length: usize,
        paths: *const Path,
        values: *mut Value,
        count: usize,
        verdict: *mut Verdict,
    ) -> u32;
    pub fn fbcheck_read_again(
        schema: *const Schema,
        options: *const Options,
        buffer: *const u8,
        length: usize,
        paths: *const Path,
        values: *mut Value,
        count: usize,
        verdict: *mut Verdict,
    ) -> u32;
    pub fn fbcheck_read_each(
        schema: *const Schema,
        options: *const Options,
        buffer: *const u8,
        length: usize,
        path: *const Path,
        first: usize,
        values: *mut Value,
        count: usize,
        elements: *mut usize,
        verdict: *mut Verdict,
    ) -> u32;
    pub fn fbcheck_most_reads(
        schema: *const Schema,
        options: *const Options,
        length: u64,
        reads: *mut u64,
    ) -> u32;
    pub fn fbcheck_fault_name(status: u32, reason: u32, text: *mut c_char, room: usize) -> usize;
    pub fn fbcheck_reason_name(reason: u32, text: *mut c_char, room: usize) -> usize;
    pub fn fbcheck_status_text(status: u32, text: *mut c_char, room: usize) -> usize;
    pub fn fbcheck_object_name(
        schema: *const Schema,
        object: u32,
        text: *mut c_char,
        room: usize,
    ) -> usize;
    pub fn fbcheck_field_name(
        schema: *const Schema,
        object: u32,
        field: u32,
        text: *mut c_char,
        room: usize,
    ) -> usize;
    pub fn fbcheck_path_hint(
        schema: *const Schema,
        root: u32,
        path: *const c_char,
        length: usize,
        text: *mut c_char,
        room: usize,
    ) -> usize;
    pub fn fbcheck_root_hint(
        schema: *const Schema,
        name: *const c_char,
        length: usize,
        text: *mut c_char,
        room: usize,
    ) -> usize;
    pub fn fbcheck_framer_feed(
        framer: *mut Framer,
        room: *mut u8,
        size: usize,
        piece: *const u8,
        length: usize,
        used: *mut usize,
    ) -> u32;
    pub fn fbcheck_framer_next(framer: *mut Framer, room: *const u8, size: usize) -> u32;
    pub fn fbcheck_framer_finish(framer: *mut Framer, room: *const u8, size: usize) -> u32;
    pub fn fbcheck_options_init(options: *mut Options) -> u32;
    pub fn fbcheck_version() -> u32;
    pub fn fbcheck_commit() -> *const c_char;
    pub fn fbcheck_struct_sizes(sizes: *mut Sizes) -> u32;
}

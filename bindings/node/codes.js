// made from fbcheck.h by bindings/make; don't edit
'use strict';

const NUMBERS = {
  VERSION: 1, DEEP: 64, DEEPEST: 4096, NONE: 0xffffffff, NO_TABLE: 0xfffffffe, STRICT: 1, KNOWN_FIELDS: 2, UTF8: 4,
  PLAIN_BYTES: 8, STEPS: 31, LONGEST_PLACE: 4098, LONGEST_HINT: 1024,
  // enum fbcheck_status
  OK: 0, BAD: 1, NULL: 2, UNKNOWN_OPTIONS: 3, OUT_OF_RANGE: 4, NO_IDENT: 5, NO_ROOT: 6, TOO_LONG: 7, NOT_WELL_FORMED: 8,
  BAD_SCHEMA: 9, ROOT_NOT_LISTED: 10, NO_MEMORY: 11, NO_SPAN: 12, MORE: 13, OVERSIZE: 14, TRUNCATED: 15, FAILED: 16,
  BAD_PATH: 17, NO_ROOM: 18, MISFIT: 19, TOO_MUCH_SHARED: 20, NOT_PLANNED: 21, UNMARKED_BYTES: 22, NO_SUCH_TABLE: 23,
  CHANGED: 24,
  // enum fbcheck_path_fault
  BAD_TEXT: 1, NO_SUCH_FIELD: 2, NOT_INDEXABLE: 3, NOT_A_UNION: 4, NO_SUCH_MEMBER: 5, NOT_A_TABLE: 6,
  // enum fbcheck_kind
  ABSENT: 0, NO_ELEMENT: 1, OTHER_MEMBER: 2, BOOL: 3, INT: 4, UINT: 5, FLOAT: 6, TEXT: 7, STRUCT: 8, VECTOR: 9,
  TABLE: 10, UNION: 11, DEFAULT_FLOAT: 12,
  // enum fbcheck_ident
  IDENT_ANY: 0, IDENT_THIS: 1, IDENT_OWN: 2,
  // enum fbcheck_step_kind
  STEP_FIELD: 1, STEP_ELEMENT: 2, STEP_MEMBER: 3,
};

// Names by their numbers.
const STATUSES = ['OK', 'BAD', 'NULL', 'UNKNOWN_OPTIONS', 'OUT_OF_RANGE', 'NO_IDENT', 'NO_ROOT', 'TOO_LONG',
  'NOT_WELL_FORMED', 'BAD_SCHEMA', 'ROOT_NOT_LISTED', 'NO_MEMORY', 'NO_SPAN', 'MORE', 'OVERSIZE', 'TRUNCATED', 'FAILED',
  'BAD_PATH', 'NO_ROOM', 'MISFIT', 'TOO_MUCH_SHARED', 'NOT_PLANNED', 'UNMARKED_BYTES', 'NO_SUCH_TABLE', 'CHANGED'];
const REASONS = ['TooLong', 'WrongPrefix', 'OutOfBuffer', 'Misaligned', 'ZeroOffset', 'WrongIdentifier', 'TooDeep',
  'TooManyTables', 'BadVtable', 'MissingRequired', 'NoTerminator', 'LengthsDiffer', 'PastTable', 'TooManyReads',
  'FlexContent', 'NotUtf8', 'UnknownField'];
const CODES = ['', 'NoSuchObject', 'NoSuchEnum', 'Unsupported', 'BadSlot', 'NoTypeField', 'BadStruct', 'BadMember',
  'NameTwice'];
const PATH_FAULTS = ['', 'BadText', 'NoSuchField', 'NotIndexable', 'NotAUnion', 'NoSuchMember', 'NotATable'];
const KINDS = ['absent', 'no-element', 'other-member', 'bool', 'int', 'uint', 'float', 'text', 'struct', 'vector',
  'table', 'union', 'float'];

// Structs: where each field stands, with how many bytes; and how many bytes there are.
const OPTIONS = { version: [0, 4], root: [4, 4], maxReads: [8, 8], maxDepth: [16, 4], maxTables: [20, 4],
  readsPerByte: [24, 4], ident: [28, 4], identFrom: [32, 1], prefixed: [33, 1], noAlignment: [34, 1],
  inlineSize: [35, 1], demands: [36, 4], reserved: [40, 24] };
const OPTIONS_BYTES = 64;
const VERDICT = { status: [0, 4], reason: [4, 4], object: [8, 4], field: [12, 4], tables: [16, 4], depth: [20, 4],
  at: [24, 8], reads: [32, 8], reserved: [40, 24] };
const VERDICT_BYTES = 64;
const SPAN = { at: [0, 8], length: [8, 8] };
const SPAN_BYTES = 16;
const FRAMER = { held: [0, 8], failed: [8, 4], declared: [12, 4] };
const FRAMER_BYTES = 16;
const STEP = { kind: [0, 4], number: [4, 4] };
const STEP_BYTES = 8;
const PATH = { count: [0, 4], each: [4, 4], steps: [8, 248] };
const PATH_BYTES = 256;
const VALUE = { kind: [0, 4], reserved: [4, 4], number: [8, 8], integer: [16, 8], at: [24, 8], size: [32, 8] };
const VALUE_BYTES = 40;
const SIZES = { options: [0, 8], verdict: [8, 8], span: [16, 8], framer: [24, 8], path: [32, 8], value: [40, 8] };
const SIZES_BYTES = 48;

// What FBCHECK_OPTIONS_INIT asks.
const LIMITS = { maxReads: 100_000_000, maxDepth: 64, maxTables: 1_000_000, readsPerByte: 64 };

module.exports = { ...NUMBERS, STATUSES, REASONS, CODES, PATH_FAULTS, KINDS, LIMITS, OPTIONS, OPTIONS_BYTES, VERDICT,
  VERDICT_BYTES, SPAN, SPAN_BYTES, FRAMER, FRAMER_BYTES, STEP, STEP_BYTES, PATH, PATH_BYTES, VALUE, VALUE_BYTES, SIZES,
  SIZES_BYTES };

'use strict';

const fs = require('node:fs');
const { isUint8Array } = require('node:util').types;
const {
  CODES, KINDS, LIMITS, OPTIONS, OPTIONS_BYTES, PATH, PATH_BYTES, PATH_FAULTS, REASONS, STATUSES, VALUE, VALUE_BYTES,
  VERSION, ...numbers
} = require('./codes.js');
const native = require('./fbcheck.node');

const {
  BAD, BAD_TEXT, CHANGED, DEEPEST, DEFAULT_FLOAT, MISFIT, MORE, NONE, NOT_WELL_FORMED, NO_ROOT, NO_SUCH_TABLE, NO_TABLE,
  OK, OVERSIZE, TOO_LONG, TRUNCATED, UNMARKED_BYTES,
} = numbers;

// What a call tells beside its answer, by the places that the enum in fbcheck.c gives.
const told = new Float64Array(16);
const [STATUS, REASON, OBJECT, FIELD, TABLES, DEPTH, AT, READS, USED, LEFT] = Array(10).keys();
const errorFor = (code, text) => new FbcheckError(code, text);
if (native.begin(told, errorFor) !== VERSION) throw new Error('another libfbcheck is linked');

// Where the numbers of a value stand, in words of 32 bits.
const VALUE_WORDS = VALUE_BYTES / 4;
const [KIND, NUMBER, INTEGER, BEGIN, SIZE] =
  [VALUE.kind, VALUE.number, VALUE.integer, VALUE.at, VALUE.size].map(([at]) => at / 4);

const TEXTS = {
  NO_IDENT: "the schema's identifier isn't four bytes",
  NO_ROOT: 'no root table',
  TOO_LONG: 'schema: L5 TooLong',
  ROOT_NOT_LISTED: 'schema: L3 RootNotListed',
  NO_MEMORY: 'out of memory',
  FAILED: 'stream: S4 Failed',
  NO_ROOM: `the path has more than ${numbers.STEPS} steps`,
  MISFIT: 'a path is none of this schema from this root',
  TOO_MUCH_SHARED: 'schema: L6 TooMuchShared',
  NOT_PLANNED: 'the schema was loaded with other demands: ask for these when you load it',
  CHANGED: "the bytes aren't those of a good message any more",
};

// Why strict checks refuse a schema file with a field of bytes, whose name stands between.
const REFUSALS = {
  UNMARKED_BYTES: ["strict can't tell which bytes are nested buffers or flexbuffers: ",
    '; flatc --bfbs-builtins writes it to the .bfbs, plainBytes takes such fields as bytes'],
  NO_SUCH_TABLE: ["strict can't find the table of a nested buffer: ", '; plainBytes takes such fields as bytes'],
};

// What is said behind the fault of a file that isn't well-formed, by whether it has the identifier of schema files.
const NO_SCHEMA = 'this is no binary schema, which flatc --binary --schema makes';
const DAMAGED = 'this binary schema is damaged';

class FbcheckError extends Error {
  name = 'FbcheckError';

  constructor(code, text) {
    super(text);
    this.code = code;
  }
}

class BadBuffer extends FbcheckError {
  name = 'BadBuffer';

  constructor(verdict) {
    super('BAD', String(verdict));
    this.verdict = verdict;
  }
}

/** The verdict on a good message, as it was told. */
class Good {
  constructor() {
    this.ok = true;
    this.tables = told[TABLES];
    this.depth = told[DEPTH];
    this.reads = told[READS];
  }

  toString() {
    return `ok tables=${this.tables} depth=${this.depth} reads=${this.reads}`;
  }
}

/** The verdict on a bad one, as it was told, with its place in words. */
class Bad {
  constructor(place) {
    this.ok = false;
    this.reason = REASONS[told[REASON]];
    this.position = told[AT];
    this.object = told[OBJECT];
    this.field = told[FIELD] === NONE ? undefined : told[FIELD];
    this.reads = told[READS];
    this.place = place;
  }

  toString() {
    const code = REASONS.indexOf(this.reason);
    const reason = code === 0 ? this.reason : `V${code} ${this.reason}`;
    const field = this.field ?? '-';
    const text = `bad ${reason} at=${this.position} object=${this.object} field=${field} reads=${this.reads}`;
    return this.place === '' ? text : `${text} ${this.place}`;
  }
}

/**
 * The error of a call that wasn't done, by what it told, with the name of what was asked for, and of a field, and with
 * what helps.
 */
function errorOf(status, asked, { field, hint } = {}) {
  const name = STATUSES[status];
  const code = told[REASON];
  let text = TEXTS[name];
  if (name === 'NOT_WELL_FORMED') {
    text = `schema: L1 ${String(new Bad('')).slice('bad '.length)}`;
  } else if (name === 'BAD_SCHEMA') {
    const part = told[FIELD] === NONE ? '-' : told[FIELD];
    text = `schema: L2 C${code} ${CODES[code]} owner=${told[OBJECT]} part=${part}`;
  } else if (name === 'BAD_PATH') {
    text = `path: P${code} ${PATH_FAULTS[code]} ${code === BAD_TEXT ? 'at' : 'step'}=${told[AT]}`;
  } else if (name in REFUSALS) {
    text = REFUSALS[name].join(field);
  }
  if (asked !== undefined) text += ` ('${asked}')`;
  return new FbcheckError(name, hint ? `${text}; ${hint}` : text);
}

/** A whole number from 0 up to a greatest one, as a bigint. */
function whole(name, given, most) {
  const number = typeof given === 'bigint' || Number.isSafeInteger(given) ? BigInt(given) : -1n;
  if (number >= 0n && number <= most) return number;
  throw new RangeError(`${name} is ${given}, which isn't a whole number up to ${most}`);
}

// The switches by the options of the library that they are, one of which says the opposite.
const SWITCHES = { prefixed: OPTIONS.prefixed, alignment: OPTIONS.noAlignment, inlineSize: OPTIONS.inlineSize };

// The demands by the bits that they are.
const DEMANDS = {
  strict: numbers.STRICT, knownFields: numbers.KNOWN_FIELDS, utf8: numbers.UTF8, plainBytes: numbers.PLAIN_BYTES,
};

/** True or false as they are. */
function flag(name, value) {
  if (typeof value === 'boolean') return value;
  throw new TypeError(`${name} is true or false, and not ${value}`);
}

/** The options that aren't undefined; one that is has its default. */
function given(options) {
  const defined = { ...options };
  for (const name in defined) if (defined[name] === undefined) delete defined[name];
  return defined;
}

/** The bits of what these options demand. */
function demandsOf(options) {
  const names = Object.keys(DEMANDS).filter((name) => name in options && flag(name, options[name]));
  if (names.includes('plainBytes') && !names.includes('strict')) throw new TypeError('plainBytes needs strict');
  return names.reduce((bits, name) => bits | DEMANDS[name], 0);
}

/** A schema of the library for these demands, by the bytes of a file that may have a path. */
function load(file, demands, path) {
  const loaded = native.load(file, demands);
  if (loaded !== undefined) return loaded;
  const [status, object, field] = [told[STATUS], told[OBJECT], told[FIELD]];
  if (status === NOT_WELL_FORMED) {
    const ident = Buffer.from(file.buffer, file.byteOffset, file.byteLength).toString('latin1', 4, 8);
    throw errorOf(status, path, { hint: ident === 'BFBS' ? DAMAGED : NO_SCHEMA });
  }
  if (status !== UNMARKED_BYTES && status !== NO_SUCH_TABLE) throw errorOf(status, path);
  const plain = load(file, 0, path);
  const name = `${native.name(plain, object)}.${native.name(plain, object, field)}`;
  native.close(plain);
  throw errorOf(status, path, { field: name });
}

/** The library's options by these, as bytes. */
function bytesOf(schema, options) {
  const bytes = Buffer.alloc(OPTIONS_BYTES);
  const put = (number, [at, size]) => bytes.writeUIntLE(number, at, size);
  const asked = { root: undefined, ...LIMITS, prefixed: false, alignment: true, inlineSize: false, ident: undefined,
    ...options };
  const root = asked.root === undefined ? NONE : native.table(schema, Buffer.from(asked.root));
  if (root === NO_TABLE) {
    throw errorOf(NO_ROOT, asked.root, { hint: native.rootHint(schema, Buffer.from(asked.root)) });
  }
  put(VERSION, OPTIONS.version);
  put(root, OPTIONS.root);
  put(demandsOf(asked), OPTIONS.demands);
  for (const [name, value] of Object.entries(asked)) {
    if (name in LIMITS) {
      const [at, size] = OPTIONS[name];
      const number = whole(name, value, (1n << BigInt(8 * size)) - 1n);
      if (name === 'maxDepth' && number > DEEPEST) throw new RangeError(`maxDepth is above ${DEEPEST}`);
      if (size === 8) bytes.writeBigUInt64LE(number, at);
      else put(Number(number), OPTIONS[name]);
    } else if (name in SWITCHES) {
      put(Number(flag(name, value) !== (name === 'alignment')), SWITCHES[name]);
    } else if (name === 'ident' && value !== undefined) {
      put(value === 'own' ? numbers.IDENT_OWN : numbers.IDENT_THIS, OPTIONS.identFrom);
      const four = value === 'own' ? Buffer.alloc(4) : Buffer.from(value, 'latin1');
      if (four.length !== 4) throw new RangeError(`ident must be four bytes, or 'own'`);
      four.copy(bytes, OPTIONS.ident[0]);
    } else if (name !== 'root' && name !== 'ident' && !(name in DEMANDS)) {
      throw new TypeError(`no option ${name}`);
    }
  }
  return bytes;
}

/** The bytes of a path by a schema of the library, for one that was asked for. */
function resolved(schema, asked, text) {
  const path = Buffer.from(text);
  const bytes = native.resolve(schema, path);
  if (bytes === undefined) throw errorOf(told[STATUS], asked, { hint: native.pathHint(schema, path) });
  return bytes;
}

class Path {
  #origin;
  #bytes;
  #each;

  /** With [*], the bytes are those of the path up to it, and each has those of all of it. */
  constructor(text, origin, bytes, each) {
    this.text = text;
    this.#origin = origin;
    this.#bytes = bytes;
    this.#each = each;
  }

  /** The bytes of paths in a row, aligned, if all have this origin. */
  static join(paths, origin) {
    const joined = paths.length === 1 ? paths[0].#bytes : new Uint8Array(new ArrayBuffer(PATH_BYTES * paths.length));
    paths.forEach((path, n) => {
      if (path.#origin !== origin) throw errorOf(MISFIT);
      if (paths.length > 1) joined.set(path.#bytes, n * PATH_BYTES);
    });
    return joined;
  }

  /** What is at the end of paths, by the values at the ends of their bytes. */
  static values(paths, schema, message, words) {
    return paths.map((path, n) => {
      const value = new Value(message, words, n * VALUE_WORDS);
      if (path.#each === undefined || value.kind !== 'vector') return value;
      return Object.assign(value, { kind: 'elements', value: elements(schema, message, value.value, path.#each) });
    });
  }
}

/** A number of two halves: a bigint where it's beyond what a number holds exactly. */
function joined(high, low) {
  const number = high * 2 ** 32 + low;
  return Number.isSafeInteger(number) ? number : BigInt(high) * 2n ** 32n + BigInt(low);
}

const numberAt = (words, at) => joined(words[at + NUMBER + 1], words[at + NUMBER]);
const beginAt = (words, at) => joined(words[at + BEGIN + 1], words[at + BEGIN]);
const sizeAt = (words, at) => joined(words[at + SIZE + 1], words[at + SIZE]);

function textAt(message, begin, end) {
  if (Buffer.isBuffer(message)) return message.toString('utf8', begin, end);
  return Buffer.from(message.buffer, message.byteOffset + begin, end - begin).toString();
}

function floatAt(message, words, at) {
  if (words[at + KIND] === DEFAULT_FLOAT) {
    return new Float64Array(words.slice(at + NUMBER, at + NUMBER + 2).buffer)[0];
  }
  const view = new DataView(message.buffer, message.byteOffset + beginAt(words, at));
  return sizeAt(words, at) === 4 ? view.getFloat32(0, true) : view.getFloat64(0, true);
}

/** A value as it's read, by the words of the library's that begin there. */
function valueAt(message, words, at) {
  switch (KINDS[words[at + KIND]]) {
    case 'bool': return words[at + NUMBER] === 1;
    case 'int': return joined(words[at + INTEGER + 1] | 0, words[at + INTEGER]);
    case 'uint': case 'vector': case 'union': return numberAt(words, at);
    case 'text': return textAt(message, beginAt(words, at), beginAt(words, at) + sizeAt(words, at));
    case 'struct': return message.subarray(beginAt(words, at), beginAt(words, at) + sizeAt(words, at));
    case 'float': return floatAt(message, words, at);
    default: return undefined;
  }
}

/** What stands at the end of a path: the value as it's read, and its bytes where they stand in the message. */
class Value {
  #message;
  #at;
  #end;

  constructor(message, words, at) {
    this.#message = message;
    this.#at = beginAt(words, at);
    this.#end = this.#at + sizeAt(words, at);
    this.kind = KINDS[words[at + KIND]];
    this.value = valueAt(message, words, at);
  }

  get bytes() {
    return this.#message.subarray(this.#at, this.#end);
  }
}

// How many elements are read at once.
const ELEMENTS = 1024;

/**
 * What a path leads to from each of so many elements. A text to which several lead is made once, and texts that are
 * longer than the message together are refused: so the array stays in proportion to the message.
 */
function elements(schema, message, count, bytes) {
  if (count > message.length) throw errorOf(CHANGED);
  const values = [];
  const texts = new Map();
  const words = new Uint32Array(VALUE_WORDS * Math.min(count, ELEMENTS));
  let left = message.length;
  const text = (at) => {
    const begin = beginAt(words, at);
    if (!texts.has(begin)) {
      left -= sizeAt(words, at);
      if (left < 0) throw new FbcheckError('OVERLAP', 'texts overlap, and are longer than the message together');
      texts.set(begin, valueAt(message, words, at));
    }
    return texts.get(begin);
  };
  for (let first = 0; first < count; first += ELEMENTS) {
    const room = words.subarray(0, VALUE_WORDS * Math.min(count - first, ELEMENTS));
    const status = native.each(schema, message, bytes, first, new Uint8Array(room.buffer, 0, room.byteLength));
    if (status !== OK) throw errorOf(status);
    for (let at = 0; at < room.length; at += VALUE_WORDS) {
      values.push(KINDS[room[at + KIND]] === 'text' ? text(at) : valueAt(message, room, at));
    }
  }
  return values;
}

/** A message that was ok when it was checked, of which values are read without another check. */
class View {
  #schema;
  #handle;
  #origin;
  #message;
  #verdict;

  constructor(schema, handle, origin, message, verdict) {
    this.#schema = schema;
    this.#handle = handle;
    this.#origin = origin;
    this.#message = message;
    this.#verdict = verdict;
  }

  get schema() {
    return this.#schema;
  }

  get message() {
    return this.#message;
  }

  get verdict() {
    return this.#verdict;
  }

  read(...paths) {
    const all = paths.map((path) => (path instanceof Path ? path : this.#schema.path(path)));
    const words = new Uint32Array(VALUE_WORDS * paths.length);
    const bytes = Path.join(all, this.#origin);
    const status = native.again(this.#handle, this.#message, bytes, new Uint8Array(words.buffer));
    if (status !== OK) throw errorOf(status);
    return Path.values(all, this.#handle, this.#message, words);
  }
}

/** A message of a stream, which begins there. */
class Checked {
  #viewOf;

  constructor(message, verdict, begin, viewOf) {
    this.message = message;
    this.verdict = verdict;
    this.begin = begin;
    this.#viewOf = viewOf;
  }

  get view() {
    return this.verdict.ok ? this.#viewOf(this.message, this.verdict) : undefined;
  }
}

/** A stream whose pieces are pushed. What isn't taken of a piece waits, so that no message is lost or out of order. */
class Stream {
  #framer;
  #schema;
  #viewOf;
  #pieces = [];
  #at = 0; // in the first piece
  #left = 0; // of it, once it was begun
  #begin = 0;
  #fault; // after which the stream can't go on

  constructor(most, schema, viewOf) {
    this.#framer = native.stream(most);
    this.#schema = schema;
    this.#viewOf = viewOf;
  }

  push(piece) {
    if (!isUint8Array(piece)) throw new TypeError('a piece of a stream is a Buffer or Uint8Array');
    this.#pieces.push(piece);
    return this.#messages();
  }

  end() {
    if (this.#fault) throw this.#fault;
    if (this.#pieces.length > 0) throw new Error('messages of the last pieces that were pushed were not taken');
    const status = native.finish(this.#framer);
    if (status === TRUNCATED) throw new FbcheckError('TRUNCATED', `stream: S2 Truncated held=${told[AT]}`);
    if (status !== OK) throw errorOf(status);
  }

  *#messages() {
    while (this.#pieces.length > 0) {
      const message = this.#next();
      if (message !== undefined) {
        const begin = this.#begin;
        this.#begin += message.length;
        yield new Checked(message, this.#schema.check(message), begin, this.#viewOf);
      }
    }
  }

  /** The message that ends next in the first piece, which is dropped where none does. */
  #next() {
    if (this.#fault) throw this.#fault;
    const rest = this.#left;
    const message = native.feed(this.#framer, this.#pieces[0], this.#at);
    this.#at += told[USED];
    this.#left = told[LEFT];
    if (told[USED] + told[LEFT] < rest) {
      this.#fault = new TypeError('a piece of the stream became shorter while it was gone through');
    } else if (message === undefined && told[STATUS] === OVERSIZE) {
      this.#fault = new FbcheckError('OVERSIZE', `stream: S1 Oversize declared=${told[AT]}`);
    } else if (message === undefined && told[STATUS] !== MORE) {
      this.#fault = errorOf(told[STATUS]);
    }
    if (this.#fault) throw this.#fault;
    if (this.#left === 0) {
      this.#pieces.shift();
      this.#at = 0;
    }
    return message;
  }
}

class Schema {
  #schema;
  #options;
  #origins; // by the number of a root table, what paths from there have; alike for all schemas of one loaded file
  #origin;

  constructor(file, options = {}) {
    if (file instanceof Schema) {
      this.#options = given({ ...file.#options, ...options });
      this.#origins = file.#origins;
      this.#schema = native.choose(file.#schema, bytesOf(file.#schema, this.#options));
    } else {
      const path = typeof file === 'string' || file instanceof URL ? file : undefined;
      this.#options = given(options);
      this.#origins = [];
      const loaded = load(path === undefined ? file : fs.readFileSync(path), demandsOf(this.#options), path);
      try {
        this.#schema = native.choose(loaded, bytesOf(loaded, this.#options));
      } finally {
        native.close(loaded);
      }
    }
    // A check of nothing tells whether the options can be served, and its fault is that of the root table.
    native.locate(this.#schema, Buffer.alloc(0));
    if (told[STATUS] > BAD) {
      this.close();
      throw errorOf(told[STATUS]);
    }
    this.#origin = this.#origins[told[OBJECT]] ??= {};
  }

  with(options) {
    return new Schema(this, options);
  }

  check(message) {
    const place = native.locate(this.#schema, message);
    return place === undefined ? new Good() : new Bad(place);
  }

  verify(message) {
    const verdict = this.check(message);
    if (verdict.ok) return verdict;
    throw new BadBuffer(verdict);
  }

  view(message) {
    return new View(this, this.#schema, this.#origin, message, this.verify(message));
  }

  path(text) {
    if (typeof text !== 'string') throw new TypeError('a path is a string, or what path() gives');
    const star = text.indexOf('[*]');
    if (star < 0) return new Path(text, this.#origin, resolved(this.#schema, text, text));
    const bytes = resolved(this.#schema, text, text);
    const front = resolved(this.#schema, text, text.slice(0, star));
    return new Path(text, this.#origin, front, bytes);
  }

  read(message, ...paths) {
    const all = paths.map((path) => (path instanceof Path ? path : this.path(path)));
    const words = new Uint32Array(VALUE_WORDS * paths.length);
    const bytes = Path.join(all, this.#origin);
    const status = native.read(this.#schema, message, bytes, new Uint8Array(words.buffer));
    if (status === BAD || status === TOO_LONG) throw new BadBuffer(this.check(message));
    if (status !== OK) throw errorOf(status);
    return Path.values(all, this.#schema, message, words);
  }

  messages(pieces, options) {
    const stream = this.stream(options);
    if (isUint8Array(pieces)) pieces = [pieces];
    if (pieces?.[Symbol.asyncIterator]) return later(stream, pieces);
    if (pieces?.[Symbol.iterator]) return now(stream, pieces);
    throw new TypeError('a stream is bytes, or an iterable of pieces of them');
  }

  stream({ maxBytes = 64 << 20, ...others } = {}) {
    for (const name in others) throw new TypeError(`no option ${name}`);
    if (!this.#options.prefixed) throw new TypeError('messages of a stream begin with their size: ask for prefixed');
    if (maxBytes < 8) throw new RangeError('maxBytes is below 8');
    const most = Number(whole('maxBytes', maxBytes, 2n ** 31n - 1n));
    return new Stream(most, this, (message, verdict) => (
      new View(this, this.#schema, this.#origin, message, verdict)));
  }

  mostReads(length) {
    return native.mostReads(this.#schema, BigInt(length));
  }

  objectName(object) {
    return native.name(this.#schema, object) || undefined;
  }

  fieldName(object, field) {
    return native.name(this.#schema, object, field) || undefined;
  }

  close() {
    native.close(this.#schema);
  }
}

if (Symbol.dispose) Schema.prototype[Symbol.dispose] = Schema.prototype.close;

function* now(stream, pieces) {
  for (const piece of pieces) yield* stream.push(piece);
  stream.end();
}

async function* later(stream, pieces) {
  for await (const piece of pieces) yield* stream.push(piece);
  stream.end();
}

const commit = native.commit();

module.exports = { Schema, BadBuffer, FbcheckError, commit };

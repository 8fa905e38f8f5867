// Does what the lines of standard input say, by the module; tests/test_bindings.py tells what each line means.
'use strict';

const fs = require('node:fs');
const assert = require('node:assert');
const { Worker, isMainThread, parentPort, workerData } = require('node:worker_threads');
const { BadBuffer, Schema, commit } = require('../../bindings/node');

const NUMBERS = { max_depth: Number, max_tables: Number, max_reads: BigInt, reads_per_byte: Number };

function options(words) {
  return Object.fromEntries(words.map((word) => {
    const [name, value] = word.split('=');
    const read = name === 'root' || name === 'ident' ? String : NUMBERS[name] ?? ((value) => value === '1');
    return [name.replace(/_./g, ([, letter]) => letter.toUpperCase()), read(value)];
  }));
}

function* pieces(bytes, first, size) {
  yield bytes.subarray(0, first);
  for (let at = first; at < bytes.length; at += size) yield bytes.subarray(at, at + size);
}

async function* later(pieces) {
  yield* pieces;
}

function value(value) {
  const hex = Buffer.from(value.bytes).toString('hex');
  switch (value.kind) {
    case 'bool': case 'int': case 'uint': return String(value.value);
    case 'float': {
      const eight = Buffer.alloc(8);
      eight.writeDoubleLE(value.value);
      return `float:${eight.toString('hex')}`;
    }
    case 'text':
      assert.strictEqual(value.value, Buffer.from(value.bytes).toString());
      return `text:${hex}`;
    case 'struct':
      assert.deepStrictEqual(value.value, value.bytes);
      return `struct:${hex}`;
    case 'vector': return `vector:${value.value}:${hex}`;
    case 'union': return `union:${value.value}`;
    default:
      assert.strictEqual(value.value, undefined);
      return value.kind;
  }
}

function check(schema, message) {
  const verdict = schema.check(message);
  const verified = () => schema.verify(message);
  if (verdict.ok) assert.deepStrictEqual(verified(), verdict);
  else assert.throws(verified, (error) => error instanceof BadBuffer && `${error.verdict}` === `${verdict}`);
  for (let shift = 0; shift < 16; shift++) {
    for (const moved of [Buffer.alloc(shift + message.length), new Uint8Array(shift + message.length)]) {
      moved.set(message, shift);
      assert.deepStrictEqual(schema.check(moved.subarray(shift)), verdict);
    }
  }
  return String(verdict);
}

/** The lines of a stream in pieces, by what gives the messages, and how it ends. */
async function lines(checked) {
  const told = [];
  let begin = 0;
  try {
    for await (const item of checked) {
      assert.deepStrictEqual([item.begin, item.view?.message], [begin, item.verdict.ok ? item.message : undefined]);
      begin += item.message.length;
      told.push(String(item.verdict));
    }
    told.push('end');
  } catch (error) {
    told.push(`error ${error.message}`);
  }
  return told.map((line, number) => (number < told.length - 1 ? `${number + 1} ${line}` : line));
}

function* pushed(stream, pieces) {
  for (const piece of pieces) yield* stream.push(piece);
  stream.end();
}

async function stream(schema, [file, first, size, maxBytes], to) {
  const given = fs.readFileSync(file);
  const some = () => pieces(given, Number(first), Number(size));
  const most = { maxBytes: Number(maxBytes) };
  const told = await lines((function* () { yield* schema.messages(some(), most); })());
  assert.deepStrictEqual(await lines((async function* () { yield* schema.messages(later(some()), most); })()), told);
  assert.deepStrictEqual(await lines((function* () { yield* pushed(schema.stream(most), some()); })()), told);
  to.push(...told.slice(0, -1));
  return told[told.length - 1];
}

function read(schema, [file, ...texts]) {
  const message = fs.readFileSync(file);
  const told = schema.read(message, ...texts).map(value);
  const [...each] = texts.map((text) => value(schema.read(message, schema.path(text))[0]));
  assert.deepStrictEqual(each, told);
  assert.deepStrictEqual(schema.view(message).read(...texts).map(value), told);
  return told.join(' ');
}

/** Each thread of Node has a schema of its own. */
async function threads(schemaFile, asked, [file, count, threads]) {
  const worker = () => new Promise((done, fail) => {
    const running = new Worker(__filename, { workerData: { schemaFile, asked, file, count: Number(count) } });
    running.once('message', done);
    running.once('error', fail);
  });
  const sums = await Promise.all(Array.from({ length: Number(threads) }, worker));
  return String(sums.reduce((one, other) => one + other));
}

function work({ schemaFile, asked, file, count }) {
  const schema = new Schema(schemaFile, asked);
  const message = fs.readFileSync(file);
  const want = String(schema.check(message));
  let alike = 0;
  for (let i = 0; i < count; i++) {
    const verdict = schema.check(message);
    if (verdict.ok && verdict.reads === 8) alike += 1;
    else if (String(verdict) === want) alike += 1;
  }
  parentPort.postMessage(alike);
}

const kilobytes = () => 4 * Number(fs.readFileSync('/proc/self/statm', 'utf8').split(' ')[1]);

async function loads([file, count]) {
  const given = fs.readFileSync(file);
  const nothing = Buffer.alloc(0);
  let before;
  for (let i = 0; i < count; i++) {
    if (i === Math.floor(count / 10)) before = kilobytes();
    const schema = new Schema(given);
    assert(!schema.with({ prefixed: true }).check(nothing).ok);
    if (i % 2 === 0) schema.close();
    if (i % 8 === 0) assert.throws(() => new Schema(given.subarray(0, i % (given.length / 2))));
    if (i % 1000 === 0) await new Promise(setImmediate);
  }
  return String(kilobytes() - before);
}

function time(schema, [file, count]) {
  const message = fs.readFileSync(file);
  const { ok } = schema.check(message);
  let best = Infinity;
  for (let round = 0; round < 400; round++) {
    const begun = process.hrtime.bigint();
    for (let i = 0; i < count / 400; i++) assert(schema.check(message).ok === ok);
    best = Math.min(best, (Number(process.hrtime.bigint() - begun) * 400) / count);
  }
  return best.toFixed(0);
}

let schema;
let loaded;

async function done([name, ...rest], to) {
  switch (name) {
    case 'load':
      loaded = [rest[0], options(rest.slice(1))];
      schema = new Schema(...loaded);
      return 'done';
    case 'with':
      schema = schema.with(options(rest));
      return 'done';
    case 'close':
      schema.close();
      schema.close();
      return 'done';
    case 'check': return check(schema, fs.readFileSync(rest[0]));
    case 'stream': return stream(schema, rest, to);
    case 'read': return read(schema, rest);
    case 'misfit': return read(schema, [rest[2], schema.with(options([rest[0]])).path(rest[1])]);
    case 'threads': return threads(...loaded, rest);
    case 'loads': return loads(rest);
    case 'commit': return commit ?? '-';
    case 'time': return time(schema, rest);
    case 'most': return String(schema.mostReads(BigInt(rest[0])));
    case 'object': return schema.objectName(Number(rest[0])) ?? '-';
    case 'field': return schema.fieldName(Number(rest[0]), Number(rest[1])) ?? '-';
    default: throw new Error(`what is ${name}?`);
  }
}

async function main() {
  for (const line of fs.readFileSync(0, 'utf8').trimEnd().split('\n')) {
    const to = [];
    try {
      to.push(await done(line.split(' '), to));
    } catch (error) {
      to.push(`error ${error.code === 'ERR_ASSERTION' ? error.stack : error.message}`);
    }
    process.stdout.write(`${[...to, '.'].join('\n')}\n`);
  }
}

if (isMainThread) main();
else work(workerData);

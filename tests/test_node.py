"""What the module for Node has beside the other bindings: views and [*], streams that are pushed, paths that know their
schema, options that are undefined, and the programs of its page. It is built in a folder of its own.
"""

import concurrent.futures
import re
import shutil
import socket
import struct
import subprocess
import time
import unittest

from tests import test_bindings
from tests.support import schemas
from tests.support.buffers import HALVES, ORC, PLAIN, POST
from tests.support.builder import Plain, buffer, changed, messages_of
from tests.support.every_kind import FILE, LITTLE, WHOLE
from tests.support.library import LibraryCase, ran
from tests.support.program import TOP, file_of, folder_of, run

FOLDER = folder_of(__name__)
MODULE = FOLDER / "node"
ORDERS = TOP / "examples/deliveries.bfbs"
STREAM = TOP / "examples/deliveries.bin"
ALL = file_of("all.bfbs", FILE)
FILES = schemas.files()
PATHS = test_bindings.PATHS


def received(peer):
    """All that comes until the other one has ended."""
    return b"".join(iter(lambda: peer.recv(65536), b""))


def through(path, up, given):
    """What a gateway passes on of these bytes, and what it answers. It has as long as it takes to begin."""
    with socket.socket(socket.AF_UNIX) as sender:
        begun = time.monotonic()
        while sender.connect_ex(path) != 0:
            if time.monotonic() - begun > 60:
                raise AssertionError("the gateway doesn't begin")
            time.sleep(0.01)
        with up.accept()[0] as other, concurrent.futures.ThreadPoolExecutor() as threads:
            passed, told = threads.submit(received, other), threads.submit(received, sender)
            sender.sendall(given)
            sender.shutdown(socket.SHUT_WR)
            answer = told.result(60)
            sender.close()
            return passed.result(60), answer


class Node(LibraryCase):
    @classmethod
    def setUpClass(cls):
        missing = test_bindings.Node.missing()
        if missing:
            raise unittest.SkipTest(missing)
        super().setUpClass()
        shutil.copytree(TOP / "bindings/node", MODULE, ignore=shutil.ignore_patterns("*.node"))
        test_bindings.Node.made(MODULE / "build")

    def lines_of(self, rows, before=""):
        """Runs a call of each row, and compares what it tells, as JSON or as an error with its code, with the other."""
        code = (f"const {{ Schema }} = require('{MODULE}'), fs = require('node:fs');\n"
                "const bytes = (digits) => Buffer.from(digits, 'hex');\n"
                "const plain = (key, value) => (typeof value === 'bigint' ? `${value}n` : value);\n"
                "const told = (call) => { try { console.log(JSON.stringify(call(), plain) ?? 'undefined'); }\n"
                f"  catch (error) {{ console.log(`${{error.code}} ${{error}}`); }} }};\n{before}\n")
        code += "".join(f"told(() => {call});\n" for call, _ in rows)
        status, out, err = ran("node", "-e", code)
        self.same("it ends well", (status, out.count("\n"), err), (0, len(rows), ""))
        for (call, want), got in zip(rows, out.splitlines()):
            self.same(call, got, want)

    def shown(self, word):
        """The program of the page that has this word."""
        page = (TOP / "bindings/node/README.md").read_text()
        return next(code for code in re.findall(r"```js\n(.*?)```", page, re.S) if word in code)

    def test_views(self):
        """A view reads without a check, and tells that bytes were changed; [*] is each element."""
        before = (f"const schema = new Schema('{ALL}'), whole = bytes('{buffer(WHOLE).hex()}');\n"
                  f"const little = bytes('{buffer(LITTLE).hex()}'), view = schema.view(whole);\n"
                  f"const orc = bytes('{ORC.hex()}'), of = new Schema('{FILES['M']}').view(orc);\n"
                  "const all = (path) => view.read(path)[0], bad = new Uint8Array(8);\n"
                  "const changed = (at, ...digits) => { orc.set(digits, at); return of.read('hp', 'name'); };")
        place = '{"type":"Buffer","data":[1,0,0,0,254,255,255,255,3,0,0,0]}'
        gone = "CHANGED FbcheckError: the bytes aren't those of a good message any more"
        rows = [
            ("view.schema === schema && view.message === whole && view.verdict",
             '{"ok":true,"tables":11,"depth":4,"reads":109}'),
            ("schema.view(bad)", "BAD BadBuffer: bad V4 ZeroOffset at=0 object=0 field=- reads=1 in . [All]"),
            ("view.read()", "[]"),
            ("view.read('short', schema.path('name'))", '[{"kind":"int","value":300},{"kind":"text","value":"name"}]'),
            ("all('texts[*]')", '{"kind":"elements","value":["one","","three"]}'),
            ("all('bytes[*]').value", "[97,98,99]"), ("all('longs[*]').value", "[1,2]"),
            ("all('longs[*]').bytes.length", "16"), ("all('places[*].y').value", "[-2,-2]"),
            ("all('places[*]').value", f"[{place},{place}]"), ("all('tables[*].v').value", "[5,0]"),
            ("all('tables[*].next.next.v').value", "[6,null]"), ("all('many[*]').value", "[1,3,7,0,200,9]"),
            ("all('many[*]@Text').value", '[null,null,"text",null,null,null]'),
            ("all('many[*]@Below.v').value", "[5,null,null,null,null,null]"), ("all('name[*]')",
             "BAD_PATH FbcheckError: path: P3 NotIndexable step=1 ('name[*]'); this is a string"),
            ("all('tables[*].w')", "BAD_PATH FbcheckError: path: P2 NoSuchField step=2 ('tables[*].w'); fields: v next"),
            ("all('texts[*][*]')", "BAD_PATH FbcheckError: path: P1 BadText at=9 ('texts[*][*]')"),
            ("all('[*]')", "BAD_PATH FbcheckError: path: P1 BadText at=0 ('[*]')"),
            ("schema.read(whole, schema.path('tables[*].v'), 'short').map(({ value }) => value)", "[[5,0],300]"),
            ("schema.view(little).read('texts[*]', 'many[*]')",
             '[{"kind":"absent"},{"kind":"elements","value":[]}]'),
            ("schema.view(new Uint8Array(whole)).read('texts[*]')[0].value", '["one","","three"]'),
            ("changed(28, 0x45, 0x6c, 0x66)[1].value", '"Elf"'), ("changed(24, 0, 1)", gone),
            ("changed(12, 0, 0, 0, 127)", gone),
        ]
        self.lines_of(rows, before)

    def test_any_bytes(self):
        """Whatever bytes come to be there, a view tells values, or that they changed, or that texts overlap."""
        paths = [*PATHS, "texts[*]", "tables[*].next.v", "many[*]@Text", "places[*].z", "longs[*]", "bytes[*]"]
        before = (f"const whole = bytes('{buffer(WHOLE, b'KIND').hex()}'), memory = Buffer.from(whole);\n"
                  f"const view = new Schema('{ALL}').view(memory), paths = {paths}.map((text) => view.schema.path(text));\n"
                  "const seen = { told: 0, CHANGED: 0, OVERLAP: 0 };\n"
                  "let state = 7; const dice = (most) => (state = (state * 48271) % 2147483647) % most;\n"
                  "const word = () => [0, 1, 4, 2 ** 31 - 1, 2 ** 32 - 1, dice(512)][dice(6)];\n"
                  "for (let turn = 0; turn < 5000; turn++) { memory.set(whole);\n"
                  "  for (let count = dice(5); count >= 0; count--) {\n"
                  "    if (dice(2)) memory[dice(memory.length)] = dice(256);\n"
                  "    else memory.writeUInt32LE(word(), dice(memory.length - 4)); }\n"
                  "  for (const path of paths) try { view.read(path); seen.told++; } catch ({ code }) { seen[code]++; } }")
        self.lines_of([("Object.keys(seen)", '["told","CHANGED","OVERLAP"]'), ("seen.told > 50000", "true"),
                       ("seen.CHANGED > 5000", "true")], before)

    def test_many_elements(self):
        """Each of a hundred thousand by itself, or all at once; texts that overlap aren't made one by one."""
        flags = buffer({8: Plain(bytes(range(256)) * 400, 1, 102_400), 6: ""}, b"KIND")
        once = buffer({6: "", 11: ["x" * 1000, *[""] * 249]})
        text, first = once.index(b"x" * 1000) - 4, once.index(struct.pack("<I", 250)) + 4
        shared = bytearray(once)  # all offsets of texts lead to the first one; and then to as many suffixes of it
        for at in range(first, first + 1000, 4):
            shared[at:at + 4] = struct.pack("<I", text - at)
        overlapping = bytearray(shared)
        for number in range(200):
            at = text + 4 * number
            overlapping[at:at + 4] = struct.pack("<I", 1000 - 4 * number)
            overlapping[first + 4 * number:first + 4 * number + 4] = struct.pack("<I", at - first - 4 * number)
        files = [file_of(name, bytes(data)) for name, data in
                 [("flags", flags), ("shared", shared), ("overlapping", overlapping)]]
        before = (f"const schema = new Schema('{ALL}');\n"
                  f"const paths = {[str(path) for path in files]};\n"
                  "const [flags, shared, overlapping] = paths.map((path) => fs.readFileSync(path));\n"
                  "const one = (message, path) => schema.view(message).read(path)[0];\n"
                  "const view = schema.view(flags), each = [];\n"
                  "for (let i = 0; i < 102400; i++) each.push(view.read(`bytes[${i}]`)[0].value);\n"
                  "const all = one(flags, 'bytes[*]').value;")
        self.lines_of([("all.length", "102400"), ("all.every((value, i) => value === i % 256)", "true"),
                       ("each.every((value, i) => value === all[i])", "true"),
                       ("one(shared, 'texts[*]').value.filter((text) => text === 'x'.repeat(1000)).length", "250"),
                       ("one(overlapping, 'texts[1]').kind", '"text"'),
                       ("one(overlapping, 'texts[*]')",
                        "OVERLAP FbcheckError: texts overlap, and are longer than the message together")], before)

    def test_origins(self):
        """A path serves the schema that resolved it and others of the same file and root, but no others it might fit."""
        before = (f"const post = new Schema('{ORDERS}', {{ prefixed: true }}), person = post.with({{ root: 'post.Person' }});\n"
                  f"const first = fs.readFileSync('{STREAM}').subarray(0, {len(messages_of(POST)[0])});\n"
                  f"const again = new Schema('{ORDERS}', {{ prefixed: true }}), id = post.path('id');\n"
                  "const name = person.path('name'), one = ([{ value }]) => value;")
        misfit = "MISFIT FbcheckError: a path is none of this schema from this root"
        self.lines_of([
            ("one(post.read(first, id))", "1"), ("one(post.with({ maxDepth: 9 }).read(first, id))", "1"),
            ("one(post.with({ root: 'post.Delivery' }).read(first, id))", "1"),
            ("one(person.with({ root: undefined }).read(first, id))", "1"), ("again.read(first, id)", misfit),
            ("again.view(first).read(id)", misfit), ("person.read(first, id)", misfit), ("post.read(first, name)", misfit),
            ("post.read(first, 'id', name)", misfit), ("post.view(first).read(name, id)", misfit),
            ("one(person.with({ root: 'post.Delivery' }).view(first).read(id))", "1"),
            ("person.with({ maxDepth: 9 }).read(first.subarray(0, 9), name)",
             "BAD BadBuffer: bad V1 WrongPrefix at=0 object=4 field=- reads=1 in . [post.Person]"),
        ], before)

    def test_undefined_options(self):
        """Each has its default, for a schema that is loaded and for one with other options."""
        types = (TOP / "bindings/node/index.d.ts").read_text()
        names = re.findall(r"^  (\w+)\?:", types.split("interface Options {")[1].split("\n}")[0], re.M)
        none = ", ".join(f"{name}: undefined" for name in names)
        before = (f"const schema = new Schema('{FILES['M']}', {{ {none} }}), orc = bytes('{ORC.hex()}');\n"
                  "const odd = schema.with({ maxDepth: 0, ident: 'KIND' });")
        self.lines_of([
            ("schema.check(orc).ok", "true"), ("odd.check(orc).ok", "false"),
            (f"odd.with({{ {none} }}).check(orc).ok", "true"), ("odd.with({ ident: undefined }).check(orc).reason",
             '"TooDeep"'), ("schema.with({ depth: undefined }).check(orc).ok", "true"),
            ("[...schema.with({ prefixed: true }).messages(Buffer.alloc(0), { maxBytes: undefined })]", "[]"),
        ], before)

    def test_closed(self):
        """What is thrown has a code, and so it has where a view is left."""
        closed = "CLOSED FbcheckError: the schema is closed"
        before = (f"const schema = new Schema('{FILES['M']}'), orc = bytes('{ORC.hex()}'), view = schema.view(orc);\n"
                  "const path = schema.path('name'), other = schema.with({ maxDepth: 9 }); schema.close();")
        calls = ["schema.check(orc)", "schema.read(orc, path)", "schema.path('name')", "schema.view(orc)",
                 "view.read(path)", "view.read('name[*]')", "schema.with({ maxDepth: 5 })", "schema.mostReads(5)"]
        self.lines_of([*((call, closed) for call in calls), ("other.read(orc, path)[0].value", '"Orc"')], before)

    def test_elsewhere(self):
        """What the page says of numbers in JSON, floats, defaults, and verdicts that were posted."""
        tenth, great = changed(HALVES, (16, "cdcccc3d")), buffer({3: ("q", 2**53), 6: ""}, b"KIND")
        before = (f"const real = new Schema('{FILES['G']}'), one = (message) => real.read(message, 'f')[0];\n"
                  f"const tenth = bytes('{tenth.hex()}'), empty = bytes('{PLAIN.hex()}'), great = bytes('{great.hex()}');\n"
                  f"const long = new Schema('{ALL}').read(great, 'long')[0].value;\n"
                  f"const bad = new Schema('{FILES['M']}').check(Buffer.alloc(0));")
        self.lines_of([
            ("one(tenth).value", "0.10000000149011612"), ("Number(one(tenth).value.toPrecision(7))", "0.1"),
            ("[one(tenth).bytes.length, one(empty).kind, one(empty).bytes.length]",
             '[4,"float",0]'),
            ("[typeof long, String(long)]", '["bigint","9007199254740992"]'),
            ("JSON.stringify(long)", "undefined TypeError: Do not know how to serialize a BigInt"),
            ("String(structuredClone(bad))", '"[object Object]"'), ("bad.place", '"in . [M]"'),
        ], before)

    def test_pushed(self):
        """What is left of a piece isn't lost, whether a loop was left early or another one came between."""
        before = (f"const stream = fs.readFileSync('{STREAM}'), schema = new Schema('{ORDERS}', {{ prefixed: true }});\n"
                  "const begins = (messages) => Array.from(messages, ({ begin }) => begin);\n"
                  "const halves = () => [stream.subarray(0, 700), stream.subarray(700)];\n"
                  "const left = () => { const to = schema.stream(), all = []; for (const piece of halves())\n"
                  "  for (const { begin } of to.push(piece)) { all.push(begin); break; }\n"
                  "  all.push(...begins(to.push(new Uint8Array(0)))); to.end(); return all; };\n"
                  "const between = () => { const to = schema.stream(), [one, other] = halves(), first = to.push(one);\n"
                  "  return [first.next().value.begin, ...begins(to.push(other)), ...begins(first)]; };\n"
                  "const untaken = () => { const to = schema.stream(); to.push(stream); to.end(); };\n"
                  "const failed = (again) => { const to = schema.stream({ maxBytes: 600 }), all = [];\n"
                  "  try { for (const { begin } of to.push(Buffer.concat([stream, Buffer.alloc(4, 255)]))) all.push(begin); }\n"
                  "  catch ({ code }) { all.push(code); } if (again) again(to); return all; };\n"
                  "const moved = () => [...schema.messages(stream)].map(({ message }) => {\n"
                  "  const there = structuredClone(message, { transfer: [message.buffer] });\n"
                  "  return [there.length - there.buffer.byteLength, message.length]; });")
        begins = [sum(map(len, messages_of(POST)[:number])) for number in range(6)]
        told = str(begins).replace(" ", "")
        self.lines_of([
            ("begins(schema.messages(stream))", told), ("begins(schema.messages([...halves()]))", told),
            ("left()", told), ("between()", told),
            ("untaken()", "undefined Error: messages of the last pieces that were pushed were not taken"),
            ("failed()", f"{told[:-1]},\"OVERSIZE\"]"),
            ("failed((to) => to.end())", f"OVERSIZE FbcheckError: stream: S1 Oversize declared={2 ** 32 - 1}"),
            ("failed((to) => begins(to.push(stream)))",
             f"OVERSIZE FbcheckError: stream: S1 Oversize declared={2 ** 32 - 1}"),
            ("schema.stream().push('abc')", "undefined TypeError: a piece of a stream is a Buffer or Uint8Array"),
            ("schema.stream({ most: 8 })", "undefined TypeError: no option most"),
            ("schema.stream().end()", "undefined"), ("moved()", str([[0, 0]] * 6).replace(" ", "")),
        ], before)

    def test_page_of_pieces(self):
        """The page's lines for pieces that are pushed go through a stream of one piece."""
        code = (f"const {{ Schema }} = require('{MODULE}'), piece = require('fs').readFileSync('{STREAM}');\n"
                f"const schema = new Schema('{ORDERS}', {{ prefixed: true }});\n{self.shown('push')}")
        bad = messages_of(POST)[4]
        lines = "".join(f"{len(one)} {str(one != bad).lower()}\n" for one in messages_of(POST))
        self.same("what they print", ran("node", "-e", code), (0, lines, ""))

    def test_gateway(self):
        """The page's gateway passes on what is ok, and answers, whether the sender is good, bad or cut off."""
        code = self.shown("createServer")
        here, there = str(FOLDER / "gateway"), str(FOLDER / "up")
        for port, path in [("listen(7000)", here), ("connect(7001)", there)]:
            self.same(port, code.count(port), 1)
            code = code.replace(port, f"{port[:-6]}('{path}')")
        page = file_of("gateway.js", code.replace("./bindings/node", str(MODULE)).encode())
        first, *_, bad, _ = messages_of(POST)
        fault = run("--names", "--schema", ORDERS, given=bad).out.decode()[2:]
        held = len(POST) - len(messages_of(POST)[-1])
        rows = [
            (POST, POST.replace(bad, b""), "1 bad"), (bad * 12 + first, b"", "10 bad"), (b"", b"", "0 bad"),
            (first * 40_000, first * 40_000, "0 bad"), (first + b"\0\0\x10\0" + first, first,
                                                        "0 bad, stream: S1 Oversize declared=1048576"),
            (POST[:-1], POST[:held].replace(bad, b""), f"1 bad, stream: S2 Truncated held={len(POST) - held - 1}"),
        ]
        with socket.socket(socket.AF_UNIX) as up, subprocess.Popen(
                ["node", page], cwd=TOP, stdin=subprocess.DEVNULL, stderr=subprocess.PIPE, text=True) as gateway:
            try:
                up.bind(there)
                up.listen()
                for given, wanted, answer in rows:
                    passed, told = through(here, up, given)
                    self.same(f"{answer}: what it passes on", (len(passed), passed == wanted), (len(wanted), True))
                    self.same("its answer", told, f"{answer}\n".encode())
            finally:
                gateway.terminate()
            lines = gateway.communicate()[1].splitlines()
        place = POST.index(bad)
        places = [place, *range(0, 10 * len(bad), len(bad)), place]
        self.same("what it tells", lines, [f"at {place}: {fault.strip()}" for place in places])

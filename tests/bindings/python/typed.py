"""What a type checker says of the package: an error stands where a line says so, and nowhere else."""

import array
import asyncio
import mmap

import fbcheck

schema = fbcheck.Schema("my.bfbs", prefixed=True)
other = fbcheck.Schema(b"", root="R", ident="own", max_depth=5).replace(root=None, reads_per_byte=2)
reason: fbcheck.Reason | None = schema.check(b"").reason
schema.check(bytearray())
schema.check(memoryview(b""))
schema.check(array.array("B"))
schema.verify(mmap.mmap(-1, 1)).tables
schema.check("text")  # error
schema.verify(None)  # error
schema.read([1], "name")  # error
fbcheck.Schema(5)  # error
fbcheck.Schema("my.bfbs", ident=5)  # error
schema.replace(roots="R")  # error
schema.replace(max_depth="5")  # error
fbcheck.Schema("my.bfbs", strict=True, plain_bytes=True).replace(strict=False).options.strict
schema.replace(strict="yes")  # error
fbcheck.Schema("my.bfbs", known_fields=True, utf8=True).replace(utf8=False)
schema.replace(known_fields=1)  # error

value: fbcheck.Value = schema.read(b"", "name")
first, second = schema.read(b"", "name", schema.path("hp"))
match value:
    case str():
        value.encode()
    case fbcheck.Union(number, member):
        number.bit_length()
        member.upper()  # error
    case fbcheck.Vector(count):
        count.bit_length()

with open("my.bin", "rb") as stream:
    for message, verdict in schema.messages(stream, max_bytes=9):
        message.hex()
        verdict.place
for message, verdict in schema.messages([b"", bytearray()]):
    message.hex()
for message, verdict, values in schema.messages(b"", paths=("name", schema.path("hp"))):
    name, hp = values
for message, verdict in schema.messages(b"", paths=["name"]):  # error
    message.hex()
schema.messages(b"", paths=5)  # error

columns = schema.columns([b""], ["name", schema.path("hp")], bad="skip", max_bytes=9)
for column in columns:
    match column:
        case fbcheck.Column():
            column.format.upper()
            column.data.tolist()
            column + 1  # error
        case fbcheck.Slices():
            column.offsets[0] + 1
            column.data.nbytes
    if column.valid is not None:
        column.valid.tolist()
    column.valid.tolist()  # error
columns.skipped.data.tolist()
columns["name"].mask().tolist()
columns[0].valid
columns[1:][0].mask()
columns["name", "hp"]  # error
columns.paths[0].upper()
columns.starts.data[0] + columns.skipped_starts.data[0]
fbcheck.Reason(columns.reasons.data[0]).name
going = schema.messages(b"")
schema.columns(going, ("name",))
next(going)[1].hint
for message, verdict in going:
    message.hex()
typed: fbcheck.Messages[tuple[bytes, fbcheck.Verdict]] = going
wrong: fbcheck.Messages[tuple[bytes, fbcheck.Verdict]] = schema.messages(b"", views=True)  # error
try:
    schema.columns(b"", ("name",))
except fbcheck.BadBuffer as fault:
    fault.start
    fault.columns["name"]  # error
except fbcheck.Truncated as end:
    end.size + 1  # error
    end.start + end.number + end.held
    end.hint.upper()
columns.verdicts[0].place
schema.columns(b"", ["name"], bad="drop")  # error
schema.columns("my.bin", ["name"])  # error
with open("my.bin") as text:
    schema.messages(text)  # error


async def later(reader: asyncio.StreamReader) -> None:
    async for message, verdict in schema.messages(reader):
        message.hex()
        verdict.field
    async for message, verdict, values in schema.messages(reader, paths=("name",)):
        (name,) = values
    for message, verdict in schema.messages(reader):  # error
        message.hex()
    schema.columns(reader, ("name",))  # error
    later: fbcheck.AsyncMessages[tuple[bytes, fbcheck.Verdict]] = schema.messages(reader)
    schema.columns(later, ("name",))  # error
    (await anext(later))[1].hint

view = schema.view(bytearray())
read: fbcheck.Value = view["name"]
one, two = view.read("name", schema.path("hp"))
view[5]  # error
view["name"] = 5  # error
view["name"]["part"]  # error
fbcheck.Table()["part"]  # error
given: fbcheck.Value | bytes = view.get("name", b"")
view.get("name", b"").hex()  # error
view.get("name").upper()  # error
view.read()  # error
view.verdict.tables + 1
view.schema.options.strict
bytes(view.message)
fbcheck.View(schema, b"")  # error
view.to_dict()["name"]
view.to_dict("")["name"]
view.to_dict("to")["name"]  # error
if below := view.to_dict(schema.path("to")):
    below["name"]
schema.to_dict(memoryview(b""))["name"]
schema.to_dict("text")  # error
for message, verdict, kept in schema.messages(b"", views=True):
    kept["name"]  # error
    if kept is not None:
        kept["name"]
for message, verdict in schema.messages(b"", views=True):  # error
    message.hex()
schema.messages(b"", views=True, paths=("name",))  # error
try:
    view.to_dict()
except (fbcheck.Changed, fbcheck.Overlap) as other_fault:
    other_fault.args

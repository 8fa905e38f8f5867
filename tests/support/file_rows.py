"""The rows that a schema file describes, read by the naive reader."""

from tests.support import schemas
from tests.support.naive import LETTERS, TEXT, VECTOR, Reader, Schema

REFLECTION = Schema(schemas.reflection())
ROOT = REFLECTION.names.index("reflection.Schema")


class FileReader(Reader):
    """Reads a bare schema file that is good. A row is as schemas.py has it, with texts as names are told."""

    def __init__(self, data):
        super().__init__(REFLECTION, ROOT, data, prefix=False)

    def rows(self):
        """The row of the table Schema."""
        _, at, _ = self.start()
        return self.row(at, ROOT)

    def row(self, at, number):
        """The row of a table of this object there: what is there, and each default that isn't 0."""
        row, vtable = {}, at - self.read("i", at)
        size = self.read("H", vtable)
        for field in self.schema.tables[number]:
            word = self.read("H", vtable + field.slot) if field.slot + 2 <= size else 0
            if word:
                row[field.number] = self.held(field, at + word)
            elif field.default:
                row[field.number] = LETTERS[field.base], field.default
        return row

    def held(self, field, here):
        """What a field has that stands here."""
        if field.base < TEXT:
            return LETTERS[field.base], self.read(LETTERS[field.base], here)
        at = self.behind(here)
        if field.base == VECTOR:
            return [self.referred(field.element, field.index, at + 4 + 4 * i) for i in range(self.read("I", at))]
        return self.referred(field.base, field.index, here)

    def referred(self, base, index, word):
        """The text or the row to which a word leads."""
        at = self.behind(word)
        if base == TEXT:
            return self.data[at + 4 : at + 4 + self.read("I", at)].decode(errors="surrogateescape")
        return self.row(at, index)

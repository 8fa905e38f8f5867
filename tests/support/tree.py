"""The tree of visited tables of a good buffer, built whole before anything is counted on it."""

from tests.support.naive import OBJECT, TEXT, UNION, VECTOR, Reader


class Node:
    """A visited table: what its head and its fields cost without the tables below, and these, in order."""

    def __init__(self, cost):
        self.cost, self.below = cost, []

    def counts(self):
        """The tables from here on, how many of them stand one below another, and the reads."""
        tables, depth, reads = 1, 0, self.cost
        for below in self.below:
            more = below.counts()
            tables, depth, reads = tables + more[0], max(depth, more[1]), reads + more[2]
        return tables, depth + 1, reads


class Builder(Reader):
    """Builds the tree where a head costs so many reads."""

    def __init__(self, schema, root, data, prefix, head):
        super().__init__(schema, root, data, prefix)
        self.head = head

    def built(self):
        kind, at, _ = self.start()
        return self.table(at, kind.index)

    def table(self, at, number):
        node = Node(self.head)
        vtable = at - self.read("i", at)
        size = self.read("H", vtable)
        for field in self.schema.tables[number]:
            if field.slot + 2 <= size:
                node.cost += 1
                word = self.read("H", vtable + field.slot)
                if word and not field.is_inline:
                    self.add(node, at, field, at + word)
        return node

    def add(self, node, at, field, here):
        """What a present field costs beside its slot, and the tables to which it leads."""
        if field.base == UNION or field.base == VECTOR and field.element == UNION:
            self.add_unions(node, field, here, self.slot(at, field.slot - 2))
        elif field.base == VECTOR:
            node.cost += 2
            self.add_elements(node, field, self.behind(here))
        else:
            self.add_value(node, field.base, field.index, here)

    def add_elements(self, node, field, vector):
        is_inline = field.element < TEXT or field.element == OBJECT and self.schema.structs[field.index]
        for number in range(0 if is_inline else self.read("I", vector)):
            self.add_value(node, field.element, field.index, vector + 4 + 4 * number)

    def add_value(self, node, base, index, word):
        """A string with count and end, a struct, or a table, behind an offset word."""
        node.cost += 3 if base == TEXT else 1
        if base == OBJECT and not self.schema.structs[index]:
            node.below.append(self.table(self.behind(word), index))

    def add_unions(self, node, field, here, types):
        """A union with its type, or a vector of unions with the vector of types."""
        node.cost += 1
        if field.base == UNION:
            node.cost += types is not None
            self.add_member(node, field, self.read("B", types) if types else 0, here)
            return
        node.cost += 2 + 2 * (types is not None)
        vector = self.behind(here)
        for number in range(self.read("I", vector)):
            node.cost += 1
            self.add_member(node, field, self.read("B", self.behind(types) + 4 + number), vector + 4 + 4 * number)

    def add_member(self, node, field, value, word):
        member = self.schema.unions[field.index].get(value)
        if member is not None:
            self.add_value(node, member.base, member.index, word)

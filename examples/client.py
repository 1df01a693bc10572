#!/usr/bin/env python3
"""A client of cellhost in plain Python, from docs/PROTOCOL.md and docs/DOCUMENT.md alone: it allocates numbers, saves a
file, saves a change of it, downloads what is stored, and compares.

  examples/client.py [--try | PROGRAM]

PROGRAM is out/cellhost where it isn't named; with --try the program is built and run by `rt try`, unproved. Each run of
`cellhost answer` begins with a document without anything, so all sub-requests go in one request. The status is 1 where an
answer isn't the one that the documents foretell.

What is written is spelled by scripts/cells.py, a function for each value, object and element; what is read, and what a
client has to know from one save to the next, stands here. An id is a pair of a GUID's text and a number. Python 3.8.
"""
import os
import subprocess
import sys
import tempfile
import uuid
from typing import NamedTuple

TOP = os.path.dirname(os.path.dirname(os.path.abspath(__file__)))
sys.path.insert(0, f"{TOP}/scripts")
import cells  # noqa: E402

GUID = "00112233-4455-6677-8899-aabbccddeeff"
RESPONSE_FRONT = bytes.fromhex("0C000B009DCF29F33994069B")


class Wrong(Exception):
    """An answer isn't what the documents foretell."""


# What may come of running a program, and of an answer that names what isn't there.
FAULTS = (Wrong, OSError, LookupError, StopIteration)


def expect(what, found, wanted):
    if found != wanted:
        raise Wrong(f"{what}: {found!r} in place of {wanted!r}")


# Values, read from the front of what is left


class Fields:
    def __init__(self, data):
        self.data, self.at = data, 0

    def take(self, count):
        piece = self.data[self.at : self.at + count]
        expect("bytes that are left", len(piece), count)
        self.at += count
        return piece

    def number(self, width):
        return int.from_bytes(self.take(width), "little")

    def next(self):
        """The byte that stands here, which isn't taken."""
        expect("whether a byte is left", self.at < len(self.data), True)
        return self.data[self.at]

    def zeros(self):
        """How many low bits of the next byte are 0: the form of a compact integer and of an extended GUID."""
        return (self.next() & -self.next()).bit_length() - 1

    def null(self):
        """Whether a null stands here, which is taken."""
        return self.next() == 0 and self.take(1) == b"\0"

    def compact(self):
        if self.null():
            return 0
        width = self.zeros() + 1
        return self.number(width) >> width if width < 8 else self.number(9) >> 8

    def guid(self):
        return str(uuid.UUID(bytes_le=self.take(16)))

    def exguid(self):
        if self.null():
            return None
        shift = self.zeros() + 1
        value = self.number({3: 1, 6: 2, 7: 3, 8: 5}[shift]) >> shift
        return self.guid(), value

    def cell_id(self):
        return self.exguid(), self.exguid()

    def serial(self):
        return None if self.null() else (self.number(1), self.guid(), self.number(8))[1:]

    def item(self):
        return self.take(self.compact())

    def array(self, read):
        return [read(self) for _ in range(self.compact())]


# Stream objects


class Object(NamedTuple):
    kind: int
    fields: bytes
    children: list

    def all(self, kind):
        """The fields of the children of this type."""
        return [Fields(it.fields) for it in self.children if it.kind == kind]

    def one(self, kind):
        """The one child of this type."""
        found = [it for it in self.children if it.kind == kind]
        expect(f"objects {kind:02X} in a {self.kind:02X}", len(found), 1)
        return found[0]


def read_object(fields):
    """The object that begins here, with all that it holds."""
    wide = fields.next() & 3 == 2
    head = fields.number(4 if wide else 2)
    kind, length = (head >> 3 & 0x3FFF, head >> 17) if wide else (head >> 3 & 0x3F, head >> 9)
    length = fields.compact() if wide and length == 0x7FFF else length
    held, children = fields.take(length), []
    if head & 4:
        while not fields.next() & 1:
            children.append(read_object(fields))
        expect("type of an end", fields.number(2 if fields.next() & 2 else 1) >> 2, kind)
    return Object(kind, held, children)


# Responses


class Answer(NamedTuple):
    """What a sub-response says: the number of its error, or what a sub-request of its kind is answered."""

    number: int
    kind: int
    error: int = None
    index: tuple = None
    known: list = None
    drawn: tuple = None


def read_knowledge(said):
    """The ranges of serial numbers: GUID, from, to."""
    ranges = said.one(0x10).one(0x44).one(0x14).all(0x0F)
    return [(it.guid(), it.compact(), it.compact()) for it in ranges]


def read_answer(said):
    fields = Fields(said.fields)
    answer = Answer(fields.compact(), fields.compact())
    if fields.number(1) & 1:
        return answer._replace(error=Fields(said.one(0x4D).one(0x66).fields).number(4))
    if answer.kind == 2:
        answer = answer._replace(index=Fields(said.one(0x5F).fields).exguid())
    if answer.kind in (2, 5):
        return answer._replace(known=read_knowledge(said))
    if answer.kind == 11:
        fields = Fields(said.one(0x81).fields)
        return answer._replace(drawn=(fields.guid(), fields.compact(), fields.compact()))
    return answer


def read_element(held):
    """Its serial number, its id, and the object that it is."""
    fields = Fields(held.fields)
    it = fields.exguid()
    return fields.serial()[1], it, held


def read_response(data):
    """The answers in order, and the elements of all pulls in order."""
    expect("front", data[:12], RESPONSE_FRONT)
    fields = Fields(data[12:])
    response = read_object(fields)
    expect("type and fields of the response", (response.kind, response.fields), (0x62, b"\0"))
    expect("bytes behind the response", len(fields.data) - fields.at, 0)
    package = response.one(0x15).children
    return [read_answer(it) for it in response.children if it.kind == 0x41], [read_element(it) for it in package]


# The file of a document, from its elements by their ids


def chain_of(index, elements):
    """The manifests of the root cell's revisions, the current one first."""
    maps = elements[index]
    storage = elements[maps.all(0x11)[0].exguid()]
    root = storage.all(0x07)[0]
    root.exguid()
    cell = root.cell_id()
    mapped = {}
    for it in maps.all(0x0D):
        mapped.setdefault(it.exguid(), it.exguid())
    revision = elements[next(it.exguid() for it in maps.all(0x0E) if it.cell_id() == cell)].all(0x0B)[0].exguid()
    chain = []
    while revision is not None:
        chain.append(elements[mapped[revision]])
        base = chain[-1].all(0x1A)[0]
        base.exguid()
        revision = base.exguid()
    return chain


def objects_of(chain, elements):
    """The objects of the revisions' groups by their ids: what each refers to, and its bytes. The first with an id counts."""
    objects = {}
    for group in (elements[it.exguid()] for manifest in chain for it in manifest.all(0x19)):
        for declared, data in zip(group.one(0x1D).children, group.one(0x1E).children):
            fields = Fields(data.fields)
            refers, _ = fields.array(Fields.exguid), fields.array(Fields.cell_id)
            held = fields.item() if data.kind == 0x16 else Fields(elements[fields.exguid()].one(0x02).fields).item()
            objects.setdefault(Fields(declared.fields).exguid(), (refers, held))
    return objects


def joined(objects, it):
    """The file of an object: its own bytes, or those of what it refers to, of which the node says the length."""
    refers, held = objects[it]
    if not refers:
        return held
    file = b"".join(joined(objects, one) for one in refers)
    expect("size that a node says", Fields(read_object(Fields(held)).one(0x22).fields).number(8), len(file))
    return file


def file_at(index, elements):
    chain = chain_of(index, elements)
    root = [it for manifest in chain for it in manifest.all(0x0A)][0]
    root.exguid()
    objects, root = objects_of(chain, elements), root.exguid()
    return joined(objects, root) if objects[root][0] else b""


# What a client keeps between its saves, and a save


class Saved(NamedTuple):
    """Of the save that the next one is made from: its index, its storage manifest, its revision, the mappings of this and
    of all revisions below it, the id of the root, and the ids of the leaves that are stored, by their bytes."""

    index: tuple = None
    storage: tuple = None
    revision: tuple = None
    revisions: list = []
    root: tuple = None
    leaves: dict = {}


def save(base, data, numbers):
    """The elements of a save of these bytes, made from the save `base`, and what the client has to keep of it."""
    index = next(numbers)
    storage = base.storage or next(numbers)
    cell, manifest, group, revision = next(numbers), next(numbers), next(numbers), next(numbers)
    root = base.root or next(numbers)
    pieces = [data[at : at + cells.LEAF] for at in range(0, len(data), cells.LEAF)]
    fresh = {it: next(numbers) for it in dict.fromkeys(pieces) if it not in base.leaves}
    leaves, revisions = {**base.leaves, **fresh}, [(revision, manifest), *base.revisions]
    node = (root, [leaves[it] for it in pieces], cells.node(0x20, data))
    elements = [
        cells.storage_index(index, storage, [(cells.ROOT_CELL, cell)], revisions),
        *([] if base.storage else [cells.storage_manifest(storage)]),
        cells.cell_manifest(cell, revision),
        cells.revision(manifest, revision, root, [group], base.revision),
        cells.group(group, [node, *((it, [], piece) for piece, it in fresh.items())]),
    ]
    return elements, Saved(index, storage, revision, revisions, root, leaves)


# The program


def answer(program, request):
    """The response of the program, whose words come behind those of the list."""
    with tempfile.TemporaryFile() as given:
        given.write(request)
        given.seek(0)
        folder = f"{TOP}/crates/cell_host" if program[0] == "rt" else None
        made = subprocess.run([*program, "answer", GUID], stdin=given, capture_output=True, cwd=folder)
    expect(f"status, which said {made.stderr.decode()}", made.returncode, 0)
    return made.stdout


def program_of(words):
    if words[:1] == ["--try"]:
        return ["rt", "try", "--"]
    return [os.path.abspath(words[0] if words else f"{TOP}/out/cellhost")]


def numbers_from(first):
    """The document's own numbers, which were allocated."""
    return ((GUID, at) for at in range(first, 100_000))


def session(program):
    """Two saves, and two downloads: by a client that knows nothing, and by one that has the first save."""
    old = b"a" * cells.LEAF + b"and an end"
    new = b"a" * cells.LEAF + b"and another end"
    numbers = numbers_from(1)
    first, saved = save(Saved(), old, numbers)
    second, resaved = save(saved, new, numbers)
    subs = [
        cells.draw(1, 40),
        cells.put(2, saved.index),
        cells.put(3, resaved.index, saved.index),
        cells.pull(4),
        cells.pull(5, [(GUID, 1, len(first))]),
        cells.put(6, resaved.index, saved.index),
        cells.put(7, resaved.index, flags=0x80),
    ]
    answers, elements = read_response(answer(program, cells.request(subs, [*first, *second])))
    # Both saves come in one package, so the first stores all nine elements: 1 to 5 and 6 to 9.
    stored = [(GUID, 1, 9)]
    expect(
        "answers",
        answers,
        [
            Answer(1, 11, drawn=(GUID, 1, 40)),
            Answer(2, 5, known=stored),
            Answer(3, 5, known=stored),
            # The first save's index and cell manifest, 1 and 3, aren't reached from the second.
            Answer(4, 2, index=resaved.index, known=[(GUID, 2, 2), (GUID, 4, 9)]),
            Answer(5, 2, index=resaved.index, known=stored),
            Answer(6, 5, error=12),
            Answer(7, 5, error=2),
        ],
    )
    expect("serial numbers", [serial for serial, _, _ in elements], [2, 4, 5, 6, 7, 8, 9, 6, 7, 8, 9])
    expect("the downloaded file", file_at(resaved.index, {it: held for _, it, held in elements[:7]}) == new, True)
    kept = {Fields(it.fields).exguid(): it for it in map(read_object, map(Fields, first))}
    expect("the file before", file_at(saved.index, kept) == old, True)
    kept.update({it: held for _, it, held in elements[7:]})
    expect("the file with what was lacking", file_at(resaved.index, kept) == new, True)


def main(words):
    try:
        session(program_of(words))
    except FAULTS as fault:
        print(f"examples/client.py: {fault!r}", file=sys.stderr)
        return 1
    print("two saves were stored, and both downloads have the second one's file")
    return 0


if __name__ == "__main__":
    sys.exit(main(sys.argv[1:]))

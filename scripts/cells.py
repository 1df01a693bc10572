"""What a client writes, in plain Python: the values, objects and requests of docs/PROTOCOL.md.

An object is written as `obj(type, fields)` or, where it holds others, `obj(type, fields, children)`; an element, a
sub-request and a request are objects with names of their own below. Nothing here checks what it is given, so that
requests which a host must refuse can be made as well.
"""
import hashlib
import uuid

ROOT = "84defab9-aaa3-4a0d-a3a8-520c77ac7073"
CELL = "6f2a4665-42c8-46c7-bab4-e28fdce1e32b"
REVISION_ROOT = "4a3717f8-1c14-49e7-9526-81d942de1741"
KNOWLEDGE = uuid.UUID("327a35f6-0761-4414-9686-51e900667a4d").bytes_le
SCHEMA = uuid.UUID("0eb93394-571d-41e9-aad3-880d92d31955").bytes_le
# The GUID of which the elements of a client's files have their ids.
FILES = "00000000-0000-0100-0000-000000000007"
LEAF, FAN = 65_536, 64


def compact(number):
    """A compact integer."""
    if number == 0:
        return b"\0"
    for width in range(1, 8):
        if number < 1 << (7 * width):
            return ((number << width) | (1 << (width - 1))).to_bytes(width, "little")
    return b"\x80" + number.to_bytes(8, "little")


def guid(text):
    return uuid.UUID(text).bytes_le


def exguid(value=None, of=FILES):
    """An extended GUID: the value is a number of that GUID, or a pair of another GUID's text and a number. Without a value
    the null one."""
    if value is None:
        return b"\0"
    of, value = value if isinstance(value, tuple) else (of, value)
    for width, bits, mark in ((1, 5, 4), (2, 10, 32), (3, 17, 64)):
        if value < 1 << bits:
            return ((value << {1: 3, 2: 6, 3: 7}[width]) | mark).to_bytes(width, "little") + guid(of)
    return b"\x80" + value.to_bytes(4, "little") + guid(of)


def cell_id(first, second):
    return first + second


ROOT_CELL = cell_id(exguid(1, ROOT), exguid(1, CELL))
NULL_SERIAL = b"\0"


def item(data):
    return compact(len(data)) + data


def array(items):
    return compact(len(items)) + b"".join(items)


def start(kind, compound, length):
    if kind <= 0x3F and length <= 127:
        return (compound << 2 | kind << 3 | length << 9).to_bytes(2, "little")
    short = min(length, 32_767)
    return (2 | compound << 2 | kind << 3 | short << 17).to_bytes(4, "little") + (compact(length) if short == 32_767 else b"")


def end(kind):
    return bytes([1 | kind << 2]) if kind <= 0x3F else (3 | kind << 2).to_bytes(2, "little")


def obj(kind, fields=b"", children=None):
    """A stream object: a simple one, or, with children (bytes, or a list of them), a compound one."""
    head = start(kind, children is not None, len(fields)) + fields
    return head if children is None else head + b"".join(children if isinstance(children, list) else [children]) + end(kind)


# Elements


def element(kind, value, children):
    return obj(0x01, exguid(value) + NULL_SERIAL + compact(kind), children)


def storage_index(value, manifest, cells, revisions):
    """Its manifest's id; pairs of cell id and cell manifest; pairs of revision and revision manifest."""
    rows = [obj(0x11, exguid(manifest) + NULL_SERIAL)]
    rows += [obj(0x0E, cell + exguid(target) + NULL_SERIAL) for cell, target in cells]
    rows += [obj(0x0D, exguid(revision) + exguid(target) + NULL_SERIAL) for revision, target in revisions]
    return element(1, value, rows)


def storage_manifest(value):
    return element(2, value, [obj(0x0C, SCHEMA), obj(0x07, exguid(2, ROOT) + ROOT_CELL)])


def cell_manifest(value, revision):
    return element(3, value, obj(0x0B, exguid(revision)))


def revision(value, its_id, root, groups, base=None):
    rows = [obj(0x1A, exguid(its_id) + exguid(base))]
    rows += [obj(0x0A, exguid(1, REVISION_ROOT) + exguid(root))] if root is not None else []
    return element(4, value, rows + [obj(0x19, exguid(it)) for it in groups])


def group(value, objects):
    """Its objects: id, ids that it refers to, and its bytes or the number of the blob that has them."""
    declared, held = [], []
    for it, to, data in objects:
        counts, refers = compact(len(to)) + compact(0), array([exguid(one) for one in to]) + array([])
        if isinstance(data, int):
            declared.append(obj(0x05, exguid(it) + exguid(data) + compact(1) + compact(0) + counts))
            held.append(obj(0x1C, refers + exguid(data)))
        else:
            declared.append(obj(0x18, exguid(it) + compact(1) + compact(len(data)) + counts))
            held.append(obj(0x16, refers + item(data)))
    return element(5, value, [obj(0x1D, b"", declared), obj(0x1E, b"", held)])


def blob(value, data):
    return element(10, value, obj(0x02, item(data)))


def node(kind, data, size=None):
    """The bytes of an object that refers to others: the signature and the size of the file below it."""
    signature = hashlib.sha256(data).digest()
    size = len(data) if size is None else size
    return obj(kind, b"", [obj(0x21, item(signature)), obj(0x22, size.to_bytes(8, "little"))])


def file_elements(data, first=1):
    """The elements of a file, cut as docs/PROTOCOL.md says, under the numbers from `first` on, the storage index first."""
    index, manifest, cell, revised, held, its_id, root = range(first, first + 7)
    leaves = [data[at : at + LEAF] for at in range(0, len(data), LEAF)]
    level, number = [(first + 7 + at, leaf) for at, leaf in enumerate(leaves)], first + 7 + len(leaves)
    objects = [(it, [], leaf) for it, leaf in level]
    while len(level) > FAN:
        above = []
        for at in range(0, len(level), FAN):
            below = level[at : at + FAN]
            whole = b"".join(part for _, part in below)
            objects.append((number, [it for it, _ in below], node(0x1F, whole)))
            above.append((number, whole))
            number += 1
        level = above
    objects.insert(0, (root, [it for it, _ in level], node(0x20, data)))
    return [
        storage_index(index, manifest, [(ROOT_CELL, cell)], [(its_id, revised)]),
        storage_manifest(manifest),
        cell_manifest(cell, its_id),
        revision(revised, its_id, root, [held]),
        group(held, objects),
    ]


# Requests


def sub_request(number, kind, children):
    return obj(0x42, compact(number) + compact(kind) + compact(0), children)


def put(number, index, expected=None, flags=0):
    return sub_request(number, 5, obj(0x5A, exguid(index) + exguid(expected) + bytes([flags])))


def pull(number, ranges=()):
    """A download by a client that knows the ranges: GUID, from, to."""
    known = [obj(0x0F, guid(of) + compact(low) + compact(high)) for of, low, high in ranges]
    knowledge = obj(0x10, b"", obj(0x44, KNOWLEDGE, obj(0x14, b"", known)))
    return sub_request(number, 2, [obj(0x51, b"\0"), knowledge])


def draw(number, count):
    return sub_request(number, 11, obj(0x80, compact(count) + b"\0"))


def request(subs, elements=()):
    return bytes.fromhex("0C000B009CCF29F33994069B") + obj(0x40, b"", [*subs, obj(0x15, b"\0", list(elements))])

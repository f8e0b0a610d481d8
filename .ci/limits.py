#!/usr/bin/env python3
"""A script that goes to each limit and one past it. Prints its lines, or with the word `text` what they print.

    python3 .ci/limits.py [text]
"""
import json
import sys

POSTS = {"name": "posts", "columns": [{"name": "title", "type": "string"}, {"name": "score", "type": "number"}]}
TABLES = ["t%d" % number for number in range(1, 10)]


def schema():
    """The posts have many records in each of nine tables."""
    posts = dict(POSTS, associations={name: {"type": "has_many", "foreignKey": "of"} for name in TABLES})
    return {"version": 1, "tables": [posts] + [
        {"name": name, "columns": [{"name": "of", "type": "string"}]} for name in TABLES
    ]}


def line(form, **keys):
    return dict({"do": form}, **keys)


def named(tables, columns, size):
    """A schema of so many tables, each of so many columns, the last of whose names has this many bytes."""
    names = ["c%d" % number for number in range(1, columns)] + ["n" * size]
    return {"version": 1, "tables": [
        {"name": "t%d" % number, "columns": [{"name": name, "type": "string"} for name in names]} for number in range(tables)
    ]}


def declared():
    for given, printed in [
        (named(64, 64, 64), "open A rows 0 last 0"),
        (named(65, 1, 1), "refused schema 7"),
        (named(1, 65, 1), "refused schema 7"),
        (named(1, 1, 65), "refused schema 2"),
    ]:
        yield line("open", app="A", schema=given), printed
        if printed.startswith("open"):
            yield line("close", app="A"), "close A"


def opened():
    for name in "ABCD":
        yield line("open", app=name, schema=schema()), "open %s rows 0 last 0" % name
    yield line("open", app="E", schema=schema()), 'refused app 3 "E"'


def written():
    def creates(first, count):
        return [{"create": "posts", "id": "p%d" % number, "set": {}} for number in range(first, first + count)]

    def long_title(name, size):
        return [{"create": "posts", "id": name, "set": {"title": "x" * size}}]

    yield line("write", app="A", ops=creates(0, 100001)), "refused batch 8 100001"
    yield line("write", app="A", ops=creates(0, 100000)), "write A at 1"
    yield line("write", app="A", ops=long_title("long", 65537)), 'refused batch 7 1 "posts" "long" "title"'
    yield line("write", app="A", ops=long_title("long", 65536)), "write A at 2"
    yield line("write", app="A", ops=[]), "write A at 2"
    for number, printed in [(2 ** 53 - 1, "write B at 1"), (2 ** 53, "refused ops 2 1")]:
        yield line("write", app="B", ops=[{"create": "posts", "id": "p%d" % number, "set": {"score": number}}]), printed
    for size, printed in [(64, "write B at 2"), (65, 'refused batch 3 1 "posts" "%s"' % ("i" * 65))]:
        yield line("write", app="B", ops=[{"create": "posts", "id": "i" * size, "set": {}}]), printed


def queued():
    yield line("enter", app="C", writer="w0"), "enter C w0 holds"
    for number in range(1, 64):
        yield line("enter", app="C", writer="w%d" % number), "enter C w%d waits %d" % (number, number)
    yield line("enter", app="C", writer="w64"), "refused queue 3 64"
    for depth in range(2, 65):
        yield line("nest", app="C", writer="w0"), "nest C w0 depth %d" % depth
    yield line("nest", app="C", writer="w0"), "refused queue 3 64"


def observed():
    def observe(number):
        return line("observe", app="D", name="o%d" % number, table="posts", query={}, shape="ids")

    for number in range(64):
        yield observe(number), "emit D o%d at 0 []" % number
    yield observe(64), 'refused observer 3 "o64"'


def asked():
    title = {"column": "title", "op": "eq", "value": "a"}

    def deep(depth):
        return {"and": [deep(depth - 1)]} if depth > 0 else title

    def within(tables):
        return {"joins": TABLES[:tables], "where": [{"on": name, "is": []} for name in TABLES[:tables]]}

    def one_of(count):
        return {"where": [{"column": "score", "op": "oneOf", "value": list(range(1, count + 1))}]}

    for query, printed in [
        ({"where": [deep(16)]}, "fetch D []"),
        ({"where": [deep(17)]}, "refused query 9"),
        ({"where": [title] * 256}, "fetch D []"),
        ({"where": [title] * 257}, "refused query 9"),
        (one_of(1000), "fetch D []"),
        (one_of(1001), "refused query 9"),
        (within(8), "fetch D []"),
        (within(9), "refused query 9"),
    ]:
        yield line("fetch", app="D", table="posts", query=query), printed


WIDE = ["c%02d" % number + "_" * 61 for number in range(64)]
MOST_BYTES = 134217728


def row_bytes(name, text):
    """The bytes of a created row of 64 columns, the first of which keeps a text."""
    row = {"_changed": "", "_status": "created", "id": name, **dict.fromkeys(WIDE, ""), WIDE[0]: text}
    return len(json.dumps(row, separators=(",", ":")))


def filled():
    """Rows that have exactly the most bytes of a store, and one byte more."""
    size = row_bytes("r00000", "")
    count = MOST_BYTES // size
    rest = MOST_BYTES - count * size

    def creates(over):
        texts = [""] * (count - 1) + ["x" * (rest + over)]
        return [{"create": "wide", "id": "r%05d" % number, "set": {WIDE[0]: text} if text else {}} for number, text in enumerate(texts)]

    wide = {"version": 1, "tables": [{"name": "wide", "columns": [{"name": name, "type": "string"} for name in WIDE]}]}
    yield line("close", app="D"), "close D"
    yield line("open", app="D", schema=wide), "open D rows 0 last 0"
    yield line("write", app="D", ops=creates(1)), "refused full 1 %d" % (MOST_BYTES + 1)
    yield line("write", app="D", ops=creates(0)), "write D at 1"


def journalled():
    """Entries of a row that is long before and after, until the journal of the opening has too many bytes."""
    posts = {"version": 1, "tables": [{"name": "posts", "columns": [{"name": "body", "type": "string"}, {"name": "title", "type": "string"}]}]}
    yield line("close", app="D"), "close D"
    yield line("open", app="E", schema=posts), "open E rows 0 last 0"
    row = dict(body="x" * 65536, id="p1", title="", _changed="", _status="created")
    size = len(json.dumps(row, separators=(",", ":")))
    yield line("write", app="E", ops=[{"create": "posts", "id": "p1", "set": {"body": row["body"]}}]), "write E at 1"
    update = line("write", app="E", ops=[{"update": "posts", "id": "p1", "set": {"title": ""}}])
    count, taken = 1, size
    while taken + 2 * size <= MOST_BYTES:
        count, taken = count + 1, taken + 2 * size
        yield update, "write E at %d" % count
    yield update, "refused full 2 %d" % (taken + 2 * size)


for part in (declared, opened, written, queued, observed, asked, filled, journalled):
    for given, printed in part():
        print(printed if sys.argv[1:] == ["text"] else json.dumps(given, separators=(",", ":")))

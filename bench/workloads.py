#!/usr/bin/env python3
"""Prints a script for `melon run`: one of the project's workloads, by name.

    python3 bench/workloads.py small-writes | ./melon run > /dev/null

small-writes   as many single creates with ascending ids as a script of 16 MiB holds, and one fetch
big-batches    batches of 100000 creates with ascending ids, as many as fit
mixed-writes   single creates with ids in no order, each followed by an update and now and then a deletion
queries        20000 posts and 40000 comments, and then fetches with conditions, sort and take, and joins both ways
observers      32 observers on 40000 posts, and single updates with a turn of each observer now and then
watches        32 watches on the posts of comments, among 20000 posts, with a turn of each after single updates

A number behind the name, 1, 4 or 16, is the part of the work in sixteenths; 16 is all of it.
"""
import json
import sys

LIMIT = 16777216
SCHEMA = {"version": 1, "tables": [{"name": "posts", "columns": [
    {"name": "title", "type": "string"},
    {"name": "body", "type": "string"},
    {"name": "score", "type": "number", "isOptional": True, "isIndexed": True}],
    "associations": {"comments": {"type": "has_many", "foreignKey": "post_id"}}},
    {"name": "comments", "columns": [
        {"name": "post_id", "type": "string", "isIndexed": True},
        {"name": "text", "type": "string"},
        {"name": "likes", "type": "number"}],
        "associations": {"posts": {"type": "belongs_to", "key": "post_id"}}}]}


def line(value):
    return json.dumps(value, separators=(",", ":")) + "\n"


OPEN = line({"do": "open", "app": "A", "schema": SCHEMA})
FETCH = line({"do": "fetch", "app": "A", "table": "posts", "query": {}})


def create(i):
    return {"create": "posts", "id": "g%07d" % i, "set": {"title": "t%d" % (i % 100), "score": i % 100}}


def small_writes(part):
    i = 0
    while True:
        yield line({"do": "write", "app": "A", "ops": [create(i)]})
        i += 1


def big_batches(part):
    first = 0
    many = 6250 * part
    while True:
        yield line({"do": "write", "app": "A", "ops": [create(first + i) for i in range(many)]})
        first += many


def write(operation):
    return line({"do": "write", "app": "A", "ops": [operation]})


def mixed_writes(part):
    i = 0
    while True:
        post = "m%07d" % (i * 7919 % 1000003)
        yield write({"create": "posts", "id": post, "set": {"title": "t%d" % (i % 100), "score": i % 100}})
        yield write({"update": "posts", "id": post, "set": {"score": (i + 1) % 100}})
        if i % 10 == 9:
            yield write({"delete": "posts", "id": post})
        i += 1


def comment(i):
    return {"create": "comments", "id": "c%07d" % i,
            "set": {"post_id": "g%07d" % (i // 2), "text": "x%d" % (i % 50), "likes": i % 20}}


def fetch(table, query):
    return line({"do": "fetch", "app": "A", "table": table, "query": query})


def queries(part):
    yield line({"do": "write", "app": "A", "ops": [create(i) for i in range(1250 * part)]})
    yield line({"do": "write", "app": "A", "ops": [comment(i) for i in range(2500 * part)]})
    where = lambda column, op, value: {"column": column, "op": op, "value": value}
    for i in range(50):
        yield fetch("posts", {"where": [where("score", "eq", i)]})
        yield fetch("posts", {"where": [where("title", "like", "t%" + str(i % 10))]})
        yield fetch("posts", {"sortBy": [["score", "desc"]], "take": 20, "skip": i})
        yield fetch("comments", {"where": [{"on": "posts", "is": [where("score", "eq", i)]}]})
        yield fetch("posts", {"where": [{"on": "comments", "is": [where("likes", "gt", 18)]}], "take": 20})


def turn(name):
    return line({"do": "turn", "app": "A", "name": name})


def observers(part):
    yield line({"do": "write", "app": "A", "ops": [create(i) for i in range(2500 * part)]})
    for n in range(32):
        query = {"where": [{"column": "score", "op": "eq", "value": n}]}
        if n % 4 == 3:
            query.update(sortBy=[["title", "asc"]], take=10)
        yield line({"do": "observe", "app": "A", "name": "o%d" % n, "table": "posts", "query": query, "shape": "ids"})
    for i in range(2000):
        yield write({"update": "posts", "id": "g%07d" % (i * 7 % (2500 * part)), "set": {"score": 32 + i % 64}})
        yield turn("o%d" % (i % 32))


def watches(part):
    yield line({"do": "write", "app": "A", "ops": [create(i) for i in range(1250 * part)]})
    yield line({"do": "write", "app": "A", "ops": [comment(i) for i in range(2500 * part)]})
    for n in range(32):
        yield line({"do": "watch", "app": "A", "name": "w%d" % n, "table": "comments", "id": "c%07d" % (2 * n), "to": "posts"})
    for i in range(2000):
        yield write({"update": "posts", "id": "g%07d" % (i % 64), "set": {"score": i % 50}})
        yield turn("w%d" % (i % 32))


ENDLESS = ("small-writes", "big-batches", "mixed-writes")


def is_long(part, size):
    return size > LIMIT * part // 16


WORKLOADS = {"small-writes": small_writes, "big-batches": big_batches, "mixed-writes": mixed_writes,
             "queries": queries, "observers": observers, "watches": watches}


def main():
    part = int(sys.argv[2]) if len(sys.argv) == 3 else 16
    if len(sys.argv) not in (2, 3) or sys.argv[1] not in WORKLOADS or part not in (1, 4, 16):
        sys.exit(__doc__)
    size = len(OPEN) + len(FETCH)
    sys.stdout.write(OPEN)
    for text in WORKLOADS[sys.argv[1]](part):
        size += len(text)
        # the workloads without an end are as long as their part of the longest script
        if size > LIMIT or sys.argv[1] in ENDLESS and is_long(part, size):
            break
        sys.stdout.write(text)
    sys.stdout.write(FETCH)


main()

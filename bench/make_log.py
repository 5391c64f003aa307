#!/usr/bin/env python3
"""Writes a benchmark log, the same bytes for the same seed.

    bench/make_log.py KIND FILE [--seed S] [--events N]

`fences` is what a log costs to read: N records, nearly all of them FENCE or a record that is
skipped, one in a thousand a STORE, and a PMT.PERSIST now and then. `stores` is what a program does
that keeps its data in order: stores of 8 to 64 bytes at random places of 64 MB, a write-back of
each cache line that they met, and a fence. `sections` and `interleaved` are the same events, in
sections of 1,000, one after another and in runs of 20 of each in turn; both end with an unknown
marker, so that the log is read to its end and nothing of it is checked.

The others are checked. `tree` is one section of a B-tree with an undo log beside it, in 64 MB: small
stores, a write-back of each line, fences, a PERSIST and an ORDERED now and then. `trees` and
`woven` are the same program in sections of 1,000 events, one after another and in runs of 20.
`sparse` stores one byte at random places of 1 GB, then writes all of it back in large spans, fences,
asks and writes it back again; `wide` the same, with a fifteenth as many questions and write-backs
over spans of 4 GB. `segments` stores, writes back and asks after 4,096 spans of 64 KB, over and over.
`orders` has wide ORDERED assertions over a great many stores. `transactions` has checked scopes with
nested transactions, each of which backs ranges up and stores into them, now and then beside them;
`ranges` is one transaction that backs up a great many separate ranges and stores into each.
"""

import argparse
import itertools
import random

LINE = 64
BASE = 0x10000000
SPACE = 64 * 1024 * 1024
SECTION = 1000
RUN = 20
FAULT = "PMT.END_OF_BENCHMARK"
SKIPPED = (
    "START",
    "STOP",
    "REGISTER_FILE;pool;0x10000000;0x4000000;0x0",
    "LIBPMEM_DRAIN.BEGIN",
    "LIBPMEM_DRAIN.END",
)


def store(random_, address, size):
    return f"STORE;{address:#x};{random_.getrandbits(32):#x};{size:#x}"


def flush(line):
    return f"FLUSH;{line:#x};{LINE:#x}"


def fences(random_, events):
    """Records that leave nearly every byte alone."""
    last = BASE
    for at in range(events):
        if at % 1000 == 0:
            last = BASE + random_.randrange(SPACE // 8) * 8
            yield store(random_, last, 8)
        elif at % 1000 == 1:
            yield flush(last - last % LINE)
        elif at % 5000 == 10:
            yield f"PMT.PERSIST;{last:#x};0x8"
        elif random_.random() < 0.5:
            yield "FENCE"
        else:
            yield random_.choice(SKIPPED)


def batch(random_):
    """Some stores, a write-back of each line that they met, and a fence."""
    lines = set()
    for _ in range(random_.randrange(1, 8)):
        size = random_.choice((8, 8, 8, 16, 32, 64))
        first = BASE + random_.randrange((SPACE - LINE) // 8) * 8
        yield store(random_, first, size)
        lines.update(range(first - first % LINE, first + size, LINE))
    for line in sorted(lines):
        yield flush(line)
    yield "FENCE"


def stores(random_, events):
    """Batches, until there are enough records."""
    made = 0
    while True:
        for record in batch(random_):
            if made == events:
                return
            made += 1
            yield record


def split(random_, events):
    """The events of `stores`, a thousand for each section."""
    for start in range(0, events, SECTION):
        yield list(stores(random_, min(SECTION, events - start)))


def row(parts):
    """Section after section."""
    for number, part in enumerate(parts):
        yield f"PMT.SECTION;{number}"
        yield from part


def weave(parts):
    """A run of each section in turn."""
    parts = list(parts)
    for start in range(0, SECTION, RUN):
        yield from row(part[start : start + RUN] for part in parts)


def sections(random_, events):
    """Section after section, and then a fault."""
    yield from row(split(random_, events))
    yield FAULT


def interleaved(random_, events):
    """A run of each section in turn, and then a fault."""
    yield from weave(split(random_, events))
    yield FAULT


def append(random_, at):
    """An entry of the undo log at this address: its stores, its lines, and a fence."""
    size = random_.choice((24, 32, 48, 64))
    first, end = at, at + size
    while first < end:
        part = min(end - first, random_.choice((8, 8, 16, 32)))
        yield store(random_, first, part)
        first += part
    for line in range(at - at % LINE, end, LINE):
        yield flush(line)
    yield "FENCE"


def change(random_, node):
    """A node's header and an entry with some that it shifts: stores, lines, a fence."""
    spans = [(node, 8)]
    slot = random_.randrange(1, 29)
    for entry in range(slot, slot + random_.randrange(1, 4)):
        spans.append((node + 16 * entry, random_.choice((8, 16, 16, 16))))
    if random_.random() < 0.1:
        spans.append((node + LINE * random_.randrange(8), LINE))
    for first, size in spans:
        yield store(random_, first, size)
    lines = sorted({byte - byte % LINE for first, size in spans for byte in (first, first + size - 1)})
    if random_.random() < 0.02 and len(lines) > 1:
        lines.pop()
    for line in lines:
        yield flush(line)
    if random_.random() < 0.01:
        yield flush(lines[0])
    yield "FENCE"


def tree(random_, events, base=BASE, space=SPACE):
    """Operations of a B-tree of 512-byte nodes, each with an entry of its undo log."""
    return itertools.islice(operations(random_, base, space), events)


def operations(random_, base, space):
    """Half of the operations go to a sixteenth of the nodes."""
    nodes = space * 7 // 8 // 512
    log, at = base + nodes * 512, 0
    for operation in itertools.count(1):
        hot = random_.random() < 0.5
        node = base + 512 * random_.randrange(max(1, nodes // 16) if hot else nodes)
        yield from append(random_, log + at)
        yield from change(random_, node)
        if operation % 3 == 0:
            yield f"PMT.PERSIST;{node:#x};0x8"
        if operation % 5 == 0:
            yield f"PMT.ORDERED;{log + at:#x};0x18;{node:#x};0x8"
        at = (at + LINE) % (space // 8 - LINE)


def trees_of(random_, events):
    """A thousand events of a tree of its own for each section."""
    for number, start in enumerate(range(0, events, SECTION)):
        base = BASE + number * (1 << 20)
        yield list(tree(random_, min(SECTION, events - start), base, 1 << 16))


def trees(random_, events):
    """Section after section."""
    return row(trees_of(random_, events))


def woven(random_, events):
    """A run of each section in turn."""
    return weave(trees_of(random_, events))


GIGABYTE = 1 << 30


def scattered(random_, events):
    """Stores of one byte all over a gigabyte."""
    for _ in range(events):
        yield store(random_, random_.randrange(GIGABYTE), 1)


def sparse(random_, events):
    """Scattered stores, and then all of the gigabyte written back, asked after, and written back."""
    yield from scattered(random_, events)
    for first in range(0, GIGABYTE, 1 << 16):
        yield f"FLUSH;{first:#x};0x10000"
    yield "FENCE"
    for first in range(0, GIGABYTE, 1 << 20):
        yield f"PMT.PERSIST;{first:#x};0x10000"
    for first in range(0, GIGABYTE, 1 << 16):
        yield f"FLUSH;{first:#x};0x10000"


def wide(random_, events):
    """Scattered stores, and then questions and write-backs over four gigabytes."""
    yield from scattered(random_, events)
    yield "FLUSH;0x0;0x100000000"
    for turn in range(events // 15):
        yield "FLUSH;0x0;0x100000000"
        yield f"PMT.PERSIST;{random_.randrange(GIGABYTE):#x};0x100000000"
        yield store(random_, random_.randrange(GIGABYTE), 1)
        if turn % 100 == 0:
            yield "FENCE"


def segments(random_, events):
    """4,096 spans of 64 KB, stored, written back, fenced and asked after, again and again."""
    spans = [(number << 16, 1 << 16) for number in range(4096)]
    for _ in range(max(1, events // (2 * len(spans) + 2))):
        for first, size in spans:
            yield store(random_, first, size)
        for first, size in spans:
            yield f"FLUSH;{first:#x};{size:#x}"
        yield "FENCE"
        yield "PMT.PERSIST;0x0;0x10000"


def orders(random_, events):
    """Two halves of many stores, the one fenced, and wide order assertions between them."""
    half = 1 << 22
    second = BASE + half
    for first in range(BASE, second, 16):
        yield store(random_, first, 8)
    yield f"FLUSH;{BASE:#x};{half:#x}"
    yield "FENCE"
    for first in range(second, second + half, 16):
        yield store(random_, first, 8)
    for turn in range(events // 100):
        for _ in range(4):
            first = second + 16 * random_.randrange(half // 16)
            yield store(random_, first, 8)
            yield flush(first - first % LINE)
        yield "FENCE"
        size = random_.choice((1 << 12, 1 << 16, 1 << 20, half))
        a = BASE + LINE * random_.randrange((half - size) // LINE + 1)
        b = second + LINE * random_.randrange((half - size) // LINE + 1)
        yield f"PMT.ORDERED;{a:#x};{size:#x};{b:#x};{size:#x}"
        if turn % 4 == 0:
            yield f"PMT.ORDERED;{b:#x};{size:#x};{a:#x};{size:#x}"


def transaction(random_, base, space):
    """A checked scope: transactions in one another, write-backs and a fence, and the ends."""
    depth = random_.randrange(1, 9)
    lines = set()
    yield "PMT.CHECKSTART"
    for _ in range(depth):
        yield "PMT.TXBEGIN"
        for _ in range(random_.randrange(2, 16)):
            first = base + 8 * random_.randrange(space // 8)
            size = random_.choice((8, 16, 24, 64, 256))
            yield f"PMT.TXADD;{first:#x};{size:#x}"
            for _ in range(random_.randrange(1, 4)):
                at = first + random_.randrange(0, size, 8)
                if random_.random() < 0.02:
                    at += 512
                yield store(random_, at, 8)
                lines.add(at - at % LINE)
    for line in sorted(lines):
        if random_.random() < 0.999:
            yield flush(line)
    yield "FENCE"
    for _ in range(depth):
        yield "PMT.TXEND"
    yield "PMT.CHECKEND"


def transactions(random_, events):
    """Checked scopes all over 16 MB, one after another."""
    made = 0
    while made < events - 2000:
        for record in transaction(random_, BASE, SPACE // 4):
            made += 1
            yield record


def ranges(random_, events):
    """One transaction over many separate ranges, each backed up, stored to and written back."""
    places = random_.sample(range(GIGABYTE // 256), events // 3)
    yield "PMT.CHECKSTART"
    yield "PMT.TXBEGIN"
    for place in places:
        yield f"PMT.TXADD;{256 * place:#x};0x10"
    for place in places:
        yield store(random_, 256 * place + 4, 8)
    for place in sorted(places):
        yield flush(256 * place)
    yield "FENCE"
    yield "PMT.TXEND"
    yield "PMT.CHECKEND"


KINDS = {
    "fences": fences,
    "stores": stores,
    "sections": sections,
    "interleaved": interleaved,
    "tree": tree,
    "trees": trees,
    "woven": woven,
    "sparse": sparse,
    "wide": wide,
    "segments": segments,
    "orders": orders,
    "transactions": transactions,
    "ranges": ranges,
}


def write_log(path, records):
    """Writes the records one a line, some thousand at a time."""
    with open(path, "w", encoding="ascii") as file:
        part = []
        for record in records:
            part.append(record)
            if len(part) == 65536:
                file.write("\n".join(part) + "\n")
                part = []
        file.write("\n".join(part + [""]))


def main():
    parser = argparse.ArgumentParser(description=__doc__.splitlines()[0])
    parser.add_argument("kind", choices=sorted(KINDS))
    parser.add_argument("file")
    parser.add_argument("--seed", type=int, default=1)
    parser.add_argument("--events", type=int, default=1_000_000)
    words = parser.parse_args()
    write_log(words.file, KINDS[words.kind](random.Random(words.seed), words.events))


if __name__ == "__main__":
    main()

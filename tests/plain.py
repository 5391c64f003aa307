"""A checker as the definitions say it: each answer looks back over all events, and nothing is kept from one to the next.

It is slow, and shares nothing with the program. tests/soak compares both. A section is a list of events, (name, spans); a span is its
first byte and the byte behind its last. Places count from 1.
"""

import functools
import re

LINE = 64
SPANS = {"STORE": ((1, 3),), "FENCE": (), "PMT.ORDERED": ((1, 2), (3, 4))}
PLAIN = ("FENCE", "PMT.TXBEGIN", "PMT.TXEND", "PMT.CHECKSTART", "PMT.CHECKEND")
WITH_A_SPAN = ("STORE", "FLUSH", "PMT.PERSIST", "PMT.ORDERED", "PMT.EXCLUDE", "PMT.INCLUDE", "PMT.TXADD")
COUNTS = {"PASS": "pass", "EMPTY": "empty", "DOUBLED": "warn", "NEEDLESS": "warn", "DUPLOG": "warn"}
KINDS = ("pass", "fail", "warn", "empty")


def event_of(record):
    """The event that a record says, or nothing where it is skipped."""
    fields = record.split(";")
    if fields[0] in PLAIN:
        return fields[0], ()
    if fields[0] not in WITH_A_SPAN:
        return None
    at = [(int(fields[i], 0), int(fields[j], 0)) for i, j in SPANS.get(fields[0], ((1, 2),))]
    return fields[0], tuple((first, first + size) for first, size in at)


def sections_of(log):
    """The events of each section of a log, by its number."""
    found, current = {}, 0
    for record in re.split(r"[|\n\r]", log.decode("latin-1")):
        record = record.strip(" \t")
        if record.startswith("PMT.SECTION;"):
            current = int(record.split(";")[1], 0)
            found.setdefault(current, [])
        elif (event := event_of(record)) is not None:
            found.setdefault(current, []).append(event)
    return found


def line_of(byte):
    return byte - byte % LINE


def lines_of(span):
    """The lines that a span meets: the first, and the one behind the last."""
    return line_of(span[0]), line_of(span[1] - 1) + LINE


def covers(span, byte):
    return span[0] <= byte < span[1]


def counted(result):
    return COUNTS.get(result, "fail")


class Section:
    """The events of a section, what is found of each, and the crash images that show what fails."""

    def __init__(self, events, profile):
        self.events, self.profile = events, profile
        ends = {end for _, spans in events for span in spans for end in span}
        lines = {end for _, spans in events for span in spans for end in lines_of(span)}
        # no event tells two bytes apart that lie between two of these, nor two lines
        self.ends, self.lines = sorted(ends | lines), sorted(lines)
        # of lines that are alike a second one, as the partner of the first in a pair
        self.ends = sorted({*self.ends, *(it + LINE for it, end in zip(self.ends, self.ends[1:]) if end - it > LINE)})
        # (what was asked before is not counted anew)
        for name in ("last_store", "is_excluded", "closing_epoch", "count", "depth", "is_backed", "scope"):
            setattr(self, name, functools.lru_cache(maxsize=None)(getattr(self, name)))

    def bytes_of(self, span):
        """One byte, the least, of each stretch of alike bytes of the span; of one that is longer than a line, two."""
        return [it for it in self.ends if covers(span, it)]

    def first(self, test, span):
        return next((it for it in self.bytes_of(span) if test(it)), None)

    # Places.

    def last(self, p, test):
        """The last place up to p whose event passes, or 0."""
        return next((q for q in range(p, 0, -1) if test(*self.events[q - 1])), 0)

    def least(self, after, p, test):
        """The first place behind one, up to p, whose event passes, or 0."""
        return next((q for q in range(after + 1, p + 1) if test(*self.events[q - 1])), 0)

    def count(self, p, name):
        return sum(event[0] == name for event in self.events[:p])

    # Bytes and lines.

    def last_of(self, p, names, byte):
        return self.last(p, lambda name, spans: name in names and covers(spans[0], byte))

    def last_store(self, p, byte):
        return self.last_of(p, ("STORE",), byte)

    def is_excluded(self, p, byte):
        mark = self.last_of(p, ("PMT.EXCLUDE", "PMT.INCLUDE"), byte)
        return mark > 0 and self.events[mark - 1][0] == "PMT.EXCLUDE"

    def is_checked(self, p, byte):
        return self.last_store(p, byte) > 0 and not self.is_excluded(p, byte)

    def writes_back(self, after, p, line):
        """The first write-back of the line behind a place, up to p, or 0."""
        return self.least(after, p, lambda name, spans: name == "FLUSH" and covers(lines_of(spans[0]), line))

    def closing_fence(self, after, p, line):
        """The first fence behind the first such write-back, or 0."""
        back = self.writes_back(after, p, line)
        return self.least(back, p, lambda name, _: name == "FENCE") if back else 0

    def closing_epoch(self, p, byte):
        """The epoch from which on the last store of the byte is durable, or None."""
        fence = self.closing_fence(self.last_store(p, byte), p, line_of(byte))
        return self.count(fence, "FENCE") if fence else None

    def last_on(self, p, line):
        return self.last(p, lambda name, spans: name == "STORE" and covers(lines_of(spans[0]), line))

    def is_clean(self, p, line):
        last = self.last_on(p, line)
        return last == 0 or self.closing_fence(last, p, line) > 0

    def is_pending(self, p, line):
        return not self.is_clean(p, line) and self.writes_back(self.last_on(p, line), p, line) > 0

    # Transactions.

    def depth(self, p):
        depth = 0
        for name, _ in self.events[:p]:
            depth = max(0, depth + (name == "PMT.TXBEGIN") - (name == "PMT.TXEND"))
        return depth

    def is_backed(self, p, byte):
        outside = next((q for q in range(p, 0, -1) if self.depth(q) == 0), 0)
        return outside < self.last_of(p, ("PMT.TXADD",), byte) - 1

    def scope(self, p):
        """The place that opened the scope at p, or 0."""
        closed = self.last(p, lambda name, _: name == "PMT.CHECKEND")
        return self.least(closed, p, lambda name, _: name == "PMT.CHECKSTART")

    def is_scoped(self, p, byte):
        inside = (q for q in range(p, 0, -1) if self.depth(q) > 0)
        stored = (q for q in inside if self.events[q - 1][0] == "STORE" and covers(self.events[q - 1][1][0], byte))
        return 0 < self.scope(p) < next(stored, 0)

    # Findings.

    def persist(self, p, span):
        if self.first(lambda b: self.is_checked(p, b), span) is None:
            return "PERSIST EMPTY"
        byte = self.first(lambda b: self.is_checked(p, b) and self.closing_epoch(p, b) is None, span)
        return "PERSIST PASS" if byte is None else f"PERSIST FAIL byte={byte:#x} crash={p}"

    def is_ordered(self, p, x, y):
        closes, opens = self.closing_epoch(p, x), self.count(self.last_store(p, y), "FENCE")
        if closes is not None and closes <= opens:
            return True
        return self.profile == 2 and line_of(x) == line_of(y) and self.last_store(p, x) < self.last_store(p, y)

    def ordered(self, p, before, after):
        firsts = [x for x in self.bytes_of(before) if self.is_checked(p, x)]
        seconds = [y for y in self.bytes_of(after) if self.is_checked(p, y)]
        if not firsts or not seconds:
            return "ORDERED EMPTY"
        pairs = [(x, y) for x in firsts for y in seconds if not self.is_ordered(p, x, y)]
        shown = [(x, y) for x, y in pairs if line_of(x) != line_of(y) or self.last_store(p, y) < self.last_store(p, x)]
        for x, y in shown[:1]:
            return f"ORDERED FAIL byte={x:#x} after={y:#x} crash={self.last_store(p, y)}"
        for x, y in pairs[:1]:
            return f"ORDERED SAMELINE byte={x:#x} after={y:#x}"
        return "ORDERED PASS"

    def flush(self, p, span):
        for word, test in (("DOUBLED", self.is_pending), ("NEEDLESS", self.is_clean)):
            low, high = lines_of(span)
            parts = [(it, end) for it, end in zip(self.lines, self.lines[1:]) if low <= it < high and test(p - 1, it)]
            if parts:
                yield f"FLUSH {word} line={parts[0][0]:#x} lines={sum(end - it for it, end in parts) // LINE}"

    def store(self, p, span):
        if self.depth(p - 1) and self.scope(p - 1):
            byte = self.first(lambda b: not self.is_excluded(p, b) and not self.is_backed(p - 1, b), span)
            if byte is not None:
                yield f"STORE NOBACKUP byte={byte:#x}"

    def add(self, p, span):
        if not self.depth(p - 1):
            yield "TXADD OUTSIDE"
        elif self.scope(p - 1):
            byte = self.first(lambda b: self.is_backed(p - 1, b), span)
            if byte is not None:
                yield f"TXADD DUPLOG byte={byte:#x}"

    def check_end(self, p):
        if not self.scope(p - 1):
            return "CHECKEND UNOPENED"
        if self.depth(p - 1):
            return f"CHECKEND TXOPEN depth={self.depth(p - 1)}"
        open_bytes = (b for b in self.ends if self.is_scoped(p - 1, b) and not self.is_excluded(p, b) and self.closing_epoch(p, b) is None)
        byte = next(open_bytes, None)
        return "CHECKEND PASS" if byte is None else f"CHECKEND FAIL byte={byte:#x} crash={p}"

    def findings(self, p):
        name, spans = self.events[p - 1]
        if name == "PMT.PERSIST":
            yield self.persist(p, *spans)
        elif name == "PMT.ORDERED":
            yield self.ordered(p, *spans)
        elif name == "FLUSH":
            yield from self.flush(p, *spans)
        elif name == "STORE":
            yield from self.store(p, *spans)
        elif name == "PMT.TXADD":
            yield from self.add(p, *spans)
        elif name == "PMT.TXEND" and not self.depth(p - 1):
            yield "TXEND UNMATCHED"
        elif name == "PMT.CHECKSTART" and self.scope(p - 1):
            yield "CHECKSTART NESTED"
        elif name == "PMT.CHECKEND":
            yield self.check_end(p)

    @functools.cached_property
    def rows(self):
        found = [(p, it) for p in range(1, len(self.events) + 1) for it in self.findings(p)]
        end = len(self.events)
        return found + [(end + 1, f"SECTION UNCLOSED start={it}") for it in [self.scope(end)] if it]

    @functools.cached_property
    def counts(self):
        results = [counted(it.split()[1]) for _, it in self.rows]
        return [results.count(kind) for kind in KINDS]

    # Crash images.

    def shown_in(self, crash, full, p, byte):
        """What the image behind a crash shows of a byte: that of the line `full` has all stores by then, any other its durable ones."""
        line = line_of(byte)
        stores = [q for q in range(1, crash + 1) if self.events[q - 1][0] == "STORE" and covers(lines_of(self.events[q - 1][1][0]), line)]
        if line != full:
            backs = [q for q in range(1, crash + 1) if self.writes_back(q - 1, q, line) and self.closing_fence(q - 1, crash, line)]
            stores = [q for q in stores if q < max(backs, default=0)]
        shows = max((q for q in stores if covers(self.events[q - 1][1][0], byte)), default=0)
        return f"byte={byte:#x} cut={len(stores)} shows={shows} last={self.last_store(p, byte)}\n"

    def image(self, p, finding):
        values = dict(it.split("=") for it in finding.split()[2:])
        if "crash" not in values:
            return "no image\n"
        crash, byte = int(values["crash"]), int(values["byte"], 16)
        after = int(values["after"], 16) if "after" in values else None
        full = None if after is None else line_of(after)
        of_bytes = [self.shown_in(crash, full, p, it) for it in (byte, after) if it is not None]
        return f"image crash={crash} full={'none' if full is None else hex(full)}\n" + "".join(of_bytes)


def checked(log, profile):
    """The sections of a log, in the order of their numbers."""
    return {number: Section(events, profile) for number, events in sorted(sections_of(log).items())}


def report_of(sections, run=0):
    """The report, as `check` writes it."""
    def numbers(counts):
        return " ".join(f"{kind}={count}" for kind, count in zip(KINDS, counts))

    parts = []
    for number, it in sections.items():
        parts.append(f"section {run}.{number} events={len(it.events)} {numbers(it.counts)}\n")
        parts += [f"{p} {finding}\n" for p, finding in it.rows]
    sums = [sum(it) for it in zip(*(section.counts for section in sections.values()))] or [0] * len(KINDS)
    return "".join([*parts, f"total sections={len(sections)} {numbers(sums)}\n"])


def explained(sections, run=0):
    """Each row that counts as fail with its image, as `explain --all` writes them."""
    fails = [(n, it, p, row) for n, it in sections.items() for p, row in it.rows if counted(row.split()[1]) == "fail"]
    return "".join(f"section {run}.{n}\n{p} {row}\n{it.image(p, row)}" for n, it, p, row in fails)

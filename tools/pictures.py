"""Pictures of a section of a log, as SVG: what is around one failure, what a crash leaves of its cache lines, and a time line of all.

`Section` has the stores and write-backs of the cache lines that are drawn, and is read once. `Failure` draws its time line and its crash
image by it, and `Overview` the lines of a section by epochs. The classes of the paths stand in the style of `tools/page`.
"""

import array
import bisect
import collections
import html
import itertools
import os
import runpy
import types

# (the name of that script is none of a module)
rows = types.SimpleNamespace(**runpy.run_path(os.path.join(os.path.dirname(os.path.realpath(__file__)), "rows"), run_name="rows"))

LINE = 64
# (of one picture; events that have to be shown may be more)
EVENTS, LANES = 10, 3
OVERVIEW_LINES, OVERVIEW_EPOCHS = 24, 40
# How many times a cache line that is drawn may be met by an event, in one section: more would take too long.
MEETS = 1_000_000

NUMBERS = {b"STORE": (1, 3), b"FLUSH": (1, 2), b"PMT.PERSIST": (1, 2), b"PMT.EXCLUDE": (1, 2), b"PMT.INCLUDE": (1, 2), b"PMT.TXADD": (1, 2)}
WORDS = {b"FLUSH": "write-back", b"PMT.TXBEGIN": "tx begin", b"PMT.TXADD": "tx add", b"PMT.TXEND": "tx end"}
SCOPES = (b"PMT.TXBEGIN", b"PMT.TXADD", b"PMT.TXEND", b"PMT.CHECKSTART", b"PMT.CHECKEND")
WORDS |= {b"PMT.CHECKSTART": "check start", b"PMT.CHECKEND": "check end"}


def spans(fields):
    """The bytes that an event names, each as its first byte and the one behind the last."""
    if fields[0] == b"PMT.ORDERED":
        pairs = ((1, 2), (3, 4))
    else:
        pairs = (NUMBERS[fields[0]],) if fields[0] in NUMBERS else ()
    for address, size in pairs:
        first = rows.number(fields[address])
        yield first, first + rows.number(fields[size])


def word(fields):
    """What an event is called in a picture."""
    return WORDS.get(fields[0]) or fields[0].removeprefix(b"PMT.").decode("ascii").lower()


def lines_of(fields):
    """The first and the last cache line of an event's first bytes."""
    first, behind = next(spans(fields))
    return first // LINE, (behind - 1) // LINE


def within(span, line):
    """The part of a span that is in a cache line, as offsets, or None."""
    first, behind = max(span[0] - line * LINE, 0), min(span[1] - line * LINE, LINE)
    return (first, behind) if first < behind else None


def next_of(places, place):
    """The first of these places behind one, or None."""
    at = bisect.bisect_right(places, place)
    return places[at] if at < len(places) else None


def lines_between(lines, of, first, last):
    """Those of some lines, which are given in order and by name, that are within two."""
    if first == last:
        return (first,) if first in of else ()
    at = bisect.bisect_left(lines, first)
    return lines[at : bisect.bisect_right(lines, last, at)]


def counts_of(events, asked):
    """How many stores and write-backs meet each of these lines."""
    lines, of, single = sorted(asked), set(asked), collections.Counter()
    changes = [0] * (len(lines) + 1)
    for _, first, last, _ in events.met():
        if first == last:
            if first in of:
                single[first] += 1
        else:
            at = bisect.bisect_left(lines, first)
            changes[at] += 1
            changes[bisect.bisect_right(lines, last, at)] -= 1
    return {line: single[line] + wide for line, wide in zip(lines, itertools.accumulate(changes))}


class Events:
    """The events of a section, its fences, and which cache lines its stores and write-backs meet."""

    def __init__(self, events):
        self.all, self.fences = events, array.array("Q")
        self.places, self.first, self.last, self.is_store = array.array("Q"), array.array("Q"), array.array("Q"), bytearray()
        for place, fields in enumerate(events, 1):
            if fields[0] == b"FENCE":
                self.fences.append(place)
            elif fields[0] in (b"STORE", b"FLUSH"):
                first, last = lines_of(fields)
                self.places.append(place)
                self.first.append(first)
                self.last.append(last)
                self.is_store.append(fields[0] == b"STORE")

    def met(self):
        """Of each store and write-back its place, its first and its last line, and whether it is a store."""
        return zip(self.places, self.first, self.last, self.is_store)


class Section:
    """The fences of a section, and the stores and write-backs of some of its cache lines."""

    def __init__(self, events, asked):
        """Takes lines, each with the places at which its state is asked for, in the order in which they are wanted, as far as MEETS allows."""
        self.events, self.fences, self.asked, self.found = events.all, events.fences, asked, {}
        meets, left = counts_of(events, asked), MEETS
        self.of, self.write_backs = {}, {}
        for line in asked:
            if meets[line] <= left:
                left -= meets[line]
                self.of[line], self.write_backs[line] = array.array("Q"), array.array("Q")
        lines = sorted(self.of)
        for place, first, last, is_store in events.met():
            for line in lines_between(lines, self.of, first, last):
                self.of[line].append(place)
                if not is_store:
                    self.write_backs[line].append(place)

    def epoch(self, place):
        """The epoch of a place, from 1: a fence ends the one that it stands in."""
        return bisect.bisect_left(self.fences, place) + 1

    def fence_behind(self, place):
        return next_of(self.fences, place)

    def write_back_behind(self, line, place):
        return next_of(self.write_backs[line], place)

    def state(self, line, place):
        """The last store of each byte of a line by a place that is asked for, and the last durable one; 0 where there is none."""
        if line not in self.found:
            self.found[line] = self.states(line, self.asked[line])
        return self.found[line][place]

    def states(self, line, queries):
        """The state at each of these places."""
        last, durable, written, due, found, of_line = [0] * LINE, [0] * LINE, None, None, {}, set(self.of[line])
        for place in sorted(of_line | queries):
            if due is not None and due <= place:
                durable, due = written, None
            if place in of_line:
                fields = self.events[place - 1]
                if fields[0] == b"STORE":
                    first, end = within(next(spans(fields)), line)
                    last[first:end] = [place] * (end - first)
                else:
                    written, due = last[:], self.fence_behind(place)
            if place in queries:
                found[place] = last[:], durable
        return found


class Shared:
    """The shapes of pictures, each of which is written once and then referred to."""

    def __init__(self):
        self.numbers = {}

    def shape(self, text):
        if text in self.numbers:
            return f'<use href="#g{self.numbers[text]}"/>'
        self.numbers[text] = len(self.numbers) + 1
        return f'<g id="g{self.numbers[text]}">{text}</g>'


class Ink:
    """Paths by their classes, and texts, of one picture. Words that are alike in many pictures belong to its shape."""

    def __init__(self, *order):
        self.paths, self.uses = {it: [] for it in order}, []
        self.texts, self.words = collections.defaultdict(list), collections.defaultdict(list)

    def path(self, name, *pieces):
        self.paths[name] += pieces

    def box(self, name, x, y, width, height):
        self.path(name, f"M{number_of(x)} {number_of(y)}h{number_of(width)}v{number_of(height)}H{number_of(x)}z")

    def text(self, x, y, text, kind=""):
        self.texts[number_of(y), kind].append((number_of(x), html.escape(text)))

    def word(self, x, y, text, kind=""):
        self.words[number_of(y), kind].append((number_of(x), text))

    def written(self, texts):
        """Texts, those of one height and class as one element."""
        for (y, kind), each in texts.items():
            kind = f' class="{kind}"' if kind else ""
            if len(each) == 1:
                yield f'<text x="{each[0][0]}" y="{y}"{kind}>{each[0][1]}</text>'
            else:
                yield f'<text y="{y}"{kind}>' + "".join(f'<tspan x="{x}">{text}</tspan>' for x, text in each) + "</text>"

    def svg(self, width, height, title, told, shared=None):
        paths = (f'<path class="{name}" d="{"".join(pieces)}"/>' for name, pieces in self.paths.items() if pieces)
        shape = "".join([*paths, *self.uses, *self.written(self.words)])
        shape = shared.shape(shape) if shared else shape
        width, height = number_of(width), number_of(height)
        head = f'<svg width="{width}" height="{height}" viewBox="0 0 {width} {height}" role="img"><title>{html.escape(title)}</title>'
        return f"{head}<desc>{html.escape(told)}</desc>{shape}{''.join(self.written(self.texts))}</svg>"


def number_of(value):
    """A length, as short as it can be told."""
    return f"{value:.1f}".removesuffix(".0")


# The sizes of a failure's picture: a byte, a lane, what is above the first lane and between lanes, and columns.
BYTE, TOP, BETWEEN, LEFT, COLUMN, GAP, IMAGE = 1.75, 56, 28, 24, 58, 48, 190
LANE = BYTE * LINE


class Failure:
    """The picture of one failure: its events on a time line for each cache line that it speaks of, and the crash image."""

    def __init__(self, row, image, section, told, shared, most=EVENTS):
        """Draws by what is told of the row: the places of the lost store, of the kept one and of others, and the cures."""
        lost, kept, others, cures = told
        self.shared, self.most = shared, most
        self.row, self.image, self.section = row, image, section
        self.lost, self.kept, self.cures = lost, kept, cures
        self.end = len(section.events)
        wanted = lines_of_failure(row, section.events, lost)
        self.lines = [it for it in wanted if it in section.of]
        self.is_whole = self.lines == wanted
        needed = [row.place, lost, kept, *others, *(place for place, _, _ in cures)]
        if image:
            needed += [image.crash, *(it["shows"] for it in image.bytes)]
        self.shown = self.choose(sorted({it for it in needed if it and 1 <= it <= self.end + 1}))
        self.columns()

    def choose(self, needed):
        """The places that are shown: those that are needed, and the nearest others up to the last of these."""
        near, last = set(), needed[-1]
        for places in [self.section.of[it] for it in self.lines]:
            at = bisect.bisect_right(places, last)
            near |= set(places[max(at - self.most, 0) : at])
        # (a fence before all of these says nothing of them)
        fences, first = self.section.fences, min(near | set(needed))
        at = bisect.bisect_right(fences, last)
        near |= {it for it in fences[max(at - self.most, 0) : at] if it > first}
        if not self.image:
            around, events = range(max(last - self.most, 1), min(last + 2, self.end) + 1), self.section.events
            near |= {it for it in around if not self.lines or events[it - 1][0] in SCOPES}
        order = sorted(near - set(needed), key=lambda it: (abs(it - self.row.place), it))
        return sorted(needed + order[: max(self.most - len(needed), 0)])

    def columns(self):
        """What stands in each column: a place, a cure, or how many events are left out."""
        self.each, x, before = [], LEFT, 0
        for place in self.shown:
            if place - before > 1:
                self.each.append(("gap", place - before - 1, x))
                x += GAP
            for cure in (it for it in self.cures if it[0] == place and it[1] == "put"):
                self.each.append(("cure", cure[2], x))
                x += COLUMN
            self.each.append(("event", place, x))
            x += COLUMN
            before = place
        if self.end > before:
            self.each.append(("gap", self.end - before, x))
            x += GAP
        for cure in (it for it in self.cures if it[0] is None):
            self.each.append(("cure", cure[2], x))
            x += COLUMN
        # (the word of a crash at the end has to be within the picture)
        self.width = x + (18 if self.image and self.each[-1][:2] == ("event", self.image.crash) else 6)
        self.at = {value: x + COLUMN / 2 for kind, value, x in self.each if kind == "event"}
        self.bottom = TOP + max(len(self.lines) * (LANE + BETWEEN) - BETWEEN, 0) + 4

    def x(self, place):
        """Where a place is on the time line, though it may be left out."""
        if place is None:
            return self.width - 6
        if place in self.at:
            return self.at[place]
        following = next((it for it in self.shown if it > place), None)
        return self.at[following] - COLUMN if following else self.width - 6 - GAP / 2

    def y(self, lane, offset=0):
        return TOP + lane * (LANE + BETWEEN) + BYTE * offset

    def lanes(self, ink, width):
        """The frame of each line, with its address and the offsets of its bytes."""
        for it, line in enumerate(self.lines):
            ink.box("i", LEFT, self.y(it), width, LANE)
            ink.text(LEFT, self.y(it) - 5, f"line {line * LINE:#x}", "t")
            ink.uses.append(f'<use href="#o" y="{number_of(self.y(it))}"/>')

    def time_line(self):
        """The events as SVG."""
        ink, told = Ink("a", "i", "d", "p", "s", "l", "k", "q", "z", "w", "n", "g", "c", "x"), []
        self.lanes(ink, self.width - LEFT - 6)
        for kind, value, x in self.each:
            if kind == "gap":
                ink.text(x + GAP / 2, 14, f"+{value}", "h")
            elif kind == "cure":
                told.append(f"cure {word(value)}")
                self.draw_cure(ink, value, x + COLUMN / 2)
            else:
                told.append(self.draw_event(ink, value, x))
            if self.image and kind == "event" and value == self.image.crash:
                told.append("crash")
                self.draw_crash(ink, x + COLUMN)
        height = self.bottom + (18 if self.image else 4)
        return ink.svg(self.width, height, "Time line", ", ".join(told), self.shared)

    def draw_event(self, ink, place, x):
        """Draws an event, and tells it."""
        middle = x + COLUMN / 2
        if place > self.end:
            ink.word(middle, 28, "end")
            ink.box("a", x + 2, 2, COLUMN - 4, self.bottom - 2)
            return "the section's end"
        fields = self.section.events[place - 1]
        is_left_out = any(it[0] == place and it[1] == "out" for it in self.cures)
        ink.text(middle, 14, str(place))
        ink.word(middle, 28, word(fields), "u" if is_left_out else "")
        if place == self.row.place:
            ink.box("a", x + 2, 2, COLUMN - 4, self.bottom - 2)
        if is_left_out:
            ink.path("g", f"M{number_of(x + 6)} 36L{number_of(x + COLUMN - 6)} {number_of(self.bottom)}")
        name, told = fields[0], f"{place} {word(fields)}"
        if name == b"FENCE":
            ink.path("n", f"M{number_of(middle)} 34V{number_of(self.bottom)}")
        elif name == b"FLUSH":
            self.draw_write_back(ink, "w", fields, middle)
        elif name == b"STORE":
            self.draw_store(ink, place, fields, middle)
            told += " (lost)" if place == self.lost else " (kept)" if place == self.kept else ""
        else:
            self.draw_spans(ink, "q", fields, middle)
        return told

    def draw_spans(self, ink, name, fields, middle):
        for span in spans(fields):
            for it, line in enumerate(self.lines):
                part = within(span, line)
                if part:
                    ink.box(name, middle - 15, self.y(it, part[0]), 30, BYTE * (part[1] - part[0]))
        if fields is self.section.events[min(self.row.place, self.end) - 1]:
            for it in ("byte", "after"):
                self.draw_byte(ink, it, middle)

    def draw_byte(self, ink, name, middle):
        """Marks a byte that the row names."""
        byte = int(self.row.values.get(name, "0x0"), 16)
        if name in self.row.values and byte // LINE in self.lines:
            y = self.y(self.lines.index(byte // LINE), byte % LINE)
            ink.path("x", f"M{number_of(middle - 21)} {number_of(y - 3)}l6 3.8l-6 3.7z")

    def draw_write_back(self, ink, name, fields, middle):
        for span in spans(fields):
            first, last = span[0] // LINE, (span[1] - 1) // LINE
            for it, line in enumerate(self.lines):
                if first <= line <= last:
                    ink.path(name, f"M{number_of(middle)} {number_of(self.y(it) + 3)}v{number_of(LANE - 8)}m-6-8l6 8l6-8")

    def draw_store(self, ink, place, fields, middle):
        """Draws a store over its bytes, and how long it is not durable."""
        name = "l" if place == self.lost else "k" if place == self.kept else "s"
        for it, line in enumerate(self.lines):
            part = within(next(spans(fields)), line)
            if not part:
                continue
            y, height = self.y(it, part[0]), max(BYTE * (part[1] - part[0]), 2)
            written = self.section.write_back_behind(line, place)
            until = self.x(written)
            ink.box(name, middle - 15, y, 30, height)
            ink.box("d", middle + 15, y, max(until - middle - 15, 0), height)
            if written:
                ink.box("p", until, y, max(self.x(self.section.fence_behind(written)) - until, 0), height)
        if fields is self.section.events[min(self.row.place, self.end) - 1]:
            self.draw_byte(ink, "byte", middle)

    def draw_cure(self, ink, fields, middle):
        ink.word(middle, 14, "put in", "v")
        ink.word(middle, 28, word(fields), "v")
        if fields[0] == b"FENCE":
            ink.path("g", f"M{number_of(middle)} 34V{number_of(self.bottom)}")
        elif fields[0] == b"FLUSH":
            self.draw_write_back(ink, "g", fields, middle)
        else:
            self.draw_spans(ink, "g", fields, middle)

    def draw_crash(self, ink, x):
        ink.path("c", f"M{number_of(x)} 34V{number_of(self.bottom + 4)}")
        ink.box("z", x, 36, self.width - 6 - x, self.bottom - 36)
        ink.word(x, self.bottom + 15, "crash", "r")

    def runs(self):
        """Of each line its runs of bytes: offsets, what the image shows, and what was stored last."""
        for line in self.lines:
            last = self.section.state(line, self.row.place)[0]
            shows = self.section.state(line, self.image.crash)[0 if self.image.full == line * LINE else 1]
            first, runs = 0, []
            for it in range(1, LINE + 1):
                if it == LINE or (shows[it], last[it]) != (shows[first], last[first]):
                    runs.append((first, it, shows[first], last[first]))
                    first = it
            yield runs

    def crash_image(self):
        """The lines behind the crash, as SVG."""
        ink, told, x, width = Ink("i", "K", "O", "L", "x"), [], LEFT, IMAGE - LEFT - 6
        each = list(self.runs())
        kept = {shows for runs in each for _, _, shows, last in runs if shows == last}
        self.lanes(ink, width)
        ink.word(x + width / 2, 14, "crash image")
        ink.text(x + width / 2, 28, f"behind event {self.image.crash}")
        for it, (line, runs) in enumerate(zip(self.lines, each)):
            told.append(f"line {line * LINE:#x}")
            for first, behind, shows, last in runs:
                if not last:
                    continue
                kind, text = told_of(shows, last, kept, self.image.crash)
                told.append(f"{first} to {behind - 1}: {text}")
                ink.box(kind, x, self.y(it, first), width, BYTE * (behind - first))
                if behind - first > 6:
                    ink.text(x + width / 2, self.y(it, (first + behind) / 2) + 3.5, text)
        for name in ("byte", "after"):
            self.draw_byte(ink, name, x + 23)
        return ink.svg(IMAGE, self.bottom + 18, "Crash image", "; ".join(told), self.shared)


def told_of(shows, last, kept, crash):
    """The class and the words of bytes whose last store is one, and that show another one behind a crash."""
    if shows == last:
        return "K", f"event {last}"
    if last > crash:
        return ("O", f"event {shows}, {last} comes later") if shows else ("L", f"event {last} comes later")
    torn = ", torn" if last in kept else ""
    return ("O", f"event {shows}, not {last}{torn}") if shows else ("L", f"event {last} is lost{torn}")


def lines_of_failure(row, events, lost):
    """The cache lines that a row speaks of: those of its bytes, then the others of the store that is lost, or of the row's event."""
    found = [int(row.values[it], 16) // LINE for it in ("byte", "after") if it in row.values]
    place = lost or min(row.place, len(events))
    fields = events[place - 1] if place else [b""]
    if fields[0] in NUMBERS:
        first, last = lines_of(fields)
        around = found[0] if found else first
        found += range(max(first, around - 1), min(last, around + 1) + 1)
    return list(dict.fromkeys(found))[:LANES]


class Touched:
    """The cache lines of a section in the order of their first stores and write-backs, and those that are not written back at its end."""

    def __init__(self, events):
        self.lines, self.unwritten, self.is_whole, work = {}, {}, True, 0
        for _, first, last, is_store in events.met():
            if first == last:
                self.take(first, is_store)
                continue
            is_wide = not is_store and last - first > max(len(self.unwritten), 16)
            work += len(self.unwritten) if is_wide else last - first
            if work > MEETS:
                self.is_whole = False
                break
            if is_wide:
                self.unwritten = {it: None for it in self.unwritten if not first <= it <= last}
            else:
                for it in range(first, last + 1):
                    self.take(it, is_store)

    def take(self, line, is_store):
        self.lines.setdefault(line)
        if is_store:
            self.unwritten[line] = None
        else:
            self.unwritten.pop(line, None)


class Life:
    """What becomes of one line by epochs: where it is stored to, written back, and not durable."""

    def __init__(self, section, line):
        self.stores, self.write_backs, self.needless, self.open = set(), set(), [], []
        since, is_dirty, due = None, False, None
        for place in section.of[line]:
            epoch = section.epoch(place)
            if due is not None and epoch > due:
                self.open.append((since, due))
                since, due = None, None
            if section.events[place - 1][0] == b"STORE":
                self.stores.add(epoch)
                since, is_dirty, due = since or epoch, True, None
            elif is_dirty:
                self.write_backs.add(epoch)
                is_dirty, due = False, epoch
            else:
                self.needless.append(epoch)
        end = section.epoch(len(section.events) + 1)
        is_durable = due is not None and due < end
        if since:
            self.open.append((since, due if is_durable else None))
        self.end = "" if is_durable or not since else "never written back" if is_dirty else "not fenced"
        self.note = ", ".join(filter(None, [self.end, f"{len(self.needless)} for nothing" if self.needless else ""]))


def chosen_lines(each, touched):
    """The lines of a section that its overview has: those of rows, those that are never written back, then the first ones."""
    found = {"fail": [], "warn": []}
    for row in each:
        if row.kind in found and len(found[row.kind]) < OVERVIEW_LINES:
            found[row.kind] += [int(row.values[it], 16) // LINE for it in ("byte", "after", "line") if it in row.values]
    third = OVERVIEW_LINES // 3
    groups = [list(dict.fromkeys(it)) for it in (found["fail"], touched.unwritten, found["warn"])]
    groups = [*(it[:third] for it in groups), *groups, touched.lines]
    return list(dict.fromkeys(line for it in groups for line in itertools.islice(it, OVERVIEW_LINES)))


# The sizes of an overview: what is above the first line, a character beside it, an epoch, a line.
ABOVE, CHARACTER, EPOCH, ROW = 34, 6.7, 20, 20


class Overview:
    """A time line of a section by its cache lines and epochs."""

    def __init__(self, events, each):
        """Takes the events of a section, and its rows."""
        self.touched = Touched(events)
        self.section = Section(events, dict.fromkeys(chosen_lines(each, self.touched)[: 2 * OVERVIEW_LINES]))
        self.lines = sorted(list(self.section.of)[:OVERVIEW_LINES])
        self.lives = {it: Life(self.section, it) for it in self.lines}
        self.left = 16 + int(CHARACTER * max((len(f"{it * LINE:#x}") for it in self.lines), default=6))
        self.fails = [self.section.epoch(it.place) for it in each if it.kind == "fail"]
        # (an epoch without an event is none)
        self.count = max(self.section.epoch(len(events.all)), 1)
        first = self.fails[0] if self.fails else 1
        self.first = min(max(first - OVERVIEW_EPOCHS * 3 // 4, 1), max(self.count - OVERVIEW_EPOCHS + 1, 1))
        self.last = min(self.first + OVERVIEW_EPOCHS - 1, self.count)

    def left_out(self):
        """What the picture leaves out, in words."""
        told = []
        if self.last - self.first + 1 < self.count:
            told.append(f"epochs {self.first:,} to {self.last:,} of {self.count:,}")
        more = len(self.touched.lines) - len(self.lines)
        if more > 0:
            told.append(f"{len(self.lines)} of {len(self.touched.lines):,} lines")
        never = sum(it not in self.lives for it in self.touched.unwritten)
        if never:
            told.append(f"{never:,} more {'is' if never == 1 else 'are'} never written back")
        if not self.touched.is_whole:
            told.append("the first lines alone, since the section names too many")
        return told

    def x(self, epoch):
        return self.left + EPOCH * (min(max(epoch, self.first), self.last + 1) - self.first)

    def is_shown(self, epoch):
        return self.first <= epoch <= self.last

    def svg(self, name):
        ink, told = Ink("e", "d", "l", "s", "W", "Y", "x"), []
        right, bottom = self.x(self.last + 1), ABOVE + ROW * len(self.lines)
        ink.path("e", *(f"M{self.x(it)} {ABOVE - 4}V{bottom}" for it in range(self.first, self.last + 2)))
        for epoch in range(self.first, self.last + 1):
            if epoch == self.first or epoch % 5 == 0 or self.count < 15:
                ink.text(self.x(epoch) + EPOCH / 2, ABOVE - 22, str(epoch), "h")
        for epoch in sorted(set(filter(self.is_shown, self.fails))):
            ink.path("x", f"M{self.x(epoch) + EPOCH / 2 - 4} {ABOVE - 16}l8 8m0-8l-8 8")
        ink.text(self.left - 8, ABOVE - 22, "epoch", "o")
        for it, (line, life) in enumerate(self.lives.items()):
            told.append(self.draw(ink, line, life, ABOVE + ROW * it))
        notes = CHARACTER * max((len(it.note) for it in self.lives.values()), default=0)
        return ink.svg(right + 10 + notes, bottom + 6, f"Lines and epochs of section {name}", "; ".join(told))

    def draw(self, ink, line, life, y):
        """Draws what becomes of a line, and tells it."""
        address = f"{line * LINE:#x}"
        ink.text(self.left - 8, y + 14, address, "m")
        for since, due in life.open:
            begin, end = self.x(since), self.x((due or self.last) + 1)
            if begin < end:
                ink.box("d" if due else "l", begin + 2, y + 5, end - begin - 4, ROW - 10)
        for name, epochs, x, sign in (
            ("s", life.stores, 3, "h8v8h-8z"),
            ("W", life.write_backs, 11, "h8l-4 8z"),
            ("Y", set(life.needless) - life.write_backs, 11, "h8l-4 8z"),
        ):
            ink.path(name, *(f"M{self.x(it) + x} {y + 6}{sign}" for it in sorted(filter(self.is_shown, epochs))))
        if life.note:
            ink.text(self.x(self.last + 1) + 6, y + 14, life.note, "R" if life.end else "N")
        return f"line {address}: {life.note or 'durable at the end'}"

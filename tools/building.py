"""Makes the commands and the stored answers of the program `try_building`: crates/try_building/stdin and crates/try_building/stdout.

    python3 tools/building.py [SEED FOLDER [SECTION ..]]

The answers are those of tools/builder.py; crates/try_building/src/main.rt says what a command is. With no arguments the files are always
the same; with another seed the random commands are others, and the two files go to the folder, for all sections below or for those
that are named (`rt try` takes 10,000,000 steps of its interpreter and a megabyte of answers at most: samples, counts, order, no_rows).
Where document 01 says which number a call answers, the call expects it here, and a model that answers another stops the run. A list
that only calls made is held, when it is finished, to the block of its rows by tools/model.py, and the document's samples to its own
bytes. A row that one call appends a few times is held to that many calls.

Not tried, for want of room (a process has a stack of eight megabytes): a single row refused as 3 because its block without runs would
pass 16,777,216 bytes, 1,048,576 blob or char items, and 1,048,576 key runs. The limits themselves are tried there by estimate and
should_finish, which use the record alone, by rows so many times, for which 3 comes before 4, and on blocks of runs by the counts' byte
length, which has no area.
"""
import array
import collections
import itertools
import pathlib
import random
import sys

import builder
import model
from answers import BAD, GOOD, I16, I32, MINUS_ZERO, MOST, ONE, RATES, ZERO, limits, number
from builder import AREAS, FIELDS, MOST_BYTES, MOST_ENTRIES, MOST_ITEMS, MOST_ROWS, Nine
from model import BLOB, BY_ENDS, CHAR, F64, FIXED, KINDS, MOST_RUN, NULL_KEY, STRING, Refused

SEED = 1
INPUT = 500000  # bytes of the program's room for the commands
CELLS = {"items": 1048640, "ends": 65600, "flags": 131080, "counts": 1048580, "keys": 65600, "lens": 65600, "room": 1180000}
TYPES = {"ends": "I", "counts": "I", "keys": "i"}
PLACES = (*AREAS, "room")
NO_BUILDER = dict.fromkeys(FIELDS, 0) | {"kind": 255}
NEAR = 100  # the cells that are kept and put back
FEW = 40  # up to so many rows by one call are held to that many calls, where the areas are short
I64, DATE, INTERVAL = 3, 4, 7


def numbers(cells):
    return "".join(" %x" % (x % 2**32) for x in cells)


class Script:
    """Commands, and what the program has to write for each. It keeps what the program keeps: the areas and the room, how much of
    each area is lent, what is shown, and the record."""

    def __init__(self, seed):
        self.random = random.Random(seed)
        self.commands = bytearray()
        self.answers = []
        self.a = {x: array.array(TYPES[x], bytes(4 * n)) if x in TYPES else bytearray(n) for x, n in CELLS.items()}
        self.lent = dict.fromkeys(AREAS, 0)
        self.shows = 1
        self.r = NO_BUILDER
        self.calls = collections.Counter()
        self.refusals = collections.Counter()
        self.rows = None  # those of a list that only calls made

    def command(self, op, *ns):
        self.commands += bytes([op]) + b"".join(map(number, ns))

    def answer(self, word, *ns):
        self.answers.append(" ".join([word, *("%x" % n for n in ns)]))

    def record(self):
        return [self.r[f] for f in FIELDS]

    def count(self, call, refusal, expect):
        assert expect in (None, refusal), (call, expect, refusal, self.r, self.lent)
        self.calls[call] += 1
        self.refusals[call, refusal, min(self.r["encoding"], 5)] += 1

    # ---- the calls

    def create(self, kind, encoding, width=0, target=0, key=None, expect=0):
        """With the target for the keys too, or another that is named."""
        if key is None:
            self.command(0, kind, encoding, width, target)
        else:
            self.command(12, kind, encoding, width, target, key)
        made = builder.create(kind, encoding, width, target, key)
        self.r = made or NO_BUILDER
        self.rows = [] if made else None
        if made:
            self.answer("create", 0, *self.record())
        else:
            self.answer("create", 1)
        self.calls["create"] += 1
        self.refusals["create", 0 if made else 1, min(encoding, 5)] += 1
        assert expect in (None, 0 if made else 1)

    def play(self, present, value, data, find=builder.entry_of):
        """One row, on the model alone."""
        before = self.r
        refusal, self.r = builder.append(self.r, self.a, self.lent, present, value, data, find)
        if refusal == 0 and self.rows is not None:
            self.rows.append(builder.row_of(before, present, value, data))
        return refusal

    def append_answer(self, refusal, rows, expect, call="append"):
        self.answer("append", refusal, rows, *self.record())
        if self.shows > (refusal == 0):
            self.cells_answer()
        self.count(call, refusal, expect)
        return refusal

    def append(self, row=None, value=0, data=b"", expect=0):
        """A row as it is; of a null also an integer or bytes that come with it, and of a row what its kind doesn't read."""
        present, value, data = told(row, value, data)
        self.command(1, int(present), value % 2**64, len(data))
        self.commands += data
        return self.append_answer(*self.one(present, value, data), expect)

    def one(self, present, value, data):
        refusal = self.play(present, value, data)
        return refusal, int(refusal == 0)

    def times(self, times, row=None, value=0, data=b"", expect=0):
        """A row so many times, by one call."""
        present, value, data = told(row, value, data)
        self.command(13, times, int(present), value % 2**64, len(data))
        self.commands += data
        refusal = self.play_times(times, present, value, data)
        return self.append_answer(refusal, 0 if refusal else times, expect, "times")

    def play_times(self, times, present, value, data):
        before, singly = self.r, None
        few = 0 < times <= FEW and max(self.lent.values()) <= 2 * NEAR
        if few:
            singly = self.singly(times, present, value, data)
        refusal, self.r = builder.append_times(self.r, self.a, self.lent, times, present, value, data)
        if few:
            assert singly == (None if refusal else (self.r, self.near()))
        if refusal == 0 and self.rows is not None:
            self.rows = self.rows + [builder.row_of(before, present, value, data)] * times if times <= 5000 else None
        return refusal

    def near(self):
        return {x: self.a[x][:2 * NEAR] for x in AREAS}

    def singly(self, times, present, value, data):
        """The record and the cells after so many calls, or None if one of them is refused."""
        r, a = self.r, self.near()
        for _ in range(times):
            refusal, r = builder.append(r, a, self.lent, present, value, data)
            if refusal:
                return None
        return r, a

    def many(self, times, presence=1, start=0, step=0, period=0, source=0, size=0, data=b"", expect=0, find=None):
        """Rows until one is refused."""
        size = len(data) or size
        self.command(2, times, presence, start % 2**64, step % 2**64, period, source, size)
        self.commands += data
        if source == 1:
            data = bytes(self.a["room"][:size])
        find = find or (self.finder() if times > 1000 and self.r["encoding"] == 4 else builder.entry_of)
        value, since, refusal = start, 0, 0
        for done in range(times):
            signed = (value + 2**63) % 2**64 - 2**63
            text = (value % 2**64).to_bytes(8, "little")[:size] if source == 2 else data
            refusal = self.play(since != 0 if presence == 2 else presence != 0, signed, text, find)
            if refusal:
                break
            since += 1
            value, since = (start, 0) if since == period else (value + step, since)
        return self.append_answer(refusal, done if refusal else times, expect)

    def finder(self):
        """The lookup of builder.entry_of, for entries that only calls made, by a table."""
        assert self.rows is not None
        table = {}
        for row in self.rows:
            if row is not None:
                table.setdefault(row, len(table))

        def find(r, a, row):
            if row not in table:
                if builder.fits(r, row) and len(table) < MOST_ENTRIES:
                    table[row] = len(table)
                return r["entries"]
            return table[row]
        return find

    def finish(self, room=None, expect=0):
        """Without a number, into a room that just holds the block."""
        if room is None:
            room = self.block_size()
        self.command(3, room)
        refusal, block = builder.finish(self.r, self.a, self.lent, min(room, CELLS["room"]))
        assert not refusal or block == b""
        if refusal == 0:
            self.a["room"][:len(block)] = block
            if self.rows is not None and len(self.rows) <= 5000:
                assert block == model.build(self.r["kind"], self.r["encoding"], self.r["width"], self.rows)
        self.answer("finish", refusal, len(block))
        if self.shows:
            self.answers.append(" room " + self.a["room"][:room + 2].hex())
        self.count("finish", refusal, expect)
        return block

    def block_size(self):
        if builder.record_wrong(self.r) or builder.too_short(self.r, self.lent):
            return 8
        return len(builder.block(self.r, self.a))

    def estimate(self, expect=0, size=None):
        self.command(4)
        refusal, n = builder.estimate(self.r)
        assert size in (None, n)
        self.answer("estimate", refusal, n)
        self.count("estimate", refusal, expect)

    def should(self, present, size, expect=0, full=None):
        self.command(5, int(present), size)
        refusal, yes = builder.should_finish(self.r, present, size)
        assert full in (None, yes), (full, yes, self.r)
        self.answer("should", refusal, yes)
        self.count("should", refusal, expect)
        return yes

    def should_before(self, row, expect=0, full=None):
        return self.should(row is not None, len(row) if isinstance(row, bytes) else 0, expect, full)

    # ---- the state

    def set(self, **fields):
        for field, value in fields.items():
            self.command(6, FIELDS.index(field), value)
            self.r = self.r | {field: value}
            self.answer("set")
            self.calls["set"] += 1
        self.rows = None

    def cells(self, area, place, *values, count=None, step=0):
        """Cells from a place on: these; or one and as many as are told, by a step."""
        if count is None:
            for i, v in enumerate(values):
                self.cells(area, place + i, v, count=1)
            return
        start = values[0]
        self.command(7, PLACES.index(area), place, count, start % 2**64, step % 2**64)
        for i in range(count):
            v = start + i * step
            if area == "keys":
                self.a[area][place + i] = (v + 2**31) % 2**32 - 2**31
            else:
                self.a[area][place + i] = v % (2**32 if area in TYPES else 256)
        self.answer("cells")
        self.calls["cells"] += 1
        if area != "room":
            self.rows = None

    def lend(self, **lengths):
        for area, n in lengths.items():
            if n != self.lent[area]:
                self.command(8, AREAS.index(area), n)
                self.lent[area] = n
                self.answer("lend")
                self.calls["lend"] += 1

    def lend_need(self, **more):
        """Lends what the record needs, and so much more of some."""
        need = builder.needs(self.r)
        self.lend(**{x: max(0, need[x] + more.get(x, 0)) for x in AREAS})

    def lend_next(self, row, **more):
        """Lends what the record will need with a row more."""
        need = self.next_needs(row)
        self.lend(**{x: max(0, need[x] + more.get(x, 0)) for x in AREAS})

    def lend_times(self, times, row, **more):
        """Lends what the record will need with a row so many times more."""
        need = self.times_needs(times, row)
        self.lend(**{x: max(0, need[x] + more.get(x, 0)) for x in AREAS})

    def times_needs(self, times, row):
        new, joins, _ = builder.found(self.r, self.a, row, builder.entry_of)
        size = len(model.item(self.r["kind"], self.r["width"], row))
        return builder.needs(builder.grown_times(self.r, row, size, times, new, joins))

    def next_needs(self, row):
        roomy = dict.fromkeys(AREAS, MOST)
        present, value, data = told(row)
        refusal, after = builder.append(self.r, {x: self.a[x][:2 * NEAR + len(data)] for x in AREAS}, roomy, present, value, data)
        assert refusal == 0
        return builder.needs(after)

    def view(self, what):
        self.command(9, what)
        self.shows = what
        self.answer("view")
        self.calls["view"] += 1

    def cells_answer(self):
        for x in AREAS:
            seen = self.a[x][:self.lent[x] + 2]
            self.answers.append(" %s%s" % (x, numbers(seen) if x in TYPES else " " + seen.hex()))

    def show(self):
        self.command(10)
        self.answer("show")
        self.cells_answer()
        self.calls["show"] += 1

    def sums(self):
        self.command(11)
        found = []
        for x in PLACES:
            cells = (v % 2**32 for v in self.a[x]) if x == "keys" else self.a[x]
            to_each = list(itertools.accumulate(cells))
            found += [to_each[-1] % 2**64, sum(to_each) % 2**64]
        self.answer("sums", *found)
        self.calls["sums"] += 1

    def keep(self):
        return self.r, {x: self.a[x][:NEAR] for x in AREAS}, dict(self.lent), None if self.rows is None else list(self.rows)

    def back(self, kept):
        """The record, what is lent and the first cells as they were."""
        r, a, lent, rows = kept
        self.set(**{f: r[f] for f in FIELDS if r[f] != self.r[f]})
        for x in AREAS:
            for i, v in enumerate(a[x]):
                if self.a[x][i] != v:
                    self.cells(x, i, v)
        self.lend(**lent)
        self.rows = rows

    # ---- sequences

    def dirty(self):
        """Areas that hold something."""
        for x, n in (("items", 90), ("ends", 20), ("flags", 12), ("counts", 20), ("keys", 20), ("lens", 20)):
            self.cells(x, 0, self.random.choice((0, 255, 0xaa, 2**32 - 1, 0x01010101)), count=n, step=self.random.choice((0, 1, 7)))

    def roomy(self, **more):
        self.lend(**({"items": 40, "ends": 8, "flags": 2, "counts": 8, "keys": 8, "lens": 8} | more))

    def build(self, kind, encoding, width, rows, target=0, key=None):
        """A list of rows in areas that just hold it."""
        self.create(kind, encoding, width, target, key)
        for row in rows:
            self.lend_next(row)
            self.append(row)

    def all_calls(self, row=None):
        """Each call on a state that can be anything, which then is as it was."""
        kept = self.keep()
        self.estimate(None)
        self.should_before(row, None)
        self.finish(min(self.block_size(), 120), None)
        self.append(row, expect=None)
        self.back(kept)


# ---- rows

def told(row, value=0, data=b""):
    """A row as the calls take it: whether it is present, its integer, its bytes."""
    if row is None:
        return False, value, data
    return (True, row, data) if isinstance(row, int) else (True, value, row)


def some_rows(kind, encoding, width):
    """Eight rows: some of the kind's limits, others in each encoding, with nulls, equal neighbours and one that comes again."""
    if kind in FIXED:
        values = limits(kind)
        v = [values[(5 * encoding + i) % len(values)] for i in range(4)]
    else:
        two = b"\xff\xfe" if kind == BLOB else b"\xc3\xbe"
        v = [x[:width] if kind == CHAR else x for x in ((b"ab\0", b"a", b"\0", b"a\0"), (b"", b"xyzw", b"x", two),
                                                        (b"a", b"a\0", b"", b"ab"), (b"q", b"", b"\0", b"\0\0"),
                                                        (b"a", b"", b"a\0", b"abc"))[encoding]]
    return [v[0], v[0], None, v[1], v[1], v[2], v[0], v[3]]


def any_row(s, kind, width, wild=False):
    pick, chance = s.random.choice, s.random.random
    if chance() < .2:
        return None
    if kind in FIXED:
        if wild and chance() < .15:
            return pick((2, -1, 2**15, -2**15 - 1, 2**31, -2**31 - 1, 2**40, 2**63 - 1, -2**63))
        return pick(limits(kind)[:5])
    row = pick((b"", b"\0", b"a", b"a\0", b"ab", b"b", b"abc", b"\xc3\xa9"))
    if wild and chance() < .1:
        row = pick((b"\xff", b"a\xc3", b"\xa9", b"a\0\xff"))
    return row if kind != CHAR or wild and chance() < .2 else row[:width]


def pairs():
    for kind in KINDS:
        for encoding in range(5):
            yield kind, encoding, 3 if kind == CHAR else 0


def bases():
    """A pair for each shape and encoding."""
    for kind, width in ((0, 0), (I16, 0), (CHAR, 2), (BLOB, 0)):
        for encoding in range(5):
            yield STRING if kind == BLOB and encoding % 2 else kind, encoding, width


# ---- the cases

def samples(s):
    """The document's samples: A to E and H; floats with both zeros."""
    def held(kind, encoding, width, rows, block, size=None):
        s.build(kind, encoding, width, rows)
        s.estimate(size=size)
        assert s.finish() == bytes.fromhex(block)

    s.dirty()
    held(I32, 2, 0, [7, 7, 7, -1], "02000000 02000000 03 01 07000000 FFFFFFFF", 16)
    held(BLOB, 4, 0, [b"ab", None, b"ab", b"c"],
         "000000000000001C 00000002 04000000 04000000 01010101 01000080 00000080 01000080 02000080 02000000 03000000 616263")
    held(I16, 1, 0, [5, None, -2], "0500 0000 FEFF 05 01000000")
    held(CHAR, 0, 3, [b"a", b"abc", b"x\0y"], "610000 616263 780079")
    held(DATE, 0, 0, [1], "00000001")
    held(INTERVAL, 0, 0, [14 * 2**32 + 2**32 - 3], "0000000E FFFFFFFD")
    held(F64, 2, 0, [ONE, ONE, MINUS_ZERO], "02000000 02000000 02 01 000000000000F03F 0000000000000080", 24)
    held(F64, 2, 0, [ZERO, MINUS_ZERO, ZERO], "03000000 03000000 010101" + "00" * 15 + "80" + "00" * 8, 34)
    for encoding, block, size in ((0, "", 0), (1, "00000000", 0), (2, "", 4), (3, "", 4), (4, "00" * 12, 12)):
        for kind in KINDS:
            held(kind, encoding, 3 if kind == CHAR else 0, [], block, size)
            s.should(True, MOST, full=0)


def counts(s):
    """Samples F and G: 127 and 128 rows by calls, the large counts in the slot."""
    for encoding, head in ((2, 8), (3, 8), (4, 20)):
        s.lend(items=4, ends=0, flags=1, counts=2, keys=2, lens=0)
        s.create(I16, encoding)
        s.many(127, 1, 5)
        assert s.finish()[head:head + 1] == b"\x7f"
        s.append(5)
        assert s.finish()[head:head + 2] == b"\x80\x01"
        for count, text in ((0xEFFFFFFF, "FFFFFFFF0E"), (0xFFFFFFFF, "FFFFFFFF0F"), (0, "00"), (127, "7F"), (16383, "FF7F"),
                            (16384, "808001"), (2097151, "FFFF7F"), (2097152, "80808001"), (268435455, "FFFFFF7F"),
                            (268435456, "8080808001")):
            s.cells("counts", 0, count)
            assert s.finish()[head:head + len(text) // 2] == bytes.fromhex(text)
        # the recorded length of the counts is for the limits alone
        for length in (0, 1, 77, MOST_BYTES - 40):
            s.set(counts=length)
            s.finish()


def all_pairs(s):
    """Every pair: eight rows in areas that just hold them, each refused before that for every area that is one short; then the
    areas one short for the list itself, the room full, short and longer, twice, and one row more."""
    for kind, encoding, width in pairs():
        if kind % 3 == 0:
            s.dirty()
        s.create(kind, encoding, width, 20)
        for row in some_rows(kind, encoding, width):
            need, after = builder.needs(s.r), s.next_needs(row)
            for x in AREAS:
                if after[x] > need[x]:
                    s.lend(**after | {x: after[x] - 1})
                    s.append(row, expect=4)
            s.lend(**after)
            s.append(row)
        assert len(s.rows) == 8
        s.show()
        need = builder.needs(s.r)
        for x in AREAS:
            if need[x]:
                s.lend_need(**{x: -1})
                s.finish(99, expect=9)
                s.append(None, expect=9)
        s.lend_need()
        s.estimate()
        block = s.finish()
        s.finish(len(block) - 1, expect=4)
        s.finish(0, expect=4)
        s.cells("room", 0, 0xaa, count=len(block) + 3)
        s.finish(len(block) + 1)
        s.finish()
        # no area is short by much either, and those that are not needed are not asked for
        s.lend(**{x: 0 for x in AREAS})
        s.finish(99, expect=9)
        s.append(None, expect=9)
        s.lend_next(None)
        s.append(None)
        s.finish()


def many_flags(s):
    """Flags over more than one byte, in areas that hold bits already: a new byte starts at 0, other bits stay."""
    for kind, width, data in ((0, 0, b""), (CHAR, 1, b"c"), (BLOB, 0, b"d")):
        for encoding in (1, 3):
            for dirt in (0, 255, 0xa5):
                s.cells("flags", 0, dirt, count=4)
                s.lend(items=20, ends=20, flags=3, counts=20, keys=0, lens=20)
                s.create(kind, encoding, width)
                for i in range(17):
                    row = None if i % 3 == (encoding == 1) else i % 2 if kind == 0 else data if i % 2 else b""
                    s.append(row)
                    if i in (6, 7, 8, 15, 16):
                        s.finish()
                if dirt:
                    # finish writes the bits that are held, and 0 for those that are not used; append writes its own alone
                    s.cells("flags", 0, 0xff, 0xff, 0xff)
                    s.finish()
                    s.append(None if encoding == 1 else data or 1)
                    s.show()
                    s.cells("flags", 0, 0, 0, 0)
                    s.append(None)
                    s.append(data or 1)
                    s.show()
                    s.finish()


def borders(s):
    """Rows at and past the borders of their kinds; a null's value isn't read, nor what a kind doesn't read."""
    for kind, encoding in itertools.product(FIXED, range(5)):
        s.roomy(items=24, ends=0, lens=0, flags=1)
        s.create(kind, encoding)
        low, high = (0, 1) if kind == 0 else (-2**(8 * FIXED[kind][0] - 1), 2**(8 * FIXED[kind][0] - 1) - 1)
        outside = [v for v in (low - 1, high + 1, 2**63 - 1, -2**63, high + 2**32 + 1) if -2**63 <= v < 2**63 and not low <= v <= high]
        s.append(high)
        for v in outside:
            s.append(v, expect=2)
        s.append(low, data=b"not read")
        s.append(None, value=high + 1, data=b"nor this")
        if kind in (0, 1, 4, 7):
            for v in outside[:2]:
                s.append(v, expect=2)
        s.finish()
    for width, encoding in itertools.product((1, 2, 254, 255), range(5)):
        s.lend(items=3 * width, ends=0, flags=1, counts=3, keys=3, lens=3)
        s.create(CHAR, encoding, width)
        full = b"q" * (width % 2) + b"\xc3\xa9" * (width // 2)
        s.append(full, value=-1)
        if width < 9:
            s.append(full + b"q", expect=2)
            s.append(full + b"\0", expect=2)
            s.append(None, data=b"\xee" * (width + 9))
            s.append(b"", value=2**40)
            s.append(b"z" * 255, expect=2)
        else:
            s.view(0)
            s.append(full + b"q", expect=2)
            s.append(None, data=b"\xee" * 256)
            s.append(b"", value=2**40)
            s.sums()
            s.finish()
            s.sums()
            s.view(1)
    for kind, encoding in itertools.product(BY_ENDS, range(5)):
        s.roomy(items=6)
        s.create(kind, encoding)
        s.append(b"abcdef", value=2**40)
        s.append(b"g", expect=4)
        s.append(b"", value=-1)
        s.append(None, data=b"not read, and far too long")
        s.finish()


def as_given(s):
    """Rows are equal as they were given: what is padded, cut or default isn't."""
    texts = [b"a", b"a\0", b"a\0\0", b"a", b"", b"\0", None, b"", None, None, b"", b"", b"\0"]
    for kind, width in ((CHAR, 3), (CHAR, 4), (BLOB, 0), (STRING, 0)):
        for encoding in (2, 3, 4):
            s.lend(items=60, ends=14, flags=2, counts=14, keys=14, lens=14)
            s.create(kind, encoding, width)
            for row in texts:
                s.append(row)
            assert s.r["runs"] == 11 and s.r["entries"] in (0, 5)
            s.show()
            s.finish()
    for kind in FIXED:
        for encoding in (2, 3, 4):
            s.lend(items=80, ends=0, flags=2, counts=10, keys=10, lens=0)
            s.create(kind, encoding)
            for row in (None, 0, None, None, 0, 0, 1, 0):
                s.append(row)
            assert s.r["runs"] == 6 and s.r["entries"] in (0, 2)
            s.show()
            s.finish()
    # floats by their bits
    for encoding in range(5):
        s.lend(items=96, ends=0, flags=2, counts=12, keys=12, lens=0)
        s.create(F64, encoding)
        for row in RATES:
            s.append(row)
        assert s.r["runs"] == (0, 0, 10, 10, 10)[encoding] and s.r["entries"] == (0, 0, 0, 0, 7)[encoding]
        s.show()
        s.finish()
    # a bool byte above 1 is true, and stays as it is
    for encoding in (2, 3, 4):
        s.lend(items=4, ends=0, flags=1, counts=4, keys=4, lens=0)
        s.create(0, encoding)
        s.append(1)
        for byte in (2, 128, 255):
            s.cells("items", 0, byte)
            s.append(1)
            assert s.r["runs"] == 1
        s.append(0)
        s.append(1)
        s.show()
        s.finish()
    # the record says whether the last row is null, and any number but 0 does
    for kind, row in ((I16, 0), (I16, 5), (BLOB, b""), (CHAR, b"")):
        for encoding in (2, 3, 4):
            s.lend(items=24, ends=12, flags=2, counts=12, keys=12, lens=12)
            s.create(kind, encoding, 2 if kind == CHAR else 0)
            s.append(row)
            for null in (1, 2, 2**32, 2**63, MOST):
                s.set(null=null)
                kept = s.keep()
                s.append(None)
                s.back(kept)
                s.append(row)
            s.set(null=0)
            s.append(row)
            s.append(None)
            s.set(null=0)
            s.append(None)
            s.append(row)
            s.show()


def last_counts(s):
    """The last count is the record's: it grows, fills a run, and is written whatever the slot held."""
    for kind, width, row, other in ((I32, 0, -7, 7), (CHAR, 2, b"a", b"b"), (STRING, 0, b"", b"c")):
        for encoding in (2, 3, 4):
            s.roomy(items=24)
            s.create(kind, encoding, width)
            s.append(other)
            s.append(row)
            kept = s.keep()
            for last in (0, 1, 126, 127, 128, 16382, 16383, 16384, 2097151, 2097152, 268435455, 268435456, 2**31 - 1, 2**32 - 3,
                         MOST_RUN - 1, MOST_RUN, MOST_RUN + 1, 2**33, 2**63, MOST):
                s.set(last=last)
                s.cells("counts", 1, 9)
                s.append(row)
                assert (s.r["runs"] == 2) == (last < MOST_RUN)
                if last in (0, 127, 2**32 - 3, MOST_RUN - 1, MOST_RUN, MOST):
                    s.show()
                    s.finish()
                    s.append(row)
                    s.append(None)
                    s.append(None)
                    s.finish()
                s.back(kept)


def most_rows(s):
    """281,474,976,710,655 rows."""
    for kind, width, row, other in ((0, 0, 1, 0), (INTERVAL, 0, -7, 7), (CHAR, 2, b"a", b"b"), (BLOB, 0, b"", b"c")):
        for encoding in range(5):
            s.roomy(items=24)
            s.create(kind, encoding, width)
            s.append(row)
            kept = s.keep()
            for rows, joining, new in ((MOST_ROWS - 1, 0, 3), (MOST_ROWS, 3, 3), (MOST_ROWS + 1, 9, 9), (2**63, 9, 9), (MOST, 9, 9)):
                s.set(rows=rows)
                if encoding < 2:
                    joining = new = 9
                s.append(row, expect=joining)
                s.append(other, expect=new)
                s.append(None, expect=new)
                s.estimate(9 if joining == 9 else 0)
                s.should(True, 1, 9 if joining == 9 else 0)
                s.finish(expect=9 if joining == 9 else 0)
                s.back(kept)


def most_items(s):
    """1,048,576 stored items or runs: bools, one by one."""
    s.view(0)
    s.lend(**{x: CELLS[x] for x in AREAS})
    for encoding, presence in ((0, 2), (1, 2), (2, 1), (3, 2)):
        s.create(0, encoding)
        if encoding == 1:
            s.many(MOST_ITEMS - 1, 2, -1, 1, 3)  # null, 0, 1
        else:
            s.many(MOST_ITEMS - 1, presence, 0, 1, 2)
        if encoding < 2:
            s.append(1)
            s.append(1, expect=3)
            s.append(None, expect=3)
        else:
            s.append(1)  # the last run but one is of 0s or of nulls
            s.append(1)
            s.append(0, expect=3)
            s.append(None, expect=3)
        s.estimate()
        s.should(True, 0)
        s.sums()
        s.finish(CELLS["room"], expect=0 if encoding < 2 else 4)
        if encoding < 2:
            s.finish(s.block_size() - 1, expect=4)
            s.finish()
        s.sums()
        # the areas one short
        for x, n in builder.needs(s.r).items():
            if n:
                s.lend(**{x: n - 1})
                s.append(1, expect=9)
                s.finish(CELLS["room"], expect=9)
                s.lend(**{x: CELLS[x]})
        for past in (1, 2, MOST - MOST_ITEMS):
            kept = s.r
            s.set(**{"rows" if encoding < 2 else "runs": MOST_ITEMS + past}, bytes=MOST_ITEMS + past)
            s.append(1, expect=9)
            s.estimate(9)
            s.should(True, 0, 9)
            s.set(**{f: kept[f] for f in ("rows", "runs", "bytes")})
        s.append(1, expect=3 if encoding < 2 else 0)
    # a block of many runs, whole
    s.create(0, 2)
    s.many(580000, 1, 1, -1, 2)
    s.many(300, 1, 0)
    s.finish(1160008, expect=4)
    s.finish(1160009)
    s.sums()
    s.view(1)


def most_entries(s):
    """65,536 entries by calls, for each shape of item; the next is 3, and those that are there are still found."""
    s.view(0)
    s.lend(**{x: CELLS[x] for x in AREAS})
    for kind, width, size, source in ((I32, 0, 0, 0), (CHAR, 3, 3, 2), (BLOB, 0, 3, 2)):
        s.create(kind, 4, width)
        if kind == CHAR:
            # text, of bytes below 128
            find = s.finder()
            for high in range(512):
                s.many(128, 1, (high >> 7 << 16) + (high % 128 << 8), 1, 0, source, size, find=find)
            s.append(b"\0\0\4", expect=3)
        else:
            s.many(70000, 1, 0, 1, 0, source, size, expect=3)
        assert s.r["entries"] == s.r["rows"] == MOST_ENTRIES
        old, new = {I32: (65535, 65536), CHAR: (b"\x7f\x7f\3", b"\0\0\4"), BLOB: (b"\xff\xff\0", b"\0\0\1")}[kind]
        first = 0 if kind == I32 else b"\0\0\0"
        s.append(new, expect=3)
        s.append(old)
        s.append(None)
        s.append(first)
        s.append(first)
        s.append(new, expect=3)
        s.append(old)
        s.sums()
        s.estimate()
        s.should(True, 3, full=1)
        s.finish(s.block_size() - 1, expect=4)
        s.finish()
        s.sums()
        if kind == I32:
            s.append(2**31, expect=2)
        kept = s.r
        for entries in (MOST_ENTRIES + 1, MOST):
            s.set(entries=entries, bytes=entries * builder.width_of(s.r) % 2**64 if kind != BLOB else kept["bytes"])
            s.append(old, expect=9)
            s.append(None, expect=9)
            s.estimate(9)
            s.should(True, 0, 9)
        s.set(entries=kept["entries"], bytes=kept["bytes"])
        s.append(None)
        # the last entry's field, far behind
        if kind != I32:
            x, v = ("lens", 4) if kind == CHAR else ("ends", kept["bytes"] - 1)
            s.cells(x, MOST_ENTRIES - 1, v)
            s.append(old, expect=9)
            s.append(new, expect=9)
            s.append(first)
            s.append(None)
    # entries that are equal, by a record that says so
    s.create(BLOB, 4)
    s.set(entries=MOST_ENTRIES - 1)
    s.cells("ends", 0, 0, count=MOST_ENTRIES)
    s.append(b"a")
    s.append(b"b", expect=3)
    s.append(b"a")
    s.append(b"")
    s.estimate()
    s.sums()
    s.view(1)


def most_bytes(s):
    """A finished block of 16,777,216 bytes, where there are runs: by the counts' byte length, and by its growth."""
    for kind, width, row, other in ((0, 0, 1, 0), (I64, 0, 5, 6), (CHAR, 3, b"a", b"b"), (BLOB, 0, b"ab", b"cde")):
        for encoding in (2, 3, 4):
            s.roomy(items=24)
            s.create(kind, encoding, width)
            # with no runs, too, the counts' length is held to the limit
            for length, answer in ((MOST_BYTES, 3), (MOST_BYTES + 1, 9), (MOST, 9), (5, 0)):
                s.set(counts=length)
                s.estimate(0 if answer == 3 else answer)
                s.finish(12, expect=0 if answer == 3 else answer)
                s.append(row, expect=answer)
            s.create(kind, encoding, width)
            s.append(row)
            kept = s.keep()
            size = builder.finished_bytes(s.r) - s.r["counts"]
            for left in (0, 1, 2, 3, 5, 20, 30):
                s.set(counts=MOST_BYTES - size - left)
                for last, growth in ((1, 0), (126, 0), (127, 1), (16383, 1), (2097151, 1), (268435455, 1), (MOST_RUN, None)):
                    if left < 3 or last == MOST_RUN:
                        s.set(last=last)
                        more = s.keep()
                        s.append(row, expect=None if growth is None else 3 if growth > left else 0)
                        if last in (127, MOST_RUN):
                            s.append(other, expect=None)
                            s.append(None, expect=None)
                            s.estimate()
                            s.should(True, 2)
                            s.finish()
                        s.back(more)
                s.back(kept)
            for more in (1, 2, 2**40):
                s.set(counts=MOST_BYTES - size + more)
                s.append(row, expect=9)
                s.estimate(9)
                s.should(True, 2, 9)
                s.finish(99, expect=9)
            s.back(kept)
            # to the byte, for a new run of each row
            for r in (row, other, None):
                after = builder.grown(s.r | {"last": MOST_RUN}, r, len(model.item(kind, width, r)),
                                      encoding != 4 or r == other, False)
                most = MOST_BYTES - (builder.finished_bytes(after) - s.r["counts"])
                for counts, answer in ((most, 0), (most + 1, 3)):
                    s.set(last=MOST_RUN, counts=counts)
                    s.append(r, expect=answer)
                    s.estimate()
                    s.back(kept)
    # an item that alone is longer than what is left
    for encoding in (2, 3, 4):
        s.roomy(items=30)
        s.create(STRING, encoding)
        s.append(b"a")
        after = builder.grown(s.r, b"b" * 29, 29, True, False)
        s.set(counts=s.r["counts"] + MOST_BYTES - builder.finished_bytes(after))
        s.append(b"b" * 30, expect=3)
        s.append(b"b" * 99, expect=3)
        s.append(b"b" * 29)
        s.append(b"c", expect=3)
        s.append(b"b" * 29)


def large_records(s):
    """Sizes by the record alone, at the limits of items, entries and bytes that no area here holds."""
    s.lend(**{x: 0 for x in AREAS})

    def sizes(expect, **fields):
        s.set(**fields)
        s.estimate(expect)
        for present, size in ((True, 0), (False, 7), (True, MOST)):
            s.should(present, size, expect)
        if expect == 9:
            s.append(None, expect=9)
            s.finish(4, expect=9)

    for encoding, items in ((0, "rows"), (1, "rows"), (2, "runs"), (3, "runs")):
        bitmap = 131072 + 4 if encoding in (1, 3) else 0
        head = 8 if encoding > 1 else 0
        for kind, width in ((3, 1), (CHAR, 15), (CHAR, 16), (CHAR, 17)):
            w = 8 if kind == 3 else width
            s.create(kind, encoding, width if kind == CHAR else 0, 2**24)
            most = MOST_BYTES - bitmap - head
            sizes(0 if MOST_ITEMS * w <= most else 9, **{items: MOST_ITEMS}, bytes=MOST_ITEMS * w)
            sizes(9, **{items: MOST_ITEMS + 1}, bytes=(MOST_ITEMS + 1) * w)
            sizes(9, **{items: MOST_ITEMS}, bytes=MOST_ITEMS * w - 1)
            sizes(9, **{items: MOST_ITEMS}, bytes=MOST_ITEMS * w + 2**32)
        # as many chars of 255 bytes as there can be
        for width in (255, 64, 17):
            s.create(CHAR, encoding, width, 2**24)
            n = 0
            for step in (2**k for k in reversed(range(20))):
                wide = s.r | {items: n + step, "bytes": (n + step) * width}
                n += 0 if builder.past(wide) else step
            sizes(0, **{items: n}, bytes=n * width)
            sizes(9, **{items: n + 1}, bytes=(n + 1) * width)
        # blobs: ends and data
        s.create(BY_ENDS[encoding % 2], encoding, 0, 2**24)
        for n in (1, 7, 8, 9, MOST_ITEMS):
            flags = (n + 7) // 8 + 4 if bitmap else 0
            sizes(0, **{items: n}, bytes=MOST_BYTES - head - flags - 4 * n)
            sizes(9, **{items: n}, bytes=MOST_BYTES - head - flags - 4 * n + 1)
            sizes(9, **{items: n}, bytes=MOST)
        sizes(9, **{items: MOST_ITEMS + 1}, bytes=0)
        sizes(9, **{items: 0}, bytes=1)
        sizes(0, **{items: 0}, bytes=0)
        sizes(9, **{items: MOST}, bytes=0)
    for kind, width in ((0, 0), (I32, 0), (CHAR, 255), (BLOB, 0)):
        s.create(kind, 4, width, 2**24)
        w = builder.width_of(s.r)
        many = min(MOST_ENTRIES, (MOST_BYTES - 12) // w if w else MOST_ENTRIES)
        sizes(0, entries=many, bytes=many * w)
        sizes(9, entries=many + 1, bytes=(many + 1) * w)
        s.set(entries=0, bytes=0)
        s.set(counts=MOST_BYTES - 20 - 4 * MOST_ITEMS)
        sizes(0, runs=MOST_ITEMS)
        for key, full in ((4 * MOST_ITEMS + 3, 1), (4 * MOST_ITEMS + 4, 0)):
            s.set(keytarget=key)
            s.should(True, 0, full=full)
        sizes(9, runs=MOST_ITEMS + 1)
        sizes(9, runs=MOST)
        sizes(0, runs=MOST_ITEMS, counts=MOST_BYTES - 20 - 4 * MOST_ITEMS)
        sizes(9, counts=MOST_BYTES - 19 - 4 * MOST_ITEMS)
        sizes(9, counts=MOST_BYTES + 1)
        sizes(0, runs=0, counts=MOST_BYTES)
        sizes(9, runs=0, counts=MOST_BYTES + 1)


def targets(s):
    """should_finish about the target, for rows of any length; items of no bytes say no, a dictionary with a row and key target 0 yes."""
    for kind, encoding, width in pairs():
        rows = some_rows(kind, encoding, width)[:5]
        s.build(kind, encoding, width, rows, 0, MOST)
        s.should(True, MOST)
        for present, size in ((True, 0), (True, 5), (False, 5)):
            last = builder.with_next(s.r, present, size)
            for target in (last, last - 1, last + 1):
                s.set(target=target)
                s.should(present, size, full=int(target < last))
            s.estimate()
        if encoding == 4:
            both_rules(s, last)
        if encoding == 4 and kind in (I16, BLOB, CHAR):
            # entries without a run: their rule alone
            s.set(runs=0, keytarget=0)
            for target in (last, last - 1, last + 1):
                s.set(target=target)
                s.should(False, 5, full=int(target < last))
            s.set(entries=0, bytes=0)
            s.should(True, 5, full=0)
            # a run without entries: that of the keys alone
            s.set(runs=1)
            for key in (0, 7, 8, 9):
                s.set(keytarget=key)
                s.should(True, 5, full=int(key < 8))
            s.set(keytarget=MOST)
        for target, size in ((MOST, 2**64 - 5), (MOST, MOST), (2**63, 2**63), (2**63, 2**63 - 40), (MOST - 1, MOST), (0, 0)):
            s.set(target=target)
            s.should(True, size)
            s.should(False, size)
    for kind, encoding in itertools.product(BY_ENDS, range(5)):
        s.create(kind, encoding)
        s.roomy()
        s.should(True, MOST, full=0)
        for row in (b"", None, b""):
            s.append(row)
            s.should(True, MOST, full=int(encoding == 4))
        s.append(b"a")
        s.should(False, 0, full=1)
    # a blob's next item that passes 2^64 with what there is
    for encoding in range(4):
        s.build(BY_ENDS[encoding % 2], encoding, 0, [b"abc", b"d"])
        have = builder.plain_bytes(s.r) + (1 if encoding in (1, 3) else 0)
        for size in (MOST - have - 4, MOST - have - 3, MOST - have - 5, MOST):
            s.set(target=MOST)
            s.should(True, size, full=int(size + 4 + have > MOST))
            s.set(target=size)
            s.should(True, size, full=1)
            s.set(target=size - 1)
            s.should(True, size, full=1)


def both_rules(s, last):
    """A dictionary is full by the entries or by the keys; with a null of five bytes the entries come to so many."""
    runs = builder.with_next_key(s.r)
    for target, key in itertools.product((last, last - 1), (runs, runs - 1)):
        s.set(target=target, keytarget=key)
        s.should(False, 5, full=int(target < last or key < runs))
    s.set(keytarget=MOST)


def asked_before(s, rows, most):
    """Rows that are appended, with a question before each and behind the last: it says yes with more than so many in."""
    for done, row in enumerate(rows):
        s.should_before(row, full=int(done > most))
        s.append(row)
    for present, size in ((True, 0), (True, MOST), (False, 5)):
        s.should(present, size, full=int(len(rows) > most))


def key_targets(s):
    """The key target of a dictionary: four bytes a run and four more are held against it, whatever the next row."""
    never = 99
    s.lend(items=32, ends=20, flags=0, counts=20, keys=20, lens=20)
    for target, key, most in ((64, None, 15), (64, 64, 15), (64, 67, 15), (64, 68, 16), (64, 63, 14), (64, 0, 0), (64, 7, 0), (64, 8, 1),
                              (0, None, 0), (11, None, 1), (11, 64, 1), (12, 64, 15), (64, MOST, never), (MOST, None, never)):
        # with two entries the target itself is passed where it is below 12, with one where it is below 8
        s.create(I32, 4, 0, target, key)
        asked_before(s, [1 + i % 2 for i in range(18)], most)
    # equal rows are one run, a null is one as others are; a run that is full is followed by another
    for key, most in ((None, never), (8, never), (7, 0), (0, 0)):
        s.create(I32, 4, 0, 64, key)
        asked_before(s, [7] * 18, most)
        s.create(I32, 4, 0, 64, key)
        asked_before(s, [None] * 5, most)
    for key, most in ((None, 15), (11, 1), (12, 2)):
        s.create(I32, 4, 0, 64, key)
        asked_before(s, [(None, 3)[i % 2] for i in range(18)], most)
    s.create(I32, 4, 0, 64, 8)
    s.append(7)
    s.set(last=MOST_RUN)
    s.should(True, 0, full=0)
    s.append(7)
    s.should(True, 0, full=1)
    # entries of no bytes: the keys' rule alone, however long the next row
    for kind, (key, most) in itertools.product(BY_ENDS, ((0, 0), (12, 2), (MOST, never))):
        s.create(kind, 4, 0, 0, key)
        asked_before(s, [b"", None, b"", None], most)


def kept_key_targets(s):
    """Every encoding keeps its key target. should_finish of a dictionary alone looks at it, and any number will do."""
    keys = (0, 1, 11, 12, 2**63, MOST)
    for kind, encoding, width in pairs():
        s.build(kind, encoding, width, some_rows(kind, encoding, width)[1:3], 40, keys[kind % 6])
        assert s.r["keytarget"] == keys[kind % 6]
        block, (_, size) = s.finish(), builder.estimate(s.r)
        for key in keys:
            s.set(keytarget=key)
            s.should(True, 0, full=int(encoding == 4 and key < 12))
            if key in (1, MOST):
                s.estimate(size=size)
                assert s.finish() == block
        s.lend_next(None)
        s.append(None)
        assert s.r["keytarget"] == MOST


def importer(s):
    """Lists that are cut where should_finish says so: by key target 0 into blocks of one row each, by the target into longer ones."""
    s.roomy(counts=16, keys=16)
    for kind in KINDS:
        width = 3 if kind == CHAR else 0
        rows = [any_row(s, kind, width) for _ in range(8)]
        for key in (0, None):
            cut(s, kind, width, rows, key)
    assert cut(s, I32, 0, [1 + i % 2 for i in range(40)], None) == [16, 16, 8]


def cut(s, kind, width, rows, key):
    """How many rows each block has."""
    lengths = []
    s.create(kind, 4, width, 64, key)
    for row in rows:
        if s.should_before(row):
            lengths.append(len(s.rows))
            s.finish()
            s.create(kind, 4, width, 64, key)
        s.append(row)
    s.finish()
    lengths.append(len(s.rows))
    assert key is None or lengths == [1] * len(rows)
    return lengths


def creation(s):
    """Names, as they come."""
    for kind in (0, 7, CHAR, BLOB, STRING, F64, 12, 255, 256 + 2, 2**32 + 2, MOST):
        for encoding in (0, 4, 5, 256, 2**32 + 1, MOST):
            for width in (0, 1, 255, 256, 257, MOST):
                known = encoding < 5 and (kind in (0, 7, BLOB, STRING, F64) and width == 0 or kind == CHAR and 1 <= width <= 255)
                s.create(kind, encoding, width, MOST if known else 7, expect=0 if known else 1)
    for key in (None, 9):
        s.create(12, 0, 0, 7, key, expect=1)
        s.roomy()
        s.append(None, expect=9)
        s.finish(9, expect=9)
        s.estimate(9)
        s.should(True, 1, 9)
    # any key target is taken, and none is looked at
    for column, expect in (((I32, 0, 0), 0), ((CHAR, 1, 255), 0), ((I32, 4, 0), 0), ((I32, 5, 0), 1), ((12, 4, 0), 1), ((CHAR, 4, 0), 1),
                           ((I16, 4, 1), 1)):
        for key in (0, 1, 2**63, MOST):
            s.create(*column, 7, key, expect=expect)


def forged_values(field, r, encoding):
    v = r[field]
    about = {v + 1, max(v - 1, 0), 0, MOST}
    if field == "kind":
        return about | set(range(13)) | {255}
    if field == "encoding":
        return about | {1, 2, 3, 4, 5, 256}
    if field == "width":
        return about | {1, 2, 255, 256}
    if field == "keytarget":
        return {0, 1, v + 1, 2**63, MOST}
    if field == "rows":
        return about | {MOST_ITEMS, MOST_ITEMS + 1, MOST_ROWS, MOST_ROWS + 1}
    if field in ("runs", "entries"):
        return about | {MOST_ENTRIES + 1, MOST_ITEMS + 1}
    if field == "bytes":
        return about | {v + 2, MOST_BYTES, MOST_BYTES + 1}
    if field == "counts":
        return about | {MOST_BYTES - 40, MOST_BYTES, MOST_BYTES + 1}
    if field == "last":
        return {v + 1, 0, MOST_RUN, MOST}
    return {v + 1, MOST}


def forged(s):
    """Each field of a record set to other values: fields that an encoding doesn't use are not looked at."""
    for kind, encoding, width in bases():
        row = some_rows(kind, encoding, width)[-1]
        s.dirty()
        s.build(kind, encoding, width, some_rows(kind, encoding, width)[1:7], 12)
        s.lend_next(None)
        kept = s.keep()
        for field in FIELDS:
            for value in sorted(forged_values(field, s.r, encoding)):
                s.set(**{field: value})
                s.all_calls(row if value % 2 else None)
            s.back(kept)
        # items and their bytes together
        items = ("rows", "rows", "runs", "runs", "entries")[encoding]
        for n in (0, 1, builder.stored(s.r) - 1, builder.stored(s.r) + 1):
            s.set(**{items: n}, bytes=n * builder.width_of(s.r))
            s.all_calls(row)
            s.lend(**builder.needs(s.r))
            s.all_calls(row)
            s.back(kept)


def as_held(s, *places):
    """The items at these places, by the ends and lengths that are there, right or wrong."""
    for i in places:
        if i < builder.stored(s.r):
            if s.r["kind"] == CHAR:
                start, end = i * s.r["width"], i * s.r["width"] + s.a["lens"][i]
            else:
                start, end = s.a["ends"][i - 1] if i else 0, s.a["ends"][i]
            if start <= end <= s.lent["items"]:
                yield bytes(s.a["items"][start:end])


def damaged(s):
    """Areas changed between calls: the fields that an append reads, and those that it doesn't."""
    texts = [b"ab", b"c", b"", b"de"]
    for form, width in ((CHAR, 2), (BLOB, 0)):
        for encoding in range(5):
            s.roomy(items=16, counts=8, keys=8, flags=1)
            kind = STRING if form == BLOB and encoding % 2 == 0 else form
            s.create(kind, encoding, width)
            for row in texts:
                s.append(row)
            kept = s.keep()
            area = "lens" if kind == CHAR else "ends"
            values = (0, 1, 2, 3, 255) if kind == CHAR else (0, 1, 2, 4, 5, 6, 2**24, MOST_RUN)
            for place in range(4):
                for value in values:
                    if value == s.a[area][place]:
                        continue
                    s.cells(area, place, value)
                    for row in (texts[3], texts[place], None, b"new"[:2], b"too long", *as_held(s, place, place + 1)):
                        more = s.keep()
                        expect = None
                        long = kind == CHAR and row is not None and len(row) > 2
                        if kind == CHAR and encoding in (2, 3):
                            expect = 9 if place == 3 and value > 2 else 2 if long else 0
                        if kind in BY_ENDS and (encoding in (2, 3) and place == 3 or encoding == 4 and row and len(row) == 6):
                            expect = 9
                        if encoding < 2 or encoding == 4 and row is None:
                            expect = 2 if long else 0
                        s.append(row, expect=expect)
                        s.back(more)
                    if encoding in (0, 3, 4):
                        s.finish()
                    s.back(kept)
    # keys and counts that are there are taken as they are
    for kind, width, a, b in ((I16, 0, 5, 6), (BLOB, 0, b"a", b"b")):
        s.roomy(items=8)
        s.create(kind, 4, width)
        for row in (a, b, b):
            s.append(row)
        kept = s.keep()
        for key in (NULL_KEY, NULL_KEY + 1, NULL_KEY + 2, NULL_KEY + 3, -1, 0, 2**31 - 1):
            s.cells("keys", 1, key)
            s.cells("keys", 0, -key)
            for row in (a, b, None, 7 if kind == I16 else b""):
                more = s.keep()
                s.append(row)
                s.finish()
                s.back(more)
            s.back(kept)
        for count in (0, 1, 127, 128, MOST_RUN):
            s.cells("counts", 0, count)
            s.cells("counts", 1, count)
            s.finish()
            s.append(b)
            s.append(a)
            s.finish()
            s.back(kept)
    # a last item that is another
    for kind, width in ((I32, 0), (DATE, 0), (CHAR, 2), (BLOB, 0)):
        for encoding in (2, 3, 4):
            one, two = (0x01020304, 0x04030201) if kind in FIXED else (b"ab", b"ba")
            s.roomy(items=16)
            s.create(kind, encoding, width)
            s.append(one)
            s.cells("items", 0, *(model.item(kind, width, two)))
            s.append(two)
            s.append(one)
            s.append(two)
            s.finish()


def order(s):
    """Append tests 9, 2, 3, 4 in this order, finish 9, 4."""
    for encoding in (2, 3, 4):
        s.roomy(items=8)
        s.create(CHAR, encoding, 2)
        s.append(b"a")
        s.append(b"b")
        kept = s.keep()
        s.lend_need()
        s.append(b"abc", expect=2)  # before 4
        s.append(b"c", expect=4)
        size = builder.finished_bytes(s.r) - s.r["counts"]
        s.set(counts=MOST_BYTES - size)
        s.append(b"abc", expect=2)  # before 3
        s.append(b"c", expect=3)  # before 4
        s.append(b"b")
        s.finish(3, expect=4)
        s.cells("lens", 1, 3)
        s.append(b"abc", expect=9)  # before 2
        s.append(b"c", expect=9)  # before 3 and 4
        s.append(b"b", expect=9)
        s.finish(3, expect=4)
        s.lend(items=3)
        s.finish(3, expect=9)  # before 4
        s.append(None, expect=9)
        s.back(kept)
        s.cells("lens", 0, 3)
        s.append(b"abc", expect=9 if encoding == 4 else 2)
        s.append(b"b", expect=9 if encoding == 4 else 0)
        s.append(None)
    s.roomy(items=4)
    s.create(I16, 4)
    s.append(1)
    s.append(2)
    s.lend_need()
    s.append(2**15, expect=2)
    s.append(3, expect=4)
    s.append(2)


def opens_as(s, block, rows):
    """The number that a finished block opens as."""
    try:
        model.open_block(s.r["kind"], s.r["encoding"], s.r["width"], rows, block)
        return 0
    except Refused as refused:
        return refused.number


def texts(s):
    """Char and string take text alone: a row is looked at whole, a null's bytes aren't, nor those beside an integer, nor the items that
    are held. A row that isn't text is 2, whatever it would join or find."""
    for kind, width in ((CHAR, 4), (STRING, 0), (BLOB, 0)):
        s.lend(items=4 * len(GOOD), ends=len(GOOD), flags=0, counts=0, keys=0, lens=len(GOOD))
        s.create(kind, 0, width)
        for row in GOOD:
            s.append(row)
        s.lend(items=200, ends=99, lens=99)
        s.view(0)
        for row in BAD:
            s.append(row, expect=0 if kind == BLOB else 2)
        s.view(1)
        assert opens_as(s, s.finish(), len(s.rows)) == 0
    # behind a NUL, cut by the end, and longer than the width as well
    for encoding, (kind, width) in itertools.product(range(5), ((CHAR, 4), (STRING, 0))):
        s.roomy()
        s.create(kind, encoding, width)
        s.append(b"\xe2\x82\xac")
        for row in (b"A\0\xff", b"\xc3\0\xa9", b"\xe2\x82", b"\xff", b"abc\xc3", b"abc\xc3\xa9\xff"):
            s.append(row, expect=2)
        s.append(None, data=b"\xff")
        s.append(b"\0\xc3\xa9\0", value=-1)
        assert opens_as(s, s.finish(), 3) == 0
        # items that are held and aren't text: equal rows are 2, others are taken, and the block opens as 17
        kept = s.keep()
        s.cells("items", 0, 0xff)
        last = 0 if encoding == 4 else builder.stored(s.r) - 1
        s.cells("items", last * 4 if kind == CHAR else s.a["ends"][last - 1] if last else 0, 0xff)
        s.append(builder.held(s.r, s.a, last), expect=2)
        s.append(b"\xc3\xa9")
        s.append(None)
        assert opens_as(s, s.finish(), 5) == 17
        s.back(kept)
    for encoding in (0, 3, 4):
        s.roomy()
        s.create(I16, encoding)
        s.append(5, data=b"\xff")
        s.append(None, data=b"\xff")
        s.finish()
    # 9 comes before it, 3 and 4 behind it
    for encoding, (kind, width) in itertools.product((2, 3, 4), ((CHAR, 2), (STRING, 0))):
        s.roomy(items=8)
        s.create(kind, encoding, width)
        s.append(b"a")
        s.append(b"b")
        s.lend_need()
        s.append(b"\xff", expect=2)
        s.append(b"c", expect=4)
        s.set(counts=MOST_BYTES - (builder.finished_bytes(s.r) - s.r["counts"]))
        s.append(b"\xff", expect=2)
        s.append(b"c", expect=3)
        s.cells("lens" if kind == CHAR else "ends", 1, 3)
        s.append(b"\xff", expect=9)
    # long ones
    s.view(0)
    s.cells("room", 0, ord("t"), count=70000)
    s.lend(items=1000000, ends=20, flags=0, counts=0, keys=0, lens=0)
    s.create(STRING, 0)
    s.many(1, source=1, size=70000)
    for place in (0, 1, 7, 8, 255, 256, 40001, 69998):
        s.cells("room", place, 0xc3)
        s.many(1, source=1, size=70000, expect=2)
        s.many(1, source=1, size=place + 1, expect=2)
        s.cells("room", place + 1, 0xa9)
        s.many(1, source=1, size=70000)
        s.cells("room", place, ord("t"))
        s.cells("room", place + 1, ord("t"))
    s.sums()
    s.view(1)


def long_items(s):
    """Ends above 255, 65,535 and 2^20: blobs out of the room."""
    s.view(0)
    s.cells("room", 0, 1, count=CELLS["room"], step=3)
    for encoding in range(5):
        s.lend(items=1048640, ends=4, flags=1, counts=4, keys=4, lens=0)
        s.create(BLOB, encoding)
        s.many(1, source=1, size=300)
        s.many(1, source=1, size=70000)
        s.many(2, source=1, size=70000, expect=None)
        s.many(1, source=1, size=1048640, expect=4)
        left = 1048640 - s.r["bytes"]
        s.many(1, source=1, size=left + 1, expect=4)
        s.many(1, source=1, size=left, expect=0 if encoding > 1 else 4)
        s.estimate()
        s.should(True, 2**24)
        s.sums()
        s.finish(s.block_size() - 1, expect=4)
        s.finish()
        s.sums()
        s.cells("room", 0, 1, count=CELLS["room"], step=3)
    s.view(1)


def lend_loose(s):
    """Areas about what the next rows need."""
    need = builder.needs(s.r)
    s.lend(**{x: max(0, need[x] + s.random.choice((-1, 0, 1, 2, 3, 6) if x != "items" else (0, 2, 8, 9, 16))) for x in AREAS})


def by_chance(s):
    """Random lists in areas that now and then are short, with the other calls between; then forged states of them."""
    pick, chance = s.random.choice, s.random.random
    s.roomy()
    for turn in range(120):
        kind, encoding = KINDS[turn % len(KINDS)], turn // 2 % 5
        width = pick((1, 2, 3)) if kind == CHAR else 0
        s.create(kind, encoding, width, pick((0, 1, 8, 16, 20, 24, MOST)), pick((None, None, 0, 12, 16, MOST)))
        for _ in range(pick((3, 6, 10))):
            if chance() < .5:
                lend_loose(s)
            row = any_row(s, kind, width, True)
            for _ in range(pick((1, 1, 2, 3))):
                s.append(row, value=pick((0, 5)), data=pick((b"", b"q")), expect=None)
        s.show()
        s.estimate()
        s.should(chance() < .5, pick((0, 1, 5, MOST)))
        s.lend(**{x: max(n, s.lent[x]) for x, n in builder.needs(s.r).items()})
        s.finish(s.block_size() + pick((0, 0, 1)))
        s.finish(max(0, s.block_size() - 1), expect=None)
        for _ in range(6):
            forge(s)


def alter(s):
    """Some of a state overwritten."""
    pick = s.random.choice
    for _ in range(pick((1, 1, 2))):
        what = s.random.randrange(6)
        if what <= 1:
            field = pick(FIELDS)
            s.set(**{field: pick((0, 1, 2, 3, 4, 5, 9, min(s.r[field] + 1, MOST), max(s.r[field] - 1, 0), 127, 128, 16383, 2**32 - 2,
                                  2**32 - 1, 2**32, 2**48 - 1, 2**48, 2**20, 2**24 - 40, 2**24 - 1, 2**24, 2**24 + 1, 2**63, MOST))})
        elif what == 2:
            x = pick(AREAS)
            s.cells(x, s.random.randrange(6), pick((NULL_KEY, NULL_KEY + 1, NULL_KEY + 2, 5) if x == "keys" else (0, 1, 2, 3, 5, 128, 255)))
        elif what == 3 and builder.known(s.r):
            x = pick(AREAS)
            s.lend(**{x: min(max(0, builder.needs(s.r)[x] + pick((-1, 0, 1))), 60)})
        elif what == 4 and builder.known(s.r) and s.r["encoding"] >= 2:
            left = MOST_BYTES - (builder.finished_bytes(s.r) - s.r["counts"]) + pick((-6, -5, -2, -1, 0, 1))
            s.set(counts=max(0, left), last=pick((1, 126, 127, 128, 16383, 2097151, 268435455, 2**32 - 2, 2**32 - 1)))
        else:
            s.set(last=pick((s.r["last"], 127, 2**32 - 2, 2**32 - 1)))


def forge(s):
    """A state with some of it overwritten, and every call on it."""
    kept = s.keep()
    alter(s)
    kind = s.r["kind"] if s.r["kind"] in FIXED else BLOB
    s.all_calls(any_row(s, kind, s.r["width"], True))
    # a row that is there, if it can be told
    try:
        if not builder.record_wrong(s.r) and not builder.too_short(s.r, s.lent) and 0 < builder.stored(s.r) < 50:
            n = builder.stored(s.r)
            s.append(builder.held(s.r, s.a, s.random.randrange(n) if s.r["encoding"] == 4 else n - 1), expect=None)
    except Nine:
        pass
    s.back(kept)


# ---- a row so many times, by one call

SPLITS = ((3,), (0, 3), (1, 2), (2, 1), (3, 0))


def splits(s):
    """Three equal rows, by one call, by two in every way and by three calls of append, come to the same: every pair, for a row that
    joins the last one, also where that fills its run, and for another or a null."""
    s.dirty()
    for kind, encoding, width in pairs():
        first, _, _, other, *_ = some_rows(kind, encoding, width)
        for row in (first, None) if (kind + encoding) % 2 else (other, first):
            found = []
            for calls in (*SPLITS, None):
                s.create(kind, encoding, width)
                s.lend_next(first)
                s.append(first)
                if encoding >= 2 and kind % 2:
                    s.set(last=MOST_RUN - 2)
                s.lend_times(3, row)
                for n in calls or ():
                    s.times(n, row)
                if calls is None:
                    for _ in range(3):
                        s.append(row)
                s.show()
                need = builder.needs(s.r)
                found.append((s.r, {x: s.a[x][:need[x]] for x in AREAS}))
            assert found.count(found[0]) == len(found)
        s.finish()


def all_or_none(s):
    """Areas that are one short for the last of the rows: 4, and nothing is written; then they just hold them. Rows that join, that
    begin a run, and that fill runs."""
    most = 2 * MOST_RUN
    for kind, encoding, width in bases():
        s.dirty()
        rows = some_rows(kind, encoding, width)
        s.build(kind, encoding, width, rows[:4])
        kept = s.keep()
        cases = [(3, 1, rows[3]), (3, 1, None), (9, 1, rows[5])]
        if encoding >= 2:
            cases += [(most, MOST_RUN - 1, rows[3]), (most, 7, rows[5])]
        for n, last, row in cases:
            if encoding >= 2:
                s.set(last=last)
            need, after = builder.needs(s.r), s.times_needs(n, row)
            for x in AREAS:
                if after[x] > need[x]:
                    s.lend(**after | {x: after[x] - 1})
                    s.times(n, row, expect=4)
                    s.times(0, row)
            s.lend(**after)
            s.times(n, row)
            s.show()
            s.finish()
            s.back(kept)


def filled_runs(s):
    """Rows join the last run while it is below 4,294,967,295; full runs come behind it, and the rest. An item is stored again with each
    run, an entry once."""
    for kind, width, row, other in ((I32, 0, -7, 7), (CHAR, 2, b"a", b"b"), (STRING, 0, b"", b"c")):
        for encoding in (2, 3, 4):
            s.lend(items=48, ends=12, flags=2, counts=12, keys=12, lens=12)
            s.create(kind, encoding, width)
            s.append(other)
            s.append(row)
            kept = s.keep()
            for last, n, runs, after in (
                    (MOST_RUN - 5, 10, 1, 5), (MOST_RUN - 10, 10, 0, MOST_RUN), (MOST_RUN - 1, 1, 0, MOST_RUN), (MOST_RUN - 1, 2, 1, 1),
                    (MOST_RUN, 1, 1, 1), (MOST_RUN, 3, 1, 3), (MOST_RUN + 1, 3, 1, 3), (2**33, 7, 1, 7), (MOST, 7, 1, 7), (0, 127, 0, 127),
                    (0, 128, 0, 128), (120, 7, 0, 127), (120, 10, 0, 130), (1, 16382, 0, 16383), (1, 16383, 0, 16384),
                    (1, MOST_RUN - 1, 0, MOST_RUN), (1, MOST_RUN, 1, 1), (5, 2 * MOST_RUN + 3, 2, 8),
                    (MOST_RUN, 4 * MOST_RUN, 4, MOST_RUN)):
                s.set(last=last)
                s.cells("counts", 1, 9)
                s.times(n, row)
                assert (s.r["runs"], s.r["last"]) == (2 + runs, after) and s.r["entries"] == (2 if encoding == 4 else 0)
                if last in (MOST_RUN - 5, 120, 5, MOST_RUN, MOST):
                    s.show()
                    s.finish()
                    s.times(2, row)
                    s.append(row)
                    s.finish()
                s.back(kept)
            # another row, and nulls
            for n in (2, MOST_RUN, MOST_RUN + 1, 3 * MOST_RUN - 1):
                for more in (other, None):
                    s.times(n, more)
                    s.show()
                    s.times(n, more)
                    s.finish()
                    s.back(kept)
            # by calls alone: a count that is a byte longer, and one of five
            for first, runs, last, length in ((120, 1, 130, 2), (MOST_RUN - 5, 2, 5, 6)):
                s.create(kind, encoding, width)
                s.times(first, row)
                s.times(10, row)
                assert (s.r["runs"], s.r["last"], s.r["counts"]) == (runs, last, length)
                s.finish()


def most_equal_rows(s):
    """281,474,976,710,655 equal rows, and 1,048,576 where each is an item; one more is 3, as is any number above that."""
    s.view(0)
    s.lend(**{x: CELLS[x] for x in AREAS})
    for kind, width, row in ((0, 0, 1), (0, 0, None), (CHAR, 1, b"c"), (BLOB, 0, b""), (STRING, 0, b"s")):
        for encoding in (2, 3, 4):
            s.create(kind, encoding, width)
            for n in (MOST_ROWS + 1, 2**63, MOST):
                s.times(n, row, expect=3)
            s.times(MOST_ROWS, row)
            assert (s.r["rows"], s.r["runs"], s.r["last"]) == (MOST_ROWS, 65537, 65535)
            assert s.r["entries"] == int(encoding == 4 and row is not None)
            for n in (1, 2, MOST_RUN, MOST_ROWS, MOST):
                s.times(n, row, expect=3)
            s.times(0, row)
            s.append(row, expect=3)
            s.estimate()
            s.sums()
            if row != b"s":
                s.finish(s.block_size() - 1, expect=4)
                s.finish()
                s.sums()
            # in two calls
            s.create(kind, encoding, width)
            s.times(MOST_ROWS - 65536, row)
            s.times(65537, row, expect=3)
            s.times(65536, row)
            assert s.r["rows"] == MOST_ROWS and s.r["runs"] == 65537
        if kind == CHAR:
            s.lend(lens=65536)
            s.create(kind, 3, width)
            s.times(MOST_ROWS, row, expect=4)
            s.times(MOST_ROWS - 65535, row)
            s.lend(lens=CELLS["lens"])
    for encoding, row in itertools.product((0, 1), (1, None)):
        s.create(0, encoding)
        for n in (MOST_ITEMS + 1, 2000000, 2**32, MOST_ROWS, MOST):
            s.times(n, row, expect=3)
        s.times(5, 1 - (row or 0))
        s.times(MOST_ITEMS - 4, row, expect=3)
        s.times(MOST, row, expect=3)
        s.times(MOST_ITEMS - 5, row)
        s.times(1, row, expect=3)
        s.times(MOST, row, expect=3)
        s.times(0, row)
        s.sums()
        s.finish()
        s.sums()
    # long runs behind short ones
    s.create(I16, 2)
    s.many(580, 1, 1, -1, 2)
    s.times(2000000, 0)
    s.times(2000000, 1)
    s.finish()
    s.sums()
    s.view(1)


def limits_before_room(s):
    """3 comes before 4: for the rows, for the items, and for the block's bytes, which the rows would pass far beyond the areas."""
    for encoding in range(5):
        s.lend(items=10, ends=0, flags=2, counts=2, keys=2, lens=0)
        s.create(0, encoding)
        plain = encoding < 2
        for n in (11, 16, 2 * MOST_RUN + 1, MOST_ITEMS, MOST_ITEMS + 1, 2000000, MOST_ROWS, MOST_ROWS + 1, 2**56, MOST):
            over = n > (MOST_ITEMS if plain else MOST_ROWS)
            s.times(n, 1, expect=3 if over else 4 if plain or n > 2 * MOST_RUN else 0)
            if s.r["rows"]:
                s.create(0, encoding)
        s.times(10, 1)
        s.times(1, 1, expect=4 if plain else 0)
        s.times(MOST, 1, expect=3)
    # as many rows as there can be
    columns = (CHAR, 255, 3, 65793), (CHAR, 17, 17, 986895), (BLOB, 0, 100, 161319), (STRING, 0, 256, 64527)
    for encoding, (kind, width, size, items) in itertools.product(range(4), columns):
        s.view(0)
        s.lend(items=size, ends=1, flags=1, counts=1, keys=0, lens=1)
        s.create(kind, encoding, width)
        row = b"r" * size
        most = 0
        for step in (2**k for k in reversed(range(48))):
            wide = builder.grown_times(s.r, row, len(model.item(kind, width, row)), most + step, True, False)
            most += 0 if builder.past(wide) else step
        assert encoding > 0 or most == items
        s.times(most, row, expect=4)
        for n in (most + 1, 2**56, MOST):
            s.times(n, row, expect=3)
        s.view(1)
    # an entry is stored once, an item with each run
    for encoding, size, expect in ((2, 246, 4), (3, 246, 4), (4, 246, 0), (2, 247, 3), (3, 247, 3), (4, 247, 0)):
        s.view(0)
        s.lend(items=1000, ends=65537, flags=8193, counts=65537, keys=65537, lens=0)
        s.create(BLOB, encoding)
        s.times(MOST_ROWS, b"r" * size, expect=expect)
        s.view(1)


def bytes_of_runs(s):
    """The growth of the counts' byte length is all the rows' together, and the block's bytes with all of them are held to the limit."""
    for kind, width, row, other in ((0, 0, 1, 0), (CHAR, 3, b"a", b"b"), (BLOB, 0, b"ab", b"cde")):
        for encoding in (2, 3, 4):
            s.roomy(items=24)
            s.create(kind, encoding, width)
            s.append(row)
            kept = s.keep()
            size = builder.finished_bytes(s.r) - s.r["counts"]
            for left in (0, 1, 2, 4):
                s.set(counts=MOST_BYTES - size - left)
                for n, growth in ((126, 0), (127, 1), (16382, 1), (16383, 2), (2097151, 3), (268435455, 4), (MOST_RUN - 1, 4)):
                    s.times(n, row, expect=3 if growth > left else 0)
                    s.times(0, row, expect=0)
                    s.set(rows=1, last=1, counts=MOST_BYTES - size - left)
                s.back(kept)
            # to the byte, for some runs more of each row
            for more, n in itertools.product((row, other, None), (2, MOST_RUN + 127, 2 * MOST_RUN + 128)):
                s.set(last=MOST_RUN)
                length = len(model.item(kind, width, more))
                after = builder.grown_times(s.r, more, length, n, encoding != 4 or more == other, False)
                most = MOST_BYTES - (builder.finished_bytes(after) - s.r["counts"])
                for counts, answer in ((most, 0), (most + 1, 3)):
                    s.set(last=MOST_RUN, counts=counts)
                    s.times(n, more, expect=answer)
                    s.estimate()
                    s.back(kept)


def order_of_times(s):
    """9, 2, 3, 4 in this order, for any number of rows; for none of them 9 and 2 alone, and nothing changes."""
    for encoding, n in itertools.product((2, 3, 4), (0, 1, 3, MOST_ROWS, MOST)):
        s.roomy(items=8)
        s.create(CHAR, encoding, 2)
        s.append(b"a")
        s.append(b"b")
        kept = s.keep()
        s.lend_need()
        over = 3 if n > 9 else None
        s.times(n, b"abc", expect=2)
        s.times(n, b"\xff", expect=2)
        s.times(n, b"c", expect=0 if n == 0 else over or 4)
        s.set(counts=MOST_BYTES - (builder.finished_bytes(s.r) - s.r["counts"]))
        s.times(n, b"abc", expect=2)
        s.times(n, b"c", expect=3 if n else 0)
        s.times(n, b"b", expect=over or 0)
        s.cells("lens", 1, 3)
        for row in (b"abc", b"c", b"b", b"\xff"):
            s.times(n, row, expect=9)
        s.lend(items=3)
        s.times(n, None, expect=9)
        s.back(kept)
        s.set(bytes=5)
        s.times(n, b"b", expect=9)
        s.back(kept)
    # ends that are read, and those that aren't
    for encoding, n in itertools.product(range(5), (0, 2)):
        s.roomy(items=16)
        s.create(STRING, encoding)
        for row in (b"ab", b"c", b"de"):
            s.append(row)
        kept = s.keep()
        for place, end in ((2, 4), (2, 6), (2, 2), (1, 5), (1, 9), (0, 4), (0, 3)):
            for row in (b"de", b"new", None, b"\xff"):
                s.cells("ends", place, end)
                wrong = encoding in (2, 3) and (place == 2 or end == 9)
                wrong = wrong or encoding == 4 and row is not None and (place == 2 or (place, end) in ((1, 9), (0, 4)))
                s.times(n, row, expect=9 if wrong else 2 if row == b"\xff" else 0)
                s.back(kept)
    # rows that don't fit
    for kind, encoding, width in pairs():
        if kind == BLOB or kind in FIXED and FIXED[kind][0] == 8:
            continue
        s.roomy()
        s.create(kind, encoding, width)
        bad = 2**33 if kind in FIXED else b"\xc3" if kind == STRING else b"wxyz"
        for n in (0, 2, MOST):
            s.times(n, bad, expect=2)
            s.times(n, None, value=2**33, data=b"\xff", expect=3 if n == MOST else 0)
    s.create(12, 0, 0, 7, expect=1)
    for n in (0, 2, MOST):
        s.times(n, None, expect=9)


def no_rows(s):
    """No rows: the record comes back as it is, a null above 1 too, at every limit; one row and more write 0 or 1 for it."""
    for kind, row in ((I16, 0), (I16, 5), (BLOB, b""), (CHAR, b"")):
        for encoding in range(5):
            s.lend(items=24, ends=12, flags=2, counts=12, keys=12, lens=12)
            s.create(kind, encoding, 2 if kind == CHAR else 0)
            for null in (0, 1, 2, 2**32, MOST):
                s.set(null=null)
                s.times(0, row)
                s.times(0, None)
                assert s.r["null"] == null and s.r["rows"] == 0
            s.append(row)
            kept = s.keep()
            for null in (2, 2**63, MOST):
                for more in (row, None):
                    s.set(null=null)
                    s.times(0, more)
                    s.times(2, more)
                    assert s.r["null"] == (null if encoding < 2 else int(more is None))
                    s.back(kept)
            for last in (0, MOST_RUN, MOST):
                s.set(last=last)
                s.times(0, row)
                s.times(0, None)
                assert s.r["last"] == last
                s.back(kept)
            if encoding >= 2:
                s.set(rows=MOST_ROWS)
                s.times(0, row)
                s.times(1, row, expect=3)
                s.set(rows=MOST_ROWS + 1)
                s.times(0, row, expect=9)
            s.back(kept)
            s.lend_need()
            s.times(0, 7 if kind == I16 else b"ab")
            s.lend_need(**{x: -1 for x in AREAS})
            s.times(0, row, expect=9)


def held_items(s):
    """What is there decides of the first of the rows alone: items that were changed, flags with bits set, bools above 1, entries."""
    for kind, width in ((CHAR, 1), (BLOB, 0), (0, 0)):
        for encoding, dirt in itertools.product((1, 3), (0, 255, 0xa5)):
            s.cells("flags", 0, dirt, count=4)
            s.lend(items=20, ends=20, flags=3, counts=20, keys=0, lens=20)
            s.create(kind, encoding, width)
            one, two = (0, 1) if kind == 0 else (b"c", b"")
            for i in range(6):
                s.append((one, two)[i % 2])
            # six rows and five more: the flags go on in the next byte
            n = 5 if encoding == 1 else 5 * MOST_RUN
            kept = s.keep()
            for row in (None, one):
                s.times(n, row)
                assert builder.stored(s.r) == 11
                s.show()
                s.finish()
                s.back(kept)
            s.times(n, None)
            s.times(n, one)
            s.show()
            s.finish()
    for encoding in (2, 3, 4):
        s.lend(items=8, ends=0, flags=1, counts=4, keys=4, lens=0)
        s.create(0, encoding)
        s.append(1)
        for byte in (2, 128, 255):
            s.cells("items", 0, byte)
            s.times(3, 1)
            assert s.r["runs"] == 1
        s.times(2 * MOST_RUN, 1)
        s.show()
        s.finish()
    for kind, width in ((I32, 0), (DATE, 0), (CHAR, 2), (BLOB, 0)):
        for encoding in (2, 3, 4):
            one, two = (0x01020304, 0x04030201) if kind in FIXED else (b"ab", b"ba")
            s.roomy(items=24)
            s.create(kind, encoding, width)
            s.times(2, one)
            s.cells("items", 0, *(model.item(kind, width, two)))
            for row in (two, one, two):
                s.times(3, row)
                s.times(MOST_RUN, row)
            s.finish()
    # an entry is the last that there can be, by a record that says so
    s.view(0)
    s.lend(**{x: CELLS[x] for x in AREAS})
    s.create(BLOB, 4)
    s.set(entries=MOST_ENTRIES - 1)
    s.cells("ends", 0, 0, count=MOST_ENTRIES)
    s.times(0, b"a")
    s.times(3, b"a")
    s.times(2, b"b", expect=3)
    s.times(0, b"b")
    s.times(MOST_RUN, b"a")
    s.times(2, b"")
    assert (s.r["entries"], s.r["runs"], s.r["rows"]) == (MOST_ENTRIES, 3, MOST_RUN + 5)
    s.sums()
    s.view(1)


def forged_times(s):
    """Each field of a record set to other values."""
    for encoding, (kind, width) in enumerate(((I16, 0), (CHAR, 2), (BLOB, 0), (CHAR, 2), (STRING, 0))):
        rows = some_rows(kind, encoding, width)
        s.dirty()
        s.build(kind, encoding, width, rows[1:7], 12)
        s.lend_times(3, rows[-1])
        kept = s.keep()
        s.view(0)
        for field in FIELDS:
            for i, value in enumerate(sorted(forged_values(field, s.r, encoding))):
                s.set(**{field: value})
                s.times((3, 0, 2, MOST_RUN)[i % 4], rows[-1] if i % 3 else None, expect=None)
                s.times((2, MOST, 1, 0)[i % 4], rows[-1], expect=None)
                s.show()
                s.back(kept)
        s.view(1)


def many_times(s):
    """Rows that are appended 300 times, with a row before and one behind."""
    s.view(0)
    s.lend(items=5000, ends=320, flags=40, counts=8, keys=8, lens=320)
    for kind, encoding, width in bases():
        rows = some_rows(kind, encoding, width)
        s.create(kind, encoding, width)
        for row, n in ((rows[0], 1), (rows[3], 300), (None, 1), (rows[0], 0), (rows[3], 2)):
            s.times(n, row)
        s.finish()
        s.sums()
    s.view(1)


def lend_about(s, n, row):
    """Areas that hold a row so many times, or nearly; loose ones where that is much."""
    pick, need = s.random.choice, None
    if builder.fits(s.r, row) and not builder.too_short(s.r, s.lent):
        need = s.times_needs(n, row)
    if need is None or max(need.values()) > NEAR:
        return lend_loose(s)
    return s.lend(**{x: max(0, k + pick((-1, 0, 0, 0, 0, 0, 0, 1, 2))) for x, k in need.items()})


def times_by_chance(s):
    """Random lists of a row so many times, in areas that now and then are short; then forged states of them."""
    pick, chance = s.random.choice, s.random.random
    s.roomy()
    for turn in range(90):
        kind, encoding = KINDS[turn % len(KINDS)], turn // 2 % 5
        width = pick((1, 2, 3)) if kind == CHAR else 0
        s.create(kind, encoding, width)
        for _ in range(pick((2, 4, 6))):
            row = any_row(s, kind, width, True)
            n = pick((0, 1, 2, 2, 3, 5, 8, 127, 300, MOST_RUN - 2, MOST_RUN, 2 * MOST_RUN + 1, MOST_ROWS, MOST))
            lend_about(s, n, row)
            s.times(n, row, value=pick((0, 5)), data=pick((b"", b"q")), expect=None)
            if chance() < .3:
                s.append(row, expect=None)
        s.show()
        s.lend(**{x: max(n, s.lent[x]) for x, n in builder.needs(s.r).items()})
        s.finish(expect=None)
        for _ in range(2):
            kept = s.keep()
            alter(s)
            row = any_row(s, s.r["kind"] if s.r["kind"] in FIXED else BLOB, s.r["width"], True)
            s.times(pick((0, 1, 2, 7, MOST_RUN - 1, MOST_RUN + 1, MOST)), row, expect=None)
            s.back(kept)


SECTIONS = (samples, counts, all_pairs, many_flags, borders, as_given, last_counts, most_rows, most_items, most_entries, most_bytes,
            large_records, targets, key_targets, kept_key_targets, importer, creation, forged, damaged, order, texts, long_items,
            by_chance, splits, all_or_none, filled_runs, most_equal_rows, limits_before_room, bytes_of_runs, order_of_times, no_rows,
            held_items, forged_times, many_times, times_by_chance)


def main():
    seed = int(sys.argv[1]) if len(sys.argv) > 1 else SEED
    root = pathlib.Path(__file__).resolve().parent.parent
    folder = pathlib.Path(sys.argv[2]) if len(sys.argv) > 2 else root / "crates" / "try_building"
    s = Script(seed)
    done = 0, 0, 0
    for section in SECTIONS:
        if sys.argv[3:] and section.__name__ not in sys.argv[3:]:
            continue
        section(s)
        calls = sum(n for call, n in s.calls.items() if call in ("create", "append", "times", "finish", "estimate", "should"))
        written = sum(map(len, s.answers)) + len(s.answers)
        now = len(s.commands), written, calls
        print("%s: %d bytes in, %d out, %d calls" % (section.__name__, *(a - b for a, b in zip(now, done))))
        done = now
    assert len(s.commands) <= INPUT
    (folder / "stdin").write_bytes(s.commands)
    (folder / "stdout").write_text("\n".join(s.answers) + "\n")
    print("%d bytes in, %d out: %s" % (*done[:2], ", ".join("%d %s" % (n, c) for c, n in s.calls.items())))
    for call, refusal in sorted({key[:2] for key in s.refusals}):
        print("%-8s %2d:" % (call, refusal), ", ".join(
            "%d in encoding %s" % (s.refusals[call, refusal, e], e if e < 5 else "above 4")
            for e in sorted(k[2] for k in s.refusals if k[:2] == (call, refusal))))


if __name__ == "__main__":
    main()

"""Makes the commands and the stored answers of the program `try_slow` (its files stdin and stdout), and the list and the files that the
program `night` is run on, with what it has to print.

    python3 tools/slows.py [SEED FOLDER]

Row r of a block is found here a second time, from documents 01 and 02 (xiii), with tools/model.py, which opens blocks and reads items.
crates/try_slow/src/main.rt says what a command is. With no arguments the files are always the same; with another seed the random commands
are others, and the two files of `try_slow` go to the folder. Where the documents say which number a call answers, or which row, the call
expects it here, and a reading that answers another stops the run. So does a row that isn't the one that a fresh reader of tools/model.py
gives after passing over r rows, or a refusal that leaves a lent slot changed.

The cases of tools/answers.py that open blocks are asked too: each opening is a row asked for there.

Not tried, for want of room: a block above 16,777,216 bytes.
"""
import bisect
import collections
import functools
import itertools
import random
import sys

import answers
import model
from answers import any_rows, bits, blobs, dictionary, ends, keys, lay, le4, limits, number, runs
from compares import VALUES, text_of, width_of
from listings import descriptor, fields
from making import ROOT, make, make_sections, write_script
from model import BLOB, BY_ENDS, CHAR, F64, FIXED, KINDS, MOST_RUN, STRING, Refused

SEED = 1
MOST = 2**64 - 1
MOST_ROWS = 2**48 - 1
ROOM = 700000  # bytes of the program's room for a block
MOST_COMMANDS = 120000  # bytes of its room for commands
LENT = (4, 4, 4, 300)  # the most values, flags, ends and bytes that it lends
AREA = 0xaa  # what they are filled with
MOST_FILE = 65536
BOOL, I16, I32, DATE, INTERVAL = 0, 1, 2, 4, 7


# ---- document 02's row r

@functools.lru_cache(maxsize=8)
def opened(numbers, block):
    """The zero bit of a descriptor counts as opening's 1."""
    kind, encoding, width, zero, rows = numbers
    if zero:
        raise Refused(1)
    return model.open_block(kind, encoding, width, rows, block)


@functools.lru_cache(maxsize=8)
def bounds(numbers, block):
    """The row behind the last of each run."""
    reader, found, at = opened(numbers, block), [], 0
    counts = model.counts_of(reader, block)
    for _ in range(reader.runs):
        count, size = model.count_at(counts, at)
        found.append(count + (found[-1] if found else 0))
        at += size
    return found


def opening(numbers, block):
    """Opening's number."""
    try:
        opened(numbers, block)
    except Refused as e:
        return e.number
    return 0


def row_of(numbers, block, r):
    """Row r, after the tests that come before the room's."""
    reader = opened(numbers, block)
    if r >= reader.rows:
        raise Refused(7)
    place = r if reader.encoding < 2 else bisect.bisect_right(bounds(numbers, block), r)
    return model.row_at(reader, block, place)


def row_shown(numbers, block, r, areas):
    """The number of bytes given; the areas (lists) are changed in place. A refusal is raised before anything is changed."""
    row = row_of(numbers, block, r)
    values, flags, ends_lent, data = areas
    text = b"" if numbers[0] in FIXED else row or b""
    if not flags or not (values if numbers[0] in FIXED else ends_lent) or len(data) < len(text):
        raise Refused(4)
    flags[0] = int(row is not None)
    if numbers[0] in FIXED:
        values[0] = row or 0
    else:
        ends_lent[0] = len(text)
        data[:len(text)] = text
    return len(text)


def as_fresh(numbers, block, r, areas):
    """The same by a fresh reader of the model, which passes over r rows and gives one."""
    rows, total, _ = model.read(opened(numbers, block), block, r, 1, *areas)
    assert rows == 1
    return total


def asked(numbers, block, r, lent):
    """The number, the bytes, and the areas after a call that lends areas of these lengths."""
    areas = [[AREA] * n for n in lent]
    try:
        total, refusal = row_shown(numbers, block, r, areas), 0
    except Refused as e:
        total, refusal = 0, e.number
        assert areas == [[AREA] * n for n in lent]
    if opening(numbers, block) == 0 and r < numbers[4]:
        again = [[AREA] * n for n in lent]
        try:
            assert as_fresh(numbers, block, r, again) == total and refusal == 0
        except Refused as e:
            assert e.number == refusal
        assert again == areas
    return refusal, total, areas


# ---- the program `night`

def rows_compared(n):
    """All rows of at most 2,000; else the first and the last thousand, and every power of two."""
    if n <= 2000:
        return n
    powers = {1 << k for k in range(64) if 1 << k < n}
    return len({*range(1000), *range(n - 1000, n), *powers})


def verdict(numbers, block):
    """What is printed behind a name: the two engines agree."""
    refusal = opening(numbers, block)
    return "refused %d" % refusal if refusal else "same %d" % rows_compared(numbers[4])


def of_file(file):
    if len(file) < 8:
        return "refused 10"
    if len(file) > MOST_FILE:
        return "refused 3"
    return verdict(fields(file[:8]), file[8:])


def of_column(file, j):
    entry = file[1 + 16 * j:17 + 16 * j]
    at, size = int.from_bytes(entry[8:12], "big"), int.from_bytes(entry[12:16], "big")
    if at < 1 + 16 * file[0] or len(file) < at + size:
        return "refused 22"
    return verdict(fields(entry[:8]), file[at:at + size])


def of_sheet(name, file):
    """The lines of a sheet file."""
    if len(file) > MOST_FILE:
        return [name + " refused 3"]
    if not file or file[0] > 64 or len(file) < 1 + 16 * file[0]:
        return [name + " refused 21"]
    return ["%s %d %s" % (name, j, of_column(file, j)) for j in range(file[0])]


def sheet_of(columns):
    """A sheet file of these columns, as pairs of a descriptor's numbers and a block."""
    at = 1 + 16 * len(columns)
    entries, blocks = b"", b""
    for numbers, block in columns:
        kind, encoding, width, zero, rows = numbers
        entries += descriptor(kind, encoding, width, rows, zero) + (at + len(blocks)).to_bytes(4, "big") + len(block).to_bytes(4, "big")
        blocks += block
    return bytes([len(columns)]) + entries + blocks


def file_of(numbers, block):
    kind, encoding, width, zero, rows = numbers
    return descriptor(kind, encoding, width, rows, zero) + block


# ---- commands

class Script:
    """Commands, and what the program has to write for each. It keeps what the program keeps: a room for a block, the length at which it is
    lent, and the column."""

    def __init__(self, seed):
        self.random = random.Random(seed)
        self.commands = bytearray()
        self.answers = []
        self.room = bytearray(ROOM)
        self.len = 0
        self.numbers = (0, 0, 0, 0, 0)
        self.counts = collections.Counter()
        self.refusals = collections.Counter()
        self.block = None

    def command(self, op, *numbers):
        self.commands += bytes([op]) + b"".join(map(number, numbers))
        self.counts[op] += 1

    def answer(self, word, *numbers):
        self.answers.append(" ".join([word, *("%x" % n for n in numbers)]))

    def lent(self):
        if self.block is None:
            self.block = bytes(self.room[:self.len])
        return self.block

    # ---- blocks and columns

    def load(self, block):
        self.len = lay(block, self.commands, self.room)
        self.block = None
        self.counts[0] += 1
        self.answer("block", self.len)

    def change(self, place, byte):
        self.command(1, place)
        self.commands.append(byte)
        self.room[place] = byte
        self.block = None
        self.answer("change", place, byte)

    def lend(self, length):
        self.command(2, length)
        self.len = length
        self.block = None
        self.answer("lend", length)

    def column(self, kind, encoding, width, rows, zero=0):
        numbers = kind, encoding, width, zero, rows
        if numbers != self.numbers:
            self.command(3, *numbers)
            self.numbers = numbers
            self.answer("column", *numbers)

    # ---- rows

    def row(self, r, lent, expect=None):
        """A call; its number may be told."""
        assert all(n <= most for n, most in zip(lent, LENT))
        self.command(4, r, *lent)
        refusal, total, (values, flags, ends_lent, data) = asked(self.numbers, self.lent(), r, lent)
        assert expect in (None, refusal), (expect, refusal, self.numbers, r, lent)
        self.answers.append("row %x %x values%s flags:%s ends%s bytes:%s" % (
            refusal, total, "".join(" %x" % (v % 2**64) for v in values), bytes(flags).hex(), "".join(" %x" % n for n in ends_lent),
            bytes(data).hex()))
        self.refusals[refusal, min(self.numbers[1], 5)] += 1
        return refusal

    def due(self, r):
        """The lengths of areas that just hold row r; those that its kind doesn't use are 0."""
        if self.numbers[0] in FIXED:
            return 1, 1, 0, 0
        return 0, 1, 1, len(row_of(self.numbers, self.lent(), r) or b"")

    def exactly(self, r, expect=()):
        """Row r in areas that just hold it; the row may be told."""
        if expect != ():
            found = row_of(self.numbers, self.lent(), r)
            assert found == expect and (found is None) == (expect is None), (found, expect)
        self.row(r, self.due(r), 0)

    def loosely(self, r):
        """In areas with a slot to spare."""
        self.row(r, tuple(min(n + 1, most) for n, most in zip(self.due(r), LENT)), 0)

    def short(self, r):
        """Refused for each area that can be one short, alone, and for none at all."""
        due = self.due(r)
        for i, n in enumerate(due):
            if n:
                self.row(r, tuple(m - (i == j) for j, m in enumerate(due)), 4)
                self.row(r, tuple(m - 1 if i == j else min(m + 2, LENT[j]) for j, m in enumerate(due)), 4)
        self.row(r, (0, 0, 0, 0), 4)

    def beyond(self):
        """At and above the rows, whatever room there is."""
        n = self.numbers[4]
        for r in (n, n + 1, 2**32 + n, 2**63, MOST):
            self.row(r, (0, 0, 0, 0), 7)
        self.row(n, (1, 1, 1, 4), 7)

    def every(self, rows=None):
        """Each row, of which the list may be told."""
        for r in range(self.numbers[4]):
            self.exactly(r, *([rows[r]] if rows is not None else []))

    # ---- what the cases of tools/answers.py call

    def open(self, kind, encoding, width, rows, expect=None):
        """An opening: a row asked for, and the number told is opening's."""
        self.column(kind, encoding, width, rows)
        refusal = opening(self.numbers, self.lent())
        assert expect in (None, refusal), (expect, refusal, self.numbers)
        if refusal:
            self.row(self.random.choice((0, 0, rows, MOST)), self.random.choice(((0, 0, 0, 0), (1, 1, 1, 2))), refusal)
        elif rows == 0:
            self.row(0, (1, 1, 1, 1), 7)
        else:
            self.loosely(0)
            if rows > 1:
                self.exactly(rows - 1)
        return refusal == 0

    def give(self, size, skip=0, expect=None):
        """A reader's call, which the second engine hasn't."""

    def remaining(self, expect=None):
        """The same."""

    # ---- the program `night`

    def print_file(self, expect=None):
        self.command(5)
        told = of_file(self.lent())
        assert expect in (None, told), (expect, told)
        self.answers += ["NAME " + told, "file"]

    def print_sheet(self):
        self.command(6)
        self.answers += [*of_sheet("NAME", self.lent()), "file"]


# ---- rows

A = bytes.fromhex("02000000 02000000 03 01 07000000 FFFFFFFF")
B = bytes.fromhex("000000000000001C 00000002 04000000 04000000 01010101 01000080 00000080 01000080 02000080 02000000 03000000 616263")
C = bytes.fromhex("0500 0000 FEFF 05 01000000")
D = bytes.fromhex("610000 616263 780079")
J = B[:36] + b"\3" + B[37:]
SAMPLES = (  # the numbers of a column, its block, and its rows or the number of its refusal
    ((I32, 2, 0, 0, 4), A, [7, 7, 7, -1]),
    ((BLOB, 4, 0, 0, 4), B, [b"ab", None, b"ab", b"c"]),
    ((I16, 1, 0, 0, 3), C, [5, None, -2]),
    ((CHAR, 0, 3, 0, 3), D, [b"a", b"abc", b"x"]),
    ((DATE, 0, 0, 0, 1), bytes.fromhex("00000001"), [1]),
    ((INTERVAL, 0, 0, 0, 1), bytes.fromhex("0000000E FFFFFFFD"), [14 * 2**32 + 2**32 - 3]),
    ((BOOL, 2, 0, 0, 255), runs("7F8001", b"\0\1", 2), [0] * 127 + [1] * 128),
    ((BOOL, 2, 0, 0, 0xEFFFFFFF), runs("FFFFFFFF0E", b"\1", 1), None),
    ((BOOL, 2, 0, 0, 0xFFFFFFFF), runs("FFFFFFFF0F", b"\1", 1), None),
    ((BOOL, 2, 0, 0, 0x1_0000_0000), runs("FFFFFFFF10", b"\1", 1), 12),
    ((I16, 1, 0, 0, 0), bytes(4), []),
    ((I16, 2, 0, 0, 0), b"", []),
    ((I16, 3, 0, 0, 0), b"", []),
    ((I16, 4, 0, 0, 0), bytes(12), []),
    ((BLOB, 4, 0, 0, 4), J, 15),
)


def samples(s):
    """Document 01's samples A to J."""
    for numbers, block, rows in SAMPLES:
        kind, encoding, width, zero, n = numbers
        s.load(block)
        s.column(kind, encoding, width, n)
        if isinstance(rows, int):
            for r in (0, 1, n - 1, n, MOST):
                s.row(r, (1, 1, 1, 4), rows)
            continue
        for r in sorted({0, 1, 2, 3, 126, 127, 128, n - 2, n - 1}):
            if 0 <= r < n:
                s.exactly(r, rows[r] if rows else 1)
        if n:
            s.short(n - 1)
        s.beyond()


def all_pairs(s):
    """Every kind in every encoding: each row, the rows beyond, and one in areas of which one is short."""
    for encoding, kind in itertools.product(range(5), KINDS):
        width = 0 if kind != CHAR else s.random.choice((1, 3, 4))
        p, q, x = VALUES[kind] if kind != CHAR else (b"", b"a", b"b" * width)
        for rows in ([None, p, p, q, None, None, x, p, x], any_rows(s, kind, width, s.random.randint(2, 6))):
            s.load(model.build(kind, encoding, width, rows))
            s.column(kind, encoding, width, len(rows))
            s.every()
        s.short(s.random.randrange(len(rows)))
        s.loosely(0)
        s.row(len(rows), (0, 0, 0, 0), 7)
        s.row(MOST, (1, 1, 1, 9), 7)


def all_limits(s):
    """Each limit of each fixed kind, and the numbers between bytes."""
    for kind in FIXED:
        rows = limits(kind)
        for encoding in (0, 4) if kind == BOOL else (0, 3):
            s.load(model.build(kind, encoding, 0, rows))
            s.column(kind, encoding, 0, len(rows))
            s.every(rows)
    # any byte but 0 is true, wherever it stands
    s.load(bytes((0, 1, 2, 128, 255)))
    s.column(BOOL, 0, 0, 5)
    s.every([0, 1, 1, 1, 1])


def wide_chars(s):
    rows = [b"q" * 253 + "\u07ff".encode(), b"q" * 254, None, b"", b"\0" + b"q" * 254]
    for encoding in range(5):
        s.load(model.build(CHAR, encoding, 255, rows))
        s.column(CHAR, encoding, 255, 5)
        s.row(0, (0, 1, 1, 254), 4)
        for r in range(5):
            s.exactly(r)
        s.row(1, (0, 1, 1, 253), 4)
        s.row(0, (4, 4, 4, 300), 0)


def marks(s):
    """Bits: a byte's eight, the bits behind the last row, items that lie under a null, and equal items of which one is null."""
    for n in (1, 7, 8, 9, 16, 17):
        for bitmap in ("00" * ((n + 7) // 8), "ff" * ((n + 7) // 8), "a5" * ((n + 7) // 8)):
            s.load(bits(bytes(range(n)), bitmap))
            s.column(BOOL, 1, 0, n)
            for r in sorted({0, 1, 2, 7, 8, 15, 16, n - 1}):
                if r < n:
                    s.exactly(r)
            s.load(runs("03" * n, bits(bytes(range(1, n + 1)), bitmap)))
            s.column(BOOL, 3, 0, 3 * n)
            for r in sorted({0, 2, 3, 23, 24, 3 * n - 1}):
                if r < 3 * n:
                    s.exactly(r)
    for encoding in (1, 3):
        for kind, width, inner in ((BLOB, 0, blobs(b"ab", b"hidden", b"c")), (STRING, 0, blobs(b"ab", b"hidden", b"")),
                                   (CHAR, 2, b"abxyc\0"), (I16, 0, bytes(range(6)))):
            block = bits(inner, "f5")
            s.load(block if encoding == 1 else runs("010201", block))
            s.column(kind, encoding, width, 3 if encoding == 1 else 4)
            s.every()


def spread(s):
    """Runs of counts of each length: the first and the last row of each run."""
    told = [1, 127, 128, 16383, 16384, 2**21 - 1, 2**21, 2**28 - 1, 2**28, MOST_RUN, 1, MOST_RUN, 2]
    counts = b"".join(map(model.spell, told)).hex()
    n = len(told)
    sums = list(itertools.accumulate(told))
    for encoding, kind, block in ((2, I16, runs(counts, b"".join(bytes((i, 1)) for i in range(n)), n)),
                                  (3, BOOL, runs(counts, bits(bytes(n), "b5ff"), n)),
                                  (3, BLOB, runs(counts, bits(blobs(*(bytes([97 + i]) * i for i in range(n))), "fd0f"), n)),
                                  (4, STRING, dictionary(runs(counts, keys(*(i % 4 for i in range(n))), n), 3, blobs(b"", b"ab", b"c")))):
        s.load(block)
        s.column(kind, encoding, 0, sums[-1])
        for at, end in zip([0, *sums], sums):
            s.exactly(at)
            if end - 1 > at:
                s.exactly(end - 1)
        s.beyond()
        s.short(sums[-1] - 1)


def entered(s):
    """Keys: entries in any order, twice, unused; of each kind, and as many as there can be."""
    for kind, (p, q, x) in VALUES.items():
        items = model.plain(kind, width_of(kind), (p, q, q, x))
        s.load(dictionary(runs("0101020101", keys(4, 0, 2, 3, 1)), 4, items))
        s.column(kind, 4, width_of(kind), 6)
        s.every([x, None, q, q, q, p] if kind != CHAR else None)
        s.change(20 + 5, 5)
        s.row(0, (1, 1, 1, 9), 15)
    n = 65536
    s.load([(1, dictionary(runs("010101", keys(1, n, n - 1)), n, b"")), (n - 1, b"\0"), (1, b"\7")])
    s.column(BOOL, 4, 0, 3)
    for r, row in enumerate((0, 1, 0)):
        s.exactly(r, row)
    s.change(20 + 3 + 4 + 2, 1)
    s.change(20 + 3 + 4, 1)
    s.row(0, (1, 1, 0, 0), 15)


def empty(s):
    """No rows, of every pair: 7 for every r, whatever room there is."""
    for encoding, kind in itertools.product(range(5), KINDS):
        width = 3 if kind == CHAR else 0
        s.load(model.build(kind, encoding, width, []))
        s.column(kind, encoding, width, 0)
        s.row(0, (1, 1, 1, 1), 7)
        s.row(MOST, (0, 0, 0, 0), 7)
        s.column(kind, encoding, width, 1)
        s.row(0, (1, 1, 1, 1), (10 if kind in BY_ENDS else 11, 11, 16, 16, 16)[encoding])
    s.load(dictionary(b"", 2, blobs(b"a", b"b")))
    s.column(BLOB, 4, 0, 0)
    s.row(0, (1, 1, 1, 1), 7)


# ---- refusals

def names(s):
    """1 for what is no column, for the zero bit too, before all else; the numbers are taken as they come."""
    s.load(model.build(I32, 0, 0, [5, 6]))
    for zero in (1, 2, 255, 256, 2**32, 2**63, MOST):
        s.column(I32, 0, 0, 2, zero)
        s.row(0, (1, 1, 1, 1), 1)
    s.column(I32, 0, 0, MOST, 1)
    s.row(MOST, (0, 0, 0, 0), 1)
    for kind in (12, 13, 15, 16, 255, 256, 258, 2**32 + 2, 2**63 + 2, MOST):
        s.column(kind, 0, 0, 2)
        s.row(0, (1, 1, 1, 1), 1)
    for encoding in (5, 6, 7, 8, 256, 2**32, 2**63, MOST):
        s.column(I32, encoding, 0, 2)
        s.row(0, (1, 1, 1, 1), 1)
    for kind, width in ((I32, 1), (I32, 256), (CHAR, 0), (CHAR, 256), (CHAR, 260), (CHAR, 2**32 + 4), (BLOB, 4), (STRING, 2**63),
                        (F64, MOST)):
        s.column(kind, 0, width, 2)
        s.row(0, (1, 1, 1, 1), 1)
    s.column(CHAR, 0, 4, 2)
    s.every()
    for rows, due in ((2**20 + 1, 3), (2**32 + 2, 3), (2**48 + 2, 3), (MOST, 3), (2**20, 11), (0, 11), (1, 11), (3, 11)):
        s.column(I32, 0, 0, rows)
        s.row(0, (1, 1, 1, 1), due)
        s.row(MOST, (0, 0, 0, 0), due)


def order(s):
    """Opening's number, then 7, then 4."""
    for encoding in range(5):
        for kind, width, rows in ((I32, 0, [1, None, 1]), (CHAR, 2, [b"a", b"bc", None]), (STRING, 0, [b"a", None, b"bcd"])):
            block = model.build(kind, encoding, width, rows)
            s.load(block)
            s.column(kind, encoding, width, 3)
            for r in range(3):
                s.short(r)
            s.beyond()
            s.lend(len(block) - 1)
            for r, lent in ((0, (0, 0, 0, 0)), (3, (0, 0, 0, 0)), (MOST, (1, 1, 1, 3)), (0, (1, 1, 1, 3))):
                assert s.row(r, lent) in (10, 11, 14)
            s.lend(len(block))


def cuts(s):
    """Every beginning of some blocks. The bytes that were cut off are still there, past what is lent."""
    for kind, encoding, width, rows in ((BLOB, 0, 0, [b"ab", b""]), (CHAR, 1, 1, [b"a", None]), (BLOB, 1, 0, [None, b"b"]),
                                        (I16, 2, 0, [7, 7, 8]), (STRING, 2, 0, [b"ab", b"ab"]), (BLOB, 3, 0, [b"c", None]),
                                        (I16, 3, 0, [1]), (I16, 4, 0, [None, 5]), (STRING, 4, 0, [b"a", None, b"bc"])):
        block = model.build(kind, encoding, width, rows)
        s.load(block)
        s.column(kind, encoding, width, len(rows))
        s.every(rows)
        for length in range(len(block)):
            s.lend(length)
            assert s.row(0, (1, 1, 1, 3)) not in (0, 4, 7)


def changes(s):
    """Each byte of some blocks changed, and the last row asked for."""
    for kind, encoding, width, rows, others in (
            (BLOB, 4, 0, [b"ab", None, b"c"], (0, 1, 3, 255)), (I16, 3, 0, [5, None, 5], (0, 2, 128)),
            (STRING, 1, 0, [b"a", None], (0, 2, 255)), (CHAR, 2, 2, [b"a", b"a", b"bc"], (0, 3, 129))):
        block = model.build(kind, encoding, width, rows)
        s.load(block)
        s.column(kind, encoding, width, len(rows))
        for i, byte in itertools.product(range(len(block)), others):
            if block[i] != byte:
                s.change(i, byte)
                s.row(len(rows) - 1, (1, 1, 1, 4))
                s.change(i, block[i])


# ---- by chance

def damaged(r, block):
    """A byte changed, or the end cut off or lengthened."""
    block = bytearray(block)
    if block and r.random() < 0.7:
        block[r.randrange(len(block))] = r.choice([0, 1, 2, 127, 128, 255, r.randrange(256)])
    elif block and r.random() < 0.5:
        del block[r.randrange(len(block)):]
    else:
        block += bytes(r.choice((0, 1)) for _ in range(r.randrange(1, 5)))
    return bytes(block)


def by_chance(s, times=200):
    """Columns, rows and areas at random; some blocks are damaged, some are told with other rows or another kind."""
    r = s.random
    for _ in range(times):
        kind, encoding = r.choice(KINDS), r.randrange(5)
        width = r.choice((1, 3, 4)) if kind == CHAR else 0
        rows = any_rows(s, kind, width, r.randrange(12))
        block = model.build(kind, encoding, width, rows)
        n = len(rows)
        if r.random() < 0.3:
            block = damaged(r, block)
        if r.random() < 0.1:
            n = max(0, n + r.choice((-1, 1, 2**32)))
        if r.random() < 0.1:
            kind, width = r.choice([(k, 3 if k == CHAR else 0) for k in KINDS])
        s.load(block)
        s.column(kind, encoding, width, n)
        for _ in range(3):
            lent = [r.choice((1, 1, 1, 2, 0)) for _ in range(3)] + [r.choice((0, 1, 2, 7, 9))]
            s.row(r.choice((0, max(n - 1, 0), n, r.randrange(n + 1))), tuple(lent))
        if r.random() < 0.2 and n < 2**48 and kind < 16:
            s.load(file_of(s.numbers, block))
            s.print_file()


# ---- the most

def most(s):
    """The most rows, in each encoding of runs, and a nullable block of many items."""
    n = 65537
    counts = [(1, le4(n) + le4(5 * (n - 1) + 3)), (n - 1, model.spell(MOST_RUN)), (1, model.spell(65535))]
    last, before = MOST_ROWS - 1, MOST_ROWS - 65535
    told = ((0, 0), (MOST_RUN - 1, 0), (MOST_RUN, 0), (2**47, 0), (before - 1, 1), (before, None), (last, None))
    for encoding, parts in ((2, [*counts, (n - 2, b"\0"), (1, b"\2\3")]),
                            (3, [*counts, (n - 2, b"\0"), (1, b"\2\3"), (n // 8, b"\xff"), (1, b"\xfe" + le4(n // 8 + 1))]),
                            (4, [(1, (8 + 5 * (n - 1) + 3 + 4 * n).to_bytes(8, "big") + b"\0\0\0\2"), *counts, (n - 2, keys(1)),
                                 (1, keys(2, 0) + b"\0\1")])):
        s.load(parts)
        s.column(BOOL, encoding, 0, MOST_ROWS)
        for r, row in told if encoding == 2 else told[2:]:
            s.exactly(r, 1 if row is None and encoding == 2 else row)
        s.row(MOST_ROWS, (1, 1, 1, 1), 7)
        s.row(last, (0, 1, 0, 0), 4)
        s.column(BOOL, encoding, 0, MOST_ROWS - 1)
        s.row(0, (1, 1, 0, 0), 16)
        s.column(BOOL, encoding, 0, MOST_ROWS + 1)
        s.row(0, (1, 1, 0, 0), 3)
    n = 600000
    s.load([(n - 1, b"\1"), (1, b"\0"), (n // 8 - 1, b"\xff"), (1, b"\x7f" + le4(n // 8))])
    s.column(BOOL, 1, 0, n)
    for r, row in ((0, 1), (n // 2, 1), (n - 2, 1), (n - 1, None)):
        s.exactly(r, row)
    s.row(n, (1, 1, 0, 0), 7)


# ---- files

def long_column(n):
    """Runs of 700 rows each, the last shorter."""
    told = [700] * (n // 700) + [n % 700] * (n % 700 > 0)
    counts = b"".join(map(model.spell, told)).hex()
    return (I16, 2, 0, 0, n), runs(counts, b"".join(i.to_bytes(2, "little") for i in range(len(told))), len(told))


def files(s):
    """What the program prints of a file: its own tests come first; how many rows are compared; and of a sheet file."""
    for file, due in ((b"", "refused 10"), (bytes(7), "refused 10"), (file_of((I32, 0, 0, 1, 0), b""), "refused 1"),
                      (file_of((I32, 0, 0, 0, 0), b""), "same 0"), (file_of(SAMPLES[0][0], A), "same 4"),
                      (file_of(SAMPLES[-1][0], J), "refused 15"), (file_of((I32, 7, 0, 0, 0), b""), "refused 1"),
                      (file_of((15, 7, 255, 1, MOST_ROWS), b"\xff"), "refused 1")):
        s.load(file)
        s.print_file(due)
    s.load([(1, descriptor(BLOB, 0, 0, 1) + le4(MOST_FILE - 12)), (MOST_FILE - 12, b"x")])
    s.print_file("same 1")
    s.load([(1, descriptor(BLOB, 0, 0, 1) + le4(MOST_FILE - 11)), (MOST_FILE - 11, b"x")])
    s.print_file("refused 3")
    for columns in ([], [(numbers, block) for numbers, block, _ in SAMPLES if numbers[4] < 2**31],
                    [((I32, 0, 0, 1, 1), bytes(4)), ((I32, 0, 0, 0, 1), bytes(4)), ((I32, 2, 0, 0, 0), b"")]):
        s.load(sheet_of(columns))
        s.print_sheet()
    file = sheet_of([((I32, 0, 0, 0, 1), bytes(4)), ((I32, 0, 0, 0, 1), bytes(4))])
    for changed in (file[:-1], file[:9] + bytes(4) + file[13:], b"\3" + file[1:], b"\x41" + bytes(16 * 65), b"\2" + bytes(31), b"",
                    b"\x40" + bytes(1024)):
        s.load(changed)
        s.print_sheet()
    s.load([(1, b"\0"), (MOST_FILE, b"\0")])
    s.print_sheet()
    s.lend(MOST_FILE)
    s.print_sheet()


SECTIONS = (samples, all_pairs, all_limits, wide_chars, marks, spread, entered, empty, names, order, answers.refusals, answers.texts, cuts,
            changes, by_chance, files, most)


def make_commands(seed, folder):
    s = Script(seed)
    make_sections(s, SECTIONS, lambda s: sum(s.counts.values()), "commands")
    by_number = collections.Counter()
    for (refusal, _), n in s.refusals.items():
        by_number[refusal] += n
    print("%d bytes, %d commands, of them %d blocks; rows asked: %s" % (
        len(s.commands), sum(s.counts.values()), s.counts[0], dict(sorted(by_number.items()))))
    write_script(s, folder, MOST_COMMANDS)


# ---- what `night` is run on

def refused_columns():
    """A column for each number of opening, of the encodings that have it."""
    one, of_one = le4(7), runs("01", keys(1))
    good = runs("01", one)
    told = (
        ((12, 0, 0, 0, 1), one), ((I32, 5, 0, 0, 1), one), ((I32, 0, 1, 0, 1), one), ((CHAR, 0, 0, 0, 1), one), ((I32, 0, 0, 1, 1), one),
        ((I32, 0, 0, 0, 2**20 + 1), one), ((I32, 1, 0, 0, 2**20 + 1), one), ((I32, 2, 0, 0, 1), runs("01", one, 2**20 + 1)),
        ((I32, 4, 0, 0, 1), dictionary(of_one, 65537, one)), ((BLOB, 0, 0, 0, 1), b"\0"), ((I32, 1, 0, 0, 1), b"\0"),
        ((I32, 1, 0, 0, 17), le4(3)), ((I32, 2, 0, 0, 1), good[:7]), ((I32, 3, 0, 0, 1), runs("01", one, 1, 99)),
        ((I32, 4, 0, 0, 1), bytes(11)), ((I32, 4, 0, 0, 1), dictionary(of_one, 1, one, MOST)), ((I32, 0, 0, 0, 1), one[:3]),
        ((CHAR, 0, 3, 0, 1), b"ab"), ((BLOB, 0, 0, 0, 1), ends(1) + b"ab"), ((I32, 1, 0, 0, 1), bits(one, "01", 2)),
        ((I32, 2, 0, 0, 1), runs("01", b"")), ((I32, 3, 0, 0, 1), runs("01", bits(b"", "01"))),
        ((I32, 4, 0, 0, 1), dictionary(of_one, 1, b"")), ((I32, 2, 0, 0, 1), runs("80", one)), ((I32, 2, 0, 0, 1), runs("8100", one, 1)),
        ((I32, 3, 0, 0, 1), runs("FFFFFFFF10", one, 1)), ((I32, 4, 0, 0, 1), dictionary(runs("8100", keys(1), 1), 1, one)),
        ((I32, 2, 0, 0, 1), runs("00", one)), ((I32, 2, 0, 0, 1), runs("01", one, 0)), ((I32, 2, 0, 0, 1), runs("0101", one, 1)),
        ((I32, 2, 0, 0, 1), runs("01", one + one, 2)), ((BLOB, 0, 0, 0, 2), ends(2, 1) + b"ab"),
        ((STRING, 3, 0, 0, 1), runs("01", bits(ends(2) + b"a", "00"))), ((BLOB, 4, 0, 0, 1), dictionary(of_one, 1, ends(2) + b"a")),
        ((BLOB, 4, 0, 0, 4), J), ((I32, 4, 0, 0, 1), dictionary(runs("01", keys(2)), 1, one)), ((I32, 2, 0, 0, 1), b""),
        ((I32, 3, 0, 0, 2), good), ((I32, 4, 0, 0, 2), dictionary(of_one, 1, one)), ((CHAR, 0, 1, 0, 1), b"\xff"),
        ((STRING, 1, 0, 0, 1), bits(ends(1) + b"\x80", "00")), ((STRING, 4, 0, 0, 0), dictionary(b"", 1, ends(1) + b"\xc3")))
    assert all(opening(*column) for column in told)
    return told


def night_files():
    """The files by name, in the order of the list; a name and whether it is a sheet file's."""
    pairs = []
    for kind, encoding in itertools.product(KINDS, range(5)):
        p, q, x = VALUES[kind]
        rows = [None, p, p, q, None, None, x, p, x]
        pairs.append(((kind, encoding, width_of(kind), 0, len(rows)), model.build(kind, encoding, width_of(kind), rows)))
    most = model.spell(MOST_RUN)
    most_keys = runs((model.spell(MOST_RUN - 1) + most + b"\4").hex(), keys(2, 0, 1), 3)
    made = {
        "empty": b"", "short": bytes(7), "zero_bit": file_of((I32, 0, 0, 1, 1), le4(7)), "no_rows": file_of((BLOB, 4, 0, 0, 0), bytes(12)),
        "rows_2000": file_of(*long_column(2000)), "rows_2001": file_of(*long_column(2001)), "rows_3000": file_of(*long_column(3000)),
        "rows_many": file_of((CHAR, 3, 2, 0, 3 * MOST_RUN + 5), runs((3 * most + b"\5").hex(), bits(b"a\0bcd\0\0\0", "0b"), 4)),
        "rows_many_keys": file_of((F64, 4, 0, 0, 2**33 + 1), dictionary(most_keys, 2, bytes(8) + bytes(range(8)))),
        "longest": file_of((BLOB, 0, 0, 0, 1), le4(MOST_FILE - 12) + b"x" * (MOST_FILE - 12)),
        "too_long": file_of((BLOB, 0, 0, 0, 1), le4(MOST_FILE - 11) + b"x" * (MOST_FILE - 11)),
    }
    sheets = {"pairs": sheet_of(pairs), "refusals": sheet_of(refused_columns()), "no_columns": b"\0", "cut_directory": b"\2" + bytes(31),
              "outside": b"\1" + descriptor(I32, 0, 0, 0) + le4(0) + le4(0)}
    return made, sheets


def make_night():
    program = ROOT / "crates/night"
    (program / "data").mkdir(exist_ok=True)
    samples_dir = ROOT / "samples"
    made, sheets = night_files()
    for path in sorted(samples_dir.iterdir()):
        if path.suffix not in (".txt", ".md"):
            (sheets if path.name.startswith("sheet") else made)[path.name] = path.read_bytes()
    lines, told = [], []
    for name, data in made.items():
        lines += [name, ""] if name == "short" else [name]
        told.append(name + " " + of_file(data))
    for name, data in sheets.items():
        lines.append("sheet " + name)
        told += of_sheet(name, data)
    for name, data in {**made, **sheets}.items():
        (program / "data" / name).write_bytes(data)
    # what can't be read, a sheet file taken for a block, a block taken for a sheet file, and lines that are too long
    for name, sheet in (("missing", 0), (".", 0), ("missing", 1), ("", 1), ("pairs", 0), ("rows_2000", 1), ("x" * 5000, 0), ("y" * 4096, 1),
                        ("z" * 5000, 1)):
        data = {**made, **sheets}.get(name, b"")
        lines.append("sheet " * sheet + name)
        shown = name[:4102 - 6 * sheet]
        told += of_sheet(shown, data) if sheet else [shown + " " + of_file(data)]
    # the last line has no end
    lines.append("nullable_i16")
    told.append("nullable_i16 " + of_file(made["nullable_i16"]))
    told.append("files %d differs 0" % sum(map(bool, lines)))
    (program / "stdin").write_text("\n".join(lines))
    (program / "stdout").write_text(text_of(told))
    print("night: %d files, %d lines" % (sum(map(bool, lines)), len(told)))


if __name__ == "__main__":
    make(sys.argv[1:], SEED, "try_slow", make_commands, make_night)

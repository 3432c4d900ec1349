"""Makes the commands and the stored answers of the program `try_comparing` (its files stdin and stdout), what the program `compare` is run
on and has to print, and the two columns of samples/ that are compared.

    python3 tools/compares.py [SEED FOLDER]

Two columns are compared here a second time, from document 02 (xi), row by row, with tools/model.py, which opens and reads blocks.
crates/try_comparing/src/main.rt says what a command is. With no arguments the files are always the same; with another seed the random
commands are others, and the two files of `try_comparing` go to the folder. Where the document says which number or which ranges a call
answers, the call expects them here, and a reading that answers others stops the run.

Columns of more rows than can be read one by one are cut into stretches, each of which lies in one run of either block. Where the rows can
be read one by one, both ways are gone and have to agree.
"""
import collections
import functools
import itertools
import random
import sys

import listings
import model
from answers import any_item, bits, dictionary, ends, keys, lay, le4, number, runs
from listings import descriptor, fields
from making import ROOT, make, make_sections, write_script
from model import BLOB, CHAR, F64, FIXED, KINDS, MOST_RUN, STRING, Refused, float_bits, spell

SEED = 1
MOST = 2**64 - 1
MOST_ROWS = 2**48 - 1
ROOM = 700000  # bytes of the program's room for each block
SLOTS = 2100  # of each list that it lends, and what they are filled with
FILL = 0xaaaaaaaa
MOST_COMMANDS = 65536
FEW = 10000  # rows that are read one by one
I16, I32 = 1, 2


# ---- document 02's compare

@functools.lru_cache(maxsize=8)
def opened(numbers, block):
    """The zero bit of a descriptor counts as opening's 1."""
    kind, encoding, width, zero, rows = numbers
    if zero:
        raise Refused(1)
    return model.open_block(kind, encoding, width, rows, block)


def rows_read(reader, block):
    """The rows as read, one by one."""
    return [model.row_at(reader, block, place) for place, n in model.row_by_row(reader, block, reader.rows)[0] for _ in range(n)]


@functools.lru_cache(maxsize=8)
def pieces_read(reader, block):
    """The same with how many there are of each, a piece for each run."""
    return [(model.row_at(reader, block, place), n) for place, n in model.run_by_run(reader, block, reader.rows)[0]]


def ranges_of(differs):
    """The maximal ranges of places that differ: one begins where the place before doesn't differ, and ends where the next doesn't."""
    around = [False, *differs, False]
    firsts = [i for i, here in enumerate(differs) if here and not around[i]]
    lasts = [i for i, here in enumerate(differs) if here and not around[i + 2]]
    return list(zip(firsts, lasts))


def by_rows(one, other):
    """A row that only one column has counts as differing. None is null, and differs from every value."""
    return ranges_of([i >= len(one) or i >= len(other) or one[i] != other[i] for i in range(max(len(one), len(other)))])


def row_from(pieces):
    """The row at a place, for places that are asked for in order; nothing at or behind the end."""
    ends_of = list(itertools.accumulate(n for _, n in pieces))
    at = 0

    def row(place):
        nonlocal at
        while at < len(pieces) and ends_of[at] <= place:
            at += 1
        return pieces[at][:1] if at < len(pieces) else ()
    return row


def by_stretches(one, other):
    """The same by pieces."""
    bounds = sorted({0, *itertools.accumulate(n for _, n in one), *itertools.accumulate(n for _, n in other)})
    left, right = row_from(one), row_from(other)
    return [(bounds[i], bounds[j + 1] - 1) for i, j in ranges_of([left(at) != right(at) for at in bounds[:-1]])]


@functools.lru_cache(maxsize=16)
def ranges_between(a, first, b, second):
    """The descriptors' numbers are taken as they come."""
    if a[0] != b[0] or a[2] != b[2]:
        raise Refused(25)
    one, other = (opened(a, first), first), (opened(b, second), second)
    found = by_stretches(pieces_read(*one), pieces_read(*other))
    assert max(a[4], b[4]) > FEW or found == by_rows(rows_read(*one), rows_read(*other))
    return found


def compare(a, first, b, second, slots):
    """The number and the ranges; beside a refusal there are none."""
    try:
        found = ranges_between(a, first, b, second)
        if min(slots) < len(found):
            raise Refused(4)
    except Refused as e:
        return e.number, []
    return 0, found


# ---- the program `compare`

MOST_FILE = 65536
PRINTED = 2048  # the slots that it lends


def described(file):
    """A file's descriptor, after the tests that come before the other file's."""
    if len(file) < 8:
        raise Refused(10)
    if len(file) > MOST_FILE:
        raise Refused(3)
    numbers = fields(file[:8])
    if numbers[3]:
        raise Refused(1)
    return numbers


def printed(first, second):
    """The lines, of two files that could be read."""
    try:
        a, b = described(first), described(second)
    except Refused as e:
        return ["refused %d" % e.number]
    refusal, found = compare(a, first[8:], b, second[8:], (PRINTED, PRINTED))
    return ["refused %d" % refusal] if refusal else ["%d %d" % pair for pair in found] + ["end"]


# ---- columns

class Column(collections.namedtuple("Column", "kind encoding width zero rows parts")):
    """A descriptor's five numbers, and a block by its parts: how often each comes, and its bytes."""

    @property
    def numbers(self):
        return tuple(self[:5])

    @property
    def block(self):
        return b"".join(times * text for times, text in self.parts)

    def file(self):
        """Its parts as a file of a descriptor and a block."""
        kind, encoding, width, zero, rows = self.numbers
        return [(1, descriptor(kind, encoding, width, rows, zero)), *self.parts]


def stored(kind, encoding, width, rows, block):
    return Column(kind, encoding, width, 0, rows, ((1, block),) if block else ())


def column_of(kind, encoding, width, rows):
    return stored(kind, encoding, width, len(rows), model.build(kind, encoding, width, rows))


def width_of(kind):
    return 3 if kind == CHAR else 0


def all_present(items):
    return bits(b"".join(items), (2**len(items) - 1).to_bytes((len(items) + 7) // 8, "little").hex())


def in_runs(kind, encoding, items, counts, slots=None):
    """Items of the bytes given, with these counts; in encoding 4 runs of keys, which name the items by their slots."""
    told = b"".join(map(spell, counts)).hex()
    width, rows = width_of(kind), sum(counts)
    if encoding == 2:
        return stored(kind, 2, width, rows, runs(told, b"".join(items), len(counts)))
    if encoding == 3:
        return stored(kind, 3, width, rows, runs(told, all_present(items), len(counts)))
    return stored(kind, 4, width, rows, dictionary(runs(told, keys(*slots), len(counts)), len(items), b"".join(items)))


def as_stored(kind, items):
    """One column of items of the bytes given, in every encoding; each row a run, an item and an entry of its own."""
    n = len(items)
    yield stored(kind, 0, width_of(kind), n, b"".join(items))
    yield stored(kind, 1, width_of(kind), n, all_present(items))
    yield in_runs(kind, 2, items, [1] * n)
    yield in_runs(kind, 3, items, [1] * n)
    yield in_runs(kind, 4, items, [1] * n, range(1, n + 1))


NONE = column_of(I32, 0, 0, [])

# Of each number that opening refuses a column of i32 by, one; the zero bit is another 1.
UNSOUND = {
    1: stored(I32, 5, 0, 0, b""),
    3: stored(I32, 0, 0, 2**20 + 1, b"\1"),
    10: stored(I32, 1, 0, 1, b"\0\1\1"),
    11: stored(I32, 0, 0, 1, bytes(5)),
    12: stored(I32, 2, 0, 1, bytes.fromhex("01000000 01000000 80 07000000")),
    13: stored(I32, 2, 0, 1, bytes.fromhex("01000000 01000000 00 07000000")),
    15: stored(I32, 4, 0, 1, bytes.fromhex("000000000000000D 00000001 01000000 01000000 01 03000080 07000000")),
    16: column_of(I32, 2, 0, [7, 7, 7, -1])._replace(rows=5),
}
SOUND = column_of(I32, 3, 0, [7, None])


# ---- commands

class Script:
    """Commands, and what the program has to write for each. It keeps what the program keeps: two rooms for blocks, and the lengths at
    which they are lent."""

    def __init__(self, seed):
        self.random = random.Random(seed)
        self.commands = bytearray()
        self.answers = []
        self.rooms = bytearray(ROOM), bytearray(ROOM)
        self.lens = [0, 0]
        self.blocks = 0
        self.compared = collections.Counter()
        self.printed = collections.Counter()

    def command(self, op, *numbers):
        self.commands += bytes([op]) + b"".join(map(number, numbers))

    def answer(self, word, *numbers):
        self.answers.append(" ".join([word, *("%x" % n for n in numbers)]))

    def lent(self, which):
        return bytes(self.rooms[which][:self.lens[which]])

    def put(self, which, parts):
        """A block by its parts, unless it is there already. One that is given whole is cut where a byte is repeated."""
        block = b"".join(times * text for times, text in parts)
        if block == self.lent(which):
            return
        told = bytearray()
        self.lens[which] = lay(block if len(parts) < 2 else list(parts), told, self.rooms[which])
        told[0] = which  # the command's number
        self.commands += told
        self.blocks += 1
        self.answer("second" if which else "first", self.lens[which])

    def call(self, turned, a, b, slots):
        """One call, of the first block with the second, or of the second with the first."""
        assert max(slots) <= SLOTS
        self.command(3 if turned else 2, *a, *b, *slots)
        given = (a, self.lent(0)), (b, self.lent(1))
        refusal, found = compare(*given[turned], *given[1 - turned], slots)
        self.answer("compare", refusal, len(found))
        for word, lent, place in ((" firsts", slots[0], 0), (" lasts", slots[1], 1)):
            self.answer(word, *[pair[place] for pair in found], *[FILL] * (lent - len(found)))
        self.compared[refusal] += 1
        return refusal or found

    def ask(self, one, other, expect=None, back=None, slots=(2, 2)):
        """A call each way; a number or the ranges may be told, of the way back too."""
        self.put(0, one.parts)
        self.put(1, other.parts)
        for turned, due in ((0, expect), (1, back)):
            answer = self.call(turned, one.numbers, other.numbers, slots)
            assert due in (None, answer), (due, answer, one, other)

    def compare(self, one, other, expect=None):
        """Two columns that are sound, of which both ways give the same. The lists have a slot or two more than there are ranges."""
        found = ranges_between(one.numbers, one.block, other.numbers, other.block)
        self.ask(one, other, found if expect is None else expect, found, (len(found) + 1, len(found) + 2))

    def print(self, one, other, expect=None):
        """What the program prints of two files by their parts; the lines may be told, or the number of a refusal."""
        self.put(0, one)
        self.put(1, other)
        self.command(4)
        lines = printed(self.lent(0), self.lent(1))
        told = ["refused %d" % expect] if isinstance(expect, int) else expect or lines
        assert told == lines, (told, lines)
        self.answers += lines
        self.printed["compared" if lines[-1] == "end" else lines[-1]] += 1


# ---- rows

VALUES = {  # two rows that differ, and the default
    0: (1, 0, 0), 1: (-2, 300, 0), 2: (70000, -1, 0), 3: (2**40, -2**63, 0), 4: (1, -719162, 0), 5: (10**15, -1, 0), 6: (-10**15, 1, 0),
    7: ((14 << 32) + 2**32 - 3, 14 << 32, 0), CHAR: (b"ab", b"abc", b""), BLOB: (b"\xff\0", b"\xff", b""),
    STRING: (b"\xe2\x82\xac", b"x", b""), F64: (float_bits(0.0375), float_bits(-0.0), 0)}


def all_pairs(s):
    """Equal rows, other rows, null against null, value and default, and a tail: in every pair of encodings, or, of the kinds that are
    integers as f64 is, in some."""
    for kind, (p, q, r) in VALUES.items():
        one = [p, p, q, None, r, None, q, p]
        other = [p, q, q, None, None, r, q, p, p, None]
        some = kind in FIXED and kind not in (0, F64)
        for encoding, second in ((i, (i + kind) % 5) for i in range(5)) if some else itertools.product(range(5), range(5)):
            s.compare(column_of(kind, encoding, width_of(kind), one), column_of(kind, second, width_of(kind), other))


def as_read(s):
    """Items that are stored otherwise and read alike: bools above 1, chars with bytes behind a NUL, what lies under a null."""
    bools = [[0, 1, 2, 255, 128, 0], [0, 255, 1, 2, 1, 0]]
    chars = [[b"x\0y", b"x\0\0", b"x\0z", b"\0ab", b"\0\0\0", b"abc"], [b"x\0\0", b"x\0\xff", b"x\0\0", b"\0\0\0", b"\0\0c", b"abc"]]
    for kind, lists in ((0, [[bytes([b]) for b in items] for items in bools]), (CHAR, chars)):
        for one, other in itertools.product(as_stored(kind, lists[0]), as_stored(kind, lists[1])):
            s.compare(one, other, [])
    # a run of items that read alike goes on over the other's runs
    s.compare(in_runs(0, 2, [b"\1", b"\2", b"\0"], [2, 3, 1]), in_runs(0, 4, [b"\0", b"\7", b"\1"], [1, 3, 1, 1], [3, 2, 3, 1]), [])
    s.compare(in_runs(CHAR, 3, chars[0][:3], [1, 2, 1]), in_runs(CHAR, 2, [b"x\0\0"], [4]), [])
    # under a null anything may lie; it isn't compared, and a value that is the same bytes differs from it
    under = [stored(I32, 1, 0, 3, bits(le4(5) + le4(n) + le4(6), bitmap)) for n, bitmap in ((7, "05"), (9, "05"), (7, "fd"))]
    s.compare(under[0], under[1], [])
    s.compare(under[0], under[2], [])
    s.compare(under[0], stored(I32, 0, 0, 3, le4(5) + le4(7) + le4(6)), [(1, 1)])
    s.compare(under[1], column_of(I32, 4, 0, [5, None, 6]), [])
    s.compare(under[1], column_of(I32, 4, 0, [5, 0, 6]), [(1, 1)])
    s.compare(stored(BLOB, 1, 0, 2, bits(ends(1, 2) + b"ab", "01")), column_of(BLOB, 1, 0, [b"a", None]), [])
    s.compare(stored(BLOB, 1, 0, 2, bits(ends(1, 2) + b"ab", "01")), column_of(BLOB, 3, 0, [b"a", b"b"]), [(1, 1)])
    # entries that are twice there, or that no row has
    twice = stored(I32, 4, 0, 4, dictionary(runs("01 01 02", keys(1, 2, 4)), 4, le4(7) + le4(7) + le4(3) + le4(8)))
    s.compare(twice, column_of(I32, 2, 0, [7, 7, 8, 8]), [])
    s.compare(twice, column_of(I32, 4, 0, [7, 7, 8, 8]), [])
    s.compare(twice, column_of(I32, 0, 0, [7, 8, 8, 7]), [(1, 1), (3, 3)])


def empty_and_null(s):
    """Null differs from no bytes, and no bytes from a NUL; in encodings 0 and 2 a null was stored as the default."""
    for kind in (CHAR, BLOB, STRING):
        width = width_of(kind)
        for one, other in itertools.product((1, 3, 4), (1, 3, 4)):
            s.compare(column_of(kind, one, width, [b"", None, None]), column_of(kind, other, width, [b"", b"", None]), [(1, 1)])
        for one, other in itertools.product((0, 2), (1, 3, 4)):
            s.compare(column_of(kind, one, width, [None, b""]), column_of(kind, other, width, [None, b""]), [(0, 0)])
        s.compare(column_of(kind, 0, width, [None, b""]), column_of(kind, 2, width, [b"", None]), [])
    s.compare(column_of(BLOB, 0, 0, [b"", b"\0", b"a"]), column_of(BLOB, 4, 0, [b"\0", b"\0", b"a\0"]), [(0, 0), (2, 2)])
    s.compare(column_of(I32, 0, 0, [None]), column_of(I32, 1, 0, [None]), [(0, 0)])
    s.compare(column_of(I32, 0, 0, [None]), column_of(I32, 1, 0, [0]), [])


def by_bits(s):
    """f64 by its bits, string by its bytes."""
    zeros = [float_bits(0.0), float_bits(-0.0)]
    nans = [0x7FF8000000000000, 0x7FF8000000000001, -2**63 + 0x7FF8000000000000]
    one = [zeros[0], zeros[1], nans[0], nans[0], nans[1], nans[2], float_bits(0.1 + 0.2)]
    other = [zeros[0], zeros[0], nans[0], nans[1], nans[1], nans[0], float_bits(0.3)]
    for encoding, second in itertools.product((0, 2, 4), (1, 3, 4)):
        s.compare(column_of(F64, encoding, 0, one), column_of(F64, second, 0, other), [(1, 1), (3, 3), (5, 6)])
    texts = [x.encode() for x in ("\u00e9", "e\u0301", "A", "\u212b", "\u00c5")]
    others = [x.encode() for x in ("e\u0301", "e\u0301", "a", "\u00c5", "\u00c5")]
    for encoding, second in itertools.product((0, 3), (2, 4)):
        s.compare(column_of(STRING, encoding, 0, texts), column_of(STRING, second, 0, others), [(0, 0), (2, 3)])
    # every byte of an item counts, the first and the last
    for kind in FIXED:
        if kind:
            size = FIXED[kind][0]
            items = [bytes(size), *(bytes(i) + b"\1" + bytes(size - 1 - i) for i in range(size))]
            s.compare(stored(kind, 0, 0, size + 1, bytes(size * (size + 1))), stored(kind, 0, 0, size + 1, b"".join(items)), [(1, size)])
    s.compare(column_of(CHAR, 0, 255, [b"q" * 254 + b"r"] * 2), column_of(CHAR, 3, 255, [b"q" * 254 + b"r", b"q" * 254 + b"s"]), [(1, 1)])
    s.compare(column_of(BLOB, 2, 0, [b"q" * 300] * 3), column_of(BLOB, 4, 0, [b"q" * 300, b"q" * 299, b"q" * 301]), [(1, 2)])


def tails(s):
    """Rows that only one column has: alone, behind rows that are equal, and joined with a row that differs just before."""
    for n, encoding in itertools.product((1, 3), (0, 1, 2, 3, 4)):
        s.compare(column_of(I16, 0, 0, []), column_of(I16, encoding, 0, [4] * n), [(0, n - 1)])
    for encoding, second in itertools.product(range(5), range(5)):
        s.compare(column_of(I16, encoding, 0, [1, 2]), column_of(I16, second, 0, [1, 2, 2]), [(2, 2)])
        s.compare(column_of(I16, encoding, 0, [1, 3]), column_of(I16, second, 0, [1, 2, 2]), [(1, 2)])
        s.compare(column_of(I16, encoding, 0, []), column_of(I16, second, 0, []), [])
    s.compare(column_of(I16, 3, 0, [3, 1, 3, 1]), column_of(I16, 4, 0, [1, 1, 1, 1, None]), [(0, 0), (2, 2), (4, 4)])
    s.compare(column_of(I16, 3, 0, [1, 1, 3]), column_of(I16, 4, 0, [1, 1, 1, None, None, 7]), [(2, 5)])
    s.compare(column_of(BLOB, 0, 0, [b"a"]), column_of(BLOB, 4, 0, [b"a", b"", None]), [(1, 2)])
    s.compare(column_of(STRING, 1, 0, []), column_of(STRING, 4, 0, [None]), [(0, 0)])
    s.compare(column_of(CHAR, 3, 9, [b"a"]), column_of(CHAR, 0, 9, []), [(0, 0)])
    # none of the rows that both have is equal
    s.compare(column_of(0, 0, 0, [1] * 9), column_of(0, 2, 0, [0] * 4), [(0, 8)])


def cut_otherwise(s):
    """The same three rows in all ways of runs on either side; and with a row that differs and whatever follows."""
    cuts = [(3,), (1, 2), (2, 1), (1, 1, 1)]
    for one, other in itertools.product(cuts, cuts):
        s.compare(in_runs(0, 2, [b"\1"] * len(one), one), in_runs(0, 3, [b"\2"] * len(other), other), [])
    for one, other in itertools.product(cuts[1:], cuts):
        left = in_runs(0, 4, [b"\1", b"\0"], one, [1] + [2] * (len(one) - 1))
        s.compare(left, in_runs(0, 2, [b"\1"] * len(other), other), [(one[0], 2)])
    one, other = in_runs(0, 3, [b"\1", b"\0", b"\1"], [7, 2, 300]), in_runs(0, 2, [b"\1", b"\1", b"\0", b"\1"], [3, 5, 200, 101])
    s.compare(one, other, [(7, 7), (9, 207)])


def stretches(s):
    """Plain items of every fixed kind, many of which go on alike: equal, other, and equal again."""
    due = [(0, 2), (10, 19), (29, 29)]
    for kind in FIXED:
        size = FIXED[kind][0]
        item, none = bytes(size - 1) + b"\1", bytes(size)
        one = Column(kind, 0, 0, 0, 30, ((3, none), (7, item), (10, none), (9, item), (1, none)))
        s.compare(one, Column(kind, 0, 0, 0, 30, ((30, item),)), due)
        s.compare(one, Column(kind, 1, 0, 0, 30, ((30, item), (1, bits(b"", "ffffff3f")))), due)
        s.compare(one, in_runs(kind, 2, [item], [30]), due)
    many = 100000
    parts = ((many // 2, b"\0"), (1, b"\1"), (many // 2 - 2, b"\0"), (1, b"\1"))
    s.compare(Column(0, 0, 0, 0, many, ((many, b"\0"),)), Column(0, 0, 0, 0, many, parts), [(many // 2, many // 2), (many - 1, many - 1)])


def alternating(s):
    """Every other row differs, from the first on and from the second on; all differ but one."""
    for n in (1, 2, 3, 8, 9):
        same = [i % 2 for i in range(n)]
        for (encoding, second), start in itertools.product(((0, 0), (0, 2), (1, 4), (2, 3)), (0, 1)):
            one, other = column_of(I16, encoding, 0, [1 - start] * n), column_of(I16, second, 0, same)
            s.compare(one, other, [(i, i) for i in range(start, n, 2)])
    for i in range(6):
        rows = [9] * i + [5] + [9] * (5 - i)
        around = [pair for pair in ((0, i - 1), (i + 1, 5)) if pair[0] <= pair[1]]
        s.compare(column_of(I16, 3, 0, [5] * 6), column_of(I16, 4, 0, rows), around)


# ---- lists

def every_other(n, more=0):
    """Bools of which every other is true, beside as many that are false: n ranges. The last row is equal, or where there is one more the
    last range's."""
    rows = 2 * n - more
    return Column(0, 0, 0, 0, rows, ((n - more, b"\1\0"), (more, b"\1"))), Column(0, 0, 0, 0, rows, ((rows, b"\0"),))


def lists(s):
    """Lists that are just long enough, one slot short in either or both, longer, and of no slots."""
    for n in (0, 1, 2, 3, 7):
        one, other = column_of(I32, 2, 0, [4, 5] * n + [4]), column_of(I32, 1, 0, [4, 9] * n + [4])
        short = max(n - 1, 0)
        for slots in sorted({(0, 0), (n, n), (n + 1, n), (n, n + 1), (n + 3, n + 2), (0, n), (n, 0), (short, n), (n, short), (short, n + 5),
                             (n + 5, short), (short, short)}):
            due = 4 if min(slots) < n else [(i, i) for i in range(1, 2 * n, 2)]
            s.ask(one, other, due, due, slots)
    # the tail is a range too
    for slots, due in (((1, 1), [(0, 1)]), ((0, 1), 4), ((1, 0), 4), ((0, 0), 4)):
        s.ask(column_of(I32, 2, 0, []), column_of(I32, 4, 0, [None, 1]), due, due, slots)


def many_ranges(s):
    """2,048 and 2,049 ranges, in lists that hold them and that don't."""
    for n, more in ((2048, 0), (2049, 1)):
        one, other = every_other(n, more)
        due = [(i, i) for i in range(0, 2 * n, 2)]
        s.put(0, one.parts)
        s.put(1, other.parts)
        for turned, slots in ((0, (n, n)), (1, (n - 1, n)), (0, (n, n - 1))):
            assert s.call(turned, one.numbers, other.numbers, slots) == (4 if min(slots) < n else due)
        s.print(one.file(), other.file(), 4 if n > PRINTED else ["%d %d" % pair for pair in due] + ["end"])
    # the last of 2,048 is a tail, and a tail is the 2,049th
    one, other = every_other(2047)
    longer = other._replace(rows=4097, parts=((4097, b"\0"),))
    due = [(i, i) for i in range(0, 4094, 2)] + [(4094, 4096)]
    s.print(one.file(), longer.file(), ["%d %d" % pair for pair in due] + ["end"])
    one, other = every_other(2048)
    longer = other._replace(rows=4097, parts=((4097, b"\0"),))
    s.print(longer.file(), one.file(), 4)


# ---- many rows

FULL = spell(MOST_RUN)


def long_runs(kind, encoding, items, full, rest, slots=None, rest_first=False):
    """Full runs, and one more of the rest; the items, or keys by their slots, come in turn."""
    n = full + 1
    counts = ((1, spell(rest)), (full, FULL)) if rest_first else ((full, FULL), (1, spell(rest)))
    head = le4(n) + le4(sum(times * len(text) for times, text in counts))
    inner = [keys(slot) for slot in slots] if encoding == 4 else items
    turns, left = n // len(inner), n % len(inner)
    body = ((turns, b"".join(inner)), (1, b"".join(inner[:left])))
    rows = full * MOST_RUN + rest
    if encoding == 2:
        return Column(kind, 2, 0, 0, rows, ((1, head), *counts, *body))
    length = 8 + sum(times * len(text) for times, text in (*counts, *body))
    return Column(kind, 4, 0, 0, rows,
                  ((1, length.to_bytes(8, "big") + len(items).to_bytes(4, "big") + head), *counts, *body, (1, b"".join(items))))


def two_to_the_40(s):
    """2^40 rows in 257 runs: equal, a row that differs, a row more."""
    rows = 2**40
    full, rest = divmod(rows, MOST_RUN)
    assert full + 1 == 257
    same = [long_runs(I32, 2, [le4(7)], full, rest), long_runs(I32, 2, [le4(7)], full, rest, rest_first=True),
            long_runs(I32, 4, [le4(7)], full, rest, [1]), long_runs(I32, 4, [le4(8), le4(7), le4(7)], full, rest, [2, 3])]
    for one, other in itertools.combinations_with_replacement(same, 2):
        s.compare(one, other, [])
    for longer in (long_runs(I32, 2, [le4(7)], full, rest + 1), long_runs(I32, 4, [le4(7)], full, rest + 1, [1])):
        s.compare(same[0], longer, [(rows, rows)])
    s.compare(same[0], long_runs(I32, 4, [le4(7)], full, rest, [0]), [(0, rows - 1)])
    s.compare(same[0], long_runs(I32, 2, [le4(9)], full, rest), [(0, rows - 1)])
    # runs that differ in turn
    turns = long_runs(I32, 4, [le4(7)], full, rest, [1, 0])
    due = [(i * MOST_RUN, (i + 1) * MOST_RUN - 1) for i in range(1, full, 2)]
    s.compare(same[0], turns, due)
    s.compare(same[3], turns, due)
    s.ask(same[1], turns, 4, 4, (len(due) - 1, len(due)))
    s.print(same[1].file(), turns.file(), ["%d %d" % pair for pair in due] + ["end"])
    s.print(same[0].file(), same[3].file(), ["end"])
    # the one row of a short column
    s.compare(column_of(I32, 0, 0, [7]), same[2], [(1, rows - 1)])
    s.compare(column_of(I32, 1, 0, [None]), same[2], [(0, rows - 1)])
    s.compare(NONE, same[2], [(0, rows - 1)])


def most_rows(s):
    """2^48 - 1 rows, the most that a block has."""
    full, rest = divmod(MOST_ROWS, MOST_RUN)
    assert (full, rest) == (65536, 65535)
    trues = long_runs(0, 2, [b"\1"], full, rest)
    s.compare(trues, long_runs(0, 2, [b"\1", b"\2", b"\xff"], full, rest, rest_first=True), [])
    s.compare(trues, long_runs(0, 2, [b"\0"], full, rest), [(0, MOST_ROWS - 1)])
    by_keys = long_runs(0, 4, [b"\1"], full, rest, [1], rest_first=True)
    s.compare(trues, by_keys, [])
    s.compare(trues, column_of(0, 4, 0, []), [(0, MOST_ROWS - 1)])
    s.compare(trues, column_of(0, 0, 0, [1]), [(1, MOST_ROWS - 1)])
    # nothing but the last rows of all
    last = Column(0, 2, 0, 0, MOST_ROWS, trues.parts[:-2] + ((65536, b"\1"), (1, b"\0")))
    s.compare(trues, last, [(MOST_ROWS - rest, MOST_ROWS - 1)])
    s.compare(by_keys, last, [(MOST_ROWS - rest, MOST_ROWS - 1)])
    # a row fewer
    s.compare(trues, long_runs(0, 2, [b"\1"], full, rest - 1), [(MOST_ROWS - 1, MOST_ROWS - 1)])
    # every other run of 65,537, which no list here holds
    s.ask(trues, long_runs(0, 2, [b"\1", b"\0"], full, rest), 4, 4, (9, 9))
    # a row more than there can be; the other's number before it
    more = trues._replace(rows=MOST_ROWS + 1)
    s.ask(more, column_of(0, 0, 0, []), 3, 3)
    s.ask(more, stored(0, 0, 0, 1, b""), 3, 11)


# ---- refusals

def other_numbers(s):
    """25 before opening's, on the numbers as they come: kinds and widths, not encodings, zero bits or rows."""
    numbers = NONE._replace
    for kind, other in ((12, 13), (BLOB, STRING), (CHAR, BLOB), (2, 3), (2, 4), (5, 6), (0, 256), (2, 2**32 + 2), (2, MOST),
                        (MOST - 1, MOST), (0, 2**63)):
        s.ask(numbers(kind=kind), numbers(kind=other), 25, 25)
    for width, other in ((4, 0), (0, 1), (1, 2), (0, 256), (255, 256), (0, 2**32), (0, 2**63), (MOST, 0), (MOST, MOST - 1)):
        s.ask(numbers(width=width), numbers(width=other), 25, 25)
        s.ask(numbers(kind=CHAR, width=width), numbers(kind=CHAR, width=other), 25, 25)
    # alike, and no column
    for kind, width in ((12, 0), (13, 0), (255, 0), (256, 0), (2**32 + 2, 0), (MOST, 0), (I32, 4), (I32, 256), (I32, MOST), (CHAR, 0),
                        (CHAR, 256), (F64, 8)):
        s.ask(numbers(kind=kind, width=width), numbers(kind=kind, width=width), 1, 1)
    # encodings are never compared
    for encoding, other in ((5, 0), (5, 6), (5, 5), (MOST, 2**32), (256, 0), (0, 2**32 + 2)):
        s.ask(numbers(encoding=encoding), numbers(encoding=other), 1, 1)
    # the zero bit is opening's 1, whatever number stands for it
    for zero in (1, 2, 256, 2**32, 2**63, MOST):
        s.ask(numbers(zero=zero), NONE, 1, 1)
        s.ask(numbers(zero=zero), numbers(zero=1), 1, 1)
        s.ask(numbers(zero=zero), numbers(kind=3), 25, 25)
        s.ask(numbers(zero=zero), numbers(width=1), 25, 25)
        s.ask(numbers(zero=zero), UNSOUND[16], 1, 16)
    for rows, due in ((1, 11), (2**20, 11), (2**20 + 1, 3), (MOST_ROWS, 3), (2**48, 3), (MOST, 3)):
        s.ask(numbers(rows=rows), NONE, due, due)


def in_order(s):
    """Opening's number of the first block comes before the second's; all of them before 4, and 25 before all."""
    for (one, first), (other, second) in itertools.combinations(UNSOUND.items(), 2):
        s.ask(first, second, one, other, (0, 0))
    for due, column in UNSOUND.items():
        s.ask(column, SOUND, due, due, (0, 0))
        s.ask(column, NONE, due, due, (3, 3))
        s.ask(column, SOUND._replace(zero=1), due, 1)
        s.ask(column._replace(zero=1), SOUND, 1, 1)
        s.ask(column._replace(zero=1), UNSOUND[16], 1, 16)
        s.ask(column, column, due, due)
        s.ask(column._replace(width=4), SOUND, 25, 25)
        s.ask(column._replace(kind=12), SOUND, 25, 25)
        s.ask(column._replace(kind=3), SOUND._replace(zero=1), 25, 25)
        # of other encodings and rows
        s.ask(column, NONE._replace(rows=1), due, 11)
    texts = {14: stored(STRING, 0, 0, 2, ends(2, 1) + b"ab"), 17: stored(STRING, 2, 0, 1, runs("01", ends(1) + b"\xff")),
             15: stored(STRING, 4, 0, 1, dictionary(runs("01", keys(2)), 1, ends(1) + b"\xff"))}
    for (one, first), (other, second) in itertools.permutations(texts.items(), 2):
        s.ask(first, second, one, other)
        s.ask(first, second._replace(kind=BLOB), 25, 25)
    s.ask(texts[17], column_of(STRING, 4, 0, [b"a"]), 17, 17, (0, 0))
    s.ask(stored(CHAR, 0, 2, 1, b"a\xff"), stored(CHAR, 0, 2, 1, b"a\0"), 17, 17)
    s.ask(stored(CHAR, 0, 2, 1, b"a\xff"), stored(CHAR, 0, 3, 1, b"a\0\0"), 25, 25)
    s.ask(SOUND, NONE, 4, 4, (0, 0))
    s.ask(SOUND, SOUND, [], [], (0, 0))


# ---- files

def faults():
    """Files that are refused by a test of their own, with their numbers."""
    yield 10, []
    yield 10, [(1, descriptor(I32, 0, 0, 0)[:7])]
    yield 3, [(1, descriptor(0, 0, 0, 65529)), (65529, b"\0")]
    yield 3, [(1, descriptor(I32, 0, 0, 65529, 1)), (65529, b"\0")]
    yield 1, SOUND._replace(zero=1).file()
    yield 1, [(1, descriptor(3, 0, 0, 1, 1))]


def files(s):
    """The order of the program's numbers: the first file's own, the second's, then 25, opening's and 4."""
    for (due, one), (_, other) in itertools.product(faults(), faults()):
        s.print(one, other, due)
    for due, one in faults():
        for other in (SOUND, UNSOUND[11], UNSOUND[15], column_of(CHAR, 0, 3, [b"a"])):
            s.print(one, other.file(), due)
            s.print(other.file(), one, due)
    for due, one in UNSOUND.items():
        s.print(one.file(), SOUND.file(), due)
        s.print(SOUND.file(), one.file(), due)
        s.print(one.file(), UNSOUND[16].file(), due)
        s.print(one.file(), column_of(3, 0, 0, [1]).file(), 25)
        s.print(column_of(BLOB, 0, 0, []).file(), one.file(), 25)
    for kind, other in ((12, 13), (12, 12), (15, 15), (BLOB, STRING)):
        s.print([(1, descriptor(kind, 0, 0, 0))], [(1, descriptor(other, 0, 0, 0))], 25 if kind != other else 1)
    s.print([(1, descriptor(I32, 0, 4, 0))], [(1, descriptor(I32, 0, 0, 0))], 25)
    s.print([(1, descriptor(I32, 0, 4, 0))], [(1, descriptor(I32, 0, 4, 0))], 1)
    s.print([(1, descriptor(CHAR, 0, 255, 0))], [(1, descriptor(CHAR, 0, 254, 0))], 25)
    # descriptors alone, and rows
    for encoding, other in itertools.product((0, 2), (0, 2)):
        s.print([(1, descriptor(BLOB, encoding, 0, 0))], [(1, descriptor(BLOB, other, 0, 0))], ["end"])
    s.print([(1, descriptor(I32, 0, 0, 0))], column_of(I32, 4, 0, [5, None]).file(), ["0 1", "end"])
    s.print(SOUND.file(), SOUND.file(), ["end"])
    s.print(column_of(I32, 0, 0, [1, 2, 3, 4]).file(), column_of(I32, 2, 0, [1, 5, 5, 4]).file(), ["1 2", "end"])
    # the longest files
    longest = [[(1, descriptor(0, 0, 0, 65528)), (65527, byte), (1, b"\1")] for byte in (b"\0", b"\2")]
    s.print(longest[0], longest[1], ["0 65526", "end"])
    s.print(longest[1], longest[1], ["end"])
    s.print(longest[1], [*longest[0], (1, b"\0")], 3)
    s.print([*longest[1], (1, b"\0")], [], 3)
    s.print(longest[0], [(1, descriptor(0, 2, 0, 0))], ["0 65527", "end"])
    s.print(YESTERDAY.file(), TODAY.file(), RATES_CHANGED)
    s.print(TODAY.file(), YESTERDAY.file(), RATES_CHANGED)


# ---- by chance

def some_column(r, kind, width, rows):
    """Rows in some encoding, as our builder has them or, of some, a run for each row."""
    encoding = r.randrange(5)
    if kind in FIXED and encoding in (2, 3) and rows and None not in rows and r.random() < 0.4:
        return in_runs(kind, encoding, [model.item(kind, width, row) for row in rows], [1] * len(rows))
    return column_of(kind, encoding, width, rows)


def changed(r, rows, row):
    """Rows of which some are changed, cut off, added at the end or taken out."""
    rows = [row() if r.random() < 0.25 else x for x in rows]
    if r.random() < 0.4:
        rows = rows[:r.randrange(len(rows) + 1)]
    if r.random() < 0.4:
        rows += [row() for _ in range(r.randrange(4))]
    if rows and r.random() < 0.2:
        del rows[r.randrange(len(rows))]
    return rows


def damaged(r, column):
    """A byte of its block changed, if it has one."""
    block = bytearray(column.block)
    if block:
        block[r.randrange(len(block))] = r.choice([0, 1, 2, 127, 128, 255, r.randrange(256)])
    return stored(column.kind, column.encoding, column.width, column.rows, bytes(block))


def by_chance(s, times=70):
    """Rows and the same changed, in encodings and lists at random; of some a block is damaged."""
    r = s.random
    for _ in range(times):
        kind = r.choice(KINDS)
        width = r.choice((1, 3, 4)) if kind == CHAR else 0
        values = [any_item(r.choice, kind, width) for _ in range(3)] + [None]
        rows = []
        for _ in range(r.randrange(6)):
            rows += [r.choice(values)] * r.choice((1, 1, 2, 5))
        one, other = (some_column(r, kind, width, given) for given in (rows, changed(r, rows, lambda: r.choice(values))))
        n = len(ranges_between(one.numbers, one.block, other.numbers, other.block))
        if r.random() < 0.1:
            one = damaged(r, one)
        if r.random() < 0.1:
            other = damaged(r, other)
        s.ask(one, other, slots=tuple(max(0, n + r.choice((0, 0, 0, 1, 3, -1))) for _ in range(2)))
        if r.random() < 0.3:
            s.print(one.file(), other.file())


# ---- the files

RATES = ("rates_yesterday", "rates_today")
YESTERDAY = column_of(F64, 3, 0, [x and float_bits(x) for x in [.0375] * 4 + [.041] * 2 + [None] * 2 + [.0525] * 2])
TODAY = column_of(F64, 4, 0, [x and float_bits(x) for x in (.0375, .0375, .0395, .0375, .041, .041, None, .0475, .0525, None, .06, .06)])
RATES_CHANGED = ["2 2", "7 7", "9 11", "end"]

SECTIONS = (all_pairs, as_read, empty_and_null, by_bits, tails, cut_otherwise, stretches, alternating, lists, many_ranges, two_to_the_40,
            most_rows, other_numbers, in_order, files, by_chance)


def make_commands(seed, folder):
    s = Script(seed)
    make_sections(s, SECTIONS, lambda s: s.blocks, "blocks")
    write_script(s, folder, MOST_COMMANDS)
    print("%d bytes, %d blocks; compared: %s; printed: %s" % (
        len(s.commands), s.blocks, *(dict(sorted(c.items())) for c in (s.compared, s.printed))))


def text_of(lines):
    return "".join(line + "\n" for line in lines)


def make_samples():
    data = [b"".join(text for _, text in column.file()) for column in (YESTERDAY, TODAY)]
    program = ROOT / "crates/compare"
    (program / "data").mkdir(exist_ok=True)
    for name, file in zip(RATES, data):
        (ROOT / "samples" / name).write_bytes(file)
        (ROOT / "samples" / (name + ".txt")).write_text(text_of(listings.listing(file)[0]))
        (program / "data" / name).write_bytes(file)
    lines = text_of(printed(*data))
    (ROOT / "samples" / ("%s-%s.txt" % RATES)).write_text(lines)
    (program / "args").write_text("%s\n%s\n" % RATES)
    (program / "stdout").write_text(lines)


if __name__ == "__main__":
    make(sys.argv[1:], SEED, "try_comparing", make_commands, make_samples)

"""Makes the commands and the stored answers of the program `try_salvaging` (its files stdin and stdout), what the program `salvage` is run
on and has to print, and the damaged column of samples/ with the column that is made of it.

    python3 tools/salvages.py [SEED FOLDER]

A damaged dictionary column is repaired here a second time, from document 02 (xii), row by row, with tools/model.py, which opens and reads
blocks and builds them from rows. crates/try_salvaging/src/main.rt says what a command is. With no arguments the files are always the same;
with another seed the random commands are others, and the two files of `try_salvaging` go to the folder. Where the document says which
number, which ranges or which rows a call answers, the call expects them here, and a reading that answers others stops the run. So does a
repaired block that doesn't open, has other rows, is longer than the damaged one or isn't left as it is by another repair.

Columns of more rows than can be read one by one are repaired run by run. Where the rows can be read one by one, both ways are gone and have
to agree.

Not tried, for want of room: a block above 16,777,216 bytes.
"""
import collections
import functools
import itertools
import random
import sys

import listings
import model
from answers import any_item, dictionary, ends, keys, lay, le4, number, runs
from compares import VALUES, Column, column_of, ranges_of, stored, text_of, width_of
from listings import descriptor, fields
from making import ROOT, make, make_sections, write_script
from model import BLOB, BY_ENDS, CHAR, F64, KINDS, MOST_RUN, NULL_KEY, STRING, Refused, float_bits, spell

SEED = 1
MOST = 2**64 - 1
MOST_ROWS = 2**48 - 1
ROOM = 700000  # bytes of the program's room for a block, and of the memory that it lends
SLOTS = 100  # of each list that it lends
FILL, FILL_BYTE = 0xaaaaaaaa, b"\xaa"  # what slots and memory are filled with
SHOWN = 4000  # the most bytes that are shown; of more there are two sums
MOST_COMMANDS = 65536
FEW = 10000  # rows that are read one by one
BOOL, I16, I32 = 0, 1, 2
DICTIONARY = 4


# ---- document 02's salvage

def as_if_good(block):
    """The block with null's key, which every dictionary has, in the place of each key. Where the keys aren't all there the block stays: a
    rule that comes before them is broken."""
    at, end = 20 + int.from_bytes(block[16:20], "little"), 12 + int.from_bytes(block[:8], "big")
    if len(block) < 20 or not at <= end <= len(block):
        return block
    good = NULL_KEY.to_bytes(4, "little", signed=True) * ((end - at + 3) // 4)
    return block[:at] + good[:end - at] + block[end:]


def opened(numbers, block):
    """By the other rules. The zero bit of a descriptor counts as opening's 1."""
    kind, encoding, width, zero, rows = numbers
    if zero or encoding != DICTIONARY:
        raise Refused(1)
    return model.open_block(kind, encoding, width, rows, as_if_good(block))


def names_nothing(key, entries):
    """Null is the least key, and the entries are those behind it."""
    return key not in range(NULL_KEY, NULL_KEY + 1 + entries)


def row_in(reader, block, run):
    """A run's row after the repair, and whether it is one that is lost."""
    at = 12 + 8 + reader.counts + 4 * run
    if names_nothing(int.from_bytes(block[at:at + 4], "little", signed=True), reader.entries):
        return None, True
    return model.row_at(reader, block, run), False


def by_rows(reader, block):
    """The block of the repaired rows, and the ranges of those that are lost, row by row."""
    found = [row_in(reader, block, run) for run, n in model.row_by_row(reader, block, reader.rows)[0] for _ in range(n)]
    return model.build(reader.kind, DICTIONARY, reader.width, [row for row, _ in found]), ranges_of([lost for _, lost in found])


def joined(pieces):
    """The runs that rows make one after another, of which each piece has a row and how often it comes."""
    found = []
    for row, n in pieces:
        if found and found[-1][0] == row:
            more = min(n, MOST_RUN - found[-1][1])
            found[-1][1] += more
            n -= more
        found += [[row, MOST_RUN] for _ in range(n // MOST_RUN)]
        if n % MOST_RUN:
            found.append([row, n % MOST_RUN])
    return found


def built(kind, width, pieces):
    """The dictionary block of such rows."""
    made = joined(pieces)
    slots = {None: 0}
    for row, _ in made:
        slots.setdefault(row, len(slots))
    counts = b"".join(spell(n) for _, n in made).hex()
    key_block = runs(counts, keys(*(slots[row] for row, _ in made)), len(made)) if made else b""
    return dictionary(key_block, len(slots) - 1, model.plain(kind, width, list(slots)[1:]))


def pieces_in(reader, block):
    """Of each run its row after the repair, whether that is lost, and how often it comes."""
    return [(*row_in(reader, block, run), n) for run, n in model.run_by_run(reader, block, reader.rows)[0]]


def by_runs(reader, pieces):
    """The same as by rows, run by run."""
    bounds = [0, *itertools.accumulate(n for _, _, n in pieces)]
    found = [(bounds[i], bounds[j + 1] - 1) for i, j in ranges_of([lost for _, lost, _ in pieces])]
    return built(reader.kind, reader.width, [(row, n) for row, _, n in pieces]), found


def runs_read(numbers, block):
    """A sound block's rows, as runs."""
    kind, encoding, width, _, rows = numbers
    reader = model.open_block(kind, encoding, width, rows, block)
    return joined([(model.row_at(reader, block, run), n) for run, n in model.run_by_run(reader, block, rows)[0]])


def opening(numbers, block):
    """Opening's number."""
    try:
        model.open_block(*numbers[:3], numbers[4], block)
    except Refused as e:
        return e.number
    return 0


@functools.lru_cache(maxsize=16)
def salvaged(numbers, block):
    """The repaired block and the ranges, after all tests but that for room."""
    at_open = 1 if numbers[3] or numbers[1] != DICTIONARY else opening(numbers, block)
    try:
        reader = opened(numbers, block)
    except Refused as e:
        # the number of opening, unless that is 15: then one of the entries'
        assert e.number == at_open or at_open == 15 and e.number in (10, 11, 14, 17), (e.number, at_open)
        raise
    pieces = pieces_in(reader, block)
    made, found = by_runs(reader, pieces)
    assert numbers[4] > FEW or (made, found) == by_rows(reader, block)
    # 15 is the only fault, or there is none: then the rows are the block's own
    assert at_open == (15 if found else 0), at_open
    rows = joined((row, n) for row, _, n in pieces)
    assert found or rows == runs_read(numbers, block)
    assert rows == runs_read(numbers, made) and len(made) <= len(block)
    assert made == block or salvaged(numbers, made) == (made, [])
    return made, found


def salvage(numbers, block, lent):
    """The number, the block and the ranges, of lists and memory of the lengths lent; beside a refusal there are none."""
    try:
        made, found = salvaged(numbers, block)
        if min(lent[:2]) < len(found) or lent[2] < len(made):
            raise Refused(4)
    except Refused as e:
        return e.number, b"", []
    return 0, made, found


# ---- the program `salvage`

MOST_FILE = 65536
MOST_RANGES = 6551  # every other of the 13,101 runs that a file has at most


def printed(file):
    """The lines, and the file that is made or none."""
    try:
        if len(file) < 8:
            raise Refused(10)
        if len(file) > MOST_FILE:
            raise Refused(3)
        numbers = fields(file[:8])
        made, found = salvaged(numbers, file[8:])
    except Refused as e:
        return ["refused %d" % e.number], None
    kind, encoding, width, _, rows = numbers
    whole = descriptor(kind, encoding, width, rows) + made
    assert len(found) <= MOST_RANGES and len(whole) <= MOST_FILE
    return ["%d %d" % pair for pair in found] + ["end"], whole


# ---- columns

def in_column(rows, block, kind=I32, width=None):
    """A dictionary column of the bytes given."""
    return stored(kind, DICTIONARY, width_of(kind) if width is None else width, rows, block)


def entered(kind, items):
    """Entries of the bytes given, as a plain block."""
    return model.plain(kind, 0, items) if kind in BY_ENDS else b"".join(items)


def keyed(kind, items, *told, width=None):
    """A dictionary column of entries of the bytes given. Each run is told by its key's slot, of 1 row, or by the slot and the count: slot 0
    is null, from 1 on they are the entries, and behind those they name nothing."""
    pairs = [run if isinstance(run, tuple) else (run, 1) for run in told]
    counts = b"".join(spell(n) for _, n in pairs).hex()
    key_block = runs(counts, keys(*(slot for slot, _ in pairs)), len(pairs)) if pairs else b""
    return in_column(sum(n for _, n in pairs), dictionary(key_block, len(items), entered(kind, items)), kind, width)


def items_of(kind, rows):
    return [model.item(kind, width_of(kind), row) for row in rows]


J = in_column(4, bytes.fromhex("000000000000001C 00000002 04000000 04000000 01010101 01000080 00000080 01000080 03000080"
                               "02000000 03000000 616263"), BLOB)
J_REPAIRED = bytes.fromhex("000000000000001C 00000001 04000000 04000000 01010101 01000080 00000080 01000080 00000080 02000000 6162")


# ---- commands

class Script:
    """Commands, and what the program has to write for each. It keeps what the program keeps: a room for a block, and the length at which
    it is lent."""

    def __init__(self, seed):
        self.random = random.Random(seed)
        self.commands = bytearray()
        self.answers = []
        self.room = bytearray(ROOM)
        self.len = 0
        self.counts = collections.Counter()
        self.salvaged = collections.Counter()
        self.printed = collections.Counter()

    def command(self, op, *numbers):
        self.commands += bytes([op]) + b"".join(map(number, numbers))
        self.counts[op] += 1

    def answer(self, word, *numbers):
        self.answers.append(" ".join([word, *("%x" % n for n in numbers)]))

    def show(self, word, data):
        """Bytes, or of many two sums."""
        if len(data) > SHOWN:
            to_each = list(itertools.accumulate(data))
            self.answer(word, to_each[-1] % 2**64, sum(to_each) % 2**64)
        else:
            self.answers.append(word + ":" + data.hex())

    def lent(self):
        return bytes(self.room[:self.len])

    def put(self, parts):
        """A block by its parts, unless it is there already. Where a byte or two are others they are changed. One that is given whole is cut
        where a byte is repeated."""
        block, before = b"".join(times * text for times, text in parts), self.lent()
        if block == before:
            return
        places = [i for i, (byte, old) in enumerate(zip(block, before)) if byte != old]
        if len(block) == len(before) and len(places) <= 2:
            self.change(block, places)
            return
        told = bytearray()
        self.len = lay(block if len(parts) < 2 else list(parts), told, self.room)
        self.commands += told
        self.counts[0] += 1
        self.answer("block", self.len)

    def change(self, block, places):
        """The bytes at these places, to those of the block."""
        for place in places:
            self.command(1, place)
            self.commands.append(block[place])
            self.room[place] = block[place]
            self.answer("change", place, block[place])

    def ask(self, column, expect=None, lent=(2, 2, 80)):
        """One call; the number may be told."""
        assert max(lent[:2]) <= SLOTS and lent[2] <= ROOM
        self.put(column.parts)
        self.command(2, *column.numbers, *lent)
        refusal, made, found = salvage(column.numbers, self.lent(), lent)
        assert expect in (None, refusal), (expect, refusal, column)
        self.answer("salvage", refusal, len(made), len(found))
        for word, n, place in ((" firsts", lent[0], 0), (" lasts", lent[1], 1)):
            self.answer(word, *[pair[place] for pair in found], *[FILL] * (n - len(found)))
        self.show(" out", made + FILL_BYTE * (lent[2] - len(made)))
        self.salvaged[refusal] += 1

    def salvage(self, column, ranges=None, rows=None, block=None):
        """A column that can be salvaged; the ranges, and the rows or the block, may be told. The lists have a slot or two more than there
        are ranges, and there are three bytes more than the block has."""
        made, found = salvaged(column.numbers, column.block)
        due = block if rows is None else model.build(column.kind, DICTIONARY, column.width, rows)
        assert ranges in (None, found), (ranges, found, column)
        assert due in (None, made), (due, made, column)
        self.ask(column, 0, (len(found) + 1, len(found) + 2, len(made) + 3))

    def exactly(self, column):
        """In lists and memory that are just long enough, and with a slot or a byte less of each."""
        made, found = salvaged(column.numbers, column.block)
        due = len(found), len(found), len(made)
        self.ask(column, 0, due)
        for short in range(3):
            if due[short]:
                self.ask(column, 4, tuple(n - (i == short) for i, n in enumerate(due)))
                self.ask(column, 4, tuple(n - 1 if i == short else n + 4 for i, n in enumerate(due)))

    def print(self, parts, expect=None):
        """What the program prints of a file by its parts; the lines may be told, or the number of a refusal."""
        self.put(parts)
        self.command(3)
        lines, made = printed(self.lent())
        told = ["refused %d" % expect] if isinstance(expect, int) else expect or lines
        assert told == lines, (told, lines)
        self.answers += lines
        if made is not None:
            self.show("made " + made[:8].hex(), made[8:])
        self.printed["salvaged" if made is not None else lines[-1]] += 1


# ---- rows

def samples(s):
    """Document 01's samples J, of which the repaired block is written out here, and B, which is sound."""
    s.exactly(J)
    assert salvaged(J.numbers, J.block) == (J_REPAIRED, [(3, 3)])
    b = column_of(BLOB, DICTIONARY, 0, [b"ab", None, b"ab", b"c"])
    assert salvaged(b.numbers, b.block) == (b.block, [])
    s.exactly(b)
    s.print(J.file(), ["3 3", "end"])
    s.print(b.file(), ["end"])


def all_kinds(s):
    """Of each kind: J's like; unknown keys side by side and apart, at the start and at the end, beside null and between equal rows; all of
    them unknown; none."""
    for kind, (p, q, r) in VALUES.items():
        items = items_of(kind, (p, q))
        s.salvage(keyed(kind, items, 1, 0, 1, 3), [(3, 3)], [p, None, p, None])
        long = keyed(kind, items, (3, 2), (4, 1), 2, 9, 2, (0, 2), (2**31, 3), (0, 1), 1, 2, (2**32 - 1, 1), (1, 2), 3)
        s.salvage(long, [(0, 2), (4, 4), (8, 10), (14, 14), (17, 17)],
                  [None] * 3 + [q, None, q] + [None] * 6 + [p, q, None, p, p, None])
        s.salvage(keyed(kind, items_of(kind, (p, r)), 2, 3, 1), [(1, 1)], [r, None, p])
        s.salvage(keyed(kind, items, (3, 2), (7, 5)), [(0, 6)], [None] * 7)
        s.salvage(keyed(kind, [], 1, (2, 3)), [(0, 3)], [None] * 4)
        s.salvage(keyed(kind, [], (0, 4)), [], [None] * 4)
        s.salvage(column_of(kind, DICTIONARY, width_of(kind), [p, q, q, None, p, r]), [], [p, q, q, None, p, r])
    for width in (1, 2, 254, 255):
        items = [b"a" * width, b"b" + bytes(width - 1)]
        s.salvage(keyed(CHAR, items, 2, 3, 1, width=width), [(1, 1)], [b"b", None, items[0]])


def sequences(s):
    """Null, two entries and two unknown keys in every order, up to three of them; and four of null, an entry and two unknown keys, with
    more rows than one."""
    items = items_of(I16, (5, 6))
    for n in (1, 2, 3):
        for told in itertools.product((0, 1, 2, 3, 2**32 - 1), repeat=n):
            lost = [slot > 2 for slot in told]
            s.salvage(keyed(I16, items, *told), ranges_of(lost), [None if slot > 2 else (None, 5, 6)[slot] for slot in told])
    for i, told in enumerate(itertools.product((0, 1, 3, 2**31), repeat=4)):
        if i % 5 == 0:
            s.salvage(keyed(I16, items, *((slot, 1 + (i + j) % 3) for j, slot in enumerate(told))))


def unknown(s):
    """Which keys name an entry and which don't: those around the last entry, around 0 as a number, and the greatest."""
    for entries in (0, 1, 2, 7, 8, 9):
        items = items_of(I32, range(entries))
        for slot in (1, entries - 1, entries, entries + 1, entries + 2, 255, 256, 65536, 2**31 - 1, 2**31, 2**31 + 1, 2**32 - 1):
            if slot >= 0:
                lost = slot > entries
                s.salvage(keyed(I32, items, slot), [(0, 0)] if lost else [], [None if lost or not slot else slot - 1])


def most_entries(s):
    """65,536 entries, of which the last is another: what names it, and what would name one more."""
    block = [(1, (8 + 5 * 5).to_bytes(8, "big") + (65536).to_bytes(4, "big") + le4(5) + le4(5) + b"\1" * 5
              + keys(65536, 65537, 1, 65535, 65536)), (65535, b"\0"), (1, b"\1")]
    many = Column(BOOL, DICTIONARY, 0, 0, 5, tuple(block))
    s.salvage(many, [(1, 1)], [1, None, 0, 0, 1])
    s.ask(many._replace(parts=(*block[:1], (65536, b"\0"))), 0)
    s.ask(many._replace(parts=(*block[:1], (65535, b"\0"))), 11)
    s.ask(many._replace(parts=(*block[:1], (65537, b"\0"))), 11)


# ---- entries

def entries(s):
    """Entries that no key names, equal ones, and others than in order of first use."""
    values = [7, -1, 9]
    for told in itertools.permutations((1, 2, 3)):
        s.salvage(keyed(I32, items_of(I32, values), *told), [], [values[slot - 1] for slot in told])
        s.salvage(keyed(I32, items_of(I32, values), *told[:2], 4), [(2, 2)], [*(values[slot - 1] for slot in told[:2]), None])
        s.salvage(keyed(I32, items_of(I32, values), 4, told[0]), [(0, 0)], [None, values[told[0] - 1]])
    for kind, (p, q, _) in VALUES.items():
        twice = items_of(kind, (p, q, p, q))
        # runs of two equal entries are one run
        s.salvage(keyed(kind, twice, (3, 2), (1, 3), 5, 4, 2), [(5, 5)], [p] * 5 + [None, q, q])
        s.salvage(keyed(kind, twice, 4, 1, 2, 3, 0, 3), [], [q, p, q, p, None, p])
        s.salvage(keyed(kind, twice, 3, 6), [(1, 1)], [p, None])
    # more than a byte counts
    many = [i * 7 % 300 - 150 for i in range(300)]
    told = [i * 11 % 300 + 1 for i in range(300)]
    s.salvage(keyed(I16, items_of(I16, many), *told, 301, 1), [(300, 300)], [many[slot - 1] for slot in told] + [None, many[0]])
    # blobs of which one begins as the other, and empty ones
    blobs = [b"a", b"ab", b"", b"a", b"", b"abc"]
    for kind in BY_ENDS:
        s.salvage(keyed(kind, blobs, 6, 2, 1, 4, 3, 5, 0, 7, 5), [(7, 7)], [b"abc", b"ab", b"a", b"a", b"", b"", None, None, b""])
        s.salvage(keyed(kind, [b"", b""], 1, 2, 3), [(2, 2)], [b"", b"", None])
        s.salvage(keyed(kind, [b"long" * 70, b""], 2, 3, 1), [(1, 1)], [b"", None, b"long" * 70])
    # floats by their bits: both zeros, two that are no number
    floats = [float_bits(0.0), float_bits(-0.0), 0x7ff8000000000000, 0x7ff8000000000001, float_bits(0.0)]
    s.salvage(keyed(F64, items_of(F64, floats), 5, 2, 1, 4, 3, 6, 3), [(5, 5)], [floats[i] for i in (0, 1, 0, 3, 2)] + [None, floats[2]])


def as_read(s):
    """Entries that are stored otherwise and read alike: bools above 1, chars with bytes behind a NUL."""
    bools = [bytes([b]) for b in (2, 0, 1, 3, 255, 128)]
    s.salvage(keyed(BOOL, bools, 1, 4, 2, 7, 5, 6, 3), [(3, 3)], [1, 1, 0, None, 1, 1, 1])
    s.salvage(keyed(BOOL, bools[:1], (1, 3)), [], [1] * 3)
    for first, second in itertools.product((1, 2, 3, 255), repeat=2):
        s.salvage(keyed(BOOL, [bytes([first]), bytes([second])], 1, 2, 3), [(2, 2)], [1, 1, None])
    chars = [b"x\0y", b"x\0\0", b"x\0\xff", b"\0ab", b"\0\0\0", b"xyz", b"\0\0\xff"]
    for one, other in itertools.permutations((1, 2, 3), 2):
        s.salvage(keyed(CHAR, chars, one, other, 8, other), [(2, 2)], [b"x", b"x", None, b"x"])
    s.salvage(keyed(CHAR, chars, 4, 5, 7, 0, 6, 3, 9, 1), [(6, 6)], [b"", b"", b"", None, b"xyz", b"x", None, b"x"])
    s.salvage(keyed(CHAR, [b"x\0y"], 1), [], [b"x"])
    s.salvage(keyed(CHAR, [b"x\0y", b"x\0\0"], (1, 3), (2, 4)), [], [b"x"] * 7)
    # an empty row and null are two
    for kind in (CHAR, BLOB, STRING):
        empty = [bytes(width_of(kind))]
        s.salvage(keyed(kind, empty, 0, 1, 2, 1), [(2, 2)], [None, b"", None, b""])
    # a character of three bytes, which the width just holds
    s.salvage(keyed(CHAR, ["\u20ac".encode(), b"a\0\x80"], 2, 1, 3), [(2, 2)], [b"a", "\u20ac".encode(), None])


# ---- counts

def joins(s):
    """Runs that the repair makes one: the count grows by a byte, or stays as long."""
    items = items_of(I32, (5, 5, 6))
    limits = (1, 126, 127, 128, 16383, 16384, 2**21 - 1, 2**21, 2**28 - 1, 2**28)
    for n, more in itertools.product(limits, (1, 127)):
        s.salvage(keyed(I32, items, (0, n), (4, more)), [(n, n + more - 1)])
        s.salvage(keyed(I32, items, (9, more), (0, n), 3), [(0, more - 1)])
        s.salvage(keyed(I32, items, (2, n), (1, more), (7, 2)), [(n + more, n + more + 1)])
    s.salvage(keyed(I32, items, (4, 3), (0, 4), (5, 5), (6, 6), (0, 7), 1, (0, 8), (4, 9)), [(0, 2), (7, 17), (34, 42)])
    # every run of a long row of them
    s.salvage(keyed(I32, items, *((4 + i % 3, 1 + i) for i in range(20))), [(0, 209)])
    s.salvage(keyed(I32, items, *(((0, 4)[i % 2], 1) for i in range(40))))


def past_the_most(s):
    """Counts that join past 4,294,967,295, which is the most of a run: full runs, and the rest in the last."""
    half = 2**31

    def cut(slot, rows):
        return [(slot, MOST_RUN)] * (rows // MOST_RUN) + [(slot, rows % MOST_RUN)] * (rows % MOST_RUN > 0)
    pairs = [(MOST_RUN, 1), (1, MOST_RUN), (MOST_RUN - 1, 1), (MOST_RUN - 1, 2), (1, MOST_RUN - 1), (2, MOST_RUN - 1), (half, half),
             (half, half - 1), (half + 1, half), (MOST_RUN, MOST_RUN), (MOST_RUN, MOST_RUN - 1), (127, MOST_RUN), (MOST_RUN, 128)]
    for one, other in pairs:
        rows = one + other
        for told, lost in (((0, 2), (one, rows - 1)), ((2, 0), (0, one - 1)), ((3, 2), (0, rows - 1))):
            s.salvage(keyed(BOOL, [b"\1"], (told[0], one), (told[1], other)), [lost], block=keyed(BOOL, [], *cut(0, rows)).block)
        s.salvage(keyed(BOOL, [b"\1", b"\2"], (2, one), (1, other), 3), [(rows, rows)], block=keyed(BOOL, [b"\1"], *cut(1, rows), 0).block)
    counts = (5, MOST_RUN, 5, MOST_RUN, 1, half, half, half, 9)
    rows = list(itertools.accumulate(counts))
    last = rows[-1]
    s.salvage(keyed(BOOL, [b"\1"], *((2 + i, n) for i, n in enumerate(counts))), [(0, last - 1)],
              block=keyed(BOOL, [], *cut(0, last)).block)
    s.salvage(keyed(BOOL, [b"\1", b"\3"], *((1 + i % 2, n) for i, n in enumerate(counts)), 9), [(last, last)],
              block=keyed(BOOL, [b"\1"], *cut(1, last), 0).block)
    s.salvage(keyed(BOOL, [b"\1"], *((2 * (i % 2), n) for i, n in enumerate(counts))),
              [(rows[i - 1], rows[i] - 1) for i in range(1, len(counts), 2)])
    s.exactly(keyed(BOOL, [b"\0"], (2, 1), (0, MOST_RUN), (1, MOST_RUN), (2, MOST_RUN)))


FULL = spell(MOST_RUN)


def long_runs(items, full, rest, slots, rest_first=False):
    """A column of bools: full runs, and one more of the rest; the keys come in turn by their slots."""
    n = full + 1
    counts = ((1, spell(rest)), (full, FULL)) if rest_first else ((full, FULL), (1, spell(rest)))
    turns, left = divmod(n, len(slots))
    body = ((turns, keys(*slots)), (1, keys(*slots[:left])))
    held = 8 + sum(times * len(text) for times, text in (*counts, *body))
    head = held.to_bytes(8, "big") + len(items).to_bytes(4, "big") + le4(n) + le4(held - 8 - 4 * n)
    return Column(BOOL, DICTIONARY, 0, 0, full * MOST_RUN + rest, ((1, head), *counts, *body, (1, b"".join(items))))


def most_rows(s):
    """2^48 - 1 rows, the most that a block has."""
    full, rest = divmod(MOST_ROWS, MOST_RUN)
    assert (full, rest) == (65536, 65535)
    whole = [(0, MOST_ROWS - 1)]
    trues, nulls = long_runs([b"\1"], full, rest, [1]).block, long_runs([], full, rest, [0]).block
    s.salvage(long_runs([b"\2"], full, rest, [1]), [], block=trues)
    s.salvage(long_runs([], full, rest, [1]), whole, block=nulls)
    # the short run moves from the start to the end
    s.salvage(long_runs([], full, rest, [1, 2, 3], True), whole, block=nulls)
    s.salvage(long_runs([b"\1", b"\2"], full, rest, [1, 2], True), [], block=trues)
    # the last run of all
    last = long_runs([b"\1"], full, rest, [1])
    s.salvage(last._replace(parts=last.parts[:-3] + ((65536, keys(1)), (1, keys(2)), (1, b"\1"))), [(MOST_ROWS - rest, MOST_ROWS - 1)])
    # every other run, which no list here holds
    s.ask(long_runs([b"\1"], full, rest, [2, 1]), 4, (SLOTS, SLOTS, ROOM))
    # a byte less than the block has; a row more than there can be, which comes before
    s.ask(last, 4, (0, 0, len(last.block) - 1))
    s.ask(last._replace(rows=MOST_ROWS + 1), 3, (0, 0, 0))
    s.ask(last._replace(rows=MOST_ROWS - 1), 16, (0, 0, 0))


def no_rows(s):
    """Twelve zero bytes, whatever entries there were; and with no rows each rule still holds."""
    for kind, (p, q, r) in VALUES.items():
        for items in ([], items_of(kind, (p,)), items_of(kind, (q, q, r))):
            s.salvage(keyed(kind, items), [], [])
    s.exactly(keyed(I32, items_of(I32, (5,))))
    none = dictionary(b"", 1, b"")
    for kind, due in ((I32, 11), (BLOB, 10), (CHAR, 11), (BOOL, 11)):
        s.ask(in_column(0, none, kind), due)
    s.ask(in_column(0, dictionary(b"", 1, ends(1) + b"\xff"), STRING), 17)
    s.ask(in_column(0, dictionary(b"", 1, b"a\xff\0"), CHAR), 17)
    s.ask(in_column(0, dictionary(b"", 1, b"a\0\xff"), CHAR), 0)
    s.ask(in_column(0, dictionary(b"", 2, ends(2, 1) + b"a"), BLOB), 14)
    s.ask(in_column(0, dictionary(runs("01", keys(2)), 1, le4(7))), 16)
    s.ask(in_column(0, dictionary(runs("00", keys(2)), 1, le4(7))), 13)
    s.ask(in_column(0, dictionary(runs("", b""), 1, le4(7))), 13)
    s.ask(in_column(1, dictionary(b"", 1, le4(7))), 16)


def sound(s):
    """Blocks with no unknown key: as our builder has them they stay as they are; others are built anew, with the same rows."""
    for kind, (p, q, r) in VALUES.items():
        rows = [None, p, p, q, None, None, r, p, r, r]
        column = column_of(kind, DICTIONARY, width_of(kind), rows)
        assert salvaged(column.numbers, column.block) == (column.block, [])
        s.salvage(column, [], rows)
        s.salvage(keyed(kind, items_of(kind, (r, q, p, q)), 0, 3, 3, 2, (0, 2), 1, 3, 1, 1), [], rows)
    s.salvage(keyed(I32, items_of(I32, (1,)), *[1] * 130), [], [1] * 130)
    s.salvage(keyed(I32, items_of(I32, (1,)), *[0] * 129), [], [None] * 129)


# ---- refusals

def other_numbers(s):
    """1 for what is no dictionary column, whatever the block; the numbers are taken as they come."""
    numbers = keyed(I32, items_of(I32, (5,)), 1, 2)
    for encoding in (0, 1, 2, 3, 5, 6, 7, 256, 260, 2**32 + 4, 2**63 + 4, MOST):
        s.ask(numbers._replace(encoding=encoding), 1, (0, 0, 0))
    for kind in (12, 13, 15, 16, 255, 256, 258, 2**32 + 2, 2**63 + 2, MOST):
        s.ask(numbers._replace(kind=kind), 1)
    for width in (1, 4, 255, 256, 2**32, MOST):
        s.ask(numbers._replace(width=width), 1)
        if width > 255:
            s.ask(numbers._replace(kind=CHAR, width=width), 1)
    s.ask(numbers._replace(kind=CHAR, width=0), 1)
    for zero in (1, 2, 255, 256, 2**32, 2**63, MOST):
        s.ask(numbers._replace(zero=zero), 1)
    # sound blocks of the other encodings; the limit of rows comes behind 1
    for encoding in range(4):
        s.ask(column_of(I32, encoding, 0, [5, 5, None]), 1)
    s.ask(numbers._replace(zero=1, rows=MOST), 1)
    s.ask(numbers._replace(encoding=0, rows=MOST), 1)
    s.ask(numbers._replace(kind=12, rows=2**48), 1)
    for rows, due in ((0, 16), (1, 16), (2, 0), (3, 16), (2**20 + 1, 16), (MOST_ROWS, 16), (2**48, 3), (2**48 + 2, 3), (MOST, 3)):
        s.ask(numbers._replace(rows=rows), due)
    # of other kinds the same bytes are other entries
    for kind, due in ((3, 11), (I16, 11), (4, 0), (BLOB, 14), (F64, 11), (BOOL, 11)):
        s.ask(numbers._replace(kind=kind), due)
    for width, due in ((1, 11), (3, 11), (4, 0), (5, 11)):
        s.ask(numbers._replace(kind=CHAR, width=width), due)


def faults(slot):
    """Columns of a row, whose key's slot is told, that break a rule which is tested before the keys: its number, and the column."""
    entry, key = le4(7), keys(slot)
    good = runs("01", key)
    yield 3, in_column(1, dictionary(good, 65537, entry))
    yield 3, in_column(1, dictionary(good, 2**32 - 1, entry))
    for length in (len(good) + 5, 2**32, 2**63, MOST, MOST - 7, MOST - 11, MOST - 12):
        yield 10, in_column(1, dictionary(good, 1, entry, length))
    for block, due in ((b"", 16), (good[:7], 10), (runs("01", key, 2**20 + 1), 3), (runs("01", key, 0), 13), (runs("01", key, 1, 6), 10),
                       (runs("01", key, 1, 2**32 - 1), 10), (runs("80", key), 12), (runs("ffffffff10", key, 1), 12),
                       (runs("8100", key, 1), 12), (runs("808080808001", key, 1), 12), (runs("00", key), 13), (runs("0100", key + key), 13),
                       (runs("01", key + key, 2), 13), (runs("0101", key, 1), 13), (runs("02", key), 16), (runs("0101", key + key), 16),
                       (runs("01", key[:3]), 11), (runs("01", key + b"\x80"), 11), (runs("01", key + key), 11), (runs("01", b""), 11)):
        yield due, in_column(1, dictionary(block, 1, entry))
    yield 11, in_column(1, dictionary(good, 1, entry, len(good) - 1))
    yield 11, in_column(1, dictionary(good, 1, entry, len(good) + 1))


def entry_faults(slot):
    """Those that break a rule of the entries, which is tested behind the keys."""
    good = runs("01", keys(slot))
    for kind, items, n, due in (
            (I32, le4(7)[:3], 1, 11), (I32, le4(7) + b"\0", 1, 11), (I32, b"", 1, 11), (I32, b"\0", 0, 11), (BOOL, b"\1\1", 1, 11),
            (3, bytes(7), 1, 11), (BLOB, ends(1)[:3], 1, 10), (BLOB, b"", 1, 10), (BLOB, ends(2) + b"a", 1, 14),
            (BLOB, ends(2, 1) + b"ab", 2, 14), (BLOB, ends(1) + b"ab", 1, 11), (BLOB, b"a", 0, 11), (BLOB, ends(2**32 - 1) + b"a", 1, 14),
            (STRING, ends(1) + b"\xff", 1, 17), (STRING, ends(1, 2) + b"a\x80", 2, 17), (STRING, ends(2, 3) + "\u20ac".encode(), 2, 17),
            (STRING, ends(2) + b"\xff", 1, 14), (STRING, ends(1) + b"\xff\xff", 1, 11), (CHAR, b"ab\xff", 1, 17),
            (CHAR, b"abc\xc3\0\0", 2, 17), (CHAR, b"ab", 1, 11), (CHAR, b"\xffbcd", 1, 11)):
        yield due, in_column(1, dictionary(good, n, items), kind)


def refusals(s):
    """Each rule alone, beside null and beside an unknown key, which is no fault here; 4 comes behind them all."""
    for slot in (1, 0, 3):
        for due, column in itertools.chain(faults(slot), entry_faults(slot)):
            s.ask(column, due, (0, 0, 0) if slot == 3 else (1, 1, 40))
    # opening would say 15
    for due, column in entry_faults(3):
        assert opening(column.numbers, column.block) == 15 and due != 15
    # an entry that no key names is looked at too
    s.ask(keyed(STRING, [b"a", b"\xff"], 1, 3), 17)
    s.ask(keyed(STRING, [b"a", b"b"], 1, 3), 0)
    s.ask(keyed(CHAR, [b"abc", b"ab\xff"], 1, 3), 17)
    s.ask(keyed(BLOB, [b"a", b"\xff"], 1, 3), 0)
    s.ask(keyed(CHAR, [b"abc", b"a\0\xff"], 1, 3), 0)
    # two rules: the first of the list
    s.ask(in_column(2, dictionary(runs("00", keys(2)), 1, b"")), 13)
    s.ask(in_column(2, dictionary(runs("01", keys(2)), 1, b"")), 16)
    s.ask(in_column(1, dictionary(runs("01", keys(2)[:3]), 1, b"")), 11)
    s.ask(in_column(1, dictionary(runs("01", keys(2)), 65537, b"", 99)), 3)
    s.ask(in_column(1, dictionary(runs("8000", keys(2), 1), 1, b"")), 12)


def cuts(s):
    """Every beginning of J and of columns of a fixed kind and of chars with unknown keys."""
    for column in (J, keyed(I16, items_of(I16, (5, 6)), 1, 3, (2, 200)), keyed(CHAR, [b"abc"], 2, 1)):
        block = column.block
        for n in range(len(block)):
            s.ask(stored(*column.numbers[:3], column.rows, block[:n]), lent=(2, 2, 60))
            assert salvage(column.numbers, block[:n], (9, 9, 99))[0] not in (0, 4, 15)


def changes(s):
    """Each byte of J and of a column of chars changed."""
    for column, others in ((J, (0, 1, 5, 255)), (keyed(CHAR, [b"ab\0", b"ab\0"], 1, 0, 2, (3, 2)), (2, 128))):
        block = column.block
        for i, byte in itertools.product(range(len(block)), others):
            if block[i] != byte:
                s.ask(stored(*column.numbers[:3], column.rows, block[:i] + bytes([byte]) + block[i + 1:]), lent=(3, 3, 60))


def rooms(s):
    """Lists and memory that are just long enough, a slot or a byte short in each, and of none at all."""
    columns = [keyed(I32, items_of(I32, (5, 6)), 1, 2), keyed(I32, items_of(I32, (5, 5)), 1, 2, 3), keyed(I32, [], 1, 0, 2, 0, 3),
               keyed(BLOB, [b"unused", b"abc"], 2, 3, 2), keyed(CHAR, [b"x\0y", b"x\0\0"], 3, 1, 2, 4), keyed(STRING, [b"", b"a"], 2, 1, 9),
               keyed(BOOL, [b"\3"], (0, 100), (2, 28), 1), keyed(F64, items_of(F64, (1, 2, 3)), (5, 2), (0, 3))]
    for column in columns:
        s.exactly(column)
        s.ask(column, 4, (0, 0, 0))
        found = salvaged(column.numbers, column.block)[1]
        s.ask(column, 4 if found else 0, (0, 9, 80))
        s.ask(column, 4 if found else 0, (9, 0, 80))
        s.ask(column, 4, (9, 9, 11))
        # as many bytes as the damaged block has are always enough
        s.ask(column, 0, (len(found), len(found), len(column.block)))


# ---- files

def every_other(ranges, more=0):
    """A file with so many ranges: unknown keys and null in turn, and so many bytes more, of entries that no key names."""
    n = 2 * ranges - 1
    head = (8 + 5 * n).to_bytes(8, "big") + more.to_bytes(4, "big") + le4(n) + le4(n)
    return [(1, descriptor(BOOL, DICTIONARY, 0, n) + head), (n, b"\1"), (ranges - 1, keys(more + 1, 0)), (1, keys(more + 1)), (more, b"\1")]


def size(parts):
    return sum(times * len(text) for times, text in parts)


def files(s):
    """What the program prints, and the file that it makes: its own tests come first, and it has room for whatever a file holds."""
    s.print([], 10)
    s.print([(1, J.file()[0][1][:7])], 10)
    s.print(J.file()[:1], 10)
    s.print([(1, descriptor(I32, 2, 0, 0))], 1)
    s.print(J._replace(zero=1).file(), 1)
    s.print([(1, descriptor(BLOB, DICTIONARY, 0, 0, 1)[:7])], 10)
    for encoding in (0, 1, 2, 3, 5, 7):
        s.print(J._replace(encoding=encoding).file(), 1)
    s.print(J._replace(kind=12).file(), 1)
    s.print(J._replace(width=1).file(), 1)
    for due, column in itertools.chain(faults(2), entry_faults(2)):
        s.print(column.file(), due)
    for kind, (p, q, _) in VALUES.items():
        s.print(keyed(kind, items_of(kind, (q, p)), 2, 3, (9, 2), 0, 1).file(), ["1 3", "end"])
    s.print(keyed(I32, items_of(I32, (5,))).file(), ["end"])
    s.print(keyed(I32, [], (1, MOST_RUN), (0, 7), (2, MOST_RUN)).file(), ["0 4294967294", "4294967302 8589934596", "end"])
    # as many ranges as a file can have, in a file of just as many bytes, or a byte more
    most = every_other(MOST_RANGES)
    assert size(most) == MOST_FILE - 3
    due = ["%d %d" % (i, i) for i in range(0, 2 * MOST_RANGES - 1, 2)] + ["end"]
    s.print(most, due)
    s.print(every_other(MOST_RANGES, 3), due)
    s.print(every_other(MOST_RANGES, 4), 3)
    s.print([*most, (3, b"\0")], 11)
    s.print([*most, (4, b"\0")], 3)
    s.print([(1, descriptor(15, 7, 255, MOST_ROWS, 1)), (MOST_FILE - 7, b"\xff")], 3)
    # a longest file that is left as it is: as many runs, of null and three entries
    n = 2 * MOST_RANGES - 1
    longest = [(1, descriptor(CHAR, DICTIONARY, 1, n) + (8 + 5 * n).to_bytes(8, "big") + b"\0\0\0\3" + le4(n) + le4(n)), (n, b"\1"),
               (1, keys(1, 0, 2, 0, 3, 0)), (MOST_RANGES - 4, keys(1, 0)), (1, keys(1) + b"abc")]
    s.print(longest, ["end"])
    assert size(longest) == MOST_FILE and printed(s.lent())[1] == s.lent()
    s.print(DAMAGED.file(), LOST)


# ---- by chance

def some_item(r, kind, width):
    """A stored item: of bool any byte, of char often with bytes behind its NUL."""
    if kind == BOOL:
        return bytes([r.choice((0, 0, 1, 1, 2, 255))])
    if kind != CHAR:
        return model.item(kind, width, any_item(r.choice, kind, width))
    text = any_item(r.choice, kind, width).split(b"\0")[0]
    behind = bytes(r.choice((0, 0, 121, 255)) for _ in range(width))
    return text if len(text) == width else (text + b"\0" + behind)[:width]


def some_column(r):
    """A column with some unknown keys and some runs that can be joined."""
    kind = r.choice(KINDS)
    width = r.choice((1, 3, 4)) if kind == CHAR else 0
    items = [some_item(r, kind, width) for _ in range(r.randrange(5))]
    if items and r.random() < 0.5:
        items.append(r.choice(items))
    wrong = [len(items) + 1, len(items) + 2, 2**32 - 1, 2**31]
    told = []
    for _ in range(r.randrange(9)):
        slot = r.choice(wrong) if r.random() < 0.3 else r.randrange(len(items) + 1)
        told.append((slot, r.choice((1, 1, 2, 3, 100, 128))))
    if told and r.random() < 0.1:
        told.insert(r.randrange(len(told)), (r.choice(wrong + [0]), r.choice((MOST_RUN, MOST_RUN - 1, 2**31))))
    return keyed(kind, items, *told, width=width)


def damaged(r, column):
    """A byte of its block changed, or its end cut off or lengthened."""
    block = bytearray(column.block)
    if r.random() < 0.7:
        block[r.randrange(len(block))] = r.choice([0, 1, 2, 127, 128, 255, r.randrange(256)])
    elif r.random() < 0.5:
        del block[r.randrange(len(block)):]
    else:
        block += bytes(r.choice((0, 1)) for _ in range(r.randrange(1, 5)))
    return stored(column.kind, DICTIONARY, column.width, column.rows, bytes(block))


def by_chance(s, times=130):
    """Columns, lists and memory at random; of some the block has another fault too."""
    r = s.random
    for _ in range(times):
        column = some_column(r)
        made, found = salvaged(column.numbers, column.block)
        if r.random() < 0.3:
            column = damaged(r, column)
        lent = [max(0, n + r.choice((0, 0, 0, 1, 3, -1))) for n in (len(found), len(found), len(made))]
        s.ask(column, lent=tuple(lent))
        if r.random() < 0.3:
            s.print(column.file())


# ---- the files

SURCHARGES = ("surcharges_damaged", "surcharges_repaired")
# 25 25 40 40 40 null 25 60 60 25 40 40, of which the key of the 60s has become one behind the entries', and the last its own without its
# highest bit
DAMAGED = keyed(I32, items_of(I32, (25, 40, 60)), (1, 2), (2, 3), 0, 1, (7, 2), 1, (2**31 + 2, 2))
LOST = ["7 8", "10 11", "end"]

SECTIONS = (samples, all_kinds, sequences, unknown, entries, as_read, joins, past_the_most, no_rows, sound, other_numbers, refusals, cuts,
            changes, rooms, by_chance, files, most_entries, most_rows)


def make_commands(seed, folder):
    s = Script(seed)
    make_sections(s, SECTIONS, lambda s: sum(s.counts.values()), "commands")
    print("%d bytes, %d commands, of them %d blocks and %d changes; salvaged: %s; printed: %s" % (
        len(s.commands), sum(s.counts.values()), s.counts[0], s.counts[1], *(dict(sorted(c.items())) for c in (s.salvaged, s.printed))))
    write_script(s, folder, MOST_COMMANDS)


def make_samples():
    program = ROOT / "crates/salvage"
    (program / "data").mkdir(exist_ok=True)
    file = b"".join(times * text for times, text in DAMAGED.file())
    lines, made = printed(file)
    assert lines == LOST
    for name, data in zip(SURCHARGES, (file, made)):
        (ROOT / "samples" / name).write_bytes(data)
        (ROOT / "samples" / (name + ".txt")).write_text(text_of(listings.listing(data)[0]))
    (program / "data" / SURCHARGES[0]).write_bytes(file)
    (ROOT / "samples" / ("%s+%s.txt" % SURCHARGES)).write_text(text_of(lines))
    (program / "args").write_text("%s\n%s\n" % SURCHARGES)
    (program / "stdout").write_text(text_of(lines))


if __name__ == "__main__":
    make(sys.argv[1:], SEED, "try_salvaging", make_commands, make_samples)

"""Makes the commands and the stored answers of the program `try_sheets` (its files stdin and stdout), what the program `column` is run
on and has to print, and the sheet of samples/.

    python3 tools/sheets.py [SEED FOLDER]

Sheet files are read and written here a second time, from document 02 (ix), with tools/model.py, which opens and reads blocks, and
tools/listings.py, which lists them. crates/try_sheets/src/main.rt says what a command is. With no arguments the files are always the
same; with another seed the random commands are others, and the two files of `try_sheets` go to the folder. Where the document says which
number a call answers, the call expects it here, and a reading that answers another stops the run.

Not tried here, for want of room: a file of 16,777,216 bytes or above, opened or to be written. host/idzulgar/tests has those.
"""
import collections
import itertools
import random
import sys

import listings
import model
from answers import AREA, NO_READER, lay, number, text_within
from listings import descriptor, fields, some_row
from making import ROOT, make, make_sections, write_script
from model import BLOB, CHAR, F64, KINDS, STRING, Refused, float_bits

SEED = 1
MOST = 2**64 - 1
ROOM = 200000  # bytes of the program's room for a file
OUT = 70000  # of the memory that it lends to be written
SHOWN_OUT, SHOWN_PART = 4000, 64  # how many bytes it shows of that, and of a column's block
NUMBERS = 400  # its room for the numbers of columns to be written
MOST_COMMANDS = 65536


# ---- document 02's sheet files

MOST_FILE = 16777216
MOST_COLUMNS = 64


def directory_end(columns):
    return 1 + 16 * columns


def placed(file, j):
    """Column j's descriptor, its block's offset and length. Of the other columns nothing is looked at."""
    if len(file) > MOST_FILE:
        raise Refused(3)
    if not file or file[0] > MOST_COLUMNS or len(file) < directory_end(file[0]):
        raise Refused(21)
    if j >= file[0]:
        raise Refused(20)
    bits = int.from_bytes(file[directory_end(j):directory_end(j + 1)], "big")
    offset, length = bits >> 32 & 2**32 - 1, bits & 2**32 - 1
    if offset < directory_end(file[0]) or offset + length > len(file):
        raise Refused(22)
    return (bits >> 64).to_bytes(8, "big"), offset, length


def part(file, j):
    """The bytes that entry j names, sound or not; none where the file or the entry is refused."""
    try:
        _, offset, length = placed(file, j)
    except Refused:
        return b""
    return bytes(file[offset:offset + length])


def open_described(head, block):
    kind, encoding, width, zero, rows = fields(head)
    if zero:
        raise Refused(1)
    return model.open_block(kind, encoding, width, rows, block)


def open_column(file, j):
    """The number, the block's place and length, and the reader; beside a refusal nothing stands."""
    try:
        head, offset, length = placed(file, j)
        return 0, offset, length, open_described(head, part(file, j))
    except Refused as e:
        return e.number, 0, 0, NO_READER


def agree(one, other, j):
    """Whether two files are of one length and one number of columns, and agree in entry j and in the bytes that it names: then column j
    of both answers alike, whatever the rest holds."""
    own = slice(directory_end(j), directory_end(j + 1))
    return len(one) == len(other) and one[:1] == other[:1] and one[own] == other[own] and part(one, j) == part(other, j)


def entry(column, offset, length, zero=0):
    return descriptor(*column[:4], zero) + offset.to_bytes(4, "big") + length.to_bytes(4, "big")


def columns_lent(numbers, blocks):
    """The columns of five numbers each and their blocks, each of them sound."""
    if len(numbers) % 5 or len(numbers) // 5 > MOST_COLUMNS:
        raise Refused(21)
    columns, at = [], 0
    for i in range(0, len(numbers), 5):
        *named, length = numbers[i:i + 5]
        block = blocks[at:at + length]
        if len(block) < length:
            raise Refused(10)
        model.open_block(*named, block)
        columns.append(Column(*named, block))
        at += length
    return columns


def file_of(columns):
    """The blocks straight after the directory, in column order."""
    entries, at = b"", directory_end(len(columns))
    for column in columns:
        entries += entry(column, at, len(column.block))
        at += len(column.block)
    return bytes([len(columns)]) + entries + b"".join(column.block for column in columns)


def write(numbers, blocks, room):
    """The number, and the file or no bytes."""
    try:
        file = file_of(columns_lent(numbers, blocks))
        if len(file) > MOST_FILE:
            raise Refused(3)
        if room < len(file):
            raise Refused(4)
    except Refused as e:
        return e.number, b""
    return 0, file


# ---- the program `column`

MOST_LISTED = 65536


def named(text):
    """The column that an argument names, or None."""
    number = 0
    for byte in text:
        if not 48 <= byte <= 57:
            return None
        number = 10 * number + byte - 48
    return number if text and number < 2**64 else None


def column_listing(file, text):
    """The lines, of a file that could be read."""
    j = named(text)
    refusal = 3 if len(file) > MOST_LISTED else 20 if j is None else 0
    if refusal == 0:
        refusal, _, _, reader = open_column(file, j)
    return ["refused %d" % refusal] if refusal else listings.rows_listed(reader, part(file, j))[0]


# ---- columns

Column = collections.namedtuple("Column", "kind encoding width rows block")


def column_of(kind, encoding, width, rows):
    return Column(kind, encoding, width, len(rows), model.build(kind, encoding, width, rows))


def numbers_of(columns):
    return [x for c in columns for x in (*c[:4], len(c.block))]


def blocks_of(columns):
    return b"".join(c.block for c in columns)


C = column_of(1, 1, 0, [5, None, -2])
A = column_of(2, 2, 0, [7, 7, 7, -1])
D = column_of(CHAR, 0, 3, [b"a", b"abc", b"x\0y"])
B = column_of(BLOB, 4, 0, [b"ab", None, b"ab", b"c"])
TEXT = column_of(STRING, 0, 0, ["\u00e9".encode()])
EMPTY = column_of(2, 2, 0, [])  # a block of no bytes
NONE = column_of(0, 0, 0, [])  # another
SMALL = (C, TEXT, EMPTY)

EVERY_PAIR = [column_of(kind, encoding, 4 if kind == CHAR else 0, [row, row, None, other])
              for kind, (row, other) in {
                  0: (1, 0), 1: (-2, 300), 2: (70000, -1), 3: (2**40, -2**63), 4: (1, -719162), 5: (10**15, -1), 6: (-10**15, 0),
                  7: ((14 << 32) + 2**32 - 3, 30), CHAR: (b"ab", b"\xc3\xa9"), BLOB: (b"\xff\0", b""), STRING: (b"\xe2\x82\xac", b"x"),
                  F64: (float_bits(0.0375), float_bits(-0.0))}.items()
              for encoding in range(5)]

# Of each number that opening refuses by, a block.
UNSOUND = {
    1: Column(12, 0, 0, 0, b""),
    3: Column(0, 0, 0, 2**20 + 1, b"\1"),
    10: Column(1, 1, 0, 1, b"\0\1\1"),
    11: Column(2, 0, 0, 1, bytes(5)),
    12: Column(2, 2, 0, 1, bytes.fromhex("01000000 01000000 80 07000000")),
    13: Column(2, 2, 0, 1, bytes.fromhex("01000000 01000000 00 07000000")),
    14: Column(BLOB, 0, 0, 2, bytes.fromhex("02000000 01000000 6162")),
    15: Column(2, 4, 0, 1, bytes.fromhex("000000000000000D 00000001 01000000 01000000 01 03000080 07000000")),
    16: A._replace(rows=5),
    17: Column(CHAR, 0, 1, 1, b"\xff"),
}


# ---- commands

class Script:
    """Commands, and what the program has to write for each. It keeps what the program keeps: a room for the file, and the length at
    which it is lent."""

    def __init__(self, seed):
        self.random = random.Random(seed)
        self.commands = bytearray()
        self.answers = []
        self.room = bytearray(ROOM)
        self.len = 0
        self.files = 0
        self.agreed = 0
        self.opened = collections.Counter()
        self.written = collections.Counter()
        self.listed = collections.Counter()

    def command(self, op, *numbers):
        self.commands += bytes([op]) + b"".join(map(number, numbers))

    def answer(self, word, *numbers):
        self.answers.append(" ".join([word, *("%x" % n for n in numbers)]))

    def lent(self):
        return bytes(self.room[:self.len])

    def load(self, file):
        """A file by its bytes, or by its parts: how often each comes, and its bytes."""
        self.len = lay(file, self.commands, self.room)
        self.files += 1
        self.answer("file", self.len)

    def change(self, place, byte):
        self.command(2, place)
        self.commands.append(byte)
        self.room[place] = byte
        self.answer("change", place, byte)

    def lend(self, length):
        self.command(3, length)
        self.len = length
        self.answer("lend", length)

    def open(self, j, n=1, expect=None):
        """Columns j to j + n - 1, whose numbers may be told: one for all, or a list."""
        self.command(1, j, n)
        numbers = [self.open_one((j + i) % 2**64) for i in range(n)]
        told = numbers if expect is None else [expect] * n if isinstance(expect, int) else list(expect)
        assert told == numbers, (told, numbers)

    def open_one(self, j):
        file = self.lent()
        found, offset, length, reader = open_column(file, j)
        block = part(file, j)
        self.answer("open", j, found, offset, length, *reader.fields())
        self.answer(" part", len(block))
        self.answers[-1] += ":" + block[:SHOWN_PART].hex()
        if found == 0:
            self.read(reader, block)
        self.opened[found] += 1
        return found

    def read(self, reader, block):
        """The first four rows."""
        areas = [[AREA] * n for n in (4, 4, 4, 16)]
        rows, total, refusal = 0, 0, 0
        try:
            rows, total, reader = model.read(reader, block, 0, 4, *areas)
        except Refused as e:
            refusal = e.number
        self.answer("read", refusal, rows, total, *reader.fields())
        for word, area in zip(("values", "flags", "ends", "bytes"), areas):
            self.answer(" " + word, *(x % 2**64 for x in area))

    def write(self, numbers, room, goes_on=False, expect=None):
        """The blocks are the bytes of the file so far."""
        assert room <= OUT and len(numbers) <= NUMBERS
        self.command(5 if goes_on else 4, room, len(numbers), *numbers)
        refusal, file = write(numbers, self.lent(), room)
        assert expect in (None, refusal), (expect, refusal, numbers)
        self.answer("write", refusal, len(file))
        self.answers.append(" out:" + (file + bytes([AREA]) * (room - len(file)))[:SHOWN_OUT].hex())
        self.written[refusal] += 1
        if goes_on:
            self.room[:len(file)] = file
            self.len = len(file)

    def list(self, text, expect=None):
        """The column that an argument names; its lines may be told, or the number of a refusal."""
        self.command(6, len(text))
        self.commands += text
        lines = column_listing(self.lent(), text)
        told = ["refused %d" % expect] if isinstance(expect, int) else expect or lines
        assert told == lines, (told, lines)
        self.answers += lines
        self.listed["listed" if lines[-1] == "end" else lines[-1]] += 1

    # ---- sequences

    def write_columns(self, columns, room=None, goes_on=False, expect=None):
        self.load(blocks_of(columns))
        self.write(numbers_of(columns), len(file_of(columns)) if room is None else room, goes_on, expect)

    def write_and_open(self, columns, spare=0):
        """Written, then each column opened, and the one behind the last."""
        self.write_columns(columns, len(file_of(columns)) + spare, True, 0)
        self.open(0, len(columns) + 1, [0] * len(columns) + [20])

    def with_change(self, place, byte, columns):
        """A byte changed, columns opened, and the byte put back."""
        file = self.lent()
        self.change(place, byte)
        self.alike(file, range(columns))
        self.open(0, columns)
        self.change(place, file[place])

    def alike(self, file, columns):
        """What agrees with another file in a column answers as that does."""
        for j in columns:
            if agree(file, self.lent(), j):
                *told, reader = open_column(file, j)
                *found, other = open_column(self.lent(), j)
                assert told == found and reader.fields() == other.fields()
                self.agreed += 1


# ---- opening

def numbers_of_columns(s):
    """Files of 0, 1, 2, 64, 65 and 255 columns."""
    s.load(b"")
    s.open(0, 2, 21)
    s.open(MOST, 1, 21)
    s.load(b"\0")
    s.open(0, 2, 20)
    s.open(MOST, 1, 20)
    s.load(b"\0" + bytes(40))  # bytes behind a directory of none
    s.open(0, 1, 20)
    s.load(file_of([C]))
    s.open(0, 3, [0, 20, 20])
    s.load(file_of([C, B]))
    s.open(0, 4, [0, 0, 20, 20])
    same = entry(C, directory_end(64), len(C.block))
    s.load([(1, b"\x40"), (64, same), (1, C.block)])
    s.open(0, 1, 0)
    s.open(62, 4, [0, 0, 20, 20])
    s.lend(directory_end(64))  # the directory alone
    s.open(63, 2, [22, 20])
    s.lend(directory_end(64) - 1)  # and cut
    s.open(0, 1, 21)
    s.open(63, 2, 21)
    for columns in (65, 128, 255):
        s.load([(1, bytes([columns])), (columns, entry(C, directory_end(columns), len(C.block))), (1, C.block)])
        s.open(0, 1, 21)
        s.open(63, 3, 21)
        s.open(columns - 1, 2, 21)
    s.load(b"\x41")
    s.open(0, 1, 21)
    none = entry(NONE, directory_end(64), 0)
    s.load([(1, b"\x40"), (64, none)])  # 64 blocks of no bytes behind the directory, where the file ends
    s.open(0, 2, 0)
    s.open(63, 2, [0, 20])


def which_column(s):
    """The last column, the one behind it, and numbers whose sixteenfold wraps."""
    s.load(file_of([C, TEXT]))
    s.open(0, 3, [0, 0, 20])
    for j in (MOST, MOST - 1, 2**63, 2**60, 2**60 + 1, 2**59, 2**32, 2**32 + 1, 256, 257, 64, 65):
        s.open(j, 1, 20)
    s.open(MOST, 2, [20, 0])


def cuts(s):
    """A small file cut at every byte, and every column of it."""
    small = file_of(SMALL)
    s.load(small)
    c, text = SMALL[0], SMALL[1]
    end = directory_end(3)
    for n in range(len(small) + 1):
        s.lend(n)
        held = [end + len(c.block), end + len(c.block) + len(text.block), len(small)]
        s.open(0, 4, [21] * 4 if n < end else [*(0 if at <= n else 22 for at in held), 20])
    s.lend(len(small) + 5)  # what follows the last block isn't looked at
    s.open(0, 4, [0, 0, 0, 20])


def changes(s):
    """Every byte of a small file changed, and every column opened each time."""
    small = file_of(SMALL)
    s.load(small)
    for place, byte in enumerate(small):
        for value in sorted({0, 255, byte ^ 1, byte ^ 128} - {byte}):
            s.with_change(place, value, 4)
    assert s.lent() == small


def nothing_else(s):
    """Other bytes everywhere but in the first byte, in a column's entry and in its block."""
    small = file_of(SMALL)
    for j, other in itertools.product(range(3), (0, 64, 255)):
        own = {0, *range(directory_end(j), directory_end(j + 1))}
        _, offset, length = placed(small, j)
        own.update(range(offset, offset + length))
        file = bytes(byte if i in own else other for i, byte in enumerate(small))
        assert agree(small, file, j)
        s.load(file)
        s.alike(small, [j])
        s.open(0, 4, [*(0 if i == j else 22 for i in range(3)), 20])


def alone(s):
    """What a damaged column does to the others: nothing."""
    for number, bad in UNSOUND.items():
        for at in range(3):
            columns = [C, TEXT]
            columns.insert(at, bad)
            s.load(file_of(columns))
            s.open(0, 4, [*(number if i == at else 0 for i in range(3)), 20])


def borders(s):
    """Blocks at the directory's end and at the file's, and one byte outside of each."""
    end = directory_end(1)
    for column, length, number in ((EMPTY, 0, 0), (NONE, 0, 0), (C._replace(rows=0), 0, 10), (A, 0, 16), (D, 0, 11), (B, 0, 10)):
        for offset in (end, end + 3, end + 7):
            s.load(b"\1" + entry(column, offset, length) + bytes(7))
            s.open(0, 1, number)
        for offset in (0, 1, end - 1, end + 8, 2**16, 2**31, 2**32 - 1):
            s.load(b"\1" + entry(column, offset, length) + bytes(7))
            s.open(0, 1, 22)
    s.load(b"\1" + entry(EMPTY, end, 0))  # both borders are one place
    s.open(0, 2, [0, 20])
    for offset in (end - 1, end + 1):
        s.load(b"\1" + entry(EMPTY, offset, 0))
        s.open(0, 2, [22, 20])
    # the directory ends behind the last entry, not behind one's own
    s.load(b"\2" + entry(EMPTY, directory_end(1), 0) + entry(EMPTY, directory_end(2), 0))
    s.open(0, 3, [22, 0, 20])
    around = b"\7" + C.block + b"\7"
    for offset, number in ((end, 11), (end + 1, 0), (end + 2, 22), (end - 1, 22)):
        s.load(b"\1" + entry(C, offset, len(C.block)) + around[:-1])
        s.open(0, 1, number)
    for length, number in ((len(C.block), 0), (len(C.block) - 1, 11), (len(C.block) + 1, 11), (len(C.block) + 2, 22), (2**32 - 1, 22),
                           (2**32 - end - 1, 22), (2**32 - end, 22), (2**24, 22), (2**31, 22)):
        s.load(b"\1" + entry(C, end + 1, length) + around)
        s.open(0, 1, number)
    for offset, length in ((2**32 - 1, 2**32 - 1), (2**32 - 1, 1), (2**32 - 1, 1 + end), (2**31, 2**31), (2**31, 2**31 + end + 1)):
        s.load(b"\1" + entry(C, offset, length) + around)
        s.open(0, 1, 22)


def laid_otherwise(s):
    """Blocks in another order, shared, overlapping, one inside another; bytes that no entry names, before, between and behind."""
    end = directory_end(3)
    directory = b"\3" + entry(C, end + 9, 11) + entry(TEXT, end + 1, 6) + entry(EMPTY, end + 20, 0)
    s.load(directory + b"?" + TEXT.block + b"??" + C.block + b"rest")
    s.open(0, 4, [0, 0, 0, 20])
    s.load(b"\3" + entry(C, end, 11) + entry(C, end, 11) + entry(EMPTY, end + 5, 0) + C.block)  # shared
    s.open(0, 4, [0, 0, 0, 20])
    bools, two = Column(0, 0, 0, 11, b""), Column(1, 0, 0, 2, b"")
    s.load(b"\3" + entry(bools, end, 11) + entry(C, end, 11) + entry(two, end + 3, 4) + C.block)  # inside another
    s.open(0, 4, [0, 0, 0, 20])
    s.load(b"\3" + entry(two, end, 4) + entry(two, end + 2, 4) + entry(two, end + 3, 4) + bytes(range(7)))  # overlapping
    s.open(0, 4, [0, 0, 0, 20])


def zero_bits(s):
    """The zero bit set is opening's 1: behind 22, before every other of opening's numbers. In another's entry it is nothing."""
    end = directory_end(2)
    for column in (C, EMPTY, UNSOUND[3], UNSOUND[11], UNSOUND[1]):
        n = len(column.block)
        s.load(b"\2" + entry(column, end, n, 1) + entry(TEXT, end + n, 6) + column.block + TEXT.block)
        s.open(0, 3, [1, 0, 20])
        s.load(b"\2" + entry(TEXT, end, 6) + entry(column, end + 6, n, 1) + TEXT.block + column.block)
        s.open(0, 3, [0, 1, 20])
        s.load(b"\2" + entry(TEXT, end, 6) + entry(column, end - 1, n, 1) + TEXT.block + column.block)
        s.open(0, 3, [0, 22, 20])


def first_of_two(s):
    """Where two rules are broken the first gives the number."""
    s.load(b"\x41" + bytes(16))  # 65 columns, and cut
    s.open(0, 1, 21)
    s.open(65, 1, 21)
    s.load(b"\2" + entry(C, 0, 2**32 - 1) + bytes(15))  # cut, and an entry that is outside
    s.open(0, 3, 21)
    s.load(b"\1" + entry(C, 0, 2**32 - 1))  # no such column, and no block inside
    s.open(0, 3, [22, 20, 20])
    for bad in UNSOUND.values():  # outside, and opening would refuse it
        s.load(b"\1" + entry(bad, directory_end(1) + 1, len(bad.block)) + bad.block)
        s.open(0, 1, 22)
    for named in ((12, 0, 0, 0), (15, 7, 255, 2**48 - 1), (1, 5, 0, 0), (1, 0, 1, 0), (CHAR, 0, 0, 0), (F64, 0, 255, 0)):
        s.load(b"\1" + entry(Column(*named, b""), directory_end(1), 0))
        s.open(0, 1, 1)
    s.load(b"\1" + entry(Column(3, 0, 0, 2**48 - 1, b""), directory_end(1), 0))
    s.open(0, 1, 3)


def every_pair(s):
    """A file of all pairs of a kind and an encoding."""
    s.load(file_of(EVERY_PAIR))
    s.open(0, len(EVERY_PAIR) + 1, [0] * len(EVERY_PAIR) + [20])


def far(s):
    """An offset and a length of three bytes each."""
    end = directory_end(3)
    bools, offset = 0x010203, 0x010305
    assert end + bools < offset
    many = Column(0, 0, 0, bools, b"")
    s.load([(1, b"\3" + entry(many, end, bools) + entry(C, offset, 11) + entry(many, end + 1, bools)), (bools, b"\1"),
            (offset - end - bools, b"\2"), (1, C.block)])
    s.open(0, 4, [0, 0, 0, 20])
    s.lend(offset)
    s.open(0, 4, [0, 22, 0, 20])
    s.lend(end + bools)
    s.open(0, 4, [0, 22, 22, 20])


# ---- writing

def written(s):
    """Files of 0, 1, 2, 60 and 64 columns, opened again; of 65 none."""
    for columns in ([], [C], [EMPTY], [C, C], [EMPTY, B], [D, EMPTY], [A, B, C, D, TEXT], [EMPTY, NONE, EMPTY], EVERY_PAIR, [C, TEXT] * 32,
                    [EMPTY] * 64):
        s.write_and_open(columns)
    s.write_and_open([C, EMPTY, TEXT, EMPTY], spare=9)
    s.write_and_open([], spare=20)
    s.write_columns([C] * 65, expect=21)
    s.write_columns([EMPTY] * 65, expect=21)
    s.write_columns([EMPTY] * 80, 20, expect=21)
    s.write_columns([UNSOUND[11]] * 65, expect=21)


def lists_with_a_rest(s):
    """Five numbers a column, and one to four more."""
    columns = [C, TEXT]
    s.load(blocks_of(columns))
    for n in range(16):
        numbers = (numbers_of(columns) + [1] * 5)[:n]
        s.write(numbers, 80, expect=21 if n % 5 else 10 if n == 15 else 0)
    numbers = numbers_of([EMPTY] * 64)
    s.load(b"")
    for n in (*range(1, 6), 9, 10):
        s.write(numbers + [0] * n, 1200, expect=21)
    s.write(numbers[:-1], 1200, expect=21)
    s.write([12, 0, 0, 0, 0, 0], 80, expect=21)  # before the first block's number


def not_held(s):
    """A block that the lent bytes don't wholly hold: the first, the last, and lengths whose sum wraps. Its own number comes behind."""
    columns = [C, TEXT, B]
    blocks = blocks_of(columns)
    numbers = numbers_of(columns)
    room = len(file_of(columns)) + 4
    for n in range(len(blocks)):
        s.load(blocks[:n])
        s.write(numbers, room, expect=10)
    s.load(blocks)
    s.write(numbers, room, expect=0)
    s.load(blocks + b"behind")  # isn't looked at
    s.write(numbers, room, expect=0)
    for place, length in itertools.product((4, 9, 14), (len(blocks) + 7, 2**32, 2**63, MOST, MOST - 10, MOST - 16)):
        given = numbers[:place] + [length] + numbers[place + 1:]
        s.write(given, room, expect=10)
        given[place - 4] = 99  # no such kind
        s.write(given, room, expect=10)
    s.load(C.block)
    s.write(numbers_of([C, EMPTY, NONE]), 80, expect=0)  # blocks of no bytes behind the last one
    s.write(numbers_of([C]) + [2, 2, 0, 0, 1], 80, expect=10)
    s.load(b"")
    s.write(numbers_of([EMPTY, NONE]), 40, expect=0)
    s.write([2, 2, 0, 0, 1], 40, expect=10)


def bad_blocks(s):
    """Each number of opening's at each place, and the first of two."""
    good = [C, TEXT, EMPTY]
    for number, bad in UNSOUND.items():
        for at in range(4):
            s.write_columns([*good[:at], bad, *good[at:]], 120, expect=number)
    for (one, first), (_, second) in itertools.permutations(((n, UNSOUND[n]) for n in (1, 11, 15, 17)), 2):
        s.write_columns([C, first, TEXT, second], 120, expect=one)
    # 10 for a block that isn't held against one before it that is bad
    s.load(UNSOUND[11].block)
    s.write(numbers_of([UNSOUND[11], C]), 80, expect=11)
    s.write(numbers_of([C, UNSOUND[11]]), 80, expect=10)


def odd_numbers(s):
    """Kinds, encodings, widths and rows that have no place in an entry."""
    odd = (16, 17, 255, 256, 2**32, 2**32 + 1, 2**63, MOST)
    for place, number in itertools.product(range(3), odd):
        numbers = numbers_of([C])
        numbers[place] = number
        s.load(C.block)
        s.write(numbers, 40, expect=1)
    for width, number in ((0, 1), (1, 0), (2, 11), (255, 11), (256, 1), (257, 1), (2**32 + 1, 1), (MOST, 1)):
        s.load(b"a")
        s.write([CHAR, 0, width, 1, 1], 40, expect=number)
    for rows, number in ((2**20, 11), (2**20 + 1, 3), (2**32 + 1, 3), (2**48 - 1, 3), (2**48, 3), (2**48 + 1, 3), (MOST, 3)):
        s.load(b"\1")
        s.write([0, 0, 0, rows, 1], 40, expect=number)
    for rows, number in ((2**48 - 1, 16), (2**48, 3), (2**48 + 4, 3), (MOST, 3)):
        s.load(A.block)
        s.write([2, 2, 0, rows, len(A.block)], 60, expect=number)


def rooms(s):
    """Memory that is just long enough, one byte short, shorter and longer; on a refusal it stays as it was."""
    for columns in ([], [C], [EMPTY], [C, TEXT, EMPTY], [A, B, D]):
        n = len(file_of(columns))
        s.load(blocks_of(columns))
        for room in sorted({0, 1, directory_end(len(columns)) - 1, directory_end(len(columns)), n - 1, n, n + 1, n + 30}):
            s.write(numbers_of(columns), room, expect=4 if room < n else 0)
    bad = [C, UNSOUND[17]]
    for room in (0, 44, 45, 100):  # a bad block comes before short memory
        s.write_columns(bad, room, expect=17)
    s.write_columns([C] * 65, 0, expect=21)


def far_written(s):
    """A file whose second block has an offset of three bytes; memory one byte short of it."""
    bools = 0x0100f0
    numbers = [0, 0, 0, bools, bools, *numbers_of([TEXT])]
    for spare, number in ((-1, 4), (0, 0)):
        s.load([(bools, b"\1"), (1, TEXT.block)])
        s.write(numbers, directory_end(2) + bools + 6 + spare, number == 0, number)
    s.open(0, 3, [0, 0, 20])


# ---- listing

NOT_NUMBERS = (b"", b" ", b"-", b"+", b"-0", b"-1", b"+1", b" 1", b"1 ", b"1\n", b"0x1", b"1.0", b"1e0", b"/", b":", b"0/", b"1:", b"\0",
               b"1\0", b"one", b"\xd9\xa1", b"\xb1", b"0a", b"a0")
NO_COLUMNS = (3, 9, 10, 64, 255, 256, 2**32, 2**32 + 1, 2**63, MOST, 2**64, 2**64 + 1, 2**64 + 9, 2**64 + 10, 10 * 2**64, 10 * 2**64 + 1,
              2**65, 2**128, 10**40)


def listed(s):
    """The columns of a small file, by what names them."""
    s.load(file_of(SMALL))
    s.list(b"0", ["rows 3", "0 5", "1 null", "2 -2", "end"])
    s.list(b"1", ["rows 1", "0 c3a9", "end"])
    s.list(b"2", ["rows 0", "end"])
    for text in (b"00", b"000000000000000000000000000", b"0" * 300):
        s.list(text, ["rows 3", "0 5", "1 null", "2 -2", "end"])
    s.list(b"0" * 200 + b"1", ["rows 1", "0 c3a9", "end"])
    for j in NO_COLUMNS:
        s.list(b"%d" % j, 20)
    for text in NOT_NUMBERS:
        s.list(text, 20)
    # what names no column comes before what the file is refused as; a number behind the last column, after
    for file, number in ((b"", 21), (b"\x41", 21), (file_of([C])[:16], 21), (b"\1" + entry(C, 0, 0), 22)):
        s.load(file)
        s.list(b"0", number)
        s.list(b"x", 20)
        s.list(b"", 20)
        s.list(b"%d" % 2**64, 20)
        s.list(b"%d" % MOST, 20 if number == 22 else 21)
    for number, bad in UNSOUND.items():
        s.load(file_of([C, bad, TEXT]))
        s.list(b"0", ["rows 3", "0 5", "1 null", "2 -2", "end"])
        s.list(b"1", number)
        s.list(b"2", ["rows 1", "0 c3a9", "end"])
    s.load(file_of(EVERY_PAIR))
    for j in range(len(EVERY_PAIR) + 1):
        s.list(b"%d" % j)
    for text in (b":", b"0:", b"1:", b"1/", b"2/"):  # the bytes beside the digits, which counted on would name a column
        s.list(text, 20)
    s.load(file_of([C, Column(1, 2, 0, 1001, bytes.fromhex("01000000 02000000 E907 FEFF"))]))
    s.list(b"1", ["rows 1001", *("%d -2" % i for i in range(1000)), "more 1", "end"])


def longest_listed(s):
    """65,536 bytes are listed, a byte more is not, whatever names the column."""
    end = directory_end(2)
    bools = MOST_LISTED - end - len(C.block)
    many = Column(0, 0, 0, bools, b"")
    s.load([(1, b"\2" + entry(C, end, len(C.block)) + entry(many, end + len(C.block), bools) + C.block), (bools, b"\1"), (1, b"?")])
    s.lend(MOST_LISTED)
    s.list(b"0", ["rows 3", "0 5", "1 null", "2 -2", "end"])
    s.list(b"1", ["rows %d" % bools, *("%d 1" % i for i in range(1000)), "more %d" % (bools - 1000), "end"])
    s.list(b"2", 20)
    s.list(b"x", 20)
    s.lend(MOST_LISTED + 1)
    for text in (b"0", b"1", b"2", b"x", b""):
        s.list(text, 3)
    s.open(0, 3, [0, 0, 20])  # a sheet may be longer than what is listed
    s.change(0, 65)
    s.list(b"0", 3)
    s.lend(MOST_LISTED)
    s.list(b"0", 21)


# ---- by chance

def some_column(r):
    kind, encoding = r.choice(KINDS), r.randrange(5)
    width = r.choice([1, 5, 6]) if kind == CHAR else 0
    rows = []
    for _ in range(r.randrange(4)):
        row = None if r.random() < 0.2 else some_row(r, kind)
        if kind == CHAR and row:
            row = text_within(row, width)
        rows += [row] * r.choice([1, 1, 3])
    return column_of(kind, encoding, width, rows)


def some_byte(r, byte):
    return r.choice([0, 1, 2, 127, 128, 255, byte ^ 1, byte ^ 128, r.randrange(256)])


def opened_by_chance(s, times=60):
    """Files laid out at random and damaged, every column opened."""
    r = s.random
    for _ in range(times):
        columns = [some_column(r) for _ in range(r.randrange(1, 5))]
        file = bytearray([len(columns)]) + bytes(16 * len(columns))
        for j in r.sample(range(len(columns)), len(columns)):
            file += bytes(r.choice([0, 0, 0, 1, 3]))
            block = columns[j].block
            at = file.find(block, directory_end(len(columns))) if block and r.random() < 0.3 else -1
            if at < 0:
                at = len(file)
                file += block
            file[directory_end(j):directory_end(j + 1)] = entry(columns[j], at, len(block))
        s.load(bytes(file))
        s.open(0, len(columns) + 1, [0] * len(columns) + [20])
        for _ in range(2):
            place = r.choice([r.randrange(len(file)), r.randrange(directory_end(len(columns)))])
            s.with_change(place, some_byte(r, file[place]), len(columns) + 1)
        s.lend(r.randrange(len(file) + 3))
        s.open(0, len(columns) + 1)


def written_by_chance(s, times=100):
    """Columns written, of which some are damaged or some numbers changed, and what was written opened."""
    r = s.random
    for _ in range(times):
        columns = [some_column(r) for _ in range(r.randrange(1, 5))]
        blocks, numbers = bytearray(blocks_of(columns)), numbers_of(columns)
        if r.random() < 0.3 and blocks:
            place = r.randrange(len(blocks))
            blocks[place] = some_byte(r, blocks[place])
        if r.random() < 0.3:
            place = r.randrange(len(numbers))
            numbers[place] = max(0, numbers[place] + r.choice([-1, 1, 1, 4]))
        if r.random() < 0.1:
            del blocks[r.randrange(len(blocks) + 1):]
        room = len(file_of(columns)) + r.choice([0, 0, 0, 1, 5, -1])
        s.load(bytes(blocks))
        goes_on = write(numbers, bytes(blocks), room)[0] == 0
        s.write(numbers, room, goes_on)
        if goes_on:
            s.open(0, len(columns) + 1, [0] * len(columns) + [20])


SECTIONS = (numbers_of_columns, which_column, cuts, changes, nothing_else, alone, borders, laid_otherwise, zero_bits, first_of_two,
            every_pair, far, written, lists_with_a_rest, not_held, bad_blocks, odd_numbers, rooms, far_written, listed, longest_listed,
            opened_by_chance, written_by_chance)


# ---- the files

SAMPLE = "sheet_of_loans"
BRANCHES = column_of(CHAR, 4, 3, [b"VIE", b"GRZ", None, b"VIE"])
SURCHARGES = column_of(2, 4, 0, [250, None, 250, 75])
LOANS = (
    column_of(2, 0, 0, [1001, 1002, 1003, 1004]),
    column_of(F64, 2, 0, [float_bits(x) for x in (0.0375, 0.0375, 0.041, 0.041)]),
    column_of(4, 1, 0, [20089, None, 20120, 20089]),
    BRANCHES,
    # the last row's key is one more than there are entries
    SURCHARGES._replace(block=SURCHARGES.block.replace((2**31 + 2).to_bytes(4, "little"), (2**31 + 3).to_bytes(4, "little"))),
    column_of(STRING, 0, 0, [x.encode() for x in ("", "\u00e9t\u00e9", "\u20ac 5", "paid")]),
    column_of(7, 3, 0, [12 << 32, 12 << 32, None, (-1 << 32) + 30]),
)
LISTED = 3  # the column that the gate lists


def make_commands(seed, folder):
    s = Script(seed)
    make_sections(s, SECTIONS, lambda s: s.files, "files")
    write_script(s, folder, MOST_COMMANDS)
    print("%d bytes, %d files; %d columns alike; opened: %s; written: %s; listed: %s" % (
        len(s.commands), s.files, s.agreed, *(dict(sorted(c.items())) for c in (s.opened, s.written, s.listed))))


def lines_of(file, j):
    return "".join(line + "\n" for line in column_listing(file, b"%d" % j))


def make_samples():
    file = file_of(LOANS)
    (ROOT / "samples" / SAMPLE).write_bytes(file)
    for j in range(len(LOANS)):
        (ROOT / "samples" / ("%s.%d.txt" % (SAMPLE, j))).write_text(lines_of(file, j))
    program = ROOT / "crates/column"
    (program / "data").mkdir(exist_ok=True)
    (program / "data" / SAMPLE).write_bytes(file)
    (program / "args").write_text("%s\n%d\n" % (SAMPLE, LISTED))
    (program / "stdout").write_text(lines_of(file, LISTED))


if __name__ == "__main__":
    make(sys.argv[1:], SEED, "try_sheets", make_commands, make_samples)

"""Makes the commands and the stored answers of the program `try_reading`: crates/try_reading/stdin and crates/try_reading/stdout.

    python3 tools/answers.py [SEED FOLDER]

The answers are those of tools/model.py; crates/try_reading/src/main.rt says what a command is. With no arguments the files are
always the same; with another seed the random commands are others, and the two files go to the folder. Where the documents say
which number a call answers, the call expects it here, and a model that answers another stops the run.

Not tried, for want of room: a block above 16,777,216 bytes, a dictionary of 1,048,576 key runs, and an answer above
4,294,967,295 bytes in areas that would hold it.
"""
import collections
import pathlib
import random
import sys

import model
from model import BLOB, BY_ENDS, CHAR, F64, FIXED, KINDS, STRING, Reader, Refused

SEED = 1
ROOM = 2300000  # bytes of the program's room for a block
MOST_COMMANDS = 80000  # bytes of its room for commands
MOST = 2**64 - 1
MOST_ROWS = 2**48 - 1
ITEMS = 2**20
AREA = 0xaa  # what a lent area is filled with
LENT = (400, 400, 64, 255)  # the most values, flags, ends and bytes that the program lends
NO_READER = Reader(kind=255)


def number(n):
    return bytes([n]) if n < 255 else b"\xff" + n.to_bytes(8, "little")


def parts_of(block):
    """A block as parts: a byte that comes six times or more in a row is a part that is repeated."""
    parts, plain, i = [], bytearray(), 0
    while i < len(block):
        j = i
        while j < len(block) and block[j] == block[i]:
            j += 1
        if j - i < 6:
            plain += block[i:j]
        else:
            if plain:
                parts.append((1, bytes(plain)))
            parts.append((j - i, block[i:i + 1]))
            plain = bytearray()
        i = j
    return parts + [(1, bytes(plain))] if plain else parts


def lay(bytes_or_parts, commands, room):
    """Command 0: puts bytes, or parts with how often each comes, together at the start of the room, and answers their length."""
    parts = parts_of(bytes_or_parts) if isinstance(bytes_or_parts, (bytes, bytearray)) else bytes_or_parts
    commands += bytes([0]) + number(len(parts))
    at, most = 0, len(room)
    for times, text in parts:
        commands += number(times) + number(len(text)) + text
        room[at:at + times * len(text)] = times * text
        at += times * len(text)
    assert at <= most and len(room) == most
    return at


class Script:
    """Commands, and what the program has to write for each. It keeps what the program keeps: a room for the block, the
    length at which it is lent, and the reader."""

    def __init__(self, seed):
        self.random = random.Random(seed)
        self.commands = bytearray()
        self.answers = []
        self.room = bytearray(ROOM)
        self.len = 0
        self.reader = NO_READER
        self.calls = collections.Counter()
        self.refusals = collections.Counter()
        self.blocks = 0
        self.opened = None

    def command(self, op, *numbers):
        self.commands += bytes([op]) + b"".join(map(number, numbers))

    def answer(self, word, *numbers):
        self.answers.append(" ".join([word, *("%x" % n for n in numbers)]))

    def lent(self):
        return bytes(self.room[:self.len])

    def count(self, call, refusal, encoding):
        self.calls[call] += 1
        self.refusals[call, refusal, min(encoding, 5)] += 1

    # ---- the commands

    def load(self, block):
        self.len = lay(block, self.commands, self.room)
        self.blocks += 1
        self.answer("block", self.len)

    def open(self, kind, encoding, width, rows, expect=None):
        self.command(1, kind, encoding, width, rows)
        self.reader = NO_READER
        try:
            self.reader = model.open_block(kind, encoding, width, rows, self.lent())
            refusal = 0
            self.answer("open", 0, *self.reader.fields())
        except Refused as e:
            refusal = e.number
            self.answer("open", refusal)
        assert expect in (None, refusal), (expect, refusal, kind, encoding, width, rows)
        self.opened = (kind, encoding, width, rows)
        self.count("open", refusal, encoding)
        return refusal == 0

    def again(self):
        self.open(*self.opened)

    def read(self, skip, size, values=0, flags=0, ends=0, data=0, expect=None):
        self.command(2, skip, size, values, flags, ends, data)
        assert all(n <= most for n, most in zip((values, flags, ends, data), LENT))
        areas = [[AREA] * n for n in (values, flags, ends, data)]
        if flags == LENT[1]:
            areas[1][-1] = 0  # where the rows end before it, it isn't a null
        before = [area[:] for area in areas]
        rows, total, refusal = 0, 0, 0
        try:
            rows, total, after = model.read(self.reader, self.lent(), skip, size, *areas)
            self.compare_ways(skip + rows, after)
            assert after.nulls == self.reader.nulls + areas[1][:rows].count(0)
            self.reader = after
        except Refused as e:
            refusal = e.number
            assert areas == before
        assert [len(a) for a in areas] == [values, flags, ends, data]
        assert expect in (None, refusal), (expect, refusal)
        self.answer("read", refusal, rows, total, *self.reader.fields())
        for word, area in zip(("values", "flags", "ends", "bytes"), areas):
            self.answer(" " + word, *(x % 2**64 for x in area))
        what = ("both" if size else "skip") if skip else "give" if size else "none"
        self.count(what, refusal, self.reader.encoding)
        return refusal

    def compare_ways(self, n, after):
        """The model's two ways through the runs agree. Neither counts nulls."""
        if n <= 4096:
            passed = after.copy(nulls=self.reader.nulls)
            assert model.run_by_run(self.reader, self.lent(), n)[1].fields() == passed.fields()

    def remaining(self, expect=None):
        self.command(3)
        left, refusal = 0, 0
        try:
            left = model.remaining(self.reader)
        except Refused as e:
            refusal = e.number
        assert expect in (None, refusal), (expect, refusal)
        self.answer("left", refusal, left)
        self.count("left", refusal, self.reader.encoding)

    def set(self, field, value):
        place = Reader.FIELDS.index(field)
        self.command(4, place, value)
        self.reader = self.reader.copy(**{field: value})
        self.answer("set")
        self.calls["set"] += 1

    def change(self, place, byte):
        self.command(5, place)
        self.commands.append(byte)
        self.room[place] = byte
        self.answer("change")
        self.calls["change"] += 1

    def lend(self, length):
        self.command(6, length)
        self.len = length
        self.answer("lend")
        self.calls["lend"] += 1

    def counted(self, n):
        """So many nulls were given since opening; in encodings 0 and 2 a row is never null."""
        assert self.reader.nulls == (0 if self.reader.encoding in (0, 2) else n), (self.reader.nulls, n)

    # ---- sequences

    def left(self):
        r = self.reader
        return min(r.rows - r.place, MOST - 1) if r.place <= r.rows else 0

    def need(self, skip, size):
        """The rows and bytes that a read would give; None where it is refused, or gives more than can be lent."""
        if skip <= self.left() and min(size, self.left() - skip) > 64:
            return None
        try:
            return model.read(self.reader, self.lent(), skip, size, *([AREA] * 70 for _ in range(3)), [AREA] * 300)[:2]
        except Refused:
            return None

    def rooms(self, skip, size):
        """The lengths of areas that just hold what a read gives, those that its kind doesn't use 0."""
        rows, total = self.need(skip, size) or (2, 5)
        return [rows, rows, 0, 0] if self.reader.kind in FIXED else [0, rows, rows, total]

    def skip(self, n, expect=None):
        """A read that gives no rows."""
        self.read(n, 0, expect=expect)

    def nothing(self):
        """A read that asks for nothing, into areas that would hold a row."""
        self.read(0, 0, 1, 1, 1, 1, expect=6)

    def give(self, size, skip=0, expect=None):
        """A read into areas that just hold what it gives."""
        self.read(skip, size, *self.rooms(skip, size), expect=expect)

    def give_short(self, size, skip=0):
        """The read refused for each area that can be one short, and then given with one to spare."""
        rooms = self.rooms(skip, size)
        for i, n in enumerate(rooms):
            if n:
                self.read(skip, size, *(m - (i == j) for j, m in enumerate(rooms)), expect=4)
        self.read(skip, size, *(min(n + 1, most) for n, most in zip(rooms, LENT)), expect=0)

    def give_loose(self, size, skip=0):
        """A read into areas most of which hold what it gives."""
        rooms = [n + self.random.choice((0, 0, 0, 0, 1, 2, -1)) for n in self.rooms(skip, size)]
        self.read(skip, size, *(min(max(n, 0), most) for n, most in zip(rooms, LENT)))

    def wander(self, steps):
        """Random calls."""
        pick = self.random.choice
        for _ in range(steps):
            left = self.left()
            what = self.random.random()
            if what < .2:
                self.skip(pick((1, 1, 2, min(left, 3), left, left + 1, MOST)))
            elif what < .9:
                size = pick((1, 1, 2, 2, 3, min(left, 4), left, left + 1, MOST, 0))
                self.give_loose(size, pick((0, 0, 0, 1, 1, 2, min(left, 3), left, left + 1)))
            else:
                self.remaining()


# ---- rows

def limits(kind):
    size = FIXED[kind][0]
    if kind == 0:
        return [0, 1]
    top = 2**(8 * size - 1)
    spread = int.from_bytes(bytes(range(1, size + 1)), "big")
    return [-top, -top + 1, top - 1, 0, 1, -1, 127, 128, 255, -256, spread, -spread]


def any_item(pick, kind, width):
    if kind in FIXED:
        return pick(limits(kind))
    if kind == CHAR:
        return text_within(pick([b"", b"a", b"a\0", b"x\0y", b"\0y", "\u20ac".encode(), bytes(range(1, width + 1)), b"ab"]), width)
    return pick([b"", b"", b"a", b"ab", b"\0", b"a\0b", b"\xff\xfe" if kind == BLOB else "\u00fe".encode(), bytes(range(7))])


def text_within(text, width):
    """As many characters of the text as a width holds."""
    return max((text[:n] for n in range(width + 1) if model.is_text(text[:n])), key=len)


def all_limits(kind, encoding):
    """Some of a kind's limits, others in each encoding, with a null and equal neighbours."""
    values = limits(kind)
    rows = [values[(7 * encoding + i) % len(values)] for i in range(7)]
    return rows[:3] + rows[2:3] + [None] + rows[3:]


def any_rows(s, kind, width, n):
    rows, chance, pick = [], s.random.random, s.random.choice
    for _ in range(n):
        if rows and chance() < .35:
            rows.append(rows[-1])
        elif chance() < .25:
            rows.append(None)
        else:
            rows.append(any_item(pick, kind, width))
    if rows and kind not in FIXED and chance() < .4:
        rows[0] = rows[-1] = b""
    return rows


# ---- blocks by hand

def le4(n):
    return n.to_bytes(4, "little")


def ends(*numbers):
    return b"".join(map(le4, numbers))


def runs(counts, inner, number=None, length=None):
    """A run-length block; the number of runs is that of the bytes of the counts unless it is given."""
    counts = bytes.fromhex(counts)
    number = len(counts) if number is None else number
    return le4(number) + le4(len(counts) if length is None else length) + counts + inner


def bits(plain, bitmap, length=None):
    """A nullable block."""
    bitmap = bytes.fromhex(bitmap)
    return plain + bitmap + le4(len(bitmap) if length is None else length)


def keys(*slots):
    """Keys: 0 for null, k + 1 for entry k."""
    return b"".join(le4((slot + 2**31) % 2**32) for slot in slots)


def dictionary(key_block, number, entries, length=None):
    length = len(key_block) if length is None else length
    return length.to_bytes(8, "big") + number.to_bytes(4, "big") + key_block + entries


def blobs(*items):
    return model.plain(BLOB, 0, items)


I16, I32 = 1, 2


# ---- the cases

def all_pairs(s):
    """Every kind with every encoding: read whole, by random calls, and with an area one short."""
    for encoding in range(5):
        for kind in KINDS:
            for turn in range(2):
                width = 0 if kind != CHAR else s.random.choice((1, 3, 4))
                limited = turn == 0 and kind in FIXED
                rows = all_limits(kind, encoding) if limited else any_rows(s, kind, width, s.random.randint(3, 9))
                s.load(model.build(kind, encoding, width, rows))
                s.open(kind, encoding, width, len(rows), expect=0)
                if turn == 0:
                    s.remaining(expect=0)
                    s.give(MOST, expect=0)
                    s.skip(1, expect=7)
                    s.give(1, expect=0)
                    s.again()
                    s.give_short(2, skip=s.random.randint(1, 2))
                else:
                    s.wander(2)
                    s.give(1, skip=s.left(), expect=0)
                    s.wander(1)


def wide_chars(s):
    for encoding in range(5):
        rows = [b"q" * 253 + "\u07ff".encode(), b"q" * 254, None, b"", b"\0" + b"q" * 254]
        s.load(model.build(CHAR, encoding, 255, rows))
        s.open(CHAR, encoding, 255, 5, expect=0)
        s.read(0, 1, 0, 1, 1, 254, expect=4)
        s.read(0, 1, 0, 1, 1, 255, expect=0)
        s.read(0, 4, 1, 4, 4, 254, expect=0)


def no_rows(s):
    """Zero rows of every pair, and a dictionary of which no entry is used."""
    for encoding in range(5):
        for kind in KINDS:
            width = 3 if kind == CHAR else 0
            s.load(model.build(kind, encoding, width, []))
            s.open(kind, encoding, width, 0, expect=0)
            s.remaining(expect=0)
            s.nothing()
            s.skip(1, expect=7)
            s.read(0, 1, expect=0)
            s.read(0, 2, 1, 1, 1, 1, expect=0)
            s.open(kind, encoding, width, 1, expect=(10 if kind in BY_ENDS else 11, 11, 16, 16, 16)[encoding])
    s.load(dictionary(b"", 2, blobs(b"a", b"b")))
    s.open(BLOB, 4, 0, 0, expect=0)
    s.read(0, 1, expect=0)


def samples(s):
    """The document's samples A to E, I and J; F, G and H are among the other cases."""
    s.load(bytes.fromhex("0200000002000000030107000000FFFFFFFF"))
    for calls in ([(2, 0), (0, 1)], [(2, 1)]):
        s.open(I32, 2, 0, 4, expect=0)
        for skip, size in [*calls, (0, 5), (0, 5)]:
            s.give(size, skip, expect=0)
        s.skip(1, expect=7)
    b = bytes.fromhex("000000000000001C0000000204000000040000000101010101000080000000800100008002000080"
                      "0200000003000000616263")
    assert b == model.build(BLOB, 4, 0, [b"ab", None, b"ab", b"c"])
    s.load(b)
    s.open(BLOB, 4, 0, 4, expect=0)
    s.give(4, expect=0)
    s.change(36, 3)
    s.open(BLOB, 4, 0, 4, expect=15)
    s.load(bytes.fromhex("05000000FEFF0501000000"))
    s.open(I16, 1, 0, 3, expect=0)
    s.give(3, expect=0)
    s.load(bytes.fromhex("610000616263780079"))
    s.open(CHAR, 0, 3, 3, expect=0)
    s.give(3, expect=0)
    s.load(bytes.fromhex("00000001"))
    s.open(4, 0, 0, 1, expect=0)
    s.give(1, expect=0)
    s.load(bytes.fromhex("0000000EFFFFFFFD"))
    s.open(7, 0, 0, 1, expect=0)
    s.give(1, expect=0)


ZERO, MINUS_ZERO, ONE, MINUS_INFINITY = map(model.float_bits, (0.0, -0.0, 1.0, float("-inf")))
QUIET, OTHER, SIGNALLING = 0x7FF8000000000000, 0x7FF8000000000001, 0x7FF0000000000001
RATES = [ZERO, MINUS_ZERO, ZERO, None, ZERO, QUIET, QUIET, OTHER, SIGNALLING, MINUS_INFINITY, ONE, ONE]


def rates(s):
    """Floats by their bits: the two zeros are two rows, a null is neither, and NaNs are equal exactly if their bits are."""
    s.load(bytes.fromhex("02000000 02000000 02 01 000000000000F03F 0000000000000080"))
    s.open(F64, 2, 0, 3, expect=0)
    s.read(0, MOST, 3, 3, expect=0)
    for encoding in range(5):
        s.load(model.build(F64, encoding, 0, RATES))
        s.open(F64, encoding, 0, len(RATES), expect=0)
        assert s.reader.runs == (0, 0, 10, 10, 10)[encoding] and s.reader.entries == (0, 0, 0, 0, 7)[encoding]
        s.give(MOST, expect=0)
        s.again()
        s.give(1, skip=1, expect=0)
        s.give_short(2, skip=5)


GOOD = [bytes.fromhex(x) for x in (
    "", "00", "7F", "C280", "DFBF", "E0A080", "E0BFBF", "E18080", "ECBFBF", "ED8080", "ED9FBF", "EE8080", "EFBFBF", "EFBBBF", "F0908080",
    "F0BFBFBF", "F1808080", "F3BFBFBF", "F4808080", "F48FBFBF")]
BAD = [bytes.fromhex(x) for x in (
    "80", "BF", "C080", "C1BF", "C2", "C27F", "C2C0", "DF", "E09FBF", "E0A0", "E0A07F", "E180", "EDA080", "EDBFBF", "EE80", "F08FBFBF",
    "F09080", "F1", "F18080", "F4908080", "F4BFBFBF", "F5808080", "F8", "FE", "FF", "C3A9C3", "E282AC80")]


def decodes(data):
    """Whether Python takes the bytes for text."""
    try:
        return data.decode("utf-8", "strict").encode() == data
    except UnicodeDecodeError:
        return False


def bad_items(kind, encoding, before, bad, behind):
    """A block of three items of which the one in the middle isn't text, and its rows: under a null in encodings 1 and 3, an entry that
    no key names in 4."""
    inner = model.plain(kind, len(bad), (before, bad, behind))
    if encoding < 2:
        return bits(inner, "05") if encoding else inner, 3
    if encoding < 4:
        return runs("020102", bits(inner, "05") if encoding == 3 else inner), 5
    return dictionary(runs("0201", keys(3, 1)), 3, inner), 3


def texts(s):
    """Char and string items that are text and that aren't, alone and wherever an item can stand; what is refused before them; and
    that reading hands out what they have become."""
    assert all(map(decodes, GOOD)) and not any(map(decodes, BAD))
    assert all(model.is_text(x) == decodes(x) for x in (*GOOD, *BAD, *(bytes((a, b)) for a in range(256) for b in range(256))))
    for item in (*GOOD, *BAD):
        number = 17 if item in BAD else 0
        s.load(le4(len(item)) + item)
        s.open(STRING, 0, 0, 1, expect=number)
        if number:
            s.open(BLOB, 0, 0, 1, expect=0)
        if item:
            s.load(item)
            s.open(CHAR, 0, len(item), 1, expect=number)
    # char up to its first NUL, and each item by itself
    for number, width, n, text in ((17, 1, 1, "C3"), (0, 2, 1, "C3A9"), (17, 1, 2, "C3A9"), (17, 3, 1, "C300A9"), (17, 3, 1, "61E282"),
                                   (0, 3, 1, "4100FF"), (0, 3, 2, "00FFFF 61C3A9"), (17, 2, 2, "61C3 A900"), (11, 3, 1, "C3A9")):
        s.load(bytes.fromhex(text))
        s.open(CHAR, 0, width, n, expect=number)
        s.give(MOST, expect=0 if number == 0 else 9)
    # string whole, NULs too, and each item by itself
    for number, n, text in ((17, 2, "01000000 02000000 C3A9"), (14, 2, "02000000 01000000 C3A9"), (11, 2, "01000000 01000000 C3A9"),
                            (14, 1, "03000000 C3FF"), (10, 2, "01000000 FF"), (17, 1, "03000000 4100FF"), (0, 2, "04000000 06000000 4100C3A9 0000")):
        s.load(bytes.fromhex(text))
        s.open(STRING, 0, 0, n, expect=number)
        if number == 17:
            s.open(BLOB, 0, 0, n, expect=0)
        s.give(MOST, expect=0 if number in (0, 17) else 9)
    # wherever an item can stand; with rows or bytes that don't fit another number wins
    for encoding in range(5):
        for kind, width, bad in ((CHAR, 2, b"a\xc3"), (STRING, 0, b"\xed\xa0\x80")):
            block, n = bad_items(kind, encoding, b"", bad, b"\xc3\xa9")
            s.load(block)
            s.open(kind, encoding, width, n, expect=17)
            for rows, length in ((n + 1, s.len), (n - 1, s.len), (n, s.len - 1)):
                s.lend(length)
                assert not s.open(kind, encoding, width, rows)
                assert int(s.answers[-1].split()[1], 16) in (10, 11, 14, 16)
                s.lend(len(block))
            if kind == STRING:
                s.open(BLOB, encoding, 0, n, expect=0)
                s.give(MOST, expect=0)
                s.change(block.index(b"\xed"), 0xee)
                s.open(STRING, encoding, 0, n, expect=0)
                s.give(MOST, expect=0)
    # a dictionary without rows; an unknown key, which wins
    for key_block, n, number in ((b"", 0, 17), (runs("01", keys(0)), 1, 17), (runs("01", keys(2)), 1, 15)):
        s.load(dictionary(key_block, 1, ends(1) + b"\xff"))
        s.open(STRING, 4, 0, n, expect=number)
        s.open(BLOB, 4, 0, n, expect=15 if number == 15 else 0)
        s.load(dictionary(key_block, 1, b"\xff"))
        s.open(CHAR, 4, 1, n, expect=number)
    s.load(bits(b"\xff", "00"))
    s.open(CHAR, 1, 1, 1, expect=17)
    # each place of items of several lengths
    for kind, width, item, n in ((CHAR, 5, b"abcde", 5), (STRING, 0, b"abcdefghijklmnopq", 1)):
        s.load(model.plain(kind, width, [item] * n))
        for at in range(s.len - len(item) * n, s.len):
            kept = s.room[at]
            s.change(at, 0xc3)
            s.open(kind, 0, width, n, expect=17)
            s.change(at, kept)
        s.open(kind, 0, width, n, expect=0)
    # what has become no text since is handed out, and opened no more
    for encoding in range(5):
        for kind, width in ((CHAR, 2), (STRING, 0)):
            rows = [b"ab", None, "\u00e9".encode(), "\u00e9".encode()]
            block = model.build(kind, encoding, width, rows)
            s.load(block)
            s.open(kind, encoding, width, 4, expect=0)
            s.change(block.index(b"\xc3"), 0xff)
            s.give(MOST, skip=1, expect=0)
            s.remaining(expect=0)
            s.open(kind, encoding, width, 4, expect=17)


def refusals(s):
    """A block for each refusal of each encoding, and for the order of the rules."""
    block = s.load

    def refuse(expect, kind, encoding, width, rows):
        s.open(kind, encoding, width, rows, expect=expect)

    # 1: names, as they come
    block(b"")
    for e in range(5):
        for kind, width in ((12, 0), (256, 0), (MOST, 0), (0, 1), (2, 256), (3, 8), (7, MOST), (CHAR, 0), (CHAR, 256),
                            (CHAR, MOST), (BLOB, 1), (BLOB, 256), (STRING, 1), (STRING, 256), (F64, 1), (F64, 8)):
            refuse(1, kind, e, width, 0)
    for e in (5, 256, MOST):
        refuse(1, 2, e, 0, 0)
    refuse(1, 12, 0, 0, MOST)
    # 3: rows, before anything of the block is looked at
    for e in range(5):
        for n in (2**48, MOST):
            refuse(3, 2, e, 0, n)
    for e in (0, 1):
        refuse(3, 2, e, 0, ITEMS + 1)
        refuse(3, BLOB, e, 0, 2**32)
    refuse(11, 2, 0, 0, ITEMS)
    refuse(10, BLOB, 0, 0, ITEMS)
    refuse(10, 2, 1, 0, ITEMS)
    for e in (2, 3):
        refuse(16, 2, e, 0, MOST_ROWS)
    refuse(10, 2, 4, 0, MOST_ROWS)

    # plain: 11, 10, 14
    for kind in (*FIXED, CHAR):
        width = 3 if kind == CHAR else 0
        size = model.size_of(kind, width)
        block(b"\1" * (2 * size))
        refuse(0, kind, 0, width, 2)
        refuse(11, kind, 0, width, 0)
        refuse(11, kind, 0, width, 1)
        refuse(11, kind, 0, width, 3)
        s.lend(2 * size - 1)
        refuse(11, kind, 0, width, 2)
        s.lend(2 * size + 1)
        refuse(11, kind, 0, width, 2)
    plain = ((10, 1, ""), (10, 1, "000000"), (10, 2, "00000000000000"), (0, 1, "00000000"), (11, 1, "0000000061"),
             (11, 0, "61"), (0, 2, "0100000002000000 6162"), (14, 2, "0200000001000000 6162"),
             (14, 2, "0100000003000000 6162"), (14, 2, "0300000003000000 6162"), (14, 2, "0100000000000000 6162"),
             (11, 2, "0100000001000000 6162"), (14, 2, "FFFFFFFF00000000 6162"), (14, 1, "FFFFFFFF"),
             (14, 1, "01000000"), (10, 3, "0100000002000000 6162"))
    for expect, n, text in plain:
        b = bytes.fromhex(text)
        # also as the items of a nullable block, of runs and of a dictionary
        for e, b in enumerate((b, bits(b, "FF" * ((n + 7) // 8)), runs("01" * n, b), runs("01" * n, bits(b, "00")),
                               dictionary(runs("02", keys(n)), n, b))):
            if n or e not in (2, 3):
                block(b)
                for kind in BY_ENDS:
                    refuse(expect, kind, e, 0, 2 if e == 4 else n)

    # nullable: 10, then 11, then 10, then the items
    for expect, n, text in ((10, 0, ""), (10, 0, "00"), (10, 0, "000000"), (0, 0, "00000000"), (11, 0, "01000000"),
                            (11, 0, "0000000000"), (11, 1, "00000000"), (11, 1, "0100 00 02000000"),
                            (10, 17, "03000000"), (10, 17, "000003000000"), (11, 17, "02000000"), (11, 17, "FFFFFFFF"),
                            (11, 17, "00000003000000"), (11, 1, "00000001"), (11, 1, "0101000000"), (10, 1, "01000000"),
                            (0, 1, "0100 01 01000000"), (11, 1, "010000 01 01000000"), (11, 9, "00" * 18 + "FF01000000"),
                            (0, 9, "00" * 18 + "FFFF02000000"), (11, 8, "00" * 16 + "FFFF02000000")):
        b = bytes.fromhex(text)
        block(b)
        refuse(expect, I16, 1, 0, n)
        if n:
            block(runs("01" * n, b))
            refuse(expect, I16, 3, 0, n)

    # runs, and the same as the key block of a dictionary
    zero, one, two = "", "00000000", "0000000000000000"
    rules = ((16, 1, None), (0, 0, None), (10, 0, "00"), (10, 1, "01000000010000"), (10, 7, "02000000010000"),
             (10, 0, "00000000000000"), (10, 1, "FFFFFFFF000000"),
             (3, 1, "0100100001000000"), (3, 0, "FFFFFFFF00000000"), (3, 1, "01001000FFFFFFFF"),
             (13, 0, two), (13, 1, "0000000001000000 01"), (13, 0, "00000000FFFFFFFF"), (10, 1, "0100000001000000"),
             (10, 1, "01000000FFFFFFFF 01"), (13, 1, "0000100000000000"), (10, 1, "0000100001000000"),
             # the walk
             (12, 1, "0100000001000000 80" + one), (12, 1, "0100000001000000 80 01" + one),
             (12, 1, "0100000004000000 FFFFFFFF" + one), (12, 1, "0100000005000000 FFFFFFFF10" + one),
             (12, 1, "0100000005000000 FFFFFFFF7F" + one), (12, 1, "0100000005000000 8080808080" + one),
             (12, 1, "0100000006000000 808080808000" + one), (12, 1, "0200000002000000 0180" + two),
             (13, 1, "0200000002000000 0080" + two), (13, 1, "0100000002000000 0180" + one),
             (13, 1, "0100000001000000 00" + one), (12, 1, "0100000002000000 8000" + one),
             (12, 1, "0100000005000000 8080808000" + one), (13, 1, "0200000001000000 01" + two),
             (13, 1, "0200000003000000 008100" + two), (12, 2, "0200000003000000 018100" + two),
             (13, 1, "0100000003000000 018000" + one),
             (13, 1, "0200000000000000" + two), (13, 2, "0100000002000000 0101" + one), (13, 0, "0100000001000000 00" + one),
             (13, 1, "0200000002000000 0100" + two), (12, 1, "0200000003000000 808000" + two),
             # the sum
             (16, 0, "0100000001000000 01" + one), (16, 2, "0100000001000000 01" + one),
             (16, 2, "0200000002000000 0102" + two), (16, 2**32 + 1, "0100000001000000 01" + one),
             (16, 1, "0200000006000000 FFFFFFFF0F 02" + two), (16, MOST_ROWS, "0100000001000000 01" + one),
             (16, 2, "0100000001000000 01" + zero),
             # the items
             (11, 1, "0100000001000000 01" + zero), (11, 1, "0100000001000000 01 000000"),
             (11, 1, "0100000001000000 01 0000000000"), (11, 2, "0200000002000000 0101" + one),
             (11, 2, "0200000002000000 0101" + two + "00"))
    for expect, n, text in rules:
        b = b"" if text is None else bytes.fromhex(text)
        block(b)
        refuse(expect, I32, 2, 0, n)
        if b and expect != 11:
            refuse(expect, I32, 3, 0, n)
        block(dictionary(b, 0, b""))
        refuse(expect, I32, 4, 0, n)
    # the inner rules of encoding 3 come after 16
    block(runs("01", b"\1"))
    refuse(16, I32, 3, 0, 2)
    refuse(10, I32, 3, 0, 1)

    # a dictionary's head
    for n in (0, 4, 8, 11):
        block(bytes(n))
        refuse(10, I32, 4, 0, 0)
        refuse(10, I32, 4, 0, 1)
    for length in (1, 2**32, 2**63, MOST, MOST - 1, MOST - 10, MOST - 11, MOST - 12, MOST - 19):
        block(dictionary(b"", 0, b"", length))
        refuse(10, I32, 4, 0, 0)
    block(dictionary(b"", 65537, b"", MOST))
    refuse(3, I32, 4, 0, 0)
    block(dictionary(b"", 2**32 - 1, b""))
    refuse(3, I32, 4, 0, 1)
    block(dictionary(b"", 65536, b""))
    refuse(11, I32, 4, 0, 0)
    refuse(10, BLOB, 4, 0, 0)
    refuse(16, I32, 4, 0, 1)
    # keys in order, then the entries
    for expect, slots, entries, items in ((0, (1, 2, 0), 2, 4), (15, (1, 3, 0), 2, 4), (15, (1, 2, 2**31), 2, 4),
                                          (15, (2**31 - 1, 0, 0), 2, 4), (15, (0, 0, 2**32 - 1), 2, 4), (15, (0, 0, 1), 0, 0),
                                          (0, (0, 0, 0), 0, 0), (15, (3, 0, 0), 2, 3), (11, (2, 0, 0), 2, 3),
                                          (11, (2, 0, 0), 2, 5), (11, (0, 0, 0), 0, 1), (15, (65537, 0, 0), 3, 6),
                                          (15, (257, 0, 0), 1, 2)):
        block(dictionary(runs("010101", keys(*slots)), entries, bytes(items)))
        refuse(expect, I16, 4, 0, 3)
    # 11 of the key block comes before 15, 15 before the entries' 10 and 14, 16 before 15
    block(dictionary(runs("01", keys(9) + b"\0"), 0, b""))
    refuse(11, I16, 4, 0, 1)
    block(dictionary(runs("01", keys(9)), 1, b""))
    refuse(15, BLOB, 4, 0, 1)
    refuse(16, BLOB, 4, 0, 2)
    block(dictionary(runs("01", keys(9)), 1, ends(5)))
    refuse(15, BLOB, 4, 0, 1)


def cuts(s):
    """A sound block at every shorter length, opened, and read by a reader that says so too. The bytes that were cut off are
    still there, past what is lent."""
    for kind, encoding, width, rows in ((BLOB, 0, 0, [b"ab", b""]), (CHAR, 1, 1, [b"a", None]), (BLOB, 1, 0, [None, b"b"]),
                                        (I16, 2, 0, [7, 7, 8]), (STRING, 2, 0, [b"ab", b"ab"]), (BLOB, 3, 0, [b"c", None]),
                                        (I16, 3, 0, [1]), (I16, 4, 0, [None, 5]), (STRING, 4, 0, [b"a", None, b"bc"])):
        block = model.build(kind, encoding, width, rows)
        s.load(block)
        s.open(kind, encoding, width, len(rows), expect=0)
        sound = s.reader
        for length in range(len(block)):
            s.lend(length)
            if kind in BY_ENDS:
                s.set("len", length)
                s.read(0, MOST, 0, 3, 3, 4)
                s.again()
                assert s.reader is NO_READER
                s.lend(len(block))
                s.again()
            else:
                s.again()
        assert s.reader.fields() in (sound.fields(), NO_READER.fields())
    s.load(dictionary(runs("03", keys(0)), 0, b""))
    s.open(I16, 4, 0, 3, expect=0)
    for length in range(24, 11, -1):
        s.lend(length)
        s.open(I16, 4, 0, 3, expect=10)


def of_counts(encoding, counts, number):
    """A block of an encoding with runs, with i16 items 0, 1, .. and these bytes as its counts; and where in it the counts start."""
    inner = model.plain(I16, 0, range(number))
    if encoding == 2:
        return runs(counts, inner, number), 8
    if encoding == 3:
        return runs(counts, bits(inner, "D5"), number), 8
    return dictionary(runs(counts, keys(*range(number)), number), number, inner), 20


def spellings(s):
    """Counts of every length, and of several runs."""
    for counts in (["7F", "8001", "FF7F", "808001", "FFFF7F", "80808001"],
                   ["FFFFFF7F", "8080808001", "FFFFFFFF0E", "808080800F", "FFFFFFFF0F"]):
        numbers = [model.count_at(bytes.fromhex(c), 0)[0] for c in counts]
        for encoding in (2, 3, 4):
            s.load(of_counts(encoding, "".join(counts), len(counts))[0])
            s.open(I16, encoding, 0, sum(numbers), expect=0)
            for n in numbers:
                s.give(2, skip=n - 1, expect=0)
                s.remaining(expect=0)
                if s.left():
                    s.again()
                    s.skip(sum(numbers[:numbers.index(n) + 1]), expect=0)
            s.give(1, expect=0)


def longer_than_needed(s):
    """A count with a last byte of 0 behind another, as each of three: 12 at opening, and 9 in a reader when its bytes become such."""
    for spelled in ("8000", "8100", "808000", "FFFFFFFF00"):
        needed = spelled[:-2] + "01"
        size, count = len(spelled) // 2, model.count_at(bytes.fromhex(needed), 0)[0]
        for encoding in (2, 3, 4):
            block, start = of_counts(encoding, 3 * needed, 3)
            s.load(block)
            for run in range(3):
                last = start + (run + 1) * size - 1
                s.open(I16, encoding, 0, 3 * count, expect=0)
                s.change(last, 0)
                s.give(1, skip=run * count, expect=9)
                if run:
                    s.skip(run * count, expect=0)
                s.remaining(expect=0)
                s.skip(1, expect=9)
                s.open(I16, encoding, 0, 3 * count, expect=12)
                s.change(last, 1)


def sound_all_the_same(s):
    """What no builder writes and opening takes."""
    s.load(b"\0\1\2\x80\xff")
    s.open(0, 0, 0, 5, expect=0)
    s.give(5, expect=0)
    s.load(bits(b"\0\2\xff", "FB"))
    s.open(0, 1, 0, 3, expect=0)
    s.give(3, expect=0)
    s.load(runs("0201", b"\7\6"))
    s.open(0, 2, 0, 3, expect=0)
    s.give(3, expect=0)
    s.load(dictionary(runs("010102", keys(1, 2, 3)), 4, b"\0\5\5\5"))
    s.open(0, 4, 0, 4, expect=0)
    s.give(4, expect=0)
    # a null over an item
    s.load(bits(blobs(b"ab", b"cd", b"e"), "05"))
    s.open(BLOB, 1, 0, 3, expect=0)
    s.give(3, expect=0)
    s.load(bits(b"abcdef", "FE"))
    s.open(CHAR, 1, 2, 3, expect=0)
    s.give(3, expect=0)
    s.load(runs("0203", bits(blobs(b"ab", b"cd"), "02")))
    s.open(BLOB, 3, 0, 5, expect=0)
    s.give(5, expect=0)
    s.load(runs("0203", bits(bytes(range(1, 9)), "FD")))
    s.open(I32, 3, 0, 5, expect=0)
    s.give(5, expect=0)
    # nine flags, the unused ones set
    s.load(bits(bytes(range(1, 10)), "55FF"))
    s.open(0, 1, 0, 9, expect=0)
    s.give(9, expect=0)
    # runs that could be one, equal entries
    s.load(runs("010202", b"aaa"))
    s.open(CHAR, 2, 1, 5, expect=0)
    s.give(5, skip=2, expect=0)
    s.load(dictionary(runs("0101", keys(1, 2)), 2, b"aa"))
    s.open(CHAR, 4, 1, 2, expect=0)
    s.give(2, expect=0)


def run_two(s):
    """Skips to the next run, into it and past it before anything was read."""
    for encoding in (2, 3, 4):
        rows = [b"one"] * 3 + [None] * 2 + [b"two"] * 4 + [b""]
        s.load(model.build(BLOB, encoding, 0, rows))
        s.open(BLOB, encoding, 0, len(rows), expect=0)
        for n in (3, 4, 5, 6, 9):
            s.give(1, skip=n, expect=0)
            s.give_short(MOST)
            s.again()
        s.skip(2, expect=0)
        s.give(2, skip=3, expect=0)


def thin():
    """Each encoding with three kinds, and rows of which half are null; two are 0 or have no bytes, and are there."""
    for encoding in range(5):
        for kind, width, item in ((I16, 0, 5), (CHAR, 2, b"ab"), (BY_ENDS[encoding % 2], 0, b"ab")):
            none = type(item)()
            yield kind, encoding, width, [None, item, item, None, None, none, None, none]


def nulls_given(s):
    """The count of nulls after rows that are given, passed over, or refused by each number."""
    for kind, encoding, width, rows in thin():
        s.load(model.build(kind, encoding, width, rows))
        s.open(kind, encoding, width, 8, expect=0)
        s.counted(0)
        s.give(1, expect=0)
        s.counted(1)
        s.remaining(expect=0)
        s.nothing()
        s.lend(s.len - 1)
        s.give(3, expect=9)
        s.lend(s.len + 1)
        s.give(1, skip=8, expect=7)
        s.give_short(3, skip=1)
        s.counted(3)
        s.skip(2, expect=0)
        s.counted(3)
        s.give(MOST, expect=0)
        s.give(1, expect=0)
        s.counted(3)
        s.again()
        s.give(2, skip=3, expect=0)
        s.counted(2)
        s.again()
        s.skip(8, expect=0)
        s.counted(0)


def many_nulls(s):
    """More flags than are counted at a time, more nulls than a byte counts, and a 0 behind the flags that are written."""
    s.load([(400, b"\1"), (49, b"\x2d"), (1, b"\xff"), (1, le4(50))])
    s.open(0, 1, 0, 400, expect=0)
    for n in (191, 192):
        s.read(0, n, n, n, expect=0)
    s.again()
    s.read(7, 385, 400, 400, expect=0)
    s.counted(1 + 48 * 4)
    for encoding in (3, 4):
        s.load(model.build(0, encoding, 0, [1] + [None] * 398 + [1]))
        s.open(0, encoding, 0, 400, expect=0)
        for skip, size in ((1, 193), (0, MOST)) if encoding == 3 else ((0, 399),):
            s.read(skip, size, 399, 400, expect=0)
        s.counted(398)


def many_bytes(s):
    """More bytes than an answer can have."""
    for text, rows in (("FFFFFFFF0F", 2**32 - 1), ("FFFFFFFF07", 2**31 - 1), ("8080808008", 2**31)):
        for encoding in (2, 4):
            inner = blobs(b"ab")
            s.load(runs(text, inner, 1) if encoding == 2 else dictionary(runs(text, keys(1), 1), 1, inner))
            s.open(BLOB, encoding, 0, rows, expect=0)
            s.read(0, MOST, 0, 64, 64, 255, expect=4)
            s.read(0, 64, 0, 64, 64, 128, expect=0)
            s.read(0, 64, 0, 64, 64, 127, expect=4)
            s.read(s.left() - 64, MOST, 0, 64, 64, 128, expect=0)  # bytes of rows passed over don't count
    # items of no bytes: only the ends and flags are too short
    s.load(runs("FFFFFFFF0F", blobs(b""), 1))
    s.open(BLOB, 2, 0, 2**32 - 1, expect=0)
    s.read(0, 65, 0, 64, 64, 0, expect=4)
    s.read(0, 64, 0, 64, 64, 0, expect=0)
    # 32,800 runs of 4,294,967,295 rows of 131,073 bytes: more than 2^64 in all
    s.load([(1, dictionary(b"", 1, b"", 32800 * 9 + 8)), (1, le4(32800) + le4(32800 * 5)), (32800, b"\xff\xff\xff\xff\x0f"),
            (32800, keys(1)), (1, le4(131073)), (131073, b"q")])
    s.open(BLOB, 4, 0, 32800 * (2**32 - 1), expect=0)
    s.read(0, MOST, 0, 64, 64, 255, expect=4)
    s.read(0, 1, 0, 1, 1, 255, expect=4)
    s.read(s.left() - 1, 1, 0, 1, 1, 255, expect=4)
    s.skip(s.left() - 1, expect=0)


def most_rows(s):
    """281,474,976,710,655 rows: 65,536 runs of 4,294,967,295 rows and one of 65,535."""
    counts = [(65536, b"\xff\xff\xff\xff\x0f"), (1, b"\xff\xff\x03")]
    head = le4(65537) + le4(65536 * 5 + 3)
    for encoding in (2, 3, 4):
        if encoding == 2:
            s.load([(1, head), *counts, (65536, b"\1"), (1, b"\0")])
        elif encoding == 3:
            s.load([(1, head), *counts, (65537, b"\1"), (8192, b"\xff"), (1, b"\0"), (1, le4(8193))])
        else:
            s.load([(1, dictionary(b"", 2, b"", 8 + 65536 * 5 + 3 + 65537 * 4)), (1, head), *counts, (65536, keys(1)),
                    (1, keys(2)), (1, b"\0\1")])
        s.open(0, encoding, 0, MOST_ROWS - 1, expect=16)
        s.open(0, encoding, 0, MOST_ROWS + 1, expect=3)
        s.open(0, encoding, 0, MOST_ROWS, expect=0)
        s.remaining(expect=0)
        s.skip(MOST_ROWS + 1, expect=7)
        s.read(MOST, MOST, 64, 64, expect=7)
        s.read(0, MOST, 64, 64, expect=4)
        s.give(MOST, skip=MOST_ROWS, expect=0)
        s.skip(1, expect=7)
        s.again()
        s.give_short(4, skip=MOST_ROWS - 65535 - 2)
        s.give(2, skip=65535 - 2 - 3, expect=0)
        s.give(MOST, expect=0)
        # the largest count of nulls, and one more
        s.again()
        s.skip(MOST_ROWS - 2, expect=0)
        s.set("nulls", MOST_ROWS - 2)
        s.give(MOST, expect=0)
        s.set("nulls", MOST_ROWS)
        s.remaining(expect=0)
        s.set("nulls", MOST_ROWS + 1)
        s.remaining(expect=9)
        # a count on the way is damaged
        s.again()
        at = (20 if encoding == 4 else 8) + 5 * 40000
        s.change(at + 4, 0x10)
        s.give(1, skip=40000 * (2**32 - 1), expect=9)
        s.skip(MOST_ROWS, expect=9)
        s.skip(MOST_ROWS + 1, expect=7)
        s.skip(40000 * (2**32 - 1), expect=0)
        s.skip(1, expect=9)
        s.again()  # refused
        s.change(at + 4, 0x0f)


def most_entries(s):
    """65,536 entries, and 65,537."""
    key_block = runs("01020103", keys(1, 65536, 0, 65535))
    head = lambda n: dictionary(b"", n, b"", len(key_block))
    s.load([(1, head(65536) + key_block), (65534, b"\1"), (1, b"\0\1")])
    s.open(0, 4, 0, 7, expect=0)
    s.give(7, expect=0)
    length = s.len
    s.lend(length - 1)
    s.open(0, 4, 0, 7, expect=11)
    # the entries' limit alone
    s.lend(length)
    s.again()
    s.lend(length + 1)
    s.set("len", length + 1)
    s.give(2, expect=0)
    s.set("entries", 65537)
    s.remaining(expect=9)
    s.give(2, expect=9)
    s.load([(1, head(65537) + key_block), (65537, b"\1")])
    s.open(0, 4, 0, 7, expect=3)
    s.load([(1, head(65536) + runs("01020103", keys(1, 65536, 0, 65537))), (65536, b"\1")])
    s.open(0, 4, 0, 7, expect=15)


def most_items(s):
    """1,048,576 rows and runs, and one more, in the block and in the record alone."""
    def ends_well(encoding, rows):
        s.open(0, encoding, 0, rows, expect=0)
        s.give(MOST, skip=ITEMS - 2, expect=0)

    def one_more(**fields):
        for field, value in fields.items():
            s.set(field, value)
        s.remaining(expect=9)
        s.skip(MOST, expect=9)
        s.give(1, expect=9)

    s.load([(ITEMS - 1, b"\0"), (1, b"\1")])
    ends_well(0, ITEMS)
    s.lend(ITEMS + 1)
    one_more(rows=ITEMS + 1, len=ITEMS + 1)
    s.open(0, 0, 0, ITEMS + 1, expect=3)
    s.load([(ITEMS, b"\1"), (ITEMS // 8 - 1, b"\0"), (1, b"\x80"), (1, le4(ITEMS // 8))])
    ends_well(1, ITEMS)
    s.lend(s.len + 2)
    one_more(rows=ITEMS + 1, len=s.len)
    s.load([(1, le4(ITEMS) + le4(ITEMS)), (ITEMS - 1, b"\1"), (1, b"\2"), (ITEMS - 1, b"\0"), (1, b"\1")])
    ends_well(2, ITEMS + 1)
    one_more(runs=ITEMS + 1, counts=ITEMS - 1)
    s.load([(1, le4(ITEMS) + le4(ITEMS)), (ITEMS - 1, b"\1"), (1, b"\2"), (ITEMS, b"\1"), (ITEMS // 8 - 1, b"\0"),
            (1, b"\x80"), (1, le4(ITEMS // 8))])
    ends_well(3, ITEMS + 1)
    one_more(runs=ITEMS + 1, counts=ITEMS - 2)


# ---- records and memory that no call made

TEXTS = [b"ab", b"ab", None, None, b"c", b"c", b"c", b""]
NUMBERS = [7, 7, None, None, -1, -1, -1, 0]


def bases():
    for encoding in range(5):
        for kind, width, rows in ((I16, 0, NUMBERS), (CHAR, 2, TEXTS), (BY_ENDS[encoding % 2], 0, TEXTS)):
            yield kind, encoding, width, rows


def small_calls(s):
    s.remaining()
    rooms = (2, 2, 2, 4) if s.reader.kind in (CHAR, *BY_ENDS) else (2, 2, 0, 0)
    if s.read(1, 2, *rooms) and not model.contradicts(s.reader):
        s.skip(1)


def values_of(field, r):
    """Numbers to forge a field with: next to what it was, at its limits, and far beyond."""
    here = getattr(r, field)
    near = {here - 1, here + 1, here + 2**32, MOST}
    return sorted(n for n in {
        "kind": {*range(13), 255, here + 256, MOST},
        "encoding": {*range(6), here + 256, MOST},
        "width": {0, 1, 2, 3, 255, 256, MOST},
        "rows": {0, *near, ITEMS, ITEMS + 1, MOST_ROWS, MOST_ROWS + 1},
        "len": {0, *near, 2**24, 2**24 + 1},
        "runs": {0, *near, ITEMS, ITEMS + 1},
        "counts": {0, *near, r.len, MOST - 7},
        "keys": {0, *near, r.len - 12, r.len, MOST - 11},
        "entries": {0, *near, 65536, 65537},
        "place": {0, *near, r.rows, r.rows + 1},
        "run": {0, *near, r.runs, r.runs + 1},
        "at": {0, *near, r.counts, r.counts + 1},
        "taken": {0, *near, here + 2, 2**32 - 1},
        "nulls": {r.place - 1, r.place, r.place + 1, MOST}}[field] if 0 <= n <= MOST and n != here)


def looked_at(field, encoding):
    if field in ("keys", "entries"):
        return encoding == 4
    return encoding >= 2 or field not in ("runs", "counts", "run", "at", "taken")


def forged(s):
    """Each field of the reader set to other numbers, in the middle of a block: all of them for one kind in each encoding, a
    sixth for the others, and the largest where the encoding doesn't look at the field. The count of nulls is forged_nulls'."""
    for base, (kind, encoding, width, rows) in enumerate(bases()):
        s.load(model.build(kind, encoding, width, rows))
        s.open(kind, encoding, width, len(rows), expect=0)
        s.skip(3)
        middle = s.reader
        for field in Reader.FIELDS[:-1]:
            values = values_of(field, middle)
            every = base % 3 == encoding % 3
            if not looked_at(field, encoding):
                values = values[-1:]
            elif not every:
                values = values[::6]
            for value in values:
                s.set(field, value)
                if every and value == values[-1]:
                    s.nothing()
                small_calls(s)
                changed = [f for f in Reader.FIELDS if getattr(s.reader, f) != getattr(middle, f)]
                if len(changed) < 5:
                    for f in changed:
                        s.set(f, getattr(middle, f))
                else:
                    s.again()
                    s.skip(3)


def forged_nulls(s):
    """The count of nulls below the place and at it is carried and added to; above it every call is refused, in every encoding."""
    for base, (kind, encoding, width, rows) in enumerate(thin()):
        if base % 3 != encoding % 3:
            continue
        s.load(model.build(kind, encoding, width, rows))
        s.open(kind, encoding, width, 8, expect=0)
        s.skip(3, expect=0)
        for more, number in ((-1, 0), (0, 0), (1, 9), (MOST, 9)):
            forged = min(s.reader.place + more, MOST)
            s.set("nulls", forged)
            s.remaining(expect=number)
            s.nothing()
            s.skip(MOST, expect=number or 7)
            s.read(0, 1, expect=number or 4)
            if number:
                s.skip(1, expect=9)
            s.give(1, expect=number)  # a null
            assert s.reader.nulls == forged + (number == 0 and encoding in (1, 3, 4))
        # carried by a skip, and above the place when that falls
        s.set("nulls", 5)
        s.skip(1, expect=0)
        assert (s.reader.place, s.reader.nulls) == (6, 5)
        s.set("place", 4)
        s.remaining(expect=9)
        s.give(1, expect=9)
        s.set("place", 5)
        s.remaining(expect=0)
        s.give(MOST, expect=0 if encoding < 2 else 9)  # the runs have a row less than the place says
        # at the end, and at the start
        s.again()
        s.skip(8, expect=0)
        for forged, number in ((9, 9), (8, 0)):
            s.set("nulls", forged)
            s.remaining(expect=number)
            s.give(1, expect=number)
        s.again()
        for forged, number in ((1, 9), (0, 0)):
            s.set("nulls", forged)
            s.remaining(expect=number)
            s.skip(1, expect=number)


def forged_heads(s):
    """No runs and no counts, and parts that just fit, or miss that by one."""
    for kind, encoding, width, rows in bases():
        if encoding < 2:
            continue
        s.load(model.build(kind, encoding, width, rows))
        s.open(kind, encoding, width, len(rows), expect=0)
        r = s.reader
        most = {2: r.len - 8, 3: r.len - 12, 4: r.keys - 8}[encoding]
        heads = [dict(runs=0), dict(runs=0, counts=0), dict(runs=0, counts=MOST), dict(runs=0, counts=most),
                 dict(runs=0, counts=most + 1), dict(rows=0, runs=0, counts=0), dict(runs=0, counts=0, len=0)]
        if encoding == 4:
            most = r.len - 12 - model.least(kind, width, r.entries)
            heads += [dict(runs=0, counts=0, keys=most), dict(runs=0, counts=0, keys=most + 1), dict(runs=0, counts=0, keys=0),
                      dict(keys=most), dict(runs=0, counts=0, entries=65537), dict(runs=0, counts=0, keys=MOST)]
        for head in heads:
            for field, value in head.items():
                s.set(field, value)
            small_calls(s)
            s.again()


def forged_lengths(s):
    """A longer or shorter block and a record that says so: a part may be too long, and not too short."""
    for kind, encoding, width, rows in bases():
        block = model.build(kind, encoding, width, rows)
        s.load(block + b"\1\0\1\0")
        s.lend(len(block))
        s.open(kind, encoding, width, len(rows), expect=0)
        for more in (1, 4, -1):
            s.lend(len(block) + more)
            s.remaining(expect=0)
            if more == 1:
                s.nothing()
            s.read(MOST, 1, 1, 1, 1, 4, expect=9)
            s.skip(1, expect=9)
            s.read(0, 1, 1, 1, 1, 4, expect=9)
            s.set("len", len(block) + more)
            s.remaining()
            s.read(0, 3, 3, 3, 3, 6)
            s.again()  # refused
            s.lend(len(block))
            s.again()


def forged_by_chance(s):
    """Several fields at once, and a byte of the block."""
    pick, chance = s.random.choice, s.random.random
    all_bases = list(bases())
    for _ in range(15):
        kind, encoding, width, rows = pick(all_bases)
        block = model.build(kind, encoding, width, rows)
        s.load(block)
        s.open(kind, encoding, width, len(rows), expect=0)
        s.skip(pick((1, 2, 3, 5, 8)))
        for _ in range(pick((1, 2, 2, 3))):
            field = pick(Reader.FIELDS[1:] if chance() < .9 else Reader.FIELDS)
            s.set(field, pick(values_of(field, s.reader)))
        if chance() < .3:
            s.change(s.random.randrange(len(block)), pick((0, 1, 2, 127, 128, 255)))
        s.wander(3)


def damaged(s):
    """Memory changed after opening, for each rule that a read looks at again."""
    rows = [b"ab"] * 3 + [None] * 3 + [b"c"] * 3
    for encoding in (2, 3, 4):
        kind = BY_ENDS[encoding % 2]
        block = model.build(kind, encoding, 0, rows)
        counts = 20 if encoding == 4 else 8
        s.load(block)
        for at, byte in ((0, 0), (0, 1), (0, 2), (0, 4), (0, 0x80), (0, 0x83), (1, 0), (1, 1), (1, 0x80), (2, 0), (2, 0x80),
                         (2, 1)):
            s.open(kind, encoding, 0, 9, expect=0)
            s.skip(2)
            s.change(counts + at, byte)
            s.remaining(expect=0)
            s.give(1)
            s.give(1, skip=1)
            s.skip(1)
            s.give(MOST)
            s.change(counts + at, 3)
        # a run that is used up is left, whatever its item or key is
        s.open(kind, encoding, 0, 9, expect=0)
        s.skip(5, expect=0)
        s.change(counts + 1, 2)
        s.change(counts + 3 + (4 if encoding == 4 else 0), 0x7f)
        s.give(1, expect=0)
        s.load(block)
        # the head isn't read again
        s.open(kind, encoding, 0, 9, expect=0)
        for at in range(counts):
            s.change(at, 0xff)
        s.give(9, expect=0)
    # ends: of rows given, under nulls too, and not of rows passed over
    rows = [b"ab", None, b"c", b"de"]
    for encoding in range(5):
        kind = BY_ENDS[encoding % 2]
        block = model.build(kind, encoding, 0, rows)
        first = {0: 0, 1: 0, 2: 12, 3: 12, 4: len(block) - 17}[encoding]
        items = 3 if encoding == 4 else 4
        s.load(block)
        for item in range(items):
            for byte in (0, 3, 6):
                kept = s.room[first + 4 * item]
                s.open(kind, encoding, 0, 4, expect=0)
                s.change(first + 4 * item, byte)
                s.read(0, 1, 0, 1, 1, 6)
                s.give(1)
                s.give(4)
                s.read(2, 4, 0, 4, 4, 12)
                s.change(first + 4 * item, kept)
        s.open(kind, encoding, 0, 4, expect=0)
        s.change(first + 3, 1)
        s.give(1)
        s.give(MOST, skip=1)
    # keys: of two entries, the third, null and others
    texts = [b"ab", None, b"c", b"c"]
    for kind, width, rows in ((STRING, 0, texts), (CHAR, 2, texts), (I16, 0, [5, None, 6, 6])):
        s.load(model.build(kind, 4, width, rows))
        for at, byte in ((23, 0), (23, 3), (23, 9), (26, 0), (27, 1), (31, 3), (31, 1), (34, 1)):
            s.open(kind, 4, width, 4, expect=0)
            kept = s.room[at]
            s.change(at, byte)
            s.give(1, expect=9 if (at, byte) in ((23, 3), (23, 9), (26, 0)) else 0)
            s.give(MOST, skip=1)
            s.change(at, kept)
    # flags
    for kind, width, rows in ((I16, 0, NUMBERS), (CHAR, 2, TEXTS), (BLOB, 0, TEXTS)):
        for encoding in (1, 3):
            block = model.build(kind, encoding, width, rows)
            s.load(block)
            for byte in (0x00, 0xff, 0xaa, 0x04):
                s.open(kind, encoding, width, 8)
                s.change(len(block) - 5, byte)
                s.change(len(block) - 4, 9)  # the bitmap's length isn't read again
                s.read(0, MOST, 8, 8, 8, 16)
                s.change(len(block) - 4, 1)


def nine_first(s):
    """A fault of a row that a read gives comes before an area that is too short, and one of a later row isn't met."""
    texts = [b"a", b"a", b"b", b"b"]
    for kind, width, rows in ((I16, 0, [5, 5, 6, 6]), (CHAR, 2, texts), (BLOB, 0, texts)):
        for encoding in (2, 3, 4):
            second_count, second_key = (21, 26) if encoding == 4 else (9, None)
            s.load(model.build(kind, encoding, width, rows))
            s.open(kind, encoding, width, 4, expect=0)
            s.read(0, 4, expect=4)
            s.change(second_count, 0)
            s.read(0, 4, expect=9)
            s.read(1, 1, expect=4)
            s.give(2, expect=0)
            if second_key:
                s.change(second_count, 2)
                s.change(second_key, 3)
                s.read(0, 1, expect=9)
    for encoding in (0, 1):
        kind = BY_ENDS[encoding]
        s.load(model.build(kind, encoding, 0, [b"ab", b"c", b"d"]))
        s.open(kind, encoding, 0, 3, expect=0)
        s.change(8, 2)
        s.read(0, 3, expect=9)
        s.read(1, 1, expect=4)
        s.give(2, expect=0)


def skips_and_sizes(s):
    """Rows to pass over and rows to give: none, one, some, as many as there are, more, and the most of all; from the start, and past it."""
    for encoding in range(5):
        kind, width, rows = ((I16, 0, NUMBERS), (CHAR, 2, TEXTS), (BY_ENDS[encoding % 2], 0, TEXTS))[encoding % 3]
        s.load(model.build(kind, encoding, width, rows))
        s.open(kind, encoding, width, 8, expect=0)
        for first, left in ((0, 8), (3, 5)):
            for skip in (0, 1, 4, left, left + 1, MOST):
                for size in (0, 1, 3, left, MOST) if first == 0 else (0, 2):
                    if s.reader.place != first:
                        s.again()
                    if s.reader.place != first:
                        s.skip(first, expect=0)
                    number = 6 if skip == size == 0 else 7 if skip > left else 0
                    if first and size == 0:
                        s.read(skip, size, 2, 2, 2, 4, expect=number)  # room that isn't needed
                    else:
                        s.give(size, skip, expect=number)
                    assert s.reader.place == first + (0 if number else skip + min(size, left - skip))


def whole_or_not_at_all(s):
    """A fault before, in and behind the rows that are passed over and those that are given. After a refusal the next call stands where
    that one stood, so it shows a reader that was moved half."""
    texts = [b"ab"] * 3 + [b"c"] * 3 + [b"de"] * 3
    for kind, width, rows in ((I16, 0, [5] * 3 + [6] * 3 + [7] * 3), (CHAR, 2, texts), (STRING, 0, texts)):
        for encoding in (2, 3, 4):
            counts = 20 if encoding == 4 else 8
            s.load(model.build(kind, encoding, width, rows))
            # the first count is bad: a reader behind it doesn't look at it any more, and a new one isn't to be had
            s.open(kind, encoding, width, 9, expect=0)
            s.skip(3, expect=0)
            s.change(counts, 0)
            s.give(2, skip=2, expect=0)
            s.again()  # refused
            s.change(counts, 3)
            # the second: the first run alone can be passed over and given
            s.again()
            s.change(counts + 1, 0)
            for skip, size, number in ((10, 1, 7), (9, 0, 9), (3, 1, 9), (2, 2, 9), (4, 0, 9), (2, 1, 0), (1, 0, 9), (0, 1, 9)):
                s.give(size, skip, expect=number)
            s.change(counts + 1, 3)
            # the third
            s.again()
            s.change(counts + 2, 0x80)
            for skip, size, number in ((6, 1, 9), (7, 0, 9), (4, 3, 9), (4, 2, 0), (1, 1, 9), (4, 1, 7)):
                s.give(size, skip, expect=number)
            s.change(counts + 2, 3)
    # an end that falls, one past the data, a key that names no entry, of the second row: of rows given alone
    for kind, encoding, at, byte, third in ((BLOB, 0, 4, 1, 0), (STRING, 0, 4, 9, 9), (STRING, 1, 4, 1, 0), (BLOB, 1, 4, 9, 9),
                                            (BLOB, 2, 15, 1, 0), (STRING, 2, 15, 9, 9), (STRING, 3, 15, 1, 0), (BLOB, 3, 15, 9, 9),
                                            (I16, 4, 27, 4, 0), (BLOB, 4, 27, 9, 0)):
        s.load(model.build(kind, encoding, 0, [5, 6, 7] if kind == I16 else [b"ab", b"c", b"de"]))
        s.open(kind, encoding, 0, 3, expect=0)
        s.change(at, byte)
        for skip, size, number in ((0, 2, 9), (1, 1, 9), (1, 2, 9), (4, 1, 7), (2, 1, third)):
            s.give(size, skip, expect=number)
        if third:
            s.give(1, expect=0)
            s.skip(2, expect=0)


def damaged_by_chance(s):
    """A byte of a block, a cut or a longer end: before opening, or after it."""
    pick, chance = s.random.choice, s.random.random
    for _ in range(30):
        kind = pick((0, 1, 2, 4, 7, F64, CHAR, CHAR, BLOB, STRING, STRING))
        encoding = pick((0, 1, 2, 2, 3, 3, 4, 4))
        width = 2 if kind == CHAR else 0
        rows = any_rows(s, kind, width, s.random.randint(1, 6))
        block = bytearray(model.build(kind, encoding, width, rows))
        late = chance() < .5
        for _ in range(pick((1, 1, 2))):
            if block and not late:
                at = s.random.randrange(len(block))
                block[at] = pick((0, 1, 2, 3, 127, 128, 255, block[at] ^ 1, block[at] ^ 128))
        if not late and chance() < .3:
            block = block[:-1] if chance() < .5 else block + b"\0"
        s.load(bytes(block))
        if s.open(kind, encoding, width, len(rows)):
            if late and block:
                s.wander(1)
                at = s.random.randrange(len(block))
                s.change(at, pick((0, 1, 2, 3, 127, 128, 255, block[at] ^ 1, block[at] ^ 128)))
            s.wander(4)


SECTIONS = (samples, all_pairs, wide_chars, no_rows, rates, texts, refusals, cuts, spellings, longer_than_needed, sound_all_the_same, run_two,
            nulls_given, many_nulls, many_bytes, most_rows, most_entries, most_items, forged, forged_nulls, forged_heads,
            forged_lengths, damaged, nine_first, skips_and_sizes, whole_or_not_at_all, forged_by_chance, damaged_by_chance)


def main():
    seed = int(sys.argv[1]) if len(sys.argv) > 1 else SEED
    root = pathlib.Path(__file__).resolve().parent.parent
    folder = pathlib.Path(sys.argv[2]) if len(sys.argv) > 2 else root / "crates" / "try_reading"
    s = Script(seed)
    for section in SECTIONS:
        before = len(s.commands), len(s.answers), s.blocks
        section(s)
        after = len(s.commands), len(s.answers), s.blocks
        print("%s: %d bytes, %d lines, %d blocks" % (section.__name__, *(a - b for a, b in zip(after, before))))
    assert len(s.commands) <= MOST_COMMANDS
    (folder / "stdin").write_bytes(s.commands)
    (folder / "stdout").write_text("\n".join(s.answers) + "\n")
    print("%d bytes: %d blocks, %s" % (len(s.commands), s.blocks, ", ".join("%d %s" % (n, c) for c, n in s.calls.items())))
    for call, refusal in sorted({key[:2] for key in s.refusals}):
        print("%-5s %2d:" % (call, refusal), ", ".join(
            "%d in encoding %s" % (s.refusals[call, refusal, e], e if e < 5 else "above 4")
            for e in sorted(k[2] for k in s.refusals if k[:2] == (call, refusal))))


if __name__ == "__main__":
    main()

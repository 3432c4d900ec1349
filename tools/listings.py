"""Makes the inputs and the stored answers of the programs `list` and `try_listing` (their files stdin and stdout), and the sample
files of samples/.

    python3 tools/listings.py [SEED FOLDER]

The listing is written here a second time, from document 01's "Listing program" and with tools/model.py, which opens and reads
blocks. crates/try_listing/src/main.rt says how the inputs of `try_listing` are packed. With no arguments the files are always the same; with
another seed the random inputs are others, and the two files of `try_listing` go to the folder.

Not tried here, for the size of its answer: the listing of 131 MB.
"""
import collections
import itertools
import pathlib
import random
import sys

import model
from answers import BAD, GOOD, bad_items, text_within
from model import BLOB, CHAR, F64, FIXED, KINDS, OF_TEXT, STRING, Refused, float_bits

SEED = 1
INTERVAL = 7
ROOT = pathlib.Path(__file__).resolve().parent.parent


# ---- document 01's listing

def number_text(v):
    return "%d" % v


def half(bits):
    return bits - 2**32 if bits >= 2**31 else bits


def row_text(kind, row):
    if row is None:
        return "null"
    if kind == INTERVAL:
        bits = row % 2**64
        return "%d %d" % (half(bits >> 32), half(bits % 2**32))
    if kind in FIXED:
        return number_text(row)
    return row.hex() or "-"


def fields(head):
    n = int.from_bytes(head, "big")
    return n >> 60, n >> 57 & 7, n >> 49 & 255, n >> 48 & 1, n & 2**48 - 1


def listing(data):
    """The lines, and the number behind `refused` or 0."""
    try:
        if len(data) < 8:
            raise Refused(10)
        if len(data) > 65536:
            raise Refused(3)
        kind, encoding, width, zero, rows = fields(data[:8])
        if zero:
            raise Refused(1)
        block = data[8:]
        reader = model.open_block(kind, encoding, width, rows, block)
    except Refused as e:
        return ["refused %d" % e.number], e.number
    return rows_listed(reader, block)


def rows_listed(reader, block):
    """The lines of a reader's rows, a read for each, up to one that is refused, and its number or 0."""
    lines = []
    try:
        rows = model.remaining(reader)
        lines.append("rows %d" % rows)
        for i in range(min(rows, 1000)):
            values, flags, ends, data = [0], [0], [0], [0] * 65536
            _, total, after = model.read(reader, block, 0, 1, values, flags, ends, data)
            row = None if not flags[0] else values[0] if reader.kind in FIXED else bytes(data[:total])
            lines.append("%d %s" % (i, row_text(reader.kind, row)))
            reader = after
    except Refused as e:
        return lines + ["refused %d" % e.number], e.number
    if rows > 1000:
        lines.append("more %d" % (rows - 1000))
    return lines + ["end"], 0


def changed_listing(data, place, passed, value):
    """The same of an input that is opened, of which rows are passed over, and whose block is then changed at a place."""
    block = bytearray(data[8:])
    try:
        kind, encoding, width, zero, rows = fields(data[:8])
        reader = model.open_block(kind, encoding, width, rows, bytes(block))
        try:
            reader = model.read(reader, bytes(block), passed, 0, [], [], [], [])[2]
        except Refused:
            pass
    except Refused:
        reader = model.Reader(kind=255)
    if place < len(block):
        block[place] = value
    return rows_listed(reader, bytes(block))


# ---- inputs

def descriptor(kind, encoding, width, rows, zero=0):
    return (kind << 60 | encoding << 57 | width << 49 | zero << 48 | rows).to_bytes(8, "big")


def of_rows(kind, encoding, width, rows):
    return descriptor(kind, encoding, width, len(rows)) + model.build(kind, encoding, width, rows)


C = bytes.fromhex("1200000000000003") + bytes.fromhex("0500 0000 FEFF 05 01000000")

SAMPLES = {
    "plain_char": of_rows(CHAR, 0, 3, [b"a", b"abc", b"x\0y"]),
    "plain_date": of_rows(4, 0, 0, [1, 0, -719162, 2**31 - 1]),
    "nullable_i16": C,
    "run_length_i32": of_rows(2, 2, 0, [7, 7, 7, -1]),
    "run_length_nullable_interval": of_rows(INTERVAL, 3, 0, [(14 << 32) + 2**32 - 3] * 2 + [None] + [(-1 << 32) + 30]),
    "run_length_f64": of_rows(F64, 2, 0, [float_bits(x) for x in (0.0375, 0.0375, 0.0, -0.0, 0.041, 0.041)]),
    "dictionary_blob": of_rows(BLOB, 4, 0, [b"ab", None, b"ab", b"c"]),
    "dictionary_string": of_rows(STRING, 4, 0, [x and x.encode() for x in ("\u00e9t\u00e9", "", None, "\u20ac 5", "\u00e9t\u00e9", "\U0001f600")]),
    "run_length_many_bools": descriptor(0, 2, 0, 1005) + bytes.fromhex("02000000 03000000 EC07 01 01 00"),
    "refused_unknown_key": of_rows(BLOB, 4, 0, [b"ab", None, b"ab", b"c"]).replace(
        bytes.fromhex("02000080 02000000"), bytes.fromhex("03000080 02000000")),
    "refused_no_text": descriptor(CHAR, 0, 3, 2) + "\u20ac".encode() + "a\u20ac".encode()[:3],
}

EDGES = {
    0: [0, 1],
    1: [0, 9, 10, -1, -10, 2**15 - 1, -2**15],
    2: [0, 99, 100, -99, 2**31 - 1, -2**31],
    3: [0, 10**18, 10**18 - 1, -10**18, 2**63 - 1, -2**63, -2**63 + 1, -1, 5],
    4: [0, 1, -1, 2**31 - 1, -2**31],
    5: [0, 1234567890, -1, 2**63 - 1, -2**63],
    6: [0, 1000000000000000, -9, 2**63 - 1, -2**63],
    7: [(m << 32) + d % 2**32 for m in (0, 1, -1, 2**31 - 1, -2**31) for d in (0, 1, -1, 2**31 - 1, -2**31)],
    F64: [*map(float_bits, (0.0, -0.0, 1.0, 0.0375, float("inf"), float("-inf"), 5e-324)), 0x7FF8000000000000, 0x7FF0000000000001, -1],
    CHAR: [b"", b"a", b"\xc3\xbf", bytes(range(1, 17)), b"x\0y"],
    BLOB: [b"", b"\0", b"\x0f\xf0", bytes(range(256)), b"x\0y"],
    STRING: [b"", b"\0", b"\x0f\xc2\x80", bytes(range(128)), b"x\0y"],
}


class Script:
    def __init__(self, seed):
        self.random = random.Random(seed)
        self.packed = bytearray()
        self.lines = []
        self.refusals = collections.Counter()
        self.changes = collections.Counter()

    def list(self, data, expect=None):
        given = data.rstrip(b"\0")
        assert len(given) < 65536
        self.packed += len(data).to_bytes(4, "little") + len(given).to_bytes(2, "little") + given
        lines, number = listing(data)
        assert expect in (None, number), (expect, number, data[:40])
        self.lines += lines
        self.refusals[number] += 1


    def change(self, data, place, passed, value, expect=None):
        given = data.rstrip(b"\0")
        self.packed += (2**31 + len(data)).to_bytes(4, "little") + len(given).to_bytes(2, "little") + given
        self.packed += place.to_bytes(2, "little") + passed.to_bytes(2, "little") + bytes([value])
        lines, number = changed_listing(data, place, passed, value)
        assert expect in (None, lines), (expect, lines)
        self.lines += lines
        self.changes[number] += 1


def limits(s):
    """The lengths of the input, the zero bit, and what opening refuses as 1 and 3."""
    s.list(C, 0)
    for n in range(8):
        s.list(C[:n], 10)
    s.list(b"\xff" * 7, 10)
    s.list(C[:8], 10)  # eight bytes: opening's own 10, for a nullable block of none
    s.list(descriptor(0, 0, 0, 65528) + bytes(65528), 0)  # 65,536 bytes in all
    s.list(descriptor(0, 0, 0, 65529) + bytes(65529), 3)  # and one more
    s.list(descriptor(0, 0, 0, 65529, zero=1) + bytes(65529), 3)  # 3 comes before the zero bit
    s.list(descriptor(1, 1, 0, 3, zero=1) + C[8:], 1)
    s.list(descriptor(15, 7, 255, 2**48 - 1, zero=1), 1)
    s.list(descriptor(STRING, 0, 0, 0), 0)
    for kind in (12, 13, 14):
        s.list(descriptor(kind, 0, 0, 0), 1)
    s.list(descriptor(15, 0, 0, 0), 1)
    for encoding in (5, 6, 7):
        s.list(descriptor(1, encoding, 0, 0), 1)
    for width in (1, 128, 255):
        s.list(descriptor(1, 0, width, 0), 1)
        s.list(descriptor(BLOB, 0, width, 0), 1)
        s.list(descriptor(STRING, 0, width, 0), 1)
        s.list(descriptor(F64, 0, width, 0), 1)
    s.list(descriptor(CHAR, 0, 0, 0), 1)
    s.list(descriptor(0, 0, 0, 2**20 + 1), 3)
    s.list(descriptor(0, 0, 0, 2**47), 3)
    s.list(descriptor(CHAR, 0, 3, 1) + b"abc", 0)
    s.list(descriptor(CHAR, 0, 255, 1) + bytes(range(1, 128)) + b"\xc3\xa9" * 64, 0)
    s.list(descriptor(CHAR, 0, 255, 1) + bytes(range(1, 256)), 17)
    assert descriptor(STRING, 0, 0, 0)[:1] == b"\xa0" and descriptor(STRING, 4, 0, 0)[:1] == b"\xa8"
    assert descriptor(CHAR, 0, 3, 0)[:2] == b"\x80\x06" and descriptor(CHAR, 0, 255, 0)[:2] == b"\x81\xfe"


def refusals(s):
    """Every number that a block can be refused by."""
    run = of_rows(2, 2, 0, [7, 7, 7, -1])
    s.list(run, 0)
    s.list(descriptor(2, 0, 0, 2) + bytes(7), 11)
    s.list(descriptor(BLOB, 0, 0, 2) + bytes(7), 10)
    s.list(descriptor(BLOB, 0, 0, 2) + bytes.fromhex("02000000 01000000") + b"ab", 14)
    s.list(run[:-1], 11)
    s.list(descriptor(2, 2, 0, 4) + bytes.fromhex("01000000 05000000 FFFFFFFF10 07000000"), 12)
    s.list(descriptor(2, 2, 0, 4) + bytes.fromhex("01000000 01000000 80 07000000"), 12)
    s.list(descriptor(0, 2, 0, 1) + bytes.fromhex("01000000 02000000 8100 01"), 12)
    s.list(descriptor(2, 2, 0, 4) + bytes.fromhex("00000000 00000000"), 13)
    s.list(descriptor(2, 2, 0, 4) + bytes.fromhex("01000000 01000000 00 07000000"), 13)
    s.list(descriptor(2, 2, 0, 5) + run[8:], 16)
    s.list(descriptor(2, 2, 0, 1), 16)
    s.list(descriptor(2, 2, 0, 1) + bytes.fromhex("01001000 00000000"), 3)
    s.list(SAMPLES["refused_unknown_key"], 15)
    s.list(descriptor(BLOB, 4, 0, 0) + bytes(11), 10)
    s.list(SAMPLES["refused_no_text"], 17)
    # text and no text, alone; wherever an item can stand; and rules that come before it
    for item in (*GOOD, *BAD):
        number = 17 if item in BAD else 0
        s.list(descriptor(STRING, 0, 0, 1) + len(item).to_bytes(4, "little") + item, number)
        if item:
            s.list(descriptor(CHAR, 0, len(item), 1) + item, number)
    for kind, encoding in itertools.product((CHAR, STRING, BLOB), range(5)):
        width, bad = (2, b"\xc3") if kind == CHAR else (0, b"\xc3\xc3")
        block, rows = bad_items(kind, encoding, b"a", bad.ljust(width, b"\0"), b"b")
        s.list(descriptor(kind, encoding, width, rows) + block, 0 if kind == BLOB else 17)
    s.list(descriptor(CHAR, 0, 3, 1) + bytes.fromhex("4100FF"), 0)
    s.list(descriptor(CHAR, 0, 3, 1) + bytes.fromhex("C300A9"), 17)
    s.list(descriptor(CHAR, 1, 1, 1) + bytes.fromhex("FF 00 01000000"), 17)
    for number, end, last in ((17, 1, 2), (14, 2, 1), (11, 1, 1)):
        s.list(descriptor(STRING, 0, 0, 2) + end.to_bytes(4, "little") + last.to_bytes(4, "little") + b"\xc3\xa9", number)
    no_rows = bytes.fromhex("0000000000000000 00000001 01000000 FF")
    one_row = bytes.fromhex("000000000000000D 00000001 01000000 01000000 01 02000080 01000000 FF")
    for block, rows, number in ((no_rows, 0, 17), (one_row, 1, 15)):
        s.list(descriptor(STRING, 4, 0, rows) + block, number)
        s.list(descriptor(BLOB, 4, 0, rows) + block, 0 if number == 17 else number)


def texts(s):
    """Every kind's text at its limits, in every encoding; no rows; nulls."""
    for kind, rows in EDGES.items():
        width = 16 if kind == CHAR else 0
        for encoding in range(5):
            given = [r for r in rows for _ in range(1 + encoding % 2)]
            if encoding in (1, 3, 4):
                given = [None, *given, None, None]
            s.list(of_rows(kind, encoding, width, given), 0)
            s.list(of_rows(kind, encoding, width, []), 0)
    s.list(descriptor(0, 0, 0, 4) + bytes.fromhex("00 01 02 FF"), 0)  # any nonzero byte is true
    s.list(of_rows(BLOB, 0, 0, [bytes(700)]), 0)


def many(s):
    """More than 1,000 rows, exactly 1,000, and the most of all."""
    for n in (999, 1000, 1001, 2**32 - 1):
        count = model.spell(n)
        s.list(descriptor(1, 2, 0, n) + (1).to_bytes(4, "little") + len(count).to_bytes(4, "little") + count + b"\xfe\xff", 0)
    full = model.spell(2**32 - 1)
    runs = 300
    s.list(descriptor(0, 3, 0, runs * (2**32 - 1)) + runs.to_bytes(4, "little") + (5 * runs).to_bytes(4, "little") + full * runs
           + bytes(runs) + bytes((runs + 7) // 8) + ((runs + 7) // 8).to_bytes(4, "little"), 0)
    s.list(of_rows(3, 4, 0, [i % 7 - 3 if i % 5 else None for i in range(1100)]), 0)


NOWHERE = 65535


def changed(s):
    """Blocks that change after they are opened: a row that is refused ends the listing, and is no null."""
    run = SAMPLES["run_length_i32"]
    s.change(run, NOWHERE, 0, 0, ["rows 4", "0 7", "1 7", "2 7", "3 -1", "end"])
    s.change(run, NOWHERE, 3, 0, ["rows 1", "0 -1", "end"])
    s.change(run, NOWHERE, 4, 0, ["rows 0", "end"])
    s.change(run, NOWHERE, 5, 0, ["rows 4", "0 7", "1 7", "2 7", "3 -1", "end"])  # more rows than there are are passed over: refused
    s.change(run, 9, 0, 0, ["rows 4", "0 7", "1 7", "2 7", "refused 9"])  # the second count is 0
    s.change(run, 8, 0, 0, ["rows 4", "refused 9"])  # the first
    s.change(run, 8, 2, 1, ["rows 2", "refused 9"])  # fewer rows than were passed over
    longer = descriptor(0, 2, 0, 129) + bytes.fromhex("01000000 02000000 8101 01")
    s.change(longer, 9, 0, 0, ["rows 129", "refused 9"])  # a count that becomes longer than needed
    keys = SAMPLES["dictionary_blob"]
    last = keys[8:].index(bytes.fromhex("02000080 02000000"))
    s.change(keys, last, 0, 3, ["rows 4", "0 6162", "1 null", "2 6162", "refused 9"])  # a key that names no entry
    s.change(keys, last, 3, 3, ["rows 1", "refused 9"])
    blobs = of_rows(BLOB, 0, 0, [b"a", b"bc", b""])
    s.change(blobs, 4, 0, 4, ["rows 3", "0 61", "refused 9"])  # an end past the data
    s.change(blobs, 4, 0, 0, ["rows 3", "0 61", "refused 9"])  # an end that falls
    s.change(blobs, 4, 2, 4, ["rows 1", "refused 9"])
    strings = of_rows(STRING, 0, 0, [b"a", b"bc"])
    s.change(strings, 4, 0, 4, ["rows 2", "0 61", "refused 9"])
    s.change(strings, 9, 0, 0xff, ["rows 2", "0 61", "1 ff63", "end"])  # what is no text any more is listed
    s.change(of_rows(CHAR, 4, 2, [b"ab", None]), 31, 0, 0xff, ["rows 2", "0 61ff", "1 null", "end"])
    s.change(C, 6, 0, 2, ["rows 3", "0 null", "1 0", "2 null", "end"])  # other flags are other rows
    s.change(C[:-1], NOWHERE, 0, 0, ["refused 9"])  # not opened


def some_row(r, kind):
    if kind in FIXED:
        size = FIXED[kind][0]
        if kind == 0:
            return r.randrange(2)
        n = r.randrange(1, 8 * size)
        return r.randrange(-2**n, 2**n) if n < 8 * size - 1 else r.choice([-2**(8 * size - 1), 2**(8 * size - 1) - 1])
    if kind in OF_TEXT:
        text = "".join(chr(r.choice([r.randrange(128), r.randrange(0x80, 0x800), r.randrange(0xe000, 0x110000)])) for _ in range(3))
        return text_within(text.encode(), r.randrange(6))
    return bytes(r.randrange(256) for _ in range(r.randrange(6)))


def at_random(s, times):
    """Random rows, and random damage to their inputs."""
    r = s.random
    for _ in range(times):
        kind, encoding = r.choice(KINDS), r.randrange(5)
        width = r.choice([5, 6, 30]) if kind == CHAR else 0
        rows = []
        for _ in range(r.randrange(9)):
            row = None if r.random() < 0.2 else some_row(r, kind)
            rows += [row] * r.choice([1, 1, 3])
        data = bytearray(of_rows(kind, encoding, width, rows))
        s.list(bytes(data), 0)
        for _ in range(2):
            damaged = bytearray(data)
            for _ in range(r.randrange(1, 3)):
                damaged[r.randrange(len(damaged))] = r.choice([0, 1, 2, 127, 128, 255, r.randrange(256)])
            if r.random() < 0.3:
                del damaged[r.randrange(len(damaged)):]
            s.list(bytes(damaged))


def changed_at_random(s, times):
    r = s.random
    for _ in range(times):
        kind, encoding = r.choice(KINDS), r.choice([0, 1, 2, 2, 3, 3, 4, 4])
        width = r.choice([1, 5]) if kind == CHAR else 0
        rows = []
        for _ in range(r.randrange(1, 6)):
            rows += [None if r.random() < 0.2 else some_row(r, kind)] * r.choice([1, 1, 3])
        data = of_rows(kind, encoding, width, rows)
        s.change(data, r.randrange(min(len(data) - 8, 40)), r.randrange(3), r.choice([0, 1, 2, 127, 128, 255, r.randrange(256)]))


def main(args):
    seed, folder = (int(args[0]), pathlib.Path(args[1])) if args else (SEED, ROOT / "crates/try_listing")
    s = Script(seed)
    limits(s)
    refusals(s)
    texts(s)
    many(s)
    at_random(s, 200)
    changed(s)
    changed_at_random(s, 200)
    assert len(s.packed) <= 65536, len(s.packed)
    (folder / "stdin").write_bytes(s.packed)
    (folder / "stdout").write_text("".join(line + "\n" for line in s.lines))
    print("%d inputs, %d bytes; answers: %s; changed: %s" % (sum(s.refusals.values()), len(s.packed),
          dict(sorted(s.refusals.items())), dict(sorted(s.changes.items()))))
    if not args:
        (ROOT / "crates/list/stdin").write_bytes(C)
        (ROOT / "crates/list/stdout").write_text("".join(line + "\n" for line in listing(C)[0]))
        (ROOT / "samples").mkdir(exist_ok=True)
        for name, data in SAMPLES.items():
            (ROOT / "samples" / name).write_bytes(data)
            (ROOT / "samples" / (name + ".txt")).write_text("".join(line + "\n" for line in listing(data)[0]))


if __name__ == "__main__":
    main(sys.argv[1:])

"""A second reading of documents 01 and 02, in Python, made apart from the definitions under crates/*/specs.

It builds blocks, opens them and reads them row by row, for every kind and encoding. tools/answers.py makes the stored
answers of the programs in the gate with it.
"""
import struct

FIXED = {0: (1, "little"), 1: (2, "little"), 2: (4, "little"), 3: (8, "little"),
         4: (4, "big"), 5: (8, "big"), 6: (8, "big"), 7: (8, "big"), 11: (8, "little")}
CHAR, BLOB, STRING, F64 = 8, 9, 10, 11  # a row of F64 is the integer of 64 bits that a float's bits are
BY_ENDS = (BLOB, STRING)  # laid out alike, with ends
OF_TEXT = (CHAR, STRING)  # their items have to be text
KINDS = sorted((*FIXED, CHAR, *BY_ENDS))
NULL_KEY = -2**31
MOST_RUN = 2**32 - 1


def known(kind, encoding, width):
    if encoding > 4:
        return False
    if kind == CHAR:
        return 1 <= width <= 255
    return kind in KINDS and width == 0


def float_bits(x):
    """The row of F64 that a float is."""
    return int.from_bytes(struct.pack("<d", x), "little", signed=True)


# ---- text

TAIL = range(0x80, 0xC0)
WELL_FORMED = (  # the Unicode Standard, table 3-7: the byte sequences of a character, a row each
    (range(0x00, 0x80),),
    (range(0xC2, 0xE0), TAIL),
    (range(0xE0, 0xE1), range(0xA0, 0xC0), TAIL),
    (range(0xE1, 0xED), TAIL, TAIL),
    (range(0xED, 0xEE), range(0x80, 0xA0), TAIL),
    (range(0xEE, 0xF0), TAIL, TAIL),
    (range(0xF0, 0xF1), range(0x90, 0xC0), TAIL, TAIL),
    (range(0xF1, 0xF4), TAIL, TAIL, TAIL),
    (range(0xF4, 0xF5), range(0x80, 0x90), TAIL, TAIL),
)


def is_text(data):
    """Whether the bytes are characters one after another, to the last."""
    at = 0
    while at < len(data):
        sizes = [len(row) for row in WELL_FORMED
                 if at + len(row) <= len(data) and all(data[at + i] in allowed for i, allowed in enumerate(row))]
        if not sizes:
            return False
        at += sizes[0]
    return True


# ---- building

def spell(v):
    out = bytearray()
    while v >= 128:
        out.append(v & 127 | 128)
        v >>= 7
    out.append(v)
    return bytes(out)


def item(kind, width, row):
    if kind in FIXED:
        size, order = FIXED[kind]
        return int(row or 0).to_bytes(size, order, signed=True)
    data = row or b""
    return data.ljust(width, b"\0") if kind == CHAR else data


def plain(kind, width, rows):
    items = [item(kind, width, r) for r in rows]
    data = b"".join(items)
    if kind not in BY_ENDS:
        return data
    ends, at = b"", 0
    for i in items:
        at += len(i)
        ends += at.to_bytes(4, "little")
    return ends + data


def nullable(kind, width, rows):
    bitmap = bytearray((len(rows) + 7) // 8)
    for i, r in enumerate(rows):
        if r is not None:
            bitmap[i // 8] |= 1 << i % 8
    return plain(kind, width, rows) + bytes(bitmap) + len(bitmap).to_bytes(4, "little")


def runs_of(rows):
    runs = []
    for r in rows:
        if runs and runs[-1][0] == r and (runs[-1][0] is None) == (r is None) and runs[-1][1] < MOST_RUN:
            runs[-1][1] += 1
        else:
            runs.append([r, 1])
    return runs


def run_length(inner, rows):
    runs = runs_of(rows)
    if not runs:
        return b""
    counts = b"".join(spell(n) for _, n in runs)
    return (len(runs).to_bytes(4, "little") + len(counts).to_bytes(4, "little") + counts
            + inner([r for r, _ in runs]))


def dictionary(kind, width, rows):
    entries = []
    for r in rows:
        if r is not None and r not in entries:
            entries.append(r)
    keys = [NULL_KEY if r is None else NULL_KEY + 1 + entries.index(r) for r in rows]
    block = run_length(lambda ks: plain(2, 0, ks), keys)
    return len(block).to_bytes(8, "big") + len(entries).to_bytes(4, "big") + block + plain(kind, width, entries)


def build(kind, encoding, width, rows):
    if encoding == 0:
        return plain(kind, width, rows)
    if encoding == 1:
        return nullable(kind, width, rows)
    if encoding == 2:
        return run_length(lambda rs: plain(kind, width, rs), rows)
    if encoding == 3:
        return run_length(lambda rs: nullable(kind, width, rs), rows)
    return dictionary(kind, width, rows)


# ---- opening

class Refused(Exception):
    def __init__(self, number):
        self.number = number


def le(b):
    return int.from_bytes(b, "little")


def size_of(kind, width):
    return FIXED[kind][0] if kind in FIXED else width


def check_plain(kind, width, n, b):
    check_lengths(kind, width, n, b)
    # every stored item, of char as it would be read
    if kind in OF_TEXT and not all(is_text(plain_row(kind, width, n, b, i)) for i in range(n)):
        raise Refused(17)


def check_lengths(kind, width, n, b):
    if kind not in BY_ENDS:
        if len(b) != n * size_of(kind, width):
            raise Refused(11)
        return
    if len(b) < 4 * n:
        raise Refused(10)
    data, last = len(b) - 4 * n, 0
    for i in range(n):
        end = le(b[4 * i:4 * i + 4])
        if end < last or end > data:
            raise Refused(14)
        last = end
    if last != data:
        raise Refused(11)


def check_nullable(kind, width, n, b):
    if len(b) < 4:
        raise Refused(10)
    bitmap = (n + 7) // 8
    if le(b[-4:]) != bitmap:
        raise Refused(11)
    if len(b) < bitmap + 4:
        raise Refused(10)
    check_plain(kind, width, n, b[:len(b) - bitmap - 4])


def count_at(s, at):
    """The number and the length of the count at a place, or None."""
    value = 0
    for k in range(5):
        if at + k >= len(s):
            return None
        byte = s[at + k]
        value |= (byte & 127) << 7 * k
        if byte < 128:
            # behind other bytes a last one of 0 is one more than needed
            needed = byte > 0 or k == 0
            return (value, k + 1) if value < 2**32 and needed else None
    return None


def check_runs(inner, n, b):
    """The runs and the length of the counts."""
    if not b:
        if n:
            raise Refused(16)
        return 0, 0
    if len(b) < 8:
        raise Refused(10)
    runs, counts = le(b[:4]), le(b[4:8])
    if runs > 1048576:
        raise Refused(3)
    if runs == 0:
        raise Refused(13)
    if 8 + counts > len(b):
        raise Refused(10)
    s, at, total = b[8:8 + counts], 0, 0
    for _ in range(runs):
        if at == len(s):
            raise Refused(13)
        found = count_at(s, at)
        if found is None:
            raise Refused(12)
        if found[0] == 0:
            raise Refused(13)
        total += found[0]
        at += found[1]
    if at != len(s):
        raise Refused(13)
    if total != n:
        raise Refused(16)
    inner(runs, b[8 + counts:])
    return runs, counts


class Reader:
    FIELDS = "kind encoding width rows len runs counts keys entries place run at taken nulls".split()

    def __init__(self, **fields):
        for f in self.FIELDS:
            setattr(self, f, fields.get(f, 0))

    def copy(self, **fields):
        return Reader(**{f: fields.get(f, getattr(self, f)) for f in self.FIELDS})

    def fields(self):
        return [getattr(self, f) for f in self.FIELDS]


def open_block(kind, encoding, width, n, b):
    if not known(kind, encoding, width):
        raise Refused(1)
    if len(b) > 16777216 or n > 2**48 - 1 or (encoding < 2 and n > 1048576):
        raise Refused(3)
    runs = counts = keys = entries = 0
    if encoding == 0:
        check_plain(kind, width, n, b)
    elif encoding == 1:
        check_nullable(kind, width, n, b)
    elif encoding in (2, 3):
        check = check_plain if encoding == 2 else check_nullable
        runs, counts = check_runs(lambda m, s: check(kind, width, m, s), n, b)
    else:
        if len(b) < 12:
            raise Refused(10)
        keys, entries = int.from_bytes(b[:8], "big"), int.from_bytes(b[8:12], "big")
        if entries > 65536:
            raise Refused(3)
        if 12 + keys > len(b):
            raise Refused(10)
        block = b[12:12 + keys]
        runs, counts = check_runs(lambda m, s: check_plain(2, 0, m, s), n, block)
        for i in range(runs):
            key = int.from_bytes(block[8 + counts + 4 * i:12 + counts + 4 * i], "little", signed=True)
            if key != NULL_KEY and key - NULL_KEY > entries:
                raise Refused(15)
        check_plain(kind, width, entries, b[12 + keys:])
    return Reader(kind=kind, encoding=encoding, width=width, rows=n, len=len(b), runs=runs, counts=counts, keys=keys,
                  entries=entries)


# ---- reading

def least(kind, width, n):
    return 4 * n if kind in BY_ENDS else n * size_of(kind, width)


def contradicts(r):
    if not known(r.kind, r.encoding, r.width):
        return True
    if r.len > 16777216 or r.rows > 2**48 - 1 or (r.encoding < 2 and r.rows > 1048576) or r.place > r.rows:
        return True
    if r.nulls > r.place:  # the place counts every row given
        return True
    if r.encoding >= 2 and (r.runs > 1048576 or r.run > r.runs):
        return True
    if r.encoding == 4 and r.entries > 65536:
        return True
    bitmap = lambda n: (n + 7) // 8 + 4
    parts = not (r.runs == 0 and r.counts == 0)
    if r.encoding == 0:
        return least(r.kind, r.width, r.rows) > r.len
    if r.encoding == 1:
        return least(r.kind, r.width, r.rows) + bitmap(r.rows) > r.len
    if r.encoding == 2:
        return parts and 8 + r.counts + least(r.kind, r.width, r.runs) > r.len
    if r.encoding == 3:
        return parts and 8 + r.counts + least(r.kind, r.width, r.runs) + bitmap(r.runs) > r.len
    return (12 + r.keys + least(r.kind, r.width, r.entries) > r.len
            or parts and 8 + r.counts + 4 * r.runs > r.keys)


def step(r, counts):
    """The run of the next row and the place after it."""
    def count(run, at):
        return count_at(counts, at) if run < r.runs else None
    run, at, taken = r.run, r.at, r.taken
    found = count(run, at)
    if found and found[0] > 0 and found[0] == taken:
        run, at, taken = run + 1, at + found[1], 0
        found = count(run, at)
    if found is None or found[0] <= taken:
        raise Refused(9)
    here, taken = run, taken + 1
    if taken == found[0]:
        run, at, taken = run + 1, at + found[1], 0
    return here, r.copy(place=r.place + 1, run=run, at=at, taken=taken)


def counts_of(r, b):
    block = b[12:12 + r.keys] if r.encoding == 4 else b
    return block[8:8 + r.counts]


def row_by_row(r, b, n):
    """Where the next n rows lie, as pairs of a place and the number of rows there, and the reader after them."""
    if r.encoding < 2:
        return [(i, 1) for i in range(r.place, r.place + n)], r.copy(place=r.place + n)
    pieces, counts = [], counts_of(r, b)
    for _ in range(n):
        here, r = step(r, counts)
        if pieces and pieces[-1][0] == here:
            pieces[-1] = (here, pieces[-1][1] + 1)
        else:
            pieces.append((here, 1))
    return pieces, r


def run_by_run(r, b, n):
    """The same for any number of rows, a run at a time."""
    if r.encoding < 2:
        return row_by_row(r, b, n)
    pieces, counts = [], counts_of(r, b)
    run, at, taken, left = r.run, r.at, r.taken, n
    while left:
        found = count_at(counts, at) if run < r.runs else None
        if found is None or found[0] == 0 or found[0] < taken:
            raise Refused(9)
        rows = min(left, found[0] - taken)
        if rows:
            pieces.append((run, rows))
        left, taken = left - rows, taken + rows
        if taken == found[0]:
            run, at, taken = run + 1, at + found[1], 0
    return pieces, r.copy(place=r.place + n, run=run, at=at, taken=taken)


def advance(r, b, n):
    return row_by_row(r, b, n) if n <= 4096 else run_by_run(r, b, n)


def plain_row(kind, width, n, b, i):
    if kind in FIXED:
        size, order = FIXED[kind]
        value = int.from_bytes(b[i * size:i * size + size], order, signed=kind != 0)
        return int(value != 0) if kind == 0 else value
    if kind == CHAR:
        return bytes(b[i * width:i * width + width]).split(b"\0")[0]
    start = le(b[4 * i - 4:4 * i]) if i else 0
    end = le(b[4 * i:4 * i + 4])
    if start > end or end > len(b) - 4 * n:
        raise Refused(9)
    return bytes(b[4 * n + start:4 * n + end])


def row_at(r, b, i):
    b = memoryview(b)
    if r.encoding in (2, 3, 4):
        n = r.runs
        inner = b[8 + r.counts:]
    else:
        n, inner = r.rows, b
    if r.encoding == 4:
        keys = b[12:12 + r.keys][8 + r.counts:]
        slot = int.from_bytes(keys[4 * i:4 * i + 4], "little", signed=True) - NULL_KEY
        if slot == 0:
            return None
        if slot > r.entries:
            raise Refused(9)
        return plain_row(r.kind, r.width, r.entries, b[12 + r.keys:], slot - 1)
    if r.encoding in (0, 2):
        return plain_row(r.kind, r.width, n, inner, i)
    bitmap = (n + 7) // 8
    items = inner[:len(inner) - bitmap - 4]
    row = plain_row(r.kind, r.width, n, items, i)
    return row if inner[len(items) + i // 8] >> i % 8 & 1 else None


def remaining(r):
    if contradicts(r):
        raise Refused(9)
    return r.rows - r.place


def read(r, b, skip, size, values, flags, ends, data):
    """Rows are passed over, and up to so many of those behind them given. What comes back is the rows and bytes given and the reader
    after them, which has counted the nulls among those given; the areas (lists) are changed in place. A refusal is raised before
    anything is changed."""
    if skip == 0 and size == 0:
        raise Refused(6)
    if contradicts(r) or len(b) != r.len:
        raise Refused(9)
    left = r.rows - r.place
    if skip > left:
        raise Refused(7)
    n = min(size, left - skip)
    behind = advance(r, b, skip)[1]
    pieces, after = advance(behind, b, n)
    found = [(row_at(r, b, i), count) for i, count in pieces]
    total = 0 if r.kind in FIXED else sum(len(x or b"") * count for x, count in found)
    if n > len(flags) or total > 2**32 - 1:
        raise Refused(4)
    if n > len(values if r.kind in FIXED else ends) or total > len(data):
        raise Refused(4)
    rows = [x for x, count in found for _ in range(count)]
    if r.kind in FIXED:
        values[:n] = [x or 0 for x in rows]
    else:
        at = 0
        for i, x in enumerate(rows):
            data[at:at + len(x or b"")] = x or b""
            at += len(x or b"")
            ends[i] = at
    flags[:n] = [int(x is not None) for x in rows]
    return n, total, after.copy(nulls=r.nulls + rows.count(None))

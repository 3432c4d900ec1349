"""A second reading of document 01, "Building" and "Sizes", with the key target of document 02 (ii) and the equal rows of (v), in
Python, made apart from the definitions under crates/builder/specs.

It says of every call what it answers and what the lent areas then hold, for any record and any memory. A record is a dictionary of
FIELDS; the areas are a dictionary of AREAS, of each of which the first cells are lent, as many as `lent` says. tools/building.py
makes the stored answers of the program `try_building` with it.
"""
from model import BY_ENDS, CHAR, FIXED, MOST_RUN, NULL_KEY, OF_TEXT, spell
import model

MOST_ROWS, MOST_ITEMS, MOST_ENTRIES, MOST_BYTES = 2**48 - 1, 2**20, 2**16, 2**24
FIELDS = ("kind", "encoding", "width", "target", "keytarget", "rows", "runs", "entries", "bytes", "last", "null", "counts")
AREAS = ("items", "ends", "flags", "counts", "keys", "lens")


class Nine(Exception):
    """A field that is read is wrong."""


# ---- the record

def known(r):
    return model.known(r["kind"], r["encoding"], r["width"])


def create(kind, encoding, width, target, keytarget=None):
    """A record, or None where the column is refused. The target is that of the keys too, unless theirs is named."""
    if not model.known(kind, encoding, width):
        return None
    given = {"kind": kind, "encoding": encoding, "width": width, "target": target}
    return dict.fromkeys(FIELDS, 0) | given | {"keytarget": target if keytarget is None else keytarget}


def width_of(r):
    return model.size_of(r["kind"], r["width"])


def stored(r):
    return (r["rows"], r["rows"], r["runs"], r["runs"], r["entries"])[r["encoding"]]


def plain_bytes(r):
    return r["bytes"] + (4 * stored(r) if r["kind"] in BY_ENDS else 0)


def finished_bytes(r):
    e = r["encoding"]
    inner = plain_bytes(r)
    if e in (1, 3):
        inner += (stored(r) + 7) // 8 + 4
    if e in (2, 3):
        return 8 + r["counts"] + inner if r["runs"] else 0
    if e == 4:
        return 12 + (8 + r["counts"] + 4 * r["runs"] if r["runs"] else 0) + inner
    return inner


def past(r):
    e = r["encoding"]
    return (r["rows"] > MOST_ROWS or (r["rows"] if e < 2 else r["runs"]) > MOST_ITEMS
            or e == 4 and r["entries"] > MOST_ENTRIES or finished_bytes(r) > MOST_BYTES)


def record_wrong(r):
    if not known(r):
        return True
    n = stored(r)
    if r["kind"] in BY_ENDS:
        if n == 0 and r["bytes"] != 0:
            return True
    elif r["bytes"] != n * width_of(r):
        return True
    return past(r) or r["encoding"] >= 2 and r["counts"] > MOST_BYTES


def needs(r):
    e, n = r["encoding"], stored(r)
    return {"items": r["bytes"], "ends": n if r["kind"] in BY_ENDS else 0, "flags": (n + 7) // 8 if e in (1, 3) else 0,
            "counts": r["runs"] if e >= 2 else 0, "keys": r["runs"] if e == 4 else 0, "lens": n if r["kind"] == CHAR else 0}


def too_short(r, lent):
    need = needs(r)
    return any(lent[x] < need[x] for x in AREAS)


# ---- append

def held(r, a, i):
    """Item i as it was given; its fields are tested first."""
    kind = r["kind"]
    if kind in FIXED:
        size, order = FIXED[kind]
        raw = bytes(a["items"][i * size:i * size + size])
        return int(raw != b"\0") if kind == 0 else int.from_bytes(raw, order, signed=True)
    if kind == CHAR:
        if a["lens"][i] > r["width"]:
            raise Nine
        return bytes(a["items"][i * r["width"]:i * r["width"] + a["lens"][i]])
    start = a["ends"][i - 1] if i else 0
    end = a["ends"][i]
    if end < start or end > r["bytes"] or i + 1 == stored(r) and end != r["bytes"]:
        raise Nine
    return bytes(a["items"][start:end])


def entry_of(r, a, row):
    """The first entry that equals the row, or the number of entries."""
    i = 0
    while i < r["entries"] and held(r, a, i) != row:
        i += 1
    return i


def fits(r, row):
    if row is None:
        return True
    if r["kind"] not in FIXED:
        return (r["kind"] != CHAR or len(row) <= r["width"]) and (r["kind"] not in OF_TEXT or model.is_text(row))
    if r["kind"] == 0:
        return row in (0, 1)
    half = 2 ** (8 * width_of(r) - 1)
    return -half <= row < half


def row_of(r, present, value, data):
    return None if not present else value if r["kind"] in FIXED else bytes(data)


def grown(r, row, size, new, joins):
    """The record with the row counted in."""
    s = dict(r)
    s["rows"] += 1
    if new:
        s["bytes"] += size
        if r["encoding"] == 4:
            s["entries"] += 1
    if r["encoding"] >= 2:
        s["null"] = int(row is None)
        if joins:
            s["last"] += 1
            s["counts"] += len(spell(s["last"])) - len(spell(r["last"]))
        else:
            s["runs"] += 1
            s["last"] = 1
            s["counts"] += 1
    return s


def found(r, a, row, find):
    """Whether the row's item is stored, whether the row joins the last run, and its key."""
    e, runs = r["encoding"], r["runs"]
    open_run = runs > 0 and r["last"] < MOST_RUN
    if e in (2, 3):
        joins = False
        if runs:
            before = held(r, a, runs - 1)
            if r["null"]:
                before = None
            joins = open_run and (row is None) == (before is None) and row == before
        return not joins, joins, 0
    if e == 4:
        if row is None:
            new, key = False, NULL_KEY
        else:
            i = find(r, a, row)
            new, key = i == r["entries"], NULL_KEY + 1 + i
        return new, open_run and a["keys"][runs - 1] == key, key
    return True, False, 0


def store(r, a, row, item, n):
    """The item n times, behind the others."""
    first = stored(r)
    a["items"][r["bytes"]:r["bytes"] + n * len(item)] = item * n
    for i in range(first, first + n):
        if r["kind"] in BY_ENDS:
            a["ends"][i] = r["bytes"] + (i + 1 - first) * len(item)
        if r["kind"] == CHAR:
            a["lens"][i] = len(row or b"")
        if r["encoding"] in (1, 3):
            byte = 0 if i % 8 == 0 else a["flags"][i // 8]
            bit = 1 << i % 8
            a["flags"][i // 8] = byte & ~bit | (bit if row is not None else 0)


def append(r, a, lent, present, value, data, find=entry_of):
    """The number and the record; where it is 0 the areas are changed."""
    if record_wrong(r) or too_short(r, lent):
        return 9, r
    row = row_of(r, present, value, data)
    e, runs = r["encoding"], r["runs"]
    try:
        new, joins, key = found(r, a, row, find)
    except Nine:
        return 9, r
    if not fits(r, row):
        return 2, r
    item = model.item(r["kind"], r["width"], row)
    s = grown(r, row, len(item), new, joins)
    if past(s):
        return 3, r
    if too_short(s, lent):
        return 4, r
    if new:
        store(r, a, row, item, 1)
    if e >= 2:
        a["counts"][s["runs"] - 1] = s["last"]
        if e == 4 and not joins:
            a["keys"][runs] = key
    return 0, s


# ---- append of one row so many times: by runs, never by rows

def split(r, times, joins):
    """How many of the rows join the last run, how many full runs come behind it, and the rows of a last run that isn't full."""
    joining = min(times, MOST_RUN - r["last"]) if joins else 0
    return joining, *divmod(times - joining, MOST_RUN)


def more_items(r, times, new, joins):
    """How many items are stored."""
    _, full, rest = split(r, times, joins)
    return (times, times, full + (rest > 0), full + (rest > 0), int(new and times > 0))[r["encoding"]]


def grown_times(r, row, size, times, new, joins):
    """The record with all the rows counted in."""
    s = dict(r)
    s["rows"] += times
    s["bytes"] += size * more_items(r, times, new, joins)
    if r["encoding"] < 2 or times == 0:
        return s
    if r["encoding"] == 4:
        s["entries"] += more_items(r, times, new, joins)
    joining, full, rest = split(r, times, joins)
    s["null"] = int(row is None)
    s["runs"] += full + (rest > 0)
    if joining:
        s["counts"] += len(spell(r["last"] + joining)) - len(spell(r["last"]))
    s["counts"] += full * len(spell(MOST_RUN)) + (len(spell(rest)) if rest else 0)
    s["last"] = rest or (MOST_RUN if full else r["last"] + joining)
    return s


def append_times(r, a, lent, times, present, value, data, find=entry_of):
    """All the rows or none: the number and the record; where it is 0 the areas are changed."""
    if record_wrong(r) or too_short(r, lent):
        return 9, r
    row = row_of(r, present, value, data)
    try:
        new, joins, key = found(r, a, row, find)
    except Nine:
        return 9, r
    if not fits(r, row):
        return 2, r
    item = model.item(r["kind"], r["width"], row)
    s = grown_times(r, row, len(item), times, new, joins)
    if past(s):
        return 3, r
    if too_short(s, lent):
        return 4, r
    store(r, a, row, item, more_items(r, times, new, joins))
    if r["encoding"] >= 2:
        store_runs(r, a, key, *split(r, times, joins))
    return 0, s


def store_runs(r, a, key, joining, full, rest):
    """The last run's count, if rows joined it, and the runs behind it."""
    if joining:
        a["counts"][r["runs"] - 1] = r["last"] + joining
    for i, count in enumerate([MOST_RUN] * full + [rest] * (rest > 0)):
        a["counts"][r["runs"] + i] = count
        if r["encoding"] == 4:
            a["keys"][r["runs"] + i] = key


# ---- finish

def block(r, a):
    e, n, runs = r["encoding"], stored(r), r["runs"]
    inner = bytes(a["items"][:r["bytes"]])
    if r["kind"] in BY_ENDS:
        inner = b"".join(x.to_bytes(4, "little") for x in a["ends"][:n]) + inner
    if e in (1, 3):
        size = (n + 7) // 8
        bitmap = bytearray(a["flags"][:size])
        if n % 8:
            bitmap[-1] &= (1 << n % 8) - 1
        inner += bytes(bitmap) + size.to_bytes(4, "little")
    if e < 2:
        return inner
    counts = b"".join(spell(x) for x in a["counts"][:runs])
    head = runs.to_bytes(4, "little") + len(counts).to_bytes(4, "little") + counts
    if e < 4:
        return head + inner if runs else b""
    keys = head + b"".join(x.to_bytes(4, "little", signed=True) for x in a["keys"][:runs]) if runs else b""
    return len(keys).to_bytes(8, "big") + n.to_bytes(4, "big") + keys + inner


def finish(r, a, lent, room):
    """The number and the block, for a room of so many bytes."""
    if record_wrong(r) or too_short(r, lent):
        return 9, b""
    b = block(r, a)
    return (4, b"") if room < len(b) else (0, b)


# ---- sizes

def estimate(r):
    if record_wrong(r):
        return 9, 0
    e = r["encoding"]
    inner = plain_bytes(r) + ((stored(r) + 7) // 8 if e in (1, 3) else 0)
    if e < 2:
        return 0, inner
    if e < 4:
        return 0, inner + 4 + 2 * r["runs"]
    return 0, 8 + (4 * r["runs"] + 4 + 2 * r["runs"]) + inner


def with_next(r, present, size):
    """What should_finish holds against the target."""
    more = (size + 4 if present else 4) if r["kind"] in BY_ENDS else width_of(r)
    return plain_bytes(r) + more + (1 if r["encoding"] in (1, 3) else 0)


def with_next_key(r):
    """What should_finish holds against the key target: the next row isn't looked at."""
    return 4 * r["runs"] + 4


def should_finish(r, present, size):
    if record_wrong(r):
        return 9, 0
    full = r["bytes"] != 0 and with_next(r, present, size) > r["target"]
    if r["encoding"] == 4:
        full = full or 4 * r["runs"] != 0 and with_next_key(r) > r["keytarget"]
    return 0, int(full)

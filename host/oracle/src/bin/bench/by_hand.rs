//! An append written by hand, for the port's to be held against: the same record by value, the same areas, the same tests, not
//! inlined, for every kind and encoding.
use std::slice::{from_raw_parts, from_raw_parts_mut};

use idzulgar::calls::{Appended, Areas, BuilderRecord};

const ROWS: usize = (1 << 48) - 1;
const ITEMS: usize = 1 << 20;
const ENTRIES: usize = 1 << 16;
const BLOCK: usize = 1 << 24;
const CHAR: usize = 8;
const BLOB: usize = 9;
const STRING: usize = 10;

#[inline]
fn has_ends(b: &BuilderRecord) -> bool {
    b.kind == BLOB || b.kind == STRING
}

/// The bytes of a fixed or char item; 0 for a blob or string; nothing if the record names no pair.
#[inline]
fn width_of(b: &BuilderRecord) -> Option<usize> {
    let width = match b.kind {
        0 => 1,
        1 => 2,
        2 | 4 => 4,
        3 | 5 | 6 | 7 | 11 => 8,
        CHAR if (1..=255).contains(&b.width) => return (b.encoding <= 4).then_some(b.width),
        BLOB | STRING => 0,
        _ => return None,
    };
    (b.encoding <= 4 && b.width == 0).then_some(width)
}

#[inline]
fn is_coded(b: &BuilderRecord) -> bool {
    b.encoding >= 2
}

#[inline]
fn is_flagged(b: &BuilderRecord) -> bool {
    b.encoding == 1 || b.encoding == 3
}

#[inline]
fn is_keyed(b: &BuilderRecord) -> bool {
    b.encoding == 4
}

#[inline]
fn stored(b: &BuilderRecord) -> usize {
    match b.encoding {
        0 | 1 => b.rows,
        2 | 3 => b.runs,
        _ => b.entries,
    }
}

#[inline]
fn past_limits(b: &BuilderRecord) -> bool {
    if b.rows > ROWS || stored(b) > ITEMS || b.bytes > 2 * BLOCK {
        return true;
    }
    let n = stored(b);
    let mut len = b.bytes;
    if has_ends(b) {
        len += 4 * n;
    }
    if is_flagged(b) {
        len += n.div_ceil(8) + 4;
    }
    if is_coded(b) {
        if b.runs > ITEMS || b.counts > 2 * BLOCK {
            return true;
        }
        if is_keyed(b) {
            if b.entries > ENTRIES {
                return true;
            }
            len += 12;
            if b.runs > 0 {
                len += 8 + b.counts + 4 * b.runs;
            }
        } else if b.runs > 0 {
            len += 8 + b.counts;
        } else {
            len = 0;
        }
    }
    len > BLOCK
}

#[inline]
fn is_wrong(b: &BuilderRecord, width: usize) -> bool {
    if is_coded(b) && b.counts > BLOCK || b.bytes > BLOCK || past_limits(b) {
        return true;
    }
    if has_ends(b) {
        stored(b) == 0 && b.bytes != 0
    } else {
        b.bytes != stored(b) * width
    }
}

#[inline]
fn is_short(b: &BuilderRecord, areas: &Areas<'_>) -> bool {
    let n = stored(b);
    areas.items.len() < b.bytes
        || has_ends(b) && areas.ends.len() < n
        || b.kind == CHAR && areas.lens.len() < n
        || is_flagged(b) && areas.flags.len() < n.div_ceil(8)
        || is_coded(b) && areas.counts.len() < b.runs
        || is_keyed(b) && areas.keys.len() < b.runs
}

#[inline]
fn bytes_at<const N: usize>(items: &[u8], at: usize) -> [u8; N] {
    items[at..at + N].try_into().expect("as many bytes")
}

/// The value of a fixed item.
#[inline]
fn value_at(kind: usize, items: &[u8], i: usize) -> i64 {
    match kind {
        0 => (items[i] != 0) as i64,
        1 => i16::from_le_bytes(bytes_at(items, 2 * i)) as i64,
        2 => i32::from_le_bytes(bytes_at(items, 4 * i)) as i64,
        3 | 11 => i64::from_le_bytes(bytes_at(items, 8 * i)),
        4 => i32::from_be_bytes(bytes_at(items, 4 * i)) as i64,
        _ => i64::from_be_bytes(bytes_at(items, 8 * i)),
    }
}

#[inline]
fn takes(kind: usize, value: i64) -> bool {
    match kind {
        0 => value == 0 || value == 1,
        1 => value == value as i16 as i64,
        2 | 4 => value == value as i32 as i64,
        _ => true,
    }
}

#[inline]
fn put_value(kind: usize, value: i64, items: &mut [u8], at: usize) {
    match kind {
        0 => items[at] = value as u8,
        1 => items[at..at + 2].copy_from_slice(&(value as i16).to_le_bytes()),
        2 => items[at..at + 4].copy_from_slice(&(value as i32).to_le_bytes()),
        3 | 11 => items[at..at + 8].copy_from_slice(&value.to_le_bytes()),
        4 => items[at..at + 4].copy_from_slice(&(value as i32).to_be_bytes()),
        _ => items[at..at + 8].copy_from_slice(&value.to_be_bytes()),
    }
}

/// Where a blob item starts and ends; nothing if its end is wrong.
#[inline]
fn blob_at(ends: &[u32], n: usize, len: usize, i: usize) -> Option<(usize, usize)> {
    let from = if i == 0 { 0 } else { ends[i - 1] as usize };
    let to = ends[i] as usize;
    (from <= to && to <= len && (i + 1 < n || to == len)).then_some((from, to))
}

/// Whether the last of the runs' items is the row, which is not null; nothing if its field is wrong.
#[inline]
fn same_as_last(b: &BuilderRecord, areas: &Areas<'_>, width: usize, value: i64, item: &[u8]) -> Option<bool> {
    let i = b.runs - 1;
    match b.kind {
        CHAR => {
            let len = areas.lens[i] as usize;
            (len <= width).then(|| areas.items[i * width..i * width + len] == *item)
        }
        BLOB | STRING => {
            let (from, to) = blob_at(areas.ends, b.runs, b.bytes, i)?;
            Some(areas.items[from..to] == *item)
        }
        kind => Some(value_at(kind, areas.items, i) == value),
    }
}

/// Whether bytes are equal: by length, then one by one. For entries this is faster than `==`, which calls `memcmp` for each.
#[inline]
fn same(entry: &[u8], item: &[u8]) -> bool {
    entry.len() == item.len() && entry.iter().zip(item).all(|(a, b)| a == b)
}

/// The first of the entries that is the row, which is not null, or their number; nothing if a field before it is wrong.
#[inline(never)]
fn look_up(b: &BuilderRecord, areas: &Areas<'_>, width: usize, value: i64, item: &[u8]) -> Option<usize> {
    let n = b.entries;
    match (b.kind, width) {
        (CHAR, _) => {
            for (i, (len, entry)) in areas.lens[..n].iter().zip(areas.items.chunks_exact(width)).enumerate() {
                let len = *len as usize;
                if len > width {
                    return None;
                }
                if same(&entry[..len], item) {
                    return Some(i);
                }
            }
        }
        (BLOB | STRING, _) => {
            let mut from = 0;
            for (i, to) in areas.ends[..n].iter().enumerate() {
                let to = *to as usize;
                if to < from || to > b.bytes || i + 1 == n && to != b.bytes {
                    return None;
                }
                if same(&areas.items[from..to], item) {
                    return Some(i);
                }
                from = to;
            }
        }
        (kind, _) if !takes(kind, value) => {}
        (0, _) => return Some(areas.items[..n].iter().position(|byte| (*byte != 0) == (value != 0)).unwrap_or(n)),
        (kind, 2 | 4) => {
            let mut want = [0; 8];
            put_value(kind, value, &mut want, 0);
            if width == 2 {
                let want: [u8; 2] = bytes_at(&want, 0);
                return Some(areas.items[..2 * n].chunks_exact(2).position(|entry| entry == want).unwrap_or(n));
            }
            let want: [u8; 4] = bytes_at(&want, 0);
            return Some(areas.items[..4 * n].chunks_exact(4).position(|entry| entry == want).unwrap_or(n));
        }
        (kind, _) => {
            let mut want = [0; 8];
            put_value(kind, value, &mut want, 0);
            return Some(areas.items[..8 * n].chunks_exact(8).position(|entry| entry == want).unwrap_or(n));
        }
    }
    Some(n)
}

/// What the row comes to: whether it is an item more, whether it joins the last run, its key; nothing if a field is wrong.
#[inline]
fn step(b: &BuilderRecord, areas: &Areas<'_>, width: usize, present: bool, value: i64, item: &[u8]) -> Option<(bool, bool, i32)> {
    match b.encoding {
        0 | 1 => Some((true, false, 0)),
        2 | 3 => {
            if b.runs == 0 {
                return Some((true, false, 0));
            }
            let same = same_as_last(b, areas, width, value, item)?;
            let joins = b.last < u32::MAX as usize && if b.null != 0 { !present } else { present && same };
            Some((!joins, joins, 0))
        }
        _ => {
            let (new, key) = if present {
                let i = look_up(b, areas, width, value, item)?;
                (i == b.entries, i as i32 - i32::MAX)
            } else {
                (false, i32::MIN)
            };
            let joins = b.runs > 0 && b.last < u32::MAX as usize && areas.keys[b.runs - 1] == key;
            Some((new, joins, key))
        }
    }
}

/// The bytes of a count.
#[inline]
fn size(count: usize) -> usize {
    match count {
        0..=0x7F => 1,
        0x80..=0x3FFF => 2,
        0x4000..=0x1F_FFFF => 3,
        0x20_0000..=0xFFF_FFFF => 4,
        _ => 5,
    }
}

#[inline]
fn append_in(b: BuilderRecord, areas: Areas<'_>, present: bool, value: i64, item: &[u8]) -> Appended {
    let refused = |number| Appended { number, builder: b };
    let Some(width) = width_of(&b) else { return refused(9) };
    if is_wrong(&b, width) || is_short(&b, &areas) {
        return refused(9);
    }
    let Some((new, joins, key)) = step(&b, &areas, width, present, value, item) else { return refused(9) };
    let fits = match b.kind {
        CHAR => item.len() <= width && (!present || std::str::from_utf8(item).is_ok()),
        BLOB => true,
        STRING => !present || std::str::from_utf8(item).is_ok(),
        kind => takes(kind, value),
    };
    if present && !fits {
        return refused(2);
    }
    let given = if present { item.len() } else { 0 };
    let len = if has_ends(&b) { given } else { width };
    if new && len > BLOCK {
        return refused(3);
    }

    let mut next = b;
    next.rows += 1;
    if is_coded(&b) {
        if joins {
            next.last += 1;
            next.counts += size(next.last) - size(b.last);
        } else {
            next.runs += 1;
            next.last = 1;
            next.counts += 1;
        }
        next.null = !present as usize;
    }
    if new {
        next.bytes += len;
        next.entries += is_keyed(&b) as usize;
    }
    if past_limits(&next) {
        return refused(3);
    }
    if is_short(&next, &areas) {
        return refused(4);
    }

    if new {
        let (i, at) = (stored(&b), b.bytes);
        match b.kind {
            CHAR => {
                let room = &mut areas.items[at..at + width];
                room[..given].copy_from_slice(&item[..given]);
                room[given..].fill(0);
                areas.lens[i] = given as u8;
            }
            BLOB | STRING => {
                areas.items[at..at + given].copy_from_slice(&item[..given]);
                areas.ends[i] = next.bytes as u32;
            }
            kind => put_value(kind, if present { value } else { 0 }, areas.items, at),
        }
        if is_flagged(&b) {
            let (byte, bit) = (i / 8, 1 << (i % 8));
            let before = if i % 8 == 0 { 0 } else { areas.flags[byte] };
            areas.flags[byte] = if present { before | bit } else { before & !bit };
        }
    }
    if is_coded(&b) {
        areas.counts[next.runs - 1] = next.last as u32;
        if is_keyed(&b) && !joins {
            areas.keys[b.runs] = key;
        }
    }
    Appended { number: 0, builder: next }
}

/// The same call, by the same conventions.
///
/// # Safety
///
/// Each pointer goes with its number of items; what is written overlaps nothing else.
#[no_mangle]
#[inline(never)]
unsafe extern "C" fn hand_append(
    builder: BuilderRecord,
    items: *mut u8,
    items_len: usize,
    ends: *mut u32,
    ends_len: usize,
    flags: *mut u8,
    flags_len: usize,
    counts: *mut u32,
    counts_len: usize,
    keys: *mut i32,
    keys_len: usize,
    lens: *mut u8,
    lens_len: usize,
    present: u8,
    value: i64,
    item: *const u8,
    item_len: usize,
) -> Appended {
    let areas = Areas {
        items: from_raw_parts_mut(items, items_len),
        ends: from_raw_parts_mut(ends, ends_len),
        flags: from_raw_parts_mut(flags, flags_len),
        counts: from_raw_parts_mut(counts, counts_len),
        keys: from_raw_parts_mut(keys, keys_len),
        lens: from_raw_parts_mut(lens, lens_len),
    };
    append_in(builder, areas, present != 0, value, from_raw_parts(item, item_len))
}

/// The call as `idzulgar::calls::append` makes it.
pub fn append(builder: BuilderRecord, areas: Areas<'_>, present: bool, value: i64, item: &[u8]) -> Appended {
    // SAFETY: slices are pointers with their number of items, and mutable ones overlap nothing.
    unsafe {
        hand_append(
            builder,
            areas.items.as_mut_ptr(),
            areas.items.len(),
            areas.ends.as_mut_ptr(),
            areas.ends.len(),
            areas.flags.as_mut_ptr(),
            areas.flags.len(),
            areas.counts.as_mut_ptr(),
            areas.counts.len(),
            areas.keys.as_mut_ptr(),
            areas.keys.len(),
            areas.lens.as_mut_ptr(),
            areas.lens.len(),
            u8::from(present),
            value,
            item.as_ptr(),
            item.len(),
        )
    }
}

//! The calls of the library as safe functions on slices and records: the one file with `unsafe`.
//!
//! Each takes any record and any bytes and gives the library's answer: this is the layer to use where the block and the record
//! are kept apart, or come from elsewhere. [`crate::Reader`] and [`crate::Builder`] keep them together.
//!
//! # Why the calls are sound
//!
//! The library asks two things of its caller that it can't test: each pointer goes with the number of items it points to, and
//! what it writes overlaps nothing else that it was lent. A slice is just such a pointer with its number of items, and two
//! `&mut` slices never overlap each other or a `&` slice. The pointer of an empty slice or `Vec` is not null and points to nothing;
//! the library follows no pointer of length 0, null or not. It keeps no pointer, allocates nothing and has no state of its own. The
//! records below have the layout of include/idzulgar.h, all of plain numbers, so any bits in them are a value.

/// A reader's record: what opening was given and found at the block's head, where reading stands, and how many nulls were given. Any
/// numbers can stand here; a record that contradicts itself is refused as 9.
#[repr(C)]
#[derive(Clone, Copy, Debug, PartialEq, Eq, Hash)]
#[allow(missing_docs)]
pub struct ReaderRecord {
    pub kind: usize,
    pub encoding: usize,
    pub width: usize,
    pub rows: usize,
    pub len: usize,
    pub runs: usize,
    pub counts: usize,
    pub keys: usize,
    pub entries: usize,
    pub place: usize,
    pub run: usize,
    pub at: usize,
    pub taken: usize,
    pub nulls: usize,
}

/// What opening answers. Beside a refusal stands a record that every call refuses as 9, but for a read that passes over no rows and gives
/// none, which is 6.
#[repr(C)]
#[derive(Clone, Copy, Debug, PartialEq, Eq)]
#[allow(missing_docs)]
pub struct Opening {
    pub number: u8,
    pub reader: ReaderRecord,
}

/// What a read answers: the rows given and, for char, blob and string, the bytes written.
#[repr(C)]
#[derive(Clone, Copy, Debug, PartialEq, Eq)]
#[allow(missing_docs)]
pub struct Given {
    pub number: u8,
    pub rows: usize,
    pub bytes: usize,
    pub reader: ReaderRecord,
}

/// What asking for the remaining rows answers. The record is the one that was given.
#[repr(C)]
#[derive(Clone, Copy, Debug, PartialEq, Eq)]
#[allow(missing_docs)]
pub struct Left {
    pub number: u8,
    pub rows: usize,
    pub reader: ReaderRecord,
}

/// A builder's record: what creation was given, and what was appended so far. Any numbers can stand here; a record that
/// contradicts itself or its areas is refused as 9. Any number is a target, and any a key target.
#[repr(C)]
#[derive(Clone, Copy, Debug, PartialEq, Eq, Hash)]
#[allow(missing_docs)]
pub struct BuilderRecord {
    pub kind: usize,
    pub encoding: usize,
    pub width: usize,
    pub target: usize,
    pub key_target: usize,
    pub rows: usize,
    pub runs: usize,
    pub entries: usize,
    pub bytes: usize,
    pub last: usize,
    pub null: usize,
    pub counts: usize,
}

/// What creation answers. Beside a refusal stands a record that every call refuses as 9.
#[repr(C)]
#[derive(Clone, Copy, Debug, PartialEq, Eq)]
#[allow(missing_docs)]
pub struct Creation {
    pub number: u8,
    pub builder: BuilderRecord,
}

/// What an append answers.
#[repr(C)]
#[derive(Clone, Copy, Debug, PartialEq, Eq)]
#[allow(missing_docs)]
pub struct Appended {
    pub number: u8,
    pub builder: BuilderRecord,
}

/// What finishing answers: the bytes written. The record is the one that was given.
#[repr(C)]
#[derive(Clone, Copy, Debug, PartialEq, Eq)]
#[allow(missing_docs)]
pub struct Finished {
    pub number: u8,
    pub len: usize,
    pub builder: BuilderRecord,
}

/// What asking for the estimated size answers. The record is the one that was given.
#[repr(C)]
#[derive(Clone, Copy, Debug, PartialEq, Eq)]
#[allow(missing_docs)]
pub struct Estimated {
    pub number: u8,
    pub size: usize,
    pub builder: BuilderRecord,
}

/// What asking whether to finish answers. The record is the one that was given.
#[repr(C)]
#[derive(Clone, Copy, Debug, PartialEq, Eq)]
#[allow(missing_docs)]
pub struct Asked {
    pub number: u8,
    pub full: bool,
    pub builder: BuilderRecord,
}

/// What opening a column of a sheet file answers: where in the file its block lies, which the calls on its record take. Beside a refusal
/// both are 0, and the record is the one that stands beside a refused opening.
#[repr(C)]
#[derive(Clone, Copy, Debug, PartialEq, Eq)]
#[allow(missing_docs)]
pub struct Found {
    pub number: u8,
    pub from: usize,
    pub len: usize,
    pub reader: ReaderRecord,
}

/// What writing a sheet file answers: the bytes written.
#[repr(C)]
#[derive(Clone, Copy, Debug, PartialEq, Eq)]
#[allow(missing_docs)]
pub struct Written {
    pub number: u8,
    pub len: usize,
}

/// What a block is opened by, as one record. `zero` is the zero bit of a descriptor's bytes: any number but 0 is the bit set, which is
/// opening's 1.
#[repr(C)]
#[derive(Clone, Copy, Debug, PartialEq, Eq, Hash)]
#[allow(missing_docs)]
pub struct Descriptor {
    pub kind: usize,
    pub encoding: usize,
    pub width: usize,
    pub zero: usize,
    pub rows: usize,
}

/// What comparing two blocks answers: the ranges written.
#[repr(C)]
#[derive(Clone, Copy, Debug, PartialEq, Eq)]
#[allow(missing_docs)]
pub struct Compared {
    pub number: u8,
    pub ranges: usize,
}

/// What salvaging a block answers: the bytes of the block that was written, and the ranges written.
#[repr(C)]
#[derive(Clone, Copy, Debug, PartialEq, Eq)]
#[allow(missing_docs)]
pub struct Salvaged {
    pub number: u8,
    pub len: usize,
    pub ranges: usize,
}

/// What asking the second engine for a row answers: for char, blob and string the bytes written.
#[repr(C)]
#[derive(Clone, Copy, Debug, PartialEq, Eq)]
#[allow(missing_docs)]
pub struct RowGiven {
    pub number: u8,
    pub bytes: usize,
}

/// The six areas of a builder: items (fixed and char items at their width, data of blob and string), their ends, flags (a bit an
/// item), the runs' counts, the key runs' keys, the char items' lengths.
#[derive(Debug)]
#[allow(missing_docs)]
pub struct Areas<'a> {
    pub items: &'a mut [u8],
    pub ends: &'a mut [u32],
    pub flags: &'a mut [u8],
    pub counts: &'a mut [u32],
    pub keys: &'a mut [i32],
    pub lens: &'a mut [u8],
}

extern "C" {
    fn idz_open(kind: usize, encoding: usize, width: usize, rows: usize, block: *const u8, block_len: usize) -> Opening;
    fn idz_read(
        reader: ReaderRecord,
        block: *const u8,
        block_len: usize,
        skip: usize,
        size: usize,
        values: *mut i64,
        values_len: usize,
        flags: *mut u8,
        flags_len: usize,
        ends: *mut u32,
        ends_len: usize,
        bytes: *mut u8,
        bytes_len: usize,
    ) -> Given;
    fn idz_remaining(reader: ReaderRecord) -> Left;
    fn idz_create(kind: usize, encoding: usize, width: usize, target: usize) -> Creation;
    fn idz_create_with_key_target(kind: usize, encoding: usize, width: usize, target: usize, key_target: usize) -> Creation;
    fn idz_append_times(
        builder: BuilderRecord,
        items: *mut u8,
        items_len: usize,
        ends: *mut u32,
        ends_len: usize,
        flags: *mut u8,
        flags_len: usize,
        counts: *mut u32,
        counts_len: usize,
        keys: *mut i32,
        keys_len: usize,
        lens: *mut u8,
        lens_len: usize,
        present: u8,
        value: i64,
        item: *const u8,
        item_len: usize,
        times: usize,
    ) -> Appended;
    fn idz_finish(
        builder: BuilderRecord,
        items: *const u8,
        items_len: usize,
        ends: *const u32,
        ends_len: usize,
        flags: *const u8,
        flags_len: usize,
        counts: *const u32,
        counts_len: usize,
        keys: *const i32,
        keys_len: usize,
        lens: *const u8,
        lens_len: usize,
        out: *mut u8,
        out_len: usize,
    ) -> Finished;
    fn idz_estimate(builder: BuilderRecord) -> Estimated;
    fn idz_should_finish(builder: BuilderRecord, present: u8, len: usize) -> Asked;
    fn idz_sheet_open(file: *const u8, file_len: usize, column: usize) -> Found;
    fn idz_sheet_write(
        columns: *const usize,
        columns_len: usize,
        blocks: *const u8,
        blocks_len: usize,
        out: *mut u8,
        out_len: usize,
    ) -> Written;
    fn idz_compare(
        a: Descriptor,
        first: *const u8,
        first_len: usize,
        b: Descriptor,
        second: *const u8,
        second_len: usize,
        firsts: *mut usize,
        firsts_len: usize,
        lasts: *mut usize,
        lasts_len: usize,
    ) -> Compared;
    fn idz_salvage(
        d: Descriptor,
        block: *const u8,
        block_len: usize,
        firsts: *mut usize,
        firsts_len: usize,
        lasts: *mut usize,
        lasts_len: usize,
        out: *mut u8,
        out_len: usize,
    ) -> Salvaged;
    fn idz_row(
        d: Descriptor,
        block: *const u8,
        block_len: usize,
        row: usize,
        values: *mut i64,
        values_len: usize,
        flags: *mut u8,
        flags_len: usize,
        ends: *mut u32,
        ends_len: usize,
        bytes: *mut u8,
        bytes_len: usize,
    ) -> RowGiven;
}

/// Opens a block of `rows` rows.
pub fn open(kind: usize, encoding: usize, width: usize, rows: usize, block: &[u8]) -> Opening {
    // SAFETY: see the head of this file.
    unsafe { idz_open(kind, encoding, width, rows, block.as_ptr(), block.len()) }
}

/// Passes over `skip` rows, then reads up to `size` rows into the lent areas: both, or neither.
#[allow(clippy::too_many_arguments)]
pub fn read(
    reader: ReaderRecord,
    block: &[u8],
    skip: usize,
    size: usize,
    values: &mut [i64],
    flags: &mut [u8],
    ends: &mut [u32],
    bytes: &mut [u8],
) -> Given {
    // SAFETY: see the head of this file.
    unsafe {
        idz_read(
            reader,
            block.as_ptr(),
            block.len(),
            skip,
            size,
            values.as_mut_ptr(),
            values.len(),
            flags.as_mut_ptr(),
            flags.len(),
            ends.as_mut_ptr(),
            ends.len(),
            bytes.as_mut_ptr(),
            bytes.len(),
        )
    }
}

/// How many rows are left, from the record alone.
pub fn remaining(reader: ReaderRecord) -> Left {
    // SAFETY: see the head of this file.
    unsafe { idz_remaining(reader) }
}

/// A builder of a column, with nothing appended. Its key target is the target.
pub fn create(kind: usize, encoding: usize, width: usize, target: usize) -> Creation {
    // SAFETY: see the head of this file.
    unsafe { idz_create(kind, encoding, width, target) }
}

/// The same with a key target of its own.
pub fn create_with_key_target(kind: usize, encoding: usize, width: usize, target: usize, key_target: usize) -> Creation {
    // SAFETY: see the head of this file.
    unsafe { idz_create_with_key_target(kind, encoding, width, target, key_target) }
}

/// Appends one row: whether it is present, its integer for a fixed kind, its bytes for char, blob and string.
pub fn append(builder: BuilderRecord, areas: Areas<'_>, present: bool, value: i64, item: &[u8]) -> Appended {
    append_times(builder, areas, present, value, item, 1)
}

/// Appends one row so many times, all or none. Of 0 times the row is tested and nothing changes.
#[inline] // else a single append would be a call more
pub fn append_times(builder: BuilderRecord, areas: Areas<'_>, present: bool, value: i64, item: &[u8], times: usize) -> Appended {
    // SAFETY: see the head of this file.
    unsafe {
        idz_append_times(
            builder,
            areas.items.as_mut_ptr(),
            areas.items.len(),
            areas.ends.as_mut_ptr(),
            areas.ends.len(),
            areas.flags.as_mut_ptr(),
            areas.flags.len(),
            areas.counts.as_mut_ptr(),
            areas.counts.len(),
            areas.keys.as_mut_ptr(),
            areas.keys.len(),
            areas.lens.as_mut_ptr(),
            areas.lens.len(),
            u8::from(present),
            value,
            item.as_ptr(),
            item.len(),
            times,
        )
    }
}

/// Writes the block that the areas hold into the room.
#[allow(clippy::too_many_arguments)]
pub fn finish(
    builder: BuilderRecord,
    items: &[u8],
    ends: &[u32],
    flags: &[u8],
    counts: &[u32],
    keys: &[i32],
    lens: &[u8],
    out: &mut [u8],
) -> Finished {
    // SAFETY: see the head of this file.
    unsafe {
        idz_finish(
            builder,
            items.as_ptr(),
            items.len(),
            ends.as_ptr(),
            ends.len(),
            flags.as_ptr(),
            flags.len(),
            counts.as_ptr(),
            counts.len(),
            keys.as_ptr(),
            keys.len(),
            lens.as_ptr(),
            lens.len(),
            out.as_mut_ptr(),
            out.len(),
        )
    }
}

/// The estimated size, from the record alone.
pub fn estimate(builder: BuilderRecord) -> Estimated {
    // SAFETY: see the head of this file.
    unsafe { idz_estimate(builder) }
}

/// Whether to finish before a next row: whether that row is present, and the length of its bytes.
pub fn should_finish(builder: BuilderRecord, present: bool, len: usize) -> Asked {
    // SAFETY: see the head of this file.
    unsafe { idz_should_finish(builder, u8::from(present), len) }
}

/// Opens a column of a sheet file, counted from 0. The calls on its record take `&file[from..from + len]`.
pub fn sheet_open(file: &[u8], column: usize) -> Found {
    // SAFETY: see the head of this file.
    unsafe { idz_sheet_open(file.as_ptr(), file.len(), column) }
}

/// Writes a sheet file into the room: `columns` has each one's kind, encoding, width, rows and block length, `blocks` the blocks one after
/// another.
pub fn sheet_write(columns: &[usize], blocks: &[u8], out: &mut [u8]) -> Written {
    // SAFETY: see the head of this file.
    unsafe { idz_sheet_write(columns.as_ptr(), columns.len(), blocks.as_ptr(), blocks.len(), out.as_mut_ptr(), out.len()) }
}

/// Compares two blocks, and writes the ranges of rows that differ: the first row of each to `firsts`, the last to `lasts`.
pub fn compare(a: Descriptor, first: &[u8], b: Descriptor, second: &[u8], firsts: &mut [usize], lasts: &mut [usize]) -> Compared {
    // SAFETY: see the head of this file.
    unsafe {
        idz_compare(
            a,
            first.as_ptr(),
            first.len(),
            b,
            second.as_ptr(),
            second.len(),
            firsts.as_mut_ptr(),
            firsts.len(),
            lasts.as_mut_ptr(),
            lasts.len(),
        )
    }
}

/// Gives back the rows of a dictionary block, those whose key names no entry as nulls: writes their block into the room, and the ranges of such
/// rows, the first row of each to `firsts`, the last to `lasts`.
pub fn salvage(d: Descriptor, block: &[u8], firsts: &mut [usize], lasts: &mut [usize], out: &mut [u8]) -> Salvaged {
    // SAFETY: see the head of this file.
    unsafe {
        idz_salvage(
            d,
            block.as_ptr(),
            block.len(),
            firsts.as_mut_ptr(),
            firsts.len(),
            lasts.as_mut_ptr(),
            lasts.len(),
            out.as_mut_ptr(),
            out.len(),
        )
    }
}

/// Gives row `row` of a block, counted from 0, by the second engine: found from the block's start, in the form of a read of one row.
#[allow(clippy::too_many_arguments)]
pub fn row(
    d: Descriptor,
    block: &[u8],
    row: usize,
    values: &mut [i64],
    flags: &mut [u8],
    ends: &mut [u32],
    bytes: &mut [u8],
) -> RowGiven {
    // SAFETY: see the head of this file.
    unsafe {
        idz_row(
            d,
            block.as_ptr(),
            block.len(),
            row,
            values.as_mut_ptr(),
            values.len(),
            flags.as_mut_ptr(),
            flags.len(),
            ends.as_mut_ptr(),
            ends.len(),
            bytes.as_mut_ptr(),
            bytes.len(),
        )
    }
}

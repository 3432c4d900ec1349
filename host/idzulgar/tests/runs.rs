//! Run counts of a byte each are taken in groups. Here every place of a group has a count that is none of those, against the model of
//! document 01 and against sums by hand: at opening, in reads that pass over rows up to each side of it, and in bytes that change after
//! opening.
mod model;

use idzulgar::calls::{self, Given, ReaderRecord};
use idzulgar::{Batch, Column, Encoding, Kind, Reader, Refusal, Row};

/// Numbers of runs around those of one group and of more.
const RUNS: [usize; 16] = [1, 2, 15, 16, 17, 31, 32, 33, 47, 48, 49, 63, 64, 65, 81, 100];

/// The bytes of a count, and its number of rows if it is a good one.
const ODD: [(&[u8], Option<u64>); 9] = [
    (&[127], Some(127)),
    (&[0x80, 1], Some(128)),
    (&[0xFF, 0x7F], Some(16_383)),
    (&[0xFF, 0xFF, 0xFF, 0xFF, 0x0F], Some(4_294_967_295)),
    (&[0], None),
    (&[0x80], None),
    (&[0x81, 0], None),
    (&[0xFF, 0xFF, 0xFF, 0xFF, 0x10], None),
    (&[0x80, 0x80, 0x80, 0x80, 0x80, 1], None),
];

/// The count of a run that isn't the odd one.
fn plain_count(run: usize) -> u64 {
    1 + run as u64 * 7 % 127
}

/// A block of i16 items 0, 1, .. with these bytes as its counts; as a dictionary, of as many entries.
fn block_of(encoding: Encoding, counts: &[u8], runs: usize) -> Vec<u8> {
    let items: Vec<u8> = (0..runs).flat_map(|run| (run as i16).to_le_bytes()).collect();
    let head = [(runs as u32).to_le_bytes(), (counts.len() as u32).to_le_bytes()].concat();
    if encoding == Encoding::RunLength {
        return [&head, counts, &items].concat();
    }
    let keys: Vec<u8> = (0..runs).flat_map(|run| (i32::MIN + 1 + run as i32).to_le_bytes()).collect();
    let keys = [&head, counts, &keys].concat();
    [&(keys.len() as u64).to_be_bytes()[..], &(runs as u32).to_be_bytes(), &keys, &items].concat()
}

fn counts_of(runs: usize, place: usize, odd: &[u8]) -> Vec<u8> {
    (0..runs).flat_map(|run| if run == place { odd.to_vec() } else { vec![plain_count(run) as u8] }).collect()
}

/// The rows before each run, and behind the last.
fn starts_of(runs: usize, place: usize, count: u64) -> Vec<u64> {
    let mut starts = vec![0];
    for run in 0..runs {
        let rows = if run == place { count } else { plain_count(run) };
        starts.push(starts[run] + rows);
    }
    starts
}

/// The row that is read behind some others: its run.
fn run_behind(reader: &Reader<&[u8]>, rows: u64, batch: &mut Batch) -> Option<i64> {
    let given = reader.clone().read(rows, 1, batch).expect("so many rows are left");
    let row = batch.iter().next();
    assert_eq!(given, row.is_some() as usize);
    row.map(|row| if let Row::Int(run) = row { run } else { panic!("a row that is no integer: {row:?}") })
}

#[test]
fn an_odd_count_at_each_place() {
    let mut batch = Batch::new(Kind::I16, 1, 0).expect("memory for a row");
    let (mut opened, mut refused) = (0, 0);
    for encoding in [Encoding::RunLength, Encoding::Dictionary] {
        let column = Column::new(Kind::I16, encoding);
        for runs in RUNS {
            for place in 0..runs {
                for (odd, rows) in ODD {
                    let starts = starts_of(runs, place, rows.unwrap_or(1));
                    let n = starts[runs];
                    let counts = counts_of(runs, place, odd);
                    // the counts as they are, cut by a byte, with a byte behind them, and another number of rows
                    for (counts, n) in [
                        (&counts[..], n),
                        (&counts[..counts.len() - 1], n),
                        (&[&counts[..], &[1]].concat(), n),
                        (&counts[..], n + 1),
                    ] {
                        let block = block_of(encoding, counts, runs);
                        let number = model::open_number(column, n, &block);
                        match Reader::open(column, n, &block[..]) {
                            Err(refusal) => {
                                assert_eq!(refusal.number(), number, "{column:?} {n} {block:02X?}");
                                refused += 1;
                            }
                            Ok(reader) => {
                                assert_eq!(number, 0, "{column:?} {n} {block:02X?}");
                                opened += 1;
                                for run in [0, place, place + 1, runs - 1] {
                                    let run = run.min(runs - 1);
                                    for rows in [starts[run], starts[run + 1] - 1] {
                                        assert_eq!(
                                            run_behind(&reader, rows, &mut batch),
                                            Some(run as i64),
                                            "{rows} of {block:02X?}"
                                        );
                                    }
                                }
                                assert_eq!(run_behind(&reader, n, &mut batch), None);
                            }
                        }
                    }
                }
            }
        }
    }
    assert!(opened > 5_000 && refused > 20_000, "{opened} {refused}");
}

/// A read that passes over rows and gives some, of which each is one value and one flag.
fn pass(reader: ReaderRecord, block: &[u8], rows: u64, size: usize) -> Given {
    calls::read(reader, block, rows as usize, size, &mut [0; 1], &mut [0; 1], &mut [], &mut [])
}

#[test]
fn a_count_that_changes_at_each_place() {
    let column = Column::new(Kind::I16, Encoding::RunLength);
    let (kind, encoding, width) = column.numbers();
    for runs in RUNS {
        let starts = starts_of(runs, runs, 0);
        let sound = block_of(Encoding::RunLength, &counts_of(runs, runs, &[]), runs);
        let reader = calls::open(kind, encoding, width, starts[runs] as usize, &sound).reader;
        for place in 0..runs {
            for byte in [0, 0x80, 0xFF] {
                let mut block = sound.clone();
                block[8 + place] = byte;
                // up to the count that changed all is as it was, and past it nothing is
                if place > 0 {
                    let before = pass(reader, &block, starts[place], 0);
                    assert_eq!((before.number, before.reader.run, before.reader.place), (0, place, starts[place] as usize));
                    assert_eq!(pass(reader, &block, starts[place] - 1, 1), Given { rows: 1, ..before });
                }
                for rows in [starts[place] + 1, starts[place + 1], starts[runs]] {
                    // the last of these rows passed over, or given
                    for past in [pass(reader, &block, rows, 0), pass(reader, &block, rows - 1, 1)] {
                        // a byte that goes on into the next count is another count, which may be a good one
                        let goes_on = byte != 0 && place + 1 < runs;
                        assert!(
                            past.number == 9 && past.reader == reader || goes_on && past.number == 0,
                            "{rows} of {block:02X?}: {past:?}"
                        );
                    }
                }
                assert_eq!(pass(reader, &block, starts[runs] + 1, 0).number, Refusal::TooFar.number());
            }
        }
    }
}

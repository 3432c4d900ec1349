//! The night run of the example: which rows it compares, and what it says of sound and damaged blocks of all kinds and encodings, of sheet
//! files, and of lists of them. That it tells an engine that answers otherwise is tried by `host/night`, which puts faults into the library.
mod model;
#[path = "../examples/night.rs"]
mod night;

use std::io::ErrorKind;

use idzulgar::{Builder, Column, Encoding, Kind, Row, Value};
use model::sheets::{self, Entry, Filed};
use model::Chance;
use night::{chosen, compare_all, file_verdict, sheet_verdicts, Tally, Verdict};

/// A file of a descriptor and a block.
fn file_of(column: Column, rows: u64, block: &[u8]) -> Vec<u8> {
    [&Entry::new(column, rows, 0, 0).bytes()[..8], block].concat()
}

/// What is due for a block of few rows.
fn due(column: Column, rows: u64, block: &[u8]) -> Verdict {
    match model::open_number(column, rows, block) {
        0 => Verdict::Same(chosen(rows as usize).count()),
        number => Verdict::Refused(number),
    }
}

#[test]
fn the_rows_that_are_compared() {
    for rows in (0..=2_000).step_by(61).chain([1_999, 2_000]) {
        assert!(chosen(rows).eq(0..rows), "{rows}");
    }
    assert!(chosen(2_001).eq((0..1_000).chain(1_001..2_001)));
    assert!(chosen(2_024).eq((0..1_000).chain(1_024..2_024)));
    assert!(chosen(2_025).eq((0..1_000).chain([1_024]).chain(1_025..2_025)));
    assert!(chosen(5_000).eq((0..1_000).chain([1_024, 2_048]).chain(4_000..5_000)));
    let most: Vec<usize> = chosen((1 << 48) - 1).collect();
    assert_eq!(most.len(), 1_000 + 38 + 1_000);
    assert!((10..48).all(|power| most.contains(&(1 << power))) && most.windows(2).all(|two| two[0] < two[1]));
    assert_eq!((most[0], most.last()), (0, Some(&((1 << 48) - 2))));
}

#[test]
fn sound_and_damaged_files() {
    let mut chance = Chance::new(141);
    let (mut same, mut refused) = (0, [0u32; 18]);
    for round in 0..30_000 {
        let column = model::column(round % model::PAIRS, 1 + chance.below(6));
        let rows = model::some_rows(column.kind, 20, &mut chance);
        let block = model::block_of(column, &rows);
        let (block, n) =
            if chance.one_in(3) { (block, rows.len() as u64) } else { model::damaged(&block, rows.len() as u64, &mut chance) };
        // a descriptor has 48 bits for them
        let n = n % (1 << 48);
        let verdict = file_verdict(&file_of(column, n, &block));
        assert_eq!(verdict, due(column, n, &block), "{column:?} {n} {block:02X?}");
        match verdict {
            Verdict::Refused(number) => refused[usize::from(number)] += 1,
            _ => same += 1,
        }
    }
    assert!(same > 5_000 && [3, 10, 11, 12, 13, 14, 15, 16, 17].iter().all(|number| refused[*number] > 50), "{same} {refused:?}");
}

#[test]
fn descriptors_of_any_bytes() {
    let mut chance = Chance::new(142);
    for _ in 0..20_000 {
        let mut file: Vec<u8> = (0..8 + chance.below(9)).map(|_| chance.number() as u8).collect();
        if chance.one_in(2) {
            file[2..7].fill(0);
        }
        let entry = Entry::of(&[&file[..8], &[0; 8]].concat());
        let due = entry.column().map_or(Verdict::Refused(1), |column| due(column, entry.rows, &file[8..]));
        assert_eq!(file_verdict(&file), due, "{file:02X?}");
    }
    for len in 0..8 {
        assert_eq!(file_verdict(&vec![0; len]), Verdict::Refused(10));
    }
}

#[test]
fn columns_of_sheet_files() {
    let mut chance = Chance::new(143);
    for _ in 0..400 {
        let columns: Vec<Filed> = (0..chance.below(20))
            .map(|_| {
                let column = model::column(chance.below(model::PAIRS), 3);
                let rows = model::some_rows(column.kind, 12, &mut chance);
                Filed { column, rows: rows.len() as u64, block: model::block_of(column, &rows) }
            })
            .collect();
        let mut file = sheets::file_of(&columns);
        for _ in 0..chance.below(4) {
            let at = chance.below(file.len() as u64) as usize;
            file[at] = chance.number() as u8;
        }
        let due = |column: usize| match sheets::found(&file, column) {
            Ok((entry, _)) => Verdict::Same(chosen(entry.rows as usize).count()),
            Err(number) => Verdict::Refused(number),
        };
        let verdicts: Result<Vec<Verdict>, u8> = sheet_verdicts(&file).map(Iterator::collect).map_err(|refusal| refusal.number());
        assert_eq!(verdicts, sheets::columns(&file).map(|columns| (0..columns).map(due).collect()), "{file:02X?}");
    }
}

#[test]
fn the_greatest_files() {
    let column = Column::new(Kind::Blob, Encoding::Plain);
    let data = vec![7; (1 << 24) - 4];
    let mut file = file_of(column, 1, &[&(data.len() as u32).to_le_bytes()[..], &data].concat());
    assert_eq!(file_verdict(&file), Verdict::Same(1));
    // a byte more is refused before either engine is asked: both would say 1
    file.push(0);
    file[0] = 0xF0;
    assert_eq!(file_verdict(&file), Verdict::Refused(3));
    file.pop();
    assert_eq!(file_verdict(&file), Verdict::Refused(1));

    let column = Column::new(Kind::String, Encoding::Dictionary);
    let mut builder = Builder::new(column, 4096).expect("a pair");
    for (name, times) in [("Zoë", 5_000_000_000), ("Ann", 1), ("", (1 << 48) - 1 - 5_000_000_001)] {
        builder.append_times(Row::from(name), times).expect("rows that fit");
    }
    let block = builder.finish().expect("memory");
    assert_eq!(file_verdict(&file_of(column, builder.rows(), &block)), Verdict::Same(2_038));
}

/// A folder of the test's own, which goes with it.
struct Folder(std::path::PathBuf);

impl Folder {
    fn new(name: &str) -> Folder {
        let path = std::env::temp_dir().join(format!("idzulgar {name} {}", std::process::id()));
        std::fs::create_dir_all(&path).expect("a folder");
        Folder(path)
    }

    /// The name of a file with these bytes.
    fn file(&self, name: &str, bytes: &[u8]) -> String {
        let path = self.0.join(name);
        std::fs::write(&path, bytes).expect("a file");
        path.to_str().expect("a path of text").into()
    }
}

impl Drop for Folder {
    fn drop(&mut self) {
        _ = std::fs::remove_dir_all(&self.0);
    }
}

#[test]
fn a_list_of_files() {
    let folder = Folder::new("night");
    let column = Column::new(Kind::I16, Encoding::Nullable);
    let block = model::block_of(column, &[Value::Int(5), Value::Null, Value::Int(-2)]);
    let one = folder.file("one", &file_of(column, 3, &block));
    let none = folder.file("none", &file_of(column, 0, &model::block_of(column, &[])));
    let cut = folder.file("cut", &file_of(column, 3, &block[1..]));
    let filed = |rows, block: &[u8]| Filed { column, rows, block: block.to_vec() };
    let sheet = folder.file("sheet", &sheets::file_of(&[filed(3, &block), filed(2, &block), filed(3, &block)]));
    let empty = folder.file("empty", &sheets::file_of(&[]));
    let missing = folder.0.join("missing").to_str().expect("a path of text").to_string();

    let list = format!("{one}\n\n{none}\n{cut}\nsheet {sheet}\nsheet {empty}\n{missing}\nsheet {missing}\nsheet {one}\n{one}");
    let lines = format!(
        "{one} same 3\n{none} same 0\n{cut} refused 11\n{sheet} 0 same 3\n{sheet} 1 refused 11\n{sheet} 2 same 3\n\
         {missing} refused 10\n{missing} refused 21\n{one} refused 21\n{one} same 3\nfiles 9 differs 0\n"
    );
    let (mut out, mut said) = (Vec::new(), Vec::new());
    let tally = compare_all(list.as_bytes(), &mut out, &mut said).expect("lists and lines in memory");
    assert_eq!((String::from_utf8_lossy(&out).as_ref(), tally), (&lines[..], Tally { files: 9, differs: 0 }));
    // what can't be read is said, and how far it is after each hundred files
    let reason = format!("{missing}: No such file");
    assert!(String::from_utf8_lossy(&said).lines().map(|line| line.starts_with(&reason)).eq([true, true]));
    let (hundreds, mut out, mut said) = (format!("{none}\n").repeat(250), Vec::new(), Vec::new());
    compare_all(hundreds.as_bytes(), &mut out, &mut said).expect("lists and lines in memory");
    assert_eq!(String::from_utf8_lossy(&said), "files 100 differs 0\nfiles 200 differs 0\n");
    assert_eq!(String::from_utf8_lossy(&out).lines().last(), Some("files 250 differs 0"));

    // a line that can't be printed ends it
    let mut short = &mut [0u8; 4][..];
    let ended = compare_all(list.as_bytes(), &mut short, &mut said);
    assert_eq!(ended.map_err(|error| error.kind()), Err(ErrorKind::WriteZero));
}

//! Builds document 01's block samples A to E, H, one of floats and two of strings with the original, and compares them byte for byte.
use idzulgar::{Column, Value};
use oracle::build;

fn hex(text: &str) -> Vec<u8> {
    let digits: Vec<u8> = text.bytes().filter(|digit| *digit != b' ').collect();
    digits.chunks(2).map(|pair| u8::from_str_radix(std::str::from_utf8(pair).unwrap(), 16).unwrap()).collect()
}

fn bytes(text: &str) -> Value {
    Value::Bytes(text.as_bytes().to_vec())
}

fn main() {
    let samples = [
        (
            "A",
            2,
            2,
            0,
            vec![Value::Int(7), Value::Int(7), Value::Int(7), Value::Int(-1)],
            "02000000 02000000 03 01 07000000 FFFFFFFF",
        ),
        (
            "B",
            9,
            4,
            0,
            vec![bytes("ab"), Value::Null, bytes("ab"), bytes("c")],
            "000000000000001C 00000002 04000000 04000000 01010101 01000080 00000080 01000080 02000080 02000000 03000000 616263",
        ),
        ("C", 1, 1, 0, vec![Value::Int(5), Value::Null, Value::Int(-2)], "0500 0000 FEFF 05 01000000"),
        ("D", 8, 0, 3, vec![bytes("a"), bytes("abc"), bytes("x\0y")], "610000 616263 780079"),
        ("E, a Date", 4, 0, 0, vec![Value::Int(1)], "00000001"),
        ("E, an Interval", 7, 0, 0, vec![Value::Int((14 << 32) + (-3i32 as u32 as i64))], "0000000E FFFFFFFD"),
        (
            "1.0 1.0 -0.0",
            11,
            2,
            0,
            vec![Value::F64(1.0), Value::F64(1.0), Value::F64(-0.0)],
            "02000000 02000000 02 01 000000000000F03F 0000000000000080",
        ),
        ("strings", 10, 0, 0, vec![bytes("é"), Value::Null, bytes("€")], "02000000 02000000 05000000 C3A9 E282AC"),
        (
            "a dictionary of strings",
            10,
            4,
            0,
            vec![bytes("é"), Value::Null, bytes("é"), bytes("€")],
            "000000000000001C 00000002 04000000 04000000 01010101 01000080 00000080 01000080 02000080 02000000 05000000 C3A9 E282AC",
        ),
        ("H, nullable", 2, 1, 0, vec![], "00000000"),
        ("H, run-length", 2, 2, 0, vec![], ""),
        ("H, run-length over nullable", 2, 3, 0, vec![], ""),
        ("a dictionary of no rows", 9, 4, 0, vec![], "000000000000000000000000"),
    ];
    let (mut passed, mut failed) = (0, 0);
    for (name, kind, encoding, width, rows, block) in samples {
        let built = build(Column::numbered(kind, encoding, width).expect("one of the pairs"), 1 << 16, &rows);
        let same = built.block == hex(block);
        println!(
            "{name}: {} bytes, estimate {}: {}",
            built.block.len(),
            built.estimates.last().unwrap_or(&0),
            if same { "as in 01" } else { "DIFFERS" }
        );
        passed += same as u32;
        failed += !same as u32;
    }
    println!("{passed} passed, {failed} failed");
    std::process::exit((failed > 0) as i32);
}

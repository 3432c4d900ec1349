//! Column blocks of risinglight (plain, nullable, run-length, dictionary), built and read by proved code.
//!
//! The work is done by a static library whose every answer is proved: a row, or a refusal with its number. This crate adds what a
//! Rust service expects around it: a [`Builder`] that keeps its memory and takes [equal rows by their number](Builder::append_times), a
//! [`Reader`] that keeps its block, a [`Refusal`] that says what a number means, rows by batch or by iterator, a
//! [count of the nulls](Reader::nulls) among them, a [`Sheet`] of many columns in one file, the rows in which two columns differ
//! ([`compare`]), and what is left of a dictionary column whose keys were damaged ([`salvage`]). Beside it stands a second engine, which
//! answers for one row at a time and shares no function with the first: where both are asked for a row, each checks the other ([`row()`]). No
//! function here panics, whatever the block holds, and memory grows only as the caller asks.
//!
//! ```
//! use idzulgar::{Column, Encoding, Kind, Reader, Refusal, Value};
//!
//! // i32, run-length: 7 7 7 -1
//! let column = Column::new(Kind::I32, Encoding::RunLength);
//! let block = [2, 0, 0, 0, 2, 0, 0, 0, 3, 1, 7, 0, 0, 0, 255, 255, 255, 255];
//!
//! let reader = Reader::open(column, 4, &block[..])?;
//! let rows: Result<Vec<Value>, Refusal> = reader.rows_after(2).collect();
//! assert_eq!(rows?, [Value::Int(7), Value::Int(-1)]);
//!
//! // one byte is missing
//! assert_eq!(Reader::open(column, 4, &block[..17]).unwrap_err(), Refusal::Length);
//! # Ok::<(), Refusal>(())
//! ```
//!
//! A rate table: rates are rows of [`Kind::F64`], given and read as `f64`, kept and compared by their bits.
//!
//! ```
//! use idzulgar::{Builder, Column, Encoding, Kind, Reader, Refusal, Row};
//!
//! let column = Column::new(Kind::F64, Encoding::Dictionary);
//! let months = [Some(0.0375), Some(0.0375), None, Some(0.041), Some(0.0)];
//! let mut builder = Builder::new(column, 4096)?;
//! for rate in months {
//!     builder.append(rate.map_or(Row::Null, Row::F64))?;
//! }
//! let block = builder.finish()?;
//!
//! let reader = Reader::open(column, builder.rows(), block)?;
//! let rates: Result<Vec<Option<f64>>, Refusal> = reader.rows().map(|row| row.map(|value| value.f64())).collect();
//! assert_eq!(rates?, months);
//!
//! // only a column of floats takes and gives them
//! let mut amounts = Builder::new(Column::new(Kind::I64, Encoding::Plain), 4096)?;
//! assert_eq!(amounts.append(Row::F64(0.0375)), Err(Refusal::Item));
//! assert_eq!(Row::Int(375).f64(), None);
//! # Ok::<(), Refusal>(())
//! ```
//!
//! Names: rows of [`Kind::String`] and of char are text, which opening and appending see to. They are given as `&str` or as bytes, and come
//! back as bytes with [`Value::text`] beside them.
//!
//! ```
//! use idzulgar::{Builder, Column, Encoding, Kind, Reader, Refusal, Row};
//!
//! let column = Column::new(Kind::String, Encoding::RunLengthNullable);
//! let mut builder = Builder::new(column, 4096)?;
//! for name in [Some("Zoë"), Some("Zoë"), None, Some("")] {
//!     builder.append(name.map_or(Row::Null, Row::from))?;
//! }
//! assert_eq!(builder.append(Row::Bytes(b"Zo\xC3")), Err(Refusal::Item)); // a character is cut
//! let block = builder.finish()?;
//!
//! let reader = Reader::open(column, builder.rows(), &block[..])?;
//! let names: Result<Vec<Option<String>>, Refusal> = reader.rows().map(|row| row.map(|value| value.text().map(String::from))).collect();
//! assert_eq!(names?, [Some("Zoë".into()), Some("Zoë".into()), None, Some("".into())]);
//!
//! // a block of other bytes isn't opened; as a blob it is
//! let damaged: Vec<u8> = block.iter().map(|byte| if *byte == 0xC3 { 0xFF } else { *byte }).collect();
//! assert_eq!(Reader::open(column, 4, &damaged[..]).unwrap_err(), Refusal::Text);
//! assert!(Reader::open(Column::new(Kind::Blob, Encoding::RunLengthNullable), 4, &damaged[..]).is_ok());
//! # Ok::<(), Refusal>(())
//! ```
//!
//! A block may be borrowed or owned: `&[u8]`, `Vec<u8>`, `Arc<[u8]>` and all else that is `AsRef<[u8]>`. Should it give other
//! bytes later on, the calls answer that as [`Refusal::Disagree`] or from the bytes that are there, never from elsewhere; these may then
//! be no text.
#![deny(unsafe_code)]
#![warn(missing_docs)]

#[allow(unsafe_code)]
pub mod calls;

mod batch;
mod builder;
mod column;
mod compare;
mod ranges;
mod reader;
mod refusal;
mod row;
mod salvage;
mod sheet;

pub use batch::{Batch, Row, Value};
pub use builder::Builder;
pub use column::{Column, Encoding, Kind};
pub use compare::compare;
pub use reader::{Reader, Rows};
pub use refusal::Refusal;
pub use row::row;
pub use salvage::{salvage, Salvaged};
pub use sheet::{write_sheet, Sheet};

//! Stands in for chrono: what date.rs and timestamp.rs name for parsing and printing. No block file parses or prints, so no
//! function here is ever called.
use std::fmt::{Display, Formatter};
use std::ops::{Add, Sub};

pub trait Datelike: Sized {
    fn year(&self) -> i32 {
        unreachable!()
    }
    fn month(&self) -> u32 {
        unreachable!()
    }
    fn day(&self) -> u32 {
        unreachable!()
    }
    fn num_days_from_ce(&self) -> i32 {
        unreachable!()
    }
    fn with_year(&self, _year: i32) -> Option<Self> {
        unreachable!()
    }
}

pub trait Timelike {
    fn hour(&self) -> u32 {
        unreachable!()
    }
    fn minute(&self) -> u32 {
        unreachable!()
    }
    fn second(&self) -> u32 {
        unreachable!()
    }
}

#[derive(Debug, Clone, Copy, PartialEq, Eq)]
pub struct ParseError;

#[derive(Debug, Clone, Copy)]
pub struct FixedOffset;

#[derive(Debug, Clone, Copy)]
pub struct NaiveDate;

#[derive(Debug, Clone, Copy)]
pub struct NaiveTime;

#[derive(Debug, Clone, Copy)]
pub struct NaiveDateTime;

#[derive(Debug, Clone, Copy)]
pub struct DateTime;

impl FixedOffset {
    pub fn east_opt(_seconds: i32) -> Option<Self> {
        unreachable!()
    }
}

impl NaiveDate {
    pub fn from_num_days_from_ce_opt(_days: i32) -> Option<Self> {
        unreachable!()
    }
    pub fn from_ymd_opt(_year: i32, _month: u32, _day: u32) -> Option<Self> {
        unreachable!()
    }
    pub fn parse_from_str(_text: &str, _format: &str) -> Result<Self, ParseError> {
        unreachable!()
    }
    pub fn format(&self, _format: &str) -> String {
        unreachable!()
    }
}

impl NaiveDateTime {
    pub fn new(_date: NaiveDate, _time: NaiveTime) -> Self {
        unreachable!()
    }
    pub fn parse_from_str(_text: &str, _format: &str) -> Result<Self, ParseError> {
        unreachable!()
    }
    pub fn date(&self) -> NaiveDate {
        unreachable!()
    }
    pub fn time(&self) -> NaiveTime {
        unreachable!()
    }
    pub fn and_utc(&self) -> DateTime {
        unreachable!()
    }
}

impl DateTime {
    pub fn from_timestamp_millis(_millis: i64) -> Option<Self> {
        unreachable!()
    }
    pub fn parse_from_str(_text: &str, _format: &str) -> Result<Self, ParseError> {
        unreachable!()
    }
    pub fn naive_utc(&self) -> NaiveDateTime {
        unreachable!()
    }
    pub fn timestamp_micros(&self) -> i64 {
        unreachable!()
    }
}

impl Datelike for NaiveDate {}
impl Datelike for NaiveDateTime {}
impl Timelike for NaiveDateTime {}

impl Add<FixedOffset> for NaiveDateTime {
    type Output = NaiveDateTime;

    fn add(self, _offset: FixedOffset) -> NaiveDateTime {
        unreachable!()
    }
}

impl Sub<FixedOffset> for NaiveDateTime {
    type Output = NaiveDateTime;

    fn sub(self, _offset: FixedOffset) -> NaiveDateTime {
        unreachable!()
    }
}

impl Display for NaiveDateTime {
    fn fmt(&self, _f: &mut Formatter<'_>) -> std::fmt::Result {
        unreachable!()
    }
}

impl Display for FixedOffset {
    fn fmt(&self, _f: &mut Formatter<'_>) -> std::fmt::Result {
        unreachable!()
    }
}

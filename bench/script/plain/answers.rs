//! Answers, gathered in one buffer that is written when it fills and before each read.

use std::fs::File;
use std::io::Write;

use crate::decimal;
use crate::hex;
use crate::record::Record;
use crate::stop::{Stop, Told, table};

/// More than any answer takes that isn't a list: a payload of 65,536 bytes and some words.
const ONE: usize = 131_072 + 128;
const SIZE: usize = 2 * ONE;

pub struct Answers {
    bytes: Vec<u8>,
    at: usize,
    sink: File,
}

impl Answers {
    pub fn new(sink: File) -> Result<Answers, Stop> {
        Ok(Answers { bytes: table(SIZE, 0)?, at: 0, sink })
    }

    pub fn flush(&mut self) -> Told {
        let told = self.sink.write_all(&self.bytes[..self.at]);
        self.at = 0;
        told.map_err(|_| Stop::Write)
    }

    /// Makes room for one answer.
    #[inline]
    pub fn room(&mut self) -> Told {
        if self.at > SIZE - ONE { self.flush() } else { Ok(()) }
    }

    // So many bytes are put, of which the front counts.
    #[inline]
    fn put<const N: usize>(&mut self, bytes: &[u8; N], count: usize) {
        self.bytes[self.at..self.at + N].copy_from_slice(bytes);
        self.at += count;
    }

    #[inline]
    pub fn text<const N: usize>(&mut self, text: &[u8; N]) {
        self.put(text, N);
    }

    /// A text whose length isn't known beforehand.
    pub fn bytes(&mut self, text: &[u8]) {
        self.bytes[self.at..self.at + text.len()].copy_from_slice(text);
        self.at += text.len();
    }

    #[inline]
    pub fn number(&mut self, number: u32) {
        let (digits, count) = decimal::digits(number);
        self.put(&digits, count);
    }

    #[inline]
    pub fn record(&mut self, record: Record) {
        self.put(&record.digits(), 24);
    }

    /// An answer that is a word and a number.
    #[inline]
    pub fn word<const N: usize>(&mut self, text: &[u8; N], number: impl Into<u32>) {
        self.text(text);
        self.number(number.into());
        self.text(b"\n");
    }

    #[inline]
    pub fn recorded<const N: usize>(&mut self, text: &[u8; N], record: Record) {
        self.text(text);
        self.record(record);
        self.text(b"\n");
    }

    #[inline]
    pub fn data(&mut self, version: u32, payload: &[u8]) {
        self.text(b"data ");
        self.number(version);
        self.text(b" ");
        hex::encode(payload, &mut self.bytes[self.at..self.at + 2 * payload.len()]);
        self.at += 2 * payload.len();
        self.text(b"\n");
    }

    /// A list may be longer than the buffer, so it is written as it comes.
    pub fn list<const N: usize>(&mut self, name: &[u8; N], count: usize, records: impl Iterator<Item = Record>) -> Told {
        self.text(name);
        self.number(count as u32);
        for record in records {
            self.text(b" ");
            self.record(record);
            self.room()?;
        }
        self.text(b"\n");
        Ok(())
    }
}

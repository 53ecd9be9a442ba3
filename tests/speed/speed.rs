//! Compares the product's readers of files with a plain Rust reader of the same formats, on the same input and in one run.
//!
//! Both read whole files of the greatest length: sheets of 4,480 bytes and stored rounds of 9,725 bytes. Both hold what
//! they read in fixed arrays, and both check that a stored round is lawful for ever. See `tests/speed/run`.

#![allow(dead_code)]

use std::hint::black_box;
use std::time::{Duration, Instant};

extern "C" {
    fn sheet_refusal(bytes: *const u8, length: usize) -> u8;
    fn round_refusal(bytes: *const u8, length: usize) -> u8;
}

fn proved_sheet(bytes: &[u8]) -> u8 {
    unsafe { sheet_refusal(bytes.as_ptr(), bytes.len()) }
}

fn proved_round(bytes: &[u8]) -> u8 {
    unsafe { round_refusal(bytes.as_ptr(), bytes.len()) }
}

const MOST_BYTES: usize = 65_536;
const MOST_BANKS: usize = 16;
const MOST_FEEDERS: usize = 256;
const MOST_DWELLS: usize = 4_096;
const PART: usize = 16;

/// A refusal: its number, line and column.
#[derive(Debug, PartialEq, Eq, Clone, Copy)]
struct Refusal(u8, u32, u32);

fn digit(byte: u8) -> Option<u32> {
    match byte {
        b'0'..=b'9' => Some(u32::from(byte - b'0')),
        b'A'..=b'F' => Some(u32::from(byte - b'A') + 10),
        _ => None,
    }
}

fn number(digits: &[u8]) -> u32 {
    digits.iter().fold(0, |n, &b| n * 16 + digit(b).unwrap_or(0))
}

/// The lines of a file, one after the other.
struct Lines<'a> {
    rest: &'a [u8],
    line: u32,
}

impl<'a> Lines<'a> {
    fn new(bytes: &'a [u8]) -> Result<Self, Refusal> {
        if bytes.len() > MOST_BYTES {
            return Err(Refusal(7, 1, 1));
        }
        Ok(Lines { rest: bytes, line: 0 })
    }

    /// The kind of the next frame, and the digits after it.
    fn next(&mut self) -> Result<(u32, &'a [u8]), Refusal> {
        self.line += 1;
        let line = self.line;
        let end = self.rest.iter().position(|&b| b == b'\n').ok_or(Refusal(7, line, 1))?;
        let text = &self.rest[..end];
        self.rest = &self.rest[end + 1..];
        if let Some(k) = text.iter().position(|&b| digit(b).is_none()) {
            return Err(Refusal(1, line, k as u32 + 1));
        }
        if text.len() < 2 {
            return Err(Refusal(2, line, 1));
        }
        let (kind, body) = (number(&text[..2]), &text[2..]);
        let length = match kind {
            0x01 => 6,
            0x02 | 0x04 => 4,
            0x03 => 14,
            0x10 | 0x11 => 10,
            0x12 => 12,
            0x13 if body.len() >= 2 => 2 + 2 * number(&body[..2]) as usize,
            0x1F => 18,
            _ => usize::MAX,
        };
        if body.len() != length {
            return Err(Refusal(2, line, 1));
        }
        Ok((kind, body))
    }

    fn due(&mut self, kind: u32) -> Result<&'a [u8], Refusal> {
        match self.next()? {
            (found, body) if found == kind => Ok(body),
            _ => Err(Refusal(3, self.line, 1)),
        }
    }

    /// The number in a field, which begins at this place after the kind.
    fn field(&self, body: &[u8], at: usize, width: usize, low: u32, high: u32) -> Result<u32, Refusal> {
        let n = number(&body[at..at + width]);
        if n < low || n > high {
            return Err(Refusal(4, self.line, at as u32 + 3));
        }
        Ok(n)
    }

    fn end(&self) -> Result<(), Refusal> {
        if self.rest.is_empty() { Ok(()) } else { Err(Refusal(7, self.line + 1, 1)) }
    }
}

#[derive(Clone, Copy, Default)]
struct Feeder {
    number: u16,
    bank: u8,
    reading: u16,
    swap: u16,
}

struct Sheet {
    count: u8,
    settle: u16,
    panels: [u8; MOST_BANKS],
    listed: usize,
    feeders: [Feeder; MOST_FEEDERS],
}

fn read_sheet(bytes: &[u8]) -> Result<Sheet, Refusal> {
    let mut lines = Lines::new(bytes)?;
    let body = lines.due(1)?;
    let count = lines.field(body, 0, 2, 2, MOST_BANKS as u32)? as u8;
    let settle = lines.field(body, 2, 4, 0, 1000)? as u16;
    let mut panels = [0; MOST_BANKS];
    for i in 0..count {
        let body = lines.due(2)?;
        lines.field(body, 0, 2, u32::from(i), u32::from(i))?;
        panels[usize::from(i)] = lines.field(body, 2, 2, 0, 3)? as u8;
    }
    let mut feeders = [Feeder::default(); MOST_FEEDERS];
    let mut listed = 0;
    loop {
        let (kind, body) = lines.next()?;
        if kind == 4 && listed > 0 {
            lines.field(body, 0, 4, listed as u32, listed as u32)?;
            break;
        }
        if kind != 3 || listed == MOST_FEEDERS {
            return Err(Refusal(3, lines.line, 1));
        }
        let number = number(&body[..4]) as u16;
        let bank = lines.field(body, 4, 2, 0, u32::from(count) - 1)? as u8;
        let reading = lines.field(body, 6, 4, 1, 1000)? as u16;
        let swap = lines.field(body, 10, 4, 2 * u32::from(reading) + 1, 65_535)? as u16;
        if feeders[..listed].iter().any(|f| f.number == number) {
            return Err(Refusal(5, lines.line, 3));
        }
        feeders[listed] = Feeder { number, bank, reading, swap };
        listed += 1;
    }
    if (0..count).any(|i| feeders[..listed].iter().all(|f| f.bank != i)) {
        return Err(Refusal(6, lines.line, 1));
    }
    lines.end()?;
    Ok(Sheet { count, settle, panels, listed, feeders })
}

#[derive(Clone, Copy, Default)]
struct Bank {
    panel: u8,
    dwell: u16,
    gap: u16,
}

struct Round {
    count: u8,
    settle: u16,
    banks: [Bank; MOST_BANKS],
    dwells: usize,
    list: [u8; MOST_DWELLS],
}

/// The ages of the banks, and the last panel.
#[derive(Clone, Copy, PartialEq, Eq)]
struct State {
    ages: [u16; MOST_BANKS],
    last: Option<u8>,
}

impl Round {
    /// The state after a dwell on bank j, where that is lawful.
    fn after(&self, s: &State, j: usize) -> Option<State> {
        let bank = self.banks[j];
        let settling = match s.last {
            Some(p) if p != bank.panel => u32::from(self.settle),
            _ => 0,
        };
        let mut ages = [0; MOST_BANKS];
        for i in 0..usize::from(self.count) {
            let wait = u32::from(s.ages[i]) + settling + if i == j { 0 } else { u32::from(bank.dwell) };
            if wait > u32::from(self.banks[i].gap) {
                return None;
            }
            ages[i] = if i == j { 0 } else { wait as u16 };
        }
        Some(State { ages, last: Some(bank.panel) })
    }

    fn covers(&self, a: &State, b: &State) -> bool {
        let fresher = (0..usize::from(self.count)).all(|i| a.ages[i] <= b.ages[i]);
        fresher && (a.last.is_none() || a.last == b.last)
    }

    /// Whether the endless repetition is lawful.
    fn kept(&self) -> bool {
        let mut first = State { ages: [0; MOST_BANKS], last: None };
        loop {
            let mut s = first;
            for &j in &self.list[..self.dwells] {
                match self.after(&s, usize::from(j)) {
                    Some(next) => s = next,
                    None => return false,
                }
            }
            if self.covers(&s, &first) {
                return true;
            }
            first = s;
        }
    }
}

fn read_round(bytes: &[u8]) -> Result<Round, Refusal> {
    let mut lines = Lines::new(bytes)?;
    let body = lines.due(0x11)?;
    let count = lines.field(body, 0, 2, 2, MOST_BANKS as u32)? as u8;
    let settle = lines.field(body, 2, 4, 0, 1000)? as u16;
    let dwells = lines.field(body, 6, 4, 1, MOST_DWELLS as u32)? as usize;
    let mut banks = [Bank::default(); MOST_BANKS];
    for i in 0..count {
        let body = lines.due(0x12)?;
        lines.field(body, 0, 2, u32::from(i), u32::from(i))?;
        banks[usize::from(i)] = Bank {
            panel: lines.field(body, 2, 2, 0, 3)? as u8,
            dwell: lines.field(body, 4, 4, 1, 1000)? as u16,
            gap: lines.field(body, 8, 4, 1, 65_533)? as u16,
        };
    }
    let mut list = [0; MOST_DWELLS];
    for part in list[..dwells].chunks_mut(PART) {
        let body = lines.due(0x13)?;
        let size = part.len() as u32;
        lines.field(body, 0, 2, size, size)?;
        for (k, place) in part.iter_mut().enumerate() {
            *place = lines.field(body, 2 + 2 * k, 2, 0, u32::from(count) - 1)? as u8;
        }
    }
    let round = Round { count, settle, banks, dwells, list };
    if !round.kept() {
        return Err(Refusal(11, lines.line, 1));
    }
    lines.end()?;
    Ok(round)
}

/// Numbers from a fixed seed.
struct Seed(u64);

impl Seed {
    fn below(&mut self, n: u32) -> u32 {
        self.0 ^= self.0 << 13;
        self.0 ^= self.0 >> 7;
        self.0 ^= self.0 << 17;
        ((self.0 >> 16) as u32) % n
    }
}

/// A good sheet with 16 banks and 256 feeders.
fn longest_sheet(seed: &mut Seed) -> Vec<u8> {
    let mut text = format!("0110{:04X}\n", seed.below(1001));
    for i in 0..MOST_BANKS {
        text += &format!("02{i:02X}{:02X}\n", seed.below(4));
    }
    let first = seed.below(65_000);
    for k in 0..MOST_FEEDERS as u32 {
        let reading = 1 + seed.below(1000);
        let least = 2 * reading + 1;
        let swap = least + seed.below(65_536 - least);
        text += &format!("03{:04X}{:02X}{reading:04X}{swap:04X}\n", first + (k * 37) % 256, k % 16);
    }
    (text + "040100\n").into_bytes()
}

/// A good stored round with 16 banks and 4,096 dwells: every sixteen dwells go through all banks.
fn longest_round(seed: &mut Seed) -> Vec<u8> {
    let mut text = format!("1110{:04X}1000\n", seed.below(1001));
    for i in 0..MOST_BANKS {
        text += &format!("12{i:02X}{:02X}{:04X}{:04X}\n", seed.below(4), 1 + seed.below(1000), 65_533);
    }
    for _ in 0..MOST_DWELLS / PART {
        let mut banks: Vec<usize> = (0..MOST_BANKS).collect();
        for k in (1..MOST_BANKS).rev() {
            banks.swap(k, seed.below(k as u32 + 1) as usize);
        }
        text += "1310";
        for b in banks {
            text += &format!("{b:02X}");
        }
        text += "\n";
    }
    text.into_bytes()
}

/// Megabytes a second over all files, the best of several runs.
fn speed(files: &[Vec<u8>], read: impl Fn(&[u8]) -> u8) -> f64 {
    let bytes: usize = files.iter().map(Vec::len).sum();
    let mut best = Duration::MAX;
    for _ in 0..7 {
        let began = Instant::now();
        for file in files {
            assert_eq!(black_box(read(black_box(file))), 0);
        }
        best = best.min(began.elapsed());
    }
    bytes as f64 / 1e6 / best.as_secs_f64()
}

/// Both readers give the same number to each file, good and damaged.
fn agree(files: &[Vec<u8>], seed: &mut Seed, proved: impl Fn(&[u8]) -> u8, plain: impl Fn(&[u8]) -> u8) {
    for file in files.iter().take(200) {
        assert_eq!(proved(file), plain(file));
        for _ in 0..20 {
            let mut damaged = file.clone();
            let at = seed.below(damaged.len() as u32) as usize;
            damaged[at] = b"0123456789ABCDEFx\n"[seed.below(18) as usize];
            assert_eq!(proved(&damaged), plain(&damaged));
        }
    }
}

fn number_of<T>(read: Result<T, Refusal>) -> u8 {
    match black_box(read) {
        Ok(_) => 0,
        Err(Refusal(number, ..)) => number,
    }
}

fn report(name: &str, files: &[Vec<u8>], proved: impl Fn(&[u8]) -> u8, plain: impl Fn(&[u8]) -> u8) {
    let (a, b) = (speed(files, &proved), speed(files, &plain));
    println!("{name}: {} files of {} bytes; proved {a:.1} MB/s, plain {b:.1} MB/s, ratio {:.2}", files.len(), files[0].len(), a / b);
}

fn main() {
    let mut seed = Seed(0x9E37_79B9_7F4A_7C15);
    let sheets: Vec<_> = (0..2000).map(|_| longest_sheet(&mut seed)).collect();
    let rounds: Vec<_> = (0..500).map(|_| longest_round(&mut seed)).collect();
    let plain_sheet = |bytes: &[u8]| number_of(read_sheet(bytes));
    let plain_round = |bytes: &[u8]| number_of(read_round(bytes));
    agree(&sheets, &mut seed, proved_sheet, plain_sheet);
    agree(&rounds, &mut seed, proved_round, plain_round);
    report("sheets", &sheets, proved_sheet, plain_sheet);
    report("stored rounds", &rounds, proved_round, plain_round);
}

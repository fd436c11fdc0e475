//! The driver reads a script on standard input and prints what `replay` prints for it.
//!
//! With the argument `tables` it also prints all tables after each line. With the argument `floor` it reads, parses and
//! prints as always but applies no rule, so that only the cost of the text is left.
//!
//! The same text is built twice, once beside the ordered copy and once beside the untouched source.
mod core;

// The source expects these names at the root of its crate.
pub use crate::core::types::{DeadlockInfo, LockId, ThreadId};
pub const BANNER: &str = "";

use crate::core::detector::thread as detector;
use detector::{Event, Outcome, Report};
use std::fs::File;
use std::io::{Read, Write};
use std::os::fd::AsFd;

// These limits are the port's: how many threads, locks and condvars there are, how many pairs a queue holds, and how
// often a thread may read a lock.
const THREADS: usize = 32;
const LOCKS: usize = 64;
const CONDVARS: usize = 16;
const QUEUE: usize = 32;
const READS: usize = 255;
/// A line has at most this many bytes before its line feed.
const LINE: usize = 40;
/// Lines after the one of this number are not read.
const LINES: usize = 1_000_000;
/// The output is written when it has grown to this many bytes, and the input is read in chunks of as many.
const PIECE: usize = 1 << 16;

/// Answers are printed, answers and tables are, or answers for which no rule was applied.
#[derive(Clone, Copy, PartialEq)]
enum Mode {
    Replay,
    Tables,
    Floor,
}

fn main() {
    let mode = match std::env::args().nth(1).as_deref() {
        None => Mode::Replay,
        Some("tables") => Mode::Tables,
        Some("floor") => Mode::Floor,
        Some(word) => {
            eprintln!("driver: no such word: {word}");
            std::process::exit(2);
        }
    };
    let mut input = open(std::io::stdin().as_fd());
    let mut session = Session {
        mode,
        lines: 0,
        reports: Vec::new(),
        out: Vec::with_capacity(2 * PIECE),
        to: open(std::io::stdout().as_fd()),
    };

    let mut chunk = vec![0u8; PIECE];
    // The carry: the first bytes of a line that is not whole yet. One byte more than a line may have shows that it is
    // too long.
    let mut carry: Vec<u8> = Vec::with_capacity(LINE + 1);
    'reading: loop {
        let got = input.read(&mut chunk).expect("standard input");
        if got == 0 {
            break;
        }
        let mut rest = &chunk[..got];
        while let Some(end) = rest.iter().position(|&b| b == b'\n') {
            if carry.is_empty() {
                session.line(&rest[..end]);
            } else {
                carry_on(&mut carry, &rest[..end]);
                session.line(&carry);
                carry.clear();
            }
            rest = &rest[end + 1..];
            if session.lines == LINES {
                break 'reading;
            }
        }
        carry_on(&mut carry, rest);
    }
    if !carry.is_empty() && session.lines < LINES {
        session.line(&carry);
    }
    session.end();
}

/// Returns a standard stream as a plain file, without the library's buffer and lock.
fn open(stream: std::os::fd::BorrowedFd) -> File {
    File::from(stream.try_clone_to_owned().expect("a standard stream"))
}

/// Adds a part to the carry, but no more of it than shows that the line is too long.
fn carry_on(carry: &mut Vec<u8>, part: &[u8]) {
    let room = LINE + 1 - carry.len();
    carry.extend_from_slice(&part[..part.len().min(room)]);
}

/// A script's run: its mode, the lines read, the reports of the last line, and the output that is not written yet.
struct Session {
    mode: Mode,
    lines: usize,
    reports: Vec<Report>,
    out: Vec<u8>,
    to: File,
}

impl Session {
    /// Puts the answer to a line, given without its line feed, and the tables after it if they are asked for.
    fn line(&mut self, line: &[u8]) {
        self.lines += 1;
        self.reports.clear();
        let answer = self.answer(line);
        put_number(&mut self.out, self.lines);
        match answer {
            Ok(()) => {
                self.out.extend_from_slice(b"\tok\t");
                put_number(&mut self.out, self.reports.len());
            }
            Err(refusal) => {
                self.out.extend_from_slice(b"\tno\t");
                put_number(&mut self.out, refusal);
            }
        }
        self.out.push(b'\n');
        for report in &self.reports {
            self.out.extend_from_slice(b"cycle");
            for &(t, l) in report {
                self.out.push(b'\t');
                put_number(&mut self.out, t);
                self.out.push(b':');
                put_number(&mut self.out, l);
            }
            self.out.push(b'\n');
        }
        if self.mode == Mode::Tables {
            detector::put_tables(&mut self.out);
        }
        if self.out.len() >= PIECE {
            self.flush();
        }
    }

    /// Serves the event of a line and keeps its reports, or returns the first refusal by number.
    fn answer(&mut self, line: &[u8]) -> Result<(), usize> {
        let event = read_line(line).ok_or(1usize)?;
        check_numbers(event)?;
        if self.mode == Mode::Floor {
            return Ok(());
        }
        check_room(event)?;
        detector::serve(event, &mut self.reports);
        Ok(())
    }

    /// Puts the `end` line with the totals and writes all that is left.
    fn end(&mut self) {
        let edges = if self.mode == Mode::Floor { 0 } else { detector::edges_stored() };
        let stuck = if self.mode == Mode::Floor { 0 } else { stuck_threads(detector::true_waits()) };
        self.out.extend_from_slice(b"end\t");
        put_number(&mut self.out, self.lines);
        self.out.push(b'\t');
        put_number(&mut self.out, edges);
        self.out.push(b'\t');
        put_number(&mut self.out, stuck);
        self.out.push(b'\n');
        self.flush();
    }

    /// Writes the output so far.
    fn flush(&mut self) {
        // The reader may have gone away because its comparison is over. That is no failure.
        if self.to.write_all(&self.out).is_err() {
            std::process::exit(0);
        }
        self.out.clear();
    }
}

/// Puts a number in decimal.
pub fn put_number(out: &mut Vec<u8>, n: usize) {
    let mut digits = [0u8; 20];
    let mut at = digits.len();
    let mut n = n;
    loop {
        at -= 1;
        digits[at] = b'0' + (n % 10) as u8;
        n /= 10;
        if n == 0 {
            break;
        }
    }
    out.extend_from_slice(&digits[at..]);
}

/// Returns how many threads are stuck, that is, from how many a way of true waits leads back to the thread.
fn stuck_threads(rows: [u32; THREADS]) -> usize {
    (0..THREADS)
        .filter(|&t| {
            let mut seen = 0u32;
            let mut next = rows[t];
            while next & !seen != 0 {
                let b = (next & !seen).trailing_zeros() as usize;
                seen |= 1 << b;
                next |= rows[b];
            }
            seen >> t & 1 == 1
        })
        .count()
}

// Reading a line.

/// Returns the event of a line, or nothing if the line does not read.
fn read_line(line: &[u8]) -> Option<Event> {
    if line.len() > LINE {
        return None;
    }
    let mut fields = line.split(|&b| b == b'\t');
    let word = fields.next()?;
    let event = match word {
        b"ma" => Event::Ma(number(&mut fields)?, number(&mut fields)?, outcome(&mut fields)?),
        b"mc" => Event::Mc(number(&mut fields)?, number(&mut fields)?),
        b"mr" => Event::Mr(number(&mut fields)?, number(&mut fields)?),
        b"md" => Event::Md(number(&mut fields)?),
        b"ra" => Event::Ra(number(&mut fields)?, number(&mut fields)?, outcome(&mut fields)?),
        b"rc" => Event::Rc(number(&mut fields)?, number(&mut fields)?),
        b"rt" => Event::Rt(number(&mut fields)?, number(&mut fields)?, plain(&mut fields)?),
        b"rr" => Event::Rr(number(&mut fields)?, number(&mut fields)?),
        b"wa" => Event::Wa(number(&mut fields)?, number(&mut fields)?, outcome(&mut fields)?),
        b"wc" => Event::Wc(number(&mut fields)?, number(&mut fields)?),
        b"wr" => Event::Wr(number(&mut fields)?, number(&mut fields)?),
        b"rd" => Event::Rd(number(&mut fields)?),
        b"cn" => Event::Cn(number(&mut fields)?),
        b"cd" => Event::Cd(number(&mut fields)?),
        b"cb" => Event::Cb(number(&mut fields)?, number(&mut fields)?, number(&mut fields)?),
        b"c1" => Event::C1(number(&mut fields)?),
        b"ca" => Event::Ca(number(&mut fields)?),
        b"ce" => Event::Ce(number(&mut fields)?, number(&mut fields)?, number(&mut fields)?),
        _ => return None,
    };
    // A line with a field too many does not read.
    match fields.next() {
        Some(_) => None,
        None => Some(event),
    }
}

/// Returns the number that the next field spells, or nothing if it spells none.
fn number<'a>(fields: &mut impl Iterator<Item = &'a [u8]>) -> Option<usize> {
    digits(fields.next()?)
}

/// Returns the number of one to three digits that a field spells, or nothing. Only 0 itself may start with 0.
fn digits(field: &[u8]) -> Option<usize> {
    let fits = matches!(field.len(), 1..=3);
    let zero_leads = field.len() > 1 && field[0] == b'0';
    if !fits || zero_leads || !field.iter().all(u8::is_ascii_digit) {
        return None;
    }
    Some(field.iter().fold(0, |n, &b| 10 * n + (b - b'0') as usize))
}

/// Returns the outcome that the next field spells, or nothing if it spells none.
fn outcome<'a>(fields: &mut impl Iterator<Item = &'a [u8]>) -> Option<Outcome> {
    match fields.next()? {
        b"took" => Some(Outcome::Took),
        b"-" => Some(Outcome::Blocked),
        field => Some(Outcome::Hint(digits(field)?)),
    }
}

/// Returns the outcome of `rt`, or nothing for a hint, which `rt` does not take.
fn plain<'a>(fields: &mut impl Iterator<Item = &'a [u8]>) -> Option<Outcome> {
    match outcome(fields)? {
        Outcome::Hint(_) => None,
        known => Some(known),
    }
}

// The refusals.

/// Refuses a thread or hint, a lock or a condvar that is out of range (3, 4, 5). The kind of number decides, not its
/// place in the line.
fn check_numbers(event: Event) -> Result<(), usize> {
    let hint = |o: Outcome| if let Outcome::Hint(h) = o { h } else { 0 };
    let (thread, lock, condvar) = match event {
        Event::Ma(t, l, o) | Event::Ra(t, l, o) | Event::Wa(t, l, o) | Event::Rt(t, l, o) => {
            (t.max(hint(o)), l, 0)
        }
        Event::Mc(t, l) | Event::Mr(t, l) | Event::Rc(t, l) => (t, l, 0),
        Event::Rr(t, l) | Event::Wc(t, l) | Event::Wr(t, l) => (t, l, 0),
        Event::Md(l) | Event::Rd(l) => (0, l, 0),
        Event::Cn(c) | Event::Cd(c) | Event::C1(c) | Event::Ca(c) => (0, 0, c),
        Event::Cb(t, c, l) | Event::Ce(t, c, l) => (t, l, c),
    };
    if thread >= THREADS {
        return Err(3);
    }
    if lock >= LOCKS {
        return Err(4);
    }
    if condvar >= CONDVARS {
        return Err(5);
    }
    Ok(())
}

/// Refuses an event for which a queue (7) or a reader count (8) is full.
fn check_room(event: Event) -> Result<(), usize> {
    match event {
        Event::Cb(_, c, _) if detector::queue_length(c) >= QUEUE => Err(7),
        Event::Rc(t, l) | Event::Ra(t, l, Outcome::Took) | Event::Rt(t, l, Outcome::Took)
            if detector::read_count(l, t) >= READS =>
        {
            Err(8)
        }
        _ => Ok(()),
    }
}

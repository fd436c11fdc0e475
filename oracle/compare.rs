//! This module runs programs on a script, compares what they print, and cuts a script down.
use std::fs::File;
use std::io::{Read, Write};
use std::path::{Path, PathBuf};
use std::process::{Command, Stdio};

/// A program and its arguments, as they are given on the command line: `path argument argument`.
#[derive(Clone)]
pub struct Program {
    words: Vec<String>,
}

impl Program {
    /// Returns the program that a text names, with its arguments after blanks.
    pub fn new(text: &str) -> Program {
        let words: Vec<String> = text.split_whitespace().map(str::to_string).collect();
        if words.is_empty() {
            eprintln!("beside: an empty program name");
            std::process::exit(2);
        }
        Program { words }
    }

    /// Returns the program of this path, with at most one argument.
    pub fn with(path: &Path, word: Option<&str>) -> Program {
        let mut words = vec![path.to_string_lossy().into_owned()];
        words.extend(word.map(str::to_string));
        Program { words }
    }

    /// Returns the last part of its path, for headings.
    pub fn name(&self) -> String {
        let path = Path::new(&self.words[0]);
        path.file_name().unwrap_or_default().to_string_lossy().into_owned()
    }

    /// Returns the command that starts it.
    pub fn command(&self) -> Command {
        let mut command = Command::new(&self.words[0]);
        command.args(&self.words[1..]);
        command
    }

    /// Ends `beside` with an error if the program does not start. Otherwise a wrong path would pass for a difference.
    pub fn check(&self) {
        let started = self.command().stdin(Stdio::null()).stdout(Stdio::null()).status();
        if let Err(e) = started {
            eprintln!("beside: {}: {e}", self.words[0]);
            std::process::exit(2);
        }
    }
}

/// How a script reaches a program: as a file, or through a pipe in odd pieces.
#[derive(Clone, Copy, PartialEq)]
pub enum Feed {
    File,
    Pieces,
}

/// The file of the one script that is being run.
pub struct Desk {
    path: PathBuf,
}

impl Desk {
    pub fn new(folder: &Path) -> Desk {
        std::fs::create_dir_all(folder).expect("a folder for scripts");
        Desk { path: folder.join(format!("{}.script", std::process::id())) }
    }

    /// Removes the script's file. An exit by `std::process::exit` needs this, since it drops nothing.
    pub fn clear(&self) {
        let _ = std::fs::remove_file(&self.path);
    }

    /// Writes the script to its file.
    pub fn put(&self, script: &[u8]) {
        std::fs::write(&self.path, script).expect("the script's file");
    }

    /// Returns what a program prints for the script in the file, with a last line added if the program fails.
    pub fn run(&self, program: &Program, script: &[u8], feed: Feed) -> Vec<u8> {
        let mut command = program.command();
        command.stdout(Stdio::piped()).stderr(Stdio::null());
        match feed {
            Feed::File => command.stdin(File::open(&self.path).expect("the script's file")),
            Feed::Pieces => command.stdin(Stdio::piped()),
        };
        let mut child = command.spawn().expect("a program that starts");
        let writer = child.stdin.take().map(|mut to| {
            let script = script.to_vec();
            std::thread::spawn(move || {
                let mut rest = &script[..];
                let mut size = 1;
                while !rest.is_empty() {
                    size = (size * 7 + 13) % 9973 + 1;
                    let n = size.min(rest.len());
                    // A program that has read enough closes its end of the pipe.
                    if to.write_all(&rest[..n]).is_err() {
                        break;
                    }
                    rest = &rest[n..];
                }
            })
        });
        let mut out = Vec::new();
        child.stdout.take().unwrap().read_to_end(&mut out).expect("a program's output");
        let status = child.wait().expect("a program that ends");
        if let Some(w) = writer {
            w.join().unwrap();
        }
        if !status.success() {
            out.extend_from_slice(format!("failed: {status}\n").as_bytes());
        }
        out
    }
}

impl Drop for Desk {
    fn drop(&mut self) {
        self.clear();
    }
}

/// Returns what `replay` prints, taken out of what `tables` prints.
pub fn answers_only(tables: &[u8]) -> Vec<u8> {
    let mut out = Vec::new();
    for line in tables.split_inclusive(|&b| b == b'\n') {
        if !line.starts_with(b"table\t") {
            out.extend_from_slice(line);
        }
    }
    out
}

/// The first lines that differ, and the number of the script's line that they answer, or none for the `end` line.
pub struct Difference {
    pub script_line: Option<usize>,
    pub left: Vec<u8>,
    pub right: Vec<u8>,
}

/// Returns the first difference between two outputs, or nothing if they are equal.
pub fn difference(left: &[u8], right: &[u8]) -> Option<Difference> {
    if left == right {
        return None;
    }
    let mut a = left.split_inclusive(|&b| b == b'\n');
    let mut b = right.split_inclusive(|&b| b == b'\n');
    let mut script_line = None;
    loop {
        let (x, y) = (a.next().unwrap_or(b""), b.next().unwrap_or(b""));
        // A reply line begins with the line's number. The `cycle` and `table` lines after it belong to it.
        let digits: Vec<u8> = x.iter().copied().take_while(u8::is_ascii_digit).collect();
        if !digits.is_empty() {
            script_line = std::str::from_utf8(&digits).unwrap().parse().ok();
        }
        if x != y {
            let at_end = x.starts_with(b"end") && y.starts_with(b"end");
            return Some(Difference {
                script_line: if at_end { None } else { script_line },
                left: x.to_vec(),
                right: y.to_vec(),
            });
        }
    }
}

/// Returns the lines of a script, each with its line feed.
pub fn split(script: &[u8]) -> Vec<Vec<u8>> {
    script.split_inclusive(|&b| b == b'\n').map(<[u8]>::to_vec).collect()
}

/// Returns the script of these lines.
pub fn join(lines: &[Vec<u8>]) -> Vec<u8> {
    lines.concat()
}

/// Returns a shorter list of lines that still differs. Ever fewer neighbouring lines are left out at a time, down to
/// single lines, and at last pairs of lines, until nothing more can go.
pub fn cut(lines: Vec<Vec<u8>>, differs: &mut dyn FnMut(&[Vec<u8>]) -> bool) -> Vec<Vec<u8>> {
    let mut kept = lines;
    let mut run = kept.len() / 2;
    while run >= 1 {
        let mut at = 0;
        let mut went = false;
        while at < kept.len() {
            let mut fewer = kept.clone();
            fewer.drain(at..(at + run).min(kept.len()));
            if differs(&fewer) {
                kept = fewer;
                went = true;
            } else {
                at += run;
            }
        }
        if !(went && run == 1) {
            run /= 2;
        }
    }
    // Two lines that only make sense together, such as a lock taken and given back, are left out together.
    if kept.len() <= 24 {
        'again: loop {
            for i in 0..kept.len() {
                for j in i + 1..kept.len() {
                    let mut fewer = kept.clone();
                    fewer.remove(j);
                    fewer.remove(i);
                    if differs(&fewer) {
                        kept = fewer;
                        continue 'again;
                    }
                }
            }
            break;
        }
    }
    kept
}

/// Returns how far a script may be compared with the untouched source: the number of lines after each of which each
/// thread waits for one owner at most and each lock has one waiter at most. `tables` is what the ordered copy prints. A `ca` on two pairs
/// or more ends it too, since the states between its pairs are not printed.
pub fn single_lines(script: &[Vec<u8>], tables: &[u8]) -> usize {
    let mut state = State::default();
    let mut blocks = 0;
    for line in tables.split(|&b| b == b'\n') {
        let first = line.first().copied().unwrap_or(b' ');
        if first.is_ascii_digit() || line.starts_with(b"end") {
            // The tables that were printed before this line are all there.
            if blocks > 0 && !state.single() {
                return blocks - 1;
            }
            let wakes_many = script.get(blocks).is_some_and(|l| l.starts_with(b"ca\t"))
                && state.longest_queue() > 1;
            if line.starts_with(b"end") || wakes_many {
                return blocks;
            }
            blocks += 1;
            state = State::default();
        } else if line.starts_with(b"table\t") {
            state.take(line);
        }
    }
    blocks
}

/// What is read off the tables after one line, item by item.
#[derive(Default)]
struct State {
    queue: Vec<usize>,
    waiters: Vec<usize>,
    readers: Vec<usize>,
    writers: Vec<(usize, usize)>,
    reader_pairs: Vec<(usize, usize)>,
    write_waits: Vec<usize>,
}

impl State {
    /// Takes in the items of one `table` line.
    fn take(&mut self, line: &[u8]) {
        let text = String::from_utf8_lossy(line);
        let mut fields = text.split('\t').skip(1);
        let name = fields.next().unwrap_or("");
        for item in fields {
            let parts: Vec<&str> = item.split(':').collect();
            let n = |i: usize| parts[i].parse::<usize>().unwrap();
            match name {
                "cv_waiters" => self.queue.push(n(0)),
                "lock_waiters" => self.waiters.push(n(0)),
                "rwlock_readers" => {
                    self.readers.push(n(0));
                    self.reader_pairs.push((n(0), n(1)));
                }
                "rwlock_writer" => self.writers.push((n(0), n(1))),
                "thread_waits_for" if parts[1] == "RwWrite" => self.write_waits.push(n(2)),
                _ => {}
            }
        }
    }

    /// Returns the length of the longest queue.
    fn longest_queue(&self) -> usize {
        (0..16).map(|c| self.queue.iter().filter(|&&q| q == c).count()).max().unwrap_or(0)
    }

    /// Returns true if each thread waits for one owner at most and each lock has one waiter at most.
    fn single(&self) -> bool {
        let two_waiters = self.waiters.windows(2).any(|w| w[0] == w[1]);
        let two_owners = self.write_waits.iter().any(|&l| {
            let readers = self.readers.iter().filter(|&&r| r == l).count();
            let writer = self.writers.iter().any(|&(m, t)| m == l && !self.reader_pairs.contains(&(l, t)));
            readers + writer as usize > 1
        });
        !two_waiters && !two_owners
    }
}

//! The program beside makes scripts, runs programs side by side on them, and cuts down a script on which they differ.
//!
//!   beside run [--seed N] [--lines M] [--under PROGRAM] [--replay PROGRAM]
//!              [--kinds A,B] [--without A,B] [--ordered PROGRAM] [--untouched PROGRAM] [--brief]
//!   beside make KIND SEED SIZE          a script of that kind
//!   beside load NAME SEED LINES         a script of the benchmark
//!   beside sample FOLDER [--joined]     the fixed list
//!   beside measure RUNS FILE PROGRAM..  CPU microseconds and peak KB of each, interleaved
//!   beside slowest-event PROGRAM..      the slowest event that is found
//!   beside kinds                        the kinds of scripts, and what each aims at
//!
//! A PROGRAM is a path, with arguments after blanks if it needs any.
mod clock;
mod slowest;
mod compare;
mod scripts;

use compare::{Desk, Difference, Feed, Program};
use std::collections::BTreeMap;
use std::io::Write;
use std::path::{Path, PathBuf};
use std::time::Instant;

fn main() {
    let words: Vec<String> = std::env::args().skip(1).collect();
    match words.first().map(String::as_str) {
        Some("run") => run(&words[1..]),
        Some("make") if words.len() == 4 => {
            print(&scripts::make(&words[1], number(&words[2]), number(&words[3]) as usize))
        }
        Some("load") if words.len() == 4 => {
            print(&scripts::load(&words[1], number(&words[2]), number(&words[3]) as usize))
        }
        Some("sample") if words.len() >= 2 => {
            sample(Path::new(&words[1]), words.get(2).is_some_and(|w| w == "--joined"))
        }
        Some("measure") if words.len() >= 4 => measure(&words[1..]),
        Some("slowest-event") if words.len() >= 2 => slowest::search(&words[1..], &bin()),
        Some("kinds") => {
            for (kind, about) in scripts::KINDS {
                println!("{kind}\t{about}");
            }
        }
        _ => usage(),
    }
}

/// Ends the program with the names of its commands.
fn usage() -> ! {
    eprintln!("beside: run, make, load, sample, measure, slowest-event or kinds; see README.md");
    std::process::exit(2);
}

/// Returns the number that an argument spells, which may have `_` in it.
fn number(text: &str) -> u64 {
    text.replace('_', "").parse().unwrap_or_else(|_| usage())
}

/// Writes bytes to standard output. A reader that has gone away is no failure.
fn print(bytes: &[u8]) {
    let _ = std::io::stdout().write_all(bytes);
}

/// Returns the folder of this program, which has the oracle's other programs too.
fn bin() -> PathBuf {
    let me = std::env::current_exe().expect("the path of this program");
    me.parent().unwrap().to_path_buf()
}

// Runs side by side.

/// Two outputs that are compared.
#[derive(Clone, Copy, PartialEq)]
enum Pair {
    /// All answers and tables of the program under test, and those of the ordered copy.
    Tables,
    /// All answers of the program replay, and those of the ordered copy.
    Replay,
    /// All answers and tables of the ordered copy, and those of the untouched source.
    Untouched,
    /// All answers of the program replay, and those of the untouched source.
    ReplayUntouched,
}

/// The programs that are compared, and the file of the script that they run.
struct Runner {
    desk: Desk,
    ordered: Program,
    untouched: Program,
    under: Option<Program>,
    replay: Option<Program>,
}

/// What is counted of the scripts of one kind.
#[derive(Default)]
struct Tally {
    scripts: usize,
    lines: usize,
    reports: usize,
    refused: usize,
}

/// Reads the arguments of `beside run` and runs all comparisons.
fn run(words: &[String]) {
    let mut seed = 1;
    let mut lines = 200_000;
    let mut brief = false;
    let mut kinds: Vec<&str> = scripts::KINDS.iter().map(|k| k.0).collect();
    kinds.push("million");
    let (mut under, mut replay) = (None, None);
    let mut ordered = Program::with(&bin().join("ordered"), Some("tables"));
    let mut untouched = Program::with(&bin().join("untouched"), Some("tables"));
    let mut at = 0;
    while at < words.len() {
        let word = words[at].as_str();
        if word == "--brief" {
            brief = true;
            at += 1;
            continue;
        }
        let value = words.get(at + 1).unwrap_or_else(|| usage()).as_str();
        match word {
            "--seed" => seed = number(value),
            "--lines" => lines = number(value) as usize,
            "--under" => under = Some(Program::new(value)),
            "--replay" => replay = Some(Program::new(value)),
            "--ordered" => ordered = Program::new(value),
            "--untouched" => untouched = Program::new(value),
            "--kinds" => {
                let named: Vec<&str> = value.split(',').collect();
                if let Some(unknown) = named.iter().find(|n| !kinds.contains(n)) {
                    eprintln!("beside: no such kind: {unknown}");
                    std::process::exit(2);
                }
                kinds.retain(|k| named.contains(k));
            }
            "--without" => kinds.retain(|k| !value.split(',').any(|n| n == *k)),
            _ => usage(),
        }
        at += 2;
    }
    for program in [Some(&ordered), Some(&untouched), under.as_ref(), replay.as_ref()] {
        program.inspect(|p| p.check());
    }
    let r = Runner { desk: Desk::new(&bin().join("../tmp")), ordered, untouched, under, replay };
    r.run_all(seed, lines, &kinds, brief);
}

impl Runner {
    /// Runs the fixed sessions, scripts of each kind until there are enough lines, and the script of a million lines.
    /// Ends the program at the first difference, and otherwise prints what was compared.
    fn run_all(&self, seed: u64, wanted: usize, kinds: &[&str], brief: bool) {
        let begun = Instant::now();
        let mut tallies: BTreeMap<&str, Tally> = BTreeMap::new();
        let mut total = 0;
        let mut beside_untouched = 0;

        let mut one = |kind: &'static str, name: &str, script: Vec<u8>| {
            let feed = if kind == "long" { Feed::Pieces } else { Feed::File };
            let tally = tallies.entry(kind).or_default();
            let failed = self.check(kind, &script, feed, tally, &mut beside_untouched);
            total = tallies.values().map(|t| t.lines).sum();
            if let Some((pair, _)) = failed {
                self.tell(kind, name, pair, script, feed, brief, total);
                self.desk.clear();
                std::process::exit(1);
            }
            total
        };

        if kinds.contains(&"sessions") {
            for (name, text, says) in scripts::SESSIONS {
                self.check_session(name, text, says);
                one("sessions", name, scripts::session(text));
            }
        }
        let makers: Vec<&'static str> =
            scripts::KINDS.iter().map(|k| k.0).filter(|k| *k != "sessions" && kinds.contains(k)).collect();
        let mut round = 0u64;
        while !makers.is_empty() && total_so_far(&mut one, &makers, seed, round) < wanted {
            round += 1;
        }
        if kinds.contains(&"million") {
            one("million", "a line more than are read", million());
        }

        if brief {
            println!("equal\t{total}");
            return;
        }
        println!("{:<12} {:>8} {:>10} {:>9} {:>9}", "kind", "scripts", "lines", "reports", "refused");
        for (kind, _) in scripts::KINDS.iter().chain(&[("million", "")]) {
            if let Some(t) = tallies.get(kind) {
                println!("{kind:<12} {:>8} {:>10} {:>9} {:>9}", t.scripts, t.lines, t.reports, t.refused);
            }
        }
        let mut compared = Vec::new();
        if self.under.is_some() {
            compared.push("every answer and all tables equal the ordered copy's".to_string());
        }
        if self.replay.is_some() {
            compared.push("every answer of replay equals the ordered copy's".to_string());
        }
        if beside_untouched > 0 {
            compared.push(format!("{beside_untouched} lines beside the untouched source: every answer and all tables equal"));
        }
        println!(
            "beside: seed {seed}, {total} lines: {} ({:.1} s)",
            compared.join("; "),
            begun.elapsed().as_secs_f64()
        );
    }

    /// Holds the ordered copy to what is expected of a session, and ends the program if it prints something else.
    fn check_session(&self, name: &str, text: &str, says: &str) {
        let script = scripts::session(text);
        self.desk.put(&script);
        let out = compare::answers_only(&self.desk.run(&self.ordered, &script, Feed::File));
        let shown: Vec<String> = compare::split(&out).iter().map(|l| show(l)).filter(|l| !l.contains(" ok ")).collect();
        if shown.join(",") != says {
            println!("DIFFERENT: the ordered copy and the sessions worked by hand, session {name}: {text}");
            println!("    by hand:      {says}");
            println!("    ordered copy: {}", shown.join(","));
            self.desk.clear();
            std::process::exit(1);
        }
    }

    /// Makes all comparisons on one script and returns the first that fails.
    fn check(&self, kind: &str, script: &[u8], feed: Feed, tally: &mut Tally, beside: &mut usize) -> Option<(Pair, Difference)> {
        self.desk.put(script);
        let expected = self.desk.run(&self.ordered, script, feed);
        tally.scripts += 1;
        for line in expected.split(|&b| b == b'\n') {
            match line.first() {
                Some(b'0'..=b'9') => {
                    tally.lines += 1;
                    tally.refused += line.windows(4).any(|w| w == b"\tno\t") as usize;
                }
                Some(b'c') => tally.reports += 1,
                _ => {}
            }
        }
        if let Some(under) = &self.under {
            let got = self.desk.run(under, script, feed);
            if let Some(d) = compare::difference(&expected, &got) {
                return Some((Pair::Tables, d));
            }
        }
        if let Some(replay) = &self.replay {
            let got = self.desk.run(replay, script, feed);
            if let Some(d) = compare::difference(&compare::answers_only(&expected), &got) {
                return Some((Pair::Replay, d));
            }
        }
        if scripts::is_single(kind) {
            let lines = compare::split(script);
            let n = compare::single_lines(&lines, &expected);
            *beside += n;
            let part = compare::join(&lines[..n]);
            for pair in [Pair::Untouched, Pair::ReplayUntouched] {
                if let Some(d) = self.compare(pair, &part, feed) {
                    return Some((pair, d));
                }
            }
        }
        None
    }

    /// Makes one comparison on one script and returns the difference, if there is one.
    fn compare(&self, pair: Pair, script: &[u8], feed: Feed) -> Option<Difference> {
        self.desk.put(script);
        let (left, right) = self.outputs(pair, script, feed)?;
        compare::difference(&left, &right)
    }

    /// Returns the two outputs of a comparison, or nothing if one of the programs was not given.
    fn outputs(&self, pair: Pair, script: &[u8], feed: Feed) -> Option<(Vec<u8>, Vec<u8>)> {
        let run = |p: &Program| self.desk.run(p, script, feed);
        Some(match pair {
            Pair::Tables => (run(&self.ordered), run(self.under.as_ref()?)),
            Pair::Replay => (compare::answers_only(&run(&self.ordered)), run(self.replay.as_ref()?)),
            Pair::Untouched => (run(&self.untouched), run(&self.ordered)),
            Pair::ReplayUntouched => (compare::answers_only(&run(&self.untouched)), run(self.replay.as_ref()?)),
        })
    }

    /// Returns a short script on which the two outputs differ, if there is one among a few hundred.
    fn find_short(&self, pair: Pair) -> Option<Vec<u8>> {
        let kinds = scripts::KINDS.iter().map(|k| k.0).filter(|k| !["sessions", "long", "limits"].contains(k));
        let kinds: Vec<&str> = kinds.collect();
        (0..40u64)
            .flat_map(|seed| kinds.iter().map(move |kind| scripts::make(kind, seed, 14)))
            .find(|script| self.compare(pair, script, Feed::File).is_some())
    }

    /// Cuts the script down and prints where the two outputs begin to differ.
    fn tell(&self, kind: &str, name: &str, pair: Pair, script: Vec<u8>, feed: Feed, brief: bool, total: usize) {
        let mut lines = compare::split(&script);
        let untouched = matches!(pair, Pair::Untouched | Pair::ReplayUntouched);
        let mut differs = |lines: &[Vec<u8>]| {
            let script = compare::join(lines);
            if untouched {
                // Only scripts that stay within the kind may be compared with hash maps.
                self.desk.put(&script);
                let tables = self.desk.run(&self.ordered, &script, feed);
                if compare::single_lines(lines, &tables) < lines.len() {
                    return false;
                }
            }
            self.compare(pair, &script, feed).is_some()
        };
        // A million lines are not cut down, since their number is what is tested.
        if kind != "million" {
            if untouched {
                self.desk.put(&script);
                let tables = self.desk.run(&self.ordered, &script, feed);
                lines.truncate(compare::single_lines(&lines, &tables));
            }
            let first = self.compare(pair, &compare::join(&lines), feed);
            if let Some(n) = first.and_then(|d| d.script_line) {
                let shorter = &lines[..n.min(lines.len())];
                if differs(shorter) {
                    lines = shorter.to_vec();
                }
            }
            lines = compare::cut(lines, &mut differs);
            // A row of 30 threads cannot be cut down to one of two, so another script may show the difference in fewer
            // lines.
            if !untouched && lines.len() > LONG {
                if let Some(other) = self.find_short(pair) {
                    let other = compare::cut(compare::split(&other), &mut differs);
                    if other.len() < lines.len() {
                        lines = other;
                    }
                }
            }
        }
        let short = compare::join(&lines);
        self.desk.put(&short);
        let (left, right) = self.outputs(pair, &short, feed).expect("both programs");
        let d = compare::difference(&left, &right).expect("a difference");

        if brief {
            let mut shown = runs_of(&lines.iter().take(400).map(|l| show(l)).collect::<Vec<_>>());
            if shown.len() > 16 || lines.len() > 400 {
                shown.truncate(4);
                shown.push(format!(".. ({} lines in all)", lines.len()));
            }
            println!("noticed\t{kind}\t{total}\t{}", shown.join(", "));
            return;
        }
        let (l, r) = match pair {
            Pair::Tables => ("ordered copy", "under test"),
            Pair::Replay => ("ordered copy", "replay"),
            Pair::Untouched => ("untouched source", "ordered copy"),
            Pair::ReplayUntouched => ("untouched source", "replay"),
        };
        println!("DIFFERENT: {l} and {r}, on a script of kind {kind} ({name}), after {total} lines in all");
        println!("The shortest script found that still differs ({} lines; blanks stand for tabs):", lines.len());
        for line in runs_of(&lines.iter().take(400).map(|l| show(l)).collect::<Vec<_>>()) {
            println!("    {line}");
        }
        match d.script_line {
            Some(n) => println!("They part at line {n}:"),
            None => println!("They part at the end line:"),
        }
        println!("    {l}: {}", show(&d.left));
        println!("    {r}: {}", show(&d.right));
        let folder = bin().join("../differs");
        std::fs::create_dir_all(&folder).expect("a folder for scripts that differ");
        std::fs::write(folder.join("last.script"), &short).expect("the script's file");
        println!("The script stands in target/oracle/differs/last.script");
    }
}

/// If a script that was cut down has more lines than this, a shorter one is looked for.
const LONG: usize = 12;

/// Runs one script of each kind and returns the number of lines so far.
fn total_so_far(one: &mut impl FnMut(&'static str, &str, Vec<u8>) -> usize, kinds: &[&'static str], seed: u64, round: u64) -> usize {
    let mut total = 0;
    for (i, kind) in kinds.iter().enumerate() {
        // A long text has as many lines as several others, so it comes in every fourth round only.
        if *kind == "long" && kinds.len() > 1 && round % 4 != 3 {
            continue;
        }
        let own = scripts::Rng::new(seed.wrapping_mul(1_000_003) ^ (round << 20) ^ i as u64).next();
        let mut rng = scripts::Rng::new(own ^ 0x5a5a);
        // Short scripts come first and most often, because a difference is easier to see in them.
        let size = match rng.below(10) {
            _ if round < 20 => rng.between(4, 12 + 4 * round as usize),
            0..=3 => rng.between(6, 30),
            4..=7 => rng.between(31, 200),
            _ => rng.between(201, 2000),
        };
        total = one(kind, &format!("seed {own}, size {size}"), scripts::make(kind, own, size));
    }
    total
}

/// Returns a script of more lines than are read. Only the last lines before the limit and those after it could change
/// a table.
fn million() -> Vec<u8> {
    let mut text = b"cn\t0\n".repeat(999_998);
    text.extend_from_slice(b"ma\t1\t5\ttook\nbroken\nma\t2\t6\ttook\nma\t3\t5\t-\n");
    text
}

/// Returns a line with blanks for tabs, and with bytes that would not show spelt out.
fn show(line: &[u8]) -> String {
    let (body, ended) = match line.strip_suffix(b"\n") {
        Some(body) => (body, true),
        None => (line, false),
    };
    let mut text = String::new();
    for &b in body.iter().take(60) {
        match b {
            b'\t' => text.push(' '),
            b'!'..=b'~' => text.push(b as char),
            _ => text.push_str(&format!("\\x{b:02x}")),
        }
    }
    if body.len() > 60 {
        text.push_str(&format!(".. ({} bytes)", body.len()));
    }
    if text.is_empty() {
        text.push_str("(empty)");
    }
    if !ended {
        text.push_str(" (no line feed)");
    }
    text
}

/// Returns the lines with neighbouring equal ones as one line and their number.
fn runs_of(lines: &[String]) -> Vec<String> {
    let mut out: Vec<(String, usize)> = Vec::new();
    for line in lines {
        match out.last_mut() {
            Some((last, n)) if last == line => *n += 1,
            _ => out.push((line.clone(), 1)),
        }
    }
    out.into_iter().map(|(l, n)| if n == 1 { l } else { format!("{l} ({n} times)") }).collect()
}

// The fixed list.

/// Returns the sizes of the list's scripts of one kind, and how many bytes script and output may have together. The
/// kind `limits` has larger ones because a full count takes 256 lines.
fn sizes(kind: &str) -> &'static [(usize, usize)] {
    match kind {
        "limits" => &[(40, 9_000), (200, 30_000)],
        "long" => &[(30, 24_000)],
        _ => &[(16, 4_000), (40, 12_000)],
    }
}

/// Returns the scripts of the fixed list with their names: the sessions worked by hand, those for wrong readings, and
/// of each kind and size the one of the first hundred seeds that shows most and has not too many bytes.
fn chosen(run: &dyn Fn(&[u8]) -> Vec<u8>) -> Vec<(String, Vec<u8>)> {
    let mut all: Vec<(String, Vec<u8>)> = Vec::new();
    for (name, text, _) in scripts::SESSIONS {
        all.push((format!("sessions-{}", name.replace([' ', ','], "-")), scripts::session(text)));
    }
    for (name, text) in scripts::READINGS {
        all.push((format!("reading-{name}"), scripts::session(text)));
    }
    for (kind, _) in scripts::KINDS.iter().filter(|k| k.0 != "sessions") {
        for (i, &(size, bytes)) in sizes(kind).iter().enumerate() {
            let made = (0..100u64).map(|seed| scripts::make(kind, seed, size)).map(|script| (run(&script), script));
            let fits = made.filter(|(out, script)| out.len() + script.len() <= bytes);
            let best = fits.min_by_key(|(out, _)| std::cmp::Reverse(says(out)));
            let (_, script) = best.unwrap_or_else(|| panic!("{kind}: no script of {bytes} bytes"));
            all.push((format!("{kind}-{}", i + 1), script));
        }
    }
    all
}

/// Returns how much an output shows: its reports, and three for each of the different refusals.
fn says(out: &[u8]) -> usize {
    let lines: Vec<&[u8]> = out.split(|&b| b == b'\n').collect();
    let reports = lines.iter().filter(|l| l.starts_with(b"cycle")).count();
    let refusals = (b'1'..=b'8').filter(|&n| lines.iter().any(|l| l.ends_with(&[b'\t', b'n', b'o', b'\t', n]))).count();
    reports + 3 * refusals
}

/// Writes the scripts of the fixed list with what the ordered copy prints for them. If they are joined, they stand in
/// one script, with lines between them that lead back to the empty state.
fn sample(folder: &Path, joined: bool) {
    std::fs::create_dir_all(folder).expect("the sample's folder");
    let desk = Desk::new(&bin().join("../tmp"));
    let ordered = Program::with(&bin().join("ordered"), Some("tables"));
    let run = |script: &[u8]| {
        desk.put(script);
        desk.run(&ordered, script, Feed::File)
    };

    let all = chosen(&run);
    let mut lines = 0;
    if joined {
        let mut script = Vec::new();
        for (_, part) in &all {
            script.extend_from_slice(part);
            if !script.ends_with(b"\n") {
                script.push(b'\n');
            }
            let out = run(&script);
            script.extend_from_slice(&back_to_empty(&out));
            assert!(last_tables(&run(&script)).is_empty(), "the way back to the empty state");
        }
        lines = compare::split(&script).len();
        std::fs::write(folder.join("joined.script"), &script).expect("a file of the sample");
        std::fs::write(folder.join("joined.tables"), run(&script)).expect("a file of the sample");
    } else {
        for (i, (name, script)) in all.iter().enumerate() {
            let stem = format!("{:02}-{name}", i + 1);
            lines += compare::split(script).len();
            std::fs::write(folder.join(format!("{stem}.script")), script).expect("a file of the sample");
            std::fs::write(folder.join(format!("{stem}.tables")), run(script)).expect("a file of the sample");
        }
    }
    println!("sample: {} scripts, {lines} lines", all.len());
}

/// Returns the `table` lines after the last answer.
fn last_tables(out: &[u8]) -> Vec<String> {
    let text = String::from_utf8_lossy(out);
    let mut tables = Vec::new();
    for line in text.lines() {
        if line.starts_with(|c: char| c.is_ascii_digit()) {
            tables.clear();
        } else if line.starts_with("table\t") {
            tables.push(line.to_string());
        }
    }
    tables
}

/// Returns lines that lead from the state at the end of an output back to the empty one: `ce` clears what a thread
/// awaits and its marks, `cd` clears a queue, and `md` and `rd` clear all that is known of a lock.
fn back_to_empty(out: &[u8]) -> Vec<u8> {
    let (mut threads, mut locks, mut condvars) = (BTreeMap::new(), BTreeMap::new(), BTreeMap::new());
    for table in last_tables(out) {
        let mut fields = table.split('\t').skip(1);
        let name = fields.next().unwrap_or("");
        for item in fields {
            let parts: Vec<&str> = item.split([':', '>', '<']).collect();
            match name {
                "cv_waiters" => drop(condvars.insert(parts[0].to_string(), ())),
                "cv_woken" | "thread_wait_cv" | "thread_waits_for" | "edges" => {
                    threads.insert(parts[0].to_string(), ());
                }
                "lock_waiters" | "mutex_owners" | "rwlock_readers" | "rwlock_writer" => {
                    locks.insert(parts[0].to_string(), ());
                }
                "thread_holds" => drop(locks.insert(parts[1].to_string(), ())),
                _ => {}
            }
        }
    }
    let mut lines = String::new();
    for c in condvars.keys() {
        lines += &format!("cd\t{c}\n");
    }
    for t in threads.keys() {
        lines += &format!("ce\t{t}\t0\t0\n");
    }
    for l in locks.keys() {
        lines += &format!("md\t{l}\nrd\t{l}\n");
    }
    lines.into_bytes()
}

// Measuring.

/// Prints the least CPU time and the peak memory of each program. The programs take turns, so that a slow moment of the
/// machine affects all of them.
fn measure(words: &[String]) {
    let runs = number(&words[0]) as usize;
    let script = Path::new(&words[1]);
    let programs: Vec<Program> = words[2..].iter().map(|w| Program::new(w)).collect();
    let mut least: Vec<u64> = programs.iter().map(|p| clock::time(p, script)).collect();
    for _ in 1..runs {
        for (program, best) in programs.iter().zip(&mut least) {
            *best = clock::time(program, script).min(*best);
        }
    }
    for (program, micros) in programs.iter().zip(least) {
        println!("{micros}\t{}", clock::peak(program, script));
    }
}

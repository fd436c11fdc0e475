//! This module looks for the slowest event. It makes states in which events are slow, repeats an event in each, and
//! goes on from the slowest of them by small changes.
//!
//! The cost of an event is the CPU time of a script in which it is repeated, less that of the same script with `cn` in
//! its place, divided by the number of repetitions.
use crate::clock;
use crate::compare::Program;
use crate::scripts::Rng;
use std::path::{Path, PathBuf};

/// This many changes of the slowest state are tried.
const CHANGES: usize = 60;

/// A state and an event that is repeated in it.
#[derive(Clone)]
struct Case {
    name: String,
    /// These lines make the state.
    setup: Vec<String>,
    /// These lines stand before each repetition and lead back to the state.
    before: Vec<String>,
    event: String,
    /// This line stands in the event's place, to measure what all the rest costs.
    cheap: String,
}

impl Case {
    /// Returns the script that makes the state and then repeats an event in it.
    fn script(&self, times: usize, event: &str) -> Vec<u8> {
        let mut text = String::new();
        let mut add = |line: &str| {
            text.push_str(&line.replace(' ', "\t"));
            text.push('\n');
        };
        for line in &self.setup {
            add(line);
        }
        for _ in 0..times {
            for line in &self.before {
                add(line);
            }
            add(event);
        }
        text.into_bytes()
    }

    /// Returns the microseconds for one event. The number of repetitions grows until the difference is large enough.
    fn cost(&self, program: &Program, file: &Path) -> f64 {
        let most = 900_000 / (self.before.len() + 1);
        let mut times = 16;
        loop {
            std::fs::write(file, self.script(times, &self.cheap)).expect("a script's file");
            let without = clock::least(program, file, 2) as f64;
            std::fs::write(file, self.script(times, &self.event)).expect("a script's file");
            let with = clock::least(program, file, 2) as f64;
            if with - without > 20_000.0 || times * 4 > most {
                return (with - without).max(0.0) / times as f64;
            }
            times *= 4;
        }
    }
}

/// Prints the cost of each case for each program, and leaves the script with the slowest event for the first program.
pub fn search(programs: &[String], bin: &Path) {
    let folder = bin.join("../slowest");
    std::fs::create_dir_all(&folder).expect("a folder for slow scripts");
    let file = folder.join(format!("{}.script", std::process::id()));
    let programs: Vec<Program> = programs.iter().map(|p| Program::new(p)).collect();

    let mut best: Option<(f64, Case)> = None;
    let heads: Vec<String> = programs.iter().map(|p| format!("{}, us an event", p.name())).collect();
    println!("| state and event | {} |", heads.join(" | "));
    println!("|---|{}|", vec!["---"; programs.len()].join("|"));
    for case in cases() {
        let costs: Vec<f64> = programs.iter().map(|p| case.cost(p, &file)).collect();
        print_row(&case.name, &costs);
        if best.as_ref().is_none_or(|b| costs[0] > b.0) {
            best = Some((costs[0], case));
        }
    }

    // From the slowest case on, a change of the state is kept if it makes the event slower.
    let (mut top, mut case) = best.expect("a case");
    let mut rng = Rng::new(11);
    let mut kept = 0;
    for _ in 0..CHANGES {
        let mut changed = case.clone();
        change(&mut changed.setup, &mut rng);
        let cost = changed.cost(&programs[0], &file);
        // The cost is measured twice, since one measurement may be off.
        if cost > top * 1.02 && changed.cost(&programs[0], &file) > top * 1.02 {
            top = cost;
            case = changed;
            kept += 1;
        }
    }
    let costs: Vec<f64> = programs.iter().map(|p| case.cost(p, &file)).collect();
    print_row(&format!("the same after {CHANGES} tried changes, {kept} kept"), &costs);
    let _ = std::fs::remove_file(&file);

    let place: PathBuf = folder.join("slowest.script");
    std::fs::write(&place, case.script(1, &case.event)).expect("a script's file");
    println!();
    println!("The slowest event found: `{}`, {:.0} us, at the end of target/oracle/slowest/slowest.script ({} lines)",
        case.event, costs[0], case.setup.len() + case.before.len() + 1);
}

/// Prints one row of the table of costs.
fn print_row(name: &str, costs: &[f64]) {
    let cells: Vec<String> = costs.iter().map(|c| format!("{c:.1}")).collect();
    println!("| {name} | {} |", cells.join(" | "));
}

/// Makes one to three small changes: a line goes, two lines change places, or a line is added.
fn change(setup: &mut Vec<String>, rng: &mut Rng) {
    for _ in 0..rng.between(1, 3) {
        let at = rng.below(setup.len());
        match rng.below(4) {
            0 => {
                setup.remove(at);
            }
            1 => {
                let other = rng.below(setup.len());
                setup.swap(at, other);
            }
            _ => {
                let (t, u, l) = (rng.below(32), rng.below(32), rng.below(4));
                let line = match rng.below(6) {
                    0 => format!("rc {t} {l}"),
                    1 => format!("wa {t} {l} -"),
                    2 => format!("ma {t} {l} {u}"),
                    3 => format!("ra {t} {l} {u}"),
                    4 => format!("rr {t} {l}"),
                    _ => format!("mc {t} {l}"),
                };
                setup.insert(at, line);
            }
        }
    }
}

/// Returns the lines of a state in which `readers` threads read lock 0 and `waiters` threads wait to write it, both
/// counted down from 31. With all of them every refresh of lock 0 tries some thousand edges over a full graph.
fn crowd(readers: usize, waiters: usize, stale: bool) -> Vec<String> {
    let mut setup = Vec::new();
    for t in (0..readers).map(|i| 31 - i) {
        setup.push(format!("rc {t} 0"));
    }
    // Thread 1 awaits lock 3, which is gone, so its edge to thread 0 stays stale. Every path through this edge is
    // found, is not true, and leads to the refreshes.
    if stale {
        setup.extend(["wa 1 3 0".to_string(), "rd 3".to_string()]);
    }
    for t in (0..waiters).map(|i| 31 - i) {
        setup.push(format!("wa {t} 0 -"));
    }
    setup
}

/// Returns the cases to measure.
fn cases() -> Vec<Case> {
    let mut cases = Vec::new();
    let mut add = |name: &str, setup: Vec<String>, before: Vec<String>, event: &str, cheap: &str| {
        cases.push(Case {
            name: format!("{name}: `{event}`"),
            setup,
            before,
            event: event.to_string(),
            cheap: cheap.to_string(),
        });
    };

    add("empty state", vec![], vec![], "mr 0 0", "cn 0");
    add("a row of 31 waits", (1..32).map(|t| format!("ma {t} {t} {}", t - 1)).collect(), vec![], "ma 0 0 31", "cn 0");
    for (readers, waiters) in [(8, 8), (16, 16), (31, 15), (15, 31), (31, 31)] {
        let name = format!("{readers} readers, {waiters} writers waiting");
        add(&name, crowd(readers, waiters, false), vec![], "mc 0 0", "cn 0");
    }
    add("31 readers, 31 writers waiting", crowd(31, 31, false), vec![], "rt 0 0 -", "cn 0");
    add("31 readers, 31 writers waiting", crowd(31, 31, false), vec![], "wa 31 0 -", "cn 0");
    add("31 readers, 31 writers waiting", crowd(31, 31, false), vec![], "rr 0 0", "cn 0");
    add("31 readers, 31 writers waiting", crowd(31, 31, false), vec![], "mr 0 0", "cn 0");

    // Here a path is not true: thread 0 tries what thread 31 has, and thread 31 awaits lock 0 like all the others.
    for (readers, waiters) in [(31, 16), (31, 24), (31, 30)] {
        let name = format!("{readers} readers, {waiters} writers waiting, a stale edge");
        let setup = crowd(readers, waiters, true);
        add(&name, setup.clone(), vec![], "ma 0 1 31", "cn 0");
        let fill = vec!["cb 0 0 1".to_string(); 32];
        let setup = [setup, vec!["mc 31 1".to_string(), "wa 31 0 -".to_string()]].concat();
        add(&name, setup, fill, "ca 0", "cn 0");
    }

    // For `md` each repetition makes its waiters anew, so the whole unit is slow, not the event alone.
    let waits: Vec<String> = (0..31).map(|t| format!("ma {t} 2 31")).collect();
    add("31 threads await it", vec![], waits, "md 2", "cn 0");
    cases
}

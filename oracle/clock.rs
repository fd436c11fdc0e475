//! This module measures the CPU time and the peak memory of one run of a program, as the system counts them (Linux, 64
//! bits).
use crate::compare::Program;
use std::fs::File;
use std::path::Path;
use std::process::{Child, Stdio};
use std::time::Duration;

/// The system's account of a process that has ended. All its fields are longs.
#[repr(C)]
#[derive(Default)]
struct Usage {
    user: [i64; 2],
    system: [i64; 2],
    rest: [i64; 14],
}

unsafe extern "C" {
    fn wait4(pid: i32, status: *mut i32, options: i32, usage: *mut Usage) -> i32;
}

/// Starts a program with the script as its standard input, and throws its output away.
fn start(program: &Program, script: &Path) -> Child {
    let mut command = program.command();
    command.stdin(File::open(script).expect("the script's file"));
    command.stdout(Stdio::null());
    command.spawn().expect("a program that starts")
}

/// Returns the user and system time of one run, in microseconds.
pub fn time(program: &Program, script: &Path) -> u64 {
    let child = start(program, script);
    let mut status = 0;
    let mut usage = Usage::default();
    // The child is waited for here and nowhere else, so the account is that of this child.
    let got = unsafe { wait4(child.id() as i32, &mut status, 0, &mut usage) };
    assert!(got > 0, "wait4");
    if status != 0 {
        eprintln!("beside: a program failed with wait status {status}");
        std::process::exit(2);
    }
    let micros = |t: [i64; 2]| t[0] as u64 * 1_000_000 + t[1] as u64;
    micros(usage.user) + micros(usage.system)
}

/// Returns the least time of several runs.
pub fn least(program: &Program, script: &Path, runs: usize) -> u64 {
    (0..runs).map(|_| time(program, script)).min().expect("a run")
}

/// Returns the peak memory of one run, in KB. The account of wait4 would also count this program's own memory from
/// before the start, so the high-water mark is read while the program runs. It only ever grows.
pub fn peak(program: &Program, script: &Path) -> u64 {
    let mut child = start(program, script);
    let place = format!("/proc/{}/status", child.id());
    let mut peak = 0;
    while child.try_wait().expect("a program that ends").is_none() {
        let status = std::fs::read_to_string(&place).unwrap_or_default();
        let mark = status.lines().find_map(|l| l.strip_prefix("VmHWM:"));
        if let Some(kb) = mark.and_then(|m| m.split_whitespace().next()) {
            peak = peak.max(kb.parse().unwrap_or(0));
        }
        std::thread::sleep(Duration::from_micros(500));
    }
    peak
}

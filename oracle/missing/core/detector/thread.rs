//! This module stands in the place of the missing thread module. As a child of `detector` it sees the private tables,
//! so the driver does everything through it: it sends an event to the source, and it reads the tables.
use super::{GLOBAL_DETECTOR, WaitMode, mutex, rwlock};
use crate::core::types::{DeadlockInfo, LockId, ThreadId};
use crate::put_number;

/// How a try came out: taken, blocked, or blocked with a hint.
#[derive(Clone, Copy)]
pub enum Outcome {
    Took,
    Blocked,
    Hint(ThreadId),
}

impl Outcome {
    /// Returns what the source's closure for the try returns: something if the lock was taken.
    fn taken(self) -> Option<()> {
        matches!(self, Outcome::Took).then_some(())
    }
    /// Returns what the source's closure for the hint returns.
    fn hint(self) -> Option<ThreadId> {
        if let Outcome::Hint(t) = self { Some(t) } else { None }
    }
}

/// One event, with its numbers in the order of the script.
#[derive(Clone, Copy)]
pub enum Event {
    Ma(usize, usize, Outcome),
    Mc(usize, usize),
    Mr(usize, usize),
    Md(usize),
    Ra(usize, usize, Outcome),
    Rc(usize, usize),
    Rt(usize, usize, Outcome),
    Rr(usize, usize),
    Wa(usize, usize, Outcome),
    Wc(usize, usize),
    Wr(usize, usize),
    Rd(usize),
    Cn(usize),
    Cd(usize),
    Cb(usize, usize, usize),
    C1(usize),
    Ca(usize),
    Ce(usize, usize, usize),
}

/// The entries of one report, each a thread and its lock, in cycle order.
pub type Report = Vec<(ThreadId, LockId)>;

/// Sends one event to the source and adds the reports that it gives. If the source has a free function that does more
/// than call the method (for the attempts), that function is called. If the function sends the report to the callback,
/// the method is called.
pub fn serve(event: Event, reports: &mut Vec<Report>) {
    // The notifier's number is only logged.
    let nobody = 0;
    let one: Option<DeadlockInfo> = match event {
        Event::Ma(t, l, o) => {
            mutex::acquire_slow_with_recheck(t, l, || o.taken(), || o.hint()).1
        }
        Event::Mc(t, l) => GLOBAL_DETECTOR.lock().complete_acquire(t, l),
        Event::Mr(t, l) => {
            mutex::release_mutex(t, l);
            None
        }
        Event::Md(l) => {
            mutex::destroy_mutex(l);
            None
        }
        Event::Ra(t, l, o) => {
            rwlock::acquire_read_slow_with_recheck(t, l, || o.taken(), || o.hint()).1
        }
        Event::Rc(t, l) => {
            rwlock::complete_read(t, l);
            None
        }
        Event::Rt(t, l, o) => {
            rwlock::try_read(t, l, || o.taken());
            None
        }
        Event::Rr(t, l) => {
            rwlock::release_read(t, l);
            None
        }
        Event::Wa(t, l, o) => {
            rwlock::acquire_write_slow_with_recheck(t, l, || o.taken(), || o.hint()).1
        }
        Event::Wc(t, l) => GLOBAL_DETECTOR.lock().complete_write(t, l),
        Event::Wr(t, l) => {
            rwlock::release_write(t, l);
            None
        }
        Event::Rd(l) => {
            rwlock::destroy_rwlock(l);
            None
        }
        Event::Cn(c) => {
            GLOBAL_DETECTOR.lock().create_condvar(c);
            None
        }
        Event::Cd(c) => {
            GLOBAL_DETECTOR.lock().destroy_condvar(c);
            None
        }
        Event::Cb(t, c, l) => {
            GLOBAL_DETECTOR.lock().begin_wait(t, c, l);
            None
        }
        Event::C1(c) => {
            let infos = GLOBAL_DETECTOR.lock().notify_one(c, nobody);
            reports.extend(infos.into_iter().map(|i| i.thread_waiting_for_locks));
            None
        }
        Event::Ca(c) => {
            let infos = GLOBAL_DETECTOR.lock().notify_all(c, nobody);
            reports.extend(infos.into_iter().map(|i| i.thread_waiting_for_locks));
            None
        }
        Event::Ce(t, c, l) => {
            GLOBAL_DETECTOR.lock().end_wait(t, c, l);
            None
        }
    };
    if let Some(info) = one {
        reports.push(info.thread_waiting_for_locks);
    }
}

/// Returns how many pairs stand in the queue of a condvar.
pub fn queue_length(c: usize) -> usize {
    GLOBAL_DETECTOR.lock().cv_waiters.get(&c).map_or(0, |q| q.len())
}

/// Returns how many reads of a lock a thread has.
pub fn read_count(l: LockId, t: ThreadId) -> usize {
    let d = GLOBAL_DETECTOR.lock();
    d.rwlock_readers.get(&l).and_then(|r| r.get(&t)).copied().unwrap_or(0)
}

/// Returns how many edges are stored now.
pub fn edges_stored() -> usize {
    GLOBAL_DETECTOR.lock().wait_for_graph.edges.values().map(|s| s.len()).sum()
}

/// Returns the rows of true waits: bit b of row a is set if b is among the owners that block the intent of a.
pub fn true_waits() -> [u32; 32] {
    let d = GLOBAL_DETECTOR.lock();
    let mut rows = [0u32; 32];
    for (&t, &intent) in &d.thread_waits_for {
        for owner in d.incompatible_owners(t, intent) {
            rows[t] |= 1 << owner;
        }
    }
    rows
}

/// Puts one line for each table that is not empty, in the order of their names. An item is kept as four numbers and
/// sorted here, so that hash maps and ordered maps give the same text.
pub fn put_tables(out: &mut Vec<u8>) {
    let d = GLOBAL_DETECTOR.lock();
    let g = &d.wait_for_graph;

    // The order of a queue counts, so the place in the queue comes after the condvar.
    let mut items = Vec::new();
    for (&c, queue) in &d.cv_waiters {
        items.extend(queue.iter().enumerate().map(|(i, &(t, l))| [c, i, t, l]));
    }
    put_table(out, "cv_waiters", items, |out, [c, _, t, l]| put_parts(out, &[c, t, l], b':'));

    let items = d.cv_woken.iter().map(|&t| [t, 0, 0, 0]).collect();
    put_table(out, "cv_woken", items, |out, [t, ..]| put_number(out, t));

    let mut items = Vec::new();
    for (&a, to) in &g.edges {
        items.extend(to.iter().map(|&b| [a, b, 0, 0]));
    }
    put_table(out, "edges", items, |out, [a, b, ..]| put_parts(out, &[a, b], b'>'));

    let mut items = Vec::new();
    for (&b, from) in &g.incoming_edges {
        items.extend(from.iter().map(|&a| [b, a, 0, 0]));
    }
    put_table(out, "incoming_edges", items, |out, [b, a, ..]| put_parts(out, &[b, a], b'<'));

    let mut items = Vec::new();
    for (&l, threads) in &d.lock_waiters {
        items.extend(threads.iter().map(|&t| [l, t, 0, 0]));
    }
    put_table(out, "lock_waiters", items, |out, [l, t, ..]| put_parts(out, &[l, t], b':'));

    let items = d.mutex_owners.iter().map(|(&l, &t)| [l, t, 0, 0]).collect();
    put_table(out, "mutex_owners", items, |out, [l, t, ..]| put_parts(out, &[l, t], b':'));

    let mut items = Vec::new();
    for (&l, threads) in &d.rwlock_readers {
        items.extend(threads.iter().map(|(&t, &n)| [l, t, n, 0]));
    }
    put_table(out, "rwlock_readers", items, |out, [l, t, n, _]| put_parts(out, &[l, t, n], b':'));

    let items = d.rwlock_writer.iter().map(|(&l, &t)| [l, t, 0, 0]).collect();
    put_table(out, "rwlock_writer", items, |out, [l, t, ..]| put_parts(out, &[l, t], b':'));

    let mut items = Vec::new();
    for (&t, locks) in &d.thread_holds {
        items.extend(locks.iter().map(|&l| [t, l, 0, 0]));
    }
    put_table(out, "thread_holds", items, |out, [t, l, ..]| put_parts(out, &[t, l], b':'));

    let items = d.thread_wait_cv.iter().map(|(&t, &(c, l))| [t, c, l, 0]).collect();
    put_table(out, "thread_wait_cv", items, |out, [t, c, l, _]| put_parts(out, &[t, c, l], b':'));

    let items = d.thread_waits_for.iter().map(|(&t, i)| [t, i.mode as usize, i.lock_id, 0]).collect();
    put_table(out, "thread_waits_for", items, |out, [t, mode, l, _]| {
        put_number(out, t);
        out.extend_from_slice(match mode {
            m if m == WaitMode::Mutex as usize => b":Mutex:",
            m if m == WaitMode::RwRead as usize => b":RwRead:",
            _ => b":RwWrite:",
        });
        put_number(out, l);
    });
}

/// The numbers of one item; those that it does not use are 0.
type Item = [usize; 4];

/// Puts the line of a table with its items in order, or nothing if there are none.
fn put_table(out: &mut Vec<u8>, name: &str, mut items: Vec<Item>, put: fn(&mut Vec<u8>, Item)) {
    if items.is_empty() {
        return;
    }
    items.sort_unstable();
    out.extend_from_slice(b"table\t");
    out.extend_from_slice(name.as_bytes());
    for item in items {
        out.push(b'\t');
        put(out, item);
    }
    out.push(b'\n');
}

/// Puts numbers with a sign between them.
fn put_parts(out: &mut Vec<u8>, parts: &[usize], between: u8) {
    for (i, &part) in parts.iter().enumerate() {
        if i > 0 {
            out.push(between);
        }
        put_number(out, part);
    }
}

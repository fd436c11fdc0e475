//! This module makes scripts from seeds. A kind is a name for one way of making them. The same kind, seed and size
//! always give the same bytes.

/// A small seeded generator of numbers (splitmix64).
pub struct Rng(u64);

impl Rng {
    pub fn new(seed: u64) -> Rng {
        Rng(seed)
    }
    /// Returns the next number.
    pub fn next(&mut self) -> u64 {
        self.0 = self.0.wrapping_add(0x9e37_79b9_7f4a_7c15);
        let mut z = self.0;
        z = (z ^ (z >> 30)).wrapping_mul(0xbf58_476d_1ce4_e5b9);
        z = (z ^ (z >> 27)).wrapping_mul(0x94d0_49bb_1331_11eb);
        z ^ (z >> 31)
    }
    /// Returns a number below n.
    pub fn below(&mut self, n: usize) -> usize {
        (self.next() % n as u64) as usize
    }
    /// Returns a number from low to high, both included.
    pub fn between(&mut self, low: usize, high: usize) -> usize {
        low + self.below(high - low + 1)
    }
    /// Returns true p times in a hundred.
    pub fn percent(&mut self, p: usize) -> bool {
        self.below(100) < p
    }
    /// Returns one of the things listed.
    pub fn pick<'a, T>(&mut self, from: &'a [T]) -> &'a T {
        &from[self.below(from.len())]
    }
    /// Returns `count` different numbers below `limit`, in any order.
    pub fn choose(&mut self, count: usize, limit: usize) -> Vec<usize> {
        let mut all: Vec<usize> = (0..limit).collect();
        for i in 0..count {
            let j = self.between(i, limit - 1);
            all.swap(i, j);
        }
        all.truncate(count);
        all
    }
}

/// Every kind, with what it aims at. The kind `sessions` is a fixed list.
pub const KINDS: &[(&str, &str)] = &[
    ("sessions", "the sessions worked by hand and the examples of readings, as they stand"),
    ("mutexes", "plausible locking of mutexes, with frequent deadlocks"),
    ("rwlocks", "plausible locking of rwlocks and mutexes"),
    ("condvars", "plausible waiting and waking, with mutexes"),
    ("hints", "blocked attempts with right and wrong hints"),
    ("destroyed", "locks and condvars destroyed while in use"),
    ("readers", "many readers of one lock, and writers behind them"),
    ("stale", "edges that outlive what they stood for"),
    ("both", "one number used as mutex and as rwlock"),
    ("common", "cycles whose threads hold one lock in common, read or not"),
    ("chains", "long waits in a row, closed to cycles of up to 32 threads"),
    ("ways", "several ways of waiting from one thread to another, some of them stale"),
    ("pairs", "full queues woken at once, with pairs that stand twice"),
    ("limits", "the 33rd pair, the 256th read, the highest numbers and those above"),
    ("broken", "refused and broken lines among good ones"),
    ("long", "texts of many chunks, in odd pieces, with over-long lines"),
    ("soup", "any event with any small numbers"),
    ("wide", "any event with all numbers"),
    ("single", "plausible locking where each thread waits for one owner at most and each lock has one waiter at most"),
    ("single-soup", "any event, up to where a thread would await two owners or a lock has two waiters"),
];

/// Returns true for the kinds whose scripts can be compared with the untouched source.
pub fn is_single(kind: &str) -> bool {
    kind.starts_with("single")
}

/// Returns a script of a kind. The size is about the number of its lines.
pub fn make(kind: &str, seed: u64, size: usize) -> Vec<u8> {
    let mut rng = Rng::new(seed);
    // One number is dropped, in case the first numbers of neighbouring seeds are alike.
    rng.next();
    let mut s = Script { rng, text: Vec::new(), lines: 0, size };
    match kind {
        "mutexes" => {
            let (t, l) = (s.rng.between(2, 6), s.rng.between(2, 5));
            let manners = Manners { hint_right: s.rng.below(30), ..PLAIN };
            World::new(&mut s, t, l, 0, 0, manners).run();
        }
        "rwlocks" => {
            let (t, l) = (s.rng.between(2, 6), s.rng.between(2, 4));
            let manners = Manners { hint_right: s.rng.below(20), ..PLAIN };
            World::new(&mut s, t, l, 70, 0, manners).run();
        }
        "condvars" => {
            let (t, l, c) = (s.rng.between(2, 6), s.rng.between(1, 4), s.rng.between(1, 3));
            let manners = Manners { condvars: 35, destroy: 1, noise: s.rng.below(8), ..PLAIN };
            World::new(&mut s, t, l, 15, c, manners).run();
        }
        "hints" => {
            let (t, l) = (s.rng.between(2, 6), s.rng.between(2, 4));
            let manners = Manners { hint_right: 35, hint_wrong: 35, ..PLAIN };
            World::new(&mut s, t, l, 40, 0, manners).run();
        }
        "destroyed" => {
            let (t, l, c) = (s.rng.between(2, 6), s.rng.between(2, 4), s.rng.between(0, 2));
            let condvars = if c > 0 { 20 } else { 0 };
            let manners = Manners { destroy: 12, noise: 5, condvars, hint_right: 10, ..PLAIN };
            World::new(&mut s, t, l, 50, c, manners).run();
        }
        "readers" => s.readers(),
        "stale" => {
            let pool = s.pool(3, 5, 2, 3, 1);
            s.soup(&pool, STALE);
        }
        "both" => {
            let pool = s.pool(2, 5, 1, 2, 1);
            s.soup(&pool, BOTH);
        }
        "common" => s.common(),
        "chains" => s.chains(),
        "ways" => s.ways(),
        "pairs" => s.pairs(),
        "limits" => s.limits(),
        "broken" => s.broken(),
        "long" => s.long(),
        "soup" => {
            let pool = s.pool(2, 5, 1, 4, 2);
            s.soup(&pool, ALL);
        }
        "wide" => s.wide(),
        "single" => {
            let (t, l) = (s.rng.between(3, 32), s.rng.between(4, 40));
            let c = s.rng.below(3);
            let condvars = if c > 0 { 10 } else { 0 };
            let manners = Manners { single: true, condvars, destroy: 1, hint_right: 20, ..PLAIN };
            World::new(&mut s, t, l, 40, c, manners).run();
        }
        "single-soup" => {
            let pool = s.pool(2, 8, 10, 40, 3);
            s.soup(&pool, ALL);
        }
        other => panic!("no such kind: {other}"),
    }
    s.text
}

/// The fixed scripts of the kind `sessions`: the sessions worked by hand and examples for single rules, with all that
/// is printed for them except `ok` lines. A comma parts two lines, and a blank two fields.
pub const SESSIONS: &[(&str, &str, &str)] = &[
    ("P1", "ma 1 5 took,ma 2 6 took,ma 1 6 -,ma 2 5 -", "cycle 1:6 2:5,end 4 1 2"),
    ("P2", "ma 1 5 took,ma 1 5 -", "end 2 0 1"),
    ("P2 read", "ma 1 5 took,ra 2 5 took,ma 1 5 -", "cycle 1:5,end 3 0 1"),
    ("P3", "ra 3 7 took,wa 3 7 -", "cycle 3:7,end 2 0 1"),
    ("P4", "ra 3 7 took,ra 4 7 took,wa 3 7 -,wa 4 7 -", "cycle 3:7,cycle 3:7 4:7,end 4 1 2"),
    ("P5", "ra 3 7 took,rt 3 7 took,wa 4 7 -,rr 3 7,rr 3 7", "end 5 0 0"),
    ("P6", "ma 4 1 took,ra 3 7 took,wa 4 7 -,rd 7,ma 3 1 -", "end 5 1 0"),
    ("P7", "ma 4 1 took,ra 5 7 took,wa 4 7 -,ra 3 7 took,ma 3 1 -", "end 5 2 2"),
    ("P8", "ma 1 5 took,cb 2 0 5,c1 0,ce 2 0 5", "end 4 0 0"),
    ("P9", "wa 4 7 -", "end 1 0 0"),
    ("P10", "ma 31 63 took,cb 31 15 63,ma 32 63 -,ma 31 64 -,c1 16,ma 32 64 -", "3 no 3,4 no 4,5 no 5,6 no 3,end 6 0 0"),
    ("hint on a free lock", "ma 2 5 1", "end 1 1 0"),
    ("edges now, not ever", "ma 1 5 took,cb 2 0 5,c1 0,ce 2 0 5", "end 4 0 0"),
    ("stuck by true waits", "ma 0 0 -,ma 1 0 0", "end 2 1 1"),
    ("rr in another role", "wa 2 7 took,wa 4 7 -,rr 2 7", "end 3 0 0"),
    ("the writer last", "rc 5 7,wc 2 7,ma 5 1 4,ma 2 1 4,wa 4 7 -", "cycle 5:1 4:7,end 5 2 3"),
    ("rd leaves the mutex owner", "ma 1 5 took,rd 5,ma 1 5 -", "cycle 1:5,end 3 0 1"),
    ("rt keeps the intent", "wc 1 7,wa 2 7 -,rt 2 7 took", "end 3 1 1"),
    ("awaits is the intent", "ma 0 1 2,rd 1,ma 3 1 0", "end 3 2 1"),
    ("refusals by kind", "cb 1 16 64,ma 1 64 32,ma 999 1 -,ma 1000 1 -,rt 32 64 5", "1 no 4,2 no 3,3 no 3,4 no 1,5 no 1,end 5 0 0"),
];

/// Wrong readings that the other scripts of the fixed list do not notice, each with the shortest script that `mutants`
/// found for it. One more, about lines after the 1,000,000th, would be too long for the list.
pub const READINGS: &[(&str, &str)] = &[
    ("second-look-stops", "ma 6 25 31,ma 8 44 6,ma 12 25 19,ma 19 44 -,ma 31 44 -"),
    ("second-filter", "ra 25 40 24,ma 21 19 took,ra 21 40 -,ra 24 40 21"),
    ("second-look-downward", "rc 19 6,rc 28 48,rc 13 35,rc 30 42,wa 4 6 -,wa 19 48 -,wa 13 42 -,wa 28 35 -,rd 35,wa 24 48 19,ra 30 53 4"),
    ("validate-by-waiters", "cb 18 10 21,mc 18 47,ma 19 47 -,ma 18 21 19,rd 47,ca 10"),
    ("filter-two-threads", "mc 3 35,mc 13 35,mc 3 51,mc 8 41,mc 9 6,ma 13 51 -,ma 3 41 -,ma 8 6 -,ma 9 35 -"),
    ("validate-then-filter", "ma 31 63 -,mc 17 63,rt 17 12 took,rc 27 12,wa 17 12 -,ma 27 63 31"),
    ("wr-refreshes", "rc 13 54,wa 19 54 -,rc 4 54,wr 2 54"),
    ("wake-not-filtered", "ma 15 33 15,cb 15 8 33,ma 15 10 took,ca 8"),
    ("ca-upward", "ma 15 33 15,ma 15 10 took,cb 10 8 33,cb 10 8 10,ca 8"),
    ("ce-first-pair", "cb 10 15 3,cb 10 15 3,ce 10 15 3"),
    ("ce-any-lock", "cb 10 15 8,ce 10 15 3"),
];

/// Returns the script that a text of commas and blanks stands for.
pub fn session(text: &str) -> Vec<u8> {
    let mut out = Vec::new();
    for line in text.split(',') {
        out.extend(line.bytes().map(|b| if b == b' ' { b'\t' } else { b }));
        out.push(b'\n');
    }
    out
}

// Words with weights, for scripts without manners.

/// Words, each with how often it comes.
type Weights = &'static [(&'static str, usize)];

// All words, those that leave stale edges more often, and those for one number used as mutex and as rwlock.
const ALL: Weights = &[
    ("ma", 12), ("mc", 7), ("mr", 5), ("md", 2), ("ra", 8), ("rc", 5), ("rt", 5), ("rr", 6),
    ("wa", 9), ("wc", 5), ("wr", 5), ("rd", 2), ("cn", 1), ("cd", 1), ("cb", 7), ("c1", 4),
    ("ca", 3), ("ce", 4),
];

const STALE: Weights = &[
    ("ma", 14), ("mc", 6), ("mr", 3), ("md", 1), ("ra", 8), ("rc", 9), ("rt", 5), ("rr", 5),
    ("wa", 14), ("wc", 6), ("wr", 5), ("rd", 7), ("cb", 2), ("c1", 2),
];

const BOTH: Weights = &[
    ("ma", 10), ("mc", 9), ("mr", 4), ("md", 2), ("ra", 6), ("rc", 6), ("rt", 4), ("rr", 5),
    ("wa", 10), ("wc", 7), ("wr", 5), ("rd", 3), ("cb", 3), ("c1", 2), ("ca", 1), ("ce", 1),
];

/// The numbers that a script uses.
struct Pool {
    threads: Vec<usize>,
    locks: Vec<usize>,
    condvars: Vec<usize>,
}

/// A script that is being made, and about how many lines it is to have.
struct Script {
    rng: Rng,
    text: Vec<u8>,
    lines: usize,
    size: usize,
}

impl Script {
    /// Returns true if the script has all its lines.
    fn full(&self) -> bool {
        self.lines >= self.size
    }

    /// Adds a line.
    fn raw(&mut self, line: &[u8]) {
        self.text.extend_from_slice(line);
        self.text.push(b'\n');
        self.lines += 1;
    }

    /// Adds the line of a word and numbers.
    fn say(&mut self, word: &str, numbers: &[usize]) {
        let line = spell(word, numbers, None);
        self.raw(&line);
    }

    /// Adds the line of a try and its outcome.
    fn tried(&mut self, word: &str, t: usize, l: usize, outcome: &str) {
        let line = spell(word, &[t, l], Some(outcome));
        self.raw(&line);
    }

    /// Returns a pool of t0 to t1 threads, l0 to l1 locks and up to c1 condvars.
    fn pool(&mut self, t0: usize, t1: usize, l0: usize, l1: usize, c1: usize) -> Pool {
        let (t, l, c) = (self.rng.between(t0, t1), self.rng.between(l0, l1), self.rng.between(1, c1));
        Pool {
            threads: self.rng.choose(t, 32),
            locks: self.rng.choose(l, 64),
            condvars: self.rng.choose(c, 16),
        }
    }

    /// Returns the line of an event, with a word by the weights and numbers of the pool.
    fn any(&mut self, pool: &Pool, weights: Weights) -> Vec<u8> {
        let sum: usize = weights.iter().map(|w| w.1).sum();
        let mut at = self.rng.below(sum);
        let mut word = weights[0].0;
        for &(w, weight) in weights {
            if at < weight {
                word = w;
                break;
            }
            at -= weight;
        }
        self.event(word, pool)
    }

    /// Returns the line of an event of this word with numbers of the pool.
    fn event(&mut self, word: &str, pool: &Pool) -> Vec<u8> {
        let t = *self.rng.pick(&pool.threads);
        let l = *self.rng.pick(&pool.locks);
        let c = *self.rng.pick(&pool.condvars);
        match word {
            "ma" | "ra" | "wa" => {
                let hint = *self.rng.pick(&pool.threads);
                let outcome = match self.rng.below(10) {
                    0..=1 => "took".to_string(),
                    2..=6 => "-".to_string(),
                    _ => hint.to_string(),
                };
                spell(word, &[t, l], Some(&outcome))
            }
            "rt" => {
                let outcome = if self.rng.percent(80) { "took" } else { "-" };
                spell(word, &[t, l], Some(outcome))
            }
            "mc" | "mr" | "rc" | "rr" | "wc" | "wr" => spell(word, &[t, l], None),
            "md" | "rd" => spell(word, &[l], None),
            "cn" | "cd" | "c1" | "ca" => spell(word, &[c], None),
            "cb" | "ce" => spell(word, &[t, c, l], None),
            other => panic!("no such word: {other}"),
        }
    }

    /// Fills the script with any events.
    fn soup(&mut self, pool: &Pool, weights: Weights) {
        while !self.full() {
            let line = self.any(pool, weights);
            self.raw(&line);
        }
    }

    /// Makes many readers of one lock, writers that wait for them, and mutexes by which readers wait for writers.
    fn readers(&mut self) {
        let count = self.rng.between(4, 32);
        let threads = self.rng.choose(count, 32);
        let locks = self.rng.choose(3, 64);
        let (l, m) = (locks[0], locks[1]);
        while !self.full() {
            let t = *self.rng.pick(&threads);
            let u = *self.rng.pick(&threads);
            match self.rng.below(16) {
                0..=4 => {
                    let word = *self.rng.pick(&["rc", "ra", "rt"]);
                    if word == "rc" { self.say(word, &[t, l]) } else { self.tried(word, t, l, "took") }
                }
                5..=7 => self.tried("wa", t, l, "-"),
                8 => self.tried("ma", t, m, "-"),
                9 => self.say("mc", &[t, m]),
                10 => self.tried("ma", t, m, &u.to_string()),
                11..=12 => self.say("rr", &[t, l]),
                13 => {
                    let word = *self.rng.pick(&["wc", "wr", "mr", "mc"]);
                    self.say(word, &[t, l]);
                }
                14 => {
                    let any = *self.rng.pick(&locks);
                    self.tried("ra", t, any, "-");
                }
                _ => {
                    let word = *self.rng.pick(&["rd", "md", "rr", "rr", "rr", "rr"]);
                    if word == "rr" { self.say(word, &[u, l]) } else { self.say(word, &[l]) }
                }
            }
        }
    }

    /// Makes all threads hold one lock, since an acquisition leaves the holds of others as they are, and then deadlock.
    /// Now and then a thread reads the common lock.
    fn common(&mut self) {
        let count = self.rng.between(2, 4);
        let threads = self.rng.choose(count, 32);
        let extra = self.rng.between(2, 3);
        let locks = self.rng.choose(extra + 1, 64);
        let pool = Pool { threads, locks, condvars: vec![0] };
        let gate = pool.locks[extra];
        while !self.full() {
            for &t in &pool.threads {
                if self.rng.percent(85) {
                    let word = *self.rng.pick(&["mc", "mc", "wc"]);
                    self.say(word, &[t, gate]);
                }
            }
            if self.rng.percent(40) {
                self.ring(&pool);
            }
            for _ in 0..self.rng.between(4, 30) {
                let t = *self.rng.pick(&pool.threads);
                match self.rng.below(30) {
                    0 => self.say("rc", &[t, gate]),
                    1 => self.say("rr", &[t, gate]),
                    2 => self.say("rd", &[gate]),
                    3 => self.say("mr", &[t, gate]),
                    _ => {
                        let line = self.any(&pool, STALE);
                        self.raw(&line);
                    }
                }
            }
        }
    }

    /// Makes each thread take a mutex of its own and await that of the next thread.
    fn ring(&mut self, pool: &Pool) {
        let n = pool.threads.len();
        let locks = self.rng.choose(n, 64);
        for i in 0..n {
            self.say("mc", &[pool.threads[i], locks[i]]);
        }
        for i in self.rng.choose(n, n) {
            self.tried("ma", pool.threads[i], locks[(i + 1) % n], "-");
        }
    }

    /// Makes rows of threads, each of which awaits what the next one owns, closed in any order. Then any events follow,
    /// and all locks in use are destroyed before the next row.
    fn chains(&mut self) {
        while !self.full() {
            let n = if self.rng.percent(50) { self.rng.between(2, 8) } else { self.rng.between(9, 32) };
            let threads = self.rng.choose(n, 32);
            let locks = self.rng.choose(n, 64);
            // A lock with role 0 is a mutex, one with role 1 is written, one with role 2 is read.
            let role: Vec<usize> = (0..n).map(|_| self.rng.below(3)).collect();
            for i in 0..n {
                match role[i] {
                    0 => self.tried("ma", threads[i], locks[i], "took"),
                    1 => self.say("wc", &[threads[i], locks[i]]),
                    _ => self.say("rc", &[threads[i], locks[i]]),
                }
            }
            let order = self.rng.choose(n, n);
            for i in order {
                let next = (i + 1) % n;
                let word = match role[next] {
                    0 => "ma",
                    1 => *self.rng.pick(&["ra", "wa"]),
                    _ => "wa",
                };
                self.tried(word, threads[i], locks[next], "-");
            }
            let pool = Pool { threads, locks: locks.clone(), condvars: vec![3] };
            for _ in 0..self.rng.below(2 * n + 4) {
                let line = self.any(&pool, ALL);
                self.raw(&line);
            }
            self.destroy_all(&locks);
        }
    }

    /// Makes layers of threads. The threads of a layer read one lock, for which all threads of the layer before wait,
    /// so that many ways lead down. Before the lowest thread closes them to a cycle, some links are made stale.
    fn ways(&mut self) {
        while !self.full() {
            let depth = self.rng.between(2, 4);
            let sizes: Vec<usize> = (0..depth).map(|_| self.rng.between(1, 4)).collect();
            let threads = self.rng.choose(sizes.iter().sum::<usize>() + 2, 32);
            let locks = self.rng.choose(depth + 2, 64);
            let (top, low) = (threads[0], threads[1]);
            let mut layers = vec![vec![top]];
            let mut rest = &threads[2..];
            for size in sizes {
                layers.push(rest[..size].to_vec());
                rest = &rest[size..];
            }
            layers.push(vec![low]);
            // Lock i is between layer i and the next. Some threads read the lock of another layer too.
            for i in 0..=depth {
                for &t in &layers[i + 1] {
                    self.say("rc", &[t, locks[i]]);
                    if self.rng.percent(15) {
                        let other = *self.rng.pick(&locks[..=depth]);
                        self.say("rc", &[t, other]);
                    }
                }
            }
            let mut waits: Vec<(usize, usize)> = Vec::new();
            for i in 0..=depth {
                waits.extend(layers[i].iter().map(|&t| (t, locks[i])));
            }
            for i in self.rng.choose(waits.len(), waits.len()) {
                self.tried("wa", waits[i].0, waits[i].1, "-");
            }
            let pool = Pool { threads: threads.clone(), locks: locks.clone(), condvars: vec![1] };
            for _ in 0..self.rng.below(5) {
                let word = *self.rng.pick(&["rd", "rr", "rc", "ma", "ra", "wa", "wr", "mc"]);
                let line = self.event(word, &pool);
                self.raw(&line);
            }
            let last = locks[depth + 1];
            match self.rng.below(3) {
                0 => self.tried("ma", low, last, &top.to_string()),
                1 => self.tried("ra", low, last, &top.to_string()),
                _ => {
                    self.say("rc", &[top, last]);
                    self.tried("wa", low, last, "-");
                }
            }
            for _ in 0..self.rng.below(4) {
                let line = self.any(&pool, STALE);
                self.raw(&line);
            }
            self.destroy_all(&locks);
        }
    }

    /// Destroys the locks, so that nobody has them and nobody awaits them.
    fn destroy_all(&mut self, locks: &[usize]) {
        for &l in locks {
            self.say("rd", &[l]);
            self.say("md", &[l]);
        }
    }

    /// Makes queues that fill up, with pairs that stand twice, and wakes all of them at once.
    fn pairs(&mut self) {
        let pool = self.pool(2, 4, 2, 3, 2);
        while !self.full() {
            for _ in 0..self.rng.between(2, 10) {
                let word = *self.rng.pick(&["mc", "ma", "ma", "mr", "rc", "cb"]);
                let line = self.event(word, &pool);
                self.raw(&line);
            }
            if self.rng.percent(20) {
                let line = self.event("cb", &pool);
                for _ in 0..self.rng.between(2, 34) {
                    self.raw(&line);
                }
            } else {
                for _ in 0..self.rng.between(1, 12) {
                    let line = self.event("cb", &pool);
                    self.raw(&line);
                }
            }
            let word = *self.rng.pick(&["ca", "ca", "ca", "c1", "ce", "cn", "cd"]);
            let line = self.event(word, &pool);
            self.raw(&line);
        }
    }

    /// Makes full queues, full counts and numbers out of range.
    fn limits(&mut self) {
        while !self.full() {
            match self.rng.below(4) {
                0 => self.full_queue(),
                1 => self.full_count(),
                _ => {
                    for _ in 0..self.rng.between(5, 30) {
                        let line = self.out_of_range();
                        self.raw(&line);
                    }
                }
            }
        }
    }

    /// Fills a queue up to about 32 pairs, goes on with it, and empties it.
    fn full_queue(&mut self) {
        let c = *self.rng.pick(&[0, 7, 15]);
        let pool = Pool { condvars: vec![c], ..self.pool(1, 4, 1, 3, 1) };
        for _ in 0..self.rng.between(30, 36) {
            let line = self.event("cb", &pool);
            self.raw(&line);
        }
        for _ in 0..self.rng.between(1, 8) {
            let word = *self.rng.pick(&["cb", "cb", "c1", "ce", "mc"]);
            let line = self.event(word, &pool);
            self.raw(&line);
        }
        let word = *self.rng.pick(&["ca", "ca", "cn", "cd", "cb"]);
        let line = self.event(word, &pool);
        self.raw(&line);
    }

    /// Counts the reads of one thread up to about 255, and goes on with them.
    fn full_count(&mut self) {
        let t = *self.rng.pick(&[0, 5, 31]);
        let l = *self.rng.pick(&[0, 9, 63]);
        for _ in 0..self.rng.between(252, 258) {
            match self.rng.below(3) {
                0 => self.say("rc", &[t, l]),
                1 => self.tried("ra", t, l, "took"),
                _ => self.tried("rt", t, l, "took"),
            }
        }
        for _ in 0..self.rng.between(4, 16) {
            match self.rng.below(9) {
                0..=1 => self.say("rc", &[t, l]),
                2 => self.tried("ra", t, l, "took"),
                3 => self.tried("rt", t, l, "took"),
                4 => self.tried("ra", t, l, "-"),
                5 => self.tried("rt", t, l, "-"),
                6 => self.tried("wa", t, l, "took"),
                _ => self.say("rr", &[t, l]),
            }
        }
        if self.rng.percent(50) {
            self.say("rd", &[l]);
        }
    }

    /// Returns the line of an event in which some numbers lie at or above their limits.
    fn out_of_range(&mut self) -> Vec<u8> {
        let pool = Pool {
            threads: vec![0, 1, 30, 31, 31, 32, 33, 99, 100, 255, 256, 999],
            locks: vec![0, 1, 62, 63, 63, 64, 65, 99, 100, 255, 256, 999],
            condvars: vec![0, 1, 14, 15, 15, 16, 17, 99, 100, 255, 256, 999],
        };
        // Words with several numbers can break several rules at once.
        let word = *self.rng.pick(&["ma", "ra", "wa", "cb", "cb", "ce", "ce", "rt", ""]);
        if word.is_empty() { self.any(&pool, ALL) } else { self.event(word, &pool) }
    }

    /// Makes good lines, refused lines and broken lines.
    fn broken(&mut self) {
        let pool = self.pool(2, 4, 1, 3, 2);
        while !self.full() {
            let line = match self.rng.below(10) {
                0..=3 => self.any(&pool, ALL),
                4 => self.out_of_range(),
                _ => {
                    let good = self.any(&pool, ALL);
                    self.spoil(good)
                }
            };
            self.raw(&line);
        }
        // The last line may lack its line feed, and may be broken.
        match self.rng.below(4) {
            0 => {
                self.text.pop();
            }
            1 => self.text.extend_from_slice(b"\r"),
            _ => {}
        }
    }

    /// Returns a good line with one fault in it.
    fn spoil(&mut self, good: Vec<u8>) -> Vec<u8> {
        let mut line = good;
        let tabs: Vec<usize> = (0..line.len()).filter(|&i| line[i] == b'\t').collect();
        let tab = *self.rng.pick(&tabs);
        match self.rng.below(24) {
            0 => line.clear(),
            1 => line[tab] = b' ',
            2 => line.insert(tab, b'\t'),
            3 => {
                line.remove(tab);
            }
            4 => line.push(b'\t'),
            5 => line.push(b'\r'),
            6 => line.push(b' '),
            7 => line.push(0),
            8 => line.insert(0, *self.rng.pick(b" \t\0m")),
            9 => line.make_ascii_uppercase(),
            10 => line[0] = line[0].to_ascii_uppercase(),
            // The next ones are a leading zero, a sign, and a number of four digits.
            11 => line.insert(tab + 1, b'0'),
            12 => line.insert(tab + 1, *self.rng.pick(b"+-")),
            13 => {
                line.truncate(tab);
                line.extend_from_slice(b"\t1000");
            }
            // The next ones are a field too few and a field too many.
            14 => line.truncate(*tabs.last().unwrap()),
            15 => line.extend_from_slice(*self.rng.pick(&[&b"\t1"[..], b"\t-", b"\ttook"])),
            // The next ones are texts that are no outcome, and a hint for `rt`.
            16 => {
                line.truncate(tab);
                line.extend_from_slice(*self.rng.pick(&[&b"\ttake"[..], b"\ttookk", b"\tTook", b"\t--", b"\t", b"\t-1", b"\t00", b"\t01"]));
            }
            17 => line = spell("rt", &[self.rng.below(34), self.rng.below(66)], Some(&self.rng.below(40).to_string())),
            // This one is a text that is no word.
            18 => {
                let word = *self.rng.pick(&["mb", "te", "c2", "m", "maa", "", "wt", "cc", "mt"]);
                line.splice(0..2, word.bytes());
            }
            19 => {
                let at = self.rng.below(line.len());
                line[at] = self.rng.below(256) as u8;
                line.retain(|&b| b != b'\n');
            }
            // This one is a line of about 40 bytes, which is the limit.
            20 => {
                let length = self.rng.between(38, 44);
                line.resize(length, *self.rng.pick(b"0\t 1"));
            }
            21 => {
                // A good line comes after about 40 bytes, for a reader that would take the rest as a line of its own.
                let mut long = vec![b'x'; self.rng.between(39, 42)];
                long.extend_from_slice(&line);
                line = long;
            }
            22 => {
                let length = self.rng.between(100, 300);
                line.resize(length, b'7');
            }
            _ => {
                let length = self.rng.below(12);
                line = (0..length).map(|_| *self.rng.pick(b"macrwtdbe0123456789\t\t\t-k ")).collect();
            }
        }
        line
    }

    /// Makes texts longer than any buffer, with good lines, broken lines, and lines longer than a chunk.
    fn long(&mut self) {
        let pool = self.pool(3, 6, 2, 5, 2);
        self.size = self.size.max(30) * 3;
        while !self.full() {
            match self.rng.below(800) {
                0 => {
                    let length = *self.rng.pick(&[4096, 65535, 65536, 65537, 70000, 131072]);
                    let line = vec![*self.rng.pick(b"m\t0"); length];
                    self.raw(&line);
                }
                1..=40 => {
                    let good = self.any(&pool, ALL);
                    let line = self.spoil(good);
                    self.raw(&line);
                }
                _ => {
                    let line = self.any(&pool, ALL);
                    self.raw(&line);
                }
            }
        }
        if self.rng.percent(40) {
            self.text.pop();
        }
    }

    /// Uses all numbers, in half of the scripts with plausible locking and in the other half with any events.
    fn wide(&mut self) {
        if self.rng.percent(50) {
            let (t, l, c) = (self.rng.between(16, 32), self.rng.between(16, 64), self.rng.between(4, 16));
            let manners = Manners { hint_right: 10, hint_wrong: 5, noise: 10, destroy: 1, condvars: 10, ..PLAIN };
            World::new(self, t, l, 40, c, manners).run();
        } else {
            let pool = Pool {
                threads: (0..32).collect(),
                locks: (0..64).collect(),
                condvars: (0..16).collect(),
            };
            self.soup(&pool, ALL);
        }
    }
}

/// Returns the line of a word, numbers and an outcome.
fn spell(word: &str, numbers: &[usize], outcome: Option<&str>) -> Vec<u8> {
    let mut line = word.as_bytes().to_vec();
    for n in numbers {
        line.push(b'\t');
        line.extend_from_slice(n.to_string().as_bytes());
    }
    if let Some(o) = outcome {
        line.push(b'\t');
        line.extend_from_slice(o.as_bytes());
    }
    line
}

// Plausible locking.

/// How the threads of a world behave. Most fields are in percent: how often a step is of that sort.
#[derive(Clone, Copy)]
pub struct Manners {
    /// A running thread takes a lock rather than gives one back.
    pub take: usize,
    /// A running thread tries a lock that it has.
    pub relock: usize,
    /// A blocked attempt has the owner as its hint, or any thread.
    pub hint_right: usize,
    pub hint_wrong: usize,
    /// A lock or a condvar is destroyed.
    pub destroy: usize,
    /// Any event at all comes.
    pub noise: usize,
    /// A running thread begins a wait on a condvar, or wakes others.
    pub condvars: usize,
    /// A blocked thread tries once more.
    pub again: usize,
    /// A blocked thread makes an owner of its lock give it back, so that deadlocks do not stay.
    pub force: usize,
    /// A thread has no more locks than this number.
    pub most: usize,
    /// No lock gets a second waiter, and no wait a second owner.
    pub single: bool,
}

/// The behaviour that the kinds start from.
pub const PLAIN: Manners = Manners {
    take: 65,
    relock: 3,
    hint_right: 0,
    hint_wrong: 0,
    destroy: 0,
    noise: 0,
    condvars: 0,
    again: 4,
    force: 0,
    most: 64,
    single: false,
};

/// How a thread has a lock, or wants it.
#[derive(Clone, Copy, PartialEq)]
enum Hold {
    Mutex,
    Read,
    Write,
}

/// What a thread does: it runs, is blocked on a lock, waits on a condvar, or is woken and wants the condvar's mutex.
#[derive(Clone, Copy, PartialEq)]
enum Doing {
    Running,
    Blocked(usize, Hold),
    Waiting(usize),
    Woken(usize),
}

/// A lock of a world and who has it.
struct Lock {
    number: usize,
    rw: bool,
    /// The owner of a mutex, or the writer.
    owner: Option<usize>,
    readers: Vec<usize>,
}

/// Threads, locks and condvars as a program would have them. Inside they go by their places in these lists, not by the
/// numbers that are printed.
pub struct World<'a> {
    s: &'a mut Script,
    manners: Manners,
    pool: Pool,
    doing: Vec<Doing>,
    locks: Vec<Lock>,
    /// The mutex that goes with each condvar.
    partner: Vec<usize>,
    queues: Vec<Vec<usize>>,
}

impl<'a> World<'a> {
    /// Returns a world in which all threads run and all locks are free. Of the locks `rw` percent are rwlocks.
    fn new(s: &'a mut Script, threads: usize, locks: usize, rw: usize, condvars: usize, manners: Manners) -> World<'a> {
        let pool = Pool {
            threads: s.rng.choose(threads, 32),
            locks: s.rng.choose(locks, 64),
            condvars: s.rng.choose(condvars.max(1), 16),
        };
        let mut all: Vec<Lock> = Vec::new();
        for &number in &pool.locks {
            let rw = s.rng.percent(rw);
            all.push(Lock { number, rw, owner: None, readers: Vec::new() });
        }
        // A condvar needs a mutex that goes with it.
        all[0].rw = rw == 100;
        let mutexes: Vec<usize> = (0..locks).filter(|&i| !all[i].rw).collect();
        let partner = (0..condvars).map(|_| *s.rng.pick(&mutexes)).collect();
        World {
            s,
            manners,
            pool,
            doing: vec![Doing::Running; threads],
            locks: all,
            partner,
            queues: vec![Vec::new(); condvars],
        }
    }

    /// Fills the script.
    fn run(mut self) {
        let mut idle = 0;
        while !self.s.full() {
            let before = self.s.lines;
            self.step();
            // Threads that may run but find nothing to do would leave a deadlock as it is.
            idle = if self.s.lines == before { idle + 1 } else { 0 };
            if idle > 300 {
                self.untie();
            }
        }
    }

    /// Makes one step: any event, something destroyed, or a step of one thread.
    fn step(&mut self) {
        if self.s.rng.percent(self.manners.noise) {
            let line = self.s.any(&self.pool, ALL);
            self.s.raw(&line);
            return;
        }
        if self.s.rng.percent(self.manners.destroy) {
            self.destroy();
            return;
        }
        let t = self.s.rng.below(self.doing.len());
        match self.doing[t] {
            Doing::Running => self.running(t),
            Doing::Blocked(l, hold) => {
                if self.is_free(t, l, hold) {
                    self.complete(t, l, hold);
                } else if self.nobody_runs() {
                    self.untie();
                } else if self.s.rng.percent(self.manners.force) {
                    self.force(l);
                } else if self.s.rng.percent(self.manners.again) && !self.manners.single {
                    self.attempt(t, l, hold);
                }
            }
            Doing::Waiting(c) => {
                if self.nobody_runs() {
                    self.untie();
                } else if self.s.rng.percent(3) {
                    self.wait_ends(t, c);
                }
            }
            Doing::Woken(c) => {
                if self.locks[self.partner[c]].owner.is_none() {
                    self.wait_ends(t, c);
                } else if self.nobody_runs() {
                    self.untie();
                }
            }
        }
    }

    /// Returns true if no thread runs.
    fn nobody_runs(&self) -> bool {
        self.doing.iter().all(|d| *d != Doing::Running)
    }

    /// Makes a step of a running thread.
    fn running(&mut self, t: usize) {
        if self.s.rng.percent(self.manners.condvars) && !self.partner.is_empty() {
            self.wait_or_wake(t);
        } else if self.s.rng.percent(self.manners.take) && self.holds(t).len() < self.manners.most {
            self.take(t);
        } else {
            self.give_back(t);
        }
    }

    /// Returns the locks that a thread has, each with how it has it.
    fn holds(&self, t: usize) -> Vec<(usize, Hold)> {
        let mut held = Vec::new();
        for (i, l) in self.locks.iter().enumerate() {
            if l.owner == Some(t) {
                held.push((i, if l.rw { Hold::Write } else { Hold::Mutex }));
            }
            if l.readers.contains(&t) {
                held.push((i, Hold::Read));
            }
        }
        held
    }

    /// Returns true if the thread can take the lock so.
    fn is_free(&self, t: usize, l: usize, hold: Hold) -> bool {
        let lock = &self.locks[l];
        match hold {
            Hold::Mutex => lock.owner.is_none(),
            // A thread may read a lock that it writes: nothing in the rules forbids it.
            Hold::Read => lock.owner.is_none() || lock.owner == Some(t),
            Hold::Write => lock.owner.is_none() && lock.readers.is_empty(),
        }
    }

    /// Returns true if a thread awaits the lock.
    fn is_awaited(&self, l: usize) -> bool {
        self.doing.iter().any(|d| match *d {
            Doing::Blocked(m, _) => m == l,
            Doing::Woken(c) => self.partner[c] == l,
            _ => false,
        })
    }

    /// Makes a thread take any lock, or attempt it if it is not free.
    fn take(&mut self, t: usize) {
        let l = self.s.rng.below(self.locks.len());
        let held = self.holds(t).iter().any(|h| h.0 == l);
        if held && !self.s.rng.percent(self.manners.relock) {
            return;
        }
        let hold = match self.locks[l].rw {
            false => Hold::Mutex,
            true if self.s.rng.percent(65) => Hold::Read,
            true => Hold::Write,
        };
        if self.is_free(t, l, hold) {
            // Two readers would be two owners for a writer that comes later.
            if self.manners.single && hold == Hold::Read && !self.locks[l].readers.is_empty() {
                return;
            }
            self.took(t, l, hold);
        } else {
            if self.manners.single && self.is_awaited(l) {
                return;
            }
            self.attempt(t, l, hold);
        }
    }

    /// Returns the numbers of a thread and a lock.
    fn name(&self, t: usize, l: usize) -> (usize, usize) {
        (self.pool.threads[t], self.locks[l].number)
    }

    /// Makes a thread take a free lock, by an attempt that succeeds or by an acquisition.
    fn took(&mut self, t: usize, l: usize, hold: Hold) {
        let (tn, ln) = self.name(t, l);
        let slow = self.s.rng.percent(50);
        match hold {
            Hold::Mutex if slow => self.s.tried("ma", tn, ln, "took"),
            Hold::Mutex => self.s.say("mc", &[tn, ln]),
            Hold::Read if slow => {
                let word = *self.s.rng.pick(&["ra", "rt"]);
                self.s.tried(word, tn, ln, "took");
            }
            Hold::Read => self.s.say("rc", &[tn, ln]),
            Hold::Write if slow => self.s.tried("wa", tn, ln, "took"),
            Hold::Write => self.s.say("wc", &[tn, ln]),
        }
        self.own(t, l, hold);
    }

    /// Notes that a thread has a lock and runs.
    fn own(&mut self, t: usize, l: usize, hold: Hold) {
        match hold {
            Hold::Read => self.locks[l].readers.push(t),
            _ => self.locks[l].owner = Some(t),
        }
        self.doing[t] = Doing::Running;
    }

    /// Makes a blocked thread acquire its lock.
    fn complete(&mut self, t: usize, l: usize, hold: Hold) {
        let (tn, ln) = self.name(t, l);
        let word = match hold {
            Hold::Mutex => "mc",
            Hold::Read => "rc",
            Hold::Write => "wc",
        };
        self.s.say(word, &[tn, ln]);
        self.own(t, l, hold);
    }

    /// Makes an attempt that is blocked, with a hint or without.
    fn attempt(&mut self, t: usize, l: usize, hold: Hold) {
        let (tn, ln) = self.name(t, l);
        let word = match hold {
            Hold::Mutex => "ma",
            Hold::Read if self.s.rng.percent(15) => {
                // A try that fails blocks nobody.
                self.s.tried("rt", tn, ln, "-");
                return;
            }
            Hold::Read => "ra",
            Hold::Write => "wa",
        };
        let outcome = if self.s.rng.percent(self.manners.hint_right) {
            match self.locks[l].owner {
                Some(o) => self.pool.threads[o].to_string(),
                None => "-".to_string(),
            }
        } else if self.s.rng.percent(self.manners.hint_wrong) {
            self.s.rng.pick(&self.pool.threads).to_string()
        } else {
            "-".to_string()
        };
        self.s.tried(word, tn, ln, &outcome);
        self.doing[t] = Doing::Blocked(l, hold);
    }

    /// Makes a thread give back one of its locks.
    fn give_back(&mut self, t: usize) {
        let held = self.holds(t);
        if held.is_empty() {
            return;
        }
        let (l, hold) = *self.s.rng.pick(&held);
        self.release(t, l, hold);
    }

    /// Makes a thread give back this lock.
    fn release(&mut self, t: usize, l: usize, hold: Hold) {
        let (tn, ln) = self.name(t, l);
        match hold {
            Hold::Mutex => self.s.say("mr", &[tn, ln]),
            Hold::Write => self.s.say("wr", &[tn, ln]),
            Hold::Read => self.s.say("rr", &[tn, ln]),
        }
        let lock = &mut self.locks[l];
        if hold == Hold::Read {
            let at = lock.readers.iter().position(|&r| r == t).unwrap();
            lock.readers.remove(at);
        } else {
            lock.owner = None;
        }
    }

    /// Makes a thread that has a condvar's mutex wait on the condvar, or one that has not wake others.
    fn wait_or_wake(&mut self, t: usize) {
        let c = self.s.rng.below(self.partner.len());
        let cn = self.pool.condvars[c];
        let l = self.partner[c];
        if self.locks[l].owner == Some(t) && self.queues[c].len() < if self.manners.single { 1 } else { 32 } {
            let (tn, ln) = self.name(t, l);
            self.s.say("cb", &[tn, cn, ln]);
            self.s.say("mr", &[tn, ln]);
            self.locks[l].owner = None;
            self.queues[c].push(t);
            self.doing[t] = Doing::Waiting(c);
            return;
        }
        if self.manners.single && self.is_awaited(l) {
            return;
        }
        let woken = if self.s.rng.percent(60) {
            self.s.say("c1", &[cn]);
            let n = self.queues[c].len().min(1);
            self.queues[c].drain(..n).collect::<Vec<_>>()
        } else {
            self.s.say("ca", &[cn]);
            self.queues[c].drain(..).collect()
        };
        for t in woken {
            self.doing[t] = Doing::Woken(c);
        }
    }

    /// Ends the wait of a thread, which takes the mutex if that is free.
    fn wait_ends(&mut self, t: usize, c: usize) {
        let l = self.partner[c];
        let (tn, ln) = self.name(t, l);
        self.s.say("ce", &[tn, self.pool.condvars[c], ln]);
        self.queues[c].retain(|&w| w != t);
        self.doing[t] = Doing::Running;
        if self.is_free(t, l, Hold::Mutex) {
            self.took(t, l, Hold::Mutex);
        }
    }

    /// Destroys a condvar or makes it anew, or destroys a lock.
    fn destroy(&mut self) {
        if !self.partner.is_empty() && self.s.rng.percent(25) {
            let c = self.s.rng.below(self.partner.len());
            let word = *self.s.rng.pick(&["cn", "cd"]);
            self.s.say(word, &[self.pool.condvars[c]]);
            for t in self.queues[c].drain(..) {
                self.doing[t] = Doing::Running;
            }
            return;
        }
        let l = self.s.rng.below(self.locks.len());
        let lock = &mut self.locks[l];
        self.s.say(if lock.rw { "rd" } else { "md" }, &[lock.number]);
        lock.owner = None;
        lock.readers.clear();
        for d in &mut self.doing {
            if matches!(d, Doing::Blocked(m, _) if *m == l) {
                *d = Doing::Running;
            }
        }
    }

    /// Makes an owner of a lock give it back, whatever that thread waits for itself.
    fn force(&mut self, l: usize) {
        let lock = &self.locks[l];
        if let Some(o) = lock.owner {
            let hold = if lock.rw { Hold::Write } else { Hold::Mutex };
            self.release(o, l, hold);
        } else if let Some(&r) = lock.readers.first() {
            self.release(r, l, Hold::Read);
        }
    }

    /// Helps when all threads wait: one of them gives a lock back or ends its wait, or a lock is destroyed.
    fn untie(&mut self) {
        let t = self.s.rng.below(self.doing.len());
        let held = self.holds(t);
        if !held.is_empty() && self.s.rng.percent(70) {
            let (l, hold) = *self.s.rng.pick(&held);
            self.release(t, l, hold);
        } else if let Doing::Waiting(c) | Doing::Woken(c) = self.doing[t] {
            self.wait_ends(t, c);
        } else if let Doing::Blocked(l, _) = self.doing[t] {
            let lock = &mut self.locks[l];
            self.s.say(if lock.rw { "rd" } else { "md" }, &[lock.number]);
            lock.owner = None;
            lock.readers.clear();
            self.doing[t] = Doing::Running;
        }
    }
}

/// Returns a script of the benchmark. In the first three, threads often wait, and deadlocks come and go: many threads
/// and locks, few and contended, mostly rwlocks. In the last, `calm`, hardly any thread waits.
pub fn load(name: &str, seed: u64, size: usize) -> Vec<u8> {
    let mut s = Script { rng: Rng::new(seed), text: Vec::new(), lines: 0, size };
    let (threads, locks, rw, condvars, share) = match name {
        "many" | "calm" => (24, 60, 30, 8, 6),
        "few" => (6, 4, 25, 1, 4),
        "rw" => (20, 16, 90, 0, 0),
        other => panic!("no such load: {other}"),
    };
    let (most, again, force) = if name == "calm" { (2, 0, 10) } else { (5, 1, 1) };
    let manners = Manners {
        take: 55,
        relock: 0,
        hint_right: 20,
        condvars: share,
        again,
        force,
        most,
        ..PLAIN
    };
    World::new(&mut s, threads, locks, rw, condvars, manners).run();
    // A step may add two lines, so the script may be one line too long.
    let lines = s.text.split_inclusive(|&b| b == b'\n').take(size);
    let length = lines.map(|l| l.len()).sum();
    s.text.truncate(length);
    s.text
}

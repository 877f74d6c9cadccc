//! Lists of calls: records for `sheets_replay`, and the same calls one by one.

use crate::engine;
use crate::make::Rng;
use std::cell::RefCell;
use std::time::Instant;

pub const COPY: usize = 16896;
pub const ADD: u8 = 1;
pub const EDIT: u8 = 2;
pub const DELETE: u8 = 3;
pub const COPY_SHEET: u8 = 4;
pub const MOVE: u8 = 5;
pub const COMMIT: u8 = 6;
pub const UPDATE: u8 = 7;
pub const REVERT: u8 = 8;
pub const READ: u8 = 9;
pub const SHOW: u8 = 10;
pub const STATUS: u8 = 11;
pub const LOG: u8 = 12;

#[derive(Clone, Default)]
pub struct Script(pub Vec<u8>);

impl Script {
    pub fn call(&mut self, kind: u8, seat: u8, a: u32, b: u32) {
        self.with(kind, seat, a, b, &[]);
    }

    pub fn with(&mut self, kind: u8, seat: u8, a: u32, b: u32, bytes: &[u8]) {
        let mut r = [0; 512];
        r[0] = kind;
        r[1] = seat;
        r[2..4].copy_from_slice(&(bytes.len() as u16).to_le_bytes());
        r[4..8].copy_from_slice(&a.to_le_bytes());
        r[8..12].copy_from_slice(&b.to_le_bytes());
        r[16..16 + bytes.len()].copy_from_slice(bytes);
        self.0.extend(r);
    }

    pub fn calls(&self) -> usize {
        self.0.len() / 512
    }
}

/// A script from its calls: kind, seat, two numbers, bytes.
pub fn script(calls: impl IntoIterator<Item = (u8, u8, u32, u32, Vec<u8>)>) -> Script {
    let mut s = Script::default();
    for (kind, seat, a, b, bytes) in calls {
        s.with(kind, seat, a, b, &bytes);
    }
    s
}

/// Four fresh working copies side by side.
pub fn fresh_copies() -> Vec<u8> {
    let mut copies = vec![0; 4 * COPY];
    for (k, c) in copies.chunks_exact_mut(COPY).enumerate() {
        assert_eq!(engine::create_copy(c, k as u32 + 1).refusal, 0);
    }
    copies
}

/// The copies after a script whose calls are all done.
pub fn after(store: &[u8], copies: &[u8], s: &Script) -> Vec<u8> {
    let (mut st, mut c, mut a) = (store.to_vec(), copies.to_vec(), vec![0; s.0.len()]);
    run(s, &mut st, &mut c, &mut a);
    assert!(a.chunks_exact(512).all(|r| r[..4] == [0; 4]));
    c
}

pub fn run(s: &Script, store: &mut [u8], copies: &mut [u8], answers: &mut [u8]) {
    assert_eq!(engine::replay(&s.0, store, copies, answers).refusal, 0);
}

/// The calls one by one, with the best time of each so far; how many are refused.
pub fn run_one_by_one(s: &Script, store: &mut [u8], copies: &mut [u8], times: &mut Vec<f64>) -> u32 {
    times.resize(s.calls(), f64::MAX);
    let four = |r: &[u8], k: usize| u32::from_le_bytes([r[k], r[k + 1], r[k + 2], r[k + 3]]);
    let mut refused = 0;
    for (r, time) in s.0.chunks_exact(512).zip(times) {
        let start = Instant::now();
        let k = r[1] as usize - 1;
        let copy = &mut copies[k * COPY..(k + 1) * COPY];
        let (a, b) = (four(r, 4), four(r, 8));
        let bytes = &r[16..16 + r[2] as usize + 256 * r[3] as usize];
        let refusal = match r[0] {
            ADD => engine::add(store, copy, a, bytes).refusal,
            EDIT => engine::edit(store, copy, a, bytes).refusal,
            DELETE => engine::delete(store, copy, a).refusal,
            COPY_SHEET => engine::copy_sheet(store, copy, a, b).refusal,
            MOVE => engine::move_sheet(store, copy, a, b).refusal,
            COMMIT => engine::commit(store, copy, a, b).refusal,
            UPDATE => engine::update(store, copy, a, b).refusal,
            REVERT => engine::revert(store, copy, a).refusal,
            READ => engine::read(store, a, b).refusal,
            SHOW => engine::show(store, copy, a).refusal,
            STATUS => engine::status(store, copy, a).refusal,
            _ => engine::log(store, a, b).refusal,
        };
        *time = time.min(start.elapsed().as_nanos() as f64);
        refused += (refusal != 0) as u32;
    }
    refused
}

/// A list of 1,000 calls, 40 of them commits of one sheet, all of them done, for a store with sheets 0 to 29 and fresh copies.
pub fn mixed(last: usize) -> Script {
    let mut s = Script::default();
    let mut rng = Rng(11);
    for cycle in 0..40 {
        let seat = 1 + (cycle % 4) as u8;
        let now = last as u32 + cycle as u32;
        let (e, t) = (cycle as u32 * 7 % 30, (cycle as u32 * 7 + 3) % 30);
        s.call(UPDATE, seat, (1 << 30) - 1, now);
        s.with(EDIT, seat, e, 0, &rng.bytes(300));
        s.call(STATUS, seat, e, 0);
        s.call(SHOW, seat, e, 0);
        s.call(COMMIT, seat, 7, 1 << e);
        for _ in 0..5 {
            s.call(READ, seat, 1 + rng.below(last) as u32, rng.below(30) as u32);
        }
        for _ in 0..3 {
            s.call(LOG, seat, 1 + rng.below(last) as u32, rng.below(30) as u32);
        }
        for _ in 0..2 {
            s.call(STATUS, seat, rng.below(30) as u32, 0);
            s.call(SHOW, seat, rng.below(30) as u32, 0);
        }
        s.with(EDIT, seat, t, 0, &rng.bytes(300));
        s.call(DELETE, seat, t, 0);
        s.call(REVERT, seat, 1 << t, 0);
        s.with(ADD, seat, 30, 0, &rng.bytes(300));
        s.call(DELETE, seat, 30, 0);
        s.call(COPY_SHEET, seat, t, 31);
        s.call(MOVE, seat, 31, 30);
        s.call(DELETE, seat, 30, 0);
    }
    s
}

/// What is measured: takes its own time, in nanoseconds, and is left out of all rounds but each `every`th.
pub struct Job<'a> {
    pub every: usize,
    pub run: Box<dyn FnMut() -> f64 + 'a>,
}

/// The best time of each job; the jobs take turns.
pub fn turns(rounds: usize, jobs: &mut [Job]) -> Vec<f64> {
    let mut times = vec![f64::MAX; jobs.len()];
    for round in 0..rounds {
        for (t, j) in times.iter_mut().zip(jobs.iter_mut()) {
            if round % j.every == 0 {
                *t = t.min((j.run)());
            }
        }
    }
    times
}

pub fn timed<T>(f: impl FnOnce() -> T) -> f64 {
    let start = Instant::now();
    std::hint::black_box(&f());
    start.elapsed().as_nanos() as f64
}

/// Buffers that the jobs of one run share: a store, four working copies, answers.
pub struct Desk(RefCell<(Vec<u8>, Vec<u8>, Vec<u8>)>);

impl Desk {
    pub fn new() -> Desk {
        Desk(RefCell::new((vec![0; 4096 * 512], vec![0; 4 * COPY], vec![0; 1024 * 512])))
    }

    /// A script through replay, each time on the same store and copies.
    pub fn replay<'a>(&'a self, store: &'a [u8], copies: &'a [u8], s: &'a Script) -> Job<'a> {
        Job {
            every: 1,
            run: Box::new(move || {
                let (st, c, a) = &mut *self.0.borrow_mut();
                let (st, a) = (&mut st[..store.len()], &mut a[..s.0.len()]);
                st.copy_from_slice(store);
                c.copy_from_slice(copies);
                let t = timed(|| run(s, st, c, a));
                assert!(a.chunks_exact(512).all(|r| r[..4] == [0; 4]));
                t
            }),
        }
    }

    /// The same calls one by one; the sum of the best times of each.
    pub fn one_by_one<'a>(&'a self, every: usize, store: &'a [u8], copies: &'a [u8], s: &'a Script) -> Job<'a> {
        let mut times = vec![];
        Job {
            every,
            run: Box::new(move || {
                let (st, c, _) = &mut *self.0.borrow_mut();
                let st = &mut st[..store.len()];
                st.copy_from_slice(store);
                c.copy_from_slice(copies);
                assert_eq!(run_one_by_one(s, st, c, &mut times), 0);
                times.iter().sum()
            }),
        }
    }
}

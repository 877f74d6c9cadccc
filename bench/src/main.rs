//! Prints the figures of docs/PERFORMANCE.md as ratios, each pair measured in one run, one after the other in turn, best of many.

mod commit;
mod engine;
mod lists;
mod make;
#[cfg(not(feature = "before-w9"))]
mod panel;
mod rival;
mod script;
#[cfg(feature = "sqlite")]
mod sqlite;
mod store;
mod sums;
mod svn;
#[cfg(not(feature = "before-w7"))]
mod turn;

use script::{after, fresh_copies, script, ADD, COPY, COPY_SHEET, DELETE, EDIT, MOVE, UPDATE};
use std::hint::black_box;
use std::time::Instant;

/// The best time of each function over the rounds, in nanoseconds; the functions take turns.
fn best(rounds: usize, fs: &mut [(&str, Box<dyn FnMut() + '_>)]) -> Vec<f64> {
    let mut times = vec![f64::MAX; fs.len()];
    for _ in 0..rounds {
        for (t, (_, f)) in times.iter_mut().zip(fs.iter_mut()) {
            let start = Instant::now();
            f();
            *t = t.min(start.elapsed().as_nanos() as f64);
        }
    }
    times
}

/// Keeps the answer from being left out by the compiler.
fn keep<T>(answer: T) {
    black_box(&answer);
}

fn report(title: &str, rounds: usize, mut fs: Vec<(&str, Box<dyn FnMut() + '_>)>) -> Vec<f64> {
    let times = best(rounds, &mut fs);
    println!("{title}");
    for ((name, _), t) in fs.iter().zip(&times) {
        println!("  {name:<44} {:>12.0} ns   {:>6.2} of the first", t, t / times[0]);
    }
    times
}

/// The engine accepts the store too, with the same last revision and the same used blocks: it clears all behind them and nothing else.
fn agreed(bytes: &[u8], opened: store::Opened) {
    assert_eq!(engine::read(bytes, 0, 0).refusal, 8);
    let last = opened.last as u32;
    assert!(engine::read(bytes, last, 0).refusal != 7 && engine::read(bytes, last + 1, 0).refusal == 7);
    let mut cleared = bytes.to_vec();
    assert_eq!(engine::clear(&mut cleared).refusal, 0);
    let (used, rest) = cleared.split_at(opened.used * store::BLOCK);
    assert!(used == &bytes[..used.len()] && rest.iter().all(|&x| x == 0));
}

/// The store with wrong checks in its last two blocks. The last is skipped, the one before it is refused: the sums of all blocks but one, and nothing else.
fn broken(bytes: &[u8]) -> Vec<u8> {
    let mut broken = bytes.to_vec();
    broken.chunks_exact_mut(store::BLOCK).rev().take(2).for_each(|b| b[511] ^= 1);
    assert_eq!(engine::read(&broken, 0, 0).refusal, 2);
    assert_eq!(store::open(&broken), Err(2));
    broken
}

fn accept() {
    let mut stores = vec![
        ("ordinary", make::ordinary(4096)),
        ("ordinary with a tail", make::with_tail(4096)),
        ("nearly empty", make::nearly_empty(4096)),
        ("most copies", make::worst(4096)),
        ("most compared, to the last byte", make::compared(4096, 479)),
        ("most compared, unlike in the first byte", make::compared(4096, 0)),
    ];
    if cfg!(not(feature = "before-w9")) {
        stores.extend([
            ("ordinary, each revision released", make::with_releases(4096, 4, 1)),
            ("smallest commits, each released at once", make::released_at_once(4096)),
            ("smallest commits, all released behind them", make::released_behind(4096, 0)),
        ]);
    }
    for (kind, bytes) in stores {
        let opened = store::open(&bytes).expect("the maker lays out a history");
        agreed(&bytes, opened);
        println!("{kind}: {} commits, {} blocks used", opened.last, opened.used);
        let (a, b, c, d, broken) = (bytes.clone(), bytes.clone(), bytes.clone(), bytes.clone(), broken(&bytes));
        report(
            "  acceptance of 4,096 blocks",
            60,
            vec![
                ("Rust version", Box::new(move || keep(store::open(black_box(&a))))),
                ("engine (read 0 0, which is acceptance)", Box::new(move || keep(engine::read(black_box(&b), 0, 0)))),
                ("engine, sums alone (last two checks wrong)", Box::new(move || keep(engine::read(black_box(&broken), 0, 0)))),
                ("Rust version, sums alone", Box::new(move || keep(sums::all_right(black_box(&c), sums::fours)))),
                ("zlib's adler32 over the same bytes", Box::new(move || keep(engine::adler(black_box(&d))))),
            ],
        );
    }
    for blocks in [32, 64, 65, 1000, 4096] {
        let bytes = make::ordinary(blocks);
        let t = best(400, &mut [("", Box::new(move || keep(engine::read(black_box(&bytes), 0, 0))))]);
        println!("acceptance a block, of {blocks} blocks: {:.0} ns", t[0] / blocks as f64);
    }
    #[cfg(not(feature = "before-w9"))]
    panel::accept_a_block();
}

/// A store of 4,096 blocks, and the sums of all of them: the engine's (the last two checks are wrong, so that it does nothing else, and leaves out the last block), each form in Rust, zlib's.
fn summers() -> Vec<(&'static str, Box<dyn FnMut()>)> {
    let bytes: &'static [u8] = make::ordinary(4096).leak();
    let broken = broken(bytes);
    fn of(bytes: &'static [u8], form: impl Fn(&[u8]) -> (u32, u32) + Copy + 'static) -> Box<dyn FnMut()> {
        let high = [255; 512];
        assert!(sums::all_right(bytes, form) && form(&high) == sums::by_byte(&high));
        Box::new(move || keep(sums::all_right(black_box(bytes), form)))
    }
    vec![
        ("Rust, byte by byte (the loop before W4)", of(bytes, sums::by_byte)),
        ("engine, four bytes as a word", Box::new(move || keep(engine::read(black_box(&broken), 0, 0)))),
        ("Rust, four bytes as a word", of(bytes, sums::fours)),
        ("Rust, side by side, the first of 16 bits", of(bytes, sums::side_by_side)),
        ("Rust, side by side, all of 32 bits", of(bytes, sums::side_by_side_wide)),
        ("Rust, side by side, runs of 21 steps", of(bytes, sums::runs)),
        ("Rust, one pair of sums, a step at once", of(bytes, sums::at_once)),
        ("Rust, the same, reduced at every step", of(bytes, sums::reduced)),
        ("zlib's adler32 over the same bytes", Box::new(move || keep(engine::adler(black_box(bytes))))),
    ]
}

/// What `bench/count` has valgrind count.
#[inline(never)]
#[no_mangle]
fn counted(f: &mut dyn FnMut()) {
    f()
}

fn find() {
    for commits in [10, 100, 1000, 2000] {
        let (bytes, used) = make::deep(commits);
        assert_eq!(store::open(&bytes).expect("the maker lays out a history").last, commits);
        println!("read on an accepted store, inner function, {commits} commits");
        for (what, r, sheet) in [("found in commit R, R the last", commits, 0), ("found in commit R, R in the middle", commits / 2, 0), ("found in the first commit, R the last", commits, 1)] {
            assert_ne!(engine::look_up(&bytes, used, r, sheet), 0);
            let (a, b) = (&bytes, &bytes);
            let many = 200;
            let t = best(
                50,
                &mut [
                    ("", Box::new(|| (0..many).for_each(|_| keep(store::find(black_box(a), used, r, sheet))))),
                    ("", Box::new(|| (0..many).for_each(|_| keep(engine::look_up(black_box(b), used, r, sheet))))),
                ],
            );
            println!("  {what:<40} engine {:>8.0} ns, Rust {:>8.0} ns", t[1] / many as f64, t[0] / many as f64);
        }
    }
}

/// A call, the working copy that it starts from, and what it does with the store and the copy: its refusal.
type Call<'a> = (&'a str, &'a [u8], &'a dyn Fn(&mut [u8], &mut [u8]) -> u32);

/// The best time of each call, each time on fresh copies of the store and of its working copy; the calls take turns.
fn best_calls(store: &[u8], calls: &[Call]) -> Vec<f64> {
    let (mut s, mut w) = (store.to_vec(), vec![0; 16896]);
    let mut times = vec![f64::MAX; calls.len()];
    for _ in 0..60 {
        for (t, (_, copy, f)) in times.iter_mut().zip(calls) {
            s.copy_from_slice(store);
            w.copy_from_slice(copy);
            let start = Instant::now();
            let refusal = f(black_box(&mut s), black_box(&mut w));
            *t = t.min(start.elapsed().as_nanos() as f64);
            assert_eq!(refusal, 0);
        }
    }
    times
}

/// The number of a call that must be done: 0, or its refusal, or 99 where it stopped.
fn done(answer: commit::Cut) -> u32 {
    answer.map_or_else(|refusal| refusal, |value| if value.is_some() { 0 } else { 99 })
}

/// A cut commit by the engine and by the Rust version, with the same answer and the same bytes. The store that it leaves.
fn commit_both(store: &[u8], copy: &[u8], mask: u32, n: u32) -> (commit::Cut, Vec<u8>) {
    let (mut a, mut ac, mut b, mut bc) = (store.to_vec(), copy.to_vec(), store.to_vec(), copy.to_vec());
    let answer = engine::commit_cut(&mut a, &mut ac, 7, mask, n);
    assert_eq!(answer, commit::commit_cut(&mut b, &mut bc, 7, mask, n));
    assert!(a == b && ac == bc);
    (answer, a)
}

/// The same of a cut clearing.
fn clear_both(store: &[u8], n: u32) -> commit::Cut {
    let (mut a, mut b) = (store.to_vec(), store.to_vec());
    let answer = engine::clear_cut(&mut a, n);
    assert_eq!(answer, commit::clear_cut(&mut b, n));
    assert!(a == b);
    answer
}

/// The engine's cut calls are the Rust version's, of several sheets in every state, with n from none to more than enough, refused and not.
fn cuts_agree() {
    let m = make::steady(100, 40, 20, &mut |r| (r % 20) as u8);
    let (last, newest) = (m.last as u32, m.last as u32 % 20);
    let copy_at = |revision: u32, calls: &[(u8, u32, u32, &[u8])]| {
        let all = [(UPDATE, u32::MAX, revision, &[][..])];
        let list = script(all.iter().chain(calls).map(|&(kind, a, b, bytes)| (kind, 1, a, b, bytes.to_vec())));
        after(&m.store, &fresh_copies(), &list)[..COPY].to_vec()
    };
    let copy = copy_at(
        last,
        &[
            (EDIT, 3, 0, b"edited"),
            (DELETE, 4, 0, b""),
            (COPY_SHEET, 5, 20, b""),
            (COPY_SHEET, 6, 21, b""),
            (EDIT, 21, 0, b""),
            (ADD, 22, 0, &[7; 480]),
            (MOVE, 7, 23, b""),
        ],
    );
    let stale = copy_at(last - 1, &[(EDIT, newest, 0, b"edited"), (ADD, 22, 0, b"")]);
    let damaged = |bytes: &[u8], at: usize| {
        let mut bytes = bytes.to_vec();
        bytes[at] ^= 1;
        bytes
    };
    let (used, empty) = (m.used * store::BLOCK, make::Maker::new(4).store);
    let mut labels = m.store.clone();
    labels.copy_within(..store::BLOCK, used);
    let cases: [(&[u8], &[u8]); 10] = [
        (&m.store, &copy),
        (&m.store, &stale),
        (&m.store[..used + 2 * store::BLOCK], &copy),
        (&m.store[1..], &copy),
        (&damaged(&m.store, 600), &copy),
        (&labels, &copy),
        (&m.store, &copy[1..]),
        (&m.store, &damaged(&copy, 600)),
        (&empty, &copy),
        (&damaged(&m.store, used), &[]),
    ];
    let mut seen = std::collections::BTreeMap::new();
    for (store, copy) in cases {
        for mask in [u32::MAX, 0, 1, 1 << newest, 1 << 3, 1 << 4, 1 << 20, 1 << 21, 1 << 22, 1 << 7 | 1 << 23] {
            for n in (0..7).chain([33, u32::MAX]) {
                let (answer, left) = commit_both(store, copy, mask, n);
                *seen.entry(done(answer)).or_insert(0) += 1;
                for n in (0..7).chain([33, u32::MAX]) {
                    *seen.entry(done(clear_both(&left, n))).or_insert(0) += 1;
                }
            }
        }
    }
    assert!(seen.keys().eq(&[0, 1, 2, 3, 4, 5, 6, 7, 10, 11, 13, 14, 99]));
    println!("{} cut calls: the Rust version's answers and bytes", seen.values().sum::<i32>());
}

fn calls() {
    if cfg!(feature = "before-w6") {
        println!("a library from before W6: its cut calls are the usual ones");
    } else {
        cuts_agree();
    }
    if cfg!(feature = "before-w7") {
        println!("a library from before W7: its commit in turn is the usual one");
    }
    for blocks in [32, 1000, 4096] {
        let store = make::ordinary(blocks);
        let opened = store::open(&store).expect("the maker lays out a history");
        let (used, last, all) = (opened.used, opened.last as u32, u32::MAX);
        let sheet = (0..31).find(|&i| engine::read(&store, last, i).refusal == 0).expect("some sheet is there");
        let mut fresh = vec![0; 16896];
        assert_eq!(engine::create_copy(&mut fresh, 1).refusal, 0);
        let mut copy = fresh.clone();
        assert_eq!(engine::update(&store, &mut copy, all, last).refusal, 0);
        let mut edited = copy.clone();
        assert_eq!(engine::edit(&store, &mut edited, sheet, b"edited").refusal, 0);
        let bytes = [7; 480];
        let (junk, tail) = ([7; store::BLOCK], used * store::BLOCK..(used + 1) * store::BLOCK);
        let turn = engine::Turn::from_numbers([1, 2, 3, 4]);
        let calls: [Call; 23] = [
            ("acceptance (read 0 0)", &copy, &|s, _| (engine::read(s, 0, 0).refusal != 8) as u32),
            ("read", &copy, &|s, _| engine::read(s, last, sheet).refusal),
            ("log", &copy, &|s, _| engine::log(s, last, sheet).refusal),
            ("status", &copy, &|s, w| engine::status(s, w, sheet).refusal),
            ("show", &copy, &|s, w| engine::show(s, w, sheet).refusal),
            ("add", &copy, &|s, w| engine::add(s, w, 31, &bytes).refusal),
            ("edit", &copy, &|s, w| engine::edit(s, w, sheet, &bytes).refusal),
            ("delete", &copy, &|s, w| engine::delete(s, w, sheet).refusal),
            ("copy", &copy, &|s, w| engine::copy_sheet(s, w, sheet, 31).refusal),
            ("move", &copy, &|s, w| engine::move_sheet(s, w, sheet, 31).refusal),
            ("commit of one edit", &edited, &|s, w| engine::commit(s, w, 7, all).refusal),
            ("commit in turn of one edit", &edited, &|s, w| engine::commit_in_turn(s, w, turn, 7, all).refusal),
            ("update of all sheets from 0 to the last", &fresh, &|s, w| engine::update(s, w, all, last).refusal),
            ("update of all sheets from the last to 1", &copy, &|s, w| engine::update(s, w, all, 1).refusal),
            ("revert of one edit", &edited, &|s, w| engine::revert(s, w, 1 << sheet).refusal),
            ("clear, no tail", &copy, &|s, _| engine::clear(s).refusal),
            ("clear of a tail of one block", &copy, &|s, _| {
                s[tail.clone()].copy_from_slice(&junk);
                engine::clear(s).refusal
            }),
            ("commit cut of one edit, n enough", &edited, &|s, w| done(engine::commit_cut(s, w, 7, all, 33))),
            ("clear cut of a tail of one block, n enough", &copy, &|s, _| {
                s[tail.clone()].copy_from_slice(&junk);
                done(engine::clear_cut(s, 33))
            }),
            ("Rust version: commit cut", &edited, &|s, w| done(commit::commit_cut(s, w, 7, all, 33))),
            ("Rust version: clear cut", &copy, &|s, _| {
                s[tail.clone()].copy_from_slice(&junk);
                done(commit::clear_cut(s, 33))
            }),
            ("Rust version: acceptance", &copy, &|s, _| store::open(s).err().unwrap_or(0)),
            ("Rust version: acceptance and read", &copy, &|s, _| {
                let o = store::open(s).expect("accepted");
                store::find(s, o.used, last as usize, sheet as usize).is_none() as u32
            }),
        ];
        let times = best_calls(&store, &calls);
        println!("calls on {blocks} blocks, {last} commits");
        for ((what, _, _), t) in calls.iter().zip(&times) {
            println!("  {what:<44} {t:>10.0} ns   {:>6.2} of acceptance", t / times[0]);
        }
        let of = |what: &str| times[calls.iter().position(|c| c.0 == what).expect("a line")];
        println!("  commit in turn / commit: {:.3}", of("commit in turn of one edit") / of("commit of one edit"));
        let (commit, clear) = ("commit cut of one edit, n enough", "clear cut of a tail of one block, n enough");
        println!("  engine / Rust version: commit cut {:.2}, clear cut {:.2}", of(commit) / of("Rust version: commit cut"), of(clear) / of("Rust version: clear cut"));
        let (many, i) = (200, sheet as usize);
        let inner = best(
            50,
            &mut [
                ("status", Box::new(|| (0..many).for_each(|_| keep(engine::inner_status(black_box(&store), &copy, used, last as usize, 1, i))))),
                ("read", Box::new(|| (0..many).for_each(|_| keep(engine::look_up(black_box(&store), used, last as usize, i))))),
            ],
        );
        println!("  inner functions alone: status {:.0} ns, read {:.0} ns", inner[0] / many as f64, inner[1] / many as f64);
        lists::each(blocks, times[0]);
    }
}

fn main() {
    // the parts to run, all where none is named
    let parts: Vec<String> = std::env::args().skip(1).collect();
    if let ["count", n] = parts.iter().map(String::as_str).collect::<Vec<_>>()[..] {
        let (name, f) = &mut summers()[n.parse::<usize>().expect("a number")];
        counted(f);
        return println!("{name}");
    }
    let wanted = |name: &str| parts.is_empty() || parts.iter().any(|p| p == name);
    if wanted("sums") {
        report("the sums of 4,096 blocks", 400, summers());
    }
    if wanted("accept") {
        accept();
    }
    if wanted("find") {
        find();
    }
    if wanted("calls") {
        calls();
    }
    #[cfg(not(feature = "before-w7"))]
    if wanted("turns") {
        turn::calls();
    }
    #[cfg(not(feature = "before-w9"))]
    if wanted("panel") {
        panel::calls();
    }
    if wanted("lists") {
        lists::sizes();
    }
    if wanted("rivals") {
        rival::rivals();
    }
}

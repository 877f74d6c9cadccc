//! An independent version of release and of a panel's reading, in plain Rust from the papers: what the engine's are held to for speed and for their answers.

use crate::commit::tail;
use crate::script::{after, fresh_copies, script, turns, Desk, Script, COPY, EDIT, READ, UPDATE};
use crate::store::{self, find, open, seal, two, BLOCK};
use crate::{agreed, best, best_calls, commit_both, done, engine, keep, make, Call};
use std::collections::BTreeMap;
use std::hint::black_box;

const RELEASE: u8 = 20;
const PANEL: u8 = 21;

/// The revisions that the releases of an accepted store name.
fn releases(store: &[u8], used: usize) -> impl Iterator<Item = usize> + '_ {
    store[..used * BLOCK].chunks_exact(BLOCK).filter(|b| b[0] == 6).map(|b| two(b, 4))
}

fn release(store: &mut [u8], revision: u32, seat: u32, stamp: u32) -> Result<(), u32> {
    let opened = open(store)?;
    let (used, r) = (opened.used, revision as usize);
    if tail(store, used) != 0 {
        return Err(14);
    }
    if !(1..=opened.last).contains(&r) || !(1..=4).contains(&seat) {
        return Err(7);
    }
    if releases(store, used).any(|x| x == r) {
        return Err(16);
    }
    if used == store.len() / BLOCK {
        return Err(13);
    }
    let b = &mut store[used * BLOCK..(used + 1) * BLOCK];
    b[0] = 6;
    b[4..6].copy_from_slice(&(r as u16).to_le_bytes());
    b[6] = seat as u8;
    b[8..12].copy_from_slice(&stamp.to_le_bytes());
    seal(b);
    Ok(())
}

/// The place and the length of what a panel shows, and the last commit that named the sheet.
fn panel_read(store: &[u8], revision: u32, sheet: u32) -> Result<(usize, usize, usize), u32> {
    let opened = open(store)?;
    let (r, i) = (revision as usize, sheet as usize);
    if r > opened.last || i > 31 {
        return Err(7);
    }
    let shown = releases(store, opened.used).filter(|&x| x <= r).max().ok_or(8u32)?;
    find(store, opened.used, shown, i).ok_or(8)
}

/// How often a refusal was seen, 0 for none.
type Seen = BTreeMap<u32, u32>;

fn count<T>(seen: &mut Seen, answer: Result<T, u32>) {
    *seen.entry(answer.err().unwrap_or(0)).or_insert(0) += 1;
}

/// Acceptance by the engine is the Rust version's.
fn accepted_alike(bytes: &[u8]) -> Result<(), u32> {
    match open(bytes) {
        Ok(opened) => Ok(agreed(bytes, opened)),
        refused => {
            let refused = refused.map(|_| ());
            assert_eq!(Err(engine::read(bytes, 0, 0).refusal), refused);
            refused
        }
    }
}

/// The same of stores with one byte changed and sealed again, with two blocks in each other's place, and with a block twice.
fn changed_alike(bytes: &[u8]) -> Seen {
    let mut seen = Seen::new();
    let (mut other, blocks) = (bytes.to_vec(), bytes.len() / BLOCK);
    for p in 1..blocks {
        let at = p * BLOCK..(p + 1) * BLOCK;
        for k in (0..28).chain([200, 507]) {
            for x in [0, 1, 2, 3, 4, 5, 6, 7, 255, bytes[at.start + k] ^ 1] {
                other[at.start + k] = x;
                seal(&mut other[at.clone()]);
                count(&mut seen, accepted_alike(&other));
                other[at.clone()].copy_from_slice(&bytes[at.clone()]);
            }
        }
        for q in 1..blocks {
            let to = q * BLOCK..(q + 1) * BLOCK;
            other[to.clone()].copy_from_slice(&bytes[at.clone()]);
            count(&mut seen, accepted_alike(&other));
            other[at.clone()].copy_from_slice(&bytes[to.clone()]);
            count(&mut seen, accepted_alike(&other));
            other[at.clone()].copy_from_slice(&bytes[at.clone()]);
            other[to.clone()].copy_from_slice(&bytes[to]);
        }
    }
    seen
}

/// A call of each kind by the engine and by the Rust version, with the same answers and the same bytes.
fn called_alike(bytes: &[u8], seen: &mut Seen) {
    let last = open(bytes).map_or(0, |opened| opened.last as u32);
    for revision in (0..last + 3).chain([257, 65536 + last, u32::MAX]) {
        for sheet in (0..34).chain([u32::MAX]) {
            let place = engine::panel_read(bytes, revision, sheet);
            let answer = match place.refusal {
                0 => Ok((place.start, place.len, place.revision as usize)),
                refusal => Err(refusal),
            };
            assert_eq!(answer, panel_read(bytes, revision, sheet));
            count(seen, answer);
        }
        for seat in [0, 1, 2, 3, 4, 5, 257, u32::MAX] {
            let (mut a, mut b) = (bytes.to_vec(), bytes.to_vec());
            let answer = match engine::release(&mut a, revision, seat, 0x01020304).refusal {
                0 => Ok(()),
                refusal => Err(refusal),
            };
            assert_eq!(answer, release(&mut b, revision, seat, 0x01020304));
            assert!(a == b);
            count(seen, answer);
            count(seen, accepted_alike(&a));
        }
    }
}

/// The engine's acceptance, release, panel's reading and commit are the Rust version's, on stores with and without releases, with tails and broken.
fn agree() {
    let some = make::with_releases(40, 4, 2);
    let used = open(&some).expect("the maker lays out a history").used;
    let mut changed = changed_alike(&some[..(used + 2) * BLOCK]);
    changed_alike(&make::released_behind(16, 1)).into_iter().for_each(|(k, n)| *changed.entry(k).or_insert(0) += n);
    assert!(changed.keys().eq(&[0, 3]));
    println!("{} stores with a byte, a block or two changed: the Rust version's acceptance", changed.values().sum::<u32>());

    let with = |at: usize, bytes: &[u8]| {
        let mut other = some.clone();
        other[at..at + bytes.len()].copy_from_slice(bytes);
        other
    };
    let content = some.chunks_exact(BLOCK).find(|b| b[0] == 2).expect("a content block");
    let mut next = content.to_vec();
    next[4..6].copy_from_slice(&(open(&some).expect("a history").last as u16 + 1).to_le_bytes());
    seal(&mut next);
    let stores = [
        some.clone(),
        make::ordinary(40),
        make::with_releases(40, 4, 1),
        make::released_at_once(32),
        make::released_at_once(34),
        make::released_behind(32, 0),
        make::released_behind(64, 7),
        some[..used * BLOCK].to_vec(),
        make::Maker::new(4).store,
        with(used * BLOCK, &next),
        with(used * BLOCK, &[7; 7]),
        with(600, &[7; 7]),
        with(0, &next),
        some[1..].to_vec(),
        vec![],
    ];
    let mut seen = Seen::new();
    for bytes in &stores {
        called_alike(bytes, &mut seen);
    }
    for bytes in &stores[..8] {
        let last = open(bytes).expect("a history").last as u32;
        let sheet = (0..32).find(|&i| engine::read(bytes, last, i).refusal == 0).expect("some sheet is there");
        let calls = [(UPDATE, u32::MAX, last, vec![]), (EDIT, sheet, 0, b"edited".to_vec())];
        let copy = &after(bytes, &fresh_copies(), &script(calls.map(|(kind, a, b, bytes)| (kind, 1, a, b, bytes))))[..COPY];
        for n in [0, 1, 2, 33] {
            let (answer, left) = commit_both(bytes, copy, u32::MAX, n);
            count(&mut seen, if done(answer) == 99 { Ok(()) } else { answer.map(|_| ()) });
            called_alike(&left, &mut seen);
        }
    }
    println!("{} calls of release, panel's reading and commit, or acceptance after them: the Rust version's answers and bytes; refusals {:?}", seen.values().sum::<u32>(), seen.keys());
    assert!(seen.keys().eq(&[0, 1, 2, 3, 7, 8, 13, 14, 16]));
}

/// Acceptance of stores full of releases, a block, at several sizes.
pub fn accept_a_block() {
    for blocks in [32, 64, 65, 1000, 4096] {
        let (at_once, behind) = (make::released_at_once(blocks), make::released_behind(blocks, 0));
        let t = best(
            400,
            &mut [
                ("", Box::new(move || keep(engine::read(black_box(&at_once), 0, 0)))),
                ("", Box::new(move || keep(engine::read(black_box(&behind), 0, 0)))),
            ],
        );
        let ns = |t: f64| t / blocks as f64;
        println!("acceptance a block, of {blocks} blocks, half of them releases: {:.0} ns, all behind the commits: {:.0} ns", ns(t[0]), ns(t[1]));
    }
}

/// A script of releases by seat 1.
fn releasing(revisions: &[usize]) -> Script {
    let mut s = Script::default();
    for &r in revisions {
        s.call(RELEASE, 1, r as u32, 7);
        let at = s.0.len() - BLOCK + 12;
        s.0[at] = 1;
    }
    s
}

/// Release and a panel's reading at the last revision beside read, one by one and through replay.
fn on_stores() {
    for (kind, bytes) in [
        ("ordinary", make::with_room(4096, 96)),
        ("ordinary, each hundredth revision released", make::with_releases(4096, 96, 100)),
        ("ordinary, each second revision released", make::with_releases(4096, 96, 2)),
        ("smallest commits, all but 96 released behind them", make::released_behind(4096, 96)),
    ] {
        let opened = open(&bytes).expect("the maker lays out a history");
        let (used, last) = (opened.used, opened.last as u32);
        let named: Vec<usize> = releases(&bytes, used).collect();
        println!("{kind}: {last} commits, {} releases, {used} blocks used", named.len());
        let expected = if named.is_empty() { 8 } else { 0 };
        let both = |i: &u32| engine::read(&bytes, last, *i).refusal == 0 && engine::panel_read(&bytes, last, *i).refusal == expected;
        let sheet = (1..32).find(both).expect("some sheet is there");
        let free: Vec<usize> = (1..=opened.last).filter(|r| !named.contains(r)).take(64).collect();
        let (r, copy) = (free[0] as u32, fresh_copies()[..COPY].to_vec());
        let as_expected = |refusal: u32| (refusal != expected) as u32;
        let calls: [Call; 7] = [
            ("acceptance (read 0 0)", &copy, &|s, _| (engine::read(s, 0, 0).refusal != 8) as u32),
            ("read", &copy, &|s, _| engine::read(s, last, sheet).refusal),
            ("Rust version: read", &copy, &|s, _| open(s).map_or(1, |o| find(s, o.used, last as usize, sheet as usize).is_none() as u32)),
            ("panel's reading", &copy, &|s, _| as_expected(engine::panel_read(s, last, sheet).refusal)),
            ("Rust version: panel's reading", &copy, &|s, _| as_expected(panel_read(s, last, sheet).err().unwrap_or(0))),
            ("release", &copy, &|s, _| engine::release(s, r, 1, 7).refusal),
            ("Rust version: release", &copy, &|s, _| release(s, r, 1, 7).err().unwrap_or(0)),
        ];
        let t = best_calls(&bytes, &calls);
        for ((what, _, _), t1) in calls.iter().zip(&t) {
            println!("  {what:<44} {t1:>10.0} ns   {:>6.3} of acceptance", t1 / t[0]);
        }
        println!("  panel's reading / read: {:.3}; engine / Rust version: read {:.2}, panel's reading {:.2}, release {:.2}", t[3] / t[1], t[1] / t[2], t[3] / t[4], t[5] / t[6]);
        let (copies, desk, many) = (fresh_copies(), Desk::new(), 1000);
        let lists = [(READ, last, sheet), (PANEL, last, sheet)].map(|(kind, a, b)| script((0..many).map(|_| (kind, 1, a, b, vec![]))));
        let (releases, empty) = (releasing(&free), Script::default());
        let mut jobs = vec![desk.replay(&bytes, &copies, &empty), desk.replay(&bytes, &copies, &lists[0])];
        jobs.push(desk.replay(&bytes, &copies, &releases));
        if expected == 0 {
            jobs.push(desk.replay(&bytes, &copies, &lists[1]));
        }
        let t = turns(60, &mut jobs);
        println!("  each through replay, the check apart");
        let line = |what: &str, t1: f64, n: usize| println!("  {what:<44} {:>10.0} ns", (t1 - t[0]) / n as f64);
        line("read", t[1], many);
        line("release", t[2], free.len());
        t.get(3).into_iter().for_each(|&t1| line("panel's reading", t1, many));
    }
}

/// The search of a sheet in the same commits without releases and with releases at several places.
fn searches() {
    let stores = [
        ("no release", make::released_behind(4096, 4096)),
        ("each released at once", make::released_at_once(4096)),
        ("each released 100 commits later", make::released_later(4096)),
        ("behind each second the one half as old", make::released_half_as_old(4096)),
        ("all releases behind the commits", make::released_behind(4096, 0)),
    ];
    let last = open(&stores[0].1).expect("the maker lays out a history").last;
    println!("read on an accepted store, inner function, {last} commits");
    let mut rng = make::Rng(7);
    let at_random: Vec<usize> = (0..1000).map(|_| 2 + rng.below(last / 2) * 2).collect();
    for (what, revisions, sheet) in [
        ("found in commit R, R the last", vec![last], 1),
        ("found in commit R, R in the middle", vec![last / 4 * 2], 1),
        ("found in commit R, R at random", at_random, 1),
        ("found in the first commit, R the last", vec![last], 0),
    ] {
        for (kind, bytes) in &stores {
            let used = open(bytes).expect("the maker lays out a history").used;
            for &r in &revisions {
                assert_eq!(engine::look_up(bytes, used, r, sheet) * BLOCK + 16, find(bytes, used, r, sheet).expect("it is there").0);
            }
            let many = 1000;
            let r = |k: usize| revisions[k % revisions.len()];
            let t = best(
                50,
                &mut [
                    ("", Box::new(|| (0..many).for_each(|k| keep(store::find(black_box(bytes), used, r(k), sheet))))),
                    ("", Box::new(|| (0..many).for_each(|k| keep(engine::look_up(black_box(bytes), used, r(k), sheet))))),
                ],
            );
            println!("  {:<80} engine {:>8.0} ns, Rust {:>8.0} ns", format!("{what}, {kind}"), t[1] / many as f64, t[0] / many as f64);
        }
    }
}

pub fn calls() {
    agree();
    on_stores();
    searches();
}

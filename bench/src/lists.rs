//! Lists of calls through replay: at stores of several sizes, and each call alone.

use crate::script::*;
use crate::{engine, make, store};

/// Commit, update of 32 sheets and 1,000 mixed calls, per call, at 100, 1,000 and 4,000 blocks in use.
pub fn sizes() {
    println!("lists of calls through replay, the check apart, beside the same calls one by one; nanoseconds a call");
    let (empty, desk) = (Script::default(), Desk::new());
    for used in [100, 1000, 4000] {
        let m = make::steady(used, 96, 32, &mut |r| (r * 13 % 32) as u8);
        let few = make::steady(used, 96, 30, &mut |r| (r * 13 % 30) as u8);
        let mut rng = make::Rng(5);
        let fresh = fresh_copies();
        let whole = after(&m.store, &fresh, &script((1..=4).map(|k| (UPDATE, k, u32::MAX, m.last as u32, vec![]))));
        let lines: Vec<(u8, u8, u32, u32, Vec<u8>)> = (0..40).map(|j| (EDIT, 1, j * 5 % 32, 0, rng.bytes(300))).collect();
        let edits = script(lines.clone());
        let pairs = script(lines.iter().flat_map(|e| [e.clone(), (COMMIT, 1, 7, 1 << e.2, vec![])]));
        let updates = script((0..100).map(|_| (UPDATE, 1, u32::MAX, 1 + rng.below(m.last) as u32, vec![])));
        let some = Script(updates.0[..10 * 512].to_vec());
        let absent = script((0..100).map(|_| (UPDATE, 1, 1 << 31, few.last as u32, vec![])));
        let list = mixed(few.last);
        same(&few.store, &fresh, &list);
        let (rounds, seldom) = if used > 1000 { (400, 100) } else { (1000, 200) };
        let t = turns(
            rounds,
            &mut [
                desk.replay(&m.store, &whole, &empty),
                desk.replay(&m.store, &whole, &edits),
                desk.replay(&m.store, &whole, &pairs),
                desk.replay(&m.store, &whole, &updates),
                desk.replay(&few.store, &fresh, &empty),
                desk.replay(&few.store, &fresh, &list),
                desk.replay(&few.store, &fresh, &absent),
                desk.one_by_one(seldom, &m.store, &whole, &edits),
                desk.one_by_one(seldom, &m.store, &whole, &pairs),
                desk.one_by_one(seldom, &m.store, &whole, &some),
                desk.one_by_one(seldom, &few.store, &fresh, &list),
            ],
        );
        let n = 40.0;
        println!("  {} blocks in use of {}, {} commits: check of the five buffers {:.0}", m.used, m.store.len() / 512, m.last, t[0]);
        let line = |what: &str, through: f64, alone: f64| println!("    {what:<44} replay {through:>8.0}   one by one {alone:>10.0}   {:>8.5} of it", through / alone);
        line("commit of one sheet", (t[2] - t[1]) / n, (t[8] - t[7]) / n);
        line("update of 32 sheets to a random revision", (t[3] - t[0]) / 100.0, t[9] / 10.0);
        line("1,000 mixed calls", (t[5] - t[4]) / 1000.0, t[10] / 1000.0);
        line("1,000 mixed calls, the check in it", t[5] / 1000.0, t[10] / 1000.0);
        println!("    {:<44} replay {:>8.0}", "update of a sheet that no commit names", (t[6] - t[4]) / 100.0);
    }
}

/// Both ways leave the same buffers.
fn same(store: &[u8], copies: &[u8], s: &Script) {
    let (mut a, mut ac, mut answers) = (store.to_vec(), copies.to_vec(), vec![0; s.0.len()]);
    let (mut b, mut bc) = (store.to_vec(), copies.to_vec());
    run(s, &mut a, &mut ac, &mut answers);
    assert_eq!(run_one_by_one(s, &mut b, &mut bc, &mut vec![]), 0);
    assert!(a == b && ac == bc);
}

/// Each call alone through replay, in nanoseconds, with the check taken off; beside the Rust version's read.
pub fn each(blocks: usize, acceptance: f64) {
    let store = make::with_room(blocks, if blocks < 100 { 16 } else { 96 });
    let opened = store::open(&store).expect("the maker lays out a history");
    let (used, last) = (opened.used, opened.last as u32);
    let commits = (blocks - used) / 2;
    let sheet = (0..31).find(|&i| engine::read(&store, last, i).refusal == 0).expect("some sheet is there");
    let fresh = fresh_copies();
    let four = |kind, a, b| script((1..=4).map(|k| (kind, k, a, b, vec![])));
    let whole = after(&store, &fresh, &four(UPDATE, u32::MAX, last));
    let everywhere = || (1..=4u8).flat_map(|k| (0..32u32).map(move |i| (k, i)));
    let adds = script(everywhere().map(|(k, i)| (ADD, k, i, 0, vec![7; 480])));
    let added = after(&store, &fresh, &adds);
    let one = after(&store, &fresh, &script((1..=4).map(|k| (ADD, k, 0, 0, vec![7; 480]))));
    let many = |kind, a, b| script((0..128).map(|_| (kind, 1, a, b, vec![])));
    let edit = |j: u32| (EDIT, 1, sheet, 0, vec![j as u8 + 8; 480]);
    let edited = after(&store, &whole, &script([edit(0)]));
    let edits = script((0..commits as u32).map(edit));
    let pairs = script((0..commits as u32).flat_map(|j| [edit(j), (COMMIT, 1, 7, u32::MAX, vec![])]));
    let lists: Vec<(&str, &[u8], Script)> = vec![
        ("read", &whole, many(READ, last, sheet)),
        ("log", &whole, many(LOG, last, sheet)),
        ("status", &whole, many(STATUS, sheet, 0)),
        ("status of an added sheet", &added, many(STATUS, sheet, 0)),
        ("show", &whole, many(SHOW, sheet, 0)),
        ("add", &fresh, adds.clone()),
        ("edit", &whole, script((0..128).map(edit))),
        ("delete", &added, script(everywhere().map(|(k, i)| (DELETE, k, i, 0, vec![])))),
        ("copy", &one, script(everywhere().filter(|&(_, i)| i != 0).map(|(k, i)| (COPY_SHEET, k, 0, i, vec![])))),
        ("move", &one, script((0..128).map(|j| (MOVE, 1, j % 2, 1 - j % 2, vec![])))),
        ("update of all sheets, to 1 and to the last", &whole, script((0..64).flat_map(|_| [1, last]).map(|r| (UPDATE, 1, u32::MAX, r, vec![])))),
        ("update of one modified sheet", &edited, many(UPDATE, 1 << sheet, last)),
        ("revert of one sheet", &whole, many(REVERT, 1 << sheet, 0)),
    ];
    let (empty, desk) = (Script::default(), Desk::new());
    let mut jobs = vec![desk.replay(&store, &whole, &edits), desk.replay(&store, &whole, &pairs), desk.replay(&store, &whole, &empty)];
    for (_, copies, s) in &lists {
        jobs.push(desk.replay(&store, copies, s));
        jobs.push(desk.replay(&store, copies, &empty));
    }
    let mut record = [0u8; 512];
    let bytes = &store;
    jobs.push(Job {
        every: 1,
        run: Box::new(move || {
            timed(|| {
                for _ in 0..128 {
                    let (at, len, revision) = store::find(std::hint::black_box(bytes), used, last as usize, sheet as usize).expect("it is there");
                    record.fill(0);
                    record[8..12].copy_from_slice(&(revision as u32).to_le_bytes());
                    record[28..32].copy_from_slice(&(len as u32).to_le_bytes());
                    record[32..32 + len].copy_from_slice(&bytes[at..at + len]);
                    std::hint::black_box(&record);
                }
            })
        }),
    });
    let t = turns(if blocks > 1000 { 60 } else { 150 }, &mut jobs);
    println!("  each call through replay, the check apart");
    let line = |what: &str, ns: f64| println!("  {what:<44} {ns:>10.0} ns   {:>9.6} of acceptance", ns / acceptance);
    for (k, (what, _, s)) in lists.iter().enumerate() {
        line(what, (t[3 + 2 * k] - t[4 + 2 * k]) / s.calls() as f64);
    }
    line("commit of one edit", (t[1] - t[0]) / commits as f64);
    line("the check of the five buffers", t[2]);
    line("Rust version: read, its bytes in a record", t[t.len() - 1] / 128.0);
}

//! The engine beside SQLite's C library, and beside whole commands of Subversion, at 1,000 commits.

use crate::make::{Maker, Rng};
use crate::script::*;
use crate::{engine, make, svn};
use std::path::{Path, PathBuf};
use std::time::Instant;

const COMMITS: usize = 1000;
#[cfg(feature = "sqlite")]
const READS: usize = 1000;
#[cfg(feature = "sqlite")]
const FILED: usize = 500;
#[cfg(feature = "sqlite")]
const UPDATES: usize = 100;

/// 32 sheets in the first commit, then a random one in each; `room` blocks left.
fn history(room: usize) -> Maker {
    let mut rng = Rng(3);
    // the label, 33 blocks of the first commit, two of each of the others
    let m = make::steady(1 + 33 + 2 * (COMMITS - 1), room, 32, &mut |_| rng.below(32) as u8);
    assert_eq!(m.last, COMMITS);
    m
}

/// Its commits as (revision, sheet, bytes).
fn rows_of(m: &Maker) -> Vec<(usize, u8, Vec<u8>)> {
    let mut rows = vec![];
    for b in m.store[..m.used * 512].chunks_exact(512).filter(|b| b[0] == 3) {
        let two = |k: usize| b[k] as usize + 256 * b[k + 1] as usize;
        for j in 0..two(2) {
            let at = 512 * two(18 + 8 * j);
            let len = m.store[at + 2] as usize + 256 * m.store[at + 3] as usize;
            rows.push((two(4), b[16 + 8 * j], m.store[at + 16..at + 16 + len].to_vec()));
        }
    }
    rows
}

/// Random old revisions and sheets.
fn wishes(n: usize) -> Vec<(u32, u32)> {
    let mut rng = Rng(17);
    (0..n).map(|_| (1 + rng.below(COMMITS) as u32, rng.below(32) as u32)).collect()
}

/// A place for files in memory where there is one.
fn place() -> PathBuf {
    let shm = Path::new("/dev/shm");
    let base = if shm.is_dir() { shm.to_path_buf() } else { std::env::temp_dir() };
    let dir = base.join(format!("sheets-bench-{}", std::process::id()));
    std::fs::create_dir_all(&dir).expect("a place for files");
    dir
}

pub fn rivals() {
    let dir = place();
    let m = history(2);
    let rows = rows_of(&m);
    #[cfg(feature = "sqlite")]
    sqlite(&dir, &m, &rows);
    #[cfg(not(feature = "sqlite"))]
    println!("SQLite: left out, its library is not installed (Debian: libsqlite3-dev)");
    subversion(&dir, &m, &rows);
    std::fs::remove_dir_all(&dir).expect("the place is ours");
}

#[cfg(feature = "sqlite")]
fn sqlite(dir: &Path, m: &Maker, rows: &[(usize, u8, Vec<u8>)]) {
    use crate::sqlite::Db;
    use std::cell::RefCell;
    let (roomy, mut rng) = (history(2 * FILED), Rng(23));
    let fresh = fresh_copies();
    let whole = after(&m.store, &fresh, &script((1..=4).map(|k| (UPDATE, k, u32::MAX, m.last as u32, vec![]))));
    let filed: Vec<(u32, Vec<u8>)> = (0..FILED).map(|_| (rng.below(32) as u32, rng.bytes(300))).collect();
    let edit = |(i, b): &(u32, Vec<u8>)| (EDIT, 1, *i, 0, b.clone());
    let pairs = script(filed.iter().flat_map(|x| [edit(x), (COMMIT, 1, 7, 1 << x.0, vec![])]));
    let all = script(filed.iter().flat_map(|x| [edit(x), (COMMIT, 1, 7, u32::MAX, vec![])]));
    let one = Script(pairs.0[..2 * 512].to_vec());
    let wished = wishes(READS);
    let reads = script(wished.iter().map(|&(r, i)| (READ, 1, r, i, vec![])));
    let few = Script(reads.0[..10 * 512].to_vec());
    let revisions: Vec<u32> = wished.iter().take(UPDATES).map(|w| w.0).collect();
    let updates = script(revisions.iter().map(|&r| (UPDATE, 1, u32::MAX, r, vec![])));
    let (empty, desk) = (Script::default(), Desk::new());
    let disk = RefCell::new(Db::open(dir.join("db").to_str().expect("a plain name"), rows));
    let memory = RefCell::new(Db::open(":memory:", rows));
    // the same bytes from all three
    for &(r, i) in wished.iter().take(50) {
        let p = engine::read(&m.store, r, i);
        let mut out = [0; 512];
        for db in [&disk, &memory] {
            let n = db.borrow_mut().read(r, i, &mut out);
            assert_eq!(&out[..n], &m.store[p.start..p.start + p.len]);
        }
    }
    let mut jobs = vec![
        desk.replay(&m.store, &whole, &empty),
        desk.replay(&roomy.store, &whole, &pairs),
        desk.replay(&m.store, &whole, &reads),
        desk.replay(&m.store, &whole, &updates),
        desk.one_by_one(5, &m.store, &whole, &one),
        desk.one_by_one(5, &m.store, &whole, &few),
        Job { every: 1, run: Box::new(|| timed(|| assert_eq!(engine::read(&m.store, 0, 0).refusal, 8))) },
        desk.replay(&roomy.store, &whole, &all),
        desk.replay(&roomy.store, &whole, &empty),
    ];
    for db in [&disk, &memory] {
        let (filed, wished, revisions) = (&filed, &wished, &revisions);
        jobs.push(Job {
            every: 1,
            run: Box::new(move || {
                let mut db = db.borrow_mut();
                let t = timed(|| filed.iter().enumerate().for_each(|(j, (i, b))| db.commit((COMMITS + 1 + j) as u32, *i, b)));
                db.forget(COMMITS as u32);
                t
            }),
        });
        jobs.push(Job {
            every: 1,
            run: Box::new(move || {
                let mut db = db.borrow_mut();
                let mut out = [0; 512];
                timed(|| db.reads(wished, &mut out))
            }),
        });
        jobs.push(Job {
            every: 1,
            run: Box::new(move || {
                let mut db = db.borrow_mut();
                timed(|| revisions.iter().for_each(|&r| db.update(r)))
            }),
        });
        jobs.push(Job { every: 10, run: Box::new(move || timed(|| db.borrow_mut().verify())) });
    }
    let t = turns(120, &mut jobs);
    drop(jobs);
    println!("beside SQLite {} at {COMMITS} commits, {} blocks in use; synchronous=OFF, prepared statements, checkpoints apart; nanoseconds a piece", crate::sqlite::version(), m.used);
    println!("  check of the five buffers {:.0} with 2 blocks left, {:.0} with {} for the commits; taken off the lists unless said", t[0], t[8], 2 * FILED);
    let line = |what: &str, ours: f64, d: f64, m: f64| println!("  {what:<44} engine {ours:>9.0}   SQLite, WAL {d:>9.0}, in memory {m:>9.0}   engine / SQLite {:>7.3}, {:>7.3}", ours / d, ours / m);
    let (f, r, u) = (FILED as f64, READS as f64, UPDATES as f64);
    let (d, e) = (&t[9..13], &t[13..17]);
    line("commit of one sheet (edit, commit), replay", (t[1] - t[8]) / f, d[0] / f, e[0] / f);
    line("the same, the mask of all sheets", (t[7] - t[8]) / f, d[0] / f, e[0] / f);
    line("the same, one sheet, the check in it, 500", t[1] / f, d[0] / f, e[0] / f);
    line("the same, one by one", t[4], d[0] / f, e[0] / f);
    line("read of an old sheet, replay", (t[2] - t[0]) / r, d[1] / r, e[1] / r);
    line("the same, the check in it, 1,000 reads", t[2] / r, d[1] / r, e[1] / r);
    line("the same, sheets_read", t[5] / 10.0, d[1] / r, e[1] / r);
    line("update of 32 sheets, replay", (t[3] - t[0]) / u, d[2] / u, e[2] / u);
    line("verify: acceptance, integrity_check", t[6], d[3], e[3]);
}

fn subversion(dir: &Path, m: &Maker, rows: &[(usize, u8, Vec<u8>)]) {
    let start = Instant::now();
    let Some(svn) = svn::Repository::load(dir, rows) else {
        println!("Subversion: left out, its commands are not installed (Debian: subversion)");
        return;
    };
    let loaded = start.elapsed().as_secs_f64();
    let mut rng = Rng(29);
    let wished = wishes(20);
    let (r, i) = wished[0];
    let p = engine::read(&m.store, r, i);
    assert_eq!(svn.cat(r, i), &m.store[p.start..p.start + p.len]);
    assert_eq!(svn.look(r, i), &m.store[p.start..p.start + p.len]);
    let (mut s, mut c) = (m.store.clone(), fresh_copies());
    let all = script([(UPDATE, 1, u32::MAX, m.last as u32, vec![])]);
    assert_eq!(run_one_by_one(&all, &mut s, &mut c, &mut vec![]), 0);
    let whole = c.clone();
    let mut best = [f64::MAX; 10];
    for (round, &(r, i)) in wished.iter().take(12).enumerate() {
        let bytes = rng.bytes(300);
        let edit = script([(EDIT, 1, i, 0, bytes.clone()), (COMMIT, 1, 7, 1 << i, vec![])]);
        let update = script([(UPDATE, 1, u32::MAX, r, vec![])]);
        svn.update(None);
        svn.write(i, &bytes);
        s.copy_from_slice(&m.store);
        c.copy_from_slice(&whole);
        let mut t = [
            timed(|| svn.start()),
            timed(|| svn.commit()),
            timed(|| svn.cat(r, i)),
            timed(|| svn.look(r, i)),
            timed(|| svn.update(Some(r))),
            f64::MAX,
            timed(|| assert_eq!(run_one_by_one(&edit, &mut s, &mut c, &mut vec![]), 0)),
            timed(|| assert_eq!(engine::read(&m.store, r, i).refusal, 0)),
            timed(|| assert_eq!(run_one_by_one(&update, &mut s, &mut c, &mut vec![]), 0)),
            timed(|| assert_eq!(engine::read(&m.store, 0, 0).refusal, 8)),
        ];
        if round < 2 {
            t[5] = timed(|| svn.verify());
        }
        best.iter_mut().zip(t).for_each(|(b, x)| *b = b.min(x));
    }
    println!("beside whole commands of Subversion {} at {COMMITS} revisions, files in memory, the engine one by one with its checks; milliseconds (load of the dump {loaded:.1} s)", svn.version());
    println!("  start of a process alone (svn --version -q)  {:>9.3}", best[0] / 1e6);
    for (what, ours, theirs) in [
        ("commit of one sheet (edit, commit), svn commit", best[6], best[1]),
        ("read of an old sheet, svn cat", best[7], best[2]),
        ("read of an old sheet, svnlook cat", best[7], best[3]),
        ("update of 32 sheets, svn update", best[8], best[4]),
        ("acceptance, svnadmin verify", best[9], best[5]),
    ] {
        println!("  {what:<48} engine {:>7.3}   svn {:>9.3}   {:>8.4} of it", ours / 1e6, theirs / 1e6, ours / theirs);
    }
}

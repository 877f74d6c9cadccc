//! Replay: every kind of call and of answer, held to the calls one by one, and the refusals.

use sheetstore::{self as sheets, Action, Call, Cut, LogEntry, Refusal, Reply, Script, Sheet, Shown, Standing, Status};
use sheetstore::{ALL, BLOCK, COPIES_LEN, COPY_LEN, MAX_BYTES, RECORD_LEN};

fn fresh(blocks: usize) -> (Vec<u8>, Vec<u8>) {
    let (mut store, mut copies) = (vec![0x5a; blocks * BLOCK], vec![0x5a; COPIES_LEN]);
    sheets::create_store(&mut store).unwrap();
    for (seat, copy) in (1..).zip(copies.chunks_exact_mut(COPY_LEN)) {
        sheets::create_copy(copy, seat).unwrap();
    }
    (store, copies)
}

fn script_of(calls: &[(u32, Call)]) -> Script {
    let mut script = Script::new();
    for &(seat, call) in calls {
        script.push(seat, call).unwrap();
    }
    script
}

/// One call, by the function of its name.
fn alone<'a>(store: &'a mut [u8], copies: &'a mut [u8], seat: u32, call: Call) -> Result<Reply<'a>, Refusal> {
    let at = (seat as usize - 1) * COPY_LEN;
    let copy = &mut copies[at..at + COPY_LEN];
    match call {
        Call::Add { sheet, bytes } => sheets::add(store, copy, sheet, bytes).map(|_| Reply::Done),
        Call::Edit { sheet, bytes } => sheets::edit(store, copy, sheet, bytes).map(|_| Reply::Done),
        Call::Delete { sheet } => sheets::delete(store, copy, sheet).map(|_| Reply::Done),
        Call::Copy { from, to } => sheets::copy_sheet(store, copy, from, to).map(|_| Reply::Done),
        Call::Move { from, to } => sheets::move_sheet(store, copy, from, to).map(|_| Reply::Done),
        Call::Commit { stamp, mask } => sheets::commit(store, copy, stamp, mask).map(Reply::Revision),
        Call::Update { mask, revision } => sheets::update(store, copy, mask, revision).map(|_| Reply::Done),
        Call::Revert { mask } => sheets::revert(store, copy, mask).map(|_| Reply::Done),
        Call::Read { revision, sheet } => sheets::read(store, revision, sheet).map(Reply::Read),
        Call::Show { sheet } => sheets::show(store, copy, sheet).map(Reply::Show),
        Call::Status { sheet } => sheets::status(store, copy, sheet).map(Reply::Status),
        Call::Log { revision, sheet } => sheets::log(store, revision, sheet).map(Reply::Log),
        Call::Clear => sheets::clear(store).map(|_| Reply::Done),
        Call::CommitCut { stamp, mask, n } => cut(sheets::commit_cut(store, copy, stamp, mask, n), Reply::Revision),
        Call::ClearCut { n } => cut(sheets::clear_cut(store, n), |_| Reply::Done),
        Call::Release { revision, seat, stamp } => sheets::release(store, revision, seat, stamp).map(|_| Reply::Done),
        Call::Panel { revision, sheet } => sheets::panel_read(store, revision, sheet).map(Reply::Read),
    }
}

/// What a script's cut call answers: that it stopped, or the usual.
fn cut<'a, T>(answer: Result<Cut<T>, Refusal>, done: impl FnOnce(T) -> Reply<'a>) -> Result<Reply<'a>, Refusal> {
    answer.map(|answer| match answer {
        Cut::Stopped => Reply::Stopped,
        Cut::Done(value) => done(value),
    })
}

/// Two seats, every kind of call.
fn every_kind() -> Vec<(u32, Call<'static>)> {
    vec![
        (2, Call::Add { sheet: 5, bytes: b"A" }),
        (2, Call::Commit { stamp: 7, mask: ALL }),
        (4, Call::Update { mask: 1 << 5, revision: 1 }),
        (4, Call::Edit { sheet: 5, bytes: b"longer" }),
        (4, Call::Status { sheet: 5 }),
        (4, Call::Revert { mask: ALL }),
        (4, Call::Copy { from: 5, to: 31 }),
        (4, Call::Move { from: 5, to: 6 }),
        (4, Call::Commit { stamp: u32::MAX, mask: ALL }),
        (1, Call::Log { revision: 2, sheet: 6 }),
        (1, Call::Read { revision: 2, sheet: 31 }),
        (2, Call::Show { sheet: 5 }),
        (2, Call::Show { sheet: 6 }),
        (2, Call::Status { sheet: 5 }),
        (4, Call::Delete { sheet: 31 }),
        (4, Call::Add { sheet: 0, bytes: &[1; MAX_BYTES] }),
        (3, Call::Edit { sheet: 0, bytes: b"" }),
        (3, Call::Clear),
        (4, Call::Edit { sheet: 6, bytes: b"B" }),
        (4, Call::CommitCut { stamp: 8, mask: 1 << 6, n: 1 }),
        (4, Call::Commit { stamp: 8, mask: ALL }),
        (4, Call::CommitCut { stamp: 8, mask: ALL, n: u32::MAX }),
        (1, Call::Read { revision: 2, sheet: 6 }),
        (1, Call::ClearCut { n: 0 }),
        (1, Call::ClearCut { n: 1 }),
        (1, Call::ClearCut { n: 0 }),
        (4, Call::CommitCut { stamp: 8, mask: 1 << 6, n: 0 }),
        (4, Call::CommitCut { stamp: 8, mask: 1 << 6, n: 2 }),
        (2, Call::CommitCut { stamp: 8, mask: 0, n: 0 }),
        (4, Call::Status { sheet: 6 }),
        (1, Call::Panel { revision: 3, sheet: 6 }),
        (3, Call::Release { revision: 2, seat: 4, stamp: u32::MAX }),
        (3, Call::Release { revision: 2, seat: 1, stamp: 0 }),
        (1, Call::Release { revision: 4, seat: 1, stamp: 0 }),
        (1, Call::Release { revision: 1, seat: 5, stamp: 0 }),
        (2, Call::Panel { revision: 3, sheet: 6 }),
        (2, Call::Panel { revision: 3, sheet: 5 }),
        (4, Call::Release { revision: 1, seat: 2, stamp: 9 }),
        (2, Call::Panel { revision: 1, sheet: 5 }),
        (2, Call::Panel { revision: 0, sheet: 5 }),
        (2, Call::Panel { revision: 4, sheet: 5 }),
        (2, Call::Panel { revision: 3, sheet: 32 }),
        (4, Call::Edit { sheet: 6, bytes: b"C" }),
        (4, Call::CommitCut { stamp: 10, mask: ALL, n: 1 }),
        (1, Call::Release { revision: 3, seat: 1, stamp: 11 }),
        (1, Call::Panel { revision: 3, sheet: 6 }),
        (1, Call::Clear),
        (1, Call::Release { revision: 3, seat: 1, stamp: 11 }),
        (4, Call::Commit { stamp: 12, mask: ALL }),
        (1, Call::Panel { revision: 4, sheet: 6 }),
        (1, Call::Read { revision: 4, sheet: 6 }),
    ]
}

#[test]
fn a_script_is_its_calls_one_by_one() {
    let (calls, (mut store, mut copies)) = (every_kind(), fresh(16));
    let script = script_of(&calls);
    let mut answers = vec![0x5a; script.len() * RECORD_LEN + 3];
    let said: Vec<_> = sheets::replay(&script, &mut store, &mut copies, &mut answers).unwrap().collect();
    assert_eq!(said.len(), calls.len());
    let (mut other_store, mut other_copies) = fresh(16);
    for (&(seat, call), &got) in calls.iter().zip(&said) {
        assert_eq!(got, alone(&mut other_store, &mut other_copies, seat, call), "{call:?}");
    }
    assert!(store == other_store && copies == other_copies);
    assert_eq!(said[4], Ok(Reply::Status(Standing { status: Status::Modified, revision: Some(1) })));
    assert_eq!(said[8], Ok(Reply::Revision(2)));
    let action = Some(Action::Copy { sheet: 5, revision: 1 });
    assert_eq!(said[9], Ok(Reply::Log(LogEntry { seat: 4, stamp: u32::MAX, changes: 3, action })));
    assert_eq!(said[10], Ok(Reply::Read(Sheet { bytes: b"A", revision: 2 })));
    assert_eq!(said[11], Ok(Reply::Show(Shown::Own(b"A"))));
    assert_eq!(said[12], Ok(Reply::Show(Shown::Last(Sheet { bytes: b"A", revision: 2 }))));
    assert_eq!(said[13], Ok(Reply::Status(Standing { status: Status::NeedsPatch, revision: Some(2) })));
    assert_eq!(said[15], Err(Refusal::Range));
    assert_eq!(said[16], Err(Refusal::Missing));
    assert_eq!(said[17], Ok(Reply::Done));
    assert_eq!(said[19], Ok(Reply::Stopped));
    assert_eq!((said[20], said[21]), (Err(Refusal::Tail), Err(Refusal::Tail)));
    assert_eq!(said[22], said[10]);
    assert_eq!((said[23], said[24], said[25]), (Ok(Reply::Stopped), Ok(Reply::Done), Ok(Reply::Done)));
    assert_eq!((said[26], said[27]), (Ok(Reply::Stopped), Ok(Reply::Revision(3))));
    assert_eq!(said[28], Err(Refusal::Range));
    assert_eq!(said[29], Ok(Reply::Status(Standing { status: Status::UpToDate, revision: Some(3) })));
    assert_eq!((said[30], said[31]), (Err(Refusal::Missing), Ok(Reply::Done)));
    assert_eq!((said[32], said[33], said[34]), (Err(Refusal::Released), Err(Refusal::Range), Err(Refusal::Range)));
    assert_eq!((said[35], said[36]), (Ok(Reply::Read(Sheet { bytes: b"A", revision: 2 })), Err(Refusal::Missing)));
    assert_eq!((said[37], said[38]), (Ok(Reply::Done), Ok(Reply::Read(Sheet { bytes: b"A", revision: 1 }))));
    assert_eq!((said[39], said[40], said[41]), (Err(Refusal::Missing), Err(Refusal::Range), Err(Refusal::Range)));
    assert_eq!((said[43], said[44], said[45]), (Ok(Reply::Stopped), Err(Refusal::Tail), said[35]));
    assert_eq!((said[46], said[47], said[48]), (Ok(Reply::Done), Ok(Reply::Done), Ok(Reply::Revision(4))));
    assert_eq!(said[49], Ok(Reply::Read(Sheet { bytes: b"B", revision: 3 })));
    assert_eq!(said[50], Ok(Reply::Read(Sheet { bytes: b"C", revision: 4 })));
    assert_eq!(answers[script.len() * RECORD_LEN..], [0x5a; 3]);
}

#[test]
fn the_answers_know_their_number() {
    let (script, (mut store, mut copies)) = (script_of(&every_kind()), fresh(16));
    let mut answers = vec![0; script.len() * RECORD_LEN];
    assert_eq!(sheets::replay(&script, &mut store, &mut copies, &mut answers).unwrap().len(), 51);
    assert_eq!(sheets::replay(&Script::new(), &mut store, &mut copies, &mut []).unwrap().len(), 0);
}

#[test]
fn a_script_begins_on_a_tail_and_clears_it() {
    let (mut store, mut copies) = fresh(16);
    store[BLOCK..2 * BLOCK].fill(0xff);
    let commit = (2, Call::Commit { stamp: 7, mask: ALL });
    let script = script_of(&[(2, Call::Add { sheet: 5, bytes: b"A" }), commit, (1, Call::Clear), commit, (1, Call::Clear)]);
    let mut answers = vec![0x5a; script.len() * RECORD_LEN];
    let said: Vec<_> = sheets::replay(&script, &mut store, &mut copies, &mut answers).unwrap().collect();
    assert_eq!(said, [Ok(Reply::Done), Err(Refusal::Tail), Ok(Reply::Done), Ok(Reply::Revision(1)), Ok(Reply::Done)]);
    let (mut other, mut copy) = fresh(16);
    sheets::add(&other, &mut copy[COPY_LEN..2 * COPY_LEN], 5, b"A").unwrap();
    sheets::commit(&mut other, &mut copy[COPY_LEN..2 * COPY_LEN], 7, ALL).unwrap();
    assert!(store == other && copies == copy);
}

#[test]
fn a_script_cuts_a_commit_and_its_clearing() {
    let (mut store, mut copies) = fresh(8);
    let (commit, mask) = (Call::Commit { stamp: 7, mask: ALL }, ALL);
    let script = script_of(&[
        (2, Call::Add { sheet: 5, bytes: b"A" }),
        (2, Call::Add { sheet: 6, bytes: b"B" }),
        (2, Call::CommitCut { stamp: 7, mask, n: 2 }),
        (2, commit),
        (1, Call::ClearCut { n: 1 }),
        (2, commit),
        (1, Call::ClearCut { n: 1 }),
        (2, Call::CommitCut { stamp: 7, mask, n: 3 }),
    ]);
    let mut answers = vec![0x5a; script.len() * RECORD_LEN];
    let said: Vec<_> = sheets::replay(&script, &mut store, &mut copies, &mut answers).unwrap().skip(2).collect();
    let (stopped, refused) = (Ok(Reply::Stopped), Err(Refusal::Tail));
    assert_eq!(said, [stopped, refused, stopped, refused, Ok(Reply::Done), Ok(Reply::Revision(1))]);
    let (mut other, mut copy) = fresh(8);
    for (sheet, bytes) in [(5, b"A"), (6, b"B")] {
        sheets::add(&other, &mut copy[COPY_LEN..2 * COPY_LEN], sheet, bytes).unwrap();
    }
    sheets::commit(&mut other, &mut copy[COPY_LEN..2 * COPY_LEN], 7, ALL).unwrap();
    assert!(store == other && copies == copy);
}

#[test]
fn a_script_leaves_the_tail_of_a_cut_commit() {
    let (mut store, mut copies) = fresh(8);
    let cut = Call::CommitCut { stamp: 7, mask: ALL, n: 1 };
    let script = script_of(&[(2, Call::Add { sheet: 5, bytes: b"A" }), (2, cut)]);
    let mut answers = vec![0x5a; 2 * RECORD_LEN];
    let _ = sheets::replay(&script, &mut store, &mut copies, &mut answers).unwrap();
    assert_eq!(sheets::commit(&mut store, &mut copies[COPY_LEN..2 * COPY_LEN], 7, ALL), Err(Refusal::Tail));
    assert_eq!(sheets::clear_cut(&mut store, 0), Ok(Cut::Stopped));
    assert_eq!(sheets::clear_cut(&mut store, 1), Ok(Cut::Done(())));
    assert_eq!(sheets::commit(&mut store, &mut copies[COPY_LEN..2 * COPY_LEN], 7, ALL), Ok(1));
}

#[test]
fn a_script_begins_on_a_damaged_release_and_makes_it_again() {
    let (mut store, mut copies) = fresh(8);
    sheets::add(&store, &mut copies[COPY_LEN..2 * COPY_LEN], 5, b"A").unwrap();
    sheets::commit(&mut store, &mut copies[COPY_LEN..2 * COPY_LEN], 7, ALL).unwrap();
    sheets::release(&mut store, 1, 3, 8).unwrap();
    let (whole, settled) = (store.clone(), copies.clone());
    store[3 * BLOCK + 6] = 4;
    let (release, panel) = (Call::Release { revision: 1, seat: 3, stamp: 8 }, Call::Panel { revision: 1, sheet: 5 });
    let bad = Call::Release { revision: 0, seat: 5, stamp: 8 };
    let script = script_of(&[(1, panel), (1, release), (2, bad), (4, Call::Clear), (1, panel), (2, bad), (1, release), (1, panel), (1, release)]);
    let mut answers = vec![0x5a; script.len() * RECORD_LEN];
    let said: Vec<_> = sheets::replay(&script, &mut store, &mut copies, &mut answers).unwrap().collect();
    let (none, read) = (Err(Refusal::Missing), Ok(Reply::Read(Sheet { bytes: b"A", revision: 1 })));
    let (done, tail, range) = (Ok(Reply::Done), Err(Refusal::Tail), Err(Refusal::Range));
    assert_eq!(said, [none, tail, tail, done, none, range, done, read, Err(Refusal::Released)]);
    assert!(store == whole && copies == settled);
}

#[test]
fn a_script_fills_a_store_with_releases() {
    let (mut store, mut copies) = fresh(4);
    let script = script_of(&[
        (2, Call::Add { sheet: 5, bytes: b"A" }),
        (2, Call::Commit { stamp: 7, mask: ALL }),
        (1, Call::Release { revision: 1, seat: 1, stamp: 8 }),
        (2, Call::Delete { sheet: 5 }),
        (2, Call::Commit { stamp: 9, mask: ALL }),
        (1, Call::Panel { revision: 1, sheet: 5 }),
    ]);
    let mut answers = vec![0x5a; script.len() * RECORD_LEN];
    let said: Vec<_> = sheets::replay(&script, &mut store, &mut copies, &mut answers).unwrap().skip(2).collect();
    let read = Ok(Reply::Read(Sheet { bytes: b"A", revision: 1 }));
    assert_eq!(said, [Ok(Reply::Done), Ok(Reply::Done), Err(Refusal::NoRoom), read]);
}

/// The bytes of a record that are not zero, with their places.
fn named(record: &[u8]) -> Vec<(usize, u8)> {
    record.iter().copied().enumerate().filter(|&(_, byte)| byte != 0).collect()
}

#[test]
fn the_records_of_cut_calls_are_as_laid_out() {
    let (mut store, mut copies) = fresh(8);
    let script = script_of(&[
        (2, Call::Add { sheet: 5, bytes: b"A" }),
        (2, Call::CommitCut { stamp: 0x0201, mask: 0x0400_0020, n: 1 }),
        (3, Call::ClearCut { n: 0x0300_0001 }),
        (2, Call::CommitCut { stamp: 7, mask: 1 << 5, n: 0x0400_0000 }),
    ]);
    let records: Vec<_> = script.as_bytes().chunks(RECORD_LEN).map(named).collect();
    assert_eq!(records[1], [(0, 14), (1, 2), (4, 1), (5, 2), (8, 0x20), (11, 4), (12, 1)]);
    assert_eq!(records[2], [(0, 15), (1, 3), (4, 1), (7, 3)]);
    assert_eq!(records[3], [(0, 14), (1, 2), (4, 7), (8, 0x20), (15, 4)]);
    let mut answers = vec![0x5a; script.len() * RECORD_LEN];
    let _ = sheets::replay(&script, &mut store, &mut copies, &mut answers).unwrap();
    let answers: Vec<_> = answers.chunks(RECORD_LEN).map(named).collect();
    assert_eq!(answers, [vec![], vec![(8, 1)], vec![], vec![(4, 1)]]);
}

#[test]
fn the_records_of_releases_and_panel_readings_are_as_laid_out() {
    let (mut store, mut copies) = fresh(8);
    let script = script_of(&[
        (2, Call::Add { sheet: 5, bytes: b"A" }),
        (2, Call::Commit { stamp: 7, mask: ALL }),
        (3, Call::Release { revision: 1, seat: 4, stamp: 0x0403_0201 }),
        (1, Call::Panel { revision: 1, sheet: 5 }),
        (4, Call::Release { revision: 0x0201_0001, seat: 0x0500_0001, stamp: 0 }),
        (2, Call::Panel { revision: 0x0400_0000, sheet: 0x0100_0005 }),
    ]);
    let records: Vec<_> = script.as_bytes().chunks(RECORD_LEN).map(named).collect();
    assert_eq!(records[2], [(0, 20), (1, 3), (4, 1), (8, 1), (9, 2), (10, 3), (11, 4), (12, 4)]);
    assert_eq!(records[3], [(0, 21), (1, 1), (4, 1), (8, 5)]);
    assert_eq!(records[4], [(0, 20), (1, 4), (4, 1), (6, 1), (7, 2), (12, 1), (15, 5)]);
    assert_eq!(records[5], [(0, 21), (1, 2), (7, 4), (8, 5), (11, 1)]);
    let mut answers = vec![0x5a; script.len() * RECORD_LEN];
    let _ = sheets::replay(&script, &mut store, &mut copies, &mut answers).unwrap();
    let answers: Vec<_> = answers.chunks(RECORD_LEN).map(named).collect();
    assert_eq!(answers, [vec![], vec![(4, 1)], vec![], vec![(8, 1), (28, 1), (32, b'A')], vec![(0, 7)], vec![(0, 7)]]);
    assert_eq!(store[3 * BLOCK..3 * BLOCK + 12], [6, 0, 0, 0, 1, 0, 4, 0, 1, 2, 3, 4]);
}

#[test]
fn push_refuses_what_a_record_cannot_hold() {
    let mut script = Script::new();
    assert_eq!(script.push(0, Call::Show { sheet: 1 }), Err(Refusal::Range));
    assert_eq!(script.push(5, Call::Show { sheet: 1 }), Err(Refusal::Range));
    assert_eq!(script.push(257, Call::Show { sheet: 1 }), Err(Refusal::Range));
    assert_eq!(script.push(0, Call::Clear), Err(Refusal::Range));
    assert_eq!(script.push(5, Call::ClearCut { n: 1 }), Err(Refusal::Range));
    assert_eq!(script.push(0, Call::Panel { revision: 1, sheet: 1 }), Err(Refusal::Range));
    assert_eq!(script.push(5, Call::Release { revision: 1, seat: 1, stamp: 1 }), Err(Refusal::Range));
    assert_eq!(script.push(1, Call::Add { sheet: 1, bytes: &[0; MAX_BYTES + 1] }), Err(Refusal::Range));
    assert!(script.is_empty());
    assert_eq!(script.push(1, Call::Add { sheet: 1, bytes: &[0; MAX_BYTES] }), Ok(()));
    assert_eq!((script.len(), script.as_bytes().len()), (1, RECORD_LEN));
}

/// Damages a store, four copies or the room for the answers.
type Change<'a> = &'a dyn Fn(&mut Vec<u8>, &mut Vec<u8>, &mut Vec<u8>);

#[test]
fn a_refused_script_changes_nothing() {
    let (script, (store, copies)) = (script_of(&every_kind()), fresh(16));
    let refused = |number: u32, change: Change| {
        let (mut s, mut c, mut a) = (store.clone(), copies.clone(), vec![0x5a; script.len() * RECORD_LEN]);
        change(&mut s, &mut c, &mut a);
        let before = (s.clone(), c.clone(), a.clone());
        assert_eq!(sheets::replay(&script, &mut s, &mut c, &mut a).unwrap_err().number(), number);
        assert!((s, c, a) == before, "refusal {number} changed a buffer");
    };
    refused(1, &|s, _, _| s.truncate(BLOCK));
    refused(2, &|s, _, _| s[5] = 1);
    refused(3, &|s, _, _| s.copy_within(0..BLOCK, BLOCK));
    refused(4, &|_, c, _| c.truncate(COPY_LEN));
    refused(5, &|_, c, _| c[3 * COPY_LEN] = 0);
    refused(6, &|_, c, _| {
        let (mut other, mut copy) = fresh(4);
        sheets::add(&other, &mut copy[..COPY_LEN], 0, b"").unwrap();
        sheets::commit(&mut other, &mut copy[..COPY_LEN], 0, ALL).unwrap();
        c[..COPY_LEN].copy_from_slice(&copy[..COPY_LEN]);
    });
    refused(7, &|_, c, _| c.rotate_left(COPY_LEN));
    refused(7, &|_, _, a| a.truncate(script.len() * RECORD_LEN - 1));
}

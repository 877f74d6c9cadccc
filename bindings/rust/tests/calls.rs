//! Every call, every refusal's number, and that read, a panel's reading and show hand back parts of the lent buffers.

mod common;

use common::{case_input, copy_of, refused_commits, store_of};
use sheetstore::{self as sheets, Action, Cut, LogEntry, Refusal, Sheet, Shown, Standing, Status, Turn, ALL, BLOCK};

/// Writes a block's check anew.
fn seal(block: &mut [u8]) {
    let (a, b) = block[..508].iter().fold((0, 0), |(a, b), &x| ((a + x as u32) % 65521, (b + a + x as u32) % 65521));
    block[508..510].copy_from_slice(&(a as u16).to_le_bytes());
    block[510..512].copy_from_slice(&(b as u16).to_le_bytes());
}

/// Where a part starts in a buffer, if it lies in it.
fn place_in(buffer: &[u8], part: &[u8]) -> Option<usize> {
    let (outer, inner) = (buffer.as_ptr_range(), part.as_ptr_range());
    (outer.start <= inner.start && inner.end <= outer.end).then(|| inner.start as usize - outer.start as usize)
}

#[test]
fn blocks_are_as_the_document_lays_them_out() {
    let (store, _) = case_input(4);
    let checks: Vec<(u16, u16)> =
        store.chunks(BLOCK).map(|b| (u16::from_le_bytes([b[508], b[509]]), u16::from_le_bytes([b[510], b[511]]))).collect();
    assert_eq!(checks, [(2, 1015), (69, 34006), (21, 10479), (0, 0)]);
}

#[test]
fn read_is_a_part_of_the_store() {
    let (mut store, mut copy) = case_input(8);
    sheets::edit(&store, &mut copy, 5, b"").unwrap();
    assert_eq!(sheets::commit(&mut store, &mut copy, 8, 1 << 5), Ok(2));
    let (old, new) = (sheets::read(&store, 1, 5).unwrap(), sheets::read(&store, 2, 5).unwrap());
    assert_eq!((old, new), (Sheet { bytes: b"A", revision: 1 }, Sheet { bytes: b"", revision: 2 }));
    assert_eq!(place_in(&store, old.bytes), Some(BLOCK + 16));
    assert_eq!(place_in(&store, new.bytes), Some(3 * BLOCK + 16));
    assert_eq!(sheets::read(&store, 0, 5), Err(Refusal::Missing));
    assert_eq!(sheets::read(&store, 3, 5), Err(Refusal::Range));
}

#[test]
fn show_is_a_part_of_either_buffer() {
    let (store, mut copy) = case_input(8);
    sheets::edit(&store, &mut copy, 5, b"mine").unwrap();
    let own = sheets::show(&store, &copy, 5).unwrap();
    assert_eq!(own, Shown::Own(b"mine"));
    assert_eq!(place_in(&copy, own.bytes()), Some(6 * BLOCK + 16));
    sheets::revert(&store, &mut copy, ALL).unwrap();
    assert_eq!(sheets::show(&store, &copy, 5), Ok(Shown::Own(b"A")));
    sheets::delete(&store, &mut copy, 5).unwrap();
    let last = sheets::show(&store, &copy, 5).unwrap();
    assert_eq!(last, Shown::Last(Sheet { bytes: b"A", revision: 1 }));
    assert_eq!(place_in(&store, last.bytes()), Some(BLOCK + 16));
    assert_eq!(sheets::show(&store, &copy, 6), Err(Refusal::Missing));
}

#[test]
fn log_tells_each_action() {
    let (mut store, mut copy) = case_input(16);
    sheets::edit(&store, &mut copy, 5, b"B").unwrap();
    sheets::commit(&mut store, &mut copy, 6, ALL).unwrap();
    sheets::move_sheet(&store, &mut copy, 5, 6).unwrap();
    sheets::commit(&mut store, &mut copy, u32::MAX, ALL).unwrap();
    let entry = |stamp, changes, action| Ok(LogEntry { seat: 2, stamp, changes, action });
    assert_eq!(sheets::log(&store, 1, 5), entry(7, 1, Some(Action::Add)));
    assert_eq!(sheets::log(&store, 2, 5), entry(6, 1, Some(Action::Change)));
    assert_eq!(sheets::log(&store, 3, 5), entry(u32::MAX, 2, Some(Action::Delete)));
    assert_eq!(sheets::log(&store, 3, 6), entry(u32::MAX, 2, Some(Action::Copy { sheet: 5, revision: 2 })));
    assert_eq!(sheets::log(&store, 3, 0), entry(u32::MAX, 2, None));
    assert_eq!(sheets::log(&store, 0, 5), Err(Refusal::Range));
}

#[test]
fn status_tells_each_state() {
    let (mut store, mut two) = case_input(32);
    let mut one = copy_of(1);
    let of = |store: &[u8], copy: &[u8], sheet| sheets::status(store, copy, sheet).map(|s| (s.status, s.revision)).unwrap();
    assert_eq!(of(&store, &one, 5), (Status::NeedsCheckout, Some(1)));
    assert_eq!(of(&store, &one, 6), (Status::Absent, None));
    sheets::update(&store, &mut one, ALL, 1).unwrap();
    assert_eq!(of(&store, &one, 5), (Status::UpToDate, Some(1)));
    sheets::copy_sheet(&store, &mut one, 5, 6).unwrap();
    assert_eq!(of(&store, &one, 6), (Status::Copied, None));
    sheets::add(&store, &mut one, 7, b"").unwrap();
    assert_eq!(of(&store, &one, 7), (Status::Added, None));
    sheets::edit(&store, &mut two, 5, b"B").unwrap();
    assert_eq!(of(&store, &two, 5), (Status::Modified, Some(1)));
    sheets::commit(&mut store, &mut two, 0, ALL).unwrap();
    assert_eq!(of(&store, &one, 5), (Status::NeedsPatch, Some(2)));
    sheets::edit(&store, &mut one, 5, b"C").unwrap();
    assert_eq!(of(&store, &one, 5), (Status::NeedsMerge, Some(2)));
    sheets::delete(&store, &mut one, 5).unwrap();
    assert_eq!(of(&store, &one, 5), (Status::Deleted, Some(2)));
}

#[test]
fn a_sheet_has_the_revision_that_named_it_last() {
    let (mut store, mut two) = case_input(32);
    let one = copy_of(1);
    sheets::edit(&store, &mut two, 5, b"B").unwrap();
    assert_eq!(sheets::commit(&mut store, &mut two, 0, ALL), Ok(2));
    sheets::copy_sheet(&store, &mut two, 5, 6).unwrap();
    assert_eq!(sheets::commit(&mut store, &mut two, 0, ALL), Ok(3));
    let set_by = |store: &[u8], revision, sheet| sheets::read(store, revision, sheet).map(|s| s.revision);
    assert_eq!([1, 2, 3].map(|revision| set_by(&store, revision, 5)), [Ok(1), Ok(2), Ok(2)]);
    assert_eq!(set_by(&store, 3, 6), Ok(3));
    assert_eq!(sheets::show(&store, &one, 5), Ok(Shown::Last(Sheet { bytes: b"B", revision: 2 })));
    sheets::delete(&store, &mut two, 5).unwrap();
    assert_eq!(sheets::commit(&mut store, &mut two, 0, ALL), Ok(4));
    assert_eq!(sheets::status(&store, &one, 5), Ok(Standing { status: Status::Absent, revision: Some(4) }));
    assert_eq!(set_by(&store, 3, 5), Ok(2));
}

#[test]
fn the_same_edit_twice_agrees() {
    let (mut store, mut two) = case_input(32);
    let mut one = copy_of(1);
    sheets::update(&store, &mut one, ALL, 1).unwrap();
    sheets::edit(&store, &mut two, 5, b"B").unwrap();
    sheets::commit(&mut store, &mut two, 0, ALL).unwrap();
    sheets::edit(&store, &mut one, 5, b"C").unwrap();
    assert_eq!(sheets::update(&store, &mut one, ALL, 2), Err(Refusal::Conflict));
    sheets::edit(&store, &mut one, 5, b"B").unwrap();
    assert_eq!(sheets::commit(&mut store, &mut one, 0, ALL), Err(Refusal::OutOfDate));
    assert_eq!(sheets::update(&store, &mut one, ALL, 2), Ok(()));
    assert_eq!(sheets::status(&store, &one, 5), Ok(Standing { status: Status::UpToDate, revision: Some(2) }));
    assert_eq!(sheets::commit(&mut store, &mut one, 0, ALL), Err(Refusal::NothingPending));
}

/// A content block of revision 2 and a block with a wrong check, behind revision 1.
fn with_tail(store: &[u8]) -> Vec<u8> {
    let mut tailed = store.to_vec();
    tailed[3 * BLOCK..3 * BLOCK + 17].copy_from_slice(&[2, 0, 1, 0, 2, 0, 0, 0, 0, 0, 0, 0, 0, 0, 0, 0, 0x42]);
    seal(&mut tailed[3 * BLOCK..4 * BLOCK]);
    tailed[4 * BLOCK..5 * BLOCK].fill(0xff);
    tailed
}

#[test]
fn every_call_but_commit_and_release_works_beside_a_tail() {
    let (bare, mut copy) = case_input(8);
    let store = with_tail(&bare);
    assert_eq!(sheets::read(&store, 1, 5), Ok(Sheet { bytes: b"A", revision: 1 }));
    assert_eq!(sheets::read(&store, 2, 5), Err(Refusal::Range));
    assert_eq!(sheets::panel_read(&store, 1, 5), Err(Refusal::Missing));
    assert_eq!(sheets::panel_read(&store, 2, 5), Err(Refusal::Range));
    assert_eq!(sheets::log(&store, 1, 5), sheets::log(&bare, 1, 5));
    assert_eq!(sheets::status(&store, &copy, 5), Ok(Standing { status: Status::UpToDate, revision: Some(1) }));
    sheets::edit(&store, &mut copy, 5, b"B").unwrap();
    sheets::add(&store, &mut copy, 6, b"C").unwrap();
    sheets::delete(&store, &mut copy, 6).unwrap();
    sheets::copy_sheet(&store, &mut copy, 5, 7).unwrap();
    sheets::move_sheet(&store, &mut copy, 7, 8).unwrap();
    sheets::update(&store, &mut copy, ALL, 1).unwrap();
    assert_eq!(sheets::show(&store, &copy, 8), Ok(Shown::Own(b"B")));
    sheets::revert(&store, &mut copy, ALL).unwrap();
    assert_eq!(sheets::show(&store, &copy, 5), Ok(Shown::Own(b"A")));
}

#[test]
fn clear_leaves_the_store_without_its_tail() {
    let (bare, mut copy) = case_input(8);
    let mut store = with_tail(&bare);
    sheets::edit(&store, &mut copy, 5, b"B").unwrap();
    assert_eq!(sheets::commit(&mut store, &mut copy, 8, ALL), Err(Refusal::Tail));
    assert_eq!(sheets::commit(&mut store, &mut [], 8, ALL), Err(Refusal::Tail));
    assert!(store == with_tail(&bare));
    for _ in 0..2 {
        assert_eq!(sheets::clear(&mut store), Ok(()));
        assert!(store == bare);
    }
    assert_eq!(sheets::commit(&mut store, &mut copy, 8, ALL), Ok(2));
    assert_eq!(sheets::read(&store, 2, 5), Ok(Sheet { bytes: b"B", revision: 2 }));
}

/// Revision 1, a working copy with an edit of sheet 5 and new sheets 6 and 9, and both after the commit of these: three content blocks and the commit block.
fn before_and_after() -> [(Vec<u8>, Vec<u8>); 2] {
    let (store, mut copy) = case_input(8);
    sheets::add(&store, &mut copy, 9, b"C").unwrap();
    sheets::edit(&store, &mut copy, 5, b"B").unwrap();
    sheets::add(&store, &mut copy, 6, b"").unwrap();
    let (mut whole, mut settled) = (store.clone(), copy.clone());
    assert_eq!(sheets::commit(&mut whole, &mut settled, 8, ALL), Ok(2));
    [(store, copy), (whole, settled)]
}

#[test]
fn a_cut_commit_stops_after_n_writes() {
    let [(bare, copy), (whole, settled)] = before_and_after();
    for n in 0..4 {
        let (mut store, mut seat) = (bare.clone(), copy.clone());
        assert_eq!(sheets::commit_cut(&mut store, &mut seat, 8, ALL, n), Ok(Cut::Stopped));
        let at = (3 + n as usize) * BLOCK;
        assert!(store[..at] == whole[..at] && store[at..] == bare[at..] && seat == copy);
        assert_eq!(sheets::read(&store, 1, 5), Ok(Sheet { bytes: b"A", revision: 1 }));
        assert_eq!(sheets::read(&store, 2, 5), Err(Refusal::Range));
        if n > 0 {
            assert_eq!(sheets::commit(&mut store, &mut seat, 8, ALL), Err(Refusal::Tail));
            assert_eq!(sheets::commit_cut(&mut store, &mut seat, 8, ALL, n), Err(Refusal::Tail));
        }
        sheets::clear(&mut store).unwrap();
        assert!(store == bare && seat == copy);
        assert_eq!(sheets::commit(&mut store, &mut seat, 8, ALL), Ok(2));
        assert!(store == whole && seat == settled);
    }
}

#[test]
fn a_cut_commit_with_writes_enough_is_a_commit() {
    let [(bare, copy), (whole, settled)] = before_and_after();
    for n in [4, 5, 33, 1 << 16, u32::MAX] {
        let (mut store, mut seat) = (bare.clone(), copy.clone());
        assert_eq!(sheets::commit_cut(&mut store, &mut seat, 8, ALL, n), Ok(Cut::Done(2)));
        assert!(store == whole && seat == settled);
    }
}

#[test]
fn a_cut_commit_without_content_has_one_write() {
    let (mut store, mut copy) = case_input(4);
    sheets::delete(&store, &mut copy, 5).unwrap();
    let before = (store.clone(), copy.clone());
    assert_eq!(sheets::commit_cut(&mut store, &mut copy, 8, ALL, 0), Ok(Cut::Stopped));
    assert!(before == (store.clone(), copy.clone()));
    assert_eq!(sheets::commit_cut(&mut store, &mut copy, 8, ALL, 1), Ok(Cut::Done(2)));
    assert_eq!(sheets::read(&store, 2, 5), Err(Refusal::Missing));
}

#[test]
fn a_cut_clear_stops_after_n_writes() {
    let (bare, _) = case_input(8);
    let tailed = with_tail(&bare);
    for n in 0..2 {
        let mut store = tailed.clone();
        assert_eq!(sheets::clear_cut(&mut store, n), Ok(Cut::Stopped));
        let at = (5 - n as usize) * BLOCK;
        assert!(store[..at] == tailed[..at] && store[at..] == bare[at..]);
        assert_eq!(sheets::clear_cut(&mut store, 2 - n), Ok(Cut::Done(())));
        assert!(store == bare);
    }
    for n in [2, 3, 33, 1 << 16, u32::MAX] {
        let mut store = tailed.clone();
        assert_eq!(sheets::clear_cut(&mut store, n), Ok(Cut::Done(())));
        assert!(store == bare);
    }
}

#[test]
fn a_cut_clear_without_a_tail_is_done() {
    let (bare, _) = case_input(8);
    for n in [0, 1, u32::MAX] {
        let mut store = bare.clone();
        assert_eq!(sheets::clear_cut(&mut store, n), Ok(Cut::Done(())));
        assert!(store == bare);
    }
}

#[test]
fn a_cut_call_is_refused_as_the_usual_one() {
    refused_commits(|number, mask, mut s, mut c| {
        let before = (s.clone(), c.clone());
        assert_eq!(sheets::commit(&mut s, &mut c, 0, mask).unwrap_err().number(), number);
        for n in [0, 1, 2, u32::MAX] {
            assert_eq!(sheets::commit_cut(&mut s, &mut c, 0, mask, n).unwrap_err().number(), number);
            match number {
                1..=3 => assert_eq!(sheets::clear_cut(&mut s, n).unwrap_err().number(), number),
                _ => assert!(sheets::clear_cut(&mut s.clone(), n).is_ok()),
            }
        }
        assert!(before == (s, c), "refusal {number} changed a buffer");
    });
}

/// Three revisions of seat 2, seven blocks, and its working copy: sheet 5 is added, then changed beside a new sheet 6, then deleted.
fn three_revisions(blocks: usize) -> (Vec<u8>, Vec<u8>) {
    let (mut store, mut copy) = case_input(blocks);
    sheets::edit(&store, &mut copy, 5, b"B").unwrap();
    sheets::add(&store, &mut copy, 6, b"C").unwrap();
    assert_eq!(sheets::commit(&mut store, &mut copy, 8, ALL), Ok(2));
    sheets::delete(&store, &mut copy, 5).unwrap();
    assert_eq!(sheets::commit(&mut store, &mut copy, 9, ALL), Ok(3));
    (store, copy)
}

/// Holds panel readings to read: at each revision what read gives at the greatest released one up to it, bytes, place and the revision beside them.
fn panel_follows(store: &[u8], last: u32, released: &[u32]) {
    let placed = |found: Result<Sheet, Refusal>| found.map(|sheet| (place_in(store, sheet.bytes), sheet.bytes.to_vec(), sheet.revision));
    for sheet in (0..7).chain([31]) {
        for revision in 0..=last {
            let greatest = released.iter().copied().filter(|&r| r <= revision).max();
            let due = greatest.map_or(Err(Refusal::Missing), |r| sheets::read(store, r, sheet));
            assert_eq!(placed(sheets::panel_read(store, revision, sheet)), placed(due), "sheet {sheet} at {revision}, released {released:?}");
        }
        assert_eq!(sheets::panel_read(store, last + 1, sheet), Err(Refusal::Range));
        assert_eq!(sheets::panel_read(store, last, sheet + 32), Err(Refusal::Range));
    }
}

#[test]
fn a_release_is_one_block_behind_the_others() {
    let (bare, _) = case_input(8);
    let mut store = bare.clone();
    assert_eq!(sheets::release(&mut store, 1, 3, 0x0403_0201), Ok(()));
    let mut whole = bare.clone();
    whole[3 * BLOCK..3 * BLOCK + 12].copy_from_slice(&[6, 0, 0, 0, 1, 0, 3, 0, 1, 2, 3, 4]);
    seal(&mut whole[3 * BLOCK..4 * BLOCK]);
    assert!(store == whole);
    assert_eq!(sheets::clear(&mut store), Ok(()));
    assert!(store == whole);
}

#[test]
fn a_panel_reads_a_part_of_the_store() {
    let (mut store, _) = case_input(8);
    sheets::release(&mut store, 1, 2, 8).unwrap();
    let sheet = sheets::panel_read(&store, 1, 5).unwrap();
    assert_eq!(sheet, Sheet { bytes: b"A", revision: 1 });
    assert_eq!(place_in(&store, sheet.bytes), Some(BLOCK + 16));
}

#[test]
fn a_panel_reads_the_greatest_release_up_to_a_revision() {
    fn panel(store: &[u8], sheet: u32) -> [Result<Sheet<'_>, Refusal>; 5] {
        [0, 1, 2, 3, 4].map(|revision| sheets::panel_read(store, revision, sheet))
    }
    let (mut store, _) = three_revisions(16);
    let (none, above) = (Err(Refusal::Missing), Err(Refusal::Range));
    let (a, b, c) = (Ok(Sheet { bytes: b"A", revision: 1 }), Ok(Sheet { bytes: b"B", revision: 2 }), Ok(Sheet { bytes: b"C", revision: 2 }));
    assert_eq!(panel(&store, 5), [none, none, none, none, above]);
    sheets::release(&mut store, 2, 1, 10).unwrap();
    assert_eq!(panel(&store, 5), [none, none, b, b, above]);
    assert_eq!(panel(&store, 6), [none, none, c, c, above]);
    // An older release made later: what a panel sees from revision 2 on stays.
    sheets::release(&mut store, 1, 1, 11).unwrap();
    assert_eq!(panel(&store, 5), [none, a, b, b, above]);
    assert_eq!(panel(&store, 6), [none, none, c, c, above]);
    // Tree 3 lacks sheet 5, whatever older releases have, and has sheet 6 as commit 2 left it.
    sheets::release(&mut store, 3, 1, 12).unwrap();
    assert_eq!(panel(&store, 5), [none, a, b, none, above]);
    assert_eq!(panel(&store, 6), [none, none, c, c, above]);
    assert_eq!(panel(&store, 37), [above; 5]);
}

#[test]
fn releases_come_in_any_order() {
    for order in [[1, 2, 3], [1, 3, 2], [2, 1, 3], [2, 3, 1], [3, 1, 2], [3, 2, 1]] {
        let (mut store, _) = three_revisions(10);
        for k in 0..3 {
            panel_follows(&store, 3, &order[..k]);
            assert_eq!(sheets::release(&mut store, order[k], 1 + k as u32, 10), Ok(()));
            for &released in &order[..=k] {
                assert_eq!(sheets::release(&mut store, released, 4, 11), Err(Refusal::Released));
            }
        }
        panel_follows(&store, 3, &order);
    }
}

/// Revisions 1 to 4 by seats 1 to 4, each with a sheet of its own and a change of sheet 0, and after each of them these releases; the store and the copies.
fn released_between(releases: [&[u32]; 4]) -> (Vec<u8>, Vec<Vec<u8>>) {
    let mut store = store_of(32);
    let mut copies: Vec<Vec<u8>> = (1..=4).map(copy_of).collect();
    let mut released = vec![];
    for (seat, (copy, due)) in (1..).zip(copies.iter_mut().zip(releases)) {
        sheets::update(&store, copy, ALL, seat - 1).unwrap();
        if seat == 1 { sheets::add(&store, copy, 0, &[1]) } else { sheets::edit(&store, copy, 0, &[seat as u8]) }.unwrap();
        sheets::add(&store, copy, seat, &[seat as u8; 2]).unwrap();
        assert_eq!(sheets::commit(&mut store, copy, seat, ALL), Ok(seat));
        for &revision in due {
            assert_eq!(sheets::release(&mut store, revision, 5 - seat, u32::MAX), Ok(()));
            released.push(revision);
        }
        panel_follows(&store, seat, &released);
    }
    (store, copies)
}

#[test]
fn what_an_engineer_finds_follows_from_the_commits_alone() {
    let (plain, plain_copies) = released_between([&[]; 4]);
    for releases in [[&[1][..], &[], &[3, 2], &[4]], [&[], &[2, 1], &[], &[]], [&[], &[], &[], &[1, 4, 2, 3]]] {
        let (store, copies) = released_between(releases);
        assert!(copies == plain_copies);
        for sheet in 0..33 {
            for revision in 0..6 {
                assert_eq!(sheets::read(&store, revision, sheet), sheets::read(&plain, revision, sheet));
                assert_eq!(sheets::log(&store, revision, sheet), sheets::log(&plain, revision, sheet));
            }
            for copy in &copies {
                assert_eq!(sheets::show(&store, copy, sheet), sheets::show(&plain, copy, sheet));
                assert_eq!(sheets::status(&store, copy, sheet), sheets::status(&plain, copy, sheet));
            }
        }
    }
}

#[test]
fn a_history_includes_its_releases_and_their_places() {
    let (store, _) = released_between([&[1], &[2], &[], &[]]);
    assert!(store == released_between([&[1], &[2], &[], &[]]).0);
    for others in [[&[1][..], &[], &[2], &[]], [&[], &[1, 2], &[], &[]], [&[], &[2, 1], &[], &[]], [&[1], &[], &[], &[]]] {
        assert!(store != released_between(others).0);
    }
}

/// Holds a store that was found while revision 2 was released, after revision 1, to the ones before and after: the release stands or it does not, and unless it
/// is the one or the other there is a tail.
fn found_at_a_release(found: &[u8], bare: &[u8], whole: &[u8]) {
    let stands = found == whole;
    panel_follows(found, 3, if stands { &[1, 2] } else { &[1] });
    assert_eq!(sheets::read(found, 2, 5), Ok(Sheet { bytes: b"B", revision: 2 }));
    let mut store = found.to_vec();
    if !stands && found != bare {
        let mut copy = copy_of(2);
        sheets::add(&store, &mut copy, 9, b"").unwrap();
        assert_eq!(sheets::commit(&mut store, &mut copy, 11, ALL), Err(Refusal::Tail));
        for (revision, seat) in [(2, 4), (1, 4), (0, 4), (4, 5)] {
            assert_eq!(sheets::release(&mut store, revision, seat, 11), Err(Refusal::Tail));
        }
        assert_eq!(sheets::clear_cut(&mut store, 0), Ok(Cut::Stopped));
        assert!(store == found);
    }
    assert_eq!(sheets::clear(&mut store), Ok(()));
    assert!(store == if stands { whole } else { bare });
    assert_eq!(sheets::release(&mut store, 2, 4, 11), if stands { Err(Refusal::Released) } else { Ok(()) });
    assert!(store == whole);
}

/// Three revisions of which the first is released, before and after the release of the second, whose block is block 8.
fn before_and_after_a_release() -> [Vec<u8>; 2] {
    let (mut bare, _) = three_revisions(10);
    sheets::release(&mut bare, 1, 3, 10).unwrap();
    let mut whole = bare.clone();
    sheets::release(&mut whole, 2, 4, 11).unwrap();
    assert!(bare[..8 * BLOCK] == whole[..8 * BLOCK] && bare[9 * BLOCK..] == whole[9 * BLOCK..]);
    [bare, whole]
}

#[test]
fn a_damaged_last_release_is_a_tail() {
    let [bare, whole] = before_and_after_a_release();
    for at in 0..BLOCK {
        let mut damaged = whole.clone();
        damaged[8 * BLOCK + at] ^= 0x10;
        found_at_a_release(&damaged, &bare, &whole);
    }
}

#[test]
fn a_damaged_release_before_another_block_is_refused() {
    let [_, mut store] = before_and_after_a_release();
    store[7 * BLOCK + 8] ^= 0x10;
    let before = store.clone();
    assert_eq!(sheets::panel_read(&store, 1, 5), Err(Refusal::StoreCheck));
    assert_eq!(sheets::release(&mut store, 3, 1, 0), Err(Refusal::StoreCheck));
    assert_eq!(sheets::clear(&mut store), Err(Refusal::StoreCheck));
    assert!(store == before);
}

#[test]
fn a_power_cut_leaves_a_release_or_none() {
    let [bare, whole] = before_and_after_a_release();
    for written in 0..=BLOCK {
        let mut found = bare.clone();
        let at = 8 * BLOCK + written;
        found[..at].copy_from_slice(&whole[..at]);
        found_at_a_release(&found, &bare, &whole);
        found[at..9 * BLOCK].fill(0xff);
        found_at_a_release(&found, &bare, &whole);
    }
}

#[test]
fn a_tail_behind_a_release_is_cleared_up_to_it() {
    let (mut bare, mut copy) = three_revisions(16);
    sheets::release(&mut bare, 2, 4, 10).unwrap();
    sheets::add(&bare, &mut copy, 7, b"D").unwrap();
    sheets::edit(&bare, &mut copy, 6, b"E").unwrap();
    for n in 1..3 {
        let (mut store, mut seat) = (bare.clone(), copy.clone());
        assert_eq!(sheets::commit_cut(&mut store, &mut seat, 11, ALL, n), Ok(Cut::Stopped));
        panel_follows(&store, 3, &[2]);
        assert_eq!(sheets::release(&mut store, 3, 1, 12), Err(Refusal::Tail));
        assert_eq!(sheets::clear_cut(&mut store, n), Ok(Cut::Done(())));
        assert!(store == bare);
        assert_eq!(sheets::release(&mut store, 3, 1, 12), Ok(()));
        assert_eq!(sheets::commit(&mut store, &mut seat, 13, ALL), Ok(4));
        panel_follows(&store, 4, &[2, 3]);
    }
}

#[test]
fn a_release_is_refused_in_order() {
    let refused = |number: u32, blocks: usize, revisions: &[u32], seats: &[u32], change: &dyn Fn(&mut Vec<u8>)| {
        let (mut store, _) = case_input(blocks);
        change(&mut store);
        let before = store.clone();
        for &revision in revisions {
            for &seat in seats {
                assert_eq!(sheets::release(&mut store, revision, seat, 9).unwrap_err().number(), number, "{revision}, {seat}");
                assert!(store == before, "refusal {number} changed the store");
            }
        }
    };
    let (any, far, no_seats) = ([0, 1, 2], [0, 2, 65_537, u32::MAX], [0, 5, 258, u32::MAX]);
    let (seats, any_seat) = ([1, 2, 3, 4], [0, 1, 4, 5]);
    let release_1 = |s: &mut Vec<u8>| sheets::release(s, 1, 2, 8).unwrap();
    refused(1, 4, &any, &any_seat, &|s| s.truncate(BLOCK));
    refused(1, 4, &any, &any_seat, &|s| s.truncate(4 * BLOCK - 1));
    refused(2, 4, &any, &any_seat, &|s| s[600] ^= 1);
    refused(3, 4, &any, &any_seat, &|s| s.copy_within(..BLOCK, 3 * BLOCK));
    refused(14, 4, &any, &any_seat, &|s| s[3 * BLOCK] = 1);
    // 7 comes before 16 and 13: the second and third store are full, and the third has revision 1 released.
    for (blocks, change) in [(8, &(|_: &mut Vec<u8>| ()) as &dyn Fn(&mut Vec<u8>)), (3, &|_| ()), (4, &release_1)] {
        refused(7, blocks, &far, &seats, change);
        refused(7, blocks, &[1], &no_seats, change);
    }
    refused(16, 8, &[1], &seats, &release_1);
    refused(16, 4, &[1], &seats, &release_1);
    refused(13, 3, &[1], &seats, &|_| ());
    refused(7, 4, &[0, 1], &seats, &|s| *s = store_of(4));
}

#[test]
fn a_panel_reading_is_refused_in_order() {
    let refused = |number: u32, revisions: &[u32], numbers: &[u32], change: &dyn Fn(&mut Vec<u8>)| {
        let (mut store, _) = case_input(4);
        change(&mut store);
        for &revision in revisions {
            for &sheet in numbers {
                assert_eq!(sheets::panel_read(&store, revision, sheet).unwrap_err().number(), number, "{revision}, {sheet}");
            }
        }
    };
    let (any, far, no_sheets) = ([0, 1, 2], [2, 65_537, u32::MAX], [32, 261, u32::MAX]);
    refused(1, &any, &[5, 32], &|s| s.truncate(BLOCK));
    refused(2, &any, &[5, 32], &|s| s[600] ^= 1);
    refused(3, &any, &[5, 32], &|s| s.copy_within(..BLOCK, 3 * BLOCK));
    for change in [&(|_: &mut Vec<u8>| ()) as &dyn Fn(&mut Vec<u8>), &|s| sheets::release(s, 1, 2, 8).unwrap(), &|s| s[3 * BLOCK] = 1] {
        refused(7, &far, &[5, 6, 32], change);
        refused(7, &any, &no_sheets, change);
        refused(8, &[0], &[0, 5, 31], change);
        refused(8, &[1], &[0, 6, 31], change);
    }
    refused(8, &[1], &[5], &|_| ());
}

/// A call on copies of a store and a working copy.
type Call<'a> = &'a dyn Fn(&mut Vec<u8>, &mut Vec<u8>) -> Result<(), Refusal>;

#[test]
fn every_refusal_has_its_number_and_changes_nothing() {
    let (store, copy) = case_input(4);
    let refused = |number: u32, call: Call| {
        let (mut s, mut c) = (store.clone(), copy.clone());
        assert_eq!(call(&mut s, &mut c).unwrap_err().number(), number);
        assert!(s == store && c == copy, "refusal {number} changed a buffer");
    };
    let commit = |s: &mut [u8], c: &mut [u8]| sheets::commit(s, c, 0, ALL).map(|_| ());
    refused(1, &|s, c| sheets::add(&s[1..], c, 0, b""));
    refused(2, &|s, _| {
        let mut damaged = s.clone();
        damaged[600] ^= 1;
        sheets::read(&damaged, 1, 5).map(|_| ())
    });
    refused(3, &|s, c| {
        let mut damaged = s.clone();
        damaged[2] = 1;
        seal(&mut damaged[..BLOCK]);
        sheets::delete(&damaged, c, 5)
    });
    refused(4, &|s, c| sheets::revert(s, &mut c[1..], ALL));
    refused(5, &|s, c| {
        let mut damaged = c.clone();
        damaged[0] = 5;
        sheets::status(s, &damaged, 5).map(|_| ())
    });
    refused(6, &|_, c| sheets::edit(&store_of(4), c, 5, b""));
    refused(7, &|s, c| sheets::add(s, c, 32, b""));
    refused(7, &|s, c| sheets::add(s, c, 6, &[0; 481]));
    refused(7, &|s, c| sheets::update(s, c, ALL, 2));
    refused(7, &|_, c| sheets::create_copy(c, 5));
    refused(8, &|s, c| sheets::move_sheet(s, c, 6, 7));
    refused(9, &|s, c| sheets::copy_sheet(s, c, 5, 5));
    refused(10, &|s, c| commit(s, c));
    refused(11, &|s, _| {
        let mut one = copy_of(1);
        sheets::add(s, &mut one, 5, b"other")?;
        commit(s, &mut one)
    });
    refused(12, &|s, _| {
        let mut one = copy_of(1);
        sheets::add(s, &mut one, 5, b"other")?;
        sheets::update(s, &mut one, ALL, 1)
    });
    refused(13, &|s, c| {
        let mut edited = c.clone();
        sheets::edit(s, &mut edited, 5, b"B")?;
        commit(s, &mut edited)
    });
    refused(14, &|s, c| {
        let mut tailed = s.clone();
        tailed[3 * BLOCK] = 1;
        commit(&mut tailed, c)
    });
    refused(15, &|s, c| sheets::commit_in_turn(s, c, Turn::free(), 0, ALL).map(|_| ()));
    refused(16, &|s, _| {
        let mut full = s.clone();
        sheets::release(&mut full, 1, 2, 8)?;
        sheets::release(&mut full, 1, 2, 8)
    });
    refused(7, &|s, _| sheets::release(s, 0, 2, 8));
    refused(8, &|s, _| sheets::panel_read(s, 1, 5).map(|_| ()));
    refused(1, &|s, _| sheets::clear(&mut s[1..]));
    refused(2, &|s, _| {
        let mut damaged = s.clone();
        damaged[600] ^= 1;
        sheets::clear(&mut damaged)
    });
    refused(3, &|s, _| {
        let mut damaged = s.clone();
        damaged.copy_within(..BLOCK, 3 * BLOCK);
        sheets::clear(&mut damaged)
    });
}

#[test]
fn a_refusal_says_its_number() {
    assert_eq!(Refusal::NoRoom.to_string(), "refusal 13: the store has no room");
    assert_eq!(Refusal::Tail.to_string(), "refusal 14: the store has a tail");
    assert_eq!(Refusal::NotHolding.to_string(), "refusal 15: the seat does not hold the turn");
    assert_eq!(Refusal::Released.to_string(), "refusal 16: the revision is released already");
}

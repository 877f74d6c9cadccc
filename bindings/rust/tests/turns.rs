//! The turn record: every call on every record of some numbers against a queue, the bound over every list of calls, and commits in turn.

mod common;

use common::{case_input, copy_of, refused_commits, store_of};
use sheetstore::{self as sheets, Refusal, Turn, ALL};
use std::collections::{HashSet, VecDeque};

/// Seats, what is none, and what would be a seat if it were cut to fewer bits.
const NUMBERS: [u32; 9] = [0, 1, 2, 3, 4, 5, 257, 65_538, u32::MAX];

/// A call on the record.
#[derive(Clone, Copy, Debug)]
enum Call {
    Ask(u32),
    Give(u32),
    Take,
}

fn calls(seats: &[u32]) -> Vec<Call> {
    seats.iter().flat_map(|&seat| [Call::Ask(seat), Call::Give(seat)]).chain([Call::Take]).collect()
}

fn made(turn: &mut Turn, call: Call) -> Result<Option<u32>, Refusal> {
    match call {
        Call::Ask(seat) => turn.ask(seat),
        Call::Give(seat) => turn.give(seat),
        Call::Take => turn.take(),
    }
}

/// The same on the seats in line, the holder first.
fn made_in_line(line: &mut VecDeque<u32>, call: Call) -> Result<Option<u32>, Refusal> {
    if let Call::Ask(seat) | Call::Give(seat) = call {
        if seat == 0 || seat > 4 {
            return Err(Refusal::Range);
        }
    }
    match call {
        Call::Ask(seat) if line.contains(&seat) => {}
        Call::Ask(seat) => line.push_back(seat),
        Call::Give(seat) if line.front() != Some(&seat) => {}
        Call::Give(_) | Call::Take => drop(line.pop_front()),
    }
    Ok(line.front().copied())
}

fn record(line: &VecDeque<u32>) -> Turn {
    let mut numbers = [0; 4];
    numbers.iter_mut().zip(line).for_each(|(n, &seat)| *n = seat);
    Turn::from_numbers(numbers)
}

/// Every line of seats 1 to 4, none twice.
fn lines() -> Vec<VecDeque<u32>> {
    let mut lines = vec![VecDeque::new()];
    for k in 0.. {
        let Some(line) = lines.get(k).cloned() else { break };
        for seat in (1..=4).filter(|seat| !line.contains(seat)) {
            let mut longer = line.clone();
            longer.push_back(seat);
            lines.push(longer);
        }
    }
    lines
}

#[test]
fn every_call_on_every_record_in_form() {
    let lines = lines();
    assert_eq!(lines.len(), 65);
    for line in lines {
        assert_eq!(record(&line).holder().into_iter().chain(record(&line).waiting()).collect::<VecDeque<_>>(), line);
        for call in calls(&NUMBERS) {
            let (mut turn, mut after) = (record(&line), line.clone());
            let answer = made(&mut turn, call);
            assert_eq!((answer, turn), (made_in_line(&mut after, call), record(&after)), "{call:?} on {line:?}");
        }
    }
}

#[test]
fn every_other_record_is_refused_and_stays() {
    let in_form: HashSet<Turn> = lines().iter().map(record).collect();
    let mut others = 0;
    for k in 0..NUMBERS.len().pow(4) {
        let before = Turn::from_numbers([0, 1, 2, 3].map(|i| NUMBERS[k / NUMBERS.len().pow(i) % NUMBERS.len()]));
        if in_form.contains(&before) {
            continue;
        }
        others += 1;
        for call in calls(&NUMBERS) {
            let mut turn = before;
            assert_eq!((made(&mut turn, call), turn), (Err(Refusal::Range), before), "{call:?}");
        }
    }
    assert_eq!(others, 9 * 9 * 9 * 9 - 65);
}

/// Every record that lists of calls reach from a free one, with how many turns ended since each waiting seat asked.
#[test]
fn a_seat_waits_for_three_turns_to_end_at_most() {
    let mut found = vec![(Turn::free(), [0; 4])];
    let mut seen: HashSet<_> = found.iter().copied().collect();
    let mut longest = 0;
    while let Some((before, counts)) = found.pop() {
        for call in calls(&[1, 2, 3, 4]) {
            let (mut turn, mut ended) = (before, counts);
            let holder = made(&mut turn, call).unwrap();
            let ends = match call {
                Call::Ask(_) => false,
                Call::Give(seat) => before.holder() == Some(seat),
                Call::Take => before.holder().is_some(),
            };
            for seat in 1..=4 {
                let waited = before.waiting().any(|s| s == seat);
                let count = &mut ended[seat as usize - 1];
                *count += (waited && ends) as u32;
                if turn.waiting().any(|s| s == seat) {
                    assert!(*count < 3, "seat {seat} waits in {turn:?} after {count} turns");
                } else {
                    assert!(!waited || holder == Some(seat), "seat {seat} lost its place in {before:?} by {call:?}");
                    longest = longest.max(*count);
                    *count = 0;
                }
            }
            if seen.insert((turn, ended)) {
                found.push((turn, ended));
            }
        }
    }
    assert_eq!(longest, 3);
    assert_eq!(seen.iter().map(|s| s.0).collect::<HashSet<_>>().len(), 65);
}

#[test]
fn a_free_record_is_the_default() {
    assert_eq!(Turn::free(), Turn::default());
    assert_eq!(Turn::free().numbers(), [0; 4]);
    assert_eq!((Turn::free().holder(), Turn::free().waiting().count()), (None, 0));
    assert_eq!(Turn::from_numbers([3, 1, 4, 2]).numbers(), [3, 1, 4, 2]);
}

/// Records by which seat 2 holds the turn.
const HELD: [[u32; 4]; 3] = [[2, 0, 0, 0], [2, 1, 0, 0], [2, 4, 1, 3]];
/// Records by which it does not.
const NOT_HELD: [[u32; 4]; 5] = [[0; 4], [1, 0, 0, 0], [1, 2, 0, 0], [3, 4, 1, 2], [4, 2, 1, 3]];
/// Records that are not in form.
const BAD: [[u32; 4]; 9] =
    [[2, 2, 0, 0], [2, 0, 1, 0], [2, 0, 0, 1], [2, 1, 3, 5], [2, 1, 3, 1], [258, 0, 0, 0], [0, 2, 0, 0], [1, 5, 0, 0], [2, 1, u32::MAX, 3]];

/// A commit in turn by seat 2, with each record on the same buffers: the commit itself, or refused by the record where no line before that holds.
fn as_a_commit(number: u32, mask: u32, store: &[u8], copy: &[u8]) {
    let commit = |turn: Option<[u32; 4]>| {
        let (mut s, mut c) = (store.to_vec(), copy.to_vec());
        let answer = match turn.map(Turn::from_numbers) {
            Some(turn) => sheets::commit_in_turn(&mut s, &mut c, turn, 8, mask),
            None => sheets::commit(&mut s, &mut c, 8, mask),
        };
        (answer, s, c)
    };
    let (plain, in_turn) = (commit(None), |numbers| commit(Some(numbers)));
    assert_eq!(plain.0.map_or_else(Refusal::number, |_| 0), number);
    let refused = |refusal: Refusal| (Err(refusal), store.to_vec(), copy.to_vec());
    let first = matches!(number, 1..=7 | 14);
    for numbers in HELD {
        assert!(in_turn(numbers) == plain, "{number}, {numbers:?}");
    }
    for numbers in NOT_HELD {
        assert!(in_turn(numbers) == if first { plain.clone() } else { refused(Refusal::NotHolding) }, "{number}, {numbers:?}");
    }
    for numbers in BAD {
        assert!(in_turn(numbers) == if first { plain.clone() } else { refused(Refusal::Range) }, "{number}, {numbers:?}");
    }
}

#[test]
fn a_commit_in_turn_is_the_commit_or_refused_by_the_record() {
    let (store, mut copy) = case_input(4);
    sheets::delete(&store, &mut copy, 5).unwrap();
    as_a_commit(0, ALL, &store, &copy);
    let (store, mut copy) = case_input(6);
    sheets::edit(&store, &mut copy, 5, b"B").unwrap();
    sheets::add(&store, &mut copy, 6, b"C").unwrap();
    as_a_commit(0, 1 << 5, &store, &copy);
    refused_commits(|number, mask, store, copy| as_a_commit(number, mask, &store, &copy));
}

#[test]
fn four_seats_commit_in_the_order_in_which_they_asked() {
    let (mut store, mut turn, order) = (store_of(16), Turn::free(), [3, 1, 4, 2]);
    let mut copies: Vec<Vec<u8>> = (1..=4).map(copy_of).collect();
    for seat in order {
        assert_eq!(turn.ask(seat), Ok(Some(3)));
        sheets::add(&store, &mut copies[seat as usize - 1], seat, &[seat as u8]).unwrap();
    }
    for (revision, holder) in (1..).zip(order) {
        assert_eq!(turn.holder(), Some(holder));
        for seat in (1..=4).filter(|&seat| seat != holder) {
            assert_eq!(sheets::commit_in_turn(&mut store, &mut copies[seat as usize - 1], turn, 9, ALL), Err(Refusal::NotHolding));
            assert_eq!(turn.give(seat), Ok(Some(holder)));
        }
        let held = turn;
        assert_eq!(sheets::commit_in_turn(&mut store, &mut copies[holder as usize - 1], turn, 9, ALL), Ok(revision));
        assert_eq!(turn, held);
        assert_eq!(sheets::log(&store, revision, holder).unwrap().seat, holder);
        assert_eq!(if revision == 2 { turn.take() } else { turn.give(holder) }, Ok(held.waiting().next()));
    }
    assert_eq!(turn, Turn::free());
}

#[test]
fn the_plain_commit_asks_for_no_turn() {
    let (mut store, mut copy) = case_input(4);
    sheets::delete(&store, &mut copy, 5).unwrap();
    assert_eq!(sheets::commit_in_turn(&mut store, &mut copy, Turn::free(), 8, ALL), Err(Refusal::NotHolding));
    assert_eq!(sheets::commit(&mut store, &mut copy, 8, ALL), Ok(2));
}

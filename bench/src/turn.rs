//! An independent version of the calls on a turn record, in plain Rust from the papers: what the engine's are held to for speed and for their answers.

use crate::engine::{self, Answer, Turn};
use crate::make::Rng;
use crate::{best, keep};
use std::hint::black_box;

/// The refusal, or the holder that the call leaves, 0 for none.
type Held = Result<u32, u32>;

/// How many seats stand in a record, or 7 where it is not in form.
fn seats(record: &[u32; 4]) -> Held {
    let len = record.iter().position(|&n| n == 0).unwrap_or(4);
    let (line, rest) = record.split_at(len);
    let once = |i: usize| line[i] <= 4 && !line[..i].contains(&line[i]);
    if rest.iter().all(|&n| n == 0) && (0..len).all(once) {
        Ok(len as u32)
    } else {
        Err(7)
    }
}

/// The same, and 7 for a seat that is not 1 to 4.
fn seats_by(record: &[u32; 4], seat: u32) -> Held {
    if (1..=4).contains(&seat) {
        seats(record)
    } else {
        Err(7)
    }
}

fn pass(record: &mut [u32; 4]) {
    record.copy_within(1.., 0);
    record[3] = 0;
}

#[inline(never)]
fn ask(record: &mut [u32; 4], seat: u32) -> Held {
    let len = seats_by(record, seat)? as usize;
    if !record[..len].contains(&seat) {
        record[len] = seat;
    }
    Ok(record[0])
}

#[inline(never)]
fn give(record: &mut [u32; 4], seat: u32) -> Held {
    seats_by(record, seat)?;
    if record[0] == seat {
        pass(record);
    }
    Ok(record[0])
}

#[inline(never)]
fn take(record: &mut [u32; 4]) -> Held {
    seats(record)?;
    pass(record);
    Ok(record[0])
}

fn held(answer: Answer) -> Held {
    match answer.refusal {
        0 => Ok(answer.value),
        refusal => Err(refusal),
    }
}

/// Every record of some numbers, in form or not.
fn records() -> Vec<[u32; 4]> {
    let numbers = [0, 1, 2, 3, 4, 5, 257, u32::MAX];
    (0..4096).map(|k| [0, 3, 6, 9].map(|shift| numbers[k >> shift & 7])).collect()
}

/// The engine's calls are the Rust version's on every record of some numbers, answers and records.
fn agree() {
    let mut count = 0;
    let mut same = |before: [u32; 4], of_engine: &dyn Fn(&mut Turn) -> Answer, of_rust: &dyn Fn(&mut [u32; 4]) -> Held| {
        let (mut turn, mut record) = (Turn::from_numbers(before), before);
        assert_eq!(held(of_engine(&mut turn)), of_rust(&mut record));
        assert_eq!(turn.numbers(), record);
        count += 1;
    };
    for before in records() {
        for seat in [0, 1, 2, 3, 4, 5, 257, u32::MAX] {
            same(before, &|t| engine::turn_ask(t, seat), &|r| ask(r, seat));
            same(before, &|t| engine::turn_give(t, seat), &|r| give(r, seat));
        }
        same(before, &|t| engine::turn_take(t), &|r| take(r));
    }
    println!("{count} calls on a turn record: the Rust version's answers and records");
}

/// A call by each of these seats on its record.
fn every<R: Copy, A>(list: &[(R, u32)], call: impl Fn(&mut R, u32) -> A) {
    for &(mut r, seat) in black_box(list) {
        keep(call(&mut r, seat));
        keep(r);
    }
}

/// The calls of a list by the engine and by the Rust version.
fn measured(title: &str, list: &[([u32; 4], u32)]) {
    let turns: Vec<(Turn, u32)> = list.iter().map(|&(record, seat)| (Turn::from_numbers(record), seat)).collect();
    let t = best(
        200,
        &mut [
            ("", Box::new(|| every(&turns, engine::turn_ask))),
            ("", Box::new(|| every(list, ask))),
            ("", Box::new(|| every(&turns, engine::turn_give))),
            ("", Box::new(|| every(list, give))),
            ("", Box::new(|| every(&turns, |turn, _| engine::turn_take(turn)))),
            ("", Box::new(|| every(list, |record, _| take(record)))),
        ],
    );
    println!("{title}");
    let ns = |t: f64| t / list.len() as f64;
    for (what, t) in ["ask", "give back", "take back"].iter().zip(t.chunks_exact(2)) {
        println!("  {what:<44} engine {:>6.1} ns, Rust {:>6.1} ns   {:>6.2} of it", ns(t[0]), ns(t[1]), t[0] / t[1]);
    }
}

/// Each call on the records in form, by seats 1 to 4: in one order again and again, which a processor learns, and at random.
pub fn calls() {
    agree();
    let good: Vec<[u32; 4]> = records().into_iter().filter(|r| seats(r).is_ok()).collect();
    let pairs: Vec<([u32; 4], u32)> = good.iter().flat_map(|&r| (1..=4).map(move |seat| (r, seat))).collect();
    let mut rng = Rng(5);
    let random: Vec<_> = (0..20_000).map(|_| pairs[rng.below(pairs.len())]).collect();
    measured("calls on a turn record, in one order", &pairs.repeat(77));
    measured("calls on a turn record, at random", &random);
}

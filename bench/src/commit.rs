//! An independent version of commit and clearing, cut after n writes, in plain Rust from the papers: what the engine's cut calls are held to for speed and for their answers.
//! With n enough they are the usual calls.

use crate::store::{content, naming, open, seal, two, zero, zero_block, BLOCK};
use crate::sums;

/// The refusal, or the value of a call that is done, or nothing of one that stopped.
pub type Cut = Result<Option<u32>, u32>;

fn block(bytes: &[u8], p: usize) -> &[u8] {
    &bytes[p * BLOCK..(p + 1) * BLOCK]
}

fn block_mut(bytes: &mut [u8], p: usize) -> &mut [u8] {
    &mut bytes[p * BLOCK..(p + 1) * BLOCK]
}

/// Blocks behind the used ones, up to the first that is zero: the tail of an accepted store.
pub fn tail(store: &[u8], used: usize) -> usize {
    store[used * BLOCK..].chunks_exact(BLOCK).take_while(|b| !zero_block(b)).count()
}

/// The layout of a working copy, its checks apart.
fn laid_out(copy: &[u8]) -> bool {
    let seat = block(copy, 0);
    seat[0] == 4 && (1..=4).contains(&seat[1]) && zero(&seat[2..508]) && copy.chunks_exact(BLOCK).skip(1).all(entry)
}

fn entry(e: &[u8]) -> bool {
    let (len, base, source, from) = (two(e, 2), two(e, 4), e[6], two(e, 8));
    let fields = match e[1] {
        0 => len == 0 && base == 0 && source == 0 && from == 0,
        1 => base != 0 && source == 0 && from == 0,
        2 => base == 0 && source == 0 && from == 0,
        3 => len == 0 && base != 0 && source == 0 && from == 0,
        4 => base == 0 && source < 32 && from != 0,
        _ => false,
    };
    e[0] == 5 && fields && len <= 480 && e[7] == 0 && zero(&e[10..16]) && zero(&e[16 + len..508])
}

/// A chosen entry that is pending: its sheet, its action, the block of its base or its source, and whether it takes a content block.
struct Change {
    sheet: usize,
    action: u8,
    at: usize,
    own: bool,
}

pub fn commit_cut(store: &mut [u8], copy: &mut [u8], stamp: u32, mask: u32, n: u32) -> Cut {
    let opened = open(store)?;
    let (last, used, blocks) = (opened.last, opened.used, store.len() / BLOCK);
    if tail(store, used) != 0 {
        return Err(14);
    }
    if copy.len() != 33 * BLOCK {
        return Err(4);
    }
    if !sums::all_right(copy, sums::fours) || !laid_out(copy) {
        return Err(5);
    }
    // the block of each base or source
    let mut at = [0; 32];
    for (i, e) in copy.chunks_exact(BLOCK).skip(1).enumerate() {
        let (r, sheet) = match e[1] {
            1 | 3 => (two(e, 4), i),
            4 => (two(e, 8), e[6] as usize),
            _ => continue,
        };
        at[i] = if r > last { 0 } else { naming(store, used, r, sheet).map_or(0, |(at, _)| at) };
        if at[i] == 0 {
            return Err(6);
        }
    }
    if mask == 0 {
        return Err(7);
    }
    let mut changes = vec![];
    for sheet in (0..32).filter(|i| mask >> i & 1 == 1) {
        let e = block(copy, 1 + sheet);
        let same = at[sheet] != 0 && content(block(store, at[sheet])) == &e[16..16 + two(e, 2)];
        let (action, own) = match e[1] {
            1 if !same => (2, true),
            2 => (1, true),
            3 => (3, false),
            4 => (4, !same),
            _ => continue,
        };
        changes.push(Change { sheet, action, at: at[sheet], own });
    }
    if changes.is_empty() {
        return Err(10);
    }
    let stale = |c: &Change| {
        let now = naming(store, used, last, c.sheet);
        match c.action {
            2 | 3 => now.is_some_and(|(_, r)| r > two(block(copy, 1 + c.sheet), 4)),
            _ => now.is_some_and(|(at, _)| at != 0),
        }
    };
    if changes.iter().any(stale) {
        return Err(11);
    }
    let k = changes.iter().filter(|c| c.own).count();
    if used + k + 1 > blocks {
        return Err(13);
    }
    let r = ((last + 1) as u16).to_le_bytes();
    let (mut next, stop) = (used, used + n as usize);
    let mut lines = vec![];
    for c in &changes {
        let e = block(copy, 1 + c.sheet);
        let mut points = if c.action == 3 { 0 } else { c.at };
        if c.own {
            if next == stop {
                return Ok(None);
            }
            let b = block_mut(store, next);
            b.fill(0);
            b[0] = 2;
            b[2..4].copy_from_slice(&e[2..4]);
            b[4..6].copy_from_slice(&r);
            b[16..508].copy_from_slice(&e[16..508]);
            seal(b);
            points = next;
            next += 1;
        }
        lines.extend([c.sheet as u8, c.action]);
        lines.extend((points as u16).to_le_bytes());
        lines.extend([e[6], 0, e[8], e[9]]);
    }
    if next == stop {
        return Ok(None);
    }
    let b = block_mut(store, next);
    b.fill(0);
    b[0] = 3;
    b[2] = changes.len() as u8;
    b[4..6].copy_from_slice(&r);
    b[6] = copy[1];
    b[8..12].copy_from_slice(&stamp.to_le_bytes());
    b[16..16 + lines.len()].copy_from_slice(&lines);
    seal(b);
    for c in &changes {
        let e = block_mut(copy, 1 + c.sheet);
        if c.action == 3 {
            e.fill(0);
            e[0] = 5;
        } else {
            e[1] = 1;
            e[4..6].copy_from_slice(&r);
            e[6..10].fill(0);
        }
        seal(e);
    }
    Ok(Some(last as u32 + 1))
}

pub fn clear_cut(store: &mut [u8], n: u32) -> Cut {
    let used = open(store)?.used;
    let tail = tail(store, used);
    for (done, p) in (used..used + tail).rev().enumerate() {
        if done == n as usize {
            return Ok(None);
        }
        block_mut(store, p).fill(0);
    }
    Ok(Some(0))
}

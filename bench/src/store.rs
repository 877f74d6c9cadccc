//! An independent version of the checks of document 01, section "Blocks", with W5's tail and W9's releases, in plain Rust: what the engine's acceptance is held to for speed and for its answers.
//! It shares nothing with the engine.

use crate::sums;

pub const BLOCK: usize = 512;

pub fn two(b: &[u8], k: usize) -> usize {
    b[k] as usize + 256 * b[k + 1] as usize
}

pub fn seal(b: &mut [u8]) {
    let (a, s) = sums::fours(b);
    b[508..510].copy_from_slice(&(a as u16).to_le_bytes());
    b[510..512].copy_from_slice(&(s as u16).to_le_bytes());
}

pub fn zero(b: &[u8]) -> bool {
    b.iter().all(|&x| x == 0)
}

/// The same of a whole block, with no way out before its end: many bytes at a time.
pub fn zero_block(b: &[u8]) -> bool {
    b.iter().fold(0, |all, &x| all | x) == 0
}

/// The shape of a block by its first byte: named fields in range, everything else zero.
fn shaped(b: &[u8]) -> bool {
    match b[0] {
        1 => b[1] == 1 && zero(&b[2..508]),
        2 => {
            let n = two(b, 2);
            b[1] == 0 && n <= 480 && zero(&b[6..16]) && zero(&b[16 + n..508])
        }
        3 => {
            let m = two(b, 2);
            b[1] == 0
                && m <= 32
                && b[7] == 0
                && zero(&b[12..16])
                && (0..m).all(|j| {
                    let l = &b[16 + 8 * j..24 + 8 * j];
                    (1..=4).contains(&l[1]) && l[5] == 0
                })
                && zero(&b[16 + 8 * m..508])
        }
        6 => zero(&b[1..4]) && b[7] == 0 && zero(&b[12..508]),
        _ => false,
    }
}

/// The bytes of a content block; any other block holds none.
pub fn content(b: &[u8]) -> &[u8] {
    if b[0] == 2 {
        &b[16..16 + two(b, 2)]
    } else {
        &[]
    }
}

#[derive(Debug, PartialEq, Eq, Clone, Copy)]
pub struct Opened {
    pub last: usize,
    pub used: usize,
}

/// Refusals 1 to 3, or the last revision and the used blocks. Compiled once, for all its callers.
#[inline(never)]
pub fn open(store: &[u8]) -> Result<Opened, u32> {
    let n = store.len() / BLOCK;
    if store.len() % BLOCK != 0 || !(2..=4096).contains(&n) {
        return Err(1);
    }
    // the last block that isn't all zero, or the label's
    let end = (1..n).rev().find(|&p| !zero_block(&store[p * BLOCK..(p + 1) * BLOCK])).unwrap_or(0);
    let right = |from: usize, to: usize| sums::all_right(&store[from * BLOCK..to * BLOCK], sums::fours);
    let whole = right(end, end + 1);
    if !right(0, end) || end == 0 && !whole {
        return Err(2);
    }
    laid_out(store, end + whole as usize).ok_or(3)
}

/// The first n blocks, whose checks are right, as a history and the contents of a tail.
fn laid_out(store: &[u8], n: usize) -> Option<Opened> {
    let block = |p: usize| &store[p * BLOCK..(p + 1) * BLOCK];
    if block(0)[0] != 1 || !shaped(block(0)) {
        return None;
    }
    // a row of 32 block numbers for each tree
    let mut table: Vec<[u16; 32]> = Vec::with_capacity(64.min(n));
    table.push([0; 32]);
    // the revisions that are released
    let mut released = [false; 4096];
    let mut first = 1;
    for p in 1..n {
        let b = block(p);
        if !shaped(b) {
            return None;
        }
        match b[0] {
            2 => {
                if two(b, 4) != table.len() {
                    return None;
                }
            }
            3 => {
                let row = commit(store, b, first, p, &table)?;
                table.push(row);
                first = p + 1;
            }
            6 => {
                let r = two(b, 4);
                if p != first || !(1..table.len()).contains(&r) || released[r] || !(1..=4).contains(&b[6]) {
                    return None;
                }
                released[r] = true;
                first = p + 1;
            }
            _ => return None,
        }
    }
    if n - first > 32 {
        return None;
    }
    Some(Opened { last: table.len() - 1, used: first })
}

/// One commit block at p, whose content blocks stand from `first` on: the next row of the table.
fn commit(store: &[u8], b: &[u8], first: usize, p: usize, table: &[[u16; 32]]) -> Option<[u16; 32]> {
    let block = |q: usize| &store[q * BLOCK..(q + 1) * BLOCK];
    let m = two(b, 2);
    let r = two(b, 4);
    if r != table.len() || !(1..=4).contains(&b[6]) || m == 0 {
        return None;
    }
    let old = table[r - 1];
    let mut row = old;
    let mut named = 0u32;
    let mut pointed = 0u64;
    let own = |q: usize| (first..p).contains(&q);
    for l in b[16..16 + 8 * m].chunks_exact(8) {
        let (sheet, action, at, source, from) = (l[0] as usize, l[1], two(l, 2), l[4] as usize, two(l, 6));
        if sheet > 31 || named >> sheet & 1 == 1 {
            return None;
        }
        named |= 1 << sheet;
        let present = old[sheet] != 0;
        let bare = source == 0 && from == 0;
        let good = match action {
            1 => !present && own(at) && bare,
            2 => present && own(at) && bare,
            3 => present && at == 0 && bare,
            _ => {
                !present && (1..r).contains(&from) && source < 32 && {
                    let user = table[from][source] as usize;
                    user != 0 && (at == user || own(at) && content(block(at)) != content(block(user)))
                }
            }
        };
        if !good {
            return None;
        }
        if own(at) {
            // more than 32 contents cannot each be pointed to
            if at - first > 63 || pointed >> (at - first) & 1 == 1 {
                return None;
            }
            pointed |= 1 << (at - first);
        }
        row[sheet] = at as u16;
    }
    if pointed.count_ones() as usize != p - first {
        return None;
    }
    Some(row)
}

/// Sheet i of tree r in an accepted store: its bytes' place and length, and the last commit up to r that named it.
pub fn find(store: &[u8], used: usize, r: usize, sheet: usize) -> Option<(usize, usize, usize)> {
    naming(store, used, r, sheet).filter(|c| c.0 != 0).map(|(at, r)| (at * BLOCK + 16, two(&store[at * BLOCK..], 2), r))
}

/// The last commit up to r that named sheet i: the block that its change points to, 0 for a delete, and its revision.
#[inline(always)]
pub fn naming(store: &[u8], used: usize, r: usize, sheet: usize) -> Option<(usize, usize)> {
    // the first content or commit block after commit r: the revisions that these carry rise, and releases stand behind the commit before them
    let (mut lo, mut hi) = (1, used);
    while lo < hi {
        let mid = (lo + hi) / 2;
        match (lo..=mid).rev().find(|&p| store[p * BLOCK] != 6) {
            Some(p) if two(&store[p * BLOCK..], 4) > r => hi = p,
            _ => lo = mid + 1,
        }
    }
    for p in (1..lo).rev() {
        let b = &store[p * BLOCK..(p + 1) * BLOCK];
        if b[0] == 3 {
            for l in b[16..16 + 8 * two(b, 2)].chunks_exact(8) {
                if l[0] as usize == sheet {
                    return Some((two(l, 2), two(b, 4)));
                }
            }
        }
    }
    None
}

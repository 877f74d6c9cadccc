//! Stores to measure on, laid out by hand as document 01 and W9 say.

use crate::store::{seal, BLOCK};

pub struct Maker {
    pub store: Vec<u8>,
    pub used: usize,
    pub last: usize,
}

pub struct Change<'a> {
    pub sheet: u8,
    pub action: u8,
    /// The bytes of a content block of its own.
    pub content: Option<&'a [u8]>,
    /// The block of a copy that shares its source's.
    pub shared: u16,
    pub source: u8,
    pub from: u16,
}

pub fn add(sheet: u8, content: &[u8]) -> Change<'_> {
    Change { sheet, action: 1, content: Some(content), shared: 0, source: 0, from: 0 }
}

pub fn change(sheet: u8, content: &[u8]) -> Change<'_> {
    Change { sheet, action: 2, content: Some(content), shared: 0, source: 0, from: 0 }
}

pub fn delete<'a>(sheet: u8) -> Change<'a> {
    Change { sheet, action: 3, content: None, shared: 0, source: 0, from: 0 }
}

pub fn copy<'a>(sheet: u8, source: u8, from: u16, shared: u16) -> Change<'a> {
    Change { sheet, action: 4, content: None, shared, source, from }
}

impl Maker {
    pub fn new(blocks: usize) -> Maker {
        let mut store = vec![0; blocks * BLOCK];
        store[0] = 1;
        store[1] = 1;
        seal(&mut store[..BLOCK]);
        Maker { store, used: 1, last: 0 }
    }

    pub fn room(&self) -> usize {
        self.store.len() / BLOCK - self.used
    }

    fn block(&mut self) -> &mut [u8] {
        let at = self.used * BLOCK;
        self.used += 1;
        &mut self.store[at..at + BLOCK]
    }

    /// Writes a content block that carries revision r. Its number.
    fn content(&mut self, r: usize, bytes: &[u8]) -> usize {
        let b = self.block();
        b[0] = 2;
        b[2..4].copy_from_slice(&(bytes.len() as u16).to_le_bytes());
        b[4..6].copy_from_slice(&(r as u16).to_le_bytes());
        b[16..16 + bytes.len()].copy_from_slice(bytes);
        seal(b);
        self.used - 1
    }

    /// Writes a commit: contents first, then the commit block. The number of its first block.
    pub fn commit(&mut self, seat: u8, stamp: u32, changes: &[Change]) -> usize {
        let first = self.used;
        self.last += 1;
        let mut lines = vec![];
        for c in changes {
            let at = match c.content {
                Some(bytes) => self.content(self.last, bytes) as u16,
                None => c.shared,
            };
            lines.extend([c.sheet, c.action]);
            lines.extend(at.to_le_bytes());
            lines.extend([c.source, 0]);
            lines.extend(c.from.to_le_bytes());
        }
        let r = (self.last as u16).to_le_bytes();
        let b = self.block();
        b[0] = 3;
        b[2] = changes.len() as u8;
        b[4..6].copy_from_slice(&r);
        b[6] = seat;
        b[8..12].copy_from_slice(&stamp.to_le_bytes());
        b[16..16 + lines.len()].copy_from_slice(&lines);
        seal(b);
        first
    }

    /// Writes the release of revision r.
    pub fn release(&mut self, r: usize, seat: u8, stamp: u32) {
        let b = self.block();
        b[0] = 6;
        b[4..6].copy_from_slice(&(r as u16).to_le_bytes());
        b[6] = seat;
        b[8..12].copy_from_slice(&stamp.to_le_bytes());
        seal(b);
    }
}

/// A small generator of numbers, seeded.
pub struct Rng(pub u64);

impl Rng {
    pub fn next(&mut self) -> u64 {
        self.0 ^= self.0 << 13;
        self.0 ^= self.0 >> 7;
        self.0 ^= self.0 << 17;
        self.0
    }

    pub fn below(&mut self, n: usize) -> usize {
        (self.next() % n as u64) as usize
    }

    pub fn bytes(&mut self, n: usize) -> Vec<u8> {
        (0..n).map(|_| self.next() as u8).collect()
    }

    /// The bytes of an ordinary sheet, 100 to 480.
    pub fn sheet(&mut self) -> Vec<u8> {
        let n = 100 + self.below(381);
        self.bytes(n)
    }
}

/// Ordinary content: sheets of 100 to 480 bytes, commits of one to three changes; with at least four blocks left.
pub fn ordinary(blocks: usize) -> Vec<u8> {
    with_room(blocks, 4)
}

/// The same, with at least `room` blocks left.
pub fn with_room(blocks: usize, room: usize) -> Vec<u8> {
    history(blocks, room, |_| false).store
}

/// The same, with each revision that is a multiple of `every` released right after its commit.
pub fn with_releases(blocks: usize, room: usize, every: usize) -> Vec<u8> {
    history(blocks, room, |r| r % every == 0).store
}

/// The same, with the longest tail: 32 contents of the next revision, and a block with a wrong check.
pub fn with_tail(blocks: usize) -> Vec<u8> {
    let mut rng = Rng(19);
    let mut m = history(blocks, 33, |_| false);
    for _ in 0..32 {
        m.content(m.last + 1, &rng.sheet());
    }
    m.block().copy_from_slice(&rng.bytes(BLOCK));
    m.store
}

/// One commit of one sheet.
pub fn nearly_empty(blocks: usize) -> Vec<u8> {
    let mut m = Maker::new(blocks);
    m.commit(1, 7, &[add(0, &Rng(7).sheet())]);
    m.store
}

fn history(blocks: usize, room: usize, released: impl Fn(usize) -> bool) -> Maker {
    let mut rng = Rng(7);
    let mut m = Maker::new(blocks);
    let mut present = [false; 32];
    while m.room() >= room + 4 {
        let sheets: Vec<usize> = (0..1 + rng.below(3)).map(|j| (rng.below(10) * 3 + j) % 32).collect();
        let contents: Vec<Vec<u8>> = sheets.iter().map(|_| rng.sheet()).collect();
        let mut changes = vec![];
        let mut seen = 0u32;
        for (&s, c) in sheets.iter().zip(&contents) {
            if seen >> s & 1 == 0 {
                seen |= 1 << s;
                changes.push(if present[s] { change(s as u8, c) } else { add(s as u8, c) });
                present[s] = true;
            }
        }
        m.commit(1, 7, &changes);
        if released(m.last) && m.room() > room {
            m.release(m.last, 1, 7);
        }
    }
    m
}

/// The smallest commits: sheet 0 in the first, then one block each, which copies it to sheet 1 or deletes that, an even number of them; `then` after each. Half of the blocks
/// are left for releases.
fn smallest(blocks: usize, then: fn(&mut Maker)) -> Maker {
    let mut m = Maker::new(blocks);
    let first = m.commit(1, 7, &[add(0, b"0")]) as u16;
    then(&mut m);
    for r in 2..=(blocks - 2) / 4 * 2 {
        m.commit(1, 7, &[if r % 2 == 0 { copy(1, 0, 1, first) } else { delete(1) }]);
        then(&mut m);
    }
    m
}

/// Half releases: the smallest commits, each released right after it.
pub fn released_at_once(blocks: usize) -> Vec<u8> {
    smallest(blocks, |m| m.release(m.last, 1, 7)).store
}

/// The smallest commits, each released 100 commits later.
pub fn released_later(blocks: usize) -> Vec<u8> {
    smallest(blocks, |m| if m.last > 100 { m.release(m.last - 100, 1, 7) }).store
}

/// The smallest commits, and behind each second one the release of the revision half as old: releases that state far less than where they stand, among all commits.
pub fn released_half_as_old(blocks: usize) -> Vec<u8> {
    smallest(blocks, |m| if m.last % 2 == 0 { m.release(m.last / 2, 1, 7) }).store
}

/// The smallest commits, and behind them the releases of all but the first `left` of them, the newest first: with none left, as full of releases as a store can be.
pub fn released_behind(blocks: usize, left: usize) -> Vec<u8> {
    let mut m = smallest(blocks, |_| ());
    for r in (left + 1..=m.last).rev() {
        m.release(r, 1, 7);
    }
    m.store
}

/// Sheets 0 to `sheets` - 1 in the first commit, then one of them in each commit, until `used` blocks are in use or one less; `room` blocks left. The sheet
/// of commit r is `pick(r)`. Sheets have 100 to 480 bytes.
pub fn steady(used: usize, room: usize, sheets: u8, pick: &mut dyn FnMut(usize) -> u8) -> Maker {
    let mut rng = Rng(7);
    let mut m = Maker::new(used + room);
    let first: Vec<Vec<u8>> = (0..sheets).map(|_| rng.sheet()).collect();
    m.commit(1, 7, &first.iter().enumerate().map(|(i, b)| add(i as u8, b)).collect::<Vec<_>>());
    while m.used + 2 <= used {
        let bytes = rng.sheet();
        let sheet = pick(m.last + 1);
        m.commit(1, 7, &[change(sheet, &bytes)]);
    }
    m
}

/// The worst that was found: most commits, each with 31 copies of the oldest revision's longest sheet, or their deletes.
pub fn worst(blocks: usize) -> Vec<u8> {
    let mut m = Maker::new(blocks);
    let bytes = [0xabu8; 480];
    let first = m.commit(1, 7, &[add(0, &bytes)]) as u16;
    while m.room() >= 2 {
        let copies: Vec<Change> = (1..32).map(|i| copy(i, 0, 1, first)).collect();
        m.commit(1, 7, &copies);
        let deletes: Vec<Change> = (1..32).map(delete).collect();
        m.commit(1, 7, &deletes);
    }
    m.store
}

/// Copies with contents of their own, each compared with its source, from which it differs in byte `differs` alone: 31 contents a commit.
pub fn compared(blocks: usize, differs: usize) -> Vec<u8> {
    let mut m = Maker::new(blocks);
    let bytes = [0xabu8; 480];
    let mut other = bytes;
    other[differs] = 0;
    m.commit(1, 7, &[add(0, &bytes)]);
    while m.room() >= 33 {
        let copies: Vec<Change> = (1..32).map(|i| Change { sheet: i, action: 4, content: Some(&other), shared: 0, source: 0, from: 1 }).collect();
        m.commit(1, 7, &copies);
        let deletes: Vec<Change> = (1..32).map(delete).collect();
        m.commit(1, 7, &deletes);
    }
    m.store
}

/// Sheet 1 in the first commit alone, then sheet 0 in each of the commits, on 4,096 blocks. The blocks used.
pub fn deep(commits: usize) -> (Vec<u8>, usize) {
    let mut m = Maker::new(4096);
    m.commit(1, 7, &[add(0, b"0"), add(1, b"1")]);
    for _ in 1..commits {
        m.commit(1, 7, &[change(0, b"0")]);
    }
    (m.store, m.used)
}

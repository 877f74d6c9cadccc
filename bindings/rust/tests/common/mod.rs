//! Buffers that the tests share.

use sheetstore::{self as sheets, ALL, BLOCK, COPY_LEN};

pub fn store_of(blocks: usize) -> Vec<u8> {
    let mut store = vec![0x5a; blocks * BLOCK];
    sheets::create_store(&mut store).unwrap();
    store
}

pub fn copy_of(seat: u32) -> Vec<u8> {
    let mut copy = vec![0x5a; COPY_LEN];
    sheets::create_copy(&mut copy, seat).unwrap();
    copy
}

/// A store with byte 65 as sheet 5 of revision 1, and the working copy of seat 2, which committed it with stamp 7.
pub fn case_input(blocks: usize) -> (Vec<u8>, Vec<u8>) {
    let (mut store, mut copy) = (store_of(blocks), copy_of(2));
    sheets::add(&store, &mut copy, 5, b"A").unwrap();
    assert_eq!(sheets::commit(&mut store, &mut copy, 7, ALL), Ok(1));
    (store, copy)
}

/// For each refusal of a commit, in their order: its number, a mask, and buffers of seat 2 that meet it.
pub fn refused_commits(mut meets: impl FnMut(u32, u32, Vec<u8>, Vec<u8>)) {
    let mut refused = |number: u32, mask: u32, change: &dyn Fn(&mut Vec<u8>, &mut Vec<u8>)| {
        let (mut s, mut c) = case_input(4);
        change(&mut s, &mut c);
        meets(number, mask, s, c);
    };
    refused(1, ALL, &|s, _| s.truncate(BLOCK));
    refused(2, ALL, &|s, _| s[600] ^= 1);
    refused(3, ALL, &|s, _| s.copy_within(..BLOCK, 3 * BLOCK));
    refused(14, ALL, &|s, c| {
        s[3 * BLOCK] = 1;
        c.clear();
    });
    refused(4, ALL, &|_, c| c.truncate(BLOCK));
    refused(5, ALL, &|_, c| c[0] = 5);
    refused(6, ALL, &|s, _| *s = store_of(4));
    refused(7, 0, &|s, c| sheets::delete(s, c, 5).unwrap());
    refused(10, !(1 << 5), &|s, c| sheets::delete(s, c, 5).unwrap());
    refused(11, ALL, &|s, c| {
        *c = copy_of(2);
        sheets::add(s, c, 5, b"other").unwrap();
    });
    refused(13, ALL, &|s, c| sheets::edit(s, c, 5, b"B").unwrap());
}

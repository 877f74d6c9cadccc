//! The two sums over bytes 0 to 507 in plain Rust: byte by byte, as the engine took them before W4; four bytes at a step, as it takes them now; and other forms of that step.

/// Byte by byte, reduced once at the end: the loop before W4.
pub fn by_byte(b: &[u8]) -> (u32, u32) {
    let (mut a, mut s) = (0u32, 0u32);
    for &x in &b[..508] {
        a += x as u32;
        s += a;
    }
    (a % 65521, s % 65521)
}

/// Four bytes as one word, the sums of two places in one number, and each step's bytes as often as steps come after it: the form that was kept.
pub fn fours(b: &[u8]) -> (u32, u32) {
    let (mut even, mut odd, mut w, mut left) = (0u32, 0u32, 0u32, 127u32);
    for x in b[..508].chunks_exact(4) {
        let x = u32::from_le_bytes(x.try_into().expect("four bytes"));
        let (y, z) = (x & 0xff00ff, (x >> 8) & 0xff00ff);
        left -= 1;
        even += y;
        odd += z;
        w += left * (((y + z) & 0xffff) + ((y + z) >> 16));
    }
    joined([even & 0xffff, odd & 0xffff, even >> 16, odd >> 16], w)
}

/// The sums from those of the four places in a step, and from that of all bytes as often as steps come after them.
fn joined(p: [u32; 4], w: u32) -> (u32, u32) {
    let a = p[0] + p[1] + p[2] + p[3];
    let s = 4 * w + 4 * p[0] + 3 * p[1] + 2 * p[2] + p[3];
    (a % 65521, s % 65521)
}

/// Four sums side by side, the first of 16 bits and the second of 32.
pub fn side_by_side(b: &[u8]) -> (u32, u32) {
    let (mut p, mut q) = ([0u16; 4], [0u32; 4]);
    for x in b[..508].chunks_exact(4) {
        for k in 0..4 {
            q[k] += p[k] as u32;
            p[k] += x[k] as u16;
        }
    }
    joined(p.map(u32::from), q.iter().sum())
}

/// The same, all of 32 bits.
pub fn side_by_side_wide(b: &[u8]) -> (u32, u32) {
    let (mut p, mut q) = ([0u32; 4], [0u32; 4]);
    for x in b[..508].chunks_exact(4) {
        for k in 0..4 {
            q[k] += p[k];
            p[k] += x[k] as u32;
        }
    }
    joined(p, q.iter().sum())
}

/// One pair of sums, a step added at once.
pub fn at_once(b: &[u8]) -> (u32, u32) {
    let (mut a, mut s) = (0u32, 0u32);
    for x in b[..508].chunks_exact(4) {
        let x = [x[0] as u32, x[1] as u32, x[2] as u32, x[3] as u32];
        s += 4 * a + 4 * x[0] + 3 * x[1] + 2 * x[2] + x[3];
        a += x[0] + x[1] + x[2] + x[3];
    }
    (a % 65521, s % 65521)
}

/// The same, reduced at every step.
pub fn reduced(b: &[u8]) -> (u32, u32) {
    let (mut a, mut s) = (0u32, 0u32);
    for x in b[..508].chunks_exact(4) {
        let x = [x[0] as u32, x[1] as u32, x[2] as u32, x[3] as u32];
        s = (s + 4 * a + 4 * x[0] + 3 * x[1] + 2 * x[2] + x[3]) % 65521;
        a = (a + x[0] + x[1] + x[2] + x[3]) % 65521;
    }
    (a, s)
}

/// Side by side in runs of 21 steps, for which every sum fits 16 bits, the runs joined as they end; the last step byte by byte.
pub fn runs(b: &[u8]) -> (u32, u32) {
    let (mut a, mut s) = (0u32, 0u32);
    for run in b[..504].chunks_exact(84) {
        let (mut p, mut q) = ([0u16; 4], [0u16; 4]);
        for j in 0..21 {
            for k in 0..4 {
                q[k] += p[k];
                p[k] += run[4 * j + k] as u16;
            }
        }
        let (p, q) = (p.map(u32::from), q.map(u32::from));
        s += 84 * a + 4 * (q[0] + q[1] + q[2] + q[3]) + 4 * p[0] + 3 * p[1] + 2 * p[2] + p[3];
        a += p[0] + p[1] + p[2] + p[3];
    }
    for &x in &b[504..508] {
        a += x as u32;
        s += a;
    }
    (a % 65521, s % 65521)
}

/// Whether the check of every block is right, by sums of one of these forms.
pub fn all_right(store: &[u8], sums: impl Fn(&[u8]) -> (u32, u32)) -> bool {
    store.chunks_exact(512).all(|b| {
        let (a, s) = sums(b);
        b[508..510] == (a as u16).to_le_bytes() && b[510..512] == (s as u16).to_le_bytes()
    })
}

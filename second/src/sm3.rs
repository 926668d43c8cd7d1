//! SM3's compression of one block, with every value it goes through.

/// The eight words every message starts from.
pub const START: [u32; 8] = [
    0x7380166f, 0x4914b2b9, 0x172442d7, 0xda8a0600, 0xa96f30bc, 0x163138aa, 0xe38dee4d, 0xb0fb0e4e,
];

/// All that is known of one block's compression.
pub struct Trace {
    /// W0..W67.
    pub words: [u32; 68],
    /// W'0..W'63.
    pub primed: [u32; 64],
    /// A..H before round 0, then after each of the 64 rounds.
    pub rows: [[u32; 8]; 65],
    /// The last row xored with the first.
    pub chained: [u32; 8],
}

/// The eight words after one block.
pub fn compress(before: &[u32; 8], block: &[u8; 64]) -> [u32; 8] {
    trace(before, block).chained
}

/// One block's compression, step by step.
pub fn trace(before: &[u32; 8], block: &[u8; 64]) -> Trace {
    let words = expand(block);
    let primed = prime(&words);
    let mut rows = [*before; 65];
    for j in 0..64 {
        rows[j + 1] = round(j, &rows[j], words[j], primed[j]);
    }
    let mut chained = [0; 8];
    for (k, word) in chained.iter_mut().enumerate() {
        *word = rows[64][k] ^ before[k];
    }
    Trace {
        words,
        primed,
        rows,
        chained,
    }
}

/// Folds a run of whole blocks. Bytes after the last whole block are a
/// mistake of the caller, so they stop the program.
pub fn fold(before: &[u32; 8], blocks: &[u8]) -> [u32; 8] {
    assert_eq!(blocks.len() % 64, 0, "only whole blocks are folded");
    let mut words = *before;
    for piece in blocks.chunks(64) {
        let mut block = [0; 64];
        block.copy_from_slice(piece);
        words = compress(&words, &block);
    }
    words
}

/// Eight words as 32 bytes, most significant byte first.
pub fn to_bytes(words: &[u32; 8]) -> [u8; 32] {
    let mut bytes = [0; 32];
    for (k, word) in words.iter().enumerate() {
        bytes[4 * k..4 * k + 4].copy_from_slice(&word.to_be_bytes());
    }
    bytes
}

/// P0, used in the rounds.
pub fn p0(x: u32) -> u32 {
    x ^ x.rotate_left(9) ^ x.rotate_left(17)
}

/// P1, used in the expansion.
pub fn p1(x: u32) -> u32 {
    x ^ x.rotate_left(15) ^ x.rotate_left(23)
}

fn expand(block: &[u8; 64]) -> [u32; 68] {
    let mut w = [0u32; 68];
    for (word, four) in w.iter_mut().zip(block.chunks(4)) {
        *word = u32::from_be_bytes([four[0], four[1], four[2], four[3]]);
    }
    for j in 16..68 {
        let mixed = p1(w[j - 16] ^ w[j - 9] ^ w[j - 3].rotate_left(15));
        w[j] = mixed ^ w[j - 13].rotate_left(7) ^ w[j - 6];
    }
    w
}

fn prime(words: &[u32; 68]) -> [u32; 64] {
    let mut primed = [0; 64];
    for (j, word) in primed.iter_mut().enumerate() {
        *word = words[j] ^ words[j + 4];
    }
    primed
}

/// Tj, not yet rotated.
fn t(j: usize) -> u32 {
    if j < 16 {
        0x79cc4519
    } else {
        0x7a879d8a
    }
}

fn ff(j: usize, x: u32, y: u32, z: u32) -> u32 {
    if j < 16 {
        x ^ y ^ z
    } else {
        (x & y) | (x & z) | (y & z)
    }
}

fn gg(j: usize, x: u32, y: u32, z: u32) -> u32 {
    if j < 16 {
        x ^ y ^ z
    } else {
        (x & y) | (!x & z)
    }
}

fn round(j: usize, row: &[u32; 8], word: u32, primed: u32) -> [u32; 8] {
    let [a, b, c, d, e, f, g, h] = *row;
    // The amount is taken modulo 32 here: a rotation by j, never a shift.
    let constant = t(j).rotate_left((j % 32) as u32);
    let ss1 = a
        .rotate_left(12)
        .wrapping_add(e)
        .wrapping_add(constant)
        .rotate_left(7);
    let ss2 = ss1 ^ a.rotate_left(12);
    let tt1 = ff(j, a, b, c)
        .wrapping_add(d)
        .wrapping_add(ss2)
        .wrapping_add(primed);
    let tt2 = gg(j, e, f, g)
        .wrapping_add(h)
        .wrapping_add(ss1)
        .wrapping_add(word);
    [
        tt1,
        a,
        b.rotate_left(9),
        c,
        p0(tt2),
        e,
        f.rotate_left(19),
        g,
    ]
}

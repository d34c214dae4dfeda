//! GF(2^128) as GCM has it, and the 16-byte IV that leads to a wanted J0. It is used to choose
//! inputs only: every answer is the Rust's.

/// The product modulo x^128 + x^7 + x^2 + x + 1; the top bit is the coefficient of x^0.
pub fn product(a: u128, b: u128) -> u128 {
    let mut sum = 0;
    let mut shifted = b;
    for place in 0..128 {
        if a << place >> 127 == 1 {
            sum ^= shifted;
        }
        let falls_out = shifted & 1 == 1;
        shifted >>= 1;
        if falls_out {
            shifted ^= 0xe1 << 120;
        }
    }
    sum
}

/// a^(2^128 - 2), which is 1 / a for every a but 0.
fn inverse(a: u128) -> u128 {
    let mut square = a;
    let mut out = 1 << 127;
    for _ in 1..128 {
        square = product(square, square);
        out = product(out, square);
    }
    out
}

/// J0 of a 16-byte IV: the hash of the IV and of the length block, which says 128.
pub fn j0_of(h: u128, iv: u128) -> u128 {
    product(product(iv, h) ^ 128, h)
}

/// The 16-byte IV whose J0 is the wanted one.
pub fn iv_for(h: u128, j0: u128) -> u128 {
    let back = inverse(h);
    let iv = product(product(j0, back) ^ 128, back);
    assert!(j0_of(h, iv) == j0, "the IV for a wanted J0");
    iv
}

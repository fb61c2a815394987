//! Floats: their words in a script, their neighbours, and the edge of a test.

/// Appends the 16 hexadecimal digits of `x`; every NaN is written alike.
pub fn write(out: &mut Vec<u8>, x: f64) {
    let bits = if x.is_nan() {
        0x7ff8_0000_0000_0000
    } else {
        x.to_bits()
    };
    write_bits(out, bits);
}

/// Appends the 16 hexadecimal digits of a pattern as it is.
pub fn write_bits(out: &mut Vec<u8>, bits: u64) {
    let digits = b"0123456789abcdef";
    let mut word = [0; 16];
    for (i, place) in word.iter_mut().enumerate() {
        *place = digits[(bits >> (60 - 4 * i)) as usize & 15];
    }
    out.extend_from_slice(&word);
}

/// Appends each float with a space before it.
pub fn write_all(out: &mut Vec<u8>, xs: &[f64]) {
    for &x in xs {
        out.push(b' ');
        write(out, x);
    }
}

/// Reads 16 lower-case hexadecimal digits.
pub fn read(word: &str) -> Option<f64> {
    let digit = |b: u8| b.is_ascii_digit() || (b'a'..=b'f').contains(&b);
    if word.len() != 16 || !word.bytes().all(digit) {
        return None;
    }
    u64::from_str_radix(word, 16).ok().map(f64::from_bits)
}

/// A whole number in the order of the floats; both zeros are 0.
fn rank(x: f64) -> i64 {
    let bits = x.to_bits() as i64;
    if bits < 0 {
        i64::MIN.wrapping_sub(bits)
    } else {
        bits
    }
}

/// The float of a rank.
fn of_rank(rank: i64) -> f64 {
    if rank < 0 {
        f64::from_bits(i64::MIN.wrapping_sub(rank) as u64)
    } else {
        f64::from_bits(rank as u64)
    }
}

/// The float `k` places further up; no further than the infinities.
pub fn step(x: f64, k: i64) -> f64 {
    if x.is_nan() {
        return x;
    }
    let top = rank(f64::INFINITY);
    of_rank((rank(x) + k).clamp(-top, top))
}

/// Two neighbours between `a` and `b` where the test changes: the one on the side of `a` first.
pub fn edge(a: f64, b: f64, test: impl Fn(f64) -> bool) -> Option<(f64, f64)> {
    if a.is_nan() || b.is_nan() {
        return None;
    }
    let side = test(a);
    if test(b) == side {
        return None;
    }
    let (mut near, mut far) = (rank(a), rank(b));
    while near.abs_diff(far) > 1 {
        let middle = ((near as i128 + far as i128) / 2) as i64;
        let middle = if middle == near || middle == far {
            near + (far - near).signum()
        } else {
            middle
        };
        if test(of_rank(middle)) == side {
            near = middle;
        } else {
            far = middle;
        }
    }
    Some((of_rank(near), of_rank(far)))
}

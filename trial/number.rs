//! Whole numbers: the 24-bit range, and text in decimal and hexadecimal.

pub const LOW: i32 = -8_388_608;
pub const HIGH: i32 = 8_388_607;

#[inline]
pub fn in_24_bits(v: i32) -> bool {
    (LOW..=HIGH).contains(&v)
}

/// Whether all are in 24 bits: counted from `LOW`, none has a bit above them.
#[inline]
pub fn all_in_24_bits(values: &[i32]) -> bool {
    values.iter().fold(0, |bits, &v| bits | v.wrapping_sub(LOW) as u32) >> 24 == 0
}

/// Appends the decimal digits of `v`, with a minus if it is negative.
pub fn push_decimal(out: &mut Vec<u8>, v: i64) {
    let mut digits = [0u8; 20];
    let mut first = digits.len();
    let mut left = v.unsigned_abs();
    loop {
        first -= 1;
        digits[first] = b'0' + (left % 10) as u8;
        left /= 10;
        if left == 0 {
            break;
        }
    }
    if v < 0 {
        out.push(b'-');
    }
    out.extend_from_slice(&digits[first..]);
}

/// An optional minus and 1 to so many digits, if the number is one of 64 bits.
pub fn whole(text: &str, most: usize) -> Option<i64> {
    let digits = text.strip_prefix('-').unwrap_or(text);
    let right = (1..=most).contains(&digits.len()) && digits.bytes().all(|b| b.is_ascii_digit());
    right.then(|| text.parse().ok())?
}

/// Sixteen hexadecimal digits, small letters.
pub fn word(text: &str) -> Option<u64> {
    let right = |b| matches!(b, b'0'..=b'9' | b'a'..=b'f');
    (text.len() == 16 && text.bytes().all(right)).then(|| u64::from_str_radix(text, 16).ok())?
}

/// Bytes of two hexadecimal digits each, small letters.
pub fn bytes(text: &str) -> Option<Vec<u8>> {
    let digit = |b| match b {
        b'0'..=b'9' => Some(b - b'0'),
        b'a'..=b'f' => Some(b - b'a' + 10),
        _ => None,
    };
    let digits: Vec<u8> = text.bytes().map(digit).collect::<Option<_>>()?;
    let pairs = digits.chunks_exact(2);
    pairs.remainder().is_empty().then(|| pairs.map(|pair| pair[0] << 4 | pair[1]).collect())
}

/// Appends two hexadecimal digits of each byte, small letters.
pub fn push_bytes(out: &mut Vec<u8>, bytes: &[u8]) {
    const DIGITS: &[u8; 16] = b"0123456789abcdef";
    for &byte in bytes {
        out.extend([DIGITS[(byte >> 4) as usize], DIGITS[(byte & 15) as usize]]);
    }
}

/// Writes the low `text.len()` hexadecimal digits of `v`, in capitals.
pub fn write_hexadecimal(text: &mut [u8], v: u32) {
    let mut left = v;
    for place in text.iter_mut().rev() {
        *place = b"0123456789ABCDEF"[(left & 15) as usize];
        left >>= 4;
    }
}

/// Writes the low `text.len()` decimal digits of `v`.
pub fn write_decimal(text: &mut [u8], v: u32) {
    let mut left = v;
    for place in text.iter_mut().rev() {
        *place = b'0' + (left % 10) as u8;
        left /= 10;
    }
}

//! The f64 of a shown quality by its bits, and how near it is to the fraction: in whole numbers alone.

use compare::model::Quality;

const SIGN: u64 = 1 << 63;
/// The bits of an f64's fraction, before which stands a 1 that is not written.
const FRACTION_BITS: u32 = 52;
/// The exponent as it is written for the sizes from 1 to 2.
const EXPONENT_OF_1: u32 = 1023;

/// n and k of a size n / 2^k below 2: k is 52 or more.
pub fn parts(bits: u64) -> (u64, u32) {
    let exponent = (bits >> FRACTION_BITS) as u32;
    assert!((1..=EXPONENT_OF_1).contains(&exponent), "{bits:#x}");
    let first = 1 << FRACTION_BITS;
    let n = first | (bits & (first - 1));
    (n, EXPONENT_OF_1 + FRACTION_BITS - exponent)
}

/// |n·u - t·2^k|·2^51 <= t·2^k, with n / 2^k the size: it is within 2^-51 of t/u, relative to t/u.
/// Both sides are divided by 2^51. With n·u below 2^112, a t·2^k that 128 bits cannot hold is far away.
pub fn is_near(bits: u64, t: u64, u: u64) -> bool {
    let (n, k) = parts(bits);
    let t_times = |power: u32| 1u128.checked_shl(power)?.checked_mul(u128::from(t));
    let (Some(exact), Some(most)) = (t_times(k), t_times(k - 51)) else {
        return false;
    };
    (u128::from(n) * u128::from(u)).abs_diff(exact) <= most
}

/// Numerator and denominator without the sign.
pub fn fraction(quality: Quality) -> [u64; 2] {
    let parts = [quality.numerator, quality.denominator];
    parts.map(|part| u64::try_from(part.unsigned_abs()).expect("below 2^59"))
}

/// What is shown of a quality: zeros for a flat one, else its sign and a size near the fraction.
#[track_caller]
pub fn shows(bits: u64, quality: Quality) {
    let [t, u] = fraction(quality);
    if t == 0 {
        assert_eq!(bits, 0);
        return;
    }
    assert_eq!(bits & SIGN != 0, quality.numerator < 0);
    assert!(is_near(bits & !SIGN, t, u), "{t}/{u} as {bits:#x}");
}

/// The bits of t/u for t from 1 to u: each is rounded to 53 bits, then their quotient is.
pub fn quotient_bits(t: u64, u: u64) -> u64 {
    let [t, u] = [t, u].map(|part| {
        let (whole, power) = rounded(u128::from(part));
        u128::from(whole) << power
    });
    let shift = t.leading_zeros() - 1;
    let (quotient, rest) = ((t << shift) / u, (t << shift) % u);
    // One bit more says whether there is a rest, and so that nothing lies just halfway which does not.
    let (n, cut) = rounded(2 * quotient + u128::from(rest > 0));
    let k = shift + 1 - cut;
    let exponent = u64::from(EXPONENT_OF_1 + FRACTION_BITS - k);
    (exponent << FRACTION_BITS) + (n - (1 << FRACTION_BITS))
}

/// The number to 53 bits and what power of two they are counted in; from halfway to the even one.
fn rounded(number: u128) -> (u64, u32) {
    let bits = u128::BITS - number.leading_zeros();
    let cut = bits.saturating_sub(FRACTION_BITS + 1);
    let (whole, rest) = (number >> cut, number & ((1 << cut) - 1));
    let up = match (2 * rest).cmp(&(1 << cut)) {
        std::cmp::Ordering::Less => 0,
        std::cmp::Ordering::Equal => whole % 2,
        std::cmp::Ordering::Greater => 1,
    };
    ((whole + up) as u64, cut)
}

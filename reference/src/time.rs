//! The time at one place, computed from lambda L, x = k/2^32 and M whole revolutions by 01's seven steps
//! (01, Time at one place). Every operation is rounded once, in the order written there.

/// Why a place has no time. If several reasons apply, the first one met in the steps counts.
#[derive(Clone, Copy, Debug, PartialEq, Eq)]
pub enum Void {
    /// Step 1: lambda, k or M is outside its range.
    Range,
    /// The operand of a square root is refused.
    Root,
    /// A divisor is zero.
    Divisor,
    /// The result isn't finite.
    NotFinite,
}

impl Void {
    /// Returns the number of the reason (02, A4).
    pub fn number(self) -> u16 {
        match self {
            Void::Range => 1,
            Void::Root => 2,
            Void::Divisor => 3,
            Void::NotFinite => 4,
        }
    }
}

/// The distance between neighbouring stations in k.
pub const SPACING: i64 = 1 << 20;
/// The k of x = 1, where the orbit is a parabola.
pub const PARABOLA: i64 = 1 << 32;
/// The limits of k: the lower one, the upper one without whole revolutions, and the upper one with some.
pub const LOWEST: i64 = -PARABOLA + SPACING;
pub const HIGHEST: i64 = 1 << 34;
pub const HIGHEST_TURNING: i64 = PARABOLA - SPACING;
pub const MOST_TURNS: u16 = 16;

const PI: u64 = 0x4009_21FB_5444_2D18;

/// Returns the time at a place, or None if the place is void.
pub fn time_at(lambda: f64, k: i64, m: u16) -> Option<f64> {
    time(lambda, k, m).ok()
}

/// Returns the time at a place, or the reason why it is void.
pub fn time(lambda: f64, k: i64, m: u16) -> Result<f64, Void> {
    if !in_range(lambda, k, m) {
        return Err(Void::Range);
    }
    let x = x_of(k);
    let u = 1.0 - x * x;
    let y = root(1.0 - (lambda * lambda) * u)?;
    let eta = y - lambda * x;
    let q = (4.0 * hypergeometric(((1.0 + lambda) + x * eta) / 2.0)?) / 3.0;
    let first = (((eta * eta) * eta) * q + (4.0 * lambda) * eta) / 2.0;
    finite(if m == 0 { first } else { first + turns(u, m)? })
}

/// Reports whether a place passes step 1. A NaN doesn't pass, because it isn't below 1.
pub fn in_range(lambda: f64, k: i64, m: u16) -> bool {
    let highest = if m == 0 { HIGHEST } else { HIGHEST_TURNING };
    lambda.abs() < 1.0 && m <= MOST_TURNS && (LOWEST..=highest).contains(&k)
}

/// Returns x = k/2^32, which is exact for every k of the range.
pub fn x_of(k: i64) -> f64 {
    k as f64 / PARABOLA as f64
}

/// Performs steps 3 to 5: returns F(3, 1; 5/2; S1), computed from C1 = 1 − S1. Only S4 is used, so S1 to S3 are left out.
fn hypergeometric(c1: f64) -> Result<f64, Void> {
    let mut c = [c1, 0.0, 0.0, 0.0];
    let mut w = [0.0; 3];
    for n in 0..3 {
        w[n] = root(c[n])?;
        c[n + 1] = (1.0 + w[n]) / 2.0;
    }
    let mut g = series((1.0 - w[2]) / 2.0);
    for n in (0..3).rev() {
        g = quotient(3.0 + quotient(g, w[n])?, 4.0 * c[n])?;
    }
    Ok(g)
}

/// Performs step 4: sums sixteen terms beyond the first, starting with the last. The ratios are 6/5 to 36/35.
fn series(z: f64) -> f64 {
    let ratio = |n: u32| f64::from(2 * n + 6) / f64::from(2 * n + 5);
    (0..16).rev().fold(1.0, |g, n| 1.0 + (ratio(n) * z) * g)
}

/// Performs step 7: returns the time that M whole revolutions add.
fn turns(u: f64, m: u16) -> Result<f64, Void> {
    quotient(f64::from(m) * f64::from_bits(PI), u * root(u)?)
}

/// Returns the square root, computed by the hardware. Negative numbers, infinities and NaN are refused. The
/// root of a zero is that same zero, with its sign.
fn root(a: f64) -> Result<f64, Void> {
    if a >= 0.0 && a.is_finite() {
        Ok(a.sqrt())
    } else {
        Err(Void::Root)
    }
}

fn quotient(a: f64, b: f64) -> Result<f64, Void> {
    if b == 0.0 {
        Err(Void::Divisor)
    } else {
        Ok(a / b)
    }
}

/// Returns the result of the last step if it is finite. For every place that passes step 1 it is. 1 + L is a multiple
/// of 2^-53, x of 2^-32 and η of 2^-80, so the least C1 above zero is at least 2^-113. G is then below 2^170. With whole
/// revolutions u is above 2^-12.
fn finite(time: f64) -> Result<f64, Void> {
    if time.is_finite() {
        Ok(time)
    } else {
        Err(Void::NotFinite)
    }
}

#[cfg(test)]
mod tests {
    use super::*;

    #[test]
    fn the_document_s_exact_cases() {
        assert_eq!(time(0.0, PARABOLA, 0).map(f64::to_bits), Ok(0x3FE5_5555_5555_5555));
        assert_eq!(time(-0.5, PARABOLA, 0), Ok(0.75));
        assert_eq!(time_at(0.0, PARABOLA, 1), None);
        assert_eq!(time_at(1.0, 0, 0), None);
    }

    #[test]
    fn the_document_s_near_cases() {
        let near = |lambda, m, t: f64| (time(lambda, 0, m).unwrap() - t).abs() < 1e-5;
        assert!(near(0.0, 0, std::f64::consts::FRAC_PI_2));
        assert!(near(0.6, 0, 1.40730));
        assert!(near(0.0, 1, 4.71239));
    }

    #[test]
    fn both_ends_of_each_range_have_times() {
        for m in 0..=MOST_TURNS {
            let highest = if m == 0 { HIGHEST } else { HIGHEST_TURNING };
            for k in [LOWEST, highest] {
                assert!(time_at(0.3, k, m).is_some());
            }
            for k in [LOWEST - 1, highest + 1, i64::MIN, i64::MAX] {
                assert_eq!(time(0.3, k, m), Err(Void::Range));
            }
        }
        assert_eq!(time(0.3, 0, MOST_TURNS + 1), Err(Void::Range));
        for lambda in [1.0, -1.0, f64::NAN, f64::INFINITY] {
            assert_eq!(time(lambda, 0, 0), Err(Void::Range));
        }
    }

    #[test]
    fn roots_and_quotients_are_refused_as_the_document_says() {
        assert_eq!(root(-0.0).map(f64::to_bits), Ok((-0.0f64).to_bits()));
        for refused in [-1.0, -f64::from_bits(1), f64::INFINITY, f64::NEG_INFINITY, f64::NAN, -f64::NAN] {
            assert_eq!(root(refused), Err(Void::Root));
        }
        assert_eq!(quotient(1.0, -0.0), Err(Void::Divisor));
        assert_eq!(hypergeometric(0.0), Err(Void::Divisor));
        assert_eq!(hypergeometric(-f64::from_bits(1)), Err(Void::Root));
    }

    #[test]
    fn the_reasons_are_numbered_1_to_4() {
        let all = [Void::Range, Void::Root, Void::Divisor, Void::NotFinite];
        assert_eq!(all.map(Void::number), [1, 2, 3, 4]);
    }

    /// Close to −1 there are lambdas for which C1 is below zero or zero at a station. The number of revolutions
    /// doesn't matter there, unless it is out of range.
    #[test]
    fn reasons_at_the_first_station_and_at_others() {
        let beside = |ulps: u64| -f64::from_bits(1f64.to_bits() - ulps);
        for m in 0..=MOST_TURNS {
            assert_eq!(time(beside(513), LOWEST, m), Err(Void::Root));
            assert_eq!(time(beside(4_095), LOWEST, m), Err(Void::Divisor));
            assert_eq!(time(beside(2), -PARABOLA / 2, m), Err(Void::Divisor));
            assert_eq!(time(beside(3), -1_868 * SPACING, m), Err(Void::Root));
        }
        for ulps in [513, 4_095] {
            assert_eq!(time(beside(ulps), LOWEST, MOST_TURNS + 1), Err(Void::Range));
            assert_eq!(time(beside(ulps), LOWEST - 1, 0), Err(Void::Range));
        }
    }

    /// A place with a zero divisor whose k is odd.
    #[test]
    fn a_zero_divisor_between_the_stations() {
        let lambda = f64::from_bits(0xBFEF_FFFF_0010_0021);
        assert_eq!(time(lambda, -4_293_918_687, 0), Err(Void::Divisor));
    }

    /// In step 7 the root comes before the divisor. At the parabola the divisor is zero and beyond it the root is
    /// refused, but step 1 comes first.
    #[test]
    fn the_order_in_step_7() {
        assert_eq!(turns(0.0, 1), Err(Void::Divisor));
        assert_eq!(turns(-0.0, 1), Err(Void::Divisor));
        assert_eq!(turns(-1.0, 1), Err(Void::Root));
        for k in [PARABOLA, PARABOLA + 1, HIGHEST] {
            assert_eq!(time(0.3, k, 1), Err(Void::Range));
        }
    }

    #[test]
    fn a_result_that_is_not_finite_comes_last() {
        assert_eq!(finite(f64::MAX), Ok(f64::MAX));
        for odd in [f64::INFINITY, f64::NEG_INFINITY, f64::NAN] {
            assert_eq!(finite(odd), Err(Void::NotFinite));
        }
        assert_eq!(turns(2f64.powi(-690), 16).and_then(finite), Err(Void::NotFinite));
        assert_eq!(turns(2f64.powi(-800), 16).and_then(finite), Err(Void::Divisor));
    }
}

//! The universal functions, with which one formula describes the motion on every conic.

/// Below this size of z, the functions are computed from their series, because the other formulas lose digits there.
const SERIES: f64 = 1.0;

/// Returns U0 to U3 of chi: chi^n·(1/n! − z/(n + 2)! + z²/(n + 4)! − …) for n from 0 to 3, with z = alpha·chi².
pub fn universal(alpha: f64, chi: f64) -> [f64; 4] {
    let z = alpha * chi * chi;
    let root = z.abs().sqrt();
    let [c0, c1, c2, c3] = if z.abs() < SERIES {
        let (c2, c3) = (series(z, 2.0), series(z, 3.0));
        [1.0 - z * c2, 1.0 - z * c3, c2, c3]
    } else if z > 0.0 {
        let (sine, cosine) = root.sin_cos();
        let half = (0.5 * root).sin();
        [cosine, sine / root, 2.0 * half * half / z, (1.0 - sine / root) / z]
    } else {
        let (sine, cosine) = (root.sinh(), root.cosh());
        let half = (0.5 * root).sinh();
        [cosine, sine / root, -2.0 * half * half / z, (1.0 - sine / root) / z]
    };
    [c0, c1 * chi, c2 * chi * chi, c3 * chi * chi * chi]
}

/// Returns 1/n! − z/(n + 2)! + z²/(n + 4)! − …, for n = 2 or 3 and a z below 1 in size.
fn series(z: f64, n: f64) -> f64 {
    let mut term = 1.0 / (n * (n - 1.0));
    let mut sum = term;
    for i in [1.0, 2.0, 3.0, 4.0, 5.0, 6.0, 7.0, 8.0] {
        term *= -z / ((n + 2.0 * i - 1.0) * (n + 2.0 * i));
        sum += term;
    }
    sum
}

#[cfg(test)]
mod tests {
    use super::*;

    const CIRCLE: [[f64; 4]; 2] = [
        [
            0.621_609_968_270_664_4,
            0.783_326_909_627_483_4,
            0.378_390_031_729_335_55,
            0.116_673_090_372_516_62,
        ],
        [-0.416_146_836_547_142_4, 0.909_297_426_825_681_7, 1.416_146_836_547_142_4, 1.090_702_573_174_318_3],
    ];
    const HYPERBOLA: [[f64; 4]; 2] = [
        [1.433_086_385_448_774_3, 1.026_516_725_708_175_3, 0.433_086_385_448_774_4, 0.126_516_725_708_175_3],
        [3.762_195_691_083_631_4, 3.626_860_407_847_018_6, 2.762_195_691_083_631_4, 1.626_860_407_847_018_8],
    ];

    fn near(found: [f64; 4], expected: [f64; 4]) {
        for (found, expected) in found.into_iter().zip(expected) {
            assert!((found - expected).abs() <= 4e-16 * expected.abs(), "{found}, not {expected}");
        }
    }

    /// With alpha = 1 they are cos, sin, 1 − cos and chi − sin. The decimals are of chi = 0.9 (series) and chi = 2.
    #[test]
    fn of_a_circle_and_a_hyperbola() {
        near(universal(1.0, 0.9), CIRCLE[0]);
        near(universal(1.0, 2.0), CIRCLE[1]);
        near(universal(-1.0, 0.9), HYPERBOLA[0]);
        near(universal(-1.0, 2.0), HYPERBOLA[1]);
    }

    #[test]
    fn near_a_parabola() {
        near(universal(0.0, 3.0), [1.0, 3.0, 4.5, 4.5]);
        for alpha in [1e-9, -1e-9, 1e-12, -1e-12, 5e-324] {
            let parts = [(1.0, 2.0), (2.0, 4.0 / 3.0), (2.0, 2.0 / 3.0), (4.0 / 3.0, 4.0 / 15.0)];
            near(universal(alpha, 2.0), parts.map(|(parabola, change)| parabola - change * alpha));
        }
    }
}

//! Vectors of three components, for display.

pub fn size([x, y, z]: [f64; 3]) -> f64 {
    x.hypot(y).hypot(z)
}

pub fn dot(a: [f64; 3], b: [f64; 3]) -> f64 {
    a[0] * b[0] + a[1] * b[1] + a[2] * b[2]
}

pub fn cross(a: [f64; 3], b: [f64; 3]) -> [f64; 3] {
    [a[1] * b[2] - a[2] * b[1], a[2] * b[0] - a[0] * b[2], a[0] * b[1] - a[1] * b[0]]
}

#[cfg(test)]
mod tests {
    use super::*;

    #[test]
    fn products_of_known_vectors() {
        let (a, b) = ([2.0, -3.0, 6.0], [1.0, 4.0, -2.0]);
        assert_eq!((size(a), dot(a, b), cross(a, b)), (7.0, -22.0, [-18.0, 10.0, 11.0]));
        assert_eq!((dot(cross(a, b), a), dot(cross(a, b), b)), (0.0, 0.0));
    }
}

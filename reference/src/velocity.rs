//! The velocities at both positions (01, Velocities). Every operation is rounded once, in the order written there.

use crate::entrance::Problem;
use crate::time::x_of;
use crate::triangle::{cross, Triangle};
use crate::wire::Vector;

/// The input of the velocity step: parts of a problem, and the place's k.
#[derive(Clone, Copy, Debug)]
pub struct Flight {
    pub mu: f64,
    pub triangle: Triangle,
    pub radius1: f64,
    pub radius2: f64,
    pub normal: Vector,
    pub unit1: Vector,
    pub unit2: Vector,
    pub k: i64,
}

impl Flight {
    pub fn new(p: &Problem, k: i64) -> Flight {
        Flight {
            mu: p.mu,
            triangle: p.triangle,
            radius1: p.radius1,
            radius2: p.radius2,
            normal: p.normal,
            unit1: p.unit1,
            unit2: p.unit2,
            k,
        }
    }

    /// Returns v1 and v2, for any input. A refused root counts as NaN.
    pub fn velocities(&self) -> [Vector; 2] {
        let Triangle { lambda, semiperimeter, rho, sigma, .. } = self.triangle;
        let x = x_of(self.k);
        let u = 1.0 - x * x;
        let y = root(1.0 - (lambda * lambda) * u);
        let gamma = root((self.mu * semiperimeter) / 2.0);
        let (a, b) = (lambda * y - x, lambda * y + x);
        let radial1 = (gamma * (a - rho * b)) / self.radius1;
        let radial2 = -((gamma * (a + rho * b)) / self.radius2);
        let transverse = |radius: f64| ((gamma * sigma) * (y + lambda * x)) / radius;
        [
            self.combine(radial1, transverse(self.radius1), self.unit1),
            self.combine(radial2, transverse(self.radius2), self.unit2),
        ]
    }

    /// Returns radial·u + transverse·t by component, where t = n × u.
    fn combine(&self, radial: f64, transverse: f64, unit: Vector) -> Vector {
        let across = cross(self.normal, unit);
        std::array::from_fn(|i| radial * unit[i] + transverse * across[i])
    }
}

/// Returns the square root, computed by the hardware, or NaN if the operand is refused. The root of a zero
/// is that same zero, with its sign.
fn root(a: f64) -> f64 {
    if a >= 0.0 && a.is_finite() {
        a.sqrt()
    } else {
        f64::NAN
    }
}

#[cfg(test)]
mod tests;

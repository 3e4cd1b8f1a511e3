//! Wilson's excess Gibbs energy (J. Am. Chem. Soc. 86, 127, 1964) in the named Rust's Jets, written from docs/FORMAT.md.
//!
//! Λ_ij = exp(a_ij + b_ij/T), Λ_ii = 1; S_i = Σ_j x_j Λ_ij; g^E/(RT) = −Σ_i x_i ln S_i;
//! ln γ_i = 1 − ln S_i − Σ_k x_k Λ_ki / S_k.

use super::{Jet, JetMatrix, WilsonPair};
use crate::helpers::HelperNumbers;

impl Jet {
    fn ln(self) -> Self {
        Self { v: self.v.helper_ln(), d: self.d / self.v, dd: (self.dd - self.d * self.d / self.v) / self.v }
    }
}

/// a and b (K) of each directed pair; those of the diagonal are not read.
#[derive(Debug, Clone, PartialEq)]
pub(super) struct Wilson {
    terms: Vec<Vec<[f64; 2]>>,
}

impl Wilson {
    pub(super) fn of_book(n: usize, pairs: &[WilsonPair]) -> Self {
        let mut terms = vec![vec![[0.0; 2]; n]; n];
        for pair in pairs {
            terms[pair.i][pair.j] = pair.ij;
            terms[pair.j][pair.i] = pair.ji;
        }
        Self { terms }
    }

    /// Λ at t (K).
    fn matrix(&self, t: f64) -> JetMatrix {
        let kelvin = Jet { v: t, d: 1.0, dd: 0.0 };
        let lambda = |i: usize, j: usize, [a, b]: [f64; 2]| {
            if i == j {
                Jet::constant(1.0)
            } else {
                (Jet::constant(a) + Jet::constant(b) / kelvin).exp()
            }
        };
        let row = |(i, terms): (usize, &Vec<[f64; 2]>)| {
            terms.iter().enumerate().map(|(j, terms)| lambda(i, j, *terms)).collect()
        };
        self.terms.iter().enumerate().map(row).collect()
    }

    /// g^E/(RT) and ln γ at t (K) and x. Absent solvents keep their terms.
    pub(super) fn sums(&self, t: f64, x: &[f64]) -> (Jet, Vec<Jet>) {
        let n = x.len();
        let lambda = self.matrix(t);
        let mut s = vec![Jet::constant(0.0); n];
        for i in 0..n {
            for j in 0..n {
                s[i] = s[i] + lambda[i][j] * x[j];
            }
        }
        let mut sum = Jet::constant(0.0);
        let mut ln_gamma = Vec::with_capacity(n);
        for i in 0..n {
            let ln_s = s[i].ln();
            sum = sum + ln_s * x[i];
            let mut ratios = Jet::constant(0.0);
            for k in 0..n {
                ratios = ratios + lambda[k][i] * x[k] / s[k];
            }
            ln_gamma.push((Jet::constant(1.0) - ln_s) - ratios);
        }
        (-sum, ln_gamma)
    }
}

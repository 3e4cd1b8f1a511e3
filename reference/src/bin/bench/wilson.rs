// Wilson in the peer's shapes: planes of Λ, Λ' and Λ'' with the sums' index i innermost, and Λ_ki, Λ_ki' for ln γ.
impl Full<'_> {
    #[inline(always)]
    fn fill_lambdas<const N: usize>(&mut self, t: f64) {
        self.t = t;
        self.bad = false;
        // ln Λ and its derivatives
        let mut l = [[0.0f64; 56]; 3];
        let mut q = 0;
        for b in &self.blocks[1 + N..1 + N + N * (N - 1) / 2] {
            for d in 0..2 {
                let v = fl(b, 4 + 2 * d) / t;
                let v1 = (0.0 - v) / t;
                l[0][q + d] = fl(b, 3 + 2 * d) + v;
                l[1][q + d] = 0.0 + v1;
                l[2][q + d] = 0.0 + (0.0 - 2.0 * v1 - v * 0.0) / t;
            }
            q += 2;
        }
        exp_each(&mut l[0], N * (N - 1));
        let mut q = 0;
        for i in 0..N {
            for j in i + 1..N {
                for (a, b) in [(i, j), (j, i)] {
                    let (e, d1, d2) = (l[0][q], l[1][q], l[2][q]);
                    q += 1;
                    let p = &mut self.pl;
                    p[0][b * 8 + a] = e;
                    p[1][b * 8 + a] = e * d1;
                    p[2][b * 8 + a] = e * (d2 + d1 * d1);
                    p[6][a * 8 + b] = e;
                    p[7][a * 8 + b] = e * d1;
                }
            }
        }
    }
    #[inline(always)]
    fn wilson<const N: usize>(&mut self, x: &V, l: &mut V) -> bool {
        let wd = (N + 1) & !1;
        let pl = &self.pl;
        let z = [0.0f64; 8];
        let (mut s, mut s1, mut s2) = (z, z, z);
        for j in 0..N {
            for i in 0..wd {
                let at = j * 8 + i;
                s[i] += pl[0][at] * x[j];
                s1[i] += pl[1][at] * x[j];
                s2[i] += pl[2][at] * x[j];
            }
        }
        let (mut r, mut r1, mut r2) = (s, z, z);
        ln_each(&mut r, N);
        for i in 0..wd {
            r1[i] = s1[i] / s[i];
            r2[i] = (s2[i] - s1[i] * s1[i] / s[i]) / s[i];
        }
        let mut ge = [0.0; 3];
        for i in 0..N {
            ge[0] += r[i] * x[i];
            ge[1] += r1[i] * x[i];
            ge[2] += r2[i] * x[i];
        }
        let ge = ge.map(|sum: f64| -sum);
        let (mut a, mut a1) = (z, z);
        for k in 0..N {
            for i in 0..wd {
                let at = k * 8 + i;
                let p = pl[6][at] * x[k] / s[k];
                a[i] += p;
                a1[i] += (pl[7][at] * x[k] - p * s1[k]) / s[k];
            }
        }
        for i in 0..wd {
            a[i] = (1.0 - r[i]) - a[i];
            a1[i] = (0.0 - r1[i]) - a1[i];
        }
        let t = self.t;
        let gibbs = GAS * t * ge[0];
        let enthalpy = -GAS * t * t * ge[1];
        let cp = -GAS * (2.0 * t * ge[1] + t * t * ge[2]);
        let entropy = (enthalpy - gibbs) / t;
        let mut ok = fin(gibbs) && fin(enthalpy) && fin(cp) && fin(entropy);
        for i in 0..N {
            ok &= fin(a[i]) & fin(a1[i]);
        }
        *l = a;
        self.d = a1;
        self.ge = ge;
        self.state = [gibbs, enthalpy, entropy, cp];
        ok
    }
}

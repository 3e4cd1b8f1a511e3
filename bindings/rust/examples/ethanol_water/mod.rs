//! The book of the shipped sample (scripts/sample says where its numbers come from).

use zektonk::{Book, Builder, Correlation, Incomplete, Interval, Pair, Solvent, Term, UpToEight};

/// cal/(mol K).
const CAL: f64 = 1.98720425864083;

/// Ethanol is solvent 0, water 1.
pub fn ethanol_water() -> Result<Book<'static>, Incomplete> {
    in_the_making().build()
}

/// The same before it is built, for who adds molar masses.
pub fn in_the_making() -> Builder {
    let ethanol = [(-8.69441, 1.0), (0.75644, 1.5), (-6.3125, 3.0), (8.61738, 6.0)].map(Term::from);
    let water = [
        (-7.85951783, 1.0),
        (1.84408259, 1.5),
        (-11.7866497, 3.0),
        (22.6807411, 3.5),
        (-15.9618719, 4.0),
        (1.80122502, 7.5),
    ];
    let water = water.map(Term::from);
    let pair = Pair {
        tau_ij: [0.0, -57.9601 / CAL, 0.0, 0.0],
        tau_ji: [0.0, 1241.7396 / CAL, 0.0, 0.0],
        alpha: [0.2937, 0.0],
        interval: Some(Interval { low: 298.15, high: 373.15, inferred: false }),
    };
    Book::builder()
        .solvent(solvent(64_175, 514.71, 6_268_000.0, 510.0, ethanol.into()))
        .solvent(solvent(7_732_185, 647.096, 22_064_000.0, 640.0, water.into()))
        .pair(0, 1, pair)
}

/// Of the density only the range is used, here that of the vapor pressure.
fn solvent(cas: u64, t_r: f64, reducing_value: f64, high: f64, terms: UpToEight<Term>) -> Solvent {
    let vapor_pressure = Correlation { t_r, reducing_value, range: [273.16, high], terms };
    Solvent { cas, vapor_pressure, density: Correlation { terms: [(1.0, 1.0).into()].into(), ..vapor_pressure } }
}

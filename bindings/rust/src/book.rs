//! Books: the solvents and their pairs.

use std::borrow::Cow;
use std::fmt;

use crate::block::{Block, Rule, Words, BLOCK};
use crate::format::solvent::{
    CAS, DENSITY_T_R, INDEX, MOLAR_MASS, VAPOR_EXPONENT, VAPOR_HIGH, VAPOR_LOW, VAPOR_N, VAPOR_REDUCING, VAPOR_TERMS,
    VAPOR_T_R,
};
use crate::format::{self, kind, model, pair, wilson};
use crate::UpToEight;

/// Bytes of the largest book: eight solvents and their 28 pairs.
pub const BOOK_LARGEST: usize = 37 * BLOCK;

const VERSIONS: [u64; 3] = [format::VERSION, format::VERSION_MASS, format::VERSION_RUNNING];

/// One block more than any book has: who reads a book up to here sees that it is too long.
pub const BOOK_MOST: usize = 38 * BLOCK;

/// The bytes of a book, borrowed or owned. They are not tested here: [`answer`](crate::answer) does that.
///
/// ```
/// use zektonk::Book;
///
/// let bytes = include_bytes!("../../../crates/still/data/book.bin");
/// let book = Book::from(&bytes[..]);
/// assert_eq!(book.solvents(), Some(2));
/// assert_eq!(book.block(2).map(|water| water.word(2)), Some(7_732_185));
/// ```
#[derive(Debug, Clone, PartialEq, Eq)]
pub struct Book<'a> {
    bytes: Cow<'a, [u8]>,
}

impl<'a> From<&'a [u8]> for Book<'a> {
    fn from(bytes: &'a [u8]) -> Self {
        Self { bytes: Cow::Borrowed(bytes) }
    }
}

impl From<Vec<u8>> for Book<'_> {
    fn from(bytes: Vec<u8>) -> Self {
        Self { bytes: Cow::Owned(bytes) }
    }
}

impl Book<'_> {
    /// Puts a book together from solvents and pairs.
    pub fn builder() -> Builder {
        Builder::default()
    }

    /// All bytes.
    #[must_use]
    pub fn bytes(&self) -> &[u8] {
        &self.bytes
    }

    /// A block by its place: block 0, the solvents, the pairs.
    #[must_use]
    pub fn block(&self, at: usize) -> Option<Block<'_>> {
        Block::of(&self.bytes, at)
    }

    /// The version that block 0 says, 1 to 3.
    #[must_use]
    pub fn version(&self) -> Option<u64> {
        let version = self.block(0)?.word(format::book::VERSION);
        VERSIONS.contains(&version).then_some(version)
    }

    /// The model that block 0 says, if the version that it says has it; the core refuses the others with 37.
    #[must_use]
    pub fn model(&self) -> Option<Model> {
        let version = self.version()?;
        Model::of_number(self.block(0)?.word(format::book::MODEL)).filter(|model| model.is_of(version))
    }

    /// By which rule the core checks the blocks of a call with this book: running sums where it is of whole blocks and
    /// block 0 is of kind 1 and version 3.
    #[must_use]
    pub fn rule(&self) -> Rule {
        match self.block(0) {
            Some(head) if self.bytes.len() % BLOCK == 0 && head.word(format::any::KIND) == kind::BOOK => {
                Rule::of_version(head.word(format::book::VERSION))
            }
            _ => Rule::Plain,
        }
    }

    /// How many solvents block 0 says there are, if that is 1 to 8.
    #[must_use]
    pub fn solvents(&self) -> Option<usize> {
        let n = usize::try_from(self.block(0)?.word(format::book::SOLVENTS)).ok()?;
        (1..=8).contains(&n).then_some(n)
    }
}

/// By which equation the liquid's activity coefficients come about.
#[derive(Debug, Clone, Copy, PartialEq, Eq, Hash, Default)]
#[non_exhaustive]
pub enum Model {
    /// Renon and Prausnitz 1968, with a [`Pair`] for each two solvents.
    #[default]
    Nrtl,
    /// Wilson 1964, with a [`WilsonPair`] for each two solvents, in a book with molar masses.
    Wilson,
}

impl Model {
    /// Word 3 of block 0.
    #[must_use]
    pub fn number(self) -> u64 {
        match self {
            Self::Nrtl => model::NRTL,
            Self::Wilson => model::WILSON,
        }
    }

    fn of_number(number: u64) -> Option<Self> {
        [Self::Nrtl, Self::Wilson].into_iter().find(|model| model.number() == number)
    }

    /// Version 1 has NRTL alone.
    fn is_of(self, version: u64) -> bool {
        self == Self::Nrtl || version != format::VERSION
    }
}

/// A term n θ^t of a correlation, θ = 1 − T/t_r.
#[derive(Debug, Clone, Copy, PartialEq, Default)]
pub struct Term {
    /// Coefficient.
    pub n: f64,
    /// Exponent.
    pub exponent: f64,
}

impl From<(f64, f64)> for Term {
    fn from((n, exponent): (f64, f64)) -> Self {
        Self { n, exponent }
    }
}

/// A correlation over temperature, of vapor pressure or of liquid density. The core calculates with the vapor pressure;
/// of the density it uses the range.
#[derive(Debug, Clone, Copy, PartialEq)]
pub struct Correlation {
    /// Reducing temperature, K.
    pub t_r: f64,
    /// Reducing pressure (Pa) or density.
    pub reducing_value: f64,
    /// Lowest and highest temperature, K.
    pub range: [f64; 2],
    /// One to eight terms.
    pub terms: UpToEight<Term>,
}

impl Correlation {
    /// The words of the vapor pressure, or the same moved to where the record begins.
    fn put(&self, words: Words, first: usize) -> Words {
        let at = |word: usize| first + (word - VAPOR_T_R);
        let words = words
            .float(at(VAPOR_T_R), self.t_r)
            .float(at(VAPOR_REDUCING), self.reducing_value)
            .float(at(VAPOR_LOW), self.range[0])
            .float(at(VAPOR_HIGH), self.range[1])
            .word(at(VAPOR_TERMS), self.terms.len() as u64);
        self.terms.iter().enumerate().fold(words, |words, (k, term)| {
            words.float(at(VAPOR_N) + k, term.n).float(at(VAPOR_EXPONENT) + k, term.exponent)
        })
    }
}

/// A solvent's records.
#[derive(Debug, Clone, Copy, PartialEq)]
pub struct Solvent {
    /// CAS number without hyphens; not 0, and no other solvent's.
    pub cas: u64,
    /// ln(p/p_r) = (t_r/T) Σ n θ^t, p in Pa.
    pub vapor_pressure: Correlation,
    /// Liquid density.
    pub density: Correlation,
}

impl Solvent {
    fn words(&self, index: usize, molar_mass: Option<f64>) -> Words {
        let words = Words::new(kind::SOLVENT).word(INDEX, index as u64).word(CAS, self.cas);
        let words = self.density.put(self.vapor_pressure.put(words, VAPOR_T_R), DENSITY_T_R);
        match molar_mass {
            None => words,
            Some(mass) => words.float(MOLAR_MASS, mass),
        }
    }
}

/// Where a pair's parameters were regressed.
#[derive(Debug, Clone, Copy, PartialEq)]
pub struct Interval {
    /// Lowest temperature, K.
    pub low: f64,
    /// Highest temperature, K.
    pub high: f64,
    /// Whether the bounds were inferred, not stated.
    pub inferred: bool,
}

/// NRTL parameters of two solvents i < j; T in K.
#[derive(Debug, Clone, Copy, PartialEq)]
pub struct Pair {
    /// τ_ij = t0 + t1/T + t2 ln T + t3 T.
    pub tau_ij: [f64; 4],
    /// τ_ji likewise.
    pub tau_ji: [f64; 4],
    /// α = a0 + a1 T, one for both directions.
    pub alpha: [f64; 2],
    /// The regression interval, if there is one.
    pub interval: Option<Interval>,
}

impl Pair {
    pub(crate) fn words(&self, i: usize, j: usize) -> Words {
        pair_words(i, j, self.interval)
            .floats(pair::TAU_IJ, &self.tau_ij)
            .floats(pair::TAU_JI, &self.tau_ji)
            .floats(pair::ALPHA_IJ, &self.alpha)
            .floats(pair::ALPHA_JI, &self.alpha)
    }
}

/// Wilson parameters of two solvents i < j; T in K. From energies and molar volumes a_ij = ln(V_j/V_i) and
/// b_ij = −(λ_ij − λ_ii)/R.
#[derive(Debug, Clone, Copy, PartialEq)]
pub struct WilsonPair {
    /// a and b of Λ_ij = exp(a + b/T).
    pub ij: [f64; 2],
    /// a and b of Λ_ji.
    pub ji: [f64; 2],
    /// The regression interval, if there is one.
    pub interval: Option<Interval>,
}

impl WilsonPair {
    pub(crate) fn words(&self, i: usize, j: usize) -> Words {
        pair_words(i, j, self.interval).floats(wilson::A_IJ, &self.ij).floats(wilson::A_JI, &self.ji)
    }
}

/// What pairs of both models have.
fn pair_words(i: usize, j: usize, interval: Option<Interval>) -> Words {
    let words = Words::new(kind::PAIR).word(pair::I, i as u64).word(pair::J, j as u64);
    match interval {
        None => words,
        Some(Interval { low, high, inferred }) => words
            .word(pair::INTERVAL, 1)
            .float(pair::LOW, low)
            .float(pair::HIGH, high)
            .word(pair::INFERRED, inferred.into()),
    }
}

#[derive(Debug, Clone, Copy)]
enum AnyPair {
    Nrtl(Pair),
    Wilson(WilsonPair),
}

impl AnyPair {
    fn model(&self) -> Model {
        match self {
            Self::Nrtl(_) => Model::Nrtl,
            Self::Wilson(_) => Model::Wilson,
        }
    }

    fn words(&self, i: usize, j: usize) -> Words {
        match self {
            Self::Nrtl(pair) => pair.words(i, j),
            Self::Wilson(pair) => pair.words(i, j),
        }
    }
}

/// A book in the making.
///
/// ```
/// use zektonk::{Book, Correlation, Incomplete, Model, Pair, Solvent, WilsonPair};
///
/// let terms = [(-7.0, 1.0).into()].into();
/// let record = Correlation { t_r: 600.0, reducing_value: 1e6, range: [250.0, 500.0], terms };
/// let solvent = |cas| Solvent { cas, vapor_pressure: record, density: record };
/// let pair = Pair { tau_ij: [0.0; 4], tau_ji: [0.0; 4], alpha: [0.3, 0.0], interval: None };
///
/// let book = Book::builder().solvent(solvent(64_175)).solvent(solvent(7_732_185)).pair(0, 1, pair).build()?;
/// assert_eq!(book.bytes().len(), 4 * zektonk::BLOCK);
///
/// let lacking = Book::builder().solvent(solvent(64_175)).solvent(solvent(7_732_185)).build();
/// assert_eq!(lacking, Err(Incomplete::PairMissing(0, 1)));
///
/// // With molar masses it takes feeds by mass, and finds exchanged words.
/// let alone = Book::builder().solvent(solvent(7_732_185)).molar_masses([0.01801528]);
/// assert_eq!(alone.build()?.version(), Some(3));
/// // For a desk that knows no later version.
/// assert_eq!(alone.version(2).build()?.version(), Some(2));
///
/// // Wilson in place of NRTL.
/// let wilson = Book::builder().model(Model::Wilson).solvent(solvent(64_175)).solvent(solvent(7_732_185));
/// let pair = WilsonPair { ij: [-1.178, -162.5], ji: [1.178, -473.5], interval: None };
/// let book = wilson.molar_masses([0.04606844, 0.01801528]).wilson_pair(0, 1, pair).build()?;
/// assert_eq!(book.model(), Some(Model::Wilson));
/// # Ok::<(), Incomplete>(())
/// ```
#[derive(Debug, Clone, Default)]
#[must_use = "a builder makes a book by `build`"]
pub struct Builder {
    solvents: Vec<Solvent>,
    model: Model,
    pairs: Vec<(usize, usize, AnyPair)>,
    molar_masses: Option<UpToEight<f64>>,
    version: Option<u64>,
}

/// Why there is no book yet. What its numbers are worth is for the core to say.
#[derive(Debug, Clone, Copy, PartialEq, Eq)]
#[non_exhaustive]
pub enum Incomplete {
    /// Not 1 to 8 solvents; how many.
    Solvents(usize),
    /// Not i < j of two solvents.
    PairPlaces(usize, usize),
    /// A pair given twice.
    PairTwice(usize, usize),
    /// A pair not given.
    PairMissing(usize, usize),
    /// Molar masses, but not one for each solvent; how many.
    MolarMasses(usize),
    /// A version that is none, or one with molar masses, where there are none.
    Version(u64),
    /// A model other than NRTL in version 1, which is the only one without molar masses.
    ModelVersion,
    /// A pair that is of another model than the book.
    PairModel(usize, usize),
}

impl fmt::Display for Incomplete {
    fn fmt(&self, f: &mut fmt::Formatter<'_>) -> fmt::Result {
        match self {
            Self::Solvents(count) => write!(f, "{count} solvents where 1 to 8 go into a book"),
            Self::PairPlaces(i, j) => write!(f, "pair ({i}, {j}) is not of two solvents in order"),
            Self::PairTwice(i, j) => write!(f, "pair ({i}, {j}) is given twice"),
            Self::PairMissing(i, j) => write!(f, "pair ({i}, {j}) is missing"),
            Self::MolarMasses(count) => write!(f, "{count} molar masses where each solvent has one, or none has"),
            Self::Version(version) => write!(f, "version {version} where there is 1, and 2 and 3 with molar masses"),
            Self::ModelVersion => f.write_str("version 1 has NRTL alone; others need molar masses and version 2 or 3"),
            Self::PairModel(i, j) => write!(f, "pair ({i}, {j}) is of another model than the book"),
        }
    }
}

impl std::error::Error for Incomplete {}

impl Builder {
    /// The next solvent; the first has index 0.
    pub fn solvent(mut self, solvent: Solvent) -> Self {
        self.solvents.push(solvent);
        self
    }

    /// The model, NRTL where none is given.
    pub fn model(mut self, model: Model) -> Self {
        self.model = model;
        self
    }

    /// The pair of solvents i < j of an NRTL book. Pairs may come in any order.
    pub fn pair(mut self, i: usize, j: usize, pair: Pair) -> Self {
        self.pairs.push((i, j, AnyPair::Nrtl(pair)));
        self
    }

    /// The pair of solvents i < j of a Wilson book.
    pub fn wilson_pair(mut self, i: usize, j: usize, pair: WilsonPair) -> Self {
        self.pairs.push((i, j, AnyPair::Wilson(pair)));
        self
    }

    /// Molar masses in kg/mol, one for each solvent in its order. The book is of version 3 then, and takes feeds by mass.
    pub fn molar_masses(mut self, masses: impl Into<UpToEight<f64>>) -> Self {
        self.molar_masses = Some(masses.into());
        self
    }

    /// Another version than 3 with molar masses and 1 without, for who knows no later one: 2, or 1, which leaves them
    /// out.
    pub fn version(mut self, version: u64) -> Self {
        self.version = Some(version);
        self
    }

    /// The book, if each pair of its solvents is there once.
    ///
    /// # Errors
    ///
    /// [`Incomplete`] where there are not 1 to 8 solvents, a pair is missing, given twice, of no two solvents or of
    /// another model, molar masses are not as many as the solvents, or the version is none that these and the model can
    /// have.
    pub fn build(&self) -> Result<Book<'static>, Incomplete> {
        let n = self.solvents.len();
        if !(1..=8).contains(&n) {
            return Err(Incomplete::Solvents(n));
        }
        if let Some((i, j, _)) = self.pairs.iter().find(|(i, j, _)| i >= j || *j >= n) {
            return Err(Incomplete::PairPlaces(*i, *j));
        }
        if let Some((i, j, _)) = self.pairs.iter().find(|(_, _, pair)| pair.model() != self.model) {
            return Err(Incomplete::PairModel(*i, *j));
        }
        let latest = match &self.molar_masses {
            None => format::VERSION,
            Some(masses) if masses.len() == n => format::VERSION_RUNNING,
            Some(masses) => return Err(Incomplete::MolarMasses(masses.len())),
        };
        let version = self.version.unwrap_or(latest);
        if !(format::VERSION..=latest).contains(&version) {
            return Err(Incomplete::Version(version));
        }
        if !self.model.is_of(version) {
            return Err(Incomplete::ModelVersion);
        }
        let molar_masses = self.molar_masses.filter(|_| version != format::VERSION);
        let head = Words::new(kind::BOOK)
            .word(format::book::VERSION, version)
            .word(format::book::SOLVENTS, n as u64)
            .word(format::book::MODEL, self.model.number());
        let mut blocks = vec![head];
        for (index, solvent) in self.solvents.iter().enumerate() {
            blocks.push(solvent.words(index, molar_masses.map(|masses| masses[index])));
        }
        for (i, j) in (0..n).flat_map(|i| (i + 1..n).map(move |j| (i, j))) {
            blocks.push(self.due(i, j)?.words(i, j));
        }
        let rule = Rule::of_version(version);
        Ok(Book::from(blocks.into_iter().flat_map(|words| words.seal_by(rule)).collect::<Vec<u8>>()))
    }

    fn due(&self, i: usize, j: usize) -> Result<&AnyPair, Incomplete> {
        let mut found = self.pairs.iter().filter(|(a, b, _)| (*a, *b) == (i, j));
        match (found.next(), found.next()) {
            (None, _) => Err(Incomplete::PairMissing(i, j)),
            (Some(_), Some(_)) => Err(Incomplete::PairTwice(i, j)),
            (Some((_, _, pair)), None) => Ok(pair),
        }
    }
}

#[cfg(test)]
mod tests {
    use super::*;

    fn solvent(cas: u64) -> Solvent {
        let record = |first: f64| Correlation {
            t_r: first,
            reducing_value: first + 1.0,
            range: [first + 2.0, first + 3.0],
            terms: [(first + 4.0, first + 5.0).into(), (first + 6.0, first + 7.0).into()].into(),
        };
        Solvent { cas, vapor_pressure: record(10.0), density: record(20.0) }
    }

    fn pair(first: f64) -> Pair {
        Pair { tau_ij: [first; 4], tau_ji: [first + 0.5; 4], alpha: [0.3, 0.1], interval: None }
    }

    #[test]
    fn words_of_a_solvent() {
        let bytes = solvent(77).words(3, None).seal();
        let block = Block::new(&bytes);
        assert_eq!([0, 1, 2, 7, 28].map(|at| block.word(at)), [2, 3, 77, 2, 2]);
        assert_eq!(
            [3, 4, 5, 6, 8, 9, 16, 17].map(|at| block.float(at)),
            [10.0, 11.0, 12.0, 13.0, 14.0, 16.0, 15.0, 17.0]
        );
        assert_eq!(
            [24, 25, 26, 27, 29, 30, 37, 38].map(|at| block.float(at)),
            [20.0, 21.0, 22.0, 23.0, 24.0, 26.0, 25.0, 27.0]
        );
        assert!([10, 15, 18, 23, 31, 36, 39, 44, 45, 62].iter().all(|at| block.word(*at) == 0));
        let with = solvent(77).words(3, Some(0.018)).seal();
        assert_eq!(Block::new(&with).float(45), 0.018);
        assert!((0..63).filter(|at| *at != 45).all(|at| Block::new(&with).word(at) == block.word(at)));
    }

    #[test]
    fn molar_masses_make_version_3() {
        let two = Book::builder().solvent(solvent(1)).solvent(solvent(2)).pair(0, 1, pair(1.0));
        let first = two.build().unwrap();
        assert_eq!((first.version(), first.rule()), (Some(1), Rule::Plain));
        let weighed = two.clone().molar_masses([0.046, 0.018]);
        let book = weighed.build().unwrap();
        assert_eq!(book, weighed.clone().version(3).build().unwrap());
        assert_eq!((book.version(), book.rule()), (Some(3), Rule::Running));
        assert_eq!([1, 2].map(|at| book.block(at).unwrap().float(45)), [0.046, 0.018]);
        assert!((0..4).all(|at| book.block(at).unwrap().check_is_right_by(Rule::Running)));
        let second = weighed.clone().version(2).build().unwrap();
        assert_eq!((second.version(), second.rule()), (Some(2), Rule::Plain));
        assert!((0..4).all(|at| second.block(at).unwrap().check_is_right()));
        let differ = |at: usize, word| book.block(at).unwrap().word(word) != second.block(at).unwrap().word(word);
        assert!((0..4).all(|at| (0..63).all(|word| differ(at, word) == ((at, word) == (0, 1)))));
        assert_eq!(weighed.clone().version(1).build().unwrap(), first);
        for version in [0, 4] {
            assert_eq!(weighed.clone().version(version).build(), Err(Incomplete::Version(version)));
        }
        for version in [2, 3] {
            assert_eq!(two.clone().version(version).build(), Err(Incomplete::Version(version)));
        }
        for masses in [UpToEight::from([0.046]), [0.046, 0.018, 0.032].into(), UpToEight::default()] {
            assert_eq!(two.clone().molar_masses(masses).build(), Err(Incomplete::MolarMasses(masses.len())));
        }
        assert_eq!(Book::from(&[][..]).version(), None);
    }

    #[test]
    fn rules_of_books() {
        let book = Book::builder().solvent(solvent(1)).molar_masses([0.018]).build().unwrap();
        let rule = |bytes: &[u8]| Book::from(bytes).rule();
        assert_eq!(rule(book.bytes()), Rule::Running);
        assert!([0, 1, BLOCK - 1, BLOCK + 1].iter().all(|length| rule(&book.bytes()[..*length]) == Rule::Plain));
        for (at, word) in [(0, 2), (1, 2), (1, 4)] {
            let mut bytes = book.bytes().to_vec();
            bytes[8 * at] = word;
            assert_eq!(rule(&bytes), Rule::Plain);
        }
    }

    #[test]
    fn words_of_a_pair() {
        let interval = Some(Interval { low: 300.0, high: 350.0, inferred: true });
        let with = Pair { tau_ij: [1.0, 2.0, 3.0, 4.0], tau_ji: [5.0, 6.0, 7.0, 8.0], alpha: [9.0, 10.0], interval };
        let bytes = with.words(2, 5).seal();
        let block = Block::new(&bytes);
        assert_eq!([0, 1, 2, 15, 18].map(|at| block.word(at)), [3, 2, 5, 1, 1]);
        let floats: Vec<f64> = (3..15).chain(16..18).map(|at| block.float(at)).collect();
        assert_eq!(floats, [1.0, 2.0, 3.0, 4.0, 5.0, 6.0, 7.0, 8.0, 9.0, 10.0, 9.0, 10.0, 300.0, 350.0]);
        let bytes = Pair { interval: None, ..with }.words(2, 5).seal();
        assert!((15..63).all(|at| Block::new(&bytes).word(at) == 0));
    }

    #[test]
    fn words_of_a_wilson_book() {
        let interval = Some(Interval { low: 300.0, high: 350.0, inferred: true });
        let with = WilsonPair { ij: [1.0, 2.0], ji: [3.0, 4.0], interval };
        let two = Book::builder().model(Model::Wilson).solvent(solvent(1)).solvent(solvent(2)).wilson_pair(0, 1, with);
        for version in [2, 3] {
            let book = two.clone().molar_masses([0.046, 0.018]).version(version).build().unwrap();
            assert_eq!([0, 1, 2, 3].map(|at| book.block(0).unwrap().word(at)), [1, version, 2, 1]);
            assert_eq!((book.model(), book.version()), (Some(Model::Wilson), Some(version)));
            let block = book.block(3).unwrap();
            assert_eq!([0, 1, 2, 15, 18].map(|at| block.word(at)), [3, 0, 1, 1, 1]);
            assert_eq!([3, 4, 5, 6, 16, 17].map(|at| block.float(at)), [1.0, 2.0, 3.0, 4.0, 300.0, 350.0]);
            assert!((7..15).chain(19..63).all(|at| block.word(at) == 0));
        }
        let nrtl = Book::builder().solvent(solvent(1)).solvent(solvent(2)).pair(0, 1, pair(1.0)).build().unwrap();
        assert_eq!((nrtl.model(), nrtl.block(0).unwrap().word(3)), (Some(Model::Nrtl), 0));
    }

    #[test]
    fn models_of_books() {
        let with = WilsonPair { ij: [0.0; 2], ji: [0.0; 2], interval: None };
        let two = Book::builder().solvent(solvent(1)).solvent(solvent(2));
        let wilson = two.clone().model(Model::Wilson).wilson_pair(0, 1, with);
        assert_eq!(wilson.build(), Err(Incomplete::ModelVersion));
        assert_eq!(wilson.clone().molar_masses([0.046, 0.018]).version(1).build(), Err(Incomplete::ModelVersion));
        assert_eq!(two.clone().wilson_pair(0, 1, with).build(), Err(Incomplete::PairModel(0, 1)));
        let mixed = two.model(Model::Wilson).molar_masses([0.046, 0.018]).pair(0, 1, pair(1.0));
        assert_eq!(mixed.build(), Err(Incomplete::PairModel(0, 1)));
        let one = Book::builder().model(Model::Wilson).solvent(solvent(1)).molar_masses([0.018]).build().unwrap();
        assert_eq!(one.model(), Some(Model::Wilson));
        for (version, number) in [(1, 1), (1, 2), (2, 2), (3, u64::MAX), (4, 0)] {
            let head = Words::new(kind::BOOK).word(1, version).word(2, 1).word(3, number).seal();
            assert_eq!(Book::from(&head[..]).model(), None);
        }
    }

    #[test]
    fn pairs_come_out_in_their_order() {
        let three = Book::builder().solvent(solvent(1)).solvent(solvent(2)).solvent(solvent(3));
        let book = three.pair(1, 2, pair(12.0)).pair(0, 1, pair(1.0)).pair(0, 2, pair(2.0)).build().unwrap();
        let taus: Vec<f64> = (4..7).map(|at| book.block(at).unwrap().float(3)).collect();
        assert_eq!(taus, [1.0, 2.0, 12.0]);
        assert!((0..7).all(|at| book.block(at).unwrap().check_is_right()));
        assert!(book.block(7).is_none());
        assert_eq!(book.solvents(), Some(3));
    }

    #[test]
    fn what_is_incomplete() {
        assert_eq!(Book::builder().build(), Err(Incomplete::Solvents(0)));
        let nine = (1..=9).fold(Book::builder(), |book, cas| book.solvent(solvent(cas)));
        assert_eq!(nine.build(), Err(Incomplete::Solvents(9)));
        let two = Book::builder().solvent(solvent(1)).solvent(solvent(2));
        assert_eq!(two.build(), Err(Incomplete::PairMissing(0, 1)));
        assert_eq!(two.clone().pair(1, 0, pair(1.0)).build(), Err(Incomplete::PairPlaces(1, 0)));
        assert_eq!(two.clone().pair(0, 2, pair(1.0)).build(), Err(Incomplete::PairPlaces(0, 2)));
        assert_eq!(two.pair(0, 1, pair(1.0)).pair(0, 1, pair(1.0)).build(), Err(Incomplete::PairTwice(0, 1)));
    }

    #[test]
    fn eight_solvents_make_the_largest_book() {
        let mut eight = (1..=8).fold(Book::builder(), |book, cas| book.solvent(solvent(cas)));
        for (i, j) in (0..8).flat_map(|i| (i + 1..8).map(move |j| (i, j))) {
            eight = eight.pair(i, j, pair(0.0));
        }
        assert_eq!(eight.build().unwrap().bytes().len(), BOOK_LARGEST);
    }

    #[test]
    fn borrowed_bytes_stay_where_they_are() {
        let bytes = [1, 2, 3];
        assert!(std::ptr::eq(Book::from(&bytes[..]).bytes().as_ptr(), bytes.as_ptr()));
        assert_eq!(Book::from(&bytes[..]).solvents(), None);
    }
}

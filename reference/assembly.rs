//! The cuts and substitutions that make the reference out of the named Rust.
//!
//! `SOURCES` lists them as data: each has its anchor, how often that anchor has to be found, and its reason. An anchor that is found
//! less or more often is an error, so that a changed source cannot pass unnoticed. CUTS.md shows the same list.

/// One cut or substitution. `within` is the first line of the item that is searched; empty means the whole file.
pub enum Edit {
    /// All `use` declarations; the including module has its own.
    Uses { times: usize },
    /// An item or block: from its first line, comments and attributes before it included, to its closing brace or semicolon.
    Cut { within: &'static str, anchor: &'static str },
    /// A field, entry or statement: to its comma or semicolon.
    CutEntry { within: &'static str, anchor: &'static str, times: usize },
    /// Plain text.
    Replace { within: &'static str, from: &'static str, to: &'static str, times: usize },
    /// A call with its arguments; only calls that hold the given text.
    Call { within: &'static str, name: &'static str, holding: &'static str, to: &'static str, times: usize },
    /// A block statement as a whole.
    Block { within: &'static str, anchor: &'static str, to: &'static str },
}

pub struct Row {
    pub edit: Edit,
    pub reason: &'static str,
}

pub struct Source {
    /// Path below the folder of the named Rust.
    pub path: &'static str,
    /// Name of the assembled text.
    pub out: &'static str,
    pub rows: &'static [Row],
    /// Uses of `.exp()` that stay: the method of a Jet.
    pub jet_exp: usize,
}

const STRINGS: &str = "strings are left out";
const DATA: &str = "embedded data and databases are left out; the book takes their place";
const CALORIC: &str = "caloric states are left out";
const PH: &str = "the PH flash is left out";
const DENSITY: &str = "densities are left out; of the density only its range is used";
const HELPER: &str = "helper numbers ln, exp, powf of docs/FORMAT.md";
const SUM: &str = "sums start at +0";
const USES: &str = "the including module names its own";
const SHAPE: &str = "shape errors cannot arise in a book";
const NOTES: &str = "notes are bits of word 13";
const OPEN: &str = "called by the sheet";
const NORMALIZE: &str = "34: `normalize` refuses a sum that isn't finite and positive; its step is noted";
const WILSON: &str =
    "Wilson's sums stand beside NRTL's (src/named/nrtl/wilson.rs); tests and energies are the Rust's own for both";
const EVALUATIONS: &str = "every entry is counted, refused ones too (src/evaluations.rs)";
const PRESENT: &str = "the slope runs over positive feed fractions only (docs/DIFFERENCES.md)";

const fn cut(within: &'static str, anchor: &'static str, reason: &'static str) -> Row {
    Row { edit: Edit::Cut { within, anchor }, reason }
}

const fn entry(within: &'static str, anchor: &'static str, times: usize, reason: &'static str) -> Row {
    Row { edit: Edit::CutEntry { within, anchor, times }, reason }
}

const fn put(within: &'static str, from: &'static str, to: &'static str, times: usize, reason: &'static str) -> Row {
    Row { edit: Edit::Replace { within, from, to, times }, reason }
}

const fn call(within: &'static str, name: &'static str, to: &'static str, times: usize, reason: &'static str) -> Row {
    Row { edit: Edit::Call { within, name, holding: "", to, times }, reason }
}

const fn note(holding: &'static str, to: &'static str) -> Row {
    Row { edit: Edit::Call { within: "fn tp_flash(", name: "diagnostic(", holding, to, times: 1 }, reason: NOTES }
}

const fn uses(times: usize) -> Row {
    Row { edit: Edit::Uses { times }, reason: USES }
}

const OUTSIDE: &str = "Error::OutsideValidityDomain(";
const FAILURE: &str = "Error::NumericalFailure(";
const NO_CONVERGENCE: &str = "Error::NonConvergence(";
const UNSUPPORTED: &str = "Error::UnsupportedCapability(";

pub const SOURCES: &[Source] = &[
    Source {
        path: "crates/thermo-types/src/composition.rs",
        out: "composition.rs",
        rows: &[
            uses(1),
            cut("", "pub struct ComponentId", STRINGS),
            cut("", "impl ComponentId", STRINGS),
            cut("", "pub enum CompositionBasis", "the feed is molar and goes through `with_fractions`"),
            cut("", "pub enum NormalizationPolicy", "`normalize` of docs/FORMAT.md takes its place"),
            cut("", "pub struct Composition ", "the feed is an array of fractions"),
            cut("", "impl Composition ", "`normalize` of docs/FORMAT.md takes its place"),
        ],
        jet_exp: 0,
    },
    Source {
        path: "crates/thermo-data/src/liquid.rs",
        out: "liquid.rs",
        rows: &[
            uses(2),
            cut("", "pub const LIQUID_DATA_VERSION", STRINGS),
            cut("", "struct BinaryRecord", DATA),
            cut("", "const INFERRED_INTERVAL_MARKER", STRINGS),
            cut("", "impl BinaryRecord", DATA),
            cut("", "struct Extract", DATA),
            cut("", "pub struct NrtlBinary", DATA),
            cut("", "pub struct LiquidDatabase", DATA),
            cut("", "impl LiquidDatabase", DATA),
            put("", ", Deserialize", "", 4, DATA),
            call("", "serde(", "allow(dead_code)", 5, DATA),
            entry("struct Ancillary", "form:", 1, STRINGS),
            entry("struct Ancillary", "using_tau_r:", 1, DATA),
            entry("struct PureRecord", "id:", 1, STRINGS),
            entry("struct PureRecord", "cas:", 1, STRINGS),
            cut("impl PureLiquid", "pub fn id(", STRINGS),
            cut("impl PureLiquid", "pub fn cas(", STRINGS),
            cut("impl PureLiquid", "pub fn saturated_liquid_molar_density(", DENSITY),
            call("pub fn vapor_pressure(", "check_range(", "check_range(a.range, t)", 1, STRINGS),
            put("fn check_range(", "id: &str, what: &str, ", "", 1, STRINGS),
            put("", ".powf(", ".helper_powf(", 3, HELPER),
            put("", ".ln()", ".helper_ln()", 1, HELPER),
            put("", ".exp()", ".helper_exp()", 1, HELPER),
            call("pub fn vapor_pressure(", FAILURE, "Error::ResultNotFinite", 1, "25"),
            call("fn check_range(", OUTSIDE, "Error::TemperatureOutside", 1, "22"),
        ],
        jet_exp: 0,
    },
    Source {
        path: "crates/thermo-models/src/nrtl.rs",
        out: "nrtl.rs",
        rows: &[
            uses(3),
            cut("impl NrtlParameters", "pub fn new(", DATA),
            cut("impl NrtlParameters", "pub fn from_database(", DATA),
            cut("impl NrtlParameters", "pub fn component_ids(", STRINGS),
            cut("impl NrtlParameters", "pub fn source(", STRINGS),
            cut("impl NrtlParameters", "pub fn tau_terms(", "not called"),
            cut("impl NrtlParameters", "pub fn alpha_terms(", "not called"),
            cut("impl NrtlParameters", "pub fn permuted(", "not called"),
            cut("fn checked(", "if source", STRINGS),
            entry("", "source: String", 2, STRINGS),
            entry("fn checked(", "source,", 1, STRINGS),
            cut("impl NrtlModel", "pub fn metadata(", STRINGS),
            put("", ".ln()", ".helper_ln()", 1, HELPER),
            put("", "self.v.exp()", "self.v.helper_exp()", 1, HELPER),
            put("", ".sum::<f64>()", ".sum_from_zero()", 1, SUM),
            call("fn checked(", "Error::MissingParameter(", "Error::Shape", 1, SHAPE),
            call("fn checked(", UNSUPPORTED, "Error::Shape", 2, "question 9 and the zero diagonal stand before it"),
            call("fn matrices(", OUTSIDE, "Error::AlphaNotPositive", 1, "24"),
            put("pub fn excess(", "NotPositive(\"temperature\")", "Temperature", 1, "13"),
            call("pub fn excess(", FAILURE, "Error::ResultNotFinite", 1, "25"),
            put(
                "pub fn excess(",
                "let n = self.parameters.ids.len();",
                "evaluations::begin(); let n = self.parameters.ids.len();",
                1,
                EVALUATIONS,
            ),
            put(
                "pub struct NrtlModel",
                "parameters: NrtlParameters,",
                "parameters: NrtlParameters, wilson: Option<Wilson>,",
                1,
                WILSON,
            ),
            put("impl NrtlModel", "Self { parameters }", "Self { parameters, wilson: None }", 1, WILSON),
            put(
                "pub fn excess(",
                "let rt = R * t;",
                "Ok((ge, ln_gamma)) } \
                 fn state(&self, t: f64, x: &[f64], ge: Jet, ln_gamma: Vec<Jet>) -> Result<ExcessState, Error> { \
                 let rt = R * t;",
                1,
                WILSON,
            ),
            put(
                "pub fn excess(",
                "let (tau, g) = self.matrices(t)?;",
                "let (ge, ln_gamma) = match &self.wilson { Some(wilson) => wilson.sums(t, x), None => self.sums(t, x)? }; \
                 self.state(t, x, ge, ln_gamma) } \
                 fn sums(&self, t: f64, x: &[f64]) -> Result<(Jet, Vec<Jet>), Error> { \
                 let n = x.len(); let (tau, g) = self.matrices(t)?;",
                1,
                WILSON,
            ),
        ],
        jet_exp: 1,
    },
    Source {
        path: "crates/thermo-models/src/activity.rs",
        out: "model.rs",
        rows: &[
            uses(3),
            cut("", "pub enum VaporModel", "the ideal gas is the only vapor"),
            cut("", "pub struct ActivityPhaseState", CALORIC),
            entry("pub struct PureLiquidState", "pub enthalpy_of_vaporization:", 1, CALORIC),
            entry("pub struct PureLiquidState", "pub enthalpy:", 1, CALORIC),
            entry("pub struct PureLiquidState", "pub entropy:", 1, CALORIC),
            entry("pub struct PureLiquidState", "pub heat_capacity:", 1, CALORIC),
            entry("pub struct ActivityModel", "vapor:", 1, "the ideal gas is the only vapor"),
            entry("pub struct ActivityModel", "data:", 1, STRINGS),
            cut("impl ActivityModel", "pub fn new(", DATA),
            cut("impl ActivityModel", "pub fn from_databases(", DATA),
            cut("impl ActivityModel", "pub fn components(", "not called"),
            cut("impl ActivityModel", "pub fn component_ids(", STRINGS),
            cut("impl ActivityModel", "pub fn vapor_model(", "not called"),
            cut("impl ActivityModel", "pub fn metadata(", STRINGS),
            cut("impl ActivityModel", "pub fn caloric_reference(", CALORIC),
            cut("impl ActivityModel", "pub fn pure_liquid(", "not called"),
            cut("impl ActivityModel", "pub fn liquid(", CALORIC),
            cut("impl ActivityModel", "pub fn vapor(", CALORIC),
            cut("impl ActivityModel", "fn finish(", CALORIC),
            entry("fn pure_liquid_in_domain(", "let t ", 1, CALORIC),
            entry("fn pure_liquid_in_domain(", "let ideal", 1, CALORIC),
            entry("fn pure_liquid_in_domain(", "let dh", 1, CALORIC),
            entry("fn pure_liquid_in_domain(", "enthalpy_of_vaporization:", 1, CALORIC),
            entry("fn pure_liquid_in_domain(", "enthalpy:", 1, CALORIC),
            entry("fn pure_liquid_in_domain(", "entropy:", 1, CALORIC),
            entry("fn pure_liquid_in_domain(", "heat_capacity:", 1, CALORIC),
            put("", ".sum::<f64>()", ".sum_from_zero()", 1, SUM),
            call("pub fn check_domain(", OUTSIDE, "Error::PressureOutside", 1, "23"),
            call("pub fn check_temperature(", OUTSIDE, "Error::TemperatureOutside", 2, "22"),
        ],
        jet_exp: 0,
    },
    Source {
        path: "crates/thermo-solvers/src/rachford_rice.rs",
        out: "rachford_rice.rs",
        rows: &[
            uses(1),
            put("", ".sum()", ".sum_from_zero()", 2, SUM),
            put("", ".sum::<f64>()", ".sum_from_zero()", 2, SUM),
            put("fn validate(", "NotPositive(\"K value\")", "KValue", 1, "17"),
            call("pub fn rachford_rice_negative(", UNSUPPORTED, "Error::OneSidedK", 1, "28"),
            call("pub fn rachford_rice_negative(", FAILURE, "Error::ResultNotFinite", 1, "25"),
            call("pub fn rachford_rice_negative(", NO_CONVERGENCE, "Error::NotConverged", 1, "27"),
        ],
        jet_exp: 0,
    },
    Source {
        path: "crates/thermo-solvers/src/activity.rs",
        out: "solvers.rs",
        rows: &[
            uses(4),
            cut("impl ActivityTpFlash", "pub fn enthalpy(", CALORIC),
            cut("", "pub struct ActivityPhFlash", PH),
            cut("", "fn diagnostic(", NOTES),
            cut("", "enum Saturation ", PH),
            cut("", "impl Saturation ", PH),
            cut("", "fn locate_saturation(", PH),
            cut("", "pub fn activity_ph_flash(", PH),
            put("fn check_pressure(", "thermo_models::", "", 1, USES),
            Row {
                edit: Edit::Block { within: "fn phase_state(", anchor: "match phase ", to: "m.check_domain(t, p)" },
                reason: "`phase_state` keeps only `with_fractions` and `check_domain`",
            },
            put("", ".ln()", ".helper_ln()", 18, HELPER),
            put("", ".exp()", ".helper_exp()", 5, HELPER),
            put("", ".sum()", ".sum_from_zero()", 3, SUM),
            put("", ".sum::<f64>()", ".sum_from_zero()", 2, SUM),
            put(
                "fn dew_at(",
                "let (p, x) = incipient(&ln_gamma);",
                "let (p, x) = incipient(&ln_gamma); let x = steps::at(Step::DewLoop, x)?;",
                1,
                NORMALIZE,
            ),
            put(
                "fn dew_at(",
                "let (pressure, liquid) = incipient(&ln_gamma);",
                "let (pressure, liquid) = incipient(&ln_gamma); let liquid = steps::at(Step::DewEnd, liquid)?;",
                1,
                NORMALIZE,
            ),
            put("fn tp_flash(", "(normalize(x), ", "(steps::at(Step::SplitLiquid, normalize(x))?, ", 1, NORMALIZE),
            put("fn tp_flash(", " normalize(y))", " steps::at(Step::SplitVapor, normalize(y))?)", 1, NORMALIZE),
            note("\"A7-GAMMA-PHI\"", "Diagnostic::GammaPhi"),
            note("\"A7-SPLIT-AT", "Diagnostic::SplitAtSaturationBoundary"),
            note("\"A7-LIQUID-TPD", "Diagnostic::LiquidTpdFiniteTrials"),
            call("fn validate(", UNSUPPORTED, "Error::Options", 1, "19"),
            call("fn validate(", NO_CONVERGENCE, "Error::LimitZero", 1, "20"),
            put("", "fn validate(", "pub(crate) fn validate(", 1, OPEN),
            call("fn check_pressure(", OUTSIDE, "Error::PressureOutside", 1, "23"),
            call("fn bubble_at(", FAILURE, "Error::ResultNotFinite", 1, "25"),
            call("fn residual_with(", FAILURE, "Error::ResultNotFinite", 1, "25"),
            call("fn dew_at(", FAILURE, "Error::ResultNotFinite", 1, "25"),
            call("fn dew_at(", NO_CONVERGENCE, "Error::NotConverged", 1, "27"),
            put("pub fn activity_dew_temperature(", "(0..y.len())", "positive(&y)", 1, PRESENT),
            call("fn solve_temperature(", OUTSIDE, "Error::NotBracketed", 1, "26"),
            call("fn solve_temperature(", NO_CONVERGENCE, "Error::NotConverged", 2, "27"),
            call("pub fn liquid_stability(", FAILURE, "Error::ResultNotFinite", 1, "25"),
            call("pub fn liquid_stability(", NO_CONVERGENCE, "Error::NotConverged", 1, "27"),
            call("fn require_stable_liquid(", UNSUPPORTED, "Error::UnstableLiquid", 1, "29"),
            Row {
                edit: Edit::Call {
                    within: "fn tp_flash(",
                    name: FAILURE,
                    holding: "TP residual",
                    to: "Error::ResultNotFinite",
                    times: 1,
                },
                reason: "25",
            },
            call("fn tp_flash(", FAILURE, "Error::FractionOutside", 1, "30"),
            call("fn tp_flash(", NO_CONVERGENCE, "Error::NotConverged", 1, "27"),
        ],
        jet_exp: 0,
    },
];

/// Text that no assembled module may hold: what the helper numbers replace, and what is left out.
const FORBIDDEN: [&str; 9] =
    [".ln()", ".powf(", ".sum()", ".sum::", "format!", "String", "serde", "thermo_", "stability::"];

/// The assembled text of one source.
pub fn assemble(source: &Source, text: String) -> Result<String, String> {
    let mut text = Text { text };
    for row in source.rows {
        text.apply(&row.edit).map_err(|why| format!("{}: {why}", source.path))?;
    }
    text.cut_head();
    for word in FORBIDDEN {
        if text.text.contains(word) {
            return Err(format!("{}: `{word}` is left over", source.path));
        }
    }
    let left = text.text.matches(".exp()").count();
    if left != source.jet_exp {
        return Err(format!("{}: `.exp()` is left {left} times, {} expected", source.path, source.jet_exp));
    }
    Ok(text.text)
}

struct Text {
    text: String,
}

impl Text {
    fn apply(&mut self, edit: &Edit) -> Result<(), String> {
        match *edit {
            Edit::Uses { times } => {
                let found = self.at_line_start(0, self.text.len(), "use ");
                expect("use ", "", found.len(), times)?;
                found.iter().rev().for_each(|&at| self.cut_from(at, Ends::Entry));
            }
            Edit::Cut { within, anchor } => {
                let at = self.lines(within, anchor, 1)?[0];
                self.cut_from(at, Ends::Item);
            }
            Edit::CutEntry { within, anchor, times } => {
                let found = self.lines(within, anchor, times)?;
                found.iter().rev().for_each(|&at| self.cut_from(at, Ends::Entry));
            }
            Edit::Replace { within, from, to, times } => {
                let found = self.places(within, from)?;
                expect(from, within, found.len(), times)?;
                found.iter().rev().for_each(|&at| self.text.replace_range(at..at + from.len(), to));
            }
            Edit::Call { within, name, holding, to, times } => self.calls(within, name, holding, to, times)?,
            Edit::Block { within, anchor, to } => {
                let at = self.lines(within, anchor, 1)?[0];
                let end = end_of(&self.text, at, Ends::Item);
                self.text.replace_range(at..end, to);
            }
        }
        Ok(())
    }

    fn calls(&mut self, within: &str, name: &str, holding: &str, to: &str, times: usize) -> Result<(), String> {
        let all = self.places(within, name)?;
        let spans: Vec<(usize, usize)> = all.into_iter().map(|at| (at, end_of(&self.text, at, Ends::Call))).collect();
        let spans: Vec<_> = spans.into_iter().filter(|&(at, end)| self.text[at..end].contains(holding)).collect();
        expect(&format!("{name}{holding}"), within, spans.len(), times)?;
        spans.iter().rev().for_each(|&(at, end)| self.text.replace_range(at..end, to));
        Ok(())
    }

    /// Line starts with the anchor, found as often as expected.
    fn lines(&self, within: &str, anchor: &str, times: usize) -> Result<Vec<usize>, String> {
        let (start, end) = self.scope(within)?;
        // The item's own first line is not inside it.
        let start = start + within.len();
        let found = self.at_line_start(start, end, anchor);
        expect(anchor, within, found.len(), times)?;
        Ok(found)
    }

    fn scope(&self, within: &str) -> Result<(usize, usize), String> {
        if within.is_empty() {
            return Ok((0, self.text.len()));
        }
        let mut found = self.at_line_start(0, self.text.len(), within);
        // A name that begins another one (`impl Nrtl`, `impl NrtlModel`) is taken whole.
        found.retain(|&at| !self.text[at + within.len()..].starts_with(is_word) || within.ends_with('('));
        expect(within, "", found.len(), 1)?;
        Ok((found[0], end_of(&self.text, found[0], Ends::Item)))
    }

    fn places(&self, within: &str, anchor: &str) -> Result<Vec<usize>, String> {
        let (start, end) = self.scope(within)?;
        Ok(self.text[start..end].match_indices(anchor).map(|(at, _)| start + at).collect())
    }

    fn at_line_start(&self, start: usize, end: usize, anchor: &str) -> Vec<usize> {
        let starts_line = |at: usize| self.text[..at].rsplit('\n').next().is_some_and(|s| s.trim().is_empty());
        let found = self.text[start..end].match_indices(anchor).map(|(at, _)| start + at);
        found.filter(|&at| starts_line(at)).collect()
    }

    /// Cuts from the line of `at`, with the comments and attributes before it, to the end of the item or entry.
    fn cut_from(&mut self, at: usize, ends: Ends) {
        let end = end_of(&self.text, at, ends);
        let mut start = line_start(&self.text, at);
        while start > 0 {
            let before = line_start(&self.text, start - 1);
            let line = self.text[before..start].trim_start();
            if !line.starts_with("///") && !line.starts_with("#[") {
                break;
            }
            start = before;
        }
        self.text.replace_range(start..end, "");
    }

    /// The head comment cannot stand in an included text.
    fn cut_head(&mut self) {
        let body: Vec<&str> = self.text.lines().filter(|line| !line.starts_with("//!")).collect();
        self.text = body.join("\n") + "\n";
    }
}

fn expect(anchor: &str, within: &str, found: usize, times: usize) -> Result<(), String> {
    if found == times {
        return Ok(());
    }
    Err(format!("`{anchor}` in `{within}` is found {found} times, {times} expected"))
}

fn is_word(c: char) -> bool {
    c.is_alphanumeric() || c == '_'
}

fn line_start(text: &str, at: usize) -> usize {
    text[..at].rfind('\n').map_or(0, |k| k + 1)
}

#[derive(Clone, Copy, PartialEq)]
enum Ends {
    /// Closing brace or semicolon.
    Item,
    /// Comma or semicolon.
    Entry,
    /// Closing parenthesis of the call.
    Call,
}

/// End of the item, entry or call that starts at `at`; brackets are counted outside strings and comments.
fn end_of(text: &str, at: usize, ends: Ends) -> usize {
    let bytes = text.as_bytes();
    let mut depth = 0;
    let mut k = at;
    while k < bytes.len() {
        match bytes[k] {
            b'"' => k = string_end(bytes, k),
            b'/' if bytes.get(k + 1) == Some(&b'/') => k += text[k..].find('\n').unwrap_or(0),
            b'(' | b'[' | b'{' => depth += 1,
            b')' | b']' | b'}' => {
                depth -= 1;
                let closed = match ends {
                    Ends::Item => bytes[k] == b'}',
                    Ends::Entry => false,
                    Ends::Call => bytes[k] == b')',
                };
                if depth == 0 && closed {
                    return k + 1;
                }
            }
            b';' if depth == 0 && ends != Ends::Call => return k + 1,
            b',' if depth == 0 && ends == Ends::Entry => return k + 1,
            _ => {}
        }
        k += 1;
    }
    bytes.len()
}

/// Place of the closing quote.
fn string_end(bytes: &[u8], quote: usize) -> usize {
    let mut k = quote + 1;
    while k < bytes.len() && bytes[k] != b'"' {
        k += if bytes[k] == b'\\' { 2 } else { 1 };
    }
    k
}

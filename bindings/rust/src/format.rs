//! The places of words and the numbers in them, as docs/FORMAT.md and the C header have them: for who reads or writes
//! blocks by [`Block`](crate::Block) and [`Words`](crate::Words). The typed side uses the same.

/// A module with a constant for each name, and all of them in a row.
macro_rules! named {
    ($(#[$about:meta])* $module:ident: $type:ty { $($name:ident = $value:literal $text:literal)* }) => {
        $(#[$about])*
        pub mod $module {
            $(
                #[doc = concat!($text, ".")]
                pub const $name: $type = $value;
            )*

            /// Each name with its value, in order.
            pub const ALL: &[(&str, $type)] = &[$((stringify!($name), $value)),*];
        }
    };
}

/// Version of a book without molar masses, word 1 of its block 0.
pub const VERSION: u64 = 1;

/// Version of a book with molar masses, which takes feeds by mass too.
pub const VERSION_MASS: u64 = 2;

/// Version of a book with molar masses whose checks are running sums ([`Rule`](crate::Rule)).
pub const VERSION_RUNNING: u64 = 3;

named! {
    /// Words of every block.
    any: usize {
        KIND = 0 "Which kind of block it is"
        CHECK = 63 "Check of the words before it, by the version of the book"
    }
}

named! {
    /// Words of block 0 of a book.
    book: usize {
        VERSION = 1 "1; 2 with molar masses; 3 with running sums too"
        SOLVENTS = 2 "n, 1 to 8"
        MODEL = 3 "By which equation the activity coefficients come about"
    }
}

named! {
    /// Words of a solvent: vapor pressure and liquid density.
    solvent: usize {
        INDEX = 1 "0 for the first solvent"
        CAS = 2 "CAS number without hyphens"
        VAPOR_T_R = 3 "Reducing temperature, K"
        VAPOR_REDUCING = 4 "Reducing pressure, Pa"
        VAPOR_LOW = 5 "Lowest temperature, K"
        VAPOR_HIGH = 6 "Highest temperature, K"
        VAPOR_TERMS = 7 "How many terms"
        VAPOR_N = 8 "Eight coefficients"
        VAPOR_EXPONENT = 16 "Eight exponents"
        DENSITY_T_R = 24 "Reducing temperature, K"
        DENSITY_REDUCING = 25 "Reducing density"
        DENSITY_LOW = 26 "Lowest temperature, K"
        DENSITY_HIGH = 27 "Highest temperature, K"
        DENSITY_TERMS = 28 "How many terms"
        DENSITY_N = 29 "Eight coefficients"
        DENSITY_EXPONENT = 37 "Eight exponents"
        MOLAR_MASS = 45 "kg/mol, in a book of version 2"
    }
}

named! {
    /// Models, word 3 of block 0.
    model: u64 {
        NRTL = 0 "NRTL"
        WILSON = 1 "Wilson, in a book of version 2 or 3"
    }
}

named! {
    /// Words of a pair.
    pair: usize {
        I = 1 "Index of the first solvent"
        J = 2 "Index of the second"
        TAU_IJ = 3 "Four terms of τ_ij"
        TAU_JI = 7 "Four terms of τ_ji"
        ALPHA_IJ = 11 "Two terms of α"
        ALPHA_JI = 13 "The same once more"
        INTERVAL = 15 "Whether there is a regression interval"
        LOW = 16 "Its lowest temperature, K"
        HIGH = 17 "Its highest temperature, K"
        INFERRED = 18 "Whether its bounds were inferred"
    }
}

named! {
    /// Words of a pair of a Wilson book, in place of τ and α.
    wilson: usize {
        A_IJ = 3 "a of Λ_ij = exp(a + b/T)"
        B_IJ = 4 "Its b, K"
        A_JI = 5 "a of Λ_ji"
        B_JI = 6 "Its b, K"
    }
}

named! {
    /// Words of a question.
    question: usize {
        TASK = 1 "What is asked"
        TEMPERATURE = 2 "K"
        PRESSURE = 3 "Pa"
        FRACTIONS = 4 "Eight mole or mass fractions"
        MAX_ITERATIONS = 12 "Limit of a dew point, a trial, a flash or a split"
        TOLERANCE = 13 "Of the solvers"
        MAX_TEMPERATURE_ITERATIONS = 14 "Limit of a bubble or dew temperature"
        ENERGY_TOLERANCE = 15 "Tested, and used by no task"
        TM_THRESHOLD = 16 "Of the trials"
        LOW = 17 "Of the temperature bracket, K"
        HIGH = 18 "Of the temperature bracket, K"
        K_VALUES = 19 "Eight K values"
        FEED = 27 "What the fractions are of"
    }
}

named! {
    /// What the fractions of a question are of.
    feed: u64 {
        MOLES = 0 "Mole fractions"
        MASS = 1 "Mass fractions, with a book of version 2"
    }
}

named! {
    /// Words of an answer.
    answer: usize {
        TASK = 1 "What was asked"
        REFUSAL = 2 "0, but in what the program `still` writes for a refusal"
        OUTCOME = 3 "Which phases there are"
        TEMPERATURE = 4 "K"
        PRESSURE = 5 "Pa"
        BUBBLE = 6 "Bubble pressure of the feed, Pa"
        DEW = 7 "Dew pressure of the feed, Pa"
        ITERATIONS = 8 "How many it took"
        RESIDUAL = 9 "Of the solution"
        BALANCE = 10 "Of the feed"
        VAPOR_FRACTION = 11 "Moles of vapor per mole of feed"
        TRIALS = 12 "How many trial blocks follow"
        NOTES = 13 "Bits of a flash"
        LIQUID = 14 "Eight mole fractions"
        LN_GAMMA = 14 "Eight ln γ of task 1"
        VAPOR = 22 "Eight mole fractions"
        SLOPES = 22 "Eight d ln γ/dT of task 1, 1/K"
        REDUCED_GIBBS = 30 "g^E/(R T)"
        GIBBS = 31 "J/mol"
        ENTHALPY = 32 "J/mol"
        ENTROPY = 33 "J/(mol K)"
        HEAT_CAPACITY = 34 "J/(mol K)"
        VALIDITY = 35 "The temperature against the regression intervals"
        INFERRED = 36 "Whether one of these was inferred"
        STABLE = 37 "Whether the liquid passed its trials"
        EVALUATIONS = 38 "Activity evaluations that a flash began"
    }
}

named! {
    /// Words of a [`Floor`](crate::Floor): words 1 to 5, 11 and 14 to 29 of an answer, all behind the pressure 0 in task 1.
    floor: usize {
        TASK = 0 "The task that was asked"
        REFUSAL = 1 "0, or the number of a refusal"
        OUTCOME = 2 "Which phases there are, in tasks 7 to 9"
        TEMPERATURE = 3 "T asked or found, K"
        PRESSURE = 4 "p asked or found, Pa"
        VAPOR_FRACTION = 5 "Moles of vapor per mole of feed"
        LIQUID = 6 "Eight mole fractions of the liquid"
        VAPOR = 14 "Eight mole fractions of the vapor"
    }
}

named! {
    /// Words of a trial.
    trial: usize {
        COMPONENT = 1 "The solvent's index"
        DISTANCE = 2 "Tangent-plane distance"
        ITERATIONS = 3 "How many it took"
        TRIVIAL = 4 "Whether it ended at the liquid under test"
        FRACTIONS = 5 "Eight mole fractions"
    }
}

named! {
    /// Words of a [`Distance`](crate::Distance).
    distance: usize {
        FOUND = 0 "1, or 0 where no step has another outcome"
        STEPS = 1 "s, in two's complement"
        OUTCOME = 2 "Which phases there are at the step"
        REFUSED = 3 "Steps before it that are refused, or of all"
    }
}

named! {
    /// Words of a [`Place`](crate::Place).
    place: usize {
        KIND = 0 "What it is"
        BLOCK = 1 "Which block of the book, from 0 on"
        I = 1 "The first solvent of two, from 0 on"
        J = 2 "The second solvent"
    }
}

named! {
    /// Kinds of a [`Place`](crate::Place).
    place_kind: u64 {
        NOWHERE = 0 "No place"
        BLOCK = 1 "A block of the book"
        PAIR = 2 "Two solvents"
        OFFERED = 3 "The block that a preview was offered"
    }
}

named! {
    /// Kinds of blocks.
    kind: u64 {
        BOOK = 1 "Block 0 of a book"
        SOLVENT = 2 "A solvent"
        PAIR = 3 "A pair"
        QUESTION = 8 "A question"
        ANSWER = 9 "An answer"
        TRIAL = 10 "A trial"
    }
}

named! {
    /// Tasks.
    task: u64 {
        EXCESS_AT = 1 "Activity coefficients and excess properties"
        BUBBLE_PRESSURE = 2 "Where a liquid begins to boil"
        DEW_PRESSURE = 3 "Where a vapor begins to condense"
        BUBBLE_TEMPERATURE = 4 "Where a liquid begins to boil"
        DEW_TEMPERATURE = 5 "Where a vapor begins to condense"
        LIQUID_STABILITY = 6 "Trials of a liquid"
        TP_FLASH = 7 "Phases at a temperature and a pressure"
        RACHFORD_RICE = 8 "Split for given K values"
        RACHFORD_RICE_NEGATIVE = 9 "The same with any vapor fraction"
    }
}

named! {
    /// Outcomes of tasks 7 to 9.
    outcome: u64 {
        LIQUID = 1 "All liquid"
        VAPOR = 2 "All vapor"
        LIQUID_AND_VAPOR = 3 "Both"
        PUT_OFF = 4 "A question of a queue that wasn't run"
    }
}

named! {
    /// Notes of a flash, each the value of its bit.
    note: u64 {
        GAMMA_PHI = 1 "A7-GAMMA-PHI"
        SPLIT_AT_SATURATION_BOUNDARY = 2 "A7-SPLIT-AT-SATURATION-BOUNDARY"
        LIQUID_TPD_FINITE_TRIALS = 4 "A7-LIQUID-TPD-FINITE-TRIALS"
    }
}

named! {
    /// Validity of task 1.
    validity: u64 {
        UNASSESSED = 0 "Outside no interval, but a pair has none"
        WITHIN = 1 "Within the interval of every pair"
        EXTRAPOLATED = 2 "Outside the interval of a pair"
    }
}

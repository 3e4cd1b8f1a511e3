//! Why a call, a feed or a queued question is refused: one of the core's numbers, 1 to 39, or what this crate refuses
//! before it; and where the book said no.

use std::fmt;

use crate::call::sentence_bytes;
use crate::Place;

/// Bytes that are enough for every sentence.
pub const SENTENCE_ROOM: usize = 160;

macro_rules! reasons {
    ($($number:literal $name:ident $text:literal)*) => {
        /// Why there is no answer: the first question put to the call that was answered no.
        #[derive(Debug, Clone, Copy, PartialEq, Eq, Hash, PartialOrd, Ord)]
        #[non_exhaustive]
        pub enum Reason {
            $(
                #[doc = concat!($number, ": ", $text, ".")]
                $name,
            )*
            /// This crate's own, found before the call: the feed hasn't an entry for each solvent of the book.
            FeedLength {
                /// Of the feed.
                entries: usize,
                /// Of the book.
                solvents: usize,
            },
            /// This crate's own, found before the call: there isn't a K value for each solvent of the book.
            KLength {
                /// K values.
                entries: usize,
                /// Of the book.
                solvents: usize,
            },
            /// This crate's own, found before the call: of many feeds some are of moles and some of mass.
            FeedsMixed,
        }

        impl Reason {
            /// The core's, in order.
            pub const ALL: [Self; 39] = [$(Self::$name),*];

            /// The core's number, 1 to 39; none of what this crate refuses before the call.
            #[must_use]
            pub fn number(self) -> Option<u64> {
                match self {
                    $(Self::$name => Some($number),)*
                    Self::FeedLength { .. } | Self::KLength { .. } | Self::FeedsMixed => None,
                }
            }

            /// The reason of a number of the core.
            ///
            /// ```
            /// use zektonk::Reason;
            ///
            /// assert_eq!(Reason::from_number(18), Some(Reason::FractionSum));
            /// assert_eq!(Reason::FractionSum.number(), Some(18));
            /// assert_eq!((Reason::from_number(0), Reason::from_number(40)), (None, None));
            /// ```
            #[must_use]
            pub fn from_number(number: u64) -> Option<Self> {
                match number {
                    $($number => Some(Self::$name),)*
                    _ => None,
                }
            }
        }

        /// What the page of the reasons says of each.
        #[cfg(test)]
        const DOCUMENTED: [&str; 39] = [$(concat!($number, ": ", $text, ".")),*];
    };
}

reasons! {
    1 BookLength "there are no whole blocks of 512 bytes where a book, one offered block or an answer is due"
    2 BookCheck "a check word is wrong: words were changed or, in a book of version 3, exchanged"
    3 BookHead "the head of the book is wrong: kind 1, 1 to 8 solvents, and as many blocks as these need"
    4 SolventBlock "a solvent's kind, place, CAS number or count of terms is wrong"
    5 SolventNumber "a solvent's correlation is not finite, not 0 < low <= high < t_r, or has a reducing value not above 0"
    6 SolventTwice "two solvents of the book have one CAS number"
    7 PairBlock "a pair's kind, its two places or a flag is wrong"
    8 PairNumber "a pair has a number that is not finite"
    9 PairAlphas "a pair's two alphas are not equal"
    10 AnswerShort "too little room is lent: 4,608 bytes for each answer, 22 words for the floor, 160 bytes for a sentence"
    11 QuestionBlock "the question is not one block of 512 bytes with kind 8 and the right check word"
    12 Task "the task is not one that this call answers"
    13 Temperature "the temperature is not finite and positive"
    14 Pressure "the pressure is not finite and positive"
    15 NotFinite "a fraction or a K value is not finite"
    16 FractionNegative "a fraction is negative"
    17 KNotPositive "a K value is not positive"
    18 FractionSum "the fractions don't sum to 1 within 1e-10"
    19 Options "a tolerance, the trial threshold or the temperature bracket is out of its range"
    20 LimitZero "an iteration limit is 0"
    21 LimitHigh "an iteration limit is above 1,000,000"
    22 TemperatureOutside "a temperature lies outside 273.16 to 450 K or the range of a solvent of the book, in the drum or not"
    23 PressureOutside "a pressure, given or found, lies outside 100 to 500,000 Pa"
    24 AlphaNotPositive "an NRTL alpha is not positive at this temperature"
    25 ResultNotFinite "a result is not finite, or not positive where it must be"
    26 NotBracketed "the bracket holds no root: the point lies outside it"
    27 NotConverged "not converged within the iteration limit, or the bracket collapsed"
    28 KOneSided "the K values of the solvents present lie on one side of 1"
    29 LiquidUnstable "the liquid didn't pass its trials: it splits in two liquids, which this core doesn't calculate"
    30 VaporFractionOutside "the split's vapor fraction lies outside (0, 1)"
    31 DrumsLength "there are not 1 to 64 whole drums to pool"
    32 DrumsTotal "the drums hold nothing at all, or more than 2^53 micromoles"
    33 FeedsLength "there are not 1 to 64 whole feeds in one call"
    34 NotNormalizable "a composition inside the calculation, or a drum by mass, can't be brought to fractions that sum to 1"
    35 MolarMass "a solvent's molar mass is not finite and positive"
    36 FeedKind "the fractions are by neither moles nor mass, or by mass with no molar masses in the book or with drums pooled"
    37 BookModel "the book's model is neither NRTL nor, from version 2 on, Wilson"
    38 BookVersion "the book's version is none of 1 to 3"
    39 QueueQuestions "there are not 1 to 64 whole questions in the queue, or one of them is not a flash"
}

impl Reason {
    /// A refusal for this reason, said of a place.
    #[must_use]
    pub fn at(self, place: Place) -> Refusal {
        Refusal { reason: self, place }
    }
}

impl fmt::Display for Reason {
    /// The core's sentence, or of what this crate refuses one of its own.
    fn fmt(&self, f: &mut fmt::Formatter<'_>) -> fmt::Result {
        Refusal::from(*self).fmt(f)
    }
}

/// Why a call gives no answer, and where the book said no. It is printed as the core's sentence:
///
/// ```
/// use zektonk::{answer_bytes, Place, Reason, Refusal, ANSWER_ROOM};
///
/// let mut book = *include_bytes!("../../../crates/still/data/book.bin");
/// let question = include_bytes!("../../../crates/still/stdin");
/// book[3 * 512 + 8] ^= 1;
/// let refusal = answer_bytes(&book, question, &mut [0; ANSWER_ROOM]).unwrap_err();
/// assert_eq!(refusal, Reason::BookCheck.at(Place::Block(3)));
/// assert_eq!(
///     refusal.to_string(),
///     "2: a check word is wrong: words were changed or, in a book of version 3, exchanged (block 3)."
/// );
/// // Without a place.
/// assert_eq!(Refusal::from(Reason::Task).to_string(), "12: the task is not one that this call answers.");
/// ```
#[derive(Debug, Clone, Copy, PartialEq, Eq, Hash, PartialOrd, Ord)]
#[non_exhaustive]
pub struct Refusal {
    /// The first question that was answered no.
    pub reason: Reason,
    /// Where; [`Place::Nowhere`] where a reason names no place, and in what was read from an answer's blocks.
    pub place: Place,
}

impl Refusal {
    /// The core's number, 1 to 39; none of what this crate refuses before the call.
    #[must_use]
    pub fn number(self) -> Option<u64> {
        self.reason.number()
    }
}

impl From<Reason> for Refusal {
    /// With no place.
    fn from(reason: Reason) -> Self {
        reason.at(Place::Nowhere)
    }
}

impl fmt::Display for Refusal {
    /// The core's sentence, or of what this crate refuses one of its own.
    fn fmt(&self, f: &mut fmt::Formatter<'_>) -> fmt::Result {
        match self.reason {
            Reason::FeedLength { entries, solvents } => {
                write!(f, "not asked: the feed has {entries} entries, the book {solvents} solvents")
            }
            Reason::KLength { entries, solvents } => {
                write!(f, "not asked: there are {entries} K values, the book has {solvents} solvents")
            }
            Reason::FeedsMixed => f.write_str("not asked: some feeds are of moles and some of mass"),
            reason => {
                let mut text = [0; SENTENCE_ROOM];
                let number = reason.number().expect("the core's reasons have numbers");
                let length =
                    sentence_bytes(number, self.place, &mut text).expect("the core's own number, and the room");
                f.write_str(std::str::from_utf8(&text[..length]).expect("the core writes ASCII"))
            }
        }
    }
}

impl std::error::Error for Refusal {}

#[cfg(test)]
mod tests {
    use super::*;

    #[test]
    fn numbers_are_1_to_39() {
        for (number, reason) in (1..=39).zip(Reason::ALL) {
            assert_eq!((reason.number(), Refusal::from(reason).number()), (Some(number), Some(number)));
            assert_eq!(Reason::from_number(number), Some(reason));
        }
        assert!([0, 40, u64::MAX].iter().all(|number| Reason::from_number(*number).is_none()));
    }

    /// The pages of the reasons say what the core says.
    #[test]
    fn documents_are_the_core_s_sentences() {
        assert_eq!(Reason::ALL.map(|reason| reason.to_string()), DOCUMENTED);
    }

    #[test]
    fn each_place_is_in_its_sentence() {
        let said = |place| Reason::PairBlock.at(place).to_string();
        let matter = "7: a pair's kind, its two places or a flag is wrong";
        assert_eq!(said(Place::Nowhere), format!("{matter}."));
        assert_eq!(said(Place::Block(36)), format!("{matter} (block 36)."));
        assert_eq!(said(Place::Block(usize::MAX)), format!("{matter} (block 18446744073709551615)."));
        assert_eq!(said(Place::Offered), format!("{matter} (the offered block)."));
        // One that the number can't have.
        assert_eq!(said(Place::Pair(0, 3)), format!("{matter}."));
        let twice = Reason::SolventTwice.at(Place::Pair(0, 3)).to_string();
        assert_eq!(twice, "6: two solvents of the book have one CAS number (solvents 0 and 3).");
    }

    #[test]
    fn what_the_crate_refuses_has_no_number() {
        let reason = Reason::FeedLength { entries: 3, solvents: 2 };
        assert_eq!(Refusal::from(reason).number(), None);
        assert_eq!(reason.to_string(), "not asked: the feed has 3 entries, the book 2 solvents");
        assert_eq!(Reason::FeedsMixed.number(), None);
        assert!(!Reason::ALL.contains(&reason) && !Reason::ALL.contains(&Reason::FeedsMixed));
    }
}

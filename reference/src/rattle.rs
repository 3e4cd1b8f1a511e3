//! The core's functions, each behind its stage's feature; `None` where the stage is not built in.
//!
//! A slice passes as its pointer and its length in elements.

#[allow(dead_code)]
extern "C" {
    fn zektonk_exp(v: f64) -> f64;
    fn zektonk_ln(v: f64) -> f64;
    fn zektonk_powf(b: f64, e: f64) -> f64;
    fn zektonk_max(a: f64, b: f64) -> f64;
    fn zektonk_min(a: f64, b: f64) -> f64;
    fn zektonk_abs(v: f64) -> f64;
    fn zektonk_is_finite(v: f64) -> bool;
    fn zektonk_bits_of(v: f64) -> u64;
    fn zektonk_float_of(bits: u64) -> f64;
    fn zektonk_fractions(x: *const f64, x_len: usize, n: usize) -> u64;
    fn zektonk_normalize(x: *mut f64, x_len: usize, n: usize) -> u64;
    fn zektonk_open_book(book: *const u8, book_len: usize) -> u64;
    fn zektonk_vapor_pressure(book: *const u8, book_len: usize, i: usize, t: f64, out: *mut f64, out_len: usize)
        -> u64;
    fn zektonk_excess(
        book: *const u8,
        book_len: usize,
        t: f64,
        x: *const f64,
        x_len: usize,
        out: *mut f64,
        out_len: usize,
    ) -> u64;
    fn zektonk_repeat_activity(
        book: *const u8,
        book_len: usize,
        n: usize,
        t: f64,
        x: *const f64,
        x_len: usize,
        count: u64,
    ) -> u64;
    fn zektonk_rachford_rice(
        z: *const f64,
        z_len: usize,
        k: *const f64,
        k_len: usize,
        n: usize,
        max_iterations: u64,
        out: *mut f64,
        out_len: usize,
    ) -> u64;
    fn zektonk_rachford_rice_negative(
        z: *const f64,
        z_len: usize,
        k: *const f64,
        k_len: usize,
        n: usize,
        max_iterations: u64,
        out: *mut f64,
        out_len: usize,
    ) -> u64;
    /// The desk's call, for who passes other pointers than a slice's.
    pub fn zektonk_answer(
        book: *const u8,
        book_len: usize,
        question: *const u8,
        question_len: usize,
        answer: *mut u8,
        answer_len: usize,
    ) -> u64;
    /// The same with drums.
    pub fn zektonk_pooled(
        book: *const u8,
        book_len: usize,
        question: *const u8,
        question_len: usize,
        drums: *const u8,
        drums_len: usize,
        answer: *mut u8,
        answer_len: usize,
    ) -> u64;
    /// The same for many feeds.
    pub fn zektonk_feeds(
        book: *const u8,
        book_len: usize,
        question: *const u8,
        question_len: usize,
        feeds: *const u8,
        feeds_len: usize,
        answers: *mut u8,
        answers_len: usize,
    ) -> u64;
    /// The same with an offered pair.
    pub fn zektonk_preview(
        book: *const u8,
        book_len: usize,
        offered: *const u8,
        offered_len: usize,
        question: *const u8,
        question_len: usize,
        answer: *mut u8,
        answer_len: usize,
    ) -> u64;
    /// Many flash questions under one allowance of evaluations.
    pub fn zektonk_queue(
        book: *const u8,
        book_len: usize,
        questions: *const u8,
        questions_len: usize,
        allowance: u64,
        answers: *mut u8,
        answers_len: usize,
    ) -> u64;
    /// From a flash's pressure to the next phase change; the last length counts words.
    pub fn zektonk_distance(
        book: *const u8,
        book_len: usize,
        question: *const u8,
        question_len: usize,
        result: *mut u64,
        result_len: usize,
    ) -> u64;

    /// The readers of an answer slice; `words_len` counts words.
    pub fn zektonk_floor(answer: *const u8, answer_len: usize, words: *mut u64, words_len: usize) -> u64;
    pub fn zektonk_lab(answer: *const u8, answer_len: usize) -> usize;

    /// The calls above with the place beside the number; `place_len` counts words.
    pub fn zektonk_answer_placed(
        book: *const u8,
        book_len: usize,
        question: *const u8,
        question_len: usize,
        answer: *mut u8,
        answer_len: usize,
        place: *mut u64,
        place_len: usize,
    ) -> u64;
    pub fn zektonk_pooled_placed(
        book: *const u8,
        book_len: usize,
        question: *const u8,
        question_len: usize,
        drums: *const u8,
        drums_len: usize,
        answer: *mut u8,
        answer_len: usize,
        place: *mut u64,
        place_len: usize,
    ) -> u64;
    pub fn zektonk_feeds_placed(
        book: *const u8,
        book_len: usize,
        question: *const u8,
        question_len: usize,
        feeds: *const u8,
        feeds_len: usize,
        answer: *mut u8,
        answer_len: usize,
        place: *mut u64,
        place_len: usize,
    ) -> u64;
    pub fn zektonk_preview_placed(
        book: *const u8,
        book_len: usize,
        offered: *const u8,
        offered_len: usize,
        question: *const u8,
        question_len: usize,
        answer: *mut u8,
        answer_len: usize,
        place: *mut u64,
        place_len: usize,
    ) -> u64;
    pub fn zektonk_queue_placed(
        book: *const u8,
        book_len: usize,
        questions: *const u8,
        questions_len: usize,
        allowance: u64,
        answers: *mut u8,
        answers_len: usize,
        place: *mut u64,
        place_len: usize,
    ) -> u64;
    pub fn zektonk_distance_placed(
        book: *const u8,
        book_len: usize,
        question: *const u8,
        question_len: usize,
        result: *mut u64,
        result_len: usize,
        place: *mut u64,
        place_len: usize,
    ) -> u64;

    /// A refusal in words; `length` is one word.
    pub fn zektonk_sentence(
        number: u64,
        place: *const u64,
        place_len: usize,
        text: *mut u8,
        text_len: usize,
        length: *mut u64,
    ) -> u64;
}

/// `Some` of the call where its stage is built in.
macro_rules! offered {
    ($feature:literal, $symbol:ident($($arg:expr),*)) => {{
        #[cfg(feature = $feature)]
        // SAFETY: the pointers and lengths are those of slices that live through the call.
        let found = Some(unsafe { $symbol($($arg),*) });
        #[cfg(not(feature = $feature))]
        let found = {
            let _ = ($($arg,)*);
            None
        };
        found
    }};
}

pub fn exp(v: f64) -> Option<f64> {
    offered!("numbers", zektonk_exp(v))
}

pub fn ln(v: f64) -> Option<f64> {
    offered!("numbers", zektonk_ln(v))
}

pub fn powf(b: f64, e: f64) -> Option<f64> {
    offered!("numbers", zektonk_powf(b, e))
}

pub fn max(a: f64, b: f64) -> Option<f64> {
    offered!("numbers", zektonk_max(a, b))
}

pub fn min(a: f64, b: f64) -> Option<f64> {
    offered!("numbers", zektonk_min(a, b))
}

pub fn abs(v: f64) -> Option<f64> {
    offered!("numbers", zektonk_abs(v))
}

pub fn is_finite(v: f64) -> Option<bool> {
    offered!("numbers", zektonk_is_finite(v))
}

pub fn bits_of(v: f64) -> Option<u64> {
    offered!("numbers", zektonk_bits_of(v))
}

pub fn float_of(bits: u64) -> Option<f64> {
    offered!("numbers", zektonk_float_of(bits))
}

pub fn fractions(x: &[f64; 8], n: usize) -> Option<u64> {
    offered!("fractions", zektonk_fractions(x.as_ptr(), x.len(), n))
}

pub fn normalize(x: &mut [f64; 8], n: usize) -> Option<u64> {
    offered!("fractions", zektonk_normalize(x.as_mut_ptr(), x.len(), n))
}

pub fn open_book(book: &[u8]) -> Option<u64> {
    offered!("book", zektonk_open_book(book.as_ptr(), book.len()))
}

/// Pressure (Pa), ln p, first and second derivative in `out`.
pub fn vapor_pressure(book: &[u8], i: usize, t: f64, out: &mut [f64; 4]) -> Option<u64> {
    offered!("pressure", zektonk_vapor_pressure(book.as_ptr(), book.len(), i, t, out.as_mut_ptr(), out.len()))
}

/// ln γ, slopes, five energies, validity and inferred in `out`.
pub fn excess(book: &[u8], t: f64, x: &[f64; 8], out: &mut [f64; 23]) -> Option<u64> {
    offered!("excess", zektonk_excess(book.as_ptr(), book.len(), t, x.as_ptr(), x.len(), out.as_mut_ptr(), out.len()))
}

/// The tables of a book's model at `t`, then the activity of `x` from them, `count` times.
pub fn repeat_activity(book: &[u8], n: usize, t: f64, x: &[f64; 8], count: u64) -> Option<u64> {
    offered!("excess", zektonk_repeat_activity(book.as_ptr(), book.len(), n, t, x.as_ptr(), x.len(), count))
}

/// Vapor fraction, residual, iterations, liquid and vapor in `out`.
pub fn rachford_rice(z: &[f64; 8], k: &[f64; 8], n: usize, limit: u64, out: &mut [f64; 19]) -> Option<u64> {
    offered!(
        "rice",
        zektonk_rachford_rice(z.as_ptr(), z.len(), k.as_ptr(), k.len(), n, limit, out.as_mut_ptr(), out.len())
    )
}

pub fn rachford_rice_negative(z: &[f64; 8], k: &[f64; 8], n: usize, limit: u64, out: &mut [f64; 19]) -> Option<u64> {
    offered!(
        "rice",
        zektonk_rachford_rice_negative(z.as_ptr(), z.len(), k.as_ptr(), k.len(), n, limit, out.as_mut_ptr(), out.len())
    )
}

pub fn answer(book: &[u8], question: &[u8], answer: &mut [u8]) -> Option<u64> {
    offered!(
        "sheet",
        zektonk_answer(book.as_ptr(), book.len(), question.as_ptr(), question.len(), answer.as_mut_ptr(), answer.len())
    )
}

/// A call of three slices that are read and one that is written.
macro_rules! with_one_more {
    ($feature:literal, $symbol:ident($first:ident, $second:ident, $third:ident, $answer:ident)) => {
        offered!(
            $feature,
            $symbol(
                $first.as_ptr(),
                $first.len(),
                $second.as_ptr(),
                $second.len(),
                $third.as_ptr(),
                $third.len(),
                $answer.as_mut_ptr(),
                $answer.len()
            )
        )
    };
}

pub fn pooled(book: &[u8], question: &[u8], drums: &[u8], answer: &mut [u8]) -> Option<u64> {
    with_one_more!("pooled", zektonk_pooled(book, question, drums, answer))
}

pub fn feeds(book: &[u8], question: &[u8], feeds: &[u8], answers: &mut [u8]) -> Option<u64> {
    with_one_more!("feeds", zektonk_feeds(book, question, feeds, answers))
}

pub fn preview(book: &[u8], offered: &[u8], question: &[u8], answer: &mut [u8]) -> Option<u64> {
    with_one_more!("preview", zektonk_preview(book, offered, question, answer))
}

pub fn queue(book: &[u8], questions: &[u8], allowance: u64, answers: &mut [u8]) -> Option<u64> {
    offered!(
        "queue",
        zektonk_queue(
            book.as_ptr(),
            book.len(),
            questions.as_ptr(),
            questions.len(),
            allowance,
            answers.as_mut_ptr(),
            answers.len()
        )
    )
}

/// The words of what was found in `result`.
pub fn distance(book: &[u8], question: &[u8], result: &mut [u64]) -> Option<u64> {
    offered!(
        "distance",
        zektonk_distance(
            book.as_ptr(),
            book.len(),
            question.as_ptr(),
            question.len(),
            result.as_mut_ptr(),
            result.len()
        )
    )
}

/// The number, and the floor's words in `words`.
pub fn floor(answer: &[u8], words: &mut [u64]) -> Option<u64> {
    offered!("readers", zektonk_floor(answer.as_ptr(), answer.len(), words.as_mut_ptr(), words.len()))
}

/// Bytes of the lab's part, 0 for none.
pub fn lab(answer: &[u8]) -> Option<usize> {
    offered!("readers", zektonk_lab(answer.as_ptr(), answer.len()))
}

/// The number, and the place in `place`.
pub fn answer_placed(book: &[u8], question: &[u8], answer: &mut [u8], place: &mut [u64]) -> Option<u64> {
    offered!(
        "place",
        zektonk_answer_placed(
            book.as_ptr(),
            book.len(),
            question.as_ptr(),
            question.len(),
            answer.as_mut_ptr(),
            answer.len(),
            place.as_mut_ptr(),
            place.len()
        )
    )
}

/// As `with_one_more`, and the place.
macro_rules! placed_with_one_more {
    ($symbol:ident($first:ident, $second:ident, $third:ident, $answer:ident, $place:ident)) => {
        offered!(
            "place",
            $symbol(
                $first.as_ptr(),
                $first.len(),
                $second.as_ptr(),
                $second.len(),
                $third.as_ptr(),
                $third.len(),
                $answer.as_mut_ptr(),
                $answer.len(),
                $place.as_mut_ptr(),
                $place.len()
            )
        )
    };
}

pub fn pooled_placed(book: &[u8], question: &[u8], drums: &[u8], answer: &mut [u8], place: &mut [u64]) -> Option<u64> {
    placed_with_one_more!(zektonk_pooled_placed(book, question, drums, answer, place))
}

pub fn feeds_placed(book: &[u8], question: &[u8], feeds: &[u8], answers: &mut [u8], place: &mut [u64]) -> Option<u64> {
    placed_with_one_more!(zektonk_feeds_placed(book, question, feeds, answers, place))
}

pub fn preview_placed(
    book: &[u8],
    offered: &[u8],
    question: &[u8],
    answer: &mut [u8],
    place: &mut [u64],
) -> Option<u64> {
    placed_with_one_more!(zektonk_preview_placed(book, offered, question, answer, place))
}

pub fn queue_placed(
    book: &[u8],
    questions: &[u8],
    allowance: u64,
    answers: &mut [u8],
    place: &mut [u64],
) -> Option<u64> {
    offered!(
        "place",
        zektonk_queue_placed(
            book.as_ptr(),
            book.len(),
            questions.as_ptr(),
            questions.len(),
            allowance,
            answers.as_mut_ptr(),
            answers.len(),
            place.as_mut_ptr(),
            place.len()
        )
    )
}

pub fn distance_placed(book: &[u8], question: &[u8], result: &mut [u64], place: &mut [u64]) -> Option<u64> {
    offered!(
        "place",
        zektonk_distance_placed(
            book.as_ptr(),
            book.len(),
            question.as_ptr(),
            question.len(),
            result.as_mut_ptr(),
            result.len(),
            place.as_mut_ptr(),
            place.len()
        )
    )
}

/// The number; the sentence at the front of `text` and how many bytes it has in `length`.
pub fn sentence(number: u64, place: &[u64], text: &mut [u8], length: &mut u64) -> Option<u64> {
    offered!(
        "sentence",
        zektonk_sentence(
            number,
            place.as_ptr(),
            place.len(),
            text.as_mut_ptr(),
            text.len(),
            std::ptr::from_mut(length)
        )
    )
}

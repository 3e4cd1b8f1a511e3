//! The six calls of the core, its two readers, and a refusal in words.

use crate::{Distance, Place, Reason, Refusal, DISTANCE_WORDS, PLACE_WORDS};

extern "C" {
    fn zektonk_answer_placed(
        book: *const u8,
        book_len: usize,
        question: *const u8,
        question_len: usize,
        answer: *mut u8,
        answer_len: usize,
        place: *mut u64,
        place_len: usize,
    ) -> u64;

    fn zektonk_pooled_placed(
        book: *const u8,
        book_len: usize,
        question: *const u8,
        question_len: usize,
        drums: *const u8,
        drums_len: usize,
        answer: *mut u8,
        answer_len: usize,
        place: *mut u64,
        place_len: usize,
    ) -> u64;

    fn zektonk_feeds_placed(
        book: *const u8,
        book_len: usize,
        question: *const u8,
        question_len: usize,
        feeds: *const u8,
        feeds_len: usize,
        answers: *mut u8,
        answers_len: usize,
        place: *mut u64,
        place_len: usize,
    ) -> u64;

    fn zektonk_preview_placed(
        book: *const u8,
        book_len: usize,
        offered: *const u8,
        offered_len: usize,
        question: *const u8,
        question_len: usize,
        answer: *mut u8,
        answer_len: usize,
        place: *mut u64,
        place_len: usize,
    ) -> u64;

    fn zektonk_queue_placed(
        book: *const u8,
        book_len: usize,
        questions: *const u8,
        questions_len: usize,
        allowance: u64,
        answers: *mut u8,
        answers_len: usize,
        place: *mut u64,
        place_len: usize,
    ) -> u64;

    fn zektonk_distance_placed(
        book: *const u8,
        book_len: usize,
        question: *const u8,
        question_len: usize,
        result: *mut u64,
        result_len: usize,
        place: *mut u64,
        place_len: usize,
    ) -> u64;

    fn zektonk_floor(answer: *const u8, answer_len: usize, words: *mut u64, words_len: usize) -> u64;

    fn zektonk_lab(answer: *const u8, answer_len: usize) -> usize;

    fn zektonk_sentence(
        number: u64,
        place: *const u64,
        place_len: usize,
        text: *mut u8,
        text_len: usize,
        length: *mut u64,
    ) -> u64;
}

/// Answers `question` from `book`: the answer's block, and as many trial blocks as its word 12 says, at the front of
/// `answer`, whose other bytes stay. With a refusal every byte stays.
///
/// Any slices may be given, empty ones too. `answer` needs [`ANSWER_ROOM`](crate::ANSWER_ROOM) bytes, otherwise the
/// number is 10. The call allocates nothing and keeps nothing, so threads may call at one time.
///
/// # Errors
///
/// The core's number and the place where the book said no, as a [`Refusal`].
///
/// # Rounding
///
/// The core is proved for floats as Rust has them: rounded to nearest, subnormals kept. Foreign code that leaves
/// another rounding or the flush-to-zero bits in the thread's `MXCSR` breaks what Rust takes for granted, and this with
/// it: nothing proved holds of the call, and nothing tells it from a right one. With another rounding its floats differ
/// from about the 13th digit on, and it may refuse what is otherwise answered. Who calls such code puts the default
/// back (0x1f80) before anything else of Rust runs.
///
/// # Panics
///
/// Where the core gives a number that is no refusal, which it is proved not to.
///
/// ```
/// use zektonk::{answer_bytes, Reason, Refusal, ANSWER_ROOM};
///
/// let book = include_bytes!("../../../crates/still/data/book.bin");
/// let question = include_bytes!("../../../crates/still/stdin");
/// let expected = include_bytes!("../../../crates/still/stdout");
/// let mut room = [0xaa; ANSWER_ROOM];
/// answer_bytes(book, question, &mut room)?;
/// assert_eq!(&room[..expected.len()], expected);
/// assert!(room[expected.len()..].iter().all(|byte| *byte == 0xaa));
/// assert_eq!(answer_bytes(book, question, &mut room[1..]), Err(Reason::AnswerShort.into()));
/// # Ok::<(), Refusal>(())
/// ```
pub fn answer_bytes(book: &[u8], question: &[u8], answer: &mut [u8]) -> Result<(), Refusal> {
    let mut place = [0; PLACE_WORDS];
    // SAFETY: each pointer and length are those of a slice that lives through the call, `answer` and `place` are
    // borrowed alone, and the core reads and writes inside the slices only.
    #[allow(unsafe_code)]
    let number = unsafe {
        zektonk_answer_placed(
            book.as_ptr(),
            book.len(),
            question.as_ptr(),
            question.len(),
            answer.as_mut_ptr(),
            answer.len(),
            place.as_mut_ptr(),
            place.len(),
        )
    };
    ended(number, place)
}

/// The same with the pool of drums as the feed. Each is 64 bytes, eight little-endian counts of micromoles, of which as
/// many are read as the book has solvents; words 4 to 11 of the question are not read, and its word 27 says moles. What
/// is said of [`answer_bytes`] holds of this call too.
///
/// Where 11, 12, 31, 32 and 36 pass, it answers, byte for byte, as [`answer_bytes`] does on the question with the pool's
/// mole fractions in words 4 to 11.
///
/// # Errors
///
/// The core's number, as a [`Refusal`]; 31 where there are not 1 to 64 whole drums, 32 where the total of the counts
/// read is 0 or above 2^53.
///
/// # Panics
///
/// Where the core gives a number that is no refusal, which it is proved not to.
///
/// ```
/// use zektonk::{pooled_bytes, Reason, Refusal, ANSWER_ROOM};
///
/// let book = include_bytes!("../../../crates/still/data/book.bin");
/// let question = include_bytes!("../../../crates/still/stdin");
/// let expected = include_bytes!("../../../crates/still/stdout");
/// // 3 and 1, then 1 and 3: as much of both, as the question itself has it.
/// let mut drums = [0; 128];
/// for (at, count) in [(0, 3), (8, 1), (64, 1), (72, 3)] {
///     drums[at] = count;
/// }
/// let mut room = [0; ANSWER_ROOM];
/// pooled_bytes(book, question, &drums, &mut room)?;
/// assert_eq!(&room[..expected.len()], expected);
/// assert_eq!(pooled_bytes(book, question, &drums[1..], &mut room), Err(Reason::DrumsLength.into()));
/// # Ok::<(), Refusal>(())
/// ```
pub fn pooled_bytes(book: &[u8], question: &[u8], drums: &[u8], answer: &mut [u8]) -> Result<(), Refusal> {
    let mut place = [0; PLACE_WORDS];
    // SAFETY: as above.
    #[allow(unsafe_code)]
    let number = unsafe {
        zektonk_pooled_placed(
            book.as_ptr(),
            book.len(),
            question.as_ptr(),
            question.len(),
            drums.as_ptr(),
            drums.len(),
            answer.as_mut_ptr(),
            answer.len(),
            place.as_mut_ptr(),
            place.len(),
        )
    };
    ended(number, place)
}

/// One question put to each of 1 to 64 feeds, for tasks 1, 2, 3, 6 and 7. Each is 64 bytes, eight little-endian floats
/// that stand in place of words 4 to 11 of the question; as many are read as the book has solvents, and word 27 says
/// whether all of them are of moles or of mass. What is said of [`answer_bytes`] holds of this call too.
///
/// Feed k has the bytes of `answers` from [`ANSWER_ROOM`](crate::ANSWER_ROOM) × k on, as many as that: the blocks of its
/// answer, or one block with the number that refuses it, and the bytes behind these as they were.
/// [`Answer::decode_by`](crate::Answer::decode_by) reads either. It is what [`answer_bytes`] says to the question with
/// these fractions; a refused feed doesn't stop the others.
///
/// # Errors
///
/// What ends the whole call, as a [`Refusal`]: the book's numbers, 33 where there are not 1 to 64 whole feeds, 10 where
/// `answers` hasn't [`ANSWER_ROOM`](crate::ANSWER_ROOM) bytes for each. Every byte stays then.
///
/// # Panics
///
/// Where the core gives a number that is no refusal, which it is proved not to.
///
/// ```
/// use zektonk::{feeds_bytes, Answer, Reason, Refusal, ANSWER_ROOM};
///
/// let book = include_bytes!("../../../crates/still/data/book.bin");
/// let question = include_bytes!("../../../crates/still/stdin");
/// let expected = include_bytes!("../../../crates/still/stdout");
/// // 0.5 and 0.5, as the question itself has it; then nothing at all.
/// let mut feeds = [0; 128];
/// feeds[..8].copy_from_slice(&0.5_f64.to_le_bytes());
/// feeds[8..16].copy_from_slice(&0.5_f64.to_le_bytes());
/// let mut room = [0; 2 * ANSWER_ROOM];
/// feeds_bytes(book, question, &feeds, &mut room)?;
/// assert_eq!(&room[..expected.len()], expected);
/// assert_eq!(Answer::decode(&room[ANSWER_ROOM..], 2), Ok(Err(Reason::FractionSum.into())));
/// assert_eq!(feeds_bytes(book, question, &feeds[1..], &mut room), Err(Reason::FeedsLength.into()));
/// assert_eq!(feeds_bytes(book, question, &feeds, &mut room[1..]), Err(Reason::AnswerShort.into()));
/// # Ok::<(), Refusal>(())
/// ```
pub fn feeds_bytes(book: &[u8], question: &[u8], feeds: &[u8], answers: &mut [u8]) -> Result<(), Refusal> {
    let mut place = [0; PLACE_WORDS];
    // SAFETY: as above.
    #[allow(unsafe_code)]
    let number = unsafe {
        zektonk_feeds_placed(
            book.as_ptr(),
            book.len(),
            question.as_ptr(),
            question.len(),
            feeds.as_ptr(),
            feeds.len(),
            answers.as_mut_ptr(),
            answers.len(),
            place.as_mut_ptr(),
            place.len(),
        )
    };
    ended(number, place)
}

/// What [`answer_bytes`] would say of a copy of `book` that holds the block `offered` in place of the pair with the same
/// i and j. No byte of `book` changes. What is said of [`answer_bytes`] holds of this call too.
///
/// # Errors
///
/// The core's number, as a [`Refusal`]. Behind the book's own questions 1, 2, 7, 8 and 9 are put to the offered block:
/// 512 bytes, its check by the book's version, a pair of solvents i < j of the book, finite numbers, equal alphas. Its
/// place says so.
///
/// # Panics
///
/// Where the core gives a number that is no refusal, which it is proved not to.
///
/// ```
/// use zektonk::{answer_bytes, preview_bytes, Place, Reason, Refusal, ANSWER_ROOM};
///
/// let book = include_bytes!("../../../crates/still/data/book.bin");
/// let question = include_bytes!("../../../crates/still/stdin");
/// let expected = include_bytes!("../../../crates/still/stdout");
/// // The book's own pair, its last block, changes nothing.
/// let pair = &book[3 * 512..];
/// let mut room = [0; ANSWER_ROOM];
/// preview_bytes(book, pair, question, &mut room)?;
/// assert_eq!(&room[..expected.len()], expected);
/// assert_eq!(preview_bytes(book, &pair[1..], question, &mut room), Err(Reason::BookLength.at(Place::Offered)));
/// assert_eq!(preview_bytes(book, &book[..512], question, &mut room), Err(Reason::PairBlock.at(Place::Offered)));
/// # Ok::<(), Refusal>(())
/// ```
pub fn preview_bytes(book: &[u8], offered: &[u8], question: &[u8], answer: &mut [u8]) -> Result<(), Refusal> {
    let mut place = [0; PLACE_WORDS];
    // SAFETY: as above.
    #[allow(unsafe_code)]
    let number = unsafe {
        zektonk_preview_placed(
            book.as_ptr(),
            book.len(),
            offered.as_ptr(),
            offered.len(),
            question.as_ptr(),
            question.len(),
            answer.as_mut_ptr(),
            answer.len(),
            place.as_mut_ptr(),
            place.len(),
        )
    };
    ended(number, place)
}

/// 1 to 64 flash questions, 512 bytes each, in order under one allowance of activity evaluations. One whose
/// [`most_evaluations`](crate::most_evaluations) are left is run, and what it really began is taken off, answered or
/// refused; any other is put off, and the next is tried. One that is refused ahead of its first evaluation takes
/// nothing, whatever is left. What is said of [`answer_bytes`] holds of this call too.
///
/// Question k has the bytes of `answers` from [`ANSWER_ROOM`](crate::ANSWER_ROOM) × k on, as many as that: the blocks of
/// its answer, one block with the number that refuses it, or one that says that it is put off, and the bytes behind
/// these as they were. [`Queued::decode_by`](crate::Queued::decode_by) reads each of them.
///
/// # Errors
///
/// What ends the whole call, as a [`Refusal`]: the book's numbers; 39 where there are not 1 to 64 whole questions, or one
/// that passes 11 has another task than 7; 10 where `answers` hasn't [`ANSWER_ROOM`](crate::ANSWER_ROOM) bytes for each.
/// Every byte stays then.
///
/// # Panics
///
/// Where the core gives a number that is no refusal, which it is proved not to.
///
/// ```
/// use zektonk::{queue_bytes, Queued, Reason, Refusal, ANSWER_ROOM};
///
/// let book = include_bytes!("../../../crates/still/data/book.bin");
/// let question = include_bytes!("../../../crates/still/stdin");
/// let expected = include_bytes!("../../../crates/still/stdout");
/// // Each asks for (2 + 2) × 500 + 4, and takes less: with so much the second is put off.
/// let both = [&question[..], question].concat();
/// let mut room = [0; 2 * ANSWER_ROOM];
/// queue_bytes(book, &both, 2004, &mut room)?;
/// assert_eq!(&room[..expected.len()], expected);
/// assert_eq!(Queued::decode(&room[ANSWER_ROOM..], 2), Ok(Queued::PutOff));
/// assert_eq!(queue_bytes(book, &both[1..], 2004, &mut room), Err(Reason::QueueQuestions.into()));
/// assert_eq!(queue_bytes(book, &both, 2004, &mut room[1..]), Err(Reason::AnswerShort.into()));
/// # Ok::<(), Refusal>(())
/// ```
pub fn queue_bytes(book: &[u8], questions: &[u8], allowance: u64, answers: &mut [u8]) -> Result<(), Refusal> {
    let mut place = [0; PLACE_WORDS];
    // SAFETY: as above.
    #[allow(unsafe_code)]
    let number = unsafe {
        zektonk_queue_placed(
            book.as_ptr(),
            book.len(),
            questions.as_ptr(),
            questions.len(),
            allowance,
            answers.as_mut_ptr(),
            answers.len(),
            place.as_mut_ptr(),
            place.len(),
        )
    };
    ended(number, place)
}

/// The [`Distance`] from the pressure of a flash question, task 7, to the first step of 100 Pa with another outcome, by
/// value. What is said of [`answer_bytes`] holds of this call too, but for number 10, which isn't put.
///
/// # Errors
///
/// The core's number, as a [`Refusal`]: the book's, 11, 12 where the task is another, then what refuses the flash at its
/// own pressure.
///
/// # Panics
///
/// Where the core gives a number that is no refusal, which it is proved not to.
///
/// ```
/// use zektonk::{distance_bytes, Distance, Reason, Refusal};
///
/// let book = include_bytes!("../../../crates/still/data/book.bin");
/// let question = include_bytes!("../../../crates/still/stdin");
/// assert_eq!(distance_bytes(book, question)?, Distance::Step { steps: 64, outcome: 1, refused: 0 });
/// assert_eq!(distance_bytes(book, &question[1..]), Err(Reason::QuestionBlock.into()));
/// # Ok::<(), Refusal>(())
/// ```
pub fn distance_bytes(book: &[u8], question: &[u8]) -> Result<Distance, Refusal> {
    let mut words = [0; DISTANCE_WORDS];
    let mut place = [0; PLACE_WORDS];
    // SAFETY: as above.
    #[allow(unsafe_code)]
    let number = unsafe {
        zektonk_distance_placed(
            book.as_ptr(),
            book.len(),
            question.as_ptr(),
            question.len(),
            words.as_mut_ptr(),
            words.len(),
            place.as_mut_ptr(),
            place.len(),
        )
    };
    ended(number, place)?;
    Ok(words.into())
}

/// The words of [`floor`](crate::floor) at the front of `words`, whose other words stay, for who keeps words; with a
/// refusal every word stays.
///
/// # Errors
///
/// [`BookLength`](Reason::BookLength), number 1, where `answer` doesn't begin with an answer's blocks; then
/// [`AnswerShort`](Reason::AnswerShort), number 10, where fewer than [`FLOOR_WORDS`](crate::FLOOR_WORDS) words are lent.
///
/// # Panics
///
/// Where the core gives a number that is no refusal, which it is proved not to.
pub fn floor_words(answer: &[u8], words: &mut [u64]) -> Result<(), Refusal> {
    // SAFETY: as above.
    #[allow(unsafe_code)]
    let number = unsafe { zektonk_floor(answer.as_ptr(), answer.len(), words.as_mut_ptr(), words.len()) };
    ended(number, [0; PLACE_WORDS])
}

/// Bytes of the lab's part; 0 for number 1.
pub(crate) fn lab_length(answer: &[u8]) -> usize {
    // SAFETY: as above; nothing is written.
    #[allow(unsafe_code)]
    unsafe {
        zektonk_lab(answer.as_ptr(), answer.len())
    }
}

/// The sentence of a number of the core, as a [`Refusal`] is printed, at the front of `text`: how many bytes it has. The
/// bytes behind it stay. A place that the number can't have is left out. For who prints without allocating, and for
/// numbers that were stored.
///
/// # Errors
///
/// [`BookLength`](Reason::BookLength), number 1, where `number` is none of 1 to 39; then
/// [`AnswerShort`](Reason::AnswerShort), number 10, where `text` has fewer than [`SENTENCE_ROOM`](crate::SENTENCE_ROOM)
/// bytes. Every byte stays then.
///
/// # Panics
///
/// Where the core gives a number that is no refusal, which it is proved not to.
///
/// ```
/// use zektonk::{sentence_bytes, Place, Reason, SENTENCE_ROOM};
///
/// let mut text = [b'-'; SENTENCE_ROOM];
/// let length = sentence_bytes(9, Place::Block(5), &mut text)?;
/// assert_eq!(&text[..length + 2], b"9: a pair's two alphas are not equal (block 5).--");
/// assert_eq!(sentence_bytes(40, Place::Nowhere, &mut text), Err(Reason::BookLength.into()));
/// assert_eq!(sentence_bytes(9, Place::Nowhere, &mut text[1..]), Err(Reason::AnswerShort.into()));
/// # Ok::<(), zektonk::Refusal>(())
/// ```
pub fn sentence_bytes(number: u64, place: Place, text: &mut [u8]) -> Result<usize, Refusal> {
    let (words, mut length) = (<[u64; PLACE_WORDS]>::from(place), 0);
    // SAFETY: as above; `length` is borrowed alone.
    #[allow(unsafe_code)]
    let number =
        unsafe { zektonk_sentence(number, words.as_ptr(), words.len(), text.as_mut_ptr(), text.len(), &mut length) };
    ended(number, [0; PLACE_WORDS])?;
    Ok(length as usize)
}

fn ended(number: u64, place: [u64; PLACE_WORDS]) -> Result<(), Refusal> {
    match number {
        0 => Ok(()),
        _ => Err(Reason::from_number(number).expect("the core refuses with 1 to 39").at(place.into())),
    }
}

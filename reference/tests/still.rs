//! The program's shipped sample: what crates/still has to write is the reference's answer.

use reference::sheet::{self, ANSWER_BYTES};

#[test]
fn sample_of_the_program() {
    let book = include_bytes!("../../crates/still/data/book.bin");
    let question = include_bytes!("../../crates/still/stdin");
    let expected = include_bytes!("../../crates/still/stdout");
    let mut answer = [0; ANSWER_BYTES];
    assert_eq!(sheet::answer(book, question, &mut answer), 0);
    assert_eq!(&answer[..expected.len()], expected);
    assert!(answer[expected.len()..].iter().all(|byte| *byte == 0));
}

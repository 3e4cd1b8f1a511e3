//! What docs/DIFFERENCES.md says of the inputs that it names.

use reference::generate::differences;
use reference::sheet::{self, ANSWER_BYTES};

#[test]
fn the_page_is_right() {
    for (place, entry) in differences::all().iter().enumerate() {
        let mut answer = [0; ANSWER_BYTES];
        let number = sheet::answer(&entry.book, &entry.ask.bytes(), &mut answer);
        assert_eq!(number, entry.number, "entry {place}");
        assert!(entry.holds(&answer), "entry {place}");
    }
}

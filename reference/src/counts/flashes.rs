//! Activity evaluations that flashes began: word 38 of those accepted, and the reference's count of those refused behind one.

use crate::sheet::anew::{version, word};
use crate::sheet::blocks::BLOCK;
use crate::sheet::feeds::{bytes_of_feeds, with_feed, FEED};
use crate::sheet::pool;
use crate::sheet::question::{BASIS, BY_MOLES, TASK};
use crate::sheet::queue::{most_of, Due, FLASH};
use crate::sheet::reply::{EVALUATIONS, OUTCOME, REFUSAL};
use crate::stage::{padded, parts, Case, Found};
use crate::with::With;

#[derive(Debug, Default)]
pub struct Flashes {
    /// Accepted, by outcome.
    outcomes: [usize; 4],
    refused: usize,
    /// Where the largest part of the most that they may begin was begun.
    accepted_most: Share,
    refused_most: Share,
    /// Accepted without a count, and those that began more than (m + 2) M + 4.
    pub broken: usize,
}

#[derive(Debug, Default, Clone, Copy)]
struct Share {
    begun: u64,
    most: u64,
}

impl Share {
    fn part(self) -> f64 {
        self.begun as f64 / self.most.max(1) as f64
    }

    fn add(&mut self, other: Self) {
        if other.part() > self.part() {
            *self = other;
        }
    }
}

impl Flashes {
    pub fn add(&mut self, case: &Case, found: &Found) {
        let Some((book, question)) = case.sheet() else { return };
        match case {
            Case::With { with: With::Feeds, lent, .. } if found.refusal == 0 => {
                for (feed, part) in lent.chunks(FEED).zip(parts(&found.words, lent.len() / FEED)) {
                    if part[TASK] == FLASH && part[REFUSAL] == 0 {
                        self.accept(book, &with_feed(question, feed, version(book)), part);
                    }
                }
            }
            Case::With { with: With::Allowance, .. } if found.refusal == 0 => {
                let all = question.chunks(BLOCK).zip(parts(&found.words, question.len() / BLOCK));
                all.filter(|(_, part)| Due::of(part) == Due::Answered)
                    .for_each(|(question, part)| self.accept(book, question, part));
            }
            Case::With { with: With::Feeds | With::Allowance, .. } => {}
            _ if found.begun == 0 || word(question, TASK) != FLASH => {}
            Case::With { with: With::Drums, lent, .. } => self.add_plain(book, &with_pool(book, question, lent), found),
            _ => self.add_plain(book, question, found),
        }
    }

    fn add_plain(&mut self, book: &[u8], question: &[u8], found: &Found) {
        if found.refusal == 0 {
            return self.accept(book, question, &found.words[1..]);
        }
        self.refused += 1;
        let share = Share { begun: found.begun, most: most_of(book, question) };
        self.broken += usize::from(share.begun > share.most);
        self.refused_most.add(share);
    }

    fn accept(&mut self, book: &[u8], question: &[u8], answer: &[u64]) {
        self.outcomes[answer[OUTCOME] as usize] += 1;
        let share = Share { begun: answer[EVALUATIONS], most: most_of(book, question) };
        self.broken += usize::from(!(1..=share.most).contains(&share.begun));
        self.accepted_most.add(share);
    }

    pub fn print(&self) {
        let [_, liquid, vapor, both] = self.outcomes;
        let accepted = liquid + vapor + both;
        if accepted + self.refused == 0 {
            return;
        }
        let most = |share: Share| format!("{} of {} ({:.3})", share.begun, share.most, share.part());
        println!(
            "flashes: {accepted} accepted with their evaluations ({liquid} liquid, {vapor} vapor, {both} both), at most {}; {} refused behind one, at most {}; {} above (m + 2) M + 4 or without",
            most(self.accepted_most),
            self.refused,
            most(self.refused_most),
            self.broken
        );
    }
}

/// The question with the fractions of the drums' pool.
fn with_pool(book: &[u8], question: &[u8], drums: &[u8]) -> Vec<u8> {
    let counts = pool::pool(drums, word(book, 2) as usize).expect("31 and 32 have passed");
    let feed = pool::feed(&counts).expect("a pool has fractions");
    assert_eq!(word(question, BASIS), BY_MOLES, "36 has passed");
    with_feed(question, &bytes_of_feeds(&[padded(&feed)]), version(book))
}

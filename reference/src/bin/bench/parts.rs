// In the module of a peer: its parts, on books that are opened already.
use std::hint::black_box;

pub const PEER: super::Peer = super::Peer {
    answer: answer_full,
    open: |book| open(book).is_ok(),
    tables: |book, n, t, count| {
        let mut full = Full::new(n, book.as_chunks().0);
        for _ in 0..count {
            let _ = black_box(full.tables(black_box(t)));
        }
        black_box(&full.pl);
    },
    excess: |book, n, t, x, count| {
        let mut full = Full::new(n, book.as_chunks().0);
        let _ = full.tables(t);
        let mut l = [0.0; 8];
        for _ in 0..count {
            let _ = black_box(full.values(black_box(x), &mut l));
        }
        black_box(l);
    },
    pures: |book, n, t, count| {
        let mut full = Full::new(n, book.as_chunks().0);
        for _ in 0..count {
            let _ = black_box(full.pures(black_box(t)));
        }
        black_box(full.ps);
    },
};

//! Times of the core, of the reference and, where it is at hand, of the peer on the same inputs in one run: nanoseconds a
//! call, median of five.
//!
//! bench numbers|book|excess|rice|sheet|wilson|parts|pooled|feeds|preview|queue|distance|readers|placed|sentences|all

use std::hint::black_box;
use std::process::ExitCode;

use reference::generate::{books, feeds as fractions, mass, pooled, questions, small, wilson, Rng};
use reference::helpers;
use reference::named::rachford_rice::{rachford_rice, rachford_rice_negative, RachfordRiceOutcome};
use reference::placed;
use reference::rattle;
use reference::sheet::blocks::{bytes_of, rule_of, words_of, BLOCK};
use reference::sheet::distance::{at_step, flashed, search, steps, Distance, Way, RESULT_WORDS};
use reference::sheet::place::Place::{self, Block, Nowhere, Pair};
use reference::sheet::place::PLACE_WORDS;
use reference::sheet::question::{FRACTIONS, TASK};
use reference::sheet::queue::FLASH;
use reference::sheet::readers::{lab, write_floor, FLOOR_WORDS};
use reference::sheet::reply::{BUBBLE, DEW, EVALUATIONS};
use reference::sheet::sentence::{self, SENTENCE_ROOM};
use reference::sheet::{answer, feeds, open_book, pool, ANSWER_BYTES};
use reference::stage::{padded, Case};

mod peer;
use peer::Peer;

const INPUTS: usize = 64;
/// Calls from one table, so that making it does not count.
const REPEATS: u64 = 50;
const SOLVENTS: [usize; 3] = [2, 4, 8];
/// Books that are opened once each, none of them in a cache.
const POOL: usize = 4096;
/// Shortest run that counts, ns.
const RUN: f64 = 2e7;

fn main() -> ExitCode {
    let stage = std::env::args().nth(1).unwrap_or_default();
    let stages: [(&str, fn()); 15] = [
        ("numbers", bench_numbers),
        ("book", bench_book),
        ("excess", bench_excess),
        ("rice", bench_rice),
        ("sheet", bench_sheet),
        ("wilson", bench_wilson),
        ("parts", bench_parts),
        ("pooled", bench_pooled),
        ("feeds", bench_feeds),
        ("preview", bench_preview),
        ("queue", bench_queue),
        ("distance", bench_distance),
        ("readers", bench_readers),
        ("placed", bench_placed),
        ("sentences", bench_sentences),
    ];
    let chosen: Vec<_> = stages.iter().filter(|(name, _)| *name == stage || stage == "all").collect();
    chosen.iter().for_each(|(_, bench)| bench());
    if chosen.is_empty() {
        eprintln!(
            "usage: bench numbers|book|excess|rice|sheet|wilson|parts|pooled|feeds|preview|queue|distance|readers|placed|sentences|all"
        );
        return ExitCode::from(2);
    }
    ExitCode::SUCCESS
}

/// Makes books of n solvents.
type Drafts = fn(&mut Rng, usize) -> books::Draft;

/// A pass calls once for each input.
type Pass<'a> = &'a mut dyn FnMut();

fn run(pass: &mut dyn FnMut(), turns: usize) -> f64 {
    let start = thread_time();
    (0..turns).for_each(|_| pass());
    thread_time() - start
}

/// Processor time of this thread, ns: other work on the machine does not count.
fn thread_time() -> f64 {
    #[repr(C)]
    struct Timespec {
        seconds: i64,
        nanoseconds: i64,
    }
    extern "C" {
        fn clock_gettime(clock: i32, time: *mut Timespec) -> i32;
    }
    const THREAD: i32 = 3;
    let mut time = Timespec { seconds: 0, nanoseconds: 0 };
    // SAFETY: the C library writes one timespec (64-bit Linux).
    let failed = unsafe { clock_gettime(THREAD, &mut time) };
    assert_eq!(failed, 0, "this system has no thread clock");
    time.seconds as f64 * 1e9 + time.nanoseconds as f64
}

/// Turns that take long enough to be timed.
fn turns(pass: &mut dyn FnMut()) -> usize {
    let mut turns = 1;
    while turns < 1 << 24 && run(pass, turns) < RUN {
        turns *= 2;
    }
    turns
}

/// Nanoseconds a pass: medians of five runs of each, by turns, so that a busy moment meets all.
fn medians<const N: usize>(mut passes: [Pass; N]) -> [f64; N] {
    let counts = passes.each_mut().map(|pass| turns(*pass));
    let mut rounds = [[0.0; N]; 5];
    for round in &mut rounds {
        for ((time, pass), count) in round.iter_mut().zip(&mut passes).zip(counts) {
            *time = run(*pass, count) / count as f64;
        }
    }
    std::array::from_fn(|at| median(rounds.map(|round| round[at])))
}

fn median(mut runs: [f64; 5]) -> f64 {
    runs.sort_by(f64::total_cmp);
    runs[2]
}

fn print_ratio(name: &str, core: f64, reference: f64) {
    println!("{name}: core {core:.1} ns, reference {reference:.1} ns, ratio {:.2}", core / reference);
}

/// One line: core, reference, ratio. `core` says `None` where its stage is not built in.
fn line<T>(name: &str, inputs: &[T], mut core: impl FnMut(&T) -> Option<()>, mut reference: impl FnMut(&T)) {
    let calls = inputs.len() as f64;
    let built_in = core(&inputs[0]).is_some();
    let mut baseline = || inputs.iter().for_each(&mut reference);
    if !built_in {
        let [time] = medians([&mut baseline]);
        println!("{name}: core not built in, reference {:.1} ns", time / calls);
        return;
    }
    let mut pass = || inputs.iter().for_each(|input| drop_value(core(input)));
    let [time, own] = medians([&mut pass, &mut baseline]);
    print_ratio(name, time / calls, own / calls);
}

fn many<T>(make: impl FnMut(&mut Rng) -> T) -> Vec<T> {
    made(INPUTS, make)
}

/// Of calls that are as long as many.
fn few<T>(make: impl FnMut(&mut Rng) -> T) -> Vec<T> {
    made(INPUTS / 8, make)
}

fn made<T>(count: usize, mut make: impl FnMut(&mut Rng) -> T) -> Vec<T> {
    let mut rng = Rng::new(7);
    (0..count).map(|_| make(&mut rng)).collect()
}

fn bench_numbers() {
    // Results are added up: keeping each one in memory would cost more than exp.
    let (mut core, mut own) = (0.0, 0.0);
    let small = many(|rng| rng.range(-30.0, 30.0));
    line("exp", &small, |v| rattle::exp(*v).map(|r| core += r), |v| own += helpers::exp(*v));
    let positive = many(|rng| rng.decade(-6.0, 6.0));
    line("ln", &positive, |v| rattle::ln(*v).map(|r| core += r), |v| own += helpers::ln(*v));
    let pairs = many(|rng| (rng.unit(), rng.range(-2.0, 12.0)));
    line("powf", &pairs, |(b, e)| rattle::powf(*b, *e).map(|r| core += r), |(b, e)| own += helpers::powf(*b, *e));
    drop_value((core, own));
}

fn drop_value<T>(value: T) {
    black_box(value);
}

fn bench_book() {
    let mut rng = Rng::new(7);
    let draft = books::realistic(&mut rng, 8);
    let right = draft.bytes();
    let third = of_version_3(draft);
    // The last check: every block is summed, and number 2 comes.
    let [wrong, third_wrong] = [&right, &third].map(|book| {
        let mut wrong = book.clone();
        *wrong.last_mut().expect("not empty") ^= 1;
        wrong
    });
    let core = |book: &Vec<u8>| rattle::open_book(black_box(book)).map(drop_value);
    let reference = |book: &Vec<u8>| drop_value(open_book(black_box(book)).is_ok());
    let sums = [wrong];
    line("book, sums of 37 blocks", &sums, core, reference);
    line("book, sums of 37 blocks, the reference a plain loop", &sums, core, |book| {
        drop_value(sums_right(black_box(book)))
    });
    let sums = [third_wrong];
    line("version 3, running sums of 37 blocks", &sums, core, reference);
    line("version 3, running sums of 37 blocks, the reference a plain loop", &sums, core, |book| {
        drop_value(running_sums_right(black_box(book)))
    });
    line("book, questions 1 to 9, n = 8", &[right], core, reference);
    line("version 3, questions 1 to 9, 35 and 38, n = 8", &[third], core, reference);
    let pool: Vec<_> = (0..POOL).map(|_| books::realistic(&mut rng, 8).bytes()).collect();
    cold_line("book, questions 1 to 9, n = 8, not in a cache", &pool, core, reference);
    let pool: Vec<_> = (0..POOL).map(|_| of_version_3(books::realistic(&mut rng, 8))).collect();
    cold_line("version 3, questions 1 to 9, 35 and 38, n = 8, not in a cache", &pool, core, reference);
}

fn of_version_3(mut draft: books::Draft) -> Vec<u8> {
    mass::enter(&mut Rng::new(7), &mut draft);
    draft.blocks[0][1] = 3;
    draft.bytes()
}

/// One line as `line` has it, but each book is sent out of the caches before it is opened.
fn cold_line(name: &str, books: &[Vec<u8>], core: impl Fn(&Vec<u8>) -> Option<()>, reference: impl Fn(&Vec<u8>)) {
    if core(&books[0]).is_none() {
        return;
    }
    let cold = |pass: Pass| {
        books.iter().for_each(|book| flush(book));
        run(pass, 1) / books.len() as f64
    };
    let rounds = [0; 5].map(|_| {
        let time = cold(&mut || books.iter().for_each(|book| drop_value(core(book))));
        (time, cold(&mut || books.iter().for_each(&reference)))
    });
    print_ratio(name, median(rounds.map(|round| round.0)), median(rounds.map(|round| round.1)));
}

/// Out of every cache, a line of 64 bytes at a time.
fn flush(book: &[u8]) {
    for line in book.chunks(64) {
        // SAFETY: the line is the slice's own; x86-64 has the instruction.
        unsafe { std::arch::x86_64::_mm_clflush(line.as_ptr()) };
    }
    // SAFETY: as above.
    unsafe { std::arch::x86_64::_mm_mfence() };
}

fn word(bytes: &[u8]) -> u64 {
    u64::from_le_bytes(bytes.try_into().expect("eight bytes"))
}

/// As plain as Rust has it: the words of each block up to its check are summed.
fn sums_right(book: &[u8]) -> bool {
    book.chunks_exact(512).all(|block| {
        let (words, check) = block.split_at(504);
        words.chunks_exact(8).fold(0, |sum: u64, bytes| sum.wrapping_add(word(bytes))) == word(check)
    })
}

/// The same of the sums after each word.
fn running_sums_right(book: &[u8]) -> bool {
    book.chunks_exact(512).all(|block| {
        let (words, check) = block.split_at(504);
        let (mut sum, mut all) = (0u64, 0u64);
        for bytes in words.chunks_exact(8) {
            sum = sum.wrapping_add(word(bytes));
            all = all.wrapping_add(sum);
        }
        all == word(check)
    })
}

fn bench_excess() {
    time_excess("", books::realistic);
}

/// Names of the lines begin with `model`.
fn time_excess(model: &str, book: Drafts) {
    for n in SOLVENTS {
        let inputs = many(|rng| {
            let book = book(rng, n).bytes();
            (book, rng.range(280.0, 440.0), padded(&fractions::feed_with(rng, n, fractions::Absent::None)))
        });
        let mut out = [0.0; 23];
        line(
            &format!("{model}excess with its book, n = {n}"),
            &inputs,
            |(book, t, x)| rattle::excess(book, *t, x, &mut out).map(drop_value),
            |(book, t, x)| drop_value(open_book(book).map(|book| book.model().nrtl().excess(*t, &x[..n]).is_ok())),
        );
        let models: Vec<_> =
            inputs.iter().map(|(book, t, x)| (open_book(book).expect("realistic").model(), t, x)).collect();
        let mut alone = || models.iter().for_each(|(model, t, x)| drop_value(model.nrtl().excess(**t, &x[..n])));
        let repeated = |count| {
            inputs.iter().for_each(|(book, t, x)| drop_value(rattle::repeat_activity(book, n, *t, x, count)));
        };
        let [own, once, often] = medians([&mut alone, &mut || repeated(1), &mut || repeated(1 + REPEATS)]);
        let (own, core) = (own / INPUTS as f64, (often - once) / (REPEATS as f64 * INPUTS as f64));
        println!(
            "{model}excess, n = {n}: core from its tables {core:.1} ns, reference {own:.1} ns, ratio {:.2}",
            core / own
        );
    }
}

fn bench_rice() {
    for n in SOLVENTS {
        // With both phases, so that the constrained function searches too.
        let inputs: Vec<_> = many(|rng| loop {
            let z = fractions::feed_with(rng, n, fractions::Absent::None);
            let k: Vec<f64> = (0..n).map(|_| rng.decade(-1.5, 1.5)).collect();
            if let Ok(RachfordRiceOutcome::TwoPhase(_)) = rachford_rice(&z, &k, 200) {
                return (padded(&z), padded(&k));
            }
        });
        let mut out = [0.0; 19];
        line(
            &format!("rachford_rice, n = {n}"),
            &inputs,
            |(z, k)| rattle::rachford_rice(z, k, n, 200, &mut out).map(drop_value),
            |(z, k)| drop_value(rachford_rice(&z[..n], &k[..n], 200)),
        );
        line(
            &format!("rachford_rice_negative, n = {n}"),
            &inputs,
            |(z, k)| rattle::rachford_rice_negative(z, k, n, 200, &mut out).map(drop_value),
            |(z, k)| drop_value(rachford_rice_negative(&z[..n], &k[..n], 200)),
        );
    }
}

/// Excess and tasks 1 to 7 of Wilson books; the reference is plain Rust too.
fn bench_wilson() {
    time_excess("Wilson ", wilson::realistic);
    (1..=7).for_each(|task| time_task("Wilson ", task, plain_wilson, peer::WILSON));
}

/// Of version 2, with zeros in the words that aren't read: the peer opens it too.
fn plain_wilson(rng: &mut Rng, n: usize) -> books::Draft {
    let mut draft = wilson::realistic(rng, n);
    draft.blocks[0][1] = 2;
    draft.blocks[1 + n..].iter_mut().for_each(|pair| pair[7..15].fill(0));
    draft
}

fn time_task(model: &str, task: u64, book: Drafts, peer: Option<Peer>) {
    for n in SOLVENTS {
        let inputs = many(|rng| accepted(rng, n, task, book));
        let [mut core_answer, mut own_answer, mut peer_answer] = [[0; ANSWER_BYTES]; 3];
        let core = |(book, question): &Sheet| rattle::answer(book, question, &mut core_answer).map(drop_value);
        let reference = |(book, question): &Sheet| drop_value(answer(book, question, &mut own_answer));
        let name = format!("{model}task {task}, n = {n}");
        let Some(peer) = peer else {
            line(&name, &inputs, core, reference);
            continue;
        };
        inputs.iter().for_each(|sheet| same_answer(sheet, peer));
        let fast = |(book, question): &Sheet| drop_value((peer.answer)(book, question, &mut peer_answer));
        line_of_three(&name, &inputs, core, reference, fast);
    }
}

/// A book and a question.
type Sheet = (Vec<u8>, Vec<u8>);

/// The peer answers with the core's bytes, but for the evaluations of a flash, which it doesn't count.
fn same_answer((book, question): &Sheet, peer: Peer) {
    let [mut core, mut fast] = [[7; ANSWER_BYTES]; 2];
    if let Some(number) = rattle::answer(book, question, &mut core) {
        let mut words = words_of(&core[..BLOCK]);
        if number == 0 && words[TASK] == FLASH {
            words[EVALUATIONS] = 0;
            core[..BLOCK].copy_from_slice(&small::sealed_by(rule_of(book), words));
        }
        assert_eq!((peer.answer)(book, question, &mut fast), number, "the peer's number");
        assert!(fast == core, "the peer's bytes");
    }
}

fn line_of_three<T>(
    name: &str,
    inputs: &[T],
    mut core: impl FnMut(&T) -> Option<()>,
    mut reference: impl FnMut(&T),
    mut peer: impl FnMut(&T),
) {
    let [core, reference, peer] = medians([
        &mut || inputs.iter().for_each(|input| drop_value(core(input))),
        &mut || inputs.iter().for_each(&mut reference),
        &mut || inputs.iter().for_each(&mut peer),
    ])
    .map(|time| time / inputs.len() as f64);
    let ratios = [core / reference, core / peer];
    println!(
        "{name}: core {core:.1} ns, reference {reference:.1} ns, peer {peer:.1} ns, ratios {:.2} {:.2}",
        ratios[0], ratios[1]
    );
}

/// Parts of a call in the core and in the peer.
fn bench_parts() {
    time_parts("", books::realistic, peer::NRTL);
    time_parts("Wilson ", plain_wilson, peer::WILSON);
}

/// A book, a temperature and a composition.
type State = (Vec<u8>, f64, [f64; 8]);

fn time_parts(model: &str, book: fn(&mut Rng, usize) -> books::Draft, peer: Option<Peer>) {
    let Some(peer) = peer else { return println!("{model}parts: no peer at hand") };
    for n in SOLVENTS {
        let inputs = many(|rng| {
            let book = book(rng, n).bytes();
            (book, rng.range(300.0, 400.0), padded(&fractions::feed_with(rng, n, fractions::Absent::None)))
        });
        let each = |part: &dyn Fn(&State)| inputs.iter().for_each(part);
        let [core_open, peer_open, core_tables, core_often, peer_none, peer_tables, peer_once, peer_often, peer_pures] =
            medians([
                &mut || each(&|(book, _, _)| drop_value(rattle::open_book(book))),
                &mut || each(&|(book, _, _)| drop_value((peer.open)(book))),
                &mut || each(&|(book, t, x)| drop_value(rattle::repeat_activity(book, n, *t, x, 0))),
                &mut || each(&|(book, t, x)| drop_value(rattle::repeat_activity(book, n, *t, x, REPEATS))),
                &mut || each(&|(book, t, _)| (peer.tables)(book, n, *t, 0)),
                &mut || each(&|(book, t, _)| (peer.tables)(book, n, *t, REPEATS)),
                &mut || each(&|(book, t, x)| (peer.excess)(book, n, *t, x, 0)),
                &mut || each(&|(book, t, x)| (peer.excess)(book, n, *t, x, REPEATS)),
                &mut || each(&|(book, t, _)| (peer.pures)(book, n, *t, REPEATS)),
            ])
            .map(|time| time / INPUTS as f64);
        let of_one = |often: f64, none: f64| (often - none) / REPEATS as f64;
        let part = |name: &str, core: f64, peer: f64| {
            println!("{model}{name}, n = {n}: core {core:.1} ns, peer {peer:.1} ns, ratio {:.2}", core / peer)
        };
        part("open", core_open, peer_open);
        part("parameters and tables", core_tables, of_one(peer_tables, peer_none));
        part("excess from tables", of_one(core_often, core_tables), of_one(peer_often, peer_once));
        println!("{model}pure liquids, n = {n}: peer {:.1} ns", of_one(peer_pures, peer_none));
    }
}

fn bench_sheet() {
    (1..=9).for_each(|task| time_task("", task, books::realistic, peer::NRTL));
    let refused = [(Vec::new(), Vec::new())];
    line(
        "a refused sheet",
        &refused,
        |(book, question)| rattle::answer(book, question, &mut [0; ANSWER_BYTES]).map(drop_value),
        |(book, question)| drop_value(answer(book, question, &mut [0; ANSWER_BYTES])),
    );
}

/// A book and a question of the task that is answered.
fn accepted(rng: &mut Rng, n: usize, task: u64, book: Drafts) -> (Vec<u8>, Vec<u8>) {
    loop {
        let book = book(rng, n).bytes();
        let opened = open_book(&book).expect("realistic");
        let question = questions::realistic(rng, &opened, task).question();
        if answer(&book, &question, &mut [0; ANSWER_BYTES]) == 0 {
            return (book, question);
        }
    }
}

/// The core alone: a pooled call, and the plain call on the question with the pool's fractions.
fn bench_pooled() {
    for task in [1, 2, 7, 8] {
        for n in SOLVENTS {
            for m in [1, 3, 64] {
                time_pooled(task, n, m);
            }
        }
    }
}

fn time_pooled(task: u64, n: usize, m: usize) {
    let inputs = many(|rng| loop {
        let (book, question) = accepted(rng, n, task, books::realistic);
        let counts: Vec<u64> = (0..n).map(|_| rng.decade(6.0, 9.0) as u64).collect();
        let drums = pooled::shared_out(rng, &counts, m);
        let x = pool::feed(&counts).expect("a right total");
        let mut ask = small::Ask(words_of(&question));
        small::put(&mut ask.0, FRACTIONS, &x);
        let plain = ask.bytes();
        if answer(&book, &plain, &mut [0; ANSWER_BYTES]) == 0 {
            return (book, question, drums, plain);
        }
    });
    let (mut out, mut other) = ([0; ANSWER_BYTES], [0; ANSWER_BYTES]);
    beside_plain(
        &format!("pooled task {task}, n = {n}, drums {m}"),
        "the plain call",
        &inputs,
        |(book, question, drums, _)| rattle::pooled(book, question, drums, &mut out).map(drop_value),
        |(book, _, _, plain)| drop_value(rattle::answer(book, plain, &mut other)),
    );
}

/// One line of the core alone: a call, and the plain calls that give the same. `call` says `None` where its stage is not built in.
fn beside_plain<T>(
    name: &str,
    plainly: &str,
    inputs: &[T],
    mut call: impl FnMut(&T) -> Option<()>,
    mut plain: impl FnMut(&T),
) {
    if call(&inputs[0]).is_none() {
        println!("{name}: core not built in");
        return;
    }
    let calls = inputs.len() as f64;
    let mut first = || inputs.iter().for_each(|input| drop_value(call(input)));
    let mut second = || inputs.iter().for_each(&mut plain);
    let [time, own] = medians([&mut first, &mut second]).map(|time| time / calls);
    println!("{name}: {time:.1} ns, {plainly} {own:.1} ns, ratio {:.2}", time / own);
}

/// The core alone: one call with m feeds, and m plain calls.
fn bench_feeds() {
    for (model, book) in [("", books::realistic as Drafts), ("Wilson ", wilson::realistic)] {
        for task in feeds::TASKS {
            for m in [64, 2] {
                time_feeds(model, task, m, book);
            }
        }
    }
}

fn time_feeds(model: &str, task: u64, m: usize, book: Drafts) {
    const N: usize = 8;
    // All feeds are answered.
    let inputs = few(|rng| {
        let (book, question) = accepted(rng, N, task, book);
        let version = word(&book[8..16]);
        let (mut lent, mut plain) = (Vec::new(), Vec::new());
        while plain.len() < m {
            let feed = feeds::bytes_of_feeds(&[padded(&fractions::feed_with(rng, N, fractions::Absent::None))]);
            let fed = feeds::with_feed(&question, &feed, version);
            if answer(&book, &fed, &mut [0; ANSWER_BYTES]) == 0 {
                lent.extend(feed);
                plain.push(fed);
            }
        }
        (book, question, lent, plain)
    });
    let (mut out, mut other) = (vec![0; m * ANSWER_BYTES], vec![0; m * ANSWER_BYTES]);
    beside_plain(
        &format!("{model}task {task}, n = {N}, {m} feeds"),
        &format!("{m} plain calls"),
        &inputs,
        |(book, question, lent, _)| rattle::feeds(book, question, lent, &mut out).map(drop_value),
        |(book, _, _, plain)| {
            for (question, part) in plain.iter().zip(other.chunks_mut(ANSWER_BYTES)) {
                drop_value(rattle::answer(book, question, part));
            }
        },
    );
}

/// The core alone: a preview, and the plain call on the copy.
fn bench_preview() {
    for (model, book) in [("", books::realistic as Drafts), ("Wilson ", wilson::realistic)] {
        for task in 1..=9 {
            time_preview(model, task, book);
        }
    }
}

fn time_preview(model: &str, task: u64, book: Drafts) {
    const N: usize = 8;
    let inputs = many(|rng| {
        let (copy, question) = accepted(rng, N, task, book);
        // A pair of the copy, offered to a book that has another of its pairs there.
        let place = |k: usize| BLOCK * (1 + N + k);
        let (at, from) = (place(rng.below(28)), place(rng.below(28)));
        let offered = copy[at..at + BLOCK].to_vec();
        let mut words = words_of(&copy[from..from + BLOCK]);
        words[1..3].copy_from_slice(&words_of(&offered)[1..3]);
        let mut book = copy.clone();
        book[at..at + BLOCK].copy_from_slice(&small::sealed_by(rule_of(&copy), words));
        (book, offered, question, copy)
    });
    let (mut out, mut other) = ([0; ANSWER_BYTES], [0; ANSWER_BYTES]);
    beside_plain(
        &format!("{model}preview of task {task}, n = {N}"),
        "the plain call",
        &inputs,
        |(book, offered, question, _)| rattle::preview(book, offered, question, &mut out).map(drop_value),
        |(_, _, question, copy)| drop_value(rattle::answer(copy, question, &mut other)),
    );
}

/// The core alone: one queue with all that it asks for, and as many plain calls; then one with nothing, which puts all off.
fn bench_queue() {
    for (model, book) in [("", books::realistic as Drafts), ("Wilson ", wilson::realistic)] {
        for n in SOLVENTS {
            for q in [64, 2] {
                time_queue(model, n, q, book, u64::MAX);
            }
        }
        time_queue(model, 8, 64, book, 0);
    }
}

fn time_queue(model: &str, n: usize, q: usize, book: Drafts, allowance: u64) {
    // All questions are answered by themselves.
    let inputs = few(|rng| {
        let (book, first) = accepted(rng, n, FLASH, book);
        let opened = open_book(&book).expect("realistic");
        let mut plain = vec![first];
        while plain.len() < q {
            let question = questions::realistic(rng, &opened, FLASH).question();
            if answer(&book, &question, &mut [0; ANSWER_BYTES]) == 0 {
                plain.push(question);
            }
        }
        (book, plain.concat(), plain)
    });
    let (mut out, mut other) = (vec![0; q * ANSWER_BYTES], vec![0; q * ANSWER_BYTES]);
    beside_plain(
        &format!("{model}queue, n = {n}, {q} questions{}", if allowance == 0 { ", all put off" } else { "" }),
        &format!("{q} plain calls"),
        &inputs,
        |(book, queue, _)| rattle::queue(book, queue, allowance, &mut out).map(drop_value),
        |(book, _, plain)| {
            for (question, part) in plain.iter().zip(other.chunks_mut(ANSWER_BYTES)) {
                drop_value(rattle::answer(book, question, part));
            }
        },
    );
}

/// The core alone: distances without a phase change and without a refused step, and the plain calls at P and at all 2000 steps.
fn bench_distance() {
    for (model, book) in [("", books::realistic as Drafts), ("Wilson ", wilson::realistic)] {
        for (phases, outcome) in [("a liquid", 1), ("a vapor", 2), ("between dew and bubble", 3)] {
            time_distance(model, phases, outcome, book);
        }
    }
}

fn time_distance(model: &str, phases: &str, outcome: u64, book: Drafts) {
    const N: usize = 8;
    let inputs = few(|rng| {
        let (book, question) = nowhere(rng, N, outcome, book);
        let plain: Vec<_> = steps().map(|s| at_step(&book, &question, s)).chain([question.clone()]).collect();
        (book, question, plain)
    });
    let (mut out, mut other) = ([0; RESULT_WORDS], [0; ANSWER_BYTES]);
    beside_plain(
        &format!("{model}distance, n = {N}, none, {phases}"),
        &format!("{} plain calls", inputs[0].2.len()),
        &inputs,
        |(book, question, _)| rattle::distance(book, question, &mut out).map(drop_value),
        |(book, _, plain)| {
            for question in plain {
                drop_value(rattle::answer(book, question, &mut other));
            }
        },
    );
}

/// A flash with this outcome at P and at every step.
fn nowhere(rng: &mut Rng, n: usize, outcome: u64, book: Drafts) -> Sheet {
    // 100 kPa and the domain's ends are as far as that.
    let [low, high] = [100_100.0, 400_000.0];
    loop {
        let (book, question) = accepted(rng, n, FLASH, book);
        let first = flashed(&book, &question).expect("accepted");
        let [bubble, dew] = [BUBBLE, DEW].map(|at| f64::from_bits(word(&first[8 * at..8 * at + 8])));
        let p = match outcome {
            1 => (bubble + 150_000.0).max(low),
            2 => (dew - 150_000.0).min(high),
            _ => (dew + bubble) / 2.0,
        };
        let apart = outcome != 3 || bubble - dew > 200_000.0;
        if !(low..=high).contains(&p) || !apart {
            continue;
        }
        let question = small::Ask(words_of(&question)).under(p).bytes_for(&book);
        let found = search(&book, &question, Way::Sides);
        if found.is_ok_and(|found| found.distance == Distance::None && found.refused.is_empty()) {
            return (book, question);
        }
    }
}

/// Answers without trials and with eight of them.
fn bench_readers() {
    for (what, task) in [("a bubble point", 2), ("liquid trials", 6)] {
        let answers = many(|rng| {
            let (book, question) = accepted(rng, 8, task, books::realistic);
            let mut slice = vec![0; ANSWER_BYTES];
            answer(&book, &question, &mut slice);
            slice
        });
        let (mut words, mut own) = ([0; FLOOR_WORDS], [0; FLOOR_WORDS]);
        line(
            &format!("floor sheet of {what}, n = 8"),
            &answers,
            |slice| rattle::floor(slice, &mut words).map(drop_value),
            |slice| drop_value(write_floor(slice, &mut own)),
        );
        line(
            &format!("lab sheet of {what}, n = 8"),
            &answers,
            |slice| rattle::lab(slice).map(drop_value),
            |slice| drop_value(lab(slice)),
        );
    }
}

/// The core alone: calls with the place beside the plain ones, of sheets that are answered and of books that are refused.
fn bench_placed() {
    const N: usize = 8;
    for task in 1..=9 {
        time_placed(&format!("task {task}, n = {N}, answered"), &many(|rng| accepted(rng, N, task, books::realistic)));
    }
    let (book, question) = accepted(&mut Rng::new(7), N, 1, books::realistic);
    time_placed("a question that is refused", &[(book.clone(), Vec::new())]);
    let blocks: Vec<_> = book.chunks(BLOCK).map(words_of).collect();
    // (number, place, word, bits), at the last block or pair that the number is put to.
    for (number, place, at, bits) in [
        (2, Block(36), 60, 1),
        (4, Block(8), 0, 0),
        (5, Block(8), 24, 0),
        (6, Pair(6, 7), 2, blocks[7][2]),
        (7, Block(36), 0, 0),
        (8, Block(36), 3, f64::NAN.to_bits()),
        (9, Block(36), 11, 0),
    ] {
        let mut wrong = blocks.clone();
        wrong[if number == 6 {
            8
        } else if let Block(k) = place {
            k as usize
        } else {
            0
        }][at] = bits;
        let book = if number == 2 { wrong.iter().flat_map(bytes_of).collect() } else { small::bytes(&wrong) };
        let case = Case::Sheet { book: book.clone(), question: question.clone(), room: ANSWER_BYTES };
        assert_eq!((case.expected().refusal, placed::place_of(&case, number)), (number, place));
        time_placed(&format!("a book refused with {number}, {place:?}"), &[(book, question.clone())]);
    }
    let mut long = [0; 64 * 200];
    long[64 * 200 - 1] = 1;
    time_placed(
        "200 blocks refused with 2, the last",
        &[(long.iter().flat_map(|word: &u64| word.to_le_bytes()).collect(), Vec::new())],
    );
}

fn time_placed(what: &str, inputs: &[Sheet]) {
    let (mut out, mut other, mut place) = ([0; ANSWER_BYTES], [0; ANSWER_BYTES], [0; PLACE_WORDS]);
    beside_plain(
        &format!("placed, {what}"),
        "the plain call",
        inputs,
        |(book, question)| rattle::answer_placed(book, question, &mut out, &mut place).map(drop_value),
        |(book, question)| drop_value(rattle::answer(book, question, &mut other)),
    );
}

fn bench_sentences() {
    let each: Vec<(u64, Place)> = (1..=sentence::LAST_NUMBER).map(|number| (number, Nowhere)).collect();
    time_sentences("each number", &each);
    time_sentences("7, block 36", &[(7, Block(36))]);
    time_sentences("6, solvents 6 and 7", &[(6, Pair(6, 7))]);
    time_sentences("5, the longest", &[(5, Block(u64::MAX))]);
}

fn time_sentences(what: &str, refusals: &[(u64, Place)]) {
    let ([mut text, mut own], mut length) = ([[0; SENTENCE_ROOM]; 2], 0);
    line(
        &format!("sentence of {what}"),
        refusals,
        |(number, place)| rattle::sentence(*number, &place.words(), &mut text, &mut length).map(drop_value),
        |(number, place)| drop_value(sentence::write(*number, &place.words(), &mut own, &mut 0)),
    );
}

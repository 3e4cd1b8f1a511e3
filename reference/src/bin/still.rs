//! Runs the program in a folder of its own and compares every byte that it writes, to standard error too, with the
//! reference.
//!
//! still [--count N] [--seed S] [PROGRAM]
//!
//! N generated sheets as files, then what only a program meets: kinds of book.bin, of standard input and of standard
//! output (README.md). Every run has to end by itself, in its time.

use std::fs::{self, File, Permissions};
use std::io::{Read, Write};
use std::os::unix::fs::{symlink, PermissionsExt};
use std::os::unix::process::{CommandExt, ExitStatusExt};
use std::path::{Path, PathBuf};
use std::process::{Child, Command, ExitCode, ExitStatus, Stdio};
use std::thread;
use std::time::{Duration, Instant};

use reference::counts::Tally;
use reference::generate::cases::sheets;
use reference::generate::Rng;
use reference::sheet::blocks::{words_of, BLOCK};
use reference::sheet::{program_errors, program_output};
use reference::stage::Case;

/// A run that takes longer hangs.
const LIMIT: Duration = Duration::from_secs(30);
/// Between the pieces of a slow pipe.
const PAUSE: Duration = Duration::from_millis(2);
/// What the program reads at most.
const BOOK_MOST: usize = 19_456;
const NOBODY: u32 = 65_534;
const SIGPIPE: i32 = 13;
/// Differences that are printed.
const SHOWN: usize = 20;

struct Options {
    count: usize,
    seed: u64,
    program: PathBuf,
}

fn options() -> Option<Options> {
    let default = Path::new(env!("CARGO_MANIFEST_DIR")).join("../target/bin/still");
    let mut options = Options { count: 300, seed: 1, program: default };
    let mut words = std::env::args().skip(1);
    while let Some(word) = words.next() {
        match word.as_str() {
            "--count" => options.count = words.next()?.parse().ok()?,
            "--seed" => options.seed = words.next()?.parse().ok()?,
            _ if word.starts_with('-') => return None,
            _ => options.program = word.into(),
        }
    }
    Some(options)
}

/// The folder that the program runs in, with a copy of it; taken away at the end.
struct Folder {
    path: PathBuf,
}

impl Folder {
    fn new(program: &Path) -> std::io::Result<Self> {
        let path = std::env::temp_dir().join(format!("zektonk-still-{}", std::process::id()));
        fs::create_dir(&path)?;
        fs::set_permissions(&path, Permissions::from_mode(0o755))?;
        let folder = Self { path };
        fs::copy(program, folder.path.join("still"))?;
        fs::set_permissions(folder.path.join("still"), Permissions::from_mode(0o755))?;
        Ok(folder)
    }

    fn book(&self) -> PathBuf {
        self.path.join("book.bin")
    }

    /// As before the first run.
    fn clear(&self) {
        let book = self.book();
        if fs::remove_file(&book).is_err() {
            let _ = fs::remove_dir(&book);
        }
    }

    fn write_book(&self, bytes: &[u8]) {
        fs::write(self.book(), bytes).expect("the folder can be written");
    }

    fn program(&self) -> Command {
        let mut command = Command::new("./still");
        command.current_dir(&self.path);
        command
    }

    /// The program behind a line of a shell, as `exec ./still <&-`.
    fn shell(&self, line: &str) -> Command {
        let mut command = Command::new("/bin/sh");
        command.current_dir(&self.path).args(["-c", line]);
        command
    }
}

impl Drop for Folder {
    fn drop(&mut self) {
        let _ = fs::remove_dir_all(&self.path);
    }
}

/// How the question comes in.
#[derive(Clone, Copy)]
enum Feed {
    /// Whole, then the end.
    Whole,
    /// In pieces with pauses, then the end.
    Slow,
    /// Whole, and the pipe stays open until the program has ended.
    Held,
}

/// What the program wrote, to standard error too, and how it ended; `None` where it had to be stopped.
struct Run {
    written: Vec<u8>,
    said: Vec<u8>,
    status: Option<ExitStatus>,
}

fn run(mut command: Command, question: &[u8], feed: Feed) -> Run {
    let mut child = started(&mut command);
    let mut stdin = child.stdin.take().expect("it is piped");
    let (stdout, stderr) = (child.stdout.take().expect("it is piped"), child.stderr.take().expect("it is piped"));
    let question = question.to_vec();
    // A program that has read enough may end before all is written.
    let writer = thread::spawn(move || {
        let _ = match feed {
            Feed::Whole | Feed::Held => stdin.write_all(&question),
            Feed::Slow => write_slowly(&mut stdin, &question),
        };
        matches!(feed, Feed::Held).then_some(stdin)
    });
    let (written, said) = (reader(stdout), reader(stderr));
    let status = ended(&mut child);
    drop(writer.join());
    Run { written: written.join().unwrap_or_default(), said: said.join().unwrap_or_default(), status }
}

fn started(command: &mut Command) -> Child {
    command.stdin(Stdio::piped()).stdout(Stdio::piped()).stderr(Stdio::piped()).spawn().expect("the program starts")
}

/// All that comes, to the end.
fn reader(mut from: impl Read + Send + 'static) -> thread::JoinHandle<Vec<u8>> {
    thread::spawn(move || {
        let mut bytes = Vec::new();
        let _ = from.read_to_end(&mut bytes);
        bytes
    })
}

/// `None`, and the program stopped, where it doesn't end in time.
fn ended(child: &mut Child) -> Option<ExitStatus> {
    let start = Instant::now();
    while start.elapsed() < LIMIT {
        if let Ok(Some(status)) = child.try_wait() {
            return Some(status);
        }
        thread::sleep(Duration::from_micros(100));
    }
    let _ = child.kill();
    let _ = child.wait();
    None
}

fn clean(status: Option<ExitStatus>) -> bool {
    status.is_some_and(|status| status.success())
}

fn write_slowly(to: &mut impl Write, bytes: &[u8]) -> std::io::Result<()> {
    let mut rng = Rng::new(bytes.len() as u64);
    let mut rest = bytes;
    while !rest.is_empty() {
        let (piece, behind) = rest.split_at(rng.between(1, 1 + bytes.len() / 6).min(rest.len()));
        to.write_all(piece)?;
        to.flush()?;
        thread::sleep(PAUSE);
        rest = behind;
    }
    Ok(())
}

/// Runs that were compared.
#[derive(Default)]
struct Report {
    tally: Tally,
    differences: usize,
}

impl Report {
    /// What came, held to the reference's bytes.
    fn compare(&mut self, what: &str, book: &[u8], question: &[u8], run: &Run) {
        let expected = program_output(book, question);
        let number = words_of(&expected[..BLOCK])[2] as u32;
        self.tally.add(number);
        if !clean(run.status) || run.written != expected || run.said != program_errors(book, number) {
            self.differs(what, book, question, run);
        }
    }

    fn differs(&mut self, what: &str, book: &[u8], question: &[u8], run: &Run) {
        self.differences += 1;
        if self.differences <= SHOWN {
            let case = Case::Sheet { book: book.to_vec(), question: question.to_vec(), room: run.written.len() };
            let said = String::from_utf8_lossy(&run.said);
            println!(
                "difference: {what}: {:?}, {} bytes written, {said:?}: {}",
                run.status,
                run.written.len(),
                case.line()
            );
        }
    }
}

fn main() -> ExitCode {
    let Some(options) = options() else {
        eprintln!("usage: still [--count N] [--seed S] [PROGRAM]");
        return ExitCode::from(2);
    };
    let folder = match Folder::new(&options.program) {
        Ok(folder) => folder,
        Err(why) => {
            eprintln!("still: {} can't be run: {why}", options.program.display());
            return ExitCode::from(2);
        }
    };
    let mut report = Report::default();
    let mut sheets = sheets(options.seed);
    for (book, question) in sheets.by_ref().take(options.count) {
        folder.write_book(&book);
        report.compare("files", &book, &question, &run(folder.program(), &question, Feed::Whole));
    }
    // The rest is slower or has its own files, and is put to a tenth as many sheets, with answers among them.
    let mut closed = 0;
    for round in 0..options.count.div_ceil(10) {
        let (book, question) = accepted(&mut sheets);
        books(&mut report, &folder, &book, &question);
        questions(&mut report, &folder, &book, &question);
        if round % 5 == 0 {
            closed += outputs(&mut report, &folder, &book, &question);
        }
    }
    let (all, accepted, refused) = (report.tally.all(), report.tally.accepted(), report.tally.refused());
    println!(
        "still: {all} runs compared, {accepted} accepted, refused {refused}; {closed} runs whose output nobody takes; {} differences",
        report.differences
    );
    if report.differences == 0 {
        ExitCode::SUCCESS
    } else {
        ExitCode::FAILURE
    }
}

/// The next sheet that is answered.
fn accepted(sheets: &mut impl Iterator<Item = (Vec<u8>, Vec<u8>)>) -> (Vec<u8>, Vec<u8>) {
    let answered = |(book, question): &(Vec<u8>, Vec<u8>)| words_of(&program_output(book, question)[..BLOCK])[2] == 0;
    sheets.find(answered).expect("a generator has no end")
}

/// Kinds of book.bin.
fn books(report: &mut Report, folder: &Folder, book: &[u8], question: &[u8]) {
    let mut put = |what: &str, read: &[u8], command: Command| {
        report.compare(what, read, question, &run(command, question, Feed::Whole));
    };
    folder.clear();
    put("no book", &[], folder.program());
    fs::create_dir(folder.book()).expect("the folder can be written");
    put("a folder for a book", &[], folder.program());
    folder.clear();
    symlink("nowhere", folder.book()).expect("the folder can be written");
    put("a link to nothing", &[], folder.program());
    folder.clear();
    folder.write_book(&[]);
    put("an empty book", &[], folder.program());
    for long in too_long(book) {
        folder.write_book(&long);
        put("a long book", &long, folder.program());
    }
    folder.write_book(book);
    fs::set_permissions(folder.book(), Permissions::from_mode(0o000)).expect("the file is ours");
    if let Some(command) = barred(folder) {
        put("an unreadable book", &[], command);
    }
    folder.clear();
    fs::write(folder.path.join("other"), book).expect("the folder can be written");
    symlink("other", folder.book()).expect("the folder can be written");
    put("a link to a book", book, folder.program());
    folder.clear();
    slow_book(report, folder, book, question);
}

/// The program for a user who can't read a file without permissions: ourselves, or nobody where we are root.
fn barred(folder: &Folder) -> Option<Command> {
    let mut command = folder.program();
    if File::open(folder.book()).is_ok() {
        command.uid(NOBODY).gid(NOBODY);
        let mut probe = folder.shell("test ! -r book.bin");
        if !probe.uid(NOBODY).gid(NOBODY).status().is_ok_and(|status| status.success()) {
            return None;
        }
    }
    Some(command)
}

/// Books with a byte or blocks too many, up to what is read and past it; the checks are right, or wrong past it alone.
fn too_long(book: &[u8]) -> Vec<Vec<u8>> {
    // Of zeros, whose check is 0 by either rule.
    let blocks = |count: usize| -> Vec<u8> {
        let mut bytes = book.to_vec();
        while bytes.len() < count * BLOCK {
            bytes.extend_from_slice(&[0; BLOCK]);
        }
        bytes
    };
    let most = BOOK_MOST / BLOCK;
    let mut odd = blocks(most);
    odd.push(1);
    let mut byte = book.to_vec();
    byte.push(0);
    let mut wrong = blocks(most + 40);
    wrong[BOOK_MOST] ^= 1;
    vec![byte, blocks(book.len() / BLOCK + 1), blocks(most), odd, blocks(most + 1), wrong]
}

/// book.bin as a pipe that is written in pieces.
fn slow_book(report: &mut Report, folder: &Folder, book: &[u8], question: &[u8]) {
    let made = Command::new("mkfifo").arg(folder.book()).status();
    if !made.is_ok_and(|status| status.success()) {
        return;
    }
    let (path, bytes) = (folder.book(), book.to_vec());
    let writer = thread::spawn(move || {
        let mut pipe = fs::OpenOptions::new().write(true).open(path)?;
        write_slowly(&mut pipe, &bytes)
    });
    report.compare("a slow book", book, question, &run(folder.program(), question, Feed::Whole));
    // A program that never opened the pipe would leave its writer waiting.
    let _other_end = fs::OpenOptions::new().read(true).write(true).open(folder.book());
    let _ = writer.join();
    folder.clear();
}

/// Kinds of standard input.
fn questions(report: &mut Report, folder: &Folder, book: &[u8], question: &[u8]) {
    folder.write_book(book);
    let mut put = |what: &str, asked: &[u8], feed: Feed| {
        report.compare(what, book, asked, &run(folder.program(), asked, feed));
    };
    let longer = |more: usize| [question, &vec![7; more]].concat();
    put("an empty question", &[], Feed::Whole);
    for length in [1, 8, 504, 511] {
        put("a short question", &question[..length], Feed::Whole);
    }
    put("one byte more", &longer(1), Feed::Whole);
    put("one byte more, then no end", &longer(1), Feed::Held);
    put("two questions", &[question, question].concat(), Feed::Whole);
    put("a long question", &longer(100_000), Feed::Whole);
    put("a slow question", question, Feed::Slow);
    put("a slow long question", &longer(1), Feed::Slow);
    let closed = run(folder.shell("exec ./still <&-"), &[], Feed::Whole);
    report.compare("standard input closed", book, &[], &closed);
    let folded = run(folder.shell("exec ./still <."), &[], Feed::Whole);
    report.compare("a folder for a question", book, &[], &folded);
    let endless = run(folder.shell("exec ./still </dev/zero"), &[], Feed::Whole);
    report.compare("an endless question", book, &vec![0; BLOCK + 1], &endless);
}

/// Standard output that takes nothing: the program ends by itself all the same. How many runs.
fn outputs(report: &mut Report, folder: &Folder, book: &[u8], question: &[u8]) -> usize {
    folder.write_book(book);
    let lines = ["exec ./still >&-", "exec ./still <&- >&-", "exec ./still >/dev/full"];
    for line in ["exec ./still 2>&-", "exec ./still 2>/dev/full"] {
        let unsaid = run(folder.shell(line), &question[1..], Feed::Whole);
        if !clean(unsaid.status) || !unsaid.said.is_empty() || unsaid.written != program_output(book, &question[1..]) {
            report.differs(line, book, &question[1..], &unsaid);
        }
    }
    for line in lines {
        let found = run(folder.shell(line), question, Feed::Whole);
        if !clean(found.status) || !found.written.is_empty() {
            report.differs(line, book, question, &found);
        }
    }
    let by_signal = without_reader(folder.program(), question);
    if !clean(by_signal.status) && by_signal.status.and_then(|status| status.signal()) != Some(SIGPIPE) {
        report.differs("no reader", book, question, &by_signal);
    }
    let by_error = without_reader(folder.shell("trap '' PIPE; exec ./still"), question);
    if !clean(by_error.status) {
        report.differs("no reader, SIGPIPE ignored", book, question, &by_error);
    }
    lines.len() + 4
}

/// The reader has gone before the question comes. By default SIGPIPE ends a program that writes then.
fn without_reader(mut command: Command, question: &[u8]) -> Run {
    let mut child = started(&mut command);
    drop((child.stdout.take(), child.stderr.take()));
    let _ = child.stdin.take().expect("it is piped").write_all(question);
    Run { written: Vec::new(), said: Vec::new(), status: ended(&mut child) }
}

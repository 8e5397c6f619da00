//! The program against the vectors, against the model on random inputs, and on what C can
//! answer beside bytes; each run in a folder of its own.

use std::fs::{self, File, Permissions};
use std::io::{self, Read, Write};
use std::os::fd::OwnedFd;
use std::os::unix::fs::{symlink, PermissionsExt};
use std::os::unix::net::{UnixListener, UnixStream};
use std::path::{Path, PathBuf};
use std::process::{Child, Command, Stdio};
use std::sync::atomic::{AtomicUsize, Ordering};
use std::thread::sleep;
use std::time::Duration;

use captions_harness::generate::{damage_bytes, program_input};
use captions_harness::random::Random;
use captions_harness::{run_vectors, Library, Model};

const PROGRAM: &str = concat!(env!("CARGO_MANIFEST_DIR"), "/../../target/bin/sample_table");
const ROUNDS: u64 = 500;
const SEED: u64 = 20_000;
/// The longest file.
const MOST: usize = 32 * 1024;
/// The bytes of one read of standard input.
const CHUNK: usize = 64 * 1024;
const BAD_LINE: &[u8] = b"refused 10 0\n";
const NO_FILE: &[u8] = b"refused 9 0\n";

/// A folder of its own, removed in the end.
struct Folder(PathBuf);

impl Folder {
    fn new() -> Self {
        static COUNT: AtomicUsize = AtomicUsize::new(0);
        let number = COUNT.fetch_add(1, Ordering::Relaxed);
        let name = format!("sample_table-{}-{number}", std::process::id());
        let path = std::env::temp_dir().join(name);
        fs::create_dir_all(&path).expect("a folder can be made");
        Folder(path)
    }
}

impl Drop for Folder {
    fn drop(&mut self) {
        fs::remove_dir_all(&self.0).expect("the folder can be removed");
    }
}

/// What stands under a file's name.
#[derive(Debug)]
enum Place {
    Bytes(Vec<u8>),
    /// A file without permissions, which only root reads.
    Shut(Vec<u8>),
    /// A link to a file.
    Link(Vec<u8>),
    Missing,
    Folder,
    /// A link to what is not there.
    Dangling,
    /// A socket, which cannot be opened.
    Socket,
    /// No bytes at all, and bytes without end.
    Null,
    Zero,
}

impl Place {
    fn put(&self, path: &Path) -> io::Result<()> {
        match self {
            Place::Bytes(bytes) => fs::write(path, bytes),
            Place::Shut(bytes) => {
                fs::write(path, bytes)?;
                fs::set_permissions(path, Permissions::from_mode(0o000))
            }
            Place::Link(bytes) => {
                let target = path.with_extension("linked");
                fs::write(&target, bytes)?;
                symlink(target, path)
            }
            Place::Missing => Ok(()),
            Place::Folder => fs::create_dir(path),
            Place::Dangling => symlink(path.with_extension("nowhere"), path),
            Place::Socket => UnixListener::bind(path).map(drop),
            Place::Null => symlink("/dev/null", path),
            Place::Zero => symlink("/dev/zero", path),
        }
    }
}

/// What this process reads of a file, none where that fails; never more than a byte too much.
fn read(path: &Path) -> Option<Vec<u8>> {
    let mut bytes = Vec::new();
    let file = File::open(path).ok()?;
    file.take(MOST as u64 + 1).read_to_end(&mut bytes).ok()?;
    Some(bytes)
}

/// How standard input comes.
#[derive(Debug)]
enum Feed {
    Whole,
    /// In pieces that end at these places, with pauses between.
    Pieces(Vec<usize>),
    /// From a file.
    File,
    /// From a socket whose other side breaks off behind the bytes, so that a read fails.
    Broken,
    /// From a folder, of which every read fails.
    Folder,
}

impl Feed {
    /// What the model is given: where a read fails the line is a bad one.
    fn line<'a>(&self, input: &'a [u8]) -> &'a [u8] {
        match self {
            Feed::Broken | Feed::Folder => b"",
            _ => input,
        }
    }

    fn start(&self, folder: &Path, input: &[u8]) -> io::Result<Child> {
        let from = match self {
            Feed::Whole | Feed::Pieces(_) => Stdio::piped(),
            Feed::File => {
                let path = folder.join("line");
                fs::write(&path, input)?;
                File::open(path)?.into()
            }
            Feed::Broken => broken(input)?.into(),
            Feed::Folder => File::open(folder)?.into(),
        };
        let mut child = Command::new(PROGRAM)
            .current_dir(folder)
            .stdin(from)
            .stdout(Stdio::piped())
            .stderr(Stdio::piped())
            .spawn()?;
        let Some(mut stdin) = child.stdin.take() else {
            return Ok(child);
        };
        let mut begin = 0;
        let cuts: &[usize] = if let Feed::Pieces(cuts) = self {
            cuts
        } else {
            &[]
        };
        for &end in cuts {
            write(&mut stdin, &input[begin..end])?;
            begin = end;
            sleep(Duration::from_micros(500));
        }
        write(&mut stdin, &input[begin..])?;
        Ok(child)
    }
}

/// Writes all; the program may have stopped reading a line that is bad already.
fn write(to: &mut impl Write, bytes: &[u8]) -> io::Result<()> {
    match to.write_all(bytes) {
        Err(e) if e.kind() == io::ErrorKind::BrokenPipe => Ok(()),
        other => other,
    }
}

/// A stream of these bytes on which a further read fails: the other side is closed with a byte
/// unread.
fn broken(bytes: &[u8]) -> io::Result<OwnedFd> {
    let (mut ours, mut other) = UnixStream::pair()?;
    ours.write_all(b"x")?;
    other.write_all(bytes)?;
    drop(other);
    Ok(ours.into())
}

/// The output of the program, which always ends with status 0 and says nothing else.
fn run(folder: &Folder, feed: &Feed, input: &[u8]) -> Vec<u8> {
    let child = feed.start(&folder.0, input);
    let child = child.expect("`tools/build program` makes the program");
    let output = child.wait_with_output().expect("the program ends");
    assert_eq!(output.status.code(), Some(0), "{output:?}");
    assert!(output.stderr.is_empty(), "{output:?}");
    output.stdout
}

/// What the program answers with these things under the names of its files, and the model with
/// what can be read of them.
fn both(feed: &Feed, input: &[u8], records: &Place, pool: &Place) -> [Vec<u8>; 2] {
    let folder = Folder::new();
    let [first, second] = ["cues.rec", "cues.pool"].map(|name| folder.0.join(name));
    records.put(&first).expect("the records can be put there");
    pool.put(&second).expect("the pool can be put there");
    let [records, pool] = [read(&first), read(&second)];
    let model = Model.program(feed.line(input), records.as_deref(), pool.as_deref());
    let model = model.expect("the model has the program's answer");
    [run(&folder, feed, input), model]
}

struct Program;

impl Library for Program {
    fn program(
        &self,
        input: &[u8],
        records: Option<&[u8]>,
        pool: Option<&[u8]>,
    ) -> Option<Vec<u8>> {
        let place = |file: Option<&[u8]>| match file {
            Some(bytes) => Place::Bytes(bytes.to_vec()),
            None => Place::Missing,
        };
        let [output, _] = both(&Feed::Whole, input, &place(records), &place(pool));
        Some(output)
    }
}

#[test]
fn the_program_agrees() {
    let vectors = Path::new(concat!(env!("CARGO_MANIFEST_DIR"), "/../vectors"));
    let report = run_vectors(&Program, vectors).expect("the vectors can be read");
    assert_eq!(report.faults(), 0, "\n{report}");
    assert!(report.agreed() >= 100, "\n{report}");
}

/// Mostly the bytes; else of another length, or what has none.
fn any_place(random: &mut Random, file: Option<Vec<u8>>) -> Place {
    let Some(mut bytes) = file else {
        return Place::Missing;
    };
    match random.below(60) {
        0 => return Place::Missing,
        1 => return Place::Folder,
        2 => return Place::Dangling,
        3 => return Place::Socket,
        4 => return Place::Null,
        5 => return Place::Zero,
        6 => return Place::Shut(bytes),
        7 => return Place::Link(bytes),
        8 => bytes.clear(),
        9..=11 => bytes.resize(MOST, 0),
        12 => bytes.resize(MOST + 1, 0),
        13 => bytes.resize(MOST + random.within(2, 99_999), 0),
        14 => damage_bytes(random, &mut bytes),
        _ => {}
    }
    Place::Bytes(bytes)
}

/// Mostly the line; else one of more than a read, or with much behind it.
fn any_line(random: &mut Random, mut line: Vec<u8>) -> Vec<u8> {
    let much = random.within(CHUNK - 20, 3 * CHUNK);
    match random.below(40) {
        0 => line.splice(..0, vec![b'0'; much]).for_each(drop),
        1 => line.splice(..0, vec![b'9'; much]).for_each(drop),
        2 => line.extend(vec![b'\n'; much]),
        3 => line = vec![random.byte(); much],
        4 => line.clear(),
        _ => {}
    }
    line
}

fn any_feed(random: &mut Random, line: &[u8]) -> Feed {
    match random.below(24) {
        0..=5 => {
            let cuts = random.within(1, 5);
            let mut cuts: Vec<usize> = (0..cuts).map(|_| random.below(line.len() + 1)).collect();
            cuts.sort_unstable();
            Feed::Pieces(cuts)
        }
        6 | 7 => Feed::File,
        8 if line.len() < 1000 => Feed::Broken,
        9 if random.percent(30) => Feed::Folder,
        _ => Feed::Whole,
    }
}

#[test]
fn random_inputs_agree() {
    let (mut tables, mut bad_lines, mut no_files, mut others) = (0, 0, 0, 0);
    for round in 0..ROUNDS {
        let random = &mut Random::new(SEED + round);
        let made = program_input(random);
        let line = any_line(random, made.input);
        let records = any_place(random, made.records);
        let pool = any_place(random, made.pool);
        let feed = any_feed(random, &line);
        let [output, model] = both(&feed, &line, &records, &pool);
        let shown = String::from_utf8_lossy(&output);
        let wanted = String::from_utf8_lossy(&model);
        assert!(
            output == model,
            "round {round} of seed {SEED}, {feed:?}: {shown} for {wanted}\n{records:?}\n{pool:?}"
        );
        match &output[..] {
            BAD_LINE => bad_lines += 1,
            NO_FILE => no_files += 1,
            other if other.starts_with(b"refused") => others += 1,
            _ => tables += 1,
        }
    }
    let counts = [tables, bad_lines, no_files, others];
    assert!(counts.iter().all(|&n| n >= ROUNDS / 20), "{counts:?}");
}

const LINE: &[u8] = b"90000 1000\n";
const RECORD: [u8; 24] = [
    0, 0, 0, 7, 0, 0, 0, 0, 0, 0, 3, 0xE8, 0, 0, 0, 0, 0, 0, 0, 0, 0, 2, 0, 0,
];

/// The program's output for the one cue, with other things in place of line and files.
fn one_cue(feed: &Feed, line: &[u8], records: Option<Place>, pool: Option<Place>) -> Vec<u8> {
    let records = records.unwrap_or(Place::Bytes(RECORD.to_vec()));
    let pool = pool.unwrap_or(Place::Bytes(b"Hi".to_vec()));
    let [output, model] = both(feed, line, &records, &pool);
    assert_eq!(output, model, "{feed:?} {records:?} {pool:?}");
    output
}

#[test]
fn a_file_that_cannot_be_read_is_missing() {
    type Make = fn() -> Place;
    let unread: [Make; 5] = [
        || Place::Missing,
        || Place::Folder,
        || Place::Dangling,
        || Place::Socket,
        || Place::Zero,
    ];
    for make in unread {
        assert_eq!(one_cue(&Feed::Whole, LINE, Some(make()), None), NO_FILE);
        assert_eq!(one_cue(&Feed::Whole, LINE, None, Some(make())), NO_FILE);
        assert_eq!(one_cue(&Feed::Whole, b"", Some(make()), None), BAD_LINE);
    }
    let linked = Some(Place::Link(b"Hi".to_vec()));
    assert_eq!(one_cue(&Feed::Whole, LINE, None, linked), b"90000 30\n");
    let nothing = (Some(Place::Null), Some(Place::Null));
    assert_eq!(
        one_cue(&Feed::Whole, LINE, nothing.0, nothing.1),
        b"90000 8\n"
    );
}

#[test]
fn a_file_may_have_32768_bytes() {
    let pool = |len| {
        let mut bytes = b"Hi".to_vec();
        bytes.resize(len, b'x');
        Some(Place::Bytes(bytes))
    };
    assert_eq!(one_cue(&Feed::Whole, LINE, None, pool(MOST)), b"90000 30\n");
    assert_eq!(one_cue(&Feed::Whole, LINE, None, pool(MOST + 1)), NO_FILE);
    assert_eq!(one_cue(&Feed::Whole, LINE, None, pool(MOST + 2)), NO_FILE);
    let records = |len| Some(Place::Bytes(vec![0; len]));
    assert_eq!(
        one_cue(&Feed::Whole, LINE, records(MOST), None),
        b"refused 1 0\n"
    );
    assert_eq!(
        one_cue(&Feed::Whole, LINE, records(MOST + 1), None),
        NO_FILE
    );
}

#[test]
fn a_line_may_come_in_many_reads() {
    let each = Feed::Pieces((1..LINE.len()).collect());
    assert_eq!(one_cue(&each, LINE, None, None), b"90000 30\n");
    let mut long = vec![b'0'; 5 * CHUNK];
    long.extend(LINE);
    for feed in [
        Feed::Whole,
        Feed::File,
        Feed::Pieces(vec![CHUNK - 1, CHUNK]),
    ] {
        assert_eq!(one_cue(&feed, &long, None, None), b"90000 30\n");
    }
    long.push(b'\n');
    assert_eq!(one_cue(&Feed::Whole, &long, None, None), BAD_LINE);
}

#[test]
fn a_read_that_fails_makes_the_line_bad() {
    assert_eq!(one_cue(&Feed::Whole, LINE, None, None), b"90000 30\n");
    assert_eq!(one_cue(&Feed::Broken, LINE, None, None), BAD_LINE);
    assert_eq!(one_cue(&Feed::Broken, b"", None, None), BAD_LINE);
    assert_eq!(one_cue(&Feed::Folder, LINE, None, None), BAD_LINE);
}

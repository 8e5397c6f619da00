//! The install step: what it puts where, that programs build with it, and that the manual page and
//! the completion keep up with the command.

use std::collections::BTreeSet;
use std::env;
use std::ffi::{OsStr, OsString};
use std::fs;
use std::path::{Path, PathBuf};
use std::process::{Command, Output};
use std::sync::{Mutex, OnceLock, PoisonError};

const VERSION: &str = env!("CARGO_PKG_VERSION");

/// Everything that is installed with the default folders, below the prefix.
const FILES: [&str; 9] = [
    "bin/captions",
    "include/captions.h",
    "lib/libcaptions.a",
    "lib/libcaptions.so",
    "lib/libcaptions.so.MINOR",
    "lib/libcaptions.so.VERSION",
    "lib/pkgconfig/captions.pc",
    "share/bash-completion/completions/captions",
    "share/man/man1/captions.1",
];

/// README's first program.
const PROGRAM: &str = r#"
#include <captions.h>
#include <stdio.h>

int main(void) {
    static const uint8_t records[] = {0, 0, 0, 7, 0, 0, 0, 0, 0, 0, 3, 232, 0, 0, 0, 0, 0, 0, 0, 0, 0, 2, 0, 0};
    static const uint8_t pool[] = {'H', 'i'};
    static uint8_t table[64], samples[256];
    CaptionsPacked packed = captions_wvtt_pack(90000, 1000, records, sizeof records, pool, sizeof pool, table, sizeof table,
                                               samples, sizeof samples);
    if (packed.refusal.number != CAPTIONS_DONE) return 1;
    printf("%s: %zu sample, %zu bytes of table, %zu of samples\n", CAPTIONS_VERSION, packed.samples, packed.table_bytes, packed.sample_bytes);
    return 0;
}
"#;

fn top() -> PathBuf {
    Path::new(env!("CARGO_MANIFEST_DIR")).join("../..")
}

/// The static library that the command links, too.
fn staticlib() -> PathBuf {
    let given = env::var_os("CAPTIONS_LIB_DIR");
    let folder = given.unwrap_or("../../target/staticlib".into());
    let crates = top().join("rust/captions");
    crates.join(folder).join("libcaptions.a")
}

/// An empty folder for a test, with a space in its name.
fn fresh(name: &str) -> PathBuf {
    let folder = Path::new(env!("CARGO_TARGET_TMPDIR")).join(format!("install {name}"));
    fs::remove_dir_all(&folder).ok();
    fs::create_dir_all(&folder).expect("a folder can be made");
    folder
}

/// `NAME=value` for make.
fn variable(name: &str, value: impl AsRef<OsStr>) -> OsString {
    let mut whole = OsString::from(format!("{name}="));
    whole.push(value);
    whole
}

/// Runs make with a command and a static library that are built already, so neither cargo nor the
/// kit runs. One at a time, since they share the folder for what they build.
fn make(target: &str, variables: &[OsString]) -> Output {
    static ONE: Mutex<()> = Mutex::new(());
    let _one = ONE.lock().unwrap_or_else(PoisonError::into_inner);
    let mut make = Command::new("make");
    for name in [
        "MAKEFLAGS",
        "MAKELEVEL",
        "DESTDIR",
        "PREFIX",
        "BINDIR",
        "LIBDIR",
        "INCLUDEDIR",
        "MANDIR",
        "COMPLETIONDIR",
        "INSTALL",
        "LDFLAGS",
    ] {
        make.env_remove(name);
    }
    make.arg(target).current_dir(top());
    make.arg(variable("COMMAND", env!("CARGO_BIN_EXE_captions")));
    make.arg(variable("STATICLIB", staticlib()));
    make.arg("CARGO=false").args(variables);
    make.output().expect("make runs")
}

/// The same where it has to work.
fn made(target: &str, variables: &[OsString]) {
    done("make", make(target, variables));
}

/// What a program printed, which has to work.
fn done(name: &str, output: Output) -> String {
    let errors = String::from_utf8_lossy(&output.stderr);
    assert!(output.status.success(), "{name}: {errors}");
    String::from_utf8(output.stdout).expect("text")
}

fn run(command: &mut Command) -> String {
    let name = format!("{command:?}");
    let output = command.output();
    done(&name, output.unwrap_or_else(|why| panic!("{name}: {why}")))
}

/// The folder into which it is installed once for all tests.
fn prefix() -> &'static Path {
    static PREFIX: OnceLock<PathBuf> = OnceLock::new();
    PREFIX.get_or_init(|| {
        let prefix = fresh("prefix");
        made("install", &[variable("PREFIX", &prefix)]);
        prefix
    })
}

fn installed(name: &str) -> String {
    fs::read_to_string(prefix().join(name)).expect("it is installed")
}

/// The files and links in a folder at any depth.
fn files_in(folder: &Path) -> BTreeSet<PathBuf> {
    let mut found = BTreeSet::new();
    for entry in fs::read_dir(folder).expect("a folder").flatten() {
        match entry.file_type().expect("a kind").is_dir() {
            true => found.extend(files_in(&entry.path())),
            false => drop(found.insert(entry.path())),
        }
    }
    found
}

/// The version without its last part.
fn minor() -> &'static str {
    VERSION.rsplit_once('.').expect("three parts").0
}

/// The files that are to be below a prefix.
fn wanted(prefix: &Path) -> BTreeSet<PathBuf> {
    let names = FILES.map(|name| name.replace("MINOR", minor()).replace("VERSION", VERSION));
    names.iter().map(|name| prefix.join(name)).collect()
}

#[test]
fn every_file_is_there() {
    assert_eq!(files_in(prefix()), wanted(prefix()));
    for name in [
        "libcaptions.so".into(),
        format!("libcaptions.so.{}", minor()),
    ] {
        let link = fs::read_link(prefix().join("lib").join(name)).expect("a link");
        assert_eq!(link, Path::new(&format!("libcaptions.so.{VERSION}")));
    }
}

#[test]
fn the_command_runs() {
    let version = run(Command::new(prefix().join("bin/captions")).arg("--version"));
    assert_eq!(version, format!("captions {VERSION}\n"));
}

#[test]
fn versions_are_the_same() {
    assert_eq!(captions::VERSION, VERSION);
    let header = format!("#define CAPTIONS_VERSION \"{VERSION}\"\n");
    assert!(installed("include/captions.h").contains(&header));
    let told = run(pkg_config(Command::new("pkg-config")).args(["--modversion", "captions"]));
    assert_eq!(told.trim(), VERSION);
    let title = format!("\"captions {VERSION}\"");
    assert!(installed("share/man/man1/captions.1").contains(&title));
}

fn pkg_config(mut command: Command) -> Command {
    command.env("PKG_CONFIG_PATH", prefix().join("lib/pkgconfig"));
    command
}

/// Builds README's first program with the flags of pkg-config and nothing else, and runs it.
fn build_and_run(name: &str, flags: &str, libraries: &Path) -> (String, String) {
    let folder = fresh(name);
    fs::write(folder.join("first.c"), PROGRAM).expect("it can be written");
    // The flags have their spaces escaped.
    let script = format!("eval \"cc -Wall -Wextra -Werror first.c {flags} -o first\"");
    let mut shell = pkg_config(Command::new("sh"));
    run(shell.args(["-ec", &script]).current_dir(&folder));
    let program = folder.join("first");
    let needs = run(Command::new("readelf").arg("-d").arg(&program));
    let printed = run(Command::new(&program).env("LD_LIBRARY_PATH", libraries));
    (printed, needs)
}

#[test]
fn programs_build_with_either_library() {
    let wanted = format!("{VERSION}: 1 sample, 8 bytes of table, 30 of samples\n");
    let soname = format!("[libcaptions.so.{}]", minor());
    let lib = prefix().join("lib");
    let flags = "$(pkg-config --cflags --libs captions)";
    let (printed, needs) = build_and_run("shared", flags, &lib);
    assert_eq!(printed, wanted);
    assert!(needs.contains(&soname), "{needs}");
    let flags = "-Wl,-Bstatic $(pkg-config --static --cflags --libs captions) -Wl,-Bdynamic";
    let (printed, needs) = build_and_run("static", flags, Path::new(""));
    assert_eq!(printed, wanted);
    assert!(!needs.contains("libcaptions"), "{needs}");
}

#[test]
fn the_shared_library_is_named_and_closed() {
    let library = prefix().join("lib/libcaptions.so");
    let says = run(Command::new("readelf").arg("-dlW").arg(&library));
    let soname = format!("Library soname: [libcaptions.so.{}]", minor());
    for wanted in [&soname, "BIND_NOW", "GNU_RELRO"] {
        assert!(says.contains(wanted), "{wanted}: {says}");
    }
    assert!(!says.contains("TEXTREL") && !says.contains("RWE"), "{says}");
}

/// The functions that the header declares; one that it defines is not among them.
fn declared(header: &str) -> BTreeSet<&str> {
    let plain = header.split("/*");
    let plain = plain.map(|part| part.split_once("*/").map_or(part, |(_, behind)| behind));
    let lines = plain.flat_map(str::lines);
    let types = ["Captions", "uint"];
    let lines = lines.filter(|line| types.iter().any(|name| line.starts_with(name)));
    let names = lines.filter_map(|line| line.split_once('('));
    let names = names.map(|(before, _)| before.rsplit([' ', '*']).next().unwrap_or(before));
    names.collect()
}

#[test]
fn exactly_the_declared_functions_are_exported() {
    let library = prefix().join("lib/libcaptions.so");
    let listed = run(Command::new("nm")
        .args(["-D", "--defined-only"])
        .arg(library));
    let exported = listed.lines().filter_map(|line| line.rsplit(' ').next());
    let header = installed("include/captions.h");
    let declared = declared(&header);
    assert!(declared.contains("captions_wvtt_pack") && !declared.contains("captions_reason"));
    assert_eq!(exported.collect::<BTreeSet<_>>(), declared);
}

#[test]
fn packages_are_staged_and_taken_away() {
    let stage = fresh("stage");
    let variables = [
        variable("DESTDIR", &stage),
        variable("PREFIX", "/opt/all captions"),
        variable("LIBDIR", "/opt/all captions 64/lib"),
    ];
    made("install", &variables);
    let found = files_in(&stage);
    made("install", &variables);
    assert_eq!(files_in(&stage), found, "the second time");
    assert_eq!(found.len(), FILES.len());
    assert!(found.contains(&stage.join("opt/all captions/bin/captions")));
    let config = stage.join("opt/all captions 64/lib/pkgconfig/captions.pc");
    let config = fs::read_to_string(config).expect("it is there");
    for line in [
        "prefix=/opt/all captions",
        "libdir=/opt/all captions 64/lib",
        "includedir=${prefix}/include",
    ] {
        assert!(config.lines().any(|other| other == line), "{line}");
    }
    made("uninstall", &variables);
    assert_eq!(files_in(&stage), BTreeSet::new());
    made("uninstall", &variables);
}

#[test]
fn what_fails_is_told() {
    let nowhere = fresh("nowhere").join("there");
    for (variables, words) in [
        ([variable("PREFIX", "relative")], "has to begin with /"),
        ([variable("DESTDIR", "/dev/null")], "/dev/null"),
        ([variable("STATICLIB", &nowhere)], "there"),
    ] {
        let mut all = vec![variable("PREFIX", &nowhere)];
        all.extend(variables);
        let output = make("install", &all);
        let errors = String::from_utf8_lossy(&output.stderr);
        assert!(
            !output.status.success() && errors.contains(words),
            "{errors}"
        );
        assert!(!nowhere.exists(), "{words}");
    }
}

/// What the command prints as help.
fn help(args: &[&str]) -> String {
    run(Command::new(env!("CARGO_BIN_EXE_captions"))
        .args(args)
        .arg("--help"))
}

/// The commands that the help names, each at the begin of a line behind two spaces.
fn commands() -> Vec<String> {
    let help = help(&[]);
    let rows = help.lines().filter_map(|line| line.strip_prefix("  "));
    let rows = rows.filter(|row| row.starts_with(|first: char| first.is_ascii_lowercase()));
    let names = rows.filter_map(|row| row.split(' ').next());
    names.map(String::from).collect()
}

/// The words of a text that begin with `--` and go on with letters.
fn options(text: &str) -> BTreeSet<&str> {
    let words = text.split(|letter: char| !letter.is_ascii_lowercase() && letter != '-');
    let options = words.map(|word| word.trim_end_matches('-'));
    options.filter(|word| word.starts_with("--")).collect()
}

#[test]
fn the_manual_has_every_command_and_option() {
    let manual = installed("share/man/man1/captions.1").replace("\\-", "-");
    let known = options(&manual);
    let commands = commands();
    assert_eq!(commands.len(), 11);
    for command in &commands {
        let title = format!(".SS {command} ");
        assert!(manual.contains(&title), "{command}");
        let help = help(&[command]);
        let missing: Vec<_> = options(&help).difference(&known).copied().collect();
        assert!(missing.is_empty(), "{command}: {missing:?}");
    }
    let helps: String = commands.iter().map(|command| help(&[command])).collect();
    let others = BTreeSet::from(["--help", "--version", "--name"]);
    let told = options(&helps);
    let needless = known.difference(&told).copied();
    assert_eq!(needless.collect::<BTreeSet<_>>(), others);
}

#[test]
fn the_manual_renders_without_warnings() {
    let page = prefix().join("share/man/man1/captions.1");
    let groff = Command::new("groff")
        .args(["-man", "-ww", "-Tutf8", "-P-cbou"])
        .arg(page)
        .output();
    let Ok(output) = groff else {
        return; // there is no groff
    };
    assert_eq!(String::from_utf8_lossy(&output.stderr), "");
    let shown = done("groff", output);
    for part in [
        "COMMANDS",
        "EXIT STATUS",
        "DIAGNOSTICS",
        "LIMITS",
        "EXAMPLES",
    ] {
        assert!(shown.contains(part), "{part}");
    }
}

/// The blocks of the manual's examples, as one types them.
fn examples(manual: &str) -> Vec<String> {
    let blocks = manual.split(".EX\n").skip(1);
    let blocks = blocks.filter_map(|block| block.split_once(".EE\n"));
    blocks
        .map(|(block, _)| block.replace("\\-", "-").replace("\\e", "\\"))
        .collect()
}

#[test]
fn the_manual_s_examples_run() {
    let folder = fresh("examples");
    let manual = installed("share/man/man1/captions.1");
    let examples = examples(&manual);
    let (file, scripts) = examples.split_first().expect("there are examples");
    fs::write(folder.join("talk.vtt"), file).expect("it can be written");
    for kind in ["entry", "table", "samples"] {
        let from = top().join("examples/tx3g").join(format!("stock.{kind}"));
        fs::copy(from, folder.join(format!("old.{kind}"))).expect("the example is there");
    }
    let mut path = prefix().join("bin").into_os_string();
    path.push(":");
    path.push(env::var_os("PATH").unwrap_or_default());
    let mut outputs = scripts.iter().map(|script| {
        let mut shell = Command::new("sh");
        shell.args(["-c", script]).env("PATH", &path);
        let output = shell.current_dir(&folder).output().expect("sh runs");
        let errors = String::from_utf8_lossy(&output.stderr).into_owned();
        (output.status.code(), errors)
    });
    assert_eq!(outputs.next(), Some((Some(0), String::new())));
    assert_eq!(outputs.next(), Some((Some(0), String::new())));
    let (status, errors) = outputs.next().expect("the byte");
    let refused = errors.lines().last().unwrap_or_default();
    assert!(refused.starts_with("refused 16 at sample 1: "), "{errors}");
    assert!(refused.contains("500"), "{errors}");
    assert_eq!(status, Some(1));
    assert_eq!(outputs.next().expect("the picture").0, Some(1));
    assert!(folder.join("talk.svg").exists());
    assert_eq!(outputs.next(), Some((Some(0), String::new())));
    assert_eq!(outputs.next(), Some((Some(0), String::new())));
    assert_eq!(outputs.next().expect("unpacking").0, Some(0));
    assert_eq!(outputs.next(), Some((Some(0), String::new())));
    assert!(folder.join("old.vtt").exists());
    assert_eq!(outputs.next(), None);
}

/// What bash offers for the last of these words, sorted.
fn completed(words: &[&str]) -> Vec<String> {
    static FOLDER: OnceLock<PathBuf> = OnceLock::new();
    let folder = FOLDER.get_or_init(|| {
        let folder = fresh("completion");
        for name in [
            "my talk.rec",
            "my talk.pool",
            "b.vtt",
            "c.table",
            "c.samples",
            "c.entry",
        ] {
            fs::write(folder.join(name), "").expect("it can be written");
        }
        fs::create_dir(folder.join("sub")).expect("a folder can be made");
        folder
    });
    let script = "set -u; source \"$0\"; COMP_WORDS=(captions \"$@\") COMP_CWORD=$#; _captions; \
                  [[ ${#COMPREPLY[@]} == 0 ]] || printf '%s\\n' \"${COMPREPLY[@]}\"";
    let mut bash = Command::new("bash");
    bash.args(["--norc", "-c", script]).current_dir(folder);
    bash.arg(prefix().join("share/bash-completion/completions/captions"));
    let mut answers: Vec<_> = run(bash.args(words)).lines().map(String::from).collect();
    answers.sort();
    answers
}

#[test]
fn completion_offers_files_and_kinds() {
    for (words, wanted) in [
        (&["p"][..], &["pack", "profile"][..]),
        (&["profile", ""], &["b.vtt", "my talk", "sub"]),
        (&["--v"], &["--version"]),
        (&["pack", ""], &["b.vtt", "my talk", "sub"]),
        (&["pack", "my\\ t"], &["my talk"]),
        (&["pack", "b.vtt", "--scale", "1000", ""], &["c", "sub"]),
        (
            &["pack", "--scale", "=", "1000", "b.vtt", ""],
            &["c", "sub"],
        ),
        (
            &["pack", "--t", "00", ":", "01.000", "b.vtt", ""],
            &["c", "sub"],
        ),
        (&["pack", "--header", "c.e"], &["c.entry"]),
        (&["pack", "--label", ""], &[]),
        (&["unpack", ""], &["c", "sub"]),
        (&["unpack", "--", "c", ""], &["b.vtt", "my talk", "sub"]),
        (&["judge", "t"], &["track", "tx3g"]),
        (&["judge", "vtt", ""], &["b.vtt", "sub"]),
        (&["judge", "tx3g", "c.entry", "c.s"], &["c.samples"]),
        (&["s"], &["settings", "show"]),
        (&["settings", ""], &["b.vtt", "my talk", "sub"]),
        (&["settings", "b.vtt", ""], &["b.vtt", "my talk", "sub"]),
        (&["settings", "--header", "c.e"], &["c.entry"]),
        (&["show", "s"], &["sample"]),
        (&["show", "entry", "--"], &["--help", "--json", "--out"]),
        (&["show", "list", "b.vtt", "--track", ""], &["c", "sub"]),
        (&["from-vtt", ""], &["b.vtt", "sub"]),
        (&["from-3gpp", ""], &["c", "sub"]),
        (&["from-3gpp", "c", "c", ""], &["b.vtt", "my talk", "sub"]),
        (&["d"], &["drop-zero-durations"]),
        (&["drop-zero-durations", ""], &["c", "sub"]),
        (&["nothing", ""], &[]),
    ] {
        assert_eq!(completed(words), wanted, "{words:?}");
    }
}

#[test]
fn completion_offers_every_command_and_option() {
    let offered = completed(&[""]);
    for command in commands() {
        assert!(offered.contains(&command), "{command}");
        let known = completed(&[&command, "--"]);
        let help = help(&[&command]);
        for option in options(&help) {
            assert!(
                known.iter().any(|known| known == option),
                "{command} {option}"
            );
        }
    }
}

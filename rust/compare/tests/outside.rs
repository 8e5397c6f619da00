//! A crate elsewhere needs nothing but the path of the Rust crate.

use std::fs;
use std::path::Path;
use std::process::Command;

const MAIN: &str = r#"
fn main() -> Result<(), captions::Refusal> {
    let mut list = captions::CueList::new();
    list.push_auto(captions::ListedCue { end_ms: 500, payload: "Hi", ..Default::default() })?;
    let track = captions::wvtt::Track::pack(1000, 1000, &list)?;
    println!("{}", track.len());
    Ok(())
}
"#;

/// A package that depends on the Rust crate by its path.
fn manifest() -> String {
    let path = Path::new(env!("CARGO_MANIFEST_DIR")).join("../captions");
    let path = path.canonicalize().expect("the crate is there");
    format!(
        "[package]\nname = \"outside\"\nversion = \"0.1.0\"\nedition = \"2021\"\n\n\
         [dependencies]\ncaptions = {{ path = {path:?} }}\n\n[workspace]\n"
    )
}

#[test]
fn a_crate_outside_the_tree_can_use_it() {
    let folder = std::env::temp_dir().join(format!("captions-outside-{}", std::process::id()));
    fs::create_dir_all(folder.join("src")).expect("a folder can be made");
    fs::write(folder.join("Cargo.toml"), manifest()).expect("a file can be written");
    fs::write(folder.join("src/main.rs"), MAIN).expect("a file can be written");
    let output = Command::new(env!("CARGO"))
        .args(["run", "--offline", "--quiet"])
        .current_dir(&folder)
        .env_remove("CARGO_TARGET_DIR")
        .output();
    fs::remove_dir_all(&folder).expect("the folder can be removed");
    let output = output.expect("cargo runs");
    let said = String::from_utf8_lossy(&output.stderr);
    assert!(output.status.success(), "{said}");
    assert_eq!(output.stdout, b"2\n", "{said}");
}

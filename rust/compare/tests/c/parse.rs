//! What the header, the Rattle crate and the Rust crate declare, in the words of Rust.

use std::collections::BTreeMap;

/// A name and its type.
pub type Named = (String, String);

/// Parameters in order, and the type of the answer.
pub type Signature = (Vec<Named>, String);

/// Structs with their fields in order, and functions.
#[derive(Debug, Default, PartialEq, Eq)]
pub struct Declared {
    pub structs: BTreeMap<String, Vec<Named>>,
    pub functions: BTreeMap<String, Signature>,
}

/// What the header declares.
pub fn header(text: &str) -> Declared {
    let text = without_notes(text);
    let mut declared = Declared::default();
    for part in text.split("typedef struct ").skip(1) {
        let (name, rest) = part.split_once('{').expect("a struct's body");
        let (body, _) = rest.split_once('}').expect("a struct's end");
        let fields = body.split(';').filter_map(c_named).collect();
        declared.structs.insert(name.trim().to_string(), fields);
    }
    for statement in without_blocks(&text).split(';') {
        let statement = statement.trim();
        let Some((head, parameters)) = statement.split_once('(') else {
            continue;
        };
        if head.starts_with("static inline") {
            continue;
        }
        let (name, answer) = c_named(head).expect("a function");
        let parameters = parameters.trim_end_matches(')');
        let parameters = parameters.split(',').filter_map(c_named).collect();
        declared.functions.insert(name, (parameters, answer));
    }
    declared
}

/// The header without comments, lines of the preprocessor and what only C++ sees.
fn without_notes(text: &str) -> String {
    let mut plain = String::new();
    for (index, part) in text.split("/*").enumerate() {
        let code = if index == 0 {
            part
        } else {
            part.split_once("*/").expect("a comment's end").1
        };
        plain.push_str(code);
    }
    let mut lines = plain.lines();
    let mut kept = Vec::new();
    while let Some(line) = lines.next() {
        if line.starts_with("#ifdef __cplusplus") {
            lines.by_ref().find(|line| line.starts_with("#endif"));
        } else if !line.starts_with('#') {
            kept.push(line);
        }
    }
    kept.join("\n")
}

/// A semicolon in place of every outermost block.
fn without_blocks(text: &str) -> String {
    let mut depth = 0;
    let mut kept = String::new();
    for letter in text.chars() {
        match letter {
            '{' => depth += 1,
            '}' => {
                depth -= 1;
                kept.push(';');
            }
            _ if depth == 0 => kept.push(letter),
            _ => {}
        }
    }
    kept
}

/// `const uint8_t *text` as a name and its type, none for no words.
fn c_named(text: &str) -> Option<Named> {
    let text = text.trim();
    let at = text.rfind([' ', '*'])? + 1;
    let kind = match text[..at].trim() {
        "const uint8_t *" => "*const u8",
        "uint8_t *" => "*mut u8",
        "uint8_t" => "u8",
        "uint16_t" => "u16",
        "uint32_t" => "u32",
        "uint64_t" => "u64",
        "int16_t" => "i16",
        "int32_t" => "i32",
        "size_t" => "usize",
        other => other,
    };
    Some((text[at..].to_string(), kind.to_string()))
}

/// What a Rust or a Rattle file declares for C: structs of its layout, and functions.
pub fn rust(text: &str) -> Declared {
    let lines = text.lines().filter(|line| !line.trim().starts_with("//"));
    let text = lines.collect::<Vec<_>>().join("\n");
    // Lifetimes say nothing of what is passed.
    let text = text.replace("<'a>", "").replace("&'a ", "&");
    let mut declared = Declared::default();
    for part in text.split("#[repr(C)]").skip(1) {
        let (_, part) = part.split_once("pub struct ").expect("a struct");
        let (name, rest) = part.split_once('{').expect("a struct's body");
        let (body, _) = rest.split_once('}').expect("a struct's end");
        let fields = body.split(',').flat_map(rust_named).collect();
        declared.structs.insert(struct_name(name.trim()), fields);
    }
    for part in text.split(" fn captions_").skip(1) {
        let (name, rest) = part.split_once('(').expect("a function");
        let (parameters, rest) = rest.split_once(')').expect("a function's parameters");
        let answer = rest.trim().strip_prefix("-> ").expect("an answer");
        let answer = answer.split(|c: char| c == ';' || c.is_whitespace()).next();
        let answer = struct_name(answer.expect("an answer's type"));
        let parameters = parameters.split(',').flat_map(rust_named).collect();
        let name = format!("captions_{name}");
        declared.functions.insert(name, (parameters, answer));
    }
    declared
}

/// Rattle's refusals stand in another crate under a shorter name.
fn struct_name(name: &str) -> String {
    match name {
        "Refusal" => "CaptionsRefusal".to_string(),
        other => other.to_string(),
    }
}

/// `pub text: &[u8]` as names and types: a slice is a pointer and a length.
fn rust_named(text: &str) -> Vec<Named> {
    let text = text.trim().trim_start_matches("pub ");
    let Some((name, kind)) = text.split_once(':') else {
        return Vec::new();
    };
    let slice = |pointer: &str| {
        let length = (format!("{name}_len"), "usize".to_string());
        vec![(name.to_string(), pointer.to_string()), length]
    };
    match kind.trim() {
        "&[u8]" => slice("*const u8"),
        "&mut [u8]" => slice("*mut u8"),
        other => vec![(name.to_string(), struct_name(other))],
    }
}

/// The header's numbers by name without the prefix: of its defines and its enums.
pub fn numbers(text: &str) -> BTreeMap<String, u64> {
    let defines = text.lines().filter_map(|line| {
        let (name, value) = line.strip_prefix("#define ")?.split_once(' ')?;
        Some((name, value))
    });
    let plain = without_notes(text);
    let enums = plain.split(['{', ',', '}']).filter_map(|item| {
        let (name, value) = item.split_once('=')?;
        Some((name, value))
    });
    let number = |(name, value): (&str, &str)| {
        let name = name.trim().strip_prefix("CAPTIONS_")?.to_string();
        let value = value.split_whitespace().next()?;
        Some((name, value.trim_end_matches('u').parse().ok()?))
    };
    defines.chain(enums).filter_map(number).collect()
}

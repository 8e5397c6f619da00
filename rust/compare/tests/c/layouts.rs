//! Every struct has the same size in C and Rust, and every field the same place and width.

use std::fs;
use std::mem::{offset_of, size_of};

use captions::ffi::*;

use crate::parse::header;
use crate::{run_source, top};

/// The width of the field that a function picks.
fn width<T, F>(_: fn(&T) -> &F) -> usize {
    size_of::<F>()
}

/// A line for each struct, and for each of its fields.
macro_rules! layouts {
    ($($name:ident { $($field:ident)* })*) => {
        vec![$(
            format!("{} {}", stringify!($name), size_of::<$name>()),
            $(format!(
                "{}.{} {} {}",
                stringify!($name),
                stringify!($field),
                offset_of!($name, $field),
                width(|answer: &$name| &answer.$field),
            ),)*
        )*]
    };
}

#[rustfmt::skip]
fn in_rust() -> Vec<String> {
    layouts! {
        CaptionsRefusal { number place offset }
        CaptionsStep { refusal found kind body next }
        CaptionsCue { refusal found named id identifier_from identifier_end settings_from settings_end payload_from payload_end next }
        CaptionsWvttEntry { refusal data_reference_index labelled configuration_from configuration_end label_from label_end }
        CaptionsWritten { refusal bytes }
        CaptionsSettings { vertical line line_align position position_align align line_number line_percent position_percent size }
        CaptionsSettingsRead { refusal settings region_from region_end }
        CaptionsPacked { refusal samples table_bytes sample_bytes }
        CaptionsUnpacked { refusal record_bytes pool_bytes t }
        CaptionsDropped { refusal samples table_bytes sample_bytes }
        CaptionsChecked { refusal who }
        CaptionsVttRead { refusal cues record_bytes pool_bytes }
        CaptionsVttWritten { refusal who bytes }
        CaptionsTx3gEntry {
            refusal data_reference_index display_flags horizontal vertical background_red background_green background_blue
            background_alpha top left bottom right font face size red green blue alpha fonts fonts_from
        }
        CaptionsFont { found id name_from name_end }
        CaptionsCount { refusal characters }
        CaptionsTx3gSample { refusal who characters utf16 text_from text_end modifiers styles styles_from retired_blinking }
        CaptionsStyle { refusal who start end font face size red green blue alpha }
        CaptionsRun { found styled from end font face size red green blue alpha styles styles_from }
        CaptionsTextBox { refusal who in_sample from top left bottom right }
        CaptionsTx3gConverted {
            refusal who cues record_bytes pool_bytes t hlit retired_blinking hclr krok dlay href tbox twrp
        }
        CaptionsModifier { refusal found kind first second third fourth from end alternative_from alternative_end next }
    }
}

/// A program that prints the lines for every struct of the header.
fn program() -> String {
    let text = fs::read_to_string(top().join("include/captions.h"));
    let declared = header(&text.expect("the header can be read"));
    let mut lines = Vec::new();
    for (name, fields) in &declared.structs {
        lines.push(format!(r#"printf("{name} %zu\n", sizeof({name}));"#));
        for (field, _) in fields {
            let (place, width) = (
                format!("offsetof({name}, {field})"),
                format!("sizeof((({name} *)0)->{field})"),
            );
            lines.push(format!(
                r#"printf("{name}.{field} %zu %zu\n", {place}, {width});"#
            ));
        }
    }
    let head = "#include <captions.h>\n#include <stdio.h>\nint main(void) {\n";
    format!("{head}{}\nreturn 0; }}\n", lines.join("\n"))
}

#[test]
fn the_layouts_are_the_same() {
    let output = run_source("layouts", &program());
    let sorted = |lines: Vec<String>| {
        let mut lines = lines;
        lines.sort();
        lines
    };
    let in_c = output.lines().map(str::to_string).collect();
    assert_eq!(sorted(in_c), sorted(in_rust()));
}

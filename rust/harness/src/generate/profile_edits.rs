//! Payloads damaged in every byte, and beginnings of payloads that are ended.

use super::profile::{tagged_text, TELLING};
use crate::random::Random;

/// Short payloads in the profile that show what there is in it.
const BY_HAND: [&str; 11] = [
    "<b>x</b>",
    "<00:00:05.000><b>a<00:00:06.000></b>",
    "<99:59:59.998>a<99:59:59.999>b",
    "<09:59:59.999><10:00:00.000>",
    "<ruby>a<rt>b</rt>c</ruby>",
    "<v.loud A&amp;B>Hi</v>",
    "<lang en-GB><c.y.bg>x</c></lang>",
    "&amp;&lt;&gt;&nbsp;&lrm;&rlm;",
    "<i>\u{e9}</i>\n<u>\u{65e5}</u>",
    "<v\t <b>x</v>",
    "<ruby.a><b></b></ruby>",
];

/// Short payloads in the profile, by hand and then so many random ones.
pub fn short_tagged_texts(count: usize) -> impl Iterator<Item = Vec<u8>> {
    let texts = (0..).map(|seed| tagged_text(&mut Random::new(seed)));
    let short = texts.filter(|text| (8..48).contains(&text.len()));
    let by_hand = BY_HAND.map(|text| text.as_bytes().to_vec());
    by_hand.into_iter().chain(short.take(count))
}

/// Every text that differs in one byte, by the bytes that tell in the profile.
pub fn every_damage(text: &[u8]) -> impl Iterator<Item = Vec<u8>> + '_ {
    every_edit(text, TELLING)
}

/// Every text that differs in one byte: each byte changed to each telling one or taken out, each
/// telling one put in, and the text cut everywhere.
pub fn every_edit<const N: usize>(
    text: &[u8],
    telling: [u8; N],
) -> impl Iterator<Item = Vec<u8>> + '_ {
    (0..=text.len()).flat_map(move |at| {
        let (before, after) = text.split_at(at);
        let behind = after.get(1..);
        let put_in = telling.map(|byte| [before, &[byte], after].concat());
        let changed = telling.map(|byte| behind.map(|behind| [before, &[byte], behind].concat()));
        let taken_out = behind.map(|behind| [before, behind].concat());
        let cut = before.to_vec();
        let damaged = put_in.into_iter().chain(changed.into_iter().flatten());
        damaged.chain(taken_out).chain([cut])
    })
}

/// Parts of the profile, with which others end, too.
const PARTS: [&str; 25] = [
    "&amp;",
    "&lt;",
    "&gt;",
    "&nbsp;",
    "&lrm;",
    "&rlm;",
    "<b>",
    "<i>",
    "<u>",
    "<c>",
    "<ruby>",
    "<rt>",
    "<v x>",
    "<lang x>",
    "<c.x>",
    "<v.x x>",
    "</b>",
    "</i>",
    "</u>",
    "</c>",
    "</v>",
    "</lang>",
    "</ruby>",
    "</rt>",
    "<99:59:59.999>",
];

/// Texts that go on where one stops: with what ends a part that it has begun, an escape in a start
/// tag among them, and then with the end tags of what is open.
pub fn continuations(text: &[u8]) -> impl Iterator<Item = Vec<u8>> + '_ {
    let ends = PARTS
        .iter()
        .flat_map(|part| (0..=part.len()).map(|from| &part[from..]));
    let ends = ends.flat_map(|end| ["", ">"].map(|after| (end, after)));
    ends.map(move |(end, after)| closed([text, end.as_bytes(), after.as_bytes()].concat()))
}

/// With the end tags of what is open. From `<` to the next `>` is a tag or a timestamp.
fn closed(mut text: Vec<u8>) -> Vec<u8> {
    let mut open: Vec<Vec<u8>> = Vec::new();
    let mut left = text.as_slice();
    while let Some(begin) = left.iter().position(|&byte| byte == b'<') {
        left = &left[begin + 1..];
        let Some(end) = left.iter().position(|&byte| byte == b'>') else {
            break;
        };
        match left[0] {
            b'/' => drop(open.pop()),
            b'0'..=b'9' => {}
            _ => {
                let letters = left.iter().take_while(|byte| byte.is_ascii_lowercase());
                open.push(letters.copied().collect());
            }
        }
        left = &left[end + 1..];
    }
    for name in open.iter().rev() {
        text.extend([b"</", name.as_slice(), b">"].concat());
    }
    text
}

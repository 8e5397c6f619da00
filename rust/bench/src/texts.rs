//! Texts.

use captions::{judge_utf8, tx3g, wvtt, Refusal};
use captions_model as plain;

use crate::timing::{compare, measure, row};
use crate::{classes, each, inputs};

pub fn bench(texts: &[Vec<u8>], input: &str) {
    let bytes: Vec<usize> = texts.iter().map(Vec::len).collect();
    let test = |rule: fn(&[u8]) -> bool| each(texts, move |text| usize::from(rule(text)));
    let times = measure(
        &bytes,
        [
            &mut test(|text| judge_utf8(text).is_ok()),
            &mut test(|text| plain::text::utf8_fault(text).is_none()),
            &mut test(classes::is_utf8),
            &mut test(|text| std::str::from_utf8(text).is_ok()),
        ],
    );
    row(["UTF-8", input, "byte"], &times);
    compare(
        ["payload", input, "byte"],
        &bytes,
        [
            &mut test(|text| wvtt::judge_payload(text).is_ok()),
            &mut test(|text| plain::text::payload_fault(text).is_none()),
        ],
    );
    compare(
        ["characters", input, "byte"],
        &bytes,
        [
            &mut each(texts, |text| tx3g::count_characters(text).unwrap_or(0)),
            &mut each(texts, |text| plain::text::characters(text).unwrap_or(0)),
        ],
    );
}

/// Refused texts: both sides say where they are bad.
pub fn bench_bad(at: usize, input: &str) {
    let texts = &inputs::bad_letters(at);
    let ones = vec![1; texts.len()];
    let refused = |offset: Option<usize>| {
        assert_eq!(offset, Some(at), "the text is bad elsewhere");
        at
    };
    let offset = |judged: Result<(), Refusal>| judged.err().map(|r| r.offset);
    compare(
        ["UTF-8", input, "text"],
        &ones,
        [
            &mut each(texts, |text| refused(offset(judge_utf8(text)))),
            &mut each(texts, |text| refused(plain::text::utf8_fault(text))),
        ],
    );
    compare(
        ["payload", input, "text"],
        &ones,
        [
            &mut each(texts, |text| refused(offset(wvtt::judge_payload(text)))),
            &mut each(texts, |text| refused(plain::text::payload_fault(text))),
        ],
    );
}

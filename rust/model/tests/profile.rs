//! The cases of the tag profile.

use captions_model::profile::judge_profile;
use captions_model::Refusal;

fn inside(text: &str) {
    assert_eq!(judge_profile(text.as_bytes()), Ok(()), "{text}");
}

fn outside(text: &str, place: usize) {
    let refused = Err(Refusal::new(21, place));
    assert_eq!(judge_profile(text.as_bytes()), refused, "{text}");
}

#[test]
fn plain_text_is_inside() {
    for text in [
        "",
        "a",
        "a > b",
        "one\ntwo\r\nthree",
        "日本 é",
        "-- ; . / #",
    ] {
        inside(text);
    }
}

#[test]
fn tags_are_closed_by_their_own() {
    inside("<b>a<i>b</i></b><u></u>");
    outside("<b>", 3);
    outside("<b>a", 4);
    outside("<b>a</", 6);
    outside("<b>a</b", 7);
    outside("<b>a</i>", 6);
    outside("<b><i></b></i>", 8);
    outside("</b>", 1);
    outside("<b></b></b>", 8);
    outside("<b></b.c>", 6);
    outside("<b></b >", 6);
}

#[test]
fn names_are_those_of_the_profile() {
    inside("<b></b><i></i><u></u><c></c><v A></v><lang en></lang><ruby></ruby>");
    outside("<B>", 1);
    outside("<>", 1);
    outside("< b>", 1);
    outside("<é>", 1);
    outside("<bb>", 2);
    outside("<lant>", 4);
    outside("<langs>", 5);
    outside("<font>", 1);
    outside("<", 1);
    outside("<la", 3);
}

#[test]
fn rt_stands_in_ruby() {
    inside("<ruby>a<rt>b</rt><i>c</i><rt></rt></ruby>");
    inside("<ruby><rt><ruby><rt>a</rt></ruby></rt></ruby>");
    outside("<rt>", 2);
    outside("<ruby><i><rt>", 11);
    outside("<ruby><rt><rt>", 12);
    outside("<ruby></ruby><rt>", 15);
    outside("<ruby><rt></ruby>", 13);
}

#[test]
fn sixteen_tags_are_open() {
    let nested = |levels: usize| format!("{}{}", "<b>".repeat(levels), "</b>".repeat(levels));
    inside(&nested(16));
    outside(&nested(17), 49);
    let deep = "<ruby><rt>".repeat(8);
    outside(&format!("{deep}<"), 81);
    outside(&format!("{deep}<ruby>"), 81);
    outside(&format!("{deep}<00:00:00.000>"), 94);
    inside(&format!("{deep}{}", "</rt></ruby>".repeat(8)));
    inside(&"<b></b>".repeat(100));
}

#[test]
fn classes_stand_on_every_tag() {
    inside("<b.a></b><ruby.a.b><rt.é>x</rt></ruby><v.x A></v><c./\u{c};></c>");
    outside("<b.>", 3);
    outside("<b..a>", 3);
    outside("<b.a.>", 5);
    outside("<b.a", 4);
    outside("<b.a b>", 4);
    outside("<b.a&amp;>", 4);
    outside("<c.a<b>", 4);
    outside("<c.a\nb>", 4);
}

#[test]
fn v_and_lang_have_an_annotation() {
    inside("<v A></v><v\tA B></v><v  A ></v><v &amp;></v><v <b></v><lang x&lt;y></lang>");
    outside("<v>", 2);
    outside("<v.a>", 4);
    outside("<v >", 3);
    outside("<v \t >", 5);
    outside("<v ", 3);
    outside("<v A", 4);
    outside("<v A\nB>", 4);
    outside("<v A&B>", 5);
    outside("<v A&copy;>", 5);
    outside("<lang>", 5);
    outside("<b A>", 2);
    outside("<ruby A>", 5);
}

#[test]
fn escapes_are_six() {
    inside("&amp;&lt;&gt;&nbsp;&lrm;&rlm;");
    outside("&copy;", 1);
    outside("&AMP;", 1);
    outside("&#38;", 1);
    outside("&;", 1);
    outside("& ", 1);
    outside("a&", 2);
    outside("&lte;", 3);
    outside("&lr;", 3);
    outside("&amp", 4);
    outside("&nbs", 4);
}

#[test]
fn timestamps_rise() {
    inside("<00:00:00.000><00:00:00.001><99:59:59.999>");
    inside("<b><00:00:01.000></b><i><00:00:02.000></i>");
    outside("<00:00:05.000><00:00:04.000>", 22);
    outside("<00:00:05.000><00:00:05.000>", 26);
    outside("<00:00:05.000>a<b><00:00:05", 27);
    outside("<99:59:59.999><99", 15);
    outside("<09:59:59.999><0", 15);
    inside("<09:59:59.999><10:00:00.000>");
    outside("<00:59:59.999><00", 16);
    outside("<00:00:59.999><00:00", 19);
    outside("<00:60:00.000>", 4);
    outside("<00:00:60.000>", 7);
    outside("<0:00:00.000>", 2);
    outside("<100:00:00.000>", 3);
    outside("<00:00.000>", 6);
    outside("<00:00:00,000>", 9);
    outside("<00:00:00.0000>", 13);
    outside("<00:00:00.000", 13);
}

/// The limit, then the text, then the profile.
#[test]
fn length_and_text_are_judged_first() {
    let judged = |text: &[u8]| judge_profile(text).expect_err("it is refused");
    assert_eq!(judged(&[0xFF; 4096]), Refusal::new(9, 0));
    assert_eq!(judged(b"<x>\xFF"), Refusal::bad_text(0, 3));
    assert_eq!(judged(b"<x>\n"), Refusal::bad_text(0, 4));
    assert_eq!(judged(b"<c.-->"), Refusal::bad_text(0, 5));
    assert_eq!(judged(&[b'<'; 4095]), Refusal::new(21, 1));
}

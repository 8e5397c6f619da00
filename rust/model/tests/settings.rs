//! The cases of settings.

use captions_model::settings::*;
use captions_model::{Refusal, Span};

const DEFAULT: Settings = Settings {
    vertical: Vertical::None,
    line: Line::Auto,
    line_align: LineAlign::Start,
    position: Position::Auto,
    position_align: PositionAlign::Auto,
    size: 10_000,
    align: Align::Center,
};

fn reads(text: &str, expected: Settings) {
    let read = read_settings(text.as_bytes());
    assert_eq!(read, Ok((expected, Span::default())), "{text}");
}

fn bad(text: &str, place: usize) {
    let refused = Err(Refusal::new(20, place));
    assert_eq!(read_settings(text.as_bytes()), refused, "{text}");
}

fn form(settings: &Settings, region: &str) -> Result<String, Refusal> {
    let mut text = vec![0; settings_room(settings, region.as_bytes())?];
    write_settings(settings, region.as_bytes(), &mut text)?;
    Ok(String::from_utf8(text).expect("it is UTF-8"))
}

fn writes(settings: Settings, expected: &str) {
    assert_eq!(form(&settings, "").as_deref(), Ok(expected));
}

fn not_written(settings: Settings, region: &str) {
    assert_eq!(form(&settings, region), Err(Refusal::new(8, 0)));
}

fn line(line: Line, line_align: LineAlign) -> Settings {
    Settings {
        line,
        line_align,
        ..DEFAULT
    }
}

fn position(position: Position, position_align: PositionAlign) -> Settings {
    Settings {
        position,
        position_align,
        ..DEFAULT
    }
}

fn sized(size: u16) -> Settings {
    Settings { size, ..DEFAULT }
}

#[test]
fn blanks_lead_part_and_trail() {
    for text in ["", " ", "\t \t"] {
        reads(text, DEFAULT);
    }
    let expected = Settings {
        vertical: Vertical::Lr,
        align: Align::Right,
        ..DEFAULT
    };
    reads("\t vertical:lr \t align:right ", expected);
    bad("vertical:lr\u{c}align:right", 0);
    bad("vertical :lr", 0);
    bad("\u{c}", 0);
}

#[test]
fn lines_are_numbers_or_percentages() {
    for (text, number) in [("-32768", i16::MIN), ("032767", i16::MAX), ("-0", 0)] {
        reads(
            &format!("line:{text}"),
            line(Line::Number(number), LineAlign::Start),
        );
    }
    reads("line:5,end", line(Line::Number(5), LineAlign::End));
    reads("line:0%,start", line(Line::Percent(0), LineAlign::Start));
    reads(
        "line:99.99%,center",
        line(Line::Percent(9999), LineAlign::Center),
    );
    let lines = " auto - --1 +1 1.5 -1% -32769 32768 1, 1,left 1,end,end ,end 5,End 0x5 \u{ff15}";
    for value in lines.split(' ') {
        bad(&format!("line:{value}"), 0);
    }
}

#[test]
fn percentages_have_two_decimals() {
    for (text, hundredths) in [("0%", 0), ("0.1%", 10), ("0.01%", 1), ("100.00%", 10_000)] {
        reads(&format!("size:{text}"), sized(hundredths));
    }
    reads("size:00033.30%", sized(3330));
    let sizes = " % 5 .5% 5.% 50.000% 100.01% 101% 655.36% 65536% -0% +5% 1,5% 5%% 5%,start auto";
    for value in sizes.split(' ') {
        bad(&format!("size:{value}"), 0);
    }
}

#[test]
fn positions_have_their_own_alignments() {
    let half = Position::Percent(5000);
    reads("position:50%", position(half, PositionAlign::Auto));
    for (word, align) in POSITION_ALIGNS {
        reads(&format!("position:50%,{word}"), position(half, align));
    }
    for value in ["auto", "50%,auto", "50%,start", "50%,left", "50", "50%,"] {
        bad(&format!("position:{value}"), 0);
    }
}

#[test]
fn words_are_small() {
    for text in [
        "Vertical:rl",
        "vertical:RL",
        "vertical:none",
        "align:middle",
        "align:",
        "align",
        ":left",
        "foo:1",
        "lines:1",
    ] {
        bad(text, 0);
    }
}

#[test]
fn regions_are_names() {
    let named = |text: &str| {
        let (settings, name) = read_settings(text.as_bytes()).expect("it is read");
        assert_eq!(settings, DEFAULT);
        (name.start, name.of(text.as_bytes()).to_vec())
    };
    assert_eq!(named(" region:a:b "), (8, b"a:b".to_vec()));
    assert_eq!(named("region:\u{e9},%"), (7, "\u{e9},%".into()));
    assert_eq!(named("region:--"), (7, b"--".to_vec()));
    bad("region:", 0);
    bad("region:a\u{c}b", 0);
}

#[test]
fn the_first_bad_setting_is_the_place() {
    bad(" line:1 line:2", 8);
    bad("size:5% line:5 size:5% x", 15);
    bad("size:5% x line:5 size:5%", 8);
    bad("size:5 size:5%", 0);
    bad("region:a\tregion:a", 9);
}

#[test]
fn length_and_text_are_judged_first() {
    let refused = |text: &[u8]| read_settings(text).expect_err("it is refused");
    assert_eq!(refused(&[0xFF; 256]), Refusal::new(9, 0));
    assert_eq!(refused(&[b'x'; 255]), Refusal::new(20, 0));
    assert_eq!(refused(b"x -->"), Refusal::bad_text(0, 4));
    assert_eq!(refused(b"x\n"), Refusal::bad_text(0, 1));
    assert_eq!(refused(b"x\xC3"), Refusal::bad_text(0, 2));
    assert_eq!(read_settings(&[b' '; 255]), Ok((DEFAULT, Span::default())));
}

#[test]
fn the_form_is_short_and_without_defaults() {
    writes(DEFAULT, "");
    writes(line(Line::Number(5), LineAlign::Start), "line:5");
    writes(
        line(Line::Number(-32768), LineAlign::End),
        "line:-32768,end",
    );
    writes(line(Line::Percent(10_000), LineAlign::Start), "line:100%");
    writes(sized(50), "size:0.5%");
    writes(sized(5), "size:0.05%");
    writes(sized(0), "size:0%");
    let all = Settings {
        vertical: Vertical::Rl,
        line: Line::Percent(1234),
        line_align: LineAlign::Center,
        position: Position::Percent(0),
        position_align: PositionAlign::LineRight,
        size: 9990,
        align: Align::Start,
    };
    let expected =
        "vertical:rl line:12.34%,center position:0%,line-right size:99.9% align:start region:r";
    assert_eq!(form(&all, "r").as_deref(), Ok(expected));
}

#[test]
fn what_no_text_gives_is_not_written() {
    not_written(sized(10_001), "");
    not_written(line(Line::Percent(u16::MAX), LineAlign::Start), "");
    not_written(line(Line::Auto, LineAlign::End), "");
    not_written(position(Position::Auto, PositionAlign::Center), "");
    not_written(position(Position::Percent(10_001), PositionAlign::Auto), "");
    for region in [" ", "a b", "a\t", "a\u{c}", "\0", "a\n", "-->", "a line:5"] {
        not_written(DEFAULT, region);
    }
    let left = Settings {
        align: Align::Left,
        ..DEFAULT
    };
    let name = "x".repeat(248);
    assert_eq!(form(&DEFAULT, &name).map(|text| text.len()), Ok(255));
    not_written(left, &name);
    not_written(DEFAULT, &"x".repeat(249));
    assert_eq!(
        settings_room(&DEFAULT, b"\xFF"),
        Err(Refusal::new(8, 0)),
        "no UTF-8"
    );
}

#[test]
fn too_little_room_is_last() {
    let mut room = [7; 6];
    let five = line(Line::Number(5), LineAlign::Start);
    assert_eq!(
        write_settings(&five, b"", &mut room[..5]),
        Err(Refusal::new(15, 0))
    );
    assert_eq!(room, [7; 6]);
    assert_eq!(
        write_settings(&sized(10_001), b"", &mut []),
        Err(Refusal::new(8, 0))
    );
    assert_eq!(write_settings(&five, b"", &mut room), Ok(6));
    assert_eq!(&room, b"line:5");
}

//! `captions show` on files.

mod common;

use captions::wvtt::Track;
use captions::{CueList, ListedCue};
use common::{list, Folder};

/// `captions show` in a folder.
trait Shows {
    /// What is printed, and nothing on standard error.
    fn shows(&self, args: &str) -> String;

    /// What is said on standard error, where nothing is printed.
    fn fails(&self, args: &str, status: i32) -> String;

    /// What is shown of a track that differs: standard output and standard error.
    fn differs(&self, args: &str) -> (String, String);

    /// A file that is a text.
    fn text(&self, name: &str) -> String;

    /// Writes a track.
    fn put_track(&self, name: &str, track: &Track);
}

impl Shows for Folder {
    fn shows(&self, args: &str) -> String {
        self.run(&format!("show {args}")).done()
    }

    fn fails(&self, args: &str, status: i32) -> String {
        let run = self.run(&format!("show {args}"));
        assert_eq!((run.status, &run.out[..]), (Some(status), ""), "{args}");
        run.err
    }

    fn differs(&self, args: &str) -> (String, String) {
        let run = self.run(&format!("show {args}"));
        assert_eq!(run.status, Some(1), "{args}");
        (run.out, run.err)
    }

    fn text(&self, name: &str) -> String {
        String::from_utf8(self.get(name)).expect("a text")
    }

    fn put_track(&self, name: &str, track: &Track) {
        self.put(format!("{name}.table"), track.table());
        self.put(format!("{name}.samples"), track.sample_bytes());
    }
}

fn cue(id: u32, start_ms: u32, end_ms: u32, payload: &str) -> ListedCue<'_> {
    ListedCue {
        id,
        start_ms,
        end_ms,
        payload,
        ..Default::default()
    }
}

/// Two cues that overlap; the second has an identifier and settings.
fn two() -> CueList {
    let second = ListedCue {
        identifier: "b",
        settings: "line:80%",
        ..cue(9, 1000, 2500, "Is it?\nNo.")
    };
    list(&[cue(7, 0, 1500, "Good \"morning\"."), second])
}

/// A text that would drive a terminal, break out of XML, or turn a picture round.
const HOSTILE: &str = "\u{1b}[2J\u{202e}\"\\<script>&😀\u{e0001}]]>";

/// Boxes back to back.
fn bytes_of(boxes: &[(&[u8; 4], Vec<u8>)]) -> Vec<u8> {
    let mut bytes = Vec::new();
    for (kind, body) in boxes {
        bytes.extend((body.len() as u32 + 8).to_be_bytes());
        bytes.extend(*kind);
        bytes.extend(body);
    }
    bytes
}

/// A sample of a cue without ID and one with.
fn mixed_sample() -> Vec<u8> {
    let first = [(b"payl", b"a".to_vec()), (b"iden", b"x".to_vec())];
    let second = [
        (b"vsid", vec![0, 0, 0, 5]),
        (b"payl", b"b".to_vec()),
        (b"sttg", b"y".to_vec()),
    ];
    bytes_of(&[(b"vttc", bytes_of(&first)), (b"vttc", bytes_of(&second))])
}

/// The names of the tags that are open at the end of a piece of XML, if each end has its start.
fn open_tags(xml: &str) -> Vec<&str> {
    let mut open = Vec::new();
    for part in xml.split('<').skip(1) {
        let (tag, text) = part.split_once('>').expect("a tag that ends");
        assert!(!text.contains('>'), "{text}");
        let name = tag.split([' ', '/']).find(|name| !name.is_empty());
        let name = name.expect("a name");
        match (tag.starts_with('/'), tag.ends_with('/')) {
            (true, _) => assert_eq!(open.pop(), Some(name)),
            (_, false) => open.push(name),
            _ => {}
        }
    }
    open
}

/// Holds a picture to what every picture keeps.
fn is_picture(svg: &str) {
    assert!(svg.starts_with("<svg xmlns=\"http://www.w3.org/2000/svg\" "));
    assert!(svg.ends_with("</svg>\n"));
    assert_eq!(open_tags(svg), [""; 0]);
    assert_eq!(svg.matches("://").count(), 1);
    for bad in ["<script", "href", "NaN", "inf\"", "\u{1b}", "\u{202e}"] {
        assert!(!svg.contains(bad), "{bad:?}");
    }
    for entity in svg.split('&').skip(1) {
        let known = ["amp;", "lt;", "gt;", "quot;"];
        assert!(known.iter().any(|name| entity.starts_with(name)));
    }
}

#[test]
fn a_list_has_a_line_for_each_record() {
    let folder = Folder::new();
    folder.put_list("a", &two());
    let lines = "0 ID 7 00:00:00.000 --> 00:00:01.500 \"Good \\\"morning\\\".\"\n\
                 1 ID 9 00:00:01.000 --> 00:00:02.500 identifier \"b\" settings \"line:80%\" \
                 \"Is it?\\nNo.\"\n";
    assert_eq!(folder.shows("list a"), lines);
    assert_eq!(folder.shows("list a.rec --scale 90000 --t 2500"), lines);
    assert_eq!(folder.shows("list a --scale 1000000"), lines);
    let vtt = b"WEBVTT\n\n00:01.000 --> 00:02.000\nHi\n";
    folder.put("a.vtt", vtt);
    let line = "0 ID 0 00:00:01.000 --> 00:00:02.000 \"Hi\"\n";
    assert_eq!(folder.shows("list a.vtt --out -"), line);
}

#[test]
fn a_track_has_a_line_for_each_sample() {
    let folder = Folder::new();
    folder.put_track("a", &Track::pack(90_000, 3000, &two()).expect("it packs"));
    assert_eq!(
        folder.shows("track a --scale 90000"),
        "0 00:00:00.000 --> 00:00:01.000 90000 ticks, 43 bytes: ID 7 \"Good \\\"morning\\\".\"\n\
         1 00:00:01.000 --> 00:00:01.500 45000 ticks, 106 bytes: \
         ID 7 \"Good \\\"morning\\\".\"; \
         ID 9 identifier \"b\" settings \"line:80%\" \"Is it?\\nNo.\"\n\
         2 00:00:01.500 --> 00:00:02.500 90000 ticks, 63 bytes: \
         ID 9 identifier \"b\" settings \"line:80%\" \"Is it?\\nNo.\"\n\
         3 00:00:02.500 --> 00:00:03.000 45000 ticks, 8 bytes: empty\n"
    );
    folder.put("none.table", b"");
    folder.put("none.samples", b"");
    assert_eq!(folder.shows("track none --scale 1"), "");
    for scale in ["0", "1000001"] {
        let why = folder.fails(&format!("track a --scale {scale}"), 1);
        let words = format!("refused 10 at place 0: the scale is {scale} ticks a second");
        assert!(why.starts_with(&words), "{why}");
    }
}

#[test]
fn a_sample_has_a_line_for_each_cue() {
    let folder = Folder::new();
    folder.put("a", mixed_sample());
    folder.put("empty", b"\0\0\0\x08vtte");
    folder.put("bad", b"\0\0\0\x08vtt");
    let lines = "ID - identifier \"x\" \"a\"\nID 5 settings \"y\" \"b\"\n";
    assert_eq!(folder.shows("sample a"), lines);
    assert_eq!(folder.shows("sample empty"), "empty\n");
    assert_eq!(
        folder.shows("sample a --json"),
        "{\"bytes\":64,\"cues\":[\
         {\"id\":null,\"identifier\":\"x\",\"settings\":\"\",\"payload\":\"a\"},\
         {\"id\":5,\"identifier\":\"\",\"settings\":\"y\",\"payload\":\"b\"}]}\n"
    );
    let empty = "{\"bytes\":8,\"cues\":[]}\n";
    assert_eq!(folder.shows("sample empty --json"), empty);
    assert!(folder
        .fails("sample bad", 1)
        .starts_with("refused 1 at byte 0"));
}

#[test]
fn a_wvtt_entry_has_three_lines() {
    let folder = Folder::new();
    let entry = |label| captions::wvtt::entry_to_vec("WEBVTT\nKind: x", label, 2);
    folder.put("a.entry", entry(Some("\u{1b}é")).expect("an entry"));
    folder.put("b", entry(None).expect("an entry"));
    folder.put("bad", b"\0\0\0\x08wvtt");
    assert_eq!(
        folder.shows("entry a"),
        "wvtt entry, data reference index 2\nconfiguration \"WEBVTT\\nKind: x\"\n\
         label \"\\u{1b}é\"\n"
    );
    assert!(folder.shows("entry b").ends_with("\nno label\n"));
    assert_eq!(
        folder.shows("entry a.entry --json"),
        "{\"kind\":\"wvtt\",\"data_reference_index\":2,\
         \"configuration\":\"WEBVTT\\u000aKind: x\",\"label\":\"\\u001bé\"}\n"
    );
    assert!(folder
        .shows("entry b --json")
        .ends_with("\"label\":null}\n"));
    assert!(folder.fails("entry bad", 1).starts_with("refused "));
    assert!(folder.fails("entry nothing", 2).contains("nothing"));
}

/// An entry with two fonts, the second of which is no text, and a default style in italics.
fn tx3g_entry() -> Vec<u8> {
    let mut body = vec![0, 0, 0, 0, 0, 0, 0, 3];
    body.extend(0x0000_0960u32.to_be_bytes());
    body.extend([1, 0xff, 1, 2, 3, 0xff]);
    body.extend([0xff, 0xfe, 0, 0, 0, 10, 0, 20]);
    body.extend([0, 0, 0, 0, 0, 1, 2, 12, 0xff, 0xff, 0xff, 0xff]);
    let fonts = b"\0\x02\0\x01\x05Serif\0\x02\x02\x1b\xff";
    body.extend(bytes_of(&[(b"ftab", fonts.to_vec())]));
    bytes_of(&[(b"tx3g", body)])
}

#[test]
fn a_tx3g_entry_has_its_fonts() {
    let folder = Folder::new();
    folder.put("a.entry", tx3g_entry());
    assert_eq!(
        folder.shows("entry a"),
        "tx3g entry, data reference index 3\n\
         display flags 0x00000960, scroll in, scroll out, scroll direction 2, \
         continuous karaoke\n\
         justification centre, bottom\n\
         background #010203FF\n\
         text box top -2, left 0, bottom 10, right 20\n\
         default style italic, font 1 \"Serif\", size 12, #FFFFFFFF\n\
         font 1 \"Serif\"\n\
         font 2 \"\\u{1b}\\xFF\"\n"
    );
    assert_eq!(
        folder.shows("entry a --json"),
        "{\"kind\":\"tx3g\",\"data_reference_index\":3,\"display_flags\":2400,\
         \"horizontal_justification\":\"centre\",\"vertical_justification\":\"bottom\",\
         \"background\":\"#010203FF\",\
         \"text_box\":{\"top\":-2,\"left\":0,\"bottom\":10,\"right\":20},\
         \"default_style\":{\"bold\":false,\"italic\":true,\"underlined\":false,\"face\":2,\
         \"font\":1,\"font_name\":\"Serif\",\"size\":12,\"colour\":\"#FFFFFFFF\"},\
         \"fonts\":[{\"id\":1,\"name\":\"Serif\"},{\"id\":2,\"name\":\"\\u001b\u{fffd}\"}]}\n"
    );
    folder.put("bad", b"\0\0\0\x08tx3g");
    assert!(folder
        .fails("entry bad", 1)
        .starts_with("refused 1 at byte 0"));
}

/// A sample of `Héllo` with a bold, underlined beginning, and modifiers behind its styles.
fn tx3g_sample(modifiers: &[(&[u8; 4], Vec<u8>)]) -> Vec<u8> {
    let mut sample = b"\0\x06H\xc3\xa9llo".to_vec();
    let style = b"\0\x01\0\0\0\x02\0\x02\x0d\x18\x10\x20\x30\x40";
    sample.extend(bytes_of(&[(b"styl", style.to_vec())]));
    sample.extend(bytes_of(modifiers));
    sample
}

/// A folder with an entry and a sample of nearly all modifiers.
fn modified() -> Folder {
    let folder = Folder::new();
    let karaoke = b"\0\0\0\x05\0\x02\0\0\0\x09\0\0\0\x02\0\0\0\x0c\0\x02\0\x05";
    let modifiers = [
        (b"hlit", vec![0, 1, 0, 3]),
        (b"hclr", vec![1, 2, 3, 4]),
        (b"krok", karaoke.to_vec()),
        (b"dlay", vec![0, 0, 1, 0]),
        (b"href", b"\0\0\0\x05\x03a\x1bb\x01\xff".to_vec()),
        (b"tbox", vec![0, 1, 0, 2, 0, 3, 0, 4]),
        (b"twrp", vec![1]),
        (b"abcd", vec![1]),
    ];
    folder.put("a.entry", tx3g_entry());
    folder.put("s", tx3g_sample(&modifiers));
    folder
}

#[test]
fn a_tx3g_sample_has_lines_of_runs_and_modifiers() {
    assert_eq!(
        modified().shows("tx3g a s"),
        "text \"Héllo\", 5 characters, UTF-8\n\
         text box top 1, left 2, bottom 3, right 4, of the sample\n\
         0 to 2 bold underlined 0x08, font 2 \"\\u{1b}\\xFF\", size 24, #10203040 \"Hé\"\n\
         2 to 5 italic, font 1 \"Serif\", size 12, #FFFFFFFF \"llo\"\n\
         hlit: highlighted 1 to 3\n\
         hclr: highlight colour #01020304\n\
         krok: karaoke from tick 5: 0 to 2 until 9, 2 to 5 until 12\n\
         dlay: scrolling delayed by 256 ticks\n\
         href: link 0 to 5, URL \"a\\u{1b}b\", alternative text \"\\xFF\"\n\
         tbox: top 1, left 2, bottom 3, right 4\n\
         twrp: lines are wrapped\n"
    );
}

#[test]
fn a_tx3g_sample_has_json_of_runs_and_modifiers() {
    let json = modified().shows("tx3g a s --json");
    let (front, modifiers) = json.split_once(",\"modifiers\":").expect("modifiers");
    assert!(front.starts_with(
        "{\"bytes\":148,\"encoding\":\"UTF-8\",\"text\":\"Héllo\",\"characters\":5,\
         \"text_box\":{\"top\":1,\"left\":2,\"bottom\":3,\"right\":4},\
         \"text_box_of\":\"sample\",\"runs\":[{\"start\":0,\"end\":2,\"style\":{\"bold\":true,"
    ));
    assert!(front.ends_with("\"colour\":\"#FFFFFFFF\"},\"text\":\"llo\"}]"));
    assert_eq!(
        modifiers,
        "[{\"kind\":\"hlit\",\"start\":1,\"end\":3},{\"kind\":\"hclr\",\"colour\":\"#01020304\"},\
         {\"kind\":\"krok\",\"start_time\":5,\"entries\":[\
         {\"start\":0,\"end\":2,\"end_time\":9},{\"start\":2,\"end\":5,\"end_time\":12}]},\
         {\"kind\":\"dlay\",\"delay\":256},\
         {\"kind\":\"href\",\"start\":0,\"end\":5,\"url\":\"a\\u001bb\",\
         \"alternative\":\"\u{fffd}\"},\
         {\"kind\":\"tbox\",\"top\":1,\"left\":2,\"bottom\":3,\"right\":4},\
         {\"kind\":\"twrp\",\"wrap\":true}],\"retired_blinking\":false}\n"
    );
}

#[test]
fn a_tx3g_sample_may_be_utf_16_or_empty() {
    let folder = Folder::new();
    folder.put("a.entry", tx3g_entry());
    folder.put("s", b"\0\x08\xfe\xff\xd8\x3d\xde\x00\0\x1b");
    folder.put("none", b"\0\0");
    let lines = folder.shows("tx3g a s");
    assert!(lines.starts_with("text \"😀\\u{1b}\", 2 characters, UTF-16\n"));
    assert!(lines.contains("\ntext box top -2, left 0, bottom 10, right 20, of the entry\n"));
    assert!(
        lines.ends_with("\n0 to 2 italic, font 1 \"Serif\", size 12, #FFFFFFFF \"😀\\u{1b}\"\n")
    );
    let none = folder.shows("tx3g a none");
    assert!(none.starts_with("text \"\", 0 characters, UTF-8\n"));
    assert_eq!(none.lines().count(), 2);
    folder.put("bad", b"\0\x01");
    let (fine, bad) = ("tx3g a s", "tx3g a bad");
    assert!(!folder.shows(fine).is_empty());
    assert!(folder.fails(bad, 1).starts_with("refused 1 at byte 0"));
    assert!(folder.fails("tx3g s s", 1).contains("in the entry"));
    assert!(folder.fails("tx3g - -", 2).contains("standard input"));
}

#[test]
fn retired_blinking_is_told_without_its_range() {
    let folder = Folder::new();
    folder.put("a.entry", tx3g_entry());
    let highlight: (&[u8; 4], _) = (b"hlit", vec![0, 1, 0, 2]);
    let blinks = [(b"blnk", vec![0, 0, 0, 5]), highlight.clone()];
    folder.put("s", tx3g_sample(&blinks));
    assert!(folder
        .shows("tx3g a s")
        .ends_with("\"\nhlit: highlighted 1 to 2\nretired blinking present\n"));
    let ends = "\"modifiers\":[{\"kind\":\"hlit\",\"start\":1,\"end\":2}],\"retired_blinking\":";
    let json = folder.shows("tx3g a s --json");
    assert!(json.ends_with(&format!("{ends}true}}\n")));
    let judged = "no fault\nretired blinking present\n";
    assert_eq!(folder.run("judge tx3g a s").done(), judged);
    folder.put("s", tx3g_sample(&[highlight]));
    assert!(folder
        .shows("tx3g a s")
        .ends_with("\nhlit: highlighted 1 to 2\n"));
    let json = folder.shows("tx3g a s --json");
    assert!(json.ends_with(&format!("{ends}false}}\n")));
    assert_eq!(folder.run("judge tx3g a s").done(), "no fault\n");
}

#[test]
fn json_of_a_list_escapes_its_texts() {
    let folder = Folder::new();
    folder.put_list("a", &list(&[cue(1, 0, 1, HOSTILE)]));
    assert_eq!(
        folder.shows("list a --json"),
        "{\"scale\":1000,\"cues\":[{\"index\":0,\"id\":1,\"start_ms\":0,\"end_ms\":1,\
         \"start\":\"00:00:00.000\",\"end\":\"00:00:00.001\",\"identifier\":\"\",\
         \"settings\":\"\",\"payload\":\
         \"\\u001b[2J\\u202e\\\"\\\\<script>&😀\\udb40\\udc01]]>\"}]}\n"
    );
    let line = folder.shows("list a");
    assert!(line.ends_with("\"\\u{1b}[2J\\u{202e}\\\"\\\\<script>&😀\\u{e0001}]]>\"\n"));
}

#[test]
fn json_of_a_track_has_ticks() {
    let folder = Folder::new();
    let track = Track::pack(1500, 1000, &list(&[cue(3, 333, 666, "Hi")]));
    folder.put_track("a", &track.expect("it packs"));
    let sample = |rest: &str| format!("{{\"index\":{rest}}}");
    let samples = [
        "0,\"start_tick\":0,\"duration\":499,\"start\":\"00:00:00.000\",\
         \"end\":\"00:00:00.333\",\"bytes\":8,\"cues\":[]",
        "1,\"start_tick\":499,\"duration\":500,\"start\":\"00:00:00.333\",\
         \"end\":\"00:00:00.666\",\"bytes\":30,\"cues\":[{\"id\":3,\"identifier\":\"\",\
         \"settings\":\"\",\"payload\":\"Hi\"}]",
        "2,\"start_tick\":999,\"duration\":501,\"start\":\"00:00:00.666\",\
         \"end\":\"00:00:01.000\",\"bytes\":8,\"cues\":[]",
    ];
    let samples = samples.map(sample).join(",");
    let track = format!("{{\"scale\":1500,\"ticks\":1500,\"samples\":[{samples}]}}");
    assert_eq!(
        folder.shows("track a --scale 1500 --json"),
        format!("{track}\n")
    );
    folder.put_list("a", &list(&[cue(3, 333, 666, "Hi")]));
    let both = folder.shows("list a --track a --scale 1500 --t 1000 --json");
    assert!(both.starts_with("{\"list\":{\"scale\":1500,\"cues\":[{\"index\":0,"));
    assert!(both.ends_with(&format!(",\"track\":{track},\"difference\":null}}\n")));
}

/// A folder with the list `a` and the tracks `right`, `wrong` (in sample 2) and `early`.
fn compared() -> Folder {
    let folder = Folder::new();
    let right = Track::pack(1000, 3000, &two()).expect("it packs");
    let mut samples = right.sample_bytes().to_vec();
    let last = samples.len() - 9;
    samples[last] = b'!';
    let wrong = Track::from_parts(right.table().to_vec(), samples).expect("a track");
    let early = Track::pack(1000, 2500, &two()).expect("it packs");
    folder.put_list("a", &two());
    folder.put_track("right", &right);
    folder.put_track("wrong", &wrong);
    folder.put_track("early", &early);
    folder
}

#[test]
fn lines_mark_the_first_wrong_sample() {
    let folder = compared();
    let args = |track| format!("list a --track {track} --scale 1000 --t 3000");
    let right = folder.shows(&args("right"));
    assert_eq!(right.lines().count(), 2 + 1 + 4);
    assert_eq!(right.lines().nth(2), Some(""));
    assert!(!right.contains("differs"));
    let (wrong, why) = folder.differs(&args("wrong"));
    assert!(why.starts_with("refused 16 at sample 2: "), "{why}");
    let marked: Vec<&str> = wrong
        .lines()
        .filter(|line| line.contains("differs"))
        .collect();
    assert_eq!(
        marked,
        ["2 00:00:01.500 --> 00:00:02.500 1000 ticks, 63 bytes: \
          ID 9 identifier \"b\" settings \"line:80%\" \"Is it?\\nNo!\" <- differs"]
    );
    let (early, why) = folder.differs(&args("early"));
    assert!(why.starts_with("refused 16 at sample 3: "), "{why}");
    assert!(early.ends_with("\n3 no sample from 00:00:02.500 on <- differs\n"));
}

#[test]
fn json_has_the_difference() {
    let folder = compared();
    let (wrong, why) = folder.differs("list a --track wrong --scale 1000 --t 00:03.000 --json");
    let start = ",\"difference\":{\"number\":16,\"sample\":2,\"words\":\"refused 16 at sample 2: ";
    assert!(
        wrong.contains(start) && wrong.ends_with("\"}}\n"),
        "{wrong}"
    );
    assert!(why.starts_with("refused 16 at sample 2: "));
}

#[test]
fn a_picture_has_a_bar_for_each_cue() {
    let folder = Folder::new();
    let long = cue(
        4,
        5000,
        9000,
        "A long caption that has less room on its bar than it takes, as its letters tell, whatever",
    );
    let hostile = cue(3, 0, 5000, HOSTILE);
    folder.put_list("a", &list(&[hostile, cue(1, 0, 1, "thin"), long]));
    let svg = folder.shows("list a --svg");
    is_picture(&svg);
    let shown = "\\u{1b}[2J\\u{202e}\\&quot;\\\\&lt;script&gt;&amp;😀\\u{e0001}]]&gt;";
    assert!(svg.contains(&format!("00:00:05.000\n&quot;{shown}&quot;</title>")));
    assert!(
        svg.contains(">\\u{1b}[2J\\u{202e}&quot;\\&lt;script&gt;&amp;😀\\u{e0001}]]&gt;</text>")
    );
    assert_eq!(svg.matches("<title>cue ").count(), 3);
    assert!(svg.contains("<title>cue 2, ID 4\n00:00:05.000 --&gt; 00:00:09.000\n"));
    assert!(svg.contains("letters tell, whatever&quot;</title>"));
    assert!(svg.contains("\u{2026}</text>") && !svg.contains(">thin<"));
    assert!(!svg.contains("differs") && !svg.contains("check passes"));
}

#[test]
fn a_picture_marks_what_differs() {
    let folder = compared();
    let args = |track| format!("list a --track {track} --scale 1000 --t 3000 --svg");
    let right = folder.shows(&args("right"));
    is_picture(&right);
    assert!(right.contains("The check passes") && !right.contains("differs"));
    assert_eq!(right.matches("<title>sample ").count(), 4);
    assert!(right.contains(
        "<title>sample 3\n00:00:02.500 --&gt; 00:00:03.000\n500 ticks from tick 2500, 8 bytes\nempty"
    ));
    let (wrong, why) = folder.differs(&args("wrong"));
    is_picture(&wrong);
    assert_eq!(wrong.matches("id=\"differs\"").count(), 1);
    assert!(wrong.contains("sample 2, from 00:00:01.500, is wrong"));
    assert!(wrong.contains(">refused 16 at sample 2: ") && !wrong.contains(">missing<"));
    assert!(why.starts_with("refused 16 at sample 2: "));
    let (early, _) = folder.differs(&args("early"));
    is_picture(&early);
    assert!(early.contains("it ends at 00:00:02.500, before T"));
    assert!(early.contains(">missing<") && !early.contains("check passes"));
    is_picture(&folder.shows("track wrong --scale 1000 --svg"));
}

#[test]
fn the_width_goes_by_the_time_within_bounds() {
    let folder = Folder::new();
    let width = |svg: &str| -> f64 {
        let width = svg
            .split("width=\"")
            .nth(1)
            .and_then(|rest| rest.split('"').next());
        width.and_then(|text| text.parse().ok()).expect("a width")
    };
    folder.put_list("short", &list(&[cue(1, 0, 3000, "a")]));
    folder.put_list("minute", &list(&[cue(1, 0, 60_000, "a")]));
    folder.put_list("long", &list(&[cue(1, 0, 359_999_999, "a")]));
    let [short, minute, long] = ["short", "minute", "long"].map(|name| {
        let svg = folder.shows(&format!("list {name} --svg"));
        is_picture(&svg);
        width(&svg)
    });
    assert!((800.0..2000.0).contains(&short));
    assert!(short < minute && minute < long && long <= 16_000.0);
}

#[test]
fn an_empty_list_and_a_full_one_are_shown() {
    let folder = Folder::new();
    folder.put_list("none", &CueList::new());
    assert_eq!(folder.shows("list none"), "");
    assert_eq!(
        folder.shows("list none --json"),
        "{\"scale\":1000,\"cues\":[]}\n"
    );
    is_picture(&folder.shows("list none --svg"));
    folder.put("none.table", b"");
    folder.put("none.samples", b"");
    is_picture(&folder.shows("track none --scale 1 --svg"));
    let cues: Vec<ListedCue> = (0..1024)
        .map(|id| cue(id, id * 10_000, id * 10_000 + 12_000, "A caption"))
        .collect();
    folder.put_list("full", &list(&cues));
    let track = Track::pack(90_000, 10_800_000, &list(&cues)).expect("it packs");
    folder.put_track("full", &track);
    assert_eq!(folder.shows("list full").lines().count(), 1024);
    let svg = folder.shows("list full --track full --scale 90000 --t 10800000 --svg");
    is_picture(&svg);
    assert_eq!(svg.matches("<title>cue ").count(), 1024);
    assert_eq!(svg.matches("<title>sample ").count(), track.len());
}

#[test]
fn files_are_written_whole_or_not_at_all() {
    let folder = compared();
    assert_eq!(folder.shows("list a --out out"), "");
    assert_eq!(folder.text("out"), folder.shows("list a"));
    let (printed, _) = folder.differs("list a --track wrong --scale 1000 --t 3000 --svg --out out");
    assert_eq!(printed, "");
    is_picture(&folder.text("out"));
    folder.put("out", b"old");
    folder.put("wrong.table", b"\0");
    folder.fails("list a --t 2499 --out out", 1);
    folder.fails("list a --scale 0 --json --out out", 1);
    folder.fails("track wrong --scale 1000 --out out", 1);
    folder.fails(
        "list a --track wrong --scale 1000 --t 3000 --svg --out out",
        1,
    );
    folder.fails(
        "list a --track right --scale 1000 --t 2499 --svg --out out",
        1,
    );
    folder.fails("track missing --scale 1000 --out out", 2);
    folder.fails("sample out --out out", 1);
    folder.fails("entry out --out out", 1);
    folder.fails("tx3g out out --out out", 1);
    assert_eq!(folder.text("out"), "old");
    folder.fails("list a --out nowhere/out", 2);
    assert!(folder.names().iter().all(|name| !name.ends_with(".tmp")));
}

#[test]
fn a_command_line_that_is_not_understood_is_2() {
    let folder = compared();
    for (args, why) in [
        ("", "list, track, entry, sample or tx3g is missing"),
        ("cues a", "not cues"),
        ("list", "LIST is missing"),
        ("list a b", "one too many: b"),
        ("list a --json --svg", "--json and --svg"),
        ("track right", "--scale"),
        ("track right --scale 1 --json --svg", "--json and --svg"),
        ("track right --scale 1 --t 1", "--t does not go with track"),
        ("list a --track right --t 3000", "--scale"),
        ("list a --track right --scale 1000", "--t"),
        ("entry a --svg", "--svg does not go with entry"),
        ("sample a --svg", "--svg does not go with sample"),
        ("tx3g a b --svg", "--svg does not go with tx3g"),
        ("sample a --scale 1", "--scale does not go with sample"),
        ("tx3g a", "SAMPLE is missing"),
        ("list a --x", "unknown option --x"),
        ("list missing", "missing.rec"),
    ] {
        let said = folder.fails(args, 2);
        assert!(said.contains(why), "{args}: {said}");
    }
}

#[test]
fn the_help_fits_a_narrow_window() {
    let help = Folder::new().shows("--help");
    assert!(help.starts_with("captions show list LIST "));
    assert!(help.lines().all(|line| line.chars().count() <= 90));
}

//! The timeline as a picture: an SVG file that needs nothing else.

mod axis;
mod lanes;
mod plan;
mod text;

use captions::wvtt::TrackSample;
use captions::ListedCue;

use self::plan::{Plan, Wrong, BAR, BOX, LANE, LINE, MARGIN, SIZE};
use self::text::{cut, glimpse, Units, Xml};
use super::lines::{cues, texts};
use super::timeline::{Timeline, Verdict};
use crate::shown::count;
use crate::time::{clock_of, Clock};

/// Letters: headings, what is less weighty, on a bar, on a box, of what is right and wrong.
const DARK: &str = "#1f2933";
const GREY: &str = "#52606d";
const BAR_TEXT: &str = "#12304f";
const BOX_TEXT: &str = "#173d2a";
const RIGHT: &str = "#1b5e20";
const WRONG: &str = "#a61b1b";

/// The blanks at both sides of what is written on a bar or a box.
const PAD: f64 = 6.0;
/// The smallest width of a bar or a box.
const THIN: f64 = 1.0;

/// Draws a timeline.
pub fn picture(timeline: &Timeline) -> String {
    let plan = Plan::of(timeline);
    let mut svg = head(&plan, timeline) + &grid(&plan);
    put_bars(&mut svg, &plan, timeline);
    put_boxes(&mut svg, &plan, timeline);
    svg += &end(&plan, timeline);
    if let Some(found) = &plan.wrong {
        svg += &wrong(&plan, found);
    }
    svg + "</svg>\n"
}

/// The beginning of the file and the lines above the axis.
fn head(plan: &Plan, timeline: &Timeline) -> String {
    let (width, height) = (plan.axis.right() + MARGIN, plan.height);
    let [width, height] = [width, height].map(Units);
    let name = &timeline.name;
    let room = plan.axis.width;
    let (verdict, colour) = verdict(plan, timeline);
    let rows = [
        (32.0, 17.0, DARK, name.clone()),
        (52.0, SIZE, GREY, facts(timeline)),
        (72.0, SIZE, colour, verdict),
    ];
    let rows = rows.iter().filter_map(|(y, size, colour, text)| {
        let text = cut(text, room, *size)?;
        let (x, y, text) = (Units(MARGIN), Units(*y), Xml(&text));
        let row = format!("<text x=\"{x}\" y=\"{y}\" font-size=\"{size}\" fill=\"{colour}\">");
        Some(format!("{row}{text}</text>\n"))
    });
    format!(
        "<svg xmlns=\"http://www.w3.org/2000/svg\" width=\"{width}\" height=\"{height}\" \
         viewBox=\"0 0 {width} {height}\" font-family=\"Helvetica, Arial, sans-serif\" \
         font-size=\"{SIZE}\" role=\"img\">\n<title>{}</title>\n\
         <rect width=\"{width}\" height=\"{height}\" fill=\"#fcfcfa\"/>\n{}",
        Xml(name),
        rows.collect::<String>()
    )
}

/// How many cues and samples there are, the scale and T.
fn facts(timeline: &Timeline) -> String {
    let cues = timeline.list.map(|list| count(list.len(), "cue"));
    let samples = timeline.track.map(|track| count(track.len(), "sample"));
    let scale = format!("{} a second", count(timeline.scale as usize, "tick"));
    let t = timeline.t.map(|t| format!("T {}", Clock(t.into())));
    let facts = cues.into_iter().chain(samples).chain([scale]).chain(t);
    facts.collect::<Vec<String>>().join(", ")
}

/// What the check says, and its colour.
fn verdict(plan: &Plan, timeline: &Timeline) -> (String, &'static str) {
    let said = match (&timeline.verdict, &plan.wrong) {
        (Verdict::Unchecked, _) => String::new(),
        (_, None) => {
            let right = "The check passes: the track shows the cues of the list at every tick.";
            return (right.into(), RIGHT);
        }
        (_, Some(wrong)) => format!("The track differs from the list: {}.", wrong.place()),
    };
    (said, WRONG)
}

/// The axis with its times, and a thin line down from each.
fn grid(plan: &Plan) -> String {
    let (top, bottom) = (plan.ruler, plan.bottom);
    let mut lines = format!("<path stroke=\"#d5dae0\" d=\"M{},{}", MARGIN, Units(top));
    lines += &format!("H{}", Units(plan.axis.right()));
    let mut times = format!("<g font-size=\"11\" fill=\"{GREY}\">\n");
    for (x, time) in plan.axis.marks() {
        lines += &format!("M{},{}V{}", Units(x), Units(top - 12.0), Units(bottom));
        if x + 90.0 <= plan.axis.right() + MARGIN {
            let (x, y) = (Units(x + 4.0), Units(top - 4.0));
            times += &format!("<text x=\"{x}\" y=\"{y}\">{time}</text>\n");
        }
    }
    format!("{lines}\" fill=\"none\"/>\n{times}</g>\n")
}

/// What stands above the bars or the boxes.
fn label(y: f64, what: &str) -> String {
    let (x, y) = (Units(MARGIN), Units(y - 8.0));
    format!("<text x=\"{x}\" y=\"{y}\" fill=\"{GREY}\">{what}</text>\n")
}

/// A bar for each cue of the list.
fn put_bars(svg: &mut String, plan: &Plan, timeline: &Timeline) {
    let Some(list) = timeline.list else {
        return;
    };
    let what = if list.is_empty() { "No cues" } else { "Cues" };
    *svg += &label(plan.bars, what);
    *svg += "<g fill=\"#dce8f5\" stroke=\"#2f5d8c\">\n";
    let rows = list.iter().zip(&plan.lanes).enumerate();
    svg.extend(rows.map(|(index, (cue, &lane))| bar(plan, index, &cue, lane)));
    *svg += "</g>\n";
}

fn bar(plan: &Plan, index: usize, cue: &ListedCue, lane: usize) -> String {
    let [start, end] = [cue.start_ms, cue.end_ms];
    let x = plan.axis.x(start.into());
    let width = (plan.axis.x(end.into()) - x).max(THIN);
    let y = plan.bars + LANE * lane as f64;
    let [from, to] = [start, end].map(|ms| Clock(ms.into()));
    let texts = texts(cue.identifier, cue.settings, cue.payload);
    let title = format!("cue {index}, ID {}\n{from} --> {to}\n{texts}", cue.id);
    let written = glimpse([cue.payload].into_iter(), width - 2.0 * PAD, SIZE);
    let written = written.map(|text| writing(x + PAD, y + 16.5, BAR_TEXT, &text));
    let shape = Shape {
        x,
        y,
        width,
        height: BAR,
        more: "",
    };
    item(&title, &shape, &written.unwrap_or_default())
}

/// A box for each sample of the track.
fn put_boxes(svg: &mut String, plan: &Plan, timeline: &Timeline) {
    let Some(track) = timeline.track else {
        return;
    };
    let what = match track.is_empty() {
        true => "No samples",
        false => "Samples of the track",
    };
    *svg += &label(plan.boxes, what);
    *svg += "<g fill=\"#dcefe2\" stroke=\"#2f6f4f\">\n";
    let rows = track.samples().enumerate();
    svg.extend(rows.map(|(index, sample)| sample_box(plan, timeline.scale, index, &sample)));
    *svg += "</g>\n";
}

fn sample_box(plan: &Plan, scale: u32, index: usize, sample: &TrackSample) -> String {
    let end = sample.start_tick + u64::from(sample.duration);
    let [x, right] = [sample.start_tick, end].map(|tick| plan.tick_x(scale, tick));
    let [from, to] = [sample.start_tick, end].map(|tick| clock_of(scale, tick));
    let cues = cues(sample.sample);
    let title = format!(
        "sample {index}\n{from} --> {to}\n{} from tick {}, {} bytes\n{}",
        count(sample.duration as usize, "tick"),
        sample.start_tick,
        sample.bytes().len(),
        cues.join("\n")
    );
    let width = (right - x).max(THIN);
    let room = width - 2.0 * PAD;
    let empty = sample.cues().next().is_none();
    let texts = match empty {
        true => cut("empty", room, SIZE),
        false => glimpse(sample.cues().map(|cue| cue.payload), room, SIZE),
    };
    let rows = [(cut(&index.to_string(), room, SIZE), 17.0), (texts, 35.0)];
    let rows = rows.map(|(text, y)| {
        let write = |text: String| writing(x + PAD, plan.boxes + y, BOX_TEXT, &text);
        text.map_or(String::new(), write)
    });
    let shape = Shape {
        x,
        y: plan.boxes,
        width,
        height: BOX,
        more: if empty { PALE } else { "" },
    };
    item(&title, &shape, &rows.concat())
}

/// How a sample without cues is drawn.
const PALE: &str = " fill=\"#ffffff\" stroke=\"#7b8794\" stroke-dasharray=\"3 2\"";

/// A rectangle of a bar or a box.
struct Shape {
    x: f64,
    y: f64,
    width: f64,
    height: f64,
    /// Attributes of its own.
    more: &'static str,
}

/// A bar or a box with what the pointer on it shows, and what is written on it.
fn item(title: &str, shape: &Shape, written: &str) -> String {
    let Shape { more, .. } = shape;
    let [x, y] = [shape.x, shape.y].map(Units);
    let [width, height] = [shape.width, shape.height].map(Units);
    let title = Xml(title);
    format!(
        "<g><title>{title}</title><rect x=\"{x}\" y=\"{y}\" width=\"{width}\" \
         height=\"{height}\" rx=\"2\"{more}/>{written}</g>\n"
    )
}

/// A text without an outline.
fn writing(x: f64, y: f64, colour: &str, text: &str) -> String {
    let ([x, y], text) = ([x, y].map(Units), Xml(text));
    format!("<text x=\"{x}\" y=\"{y}\" fill=\"{colour}\" stroke=\"none\">{text}</text>")
}

/// The end of the timeline, where the command line has it.
fn end(plan: &Plan, timeline: &Timeline) -> String {
    let Some(t) = timeline.t else {
        return String::new();
    };
    let x = plan.axis.x(t.into());
    let [top, bottom] = [plan.ruler - 12.0, plan.bottom].map(Units);
    let line = Units(x);
    let text = writing(x + 4.0, plan.ruler + 13.0, DARK, "T");
    format!(
        "<g><title>T {}</title><path d=\"M{line},{top}V{bottom}\" stroke=\"{DARK}\" \
         stroke-dasharray=\"6 3\"/>{text}</g>\n",
        Clock(t.into())
    )
}

/// The sample that is wrong, or the end that is missing: an outline, a pointer and the words.
fn wrong(plan: &Plan, wrong: &Wrong) -> String {
    let x = wrong.x;
    let width = (wrong.right - x).max(3.0);
    let shape = Shape {
        x,
        y: plan.boxes,
        width,
        height: BOX,
        more: if wrong.is_missing() { MISSING } else { "" },
    };
    let missing = cut("missing", width - 2.0 * PAD, SIZE).filter(|_| wrong.is_missing());
    let missing = missing.map(|text| writing(x + PAD, plan.boxes + 26.0, WRONG, &text));
    let outline = item(wrong.words, &shape, &missing.unwrap_or_default());
    let pointer = format!(
        "<path d=\"M{},{}l6,10h-12z\" fill=\"{WRONG}\" stroke=\"none\"/>\n",
        Units(wrong.pointer),
        Units(plan.bottom + 3.0)
    );
    let lines = wrong.lines.iter().zip(1u8..).map(|(line, row)| {
        let y = plan.bottom + 12.0 + LINE * f64::from(row);
        let text = writing(wrong.pointer + wrong.side * 6.0, y, WRONG, line);
        text + "\n"
    });
    let lines: String = lines.collect();
    let anchor = if wrong.side < 0.0 { "start" } else { "end" };
    format!(
        "<g id=\"differs\" fill=\"none\" stroke=\"{WRONG}\" stroke-width=\"2.5\">\n{outline}\
         {pointer}<g text-anchor=\"{anchor}\">\n{lines}</g>\n</g>\n"
    )
}

/// How an end that is missing is drawn.
const MISSING: &str = " fill=\"#fdecea\" stroke-dasharray=\"7 4\"";

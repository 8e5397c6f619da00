//! Seeded inputs: texts, cue lists, their tracks, and `tx3g` samples.

use captions_harness::generate::box_of;
use captions_harness::random::Random;
use captions_model::list::{Record, RECORD};

pub const SCALE: u32 = 90_000;

const ENGLISH: &[&str] = &[
    "the", "quick", "river", "over", "and", "you", "never", "said", "I", "was", "waiting", "here",
];
const FRENCH: &[&str] = &[
    "très",
    "déjà",
    "où",
    "été",
    "la",
    "rivière",
    "français",
    "ça",
    "après",
    "nous",
    "à",
    "forêt",
];
const RUSSIAN: &[&str] = &[
    "река",
    "никогда",
    "мы",
    "здесь",
    "была",
    "ждали",
    "ты",
    "сказал",
    "над",
    "лесом",
];
const JAPANESE: &[&str] = &[
    "川の向こう",
    "日本語",
    "字幕",
    "です",
    "待っていた",
    "決して",
    "森の上に",
    "言った",
];

/// The languages of texts by name. Of mixed texts seventeen in twenty are English.
pub const LANGUAGES: [(&str, &[&[&str]]); 5] = [
    ("English", &[ENGLISH]),
    ("French", &[FRENCH]),
    ("Russian", &[RUSSIAN]),
    ("Japanese", &[JAPANESE]),
    ("mixed", MIXED),
];
pub const MIXED: &[&[&str]] = &[
    ENGLISH, ENGLISH, ENGLISH, ENGLISH, ENGLISH, ENGLISH, ENGLISH, ENGLISH, ENGLISH, FRENCH,
    ENGLISH, ENGLISH, ENGLISH, ENGLISH, ENGLISH, ENGLISH, ENGLISH, ENGLISH, RUSSIAN, JAPANESE,
];

/// A text of at most `most` bytes, filled with words, sometimes on two lines.
pub fn text(random: &mut Random, languages: &[&[&str]], most: usize) -> Vec<u8> {
    let words = random.pick(languages);
    let mut text = random.pick(words).to_string();
    loop {
        let word = random.pick(words);
        if text.len() + 1 + word.len() > most {
            return text.into_bytes();
        }
        text.push(if random.percent(8) { '\n' } else { ' ' });
        text.push_str(word);
    }
}

/// Texts of 20 to 80 bytes, or of the largest payload's length.
pub fn texts(seed: u64, languages: &[&[&str]], long: bool) -> Vec<Vec<u8>> {
    let mut random = Random::new(seed);
    let count = if long { 32 } else { 1024 };
    let make = |_| {
        let most = if long { 4095 } else { random.within(20, 80) };
        text(&mut random, languages, most)
    };
    (0..count).map(make).collect()
}

/// Texts of 4,095 letters, the largest payload's length.
pub fn letters() -> Vec<Vec<u8>> {
    let mut random = Random::new(4095);
    let mut letter = |_| b'a' + random.below(26) as u8;
    (0..32)
        .map(|_| (0..4095).map(&mut letter).collect())
        .collect()
}

/// Such texts with one bad byte.
pub fn bad_letters(at: usize) -> Vec<Vec<u8>> {
    let mut texts = letters();
    texts.iter_mut().for_each(|text| text[at] = 0xFF);
    texts
}

/// A cue list and its track.
pub struct List {
    pub t: u32,
    pub records: Vec<u8>,
    pub pool: Vec<u8>,
    pub table: Vec<u8>,
    pub samples: Vec<u8>,
}

impl List {
    pub fn cues(&self) -> usize {
        self.records.len() / RECORD
    }

    pub fn each_sample(&self) -> impl Iterator<Item = &[u8]> {
        let samples = captions_model::track::samples(&self.table, &self.samples);
        samples.map(|(_, sample)| sample)
    }
}

/// A list of `count` cues, of which up to about four run at once.
pub fn list(random: &mut Random, count: usize, rising: bool) -> List {
    let (mut records, mut pool) = (Vec::new(), Vec::new());
    let (mut start, mut t) = (0, 0);
    for id in 0..count as u32 {
        start += random.within(400, 3000) as u32;
        let end = start + random.within(800, 5000) as u32;
        t = t.max(end + 1000);
        let identifier = if random.percent(30) {
            id.to_string()
        } else {
            String::new()
        };
        let settings = if random.percent(20) {
            "line:90% align:start"
        } else {
            ""
        };
        let most = random.within(20, 80);
        let payload = text(random, MIXED, most);
        let record = Record {
            id: if rising {
                id
            } else {
                id.wrapping_mul(0x9E37_79B1) >> 1
            },
            start,
            end,
            offset: pool.len() as u32,
            identifier_len: identifier.len() as u16,
            settings_len: settings.len() as u16,
            payload_len: payload.len() as u16,
            reserved: 0,
        };
        records.extend(record.to_bytes());
        pool.extend(identifier.as_bytes());
        pool.extend(settings.as_bytes());
        pool.extend(payload);
    }
    let (mut table, mut samples) = (vec![0; 16 * count + 8], vec![0; 1 << 20]);
    let packed = captions_model::pack::pack(SCALE, t, &records, &pool, &mut table, &mut samples);
    let packed = packed.expect("the list is good");
    table.truncate(packed.table_bytes);
    samples.truncate(packed.sample_bytes);
    List {
        t,
        records,
        pool,
        table,
        samples,
    }
}

/// So many lists of `count` cues that there are 4,096 cues, or four lists.
/// Lists whose IDs are counted up, or stand in no order.
pub fn lists(count: usize, rising: bool) -> Vec<List> {
    let mut random = Random::new(count as u64);
    let lists = (4096 / count).max(4);
    (0..lists)
        .map(|_| list(&mut random, count, rising))
        .collect()
}

/// All cues of a list in one sample.
pub fn full_sample(list: &List) -> Vec<u8> {
    let cue = |record: Record| {
        let texts = record.texts(&list.pool).expect("the list is good");
        let mut parts = box_of(b"vsid", &record.id.to_be_bytes());
        for (kind, text) in [(b"iden", texts.identifier), (b"sttg", texts.settings)] {
            if !text.is_empty() {
                parts.extend(box_of(kind, text));
            }
        }
        parts.extend(box_of(b"payl", texts.payload));
        box_of(b"vttc", &parts)
    };
    captions_model::list::records(&list.records)
        .flat_map(cue)
        .collect()
}

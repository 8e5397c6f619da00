/* Calls every function through the header and prints whole answers. The inputs are such that no two fields of an answer can be mistaken for
   one another. It compiles as C and as C++. */
#include <captions.h>
#include <stdio.h>
#include <string.h>

#define TEXT(s) (const uint8_t *)(s), sizeof(s) - 1
#define NONE NULL, 0

/* A cue with all its parts, behind another box, and another box behind them. */
#define FREE "\0\0\0\x08" "free"
#define CUE FREE "\0\0\0\x3dvttc\0\0\0\x0cvsid\1\2\3\4\0\0\0\x0aiden" "ab\0\0\0\x0bsttg" "cde\0\0\0\x0cpayl" "fghi" FREE
#define SAMPLE "\0\0\0\x1evttc\0\0\0\x0cvsid\0\0\0\x07\0\0\0\x0apaylHi"
#define RECORD "\0\0\0\x07\0\0\0\0\0\0\x03\xe8\0\0\0\0\0\0\0\0\0\x02\0\0"
#define BARE_RECORD "\0\0\0\x07\0\0\0\0\0\0\x03\xe8\0\0\0\0\0\0\0\0\0\0\0\0"
#define TABLE "\0\x01\x5f\x90\0\0\0\x1e"
#define WVTT_ENTRY "\0\0\0\x2dwvtt\0\0\0\0\0\0\1\2\0\0\0\x10vttCWEBVTT x\0\0\0\x0dvlablabel"

/* A payload that is bad at its fifth byte; and three records, of which the last has settings bad at their sixth and a bad payload. */
#define BAD_SAMPLE "\0\0\0\x21vttc\0\0\0\x0cvsid\0\0\0\x07\0\0\0\x0dpaylHi-->"
#define BAD_TABLE TABLE "\0\x01\x5f\x90\0\0\0\x21"
#define BAD_RECORDS RECORD RECORD "\0\0\0\x09\0\0\0\0\0\0\x03\xe8\0\0\0\2\0\0\0\6\0\1\0\0"
#define BAD_POOL "Hialign\xff\0"

/* Two cues, of which the second has all texts; and a payload that is bad at its fifth byte, behind a note. */
#define VTT_FILE "WEBVTT\n\n00:01.000 --> 00:02.500\n\nab\n00:00:02.000 --> 00:00:03.000 cde\nf\nhi\n"
#define VTT_RECORDS                                                                                                                        \
    "\0\0\0\0\0\0\x03\xe8\0\0\x09\xc4\0\0\0\0\0\0\0\0\0\0\0\0"                                                                            \
    "\0\0\0\1\0\0\x07\xd0\0\0\x0b\xb8\0\0\0\0\0\2\0\3\0\4\0\0"
#define BAD_VTT_FILE "WEBVTT\r\rNOTE\r\r00:01.000 --> 00:02.500\rH\r-->"

/* The same two cues as they are written behind another header. */
#define VTT_HEADER "WEBVTT x\ny"
#define VTT_WRITTEN                                                                                                                        \
    VTT_HEADER "\n\n00:00:01.000 --> 00:00:02.500\n\nab\n00:00:02.000 --> 00:00:03.000 cde\nf\nhi\n"

/* Every field has another value; two fonts. */
#define TX3G_ENTRY                                                                                                                         \
    "\0\0\0\x43tx3g\0\0\0\0\0\0\1\2\3\4\5\6\xff\1\7\x08\x09\x0a\xff\xf5\xff\xf4\0\x0d\0\x0e\0\0\0\0\x0f\x10\x11\x12\x13\x14\x15\x16"    \
    "\0\0\0\x15" "ftab\0\2\x0f\x10\3abc\x0f\x11\2de"
/* Five characters in six bytes, and a modifier box of every kind. */
#define TX3G_STYLES "\0\0\0\x22styl\0\2\0\1\0\2\x0f\x11\x21\x22\x23\x24\x25\x26\0\3\0\4\x0f\x10\x31\x32\x33\x34\x35\x36"
#define TX3G_SAMPLE                                                                                                                        \
    "\0\6h\xc3\xa9llo" TX3G_STYLES "\0\0\0\x0chlit\0\1\0\3\0\0\0\x0c" "blnk\0\2\0\4\0\0\0\x0chclr\1\2\3\4"                               \
    "\0\0\0\x16krok\0\0\1\0\0\1\0\0\2\0\0\1\0\5\0\0\0\x0c" "dlay\1\0\0\2\0\0\0\x13href\0\1\0\4\2uv\3abc"                                \
    "\0\0\0\x10tbox\xff\xff\xff\xfe\0\3\0\4\0\0\0\x09twrp\1"

/* Samples that last no time among others that do. */
#define ZEROS "\0\0\0\0\0\0\0\1" "\0\0\0\7\0\0\0\2" "\0\0\0\0\0\0\0\3" "\0\0\0\5\0\0\0\1"
#define LASTING "\0\0\0\7\0\0\0\2" "\0\0\0\5\0\0\0\1"

/* A track of twelve samples, nine of them with text, and of each kind of box that is left out another number. */
#define TWRP "\0\0\0\x09twrp\0"
#define TBOX "\0\0\0\x10tbox\0\0\0\0\0\0\0\0"
#define DLAY "\0\0\0\x0c" "dlay\0\0\0\0"
#define KROK "\0\0\0\x0ekrok\0\0\0\0\0\0"
#define HLIT "\0\0\0\x0chlit\0\0\0\0"
#define BLNK "\0\0\0\x0c" "blnk\0\0\0\0"
#define HREF "\0\0\0\x0ehref\0\0\0\0\0\0"
#define SEVEN(s) s s s s s s s
#define OLD_TABLE                                                                                                                          \
    "\0\0\1\0\0\0\0\x9c" "\0\0\0\1\0\0\0\x35" "\0\0\0\2\0\0\0\x29" "\0\0\0\3\0\0\0\x1f" "\0\0\0\4\0\0\0\xf1"                     \
    SEVEN("\0\0\0\5\0\0\0\3")
#define OLD_SAMPLES(text)                                                                                                                  \
    TX3G_SAMPLE "\0\0" TWRP TBOX DLAY KROK "\0\2\r\n" TWRP TBOX DLAY "\0\4" text TWRP TBOX                                              \
    "\0\0" TWRP HLIT HLIT HLIT HLIT HLIT BLNK BLNK BLNK BLNK BLNK BLNK SEVEN(HREF) SEVEN("\0\1x")
#define OLD OLD_SAMPLES("a<\nb")
#define BAD_OLD OLD_SAMPLES("a<\0b")
#define OLD_POOL "<b>h</b><b>\xc3\xa9</b><b>l</b><b>l</b><b>o</b><b>a&lt;\nb</b>" SEVEN("<b>x</b>")
/* The record of the fourth sample. */
#define OLD_RECORD "\0\0\0\1\0\0\1\3\0\0\1\6\0\0\0\x29\0\0\0\0\0\x0e\0\0"

static void refusal(const char *name, CaptionsRefusal r) { printf("%s %u %zu %zu", name, r.number, r.place, r.offset); }

static void judged(const char *name, CaptionsRefusal r) {
    refusal(name, r);
    printf("\n");
}

static void count(CaptionsCount c) {
    refusal("count", c.refusal);
    printf(": %zu\n", c.characters);
}

static void step(CaptionsStep s) {
    refusal("step", s.refusal);
    printf(": %d %x %zu %zu\n", s.found, s.kind, s.body, s.next);
}

static void cue(CaptionsCue c) {
    refusal("cue", c.refusal);
    printf(": %d %d %u %zu %zu %zu %zu %zu %zu %zu\n", c.found, c.named, c.id, c.identifier_from, c.identifier_end, c.settings_from,
           c.settings_end, c.payload_from, c.payload_end, c.next);
}

static void wvtt_entry(CaptionsWvttEntry e) {
    refusal("wvtt entry", e.refusal);
    printf(": %u %d %zu %zu %zu %zu\n", e.data_reference_index, e.labelled, e.configuration_from, e.configuration_end, e.label_from,
           e.label_end);
}

static void written(CaptionsWritten w) {
    refusal("written", w.refusal);
    printf(": %zu\n", w.bytes);
}

static void settings_read(CaptionsSettingsRead r) {
    CaptionsSettings s = r.settings;
    refusal("settings", r.refusal);
    printf(": %u %u %u %u %u %u %d %u %u %u %zu %zu\n", s.vertical, s.line, s.line_align, s.position, s.position_align, s.align, s.line_number,
           s.line_percent, s.position_percent, s.size, r.region_from, r.region_end);
}

static void packed(CaptionsPacked p) {
    refusal("pack", p.refusal);
    printf(": %zu %zu %zu\n", p.samples, p.table_bytes, p.sample_bytes);
}

static void unpacked(CaptionsUnpacked u) {
    refusal("unpack", u.refusal);
    printf(": %zu %zu %u\n", u.record_bytes, u.pool_bytes, u.t);
}

static void dropped(CaptionsDropped d) {
    refusal("drop", d.refusal);
    printf(": %zu %zu %zu\n", d.samples, d.table_bytes, d.sample_bytes);
}

static void vtt_read(CaptionsVttRead r) {
    refusal("read", r.refusal);
    printf(": %zu %zu %zu\n", r.cues, r.record_bytes, r.pool_bytes);
}

static void vtt_written(CaptionsVttWritten w) {
    refusal("write", w.refusal);
    printf(": %u %zu\n", w.who, w.bytes);
}

static void checked(CaptionsChecked c) {
    refusal("check", c.refusal);
    printf(": %u\n", c.who);
}

static void tx3g_entry(CaptionsTx3gEntry e) {
    refusal("tx3g entry", e.refusal);
    printf(": %u %x %d %d, %u %u %u %u, %d %d %d %d, %u %u %u %u %u %u %u, %zu %zu\n", e.data_reference_index, e.display_flags,
           e.horizontal, e.vertical, e.background_red, e.background_green, e.background_blue, e.background_alpha, e.top, e.left, e.bottom,
           e.right, e.font, e.face, e.size, e.red, e.green, e.blue, e.alpha, e.fonts, e.fonts_from);
}

static void font(CaptionsFont f) { printf("font: %d %u %zu %zu\n", f.found, f.id, f.name_from, f.name_end); }

static void tx3g_sample(CaptionsTx3gSample s) {
    refusal("tx3g sample", s.refusal);
    printf(": %u %zu %d %zu %zu %zu %zu %zu %d\n", s.who, s.characters, s.utf16, s.text_from, s.text_end, s.modifiers, s.styles,
           s.styles_from, s.retired_blinking);
}

static void style(CaptionsStyle s) {
    refusal("style", s.refusal);
    printf(": %u, %u %u %u %x %x %x %x %x %x\n", s.who, s.start, s.end, s.font, s.face, s.size, s.red, s.green, s.blue, s.alpha);
}

static void run(CaptionsRun r) {
    printf("run: %d %d %zu %zu, %u %x %x %x %x %x %x, %zu %zu\n", r.found, r.styled, r.from, r.end, r.font, r.face, r.size, r.red, r.green,
           r.blue, r.alpha, r.styles, r.styles_from);
}

static void text_box(CaptionsTextBox b) {
    refusal("box", b.refusal);
    printf(": %u %d %zu, %d %d %d %d\n", b.who, b.in_sample, b.from, b.top, b.left, b.bottom, b.right);
}

static void modifier(CaptionsModifier m) {
    char kind[5] = {(char)(m.kind >> 24), (char)(m.kind >> 16), (char)(m.kind >> 8), (char)m.kind, 0};
    refusal("modifier", m.refusal);
    printf(": %d %s %u %u %u %u %zu %zu %zu %zu %zu\n", m.found, kind, m.first, m.second, m.third, m.fourth, m.from, m.end,
           m.alternative_from, m.alternative_end, m.next);
}

static void converted(CaptionsTx3gConverted c) {
    refusal("convert", c.refusal);
    printf(": %u, %zu %zu %zu %u, %zu %zu %zu %zu %zu %zu %zu %zu\n", c.who, c.cues, c.record_bytes, c.pool_bytes, c.t, c.hlit,
           c.retired_blinking, c.hclr, c.krok, c.dlay, c.href, c.tbox, c.twrp);
}

/* One byte more than a payload may have. */
static const uint8_t LONG[CAPTIONS_LONGEST_PAYLOAD + 1] = {0};

static void texts(void) {
    judged("utf8", captions_judge_utf8(TEXT("\xc3\xa9")));
    judged("utf8", captions_judge_utf8(TEXT("a\xe2\x82z")));
    judged("utf8", captions_judge_utf8(NONE));
    judged("identifier", captions_wvtt_judge_identifier(TEXT("a-b")));
    judged("identifier", captions_wvtt_judge_identifier(TEXT("a\nb")));
    judged("identifier", captions_wvtt_judge_identifier(NONE));
    judged("payload", captions_wvtt_judge_payload(TEXT("a\nb")));
    judged("payload", captions_wvtt_judge_payload(TEXT("a\nb\n")));
    judged("payload", captions_wvtt_judge_payload(NONE));
    judged("profile", captions_wvtt_judge_profile(TEXT("<v A>a</v>")));
    judged("profile", captions_wvtt_judge_profile(TEXT("<i>a</b>")));
    judged("profile", captions_wvtt_judge_profile(TEXT("<i>a\n\nb</i>")));
    judged("profile", captions_wvtt_judge_profile(LONG, sizeof LONG));
    judged("profile", captions_wvtt_judge_profile(NONE));
    judged("configuration", captions_wvtt_judge_configuration(TEXT("WEBVTT")));
    judged("configuration", captions_wvtt_judge_configuration(TEXT("WEBVTX\xff")));
    judged("configuration", captions_wvtt_judge_configuration(NONE));
    judged("label", captions_wvtt_judge_label(TEXT("a")));
    judged("label", captions_wvtt_judge_label(TEXT("a\n")));
    judged("label", captions_wvtt_judge_label(NONE));
    count(captions_tx3g_count_characters(TEXT("\xfe\xff\xd8\x3d\xde\x00")));
    count(captions_tx3g_count_characters(TEXT("\xfe\xff\xd8\x3d\0A")));
    count(captions_tx3g_count_characters(NONE));
}

static void boxes_and_times(void) {
    step(captions_step(TEXT(SAMPLE), 8));
    step(captions_step(TEXT(SAMPLE), 27));
    step(captions_step(TEXT(SAMPLE), 30));
    step(captions_step(NONE, 0));
    printf("times %llu %llu\n", (unsigned long long)captions_tick(1500, 333), (unsigned long long)captions_ms(1500, 499));
    printf("times %llu %llu\n", (unsigned long long)captions_tick(4294967295u, 4294967295u),
           (unsigned long long)captions_ms(1, ((uint64_t)1 << 48) - 1));
}

static void wvtt_samples(void) {
    judged("sample", captions_wvtt_judge_sample(TEXT(CUE)));
    judged("sample", captions_wvtt_judge_sample(TEXT(SAMPLE "\0")));
    judged("sample", captions_wvtt_judge_sample(TEXT(BAD_SAMPLE)));
    judged("sample", captions_wvtt_judge_sample(NONE));
    cue(captions_wvtt_next_cue(TEXT(CUE), 0));
    cue(captions_wvtt_next_cue(TEXT(CUE), 69));
    cue(captions_wvtt_next_cue(TEXT(CUE "\0"), 69));
    cue(captions_wvtt_next_cue(TEXT("\0\0\0\x0avttc\0\0"), 0));
    cue(captions_wvtt_next_cue(NONE, 0));
}

static void wvtt_entries(void) {
    uint8_t entry[48];
    memset(entry, 0xa5, sizeof entry);
    wvtt_entry(captions_wvtt_read_entry(TEXT(WVTT_ENTRY)));
    wvtt_entry(captions_wvtt_read_entry(TEXT("\0\0\0\x1ewvtt\0\0\0\0\0\0\0\1\0\0\0\x0evttCWEBVTT")));
    wvtt_entry(captions_wvtt_read_entry(TEXT("\0\0\0\x1ewvtt\0\0\0\0\0\0\0\1\0\0\0\x0evttCWEBVTX")));
    wvtt_entry(captions_wvtt_read_entry(NONE));
    written(captions_wvtt_entry_room(TEXT("WEBVTT x"), true, TEXT("label")));
    written(captions_wvtt_entry_room(TEXT("WEBVTT x"), false, NONE));
    written(captions_wvtt_entry_room(TEXT("WEBVTT x"), true, NONE));
    written(captions_wvtt_entry_room(NONE, true, NONE));
    written(captions_wvtt_write_entry(TEXT("WEBVTT x"), true, TEXT("la\n"), 0x0102, entry, sizeof entry));
    written(captions_wvtt_write_entry(TEXT("WEBVTT x"), true, TEXT("label"), 0x0102, entry, 44));
    written(captions_wvtt_write_entry(TEXT("WEBVTT x"), true, TEXT("label"), 0x0102, NONE));
    printf("untouched %x %x\n", entry[0], entry[47]);
    written(captions_wvtt_write_entry(TEXT("WEBVTT x"), true, TEXT("label"), 0x0102, entry, sizeof entry));
    printf("same %d %x\n", memcmp(entry, WVTT_ENTRY, 45), entry[45]);
}

/* All settings, in the form in which they are written. */
#define SETTINGS "vertical:lr line:-259,end position:2.57%,line-right size:5.14% align:right region:abc"

static void settings(void) {
    uint8_t text[96];
    CaptionsSettings all, none;
    memset(text, 0xa5, sizeof text);
    settings_read(captions_wvtt_read_settings(TEXT(" region:abc\talign:right size:05.14% position:2.57%,line-right line:-0259,end vertical:lr ")));
    settings_read(captions_wvtt_read_settings(TEXT("line:7.71%,center")));
    settings_read(captions_wvtt_read_settings(TEXT("size:50% line:auto")));
    settings_read(captions_wvtt_read_settings(TEXT("size:50% \xff")));
    settings_read(captions_wvtt_read_settings(LONG, CAPTIONS_LONGEST_LINE + 1));
    settings_read(captions_wvtt_read_settings(NONE));
    all = captions_wvtt_read_settings(TEXT(SETTINGS)).settings;
    none = captions_wvtt_read_settings(NONE).settings;
    written(captions_wvtt_settings_room(all, TEXT("abc")));
    written(captions_wvtt_settings_room(all, NONE));
    written(captions_wvtt_settings_room(none, NONE));
    written(captions_wvtt_settings_room(none, TEXT("a b")));
    written(captions_wvtt_write_settings(all, TEXT("abc"), text, sizeof SETTINGS - 2));
    all.vertical = 3;
    written(captions_wvtt_write_settings(all, TEXT("abc"), text, sizeof text));
    all.vertical = CAPTIONS_VERTICAL_LR;
    printf("untouched %x %x\n", text[0], text[95]);
    written(captions_wvtt_write_settings(all, TEXT("abc"), text, sizeof text));
    printf("same %d %x\n", memcmp(text, SETTINGS, sizeof SETTINGS - 1), text[sizeof SETTINGS - 1]);
}

static void lists_and_tracks(void) {
    judged("list", captions_judge_list(90000, 1000, TEXT(RECORD), TEXT("Hi")));
    judged("list", captions_judge_list(90000, 999, TEXT(RECORD), TEXT("Hi")));
    judged("list", captions_judge_list(90000, 1000, TEXT(BAD_RECORDS), TEXT(BAD_POOL)));
    judged("list", captions_judge_list(90000, 1000, TEXT(BARE_RECORD), NONE));
    judged("list", captions_judge_list(90000, 1000, NONE, TEXT("Hi")));
    judged("list", captions_judge_list(90000, 1000, NONE, NONE));
    judged("track", captions_wvtt_judge_track(TEXT(TABLE), TEXT(SAMPLE)));
    judged("track", captions_wvtt_judge_track(TEXT(TABLE), TEXT(SAMPLE "\0")));
    judged("track", captions_wvtt_judge_track(TEXT(BAD_TABLE), TEXT(SAMPLE BAD_SAMPLE)));
    judged("track", captions_wvtt_judge_track(TEXT(TABLE), NONE));
    judged("track", captions_wvtt_judge_track(NONE, TEXT(SAMPLE)));
    judged("track", captions_wvtt_judge_track(NONE, NONE));
}

static void packing(void) {
    uint8_t table[16], samples[64];
    memset(table, 0xa5, sizeof table);
    memset(samples, 0xa5, sizeof samples);
    packed(captions_wvtt_pack_room(90000, 1000, TEXT(RECORD), TEXT("Hi")));
    packed(captions_wvtt_pack_room(90000, 1000, TEXT(BAD_RECORDS), TEXT(BAD_POOL)));
    packed(captions_wvtt_pack_room(90000, 1000, TEXT(BARE_RECORD), NONE));
    packed(captions_wvtt_pack_room(90000, 1000, NONE, NONE));
    packed(captions_wvtt_pack(90000, 1000, TEXT(BAD_RECORDS), TEXT(BAD_POOL), table, sizeof table, samples, sizeof samples));
    packed(captions_wvtt_pack(90000, 1000, TEXT(RECORD), TEXT("Hi"), table, 8, samples, 29));
    packed(captions_wvtt_pack(90000, 1000, TEXT(RECORD), TEXT("Hi"), table, 8, NONE));
    packed(captions_wvtt_pack(90000, 1000, TEXT(RECORD), TEXT("Hi"), NONE, NONE));
    printf("untouched %x %x\n", table[0], samples[0]);
    packed(captions_wvtt_pack(90000, 1000, TEXT(RECORD), TEXT("Hi"), table, sizeof table, samples, sizeof samples));
    printf("same %d %d %x %x\n", memcmp(table, TABLE, 8), memcmp(samples, SAMPLE, 30), table[8], samples[30]);
    packed(captions_wvtt_pack(90000, 1000, NONE, NONE, table, sizeof table, samples, sizeof samples));
}

static void unpacking(void) {
    uint8_t records[48], pool[8];
    memset(records, 0xa5, sizeof records);
    memset(pool, 0xa5, sizeof pool);
    unpacked(captions_wvtt_unpack_room(90000, TEXT(TABLE), TEXT(SAMPLE)));
    unpacked(captions_wvtt_unpack_room(90000, TEXT(BAD_TABLE), TEXT(SAMPLE BAD_SAMPLE)));
    unpacked(captions_wvtt_unpack_room(90000, NONE, NONE));
    unpacked(captions_wvtt_unpack(90000, TEXT(BAD_TABLE), TEXT(SAMPLE BAD_SAMPLE), records, sizeof records, pool, sizeof pool));
    unpacked(captions_wvtt_unpack(90000, TEXT(TABLE), TEXT(SAMPLE), records, 23, pool, sizeof pool));
    unpacked(captions_wvtt_unpack(90000, TEXT(TABLE), TEXT(SAMPLE), records, sizeof records, NONE));
    unpacked(captions_wvtt_unpack(90000, TEXT(TABLE), TEXT(SAMPLE), NONE, NONE));
    unpacked(captions_wvtt_unpack(90000, NONE, NONE, records, sizeof records, pool, sizeof pool));
    printf("untouched %x %x\n", records[0], pool[0]);
    unpacked(captions_wvtt_unpack(90000, TEXT(TABLE), TEXT(SAMPLE), records, sizeof records, pool, sizeof pool));
    printf("same %d %d %x %x\n", memcmp(records, RECORD, 24), memcmp(pool, "Hi", 2), records[24], pool[2]);
}

static void dropping(void) {
    uint8_t table[24], samples[8];
    memset(table, 0xa5, sizeof table);
    memset(samples, 0xa5, sizeof samples);
    dropped(captions_drop_zero_durations_room(TEXT(ZEROS), TEXT("abbcccd")));
    dropped(captions_drop_zero_durations_room(TEXT(ZEROS "\0\0\0\0\0\0\0\0"), TEXT("abbcccd")));
    dropped(captions_drop_zero_durations_room(TEXT(ZEROS), TEXT("abbccc")));
    dropped(captions_drop_zero_durations_room(TEXT(ZEROS), TEXT("abbcccde")));
    dropped(captions_drop_zero_durations_room(TEXT(ZEROS "\0"), NONE));
    dropped(captions_drop_zero_durations_room(NONE, NONE));
    dropped(captions_drop_zero_durations(TEXT(ZEROS), TEXT("abbccc"), table, sizeof table, samples, sizeof samples));
    dropped(captions_drop_zero_durations(TEXT(ZEROS), TEXT("abbcccd"), table, 15, samples, sizeof samples));
    dropped(captions_drop_zero_durations(TEXT(ZEROS), TEXT("abbcccd"), table, sizeof table, samples, 2));
    dropped(captions_drop_zero_durations(TEXT(ZEROS), TEXT("abbcccd"), NONE, NONE));
    dropped(captions_drop_zero_durations(NONE, NONE, NONE, NONE));
    printf("untouched %x %x\n", table[0], samples[0]);
    dropped(captions_drop_zero_durations(TEXT(ZEROS), TEXT("abbcccd"), table, sizeof table, samples, sizeof samples));
    printf("same %d %d %x %x\n", memcmp(table, LASTING, 16), memcmp(samples, "bbd", 3), table[16], samples[3]);
}

static void vtt_files(void) {
    uint8_t records[72], pool[16];
    memset(records, 0xa5, sizeof records);
    memset(pool, 0xa5, sizeof pool);
    vtt_read(captions_vtt_read_room(TEXT(VTT_FILE)));
    vtt_read(captions_vtt_read_room(TEXT(BAD_VTT_FILE)));
    vtt_read(captions_vtt_read_room(TEXT("WEBVTT")));
    vtt_read(captions_vtt_read_room(NONE));
    vtt_read(captions_vtt_read(TEXT(BAD_VTT_FILE), records, sizeof records, pool, sizeof pool));
    vtt_read(captions_vtt_read(TEXT(VTT_FILE "\nSTYLE"), records, sizeof records, pool, sizeof pool));
    vtt_read(captions_vtt_read(TEXT(VTT_FILE), records, 47, pool, sizeof pool));
    vtt_read(captions_vtt_read(TEXT(VTT_FILE), records, sizeof records, pool, 8));
    vtt_read(captions_vtt_read(TEXT(VTT_FILE), NONE, NONE));
    vtt_read(captions_vtt_read(NONE, NONE, NONE));
    printf("untouched %x %x\n", records[0], pool[0]);
    vtt_read(captions_vtt_read(TEXT(VTT_FILE), records, sizeof records, pool, sizeof pool));
    printf("same %d %d %x %x\n", memcmp(records, VTT_RECORDS, 48), memcmp(pool, "abcdef\nhi", 9), records[48], pool[9]);
}

static void vtt_files_out(void) {
    uint8_t file[128];
    memset(file, 0xa5, sizeof file);
    vtt_written(captions_vtt_write_room(TEXT(VTT_HEADER), TEXT(VTT_RECORDS), TEXT("abcdef\nhi")));
    vtt_written(captions_vtt_write_room(TEXT("WEBVTX\xff"), TEXT(BAD_RECORDS), TEXT(BAD_POOL)));
    vtt_written(captions_vtt_write_room(TEXT(VTT_HEADER), TEXT(BAD_RECORDS), TEXT(BAD_POOL)));
    vtt_written(captions_vtt_write_room(TEXT(VTT_HEADER), NONE, NONE));
    vtt_written(captions_vtt_write_room(NONE, NONE, NONE));
    vtt_written(captions_vtt_write(TEXT("WEBVTT\n"), TEXT(VTT_RECORDS), TEXT("abcdef\nhi"), file, sizeof file));
    vtt_written(captions_vtt_write(TEXT(VTT_HEADER), TEXT(VTT_RECORDS), TEXT("abcdef\nh"), file, sizeof file));
    vtt_written(captions_vtt_write(TEXT(VTT_HEADER), TEXT(VTT_RECORDS), TEXT("abcdef\nhi"), file, sizeof VTT_WRITTEN - 2));
    vtt_written(captions_vtt_write(TEXT(VTT_HEADER), TEXT(VTT_RECORDS), TEXT("abcdef\nhi"), NONE));
    printf("untouched %x %x\n", file[0], file[127]);
    vtt_written(captions_vtt_write(TEXT(VTT_HEADER), TEXT(VTT_RECORDS), TEXT("abcdef\nhi"), file, sizeof file));
    printf("same %d %x\n", memcmp(file, VTT_WRITTEN, sizeof VTT_WRITTEN - 1), file[sizeof VTT_WRITTEN - 1]);
    vtt_read(captions_vtt_read_room(file, sizeof VTT_WRITTEN - 1));
}

static void checks(void) {
    checked(captions_wvtt_check(90000, 1000, TEXT(RECORD), TEXT("Hi"), TEXT(TABLE), TEXT(SAMPLE)));
    checked(captions_wvtt_check(90000, 1000, TEXT(RECORD), TEXT("Ho"), TEXT(TABLE), TEXT(SAMPLE)));
    checked(captions_wvtt_check(90000, 1001, TEXT(RECORD), TEXT("Hi"), TEXT(TABLE), TEXT(SAMPLE)));
    checked(captions_wvtt_check(90000, 1000, TEXT(BAD_RECORDS), TEXT(BAD_POOL), TEXT(BAD_TABLE), TEXT(SAMPLE BAD_SAMPLE)));
    checked(captions_wvtt_check(90000, 1000, TEXT(RECORD), TEXT("Hi"), TEXT(BAD_TABLE), TEXT(SAMPLE BAD_SAMPLE)));
    checked(captions_wvtt_check(90000, 1000, NONE, NONE, TEXT(TABLE), TEXT(SAMPLE)));
    checked(captions_wvtt_check(90000, 1000, TEXT(RECORD), TEXT("Hi"), NONE, NONE));
    checked(captions_wvtt_check(90000, 1000, NONE, NONE, NONE, NONE));
}

static void tx3g_entries(void) {
    tx3g_entry(captions_tx3g_read_entry(TEXT(TX3G_ENTRY)));
    tx3g_entry(captions_tx3g_read_entry(TEXT(TX3G_ENTRY "\0")));
    tx3g_entry(captions_tx3g_read_entry(NONE));
    font(captions_tx3g_font_at(TEXT(TX3G_ENTRY), 56));
    font(captions_tx3g_font_at(TEXT(TX3G_ENTRY), 62));
    font(captions_tx3g_font_at(TEXT(TX3G_ENTRY), 67));
    font(captions_tx3g_font_at(NONE, 0));
}

static void tx3g_samples(void) {
    tx3g_sample(captions_tx3g_read_sample(TEXT(TX3G_ENTRY), TEXT(TX3G_SAMPLE)));
    tx3g_sample(captions_tx3g_read_sample(TEXT(TX3G_ENTRY), TEXT("\0\6\xfe\xff\xd8\x3d\xde\x00")));
    /* a blnk inside another box, and one in front of a header that is cut short */
    tx3g_sample(captions_tx3g_read_sample(TEXT(TX3G_ENTRY), TEXT("\0\0\0\0\0\x14" "free\0\0\0\x0c" "blnk\0\0\0\0")));
    tx3g_sample(captions_tx3g_read_sample(TEXT(TX3G_ENTRY), TEXT("\0\0\0\0\0\x0c" "blnk\0\0\0\0\0")));
    tx3g_sample(captions_tx3g_read_sample(TEXT(TX3G_ENTRY), TEXT("\0\3ab\xff")));
    tx3g_sample(captions_tx3g_read_sample(TEXT("\0"), TEXT("\0\3ab\xff")));
    tx3g_sample(captions_tx3g_read_sample(TEXT(TX3G_ENTRY), NONE));
    tx3g_sample(captions_tx3g_read_sample(NONE, TEXT(TX3G_SAMPLE)));
    tx3g_sample(captions_tx3g_read_sample(NONE, NONE));
    style(captions_tx3g_style(TEXT(TX3G_ENTRY), TEXT(TX3G_SAMPLE), 1));
    style(captions_tx3g_style(TEXT(TX3G_ENTRY), TEXT(TX3G_SAMPLE), 2));
    style(captions_tx3g_style(TEXT(TX3G_ENTRY), TEXT(TX3G_SAMPLE), 5));
    style(captions_tx3g_style(TEXT(TX3G_ENTRY), TEXT("\0\3ab\xff"), 0));
    style(captions_tx3g_style(NONE, NONE, 0));
    text_box(captions_tx3g_text_box(TEXT(TX3G_ENTRY), TEXT(TX3G_SAMPLE)));
    text_box(captions_tx3g_text_box(TEXT(TX3G_ENTRY), TEXT("\0\0")));
    text_box(captions_tx3g_text_box(TEXT(TX3G_ENTRY), TEXT("\0\3ab\xff")));
    text_box(captions_tx3g_text_box(NONE, NONE));
}

static void runs(void) {
    CaptionsTx3gSample s = captions_tx3g_read_sample(TEXT(TX3G_ENTRY), TEXT(TX3G_SAMPLE));
    CaptionsRun r = captions_tx3g_next_run(TEXT(TX3G_SAMPLE), s.styles, s.styles_from, 0, s.characters);
    run(r);
    while (r.found) {
        r = captions_tx3g_next_run(TEXT(TX3G_SAMPLE), r.styles, r.styles_from, r.end, s.characters);
        run(r);
    }
    run(captions_tx3g_next_run(NONE, 7, 8, 9, 10));
    run(captions_tx3g_next_run(TEXT(TX3G_SAMPLE), SIZE_MAX, SIZE_MAX, 0, SIZE_MAX));
}

static void modifiers(void) {
    CaptionsModifier m = captions_tx3g_next_modifier(TEXT(TX3G_SAMPLE), 8);
    modifier(m);
    while (m.found) {
        m = captions_tx3g_next_modifier(TEXT(TX3G_SAMPLE), m.next);
        modifier(m);
    }
    modifier(captions_tx3g_next_modifier(TEXT(TX3G_SAMPLE "\0"), sizeof TX3G_SAMPLE - 1));
    modifier(captions_tx3g_next_modifier(NONE, 0));
}

static void converting(void) {
    uint8_t records[240], pool[128];
    memset(records, 0xa5, sizeof records);
    memset(pool, 0xa5, sizeof pool);
    converted(captions_tx3g_convert_room(1000, TEXT(TX3G_ENTRY), TEXT(OLD_TABLE), TEXT(OLD)));
    converted(captions_tx3g_convert_room(0, NONE, NONE, NONE));
    converted(captions_tx3g_convert_room(1000, TEXT(TX3G_ENTRY "\0"), NONE, NONE));
    converted(captions_tx3g_convert_room(1000, NONE, TEXT(OLD_TABLE), TEXT(OLD)));
    converted(captions_tx3g_convert_room(1000, TEXT(TX3G_ENTRY), TEXT(OLD_TABLE), TEXT(OLD "\0")));
    converted(captions_tx3g_convert_room(1000, TEXT(TX3G_ENTRY), TEXT("\0\0\0\1\0\0\0\5"), TEXT("\0\3ab\xff")));
    converted(captions_tx3g_convert_room(1000, TEXT(TX3G_ENTRY), TEXT(ZEROS), TEXT("abbcccd")));
    converted(captions_tx3g_convert_room(1000, TEXT(TX3G_ENTRY), NONE, NONE));
    converted(captions_tx3g_convert(1000, TEXT(TX3G_ENTRY), TEXT(OLD_TABLE), TEXT(BAD_OLD), records, sizeof records, pool, sizeof pool));
    converted(captions_tx3g_convert(1000, TEXT(TX3G_ENTRY), TEXT(OLD_TABLE), TEXT(OLD), records, 215, pool, sizeof pool));
    converted(captions_tx3g_convert(1000, TEXT(TX3G_ENTRY), TEXT(OLD_TABLE), TEXT(OLD), records, sizeof records, pool, 110));
    converted(captions_tx3g_convert(1000, TEXT(TX3G_ENTRY), TEXT(OLD_TABLE), TEXT(OLD), NONE, NONE));
    converted(captions_tx3g_convert(1000, NONE, NONE, NONE, NONE, NONE));
    printf("untouched %x %x\n", records[0], pool[0]);
    converted(captions_tx3g_convert(1000, TEXT(TX3G_ENTRY), TEXT(OLD_TABLE), TEXT(OLD), records, sizeof records, pool, sizeof pool));
    printf("same %d %d %x %x\n", memcmp(records + 24, OLD_RECORD, 24), memcmp(pool, OLD_POOL, 111), records[216], pool[111]);
}

int main(void) {
    printf("%s %d %d %d\n", CAPTIONS_VERSION, CAPTIONS_VERSION_MAJOR, CAPTIONS_VERSION_MINOR, CAPTIONS_VERSION_PATCH);
    printf("%s, %s, %s\n", captions_reason(CAPTIONS_DONE), captions_reason(CAPTIONS_OUTSIDE_PROFILE),
           captions_reason(CAPTIONS_OUTSIDE_PROFILE + 1));
    texts();
    boxes_and_times();
    wvtt_samples();
    wvtt_entries();
    settings();
    lists_and_tracks();
    packing();
    unpacking();
    dropping();
    checks();
    vtt_files();
    vtt_files_out();
    tx3g_entries();
    tx3g_samples();
    runs();
    modifiers();
    converting();
    return 0;
}

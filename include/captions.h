/* Captions in MP4 tracks: WebVTT (wvtt) and 3GPP text (tx3g) samples and sample entries, cue lists and tracks.
 *
 * Bytes are lent as a pointer and a length; where the length is 0 the pointer may be NULL. A pointer is good for its length while the call runs.
 * Inputs may overlap one another; an output overlaps nothing else that is lent. Every function is total: any bytes, any numbers and any lent
 * lengths get an answer. Every refusal gives a number, a place and an offset, and writes nothing; on success bytes past the result keep their
 * content. What an answer leaves free is 0. Nothing is allocated, nothing is kept after a call, and calls may run at the same time.
 *
 * docs/FORMATS.md has the bytes of records, pools, tables, samples and entries, and what each place means. */
#ifndef CAPTIONS_H
#define CAPTIONS_H

#include <stdbool.h>
#include <stddef.h>
#include <stdint.h>

#ifdef __cplusplus
extern "C" {
#endif

#define CAPTIONS_VERSION_MAJOR 0
#define CAPTIONS_VERSION_MINOR 3
#define CAPTIONS_VERSION_PATCH 0
#define CAPTIONS_VERSION "0.3.0"

/* The numbers given back; captions_reason says each in a few words. */
enum {
    CAPTIONS_DONE = 0,
    CAPTIONS_BYTES_MISSING = 1,   /* header, body, record, texts past the pool, sample past the bytes */
    CAPTIONS_BAD_SIZE = 2,        /* box size below 8, body longer than its kind, bytes left over, another entry type */
    CAPTIONS_KIND_TWICE = 3,
    CAPTIONS_BOX_MISSING = 4,     /* payl, vttC, ftab or every cue; a sample of size 0 */
    CAPTIONS_NOT_ALONE = 5,       /* vtte beside vttc, or a second vtte */
    CAPTIONS_BAD_TEXT = 6,        /* the offset says where */
    CAPTIONS_BAD_RANGE = 7,       /* range, box or style order; k past the text */
    CAPTIONS_BAD_VALUE = 8,       /* ID, font, justification, wrap, reserved bytes; settings that no text gives */
    CAPTIONS_PAST_LIMIT = 9,
    CAPTIONS_BAD_TIME = 10,       /* scale, timeline or time; zero duration */
    CAPTIONS_BAD_ORDER = 11,      /* starts fall; cues in a sample not in order of first appearance */
    CAPTIONS_ID_TWICE = 12,       /* in a list or a sample */
    CAPTIONS_ID_AFTER_GAP = 13,
    CAPTIONS_OTHER_TEXTS = 14,    /* one ID, other texts */
    CAPTIONS_NO_ROOM = 15,        /* output too short for the whole result */
    CAPTIONS_DIFFERS = 16,        /* the track differs */
    CAPTIONS_NO_ID = 17,          /* a cue without ID, in unpacking */
    CAPTIONS_STYLE_BLOCK = 18,    /* a STYLE or REGION block of a file */
    CAPTIONS_MALFORMED = 19,      /* a line or block of a file that may not stand there */
    CAPTIONS_BAD_SETTING = 20,    /* a setting unknown, malformed or twice; the place says where */
    CAPTIONS_OUTSIDE_PROFILE = 21 /* a payload outside the tag profile; the place says where */
};

/* Limits (docs/FORMATS.md). */
#define CAPTIONS_RECORD_BYTES 24        /* a cue record */
#define CAPTIONS_ROW_BYTES 8            /* a record of a sample table */
#define CAPTIONS_MOST_CUES 1024         /* in a list */
#define CAPTIONS_MOST_SAMPLES 65536     /* in a track */
#define CAPTIONS_LARGEST_ID 2147483647u /* of a cue */
#define CAPTIONS_LONGEST_LINE 255       /* an identifier or settings, in bytes */
#define CAPTIONS_LONGEST_PAYLOAD 4095   /* in bytes */
#define CAPTIONS_LARGEST_SCALE 1000000  /* ticks a second */
#define CAPTIONS_LARGEST_MS 359999999   /* 99:59:59.999 */

/* Why and where. Number 0 says that nothing is wrong. The place is a byte of a sample or an entry, or of a text beside 20 and 21, the index of a
   record or a sample, or the line of a file.
   The offset says where a text is bad, counted from the text's start: at the first byte after which no continuation could be right, or at
   the text's length where it ends too early. Beside every number but 6 the offset is 0.
   Where to look for 6: in a sample or an entry at byte place + 8 + offset, behind the header of the box at the place; in a tx3g sample at byte
   2 + offset. Of a record's texts the first bad one of identifier, settings and payload counts: captions_wvtt_judge_identifier and _payload
   tell which it is. In a track the place is the sample's index: captions_wvtt_judge_sample of its bytes gives the box. */
typedef struct CaptionsRefusal {
    uint32_t number;
    size_t place;
    size_t offset;
} CaptionsRefusal;

/* Who is at fault, where an operation is lent more than one thing. */
enum {
    CAPTIONS_NOBODY = 0,
    CAPTIONS_ENTRY = 1,
    CAPTIONS_SAMPLE = 2,
    CAPTIONS_LIST = 3,
    CAPTIONS_TRACK = 4,
    CAPTIONS_CONFIGURATION = 5,
    CAPTIONS_OUTPUT = 6
};

/* A refusal's number in a few words; of a number that is not in the table, "unknown". */
static inline const char *captions_reason(uint32_t number) {
    static const char *const reasons[] = {
        "done",
        "bytes missing",
        "a size that does not fit, or another entry type",
        "a kind twice",
        "a box or every cue missing",
        "vtte beside another",
        "bad text",
        "bad range or order",
        "a value not allowed",
        "a limit passed",
        "scale, timeline or time not allowed",
        "starts fall, or cues out of order",
        "an ID twice",
        "an ID after a gap",
        "one ID, other texts",
        "output too short",
        "the track differs",
        "a cue without ID",
        "a STYLE or REGION block",
        "a malformed line or block",
        "a setting unknown, malformed or twice",
        "a payload outside the tag profile",
    };
    return number < sizeof reasons / sizeof *reasons ? reasons[number] : "unknown";
}

/* ---- Text, boxes, times ---- */

/* Whether a text is UTF-8 (RFC 3629). 6 for bad text, place 0. */
CaptionsRefusal captions_judge_utf8(const uint8_t *text, size_t text_len);

/* A box, a refusal, or at the end neither: number 0 and nothing found. */
typedef struct CaptionsStep {
    CaptionsRefusal refusal;
    bool found;
    uint32_t kind; /* the type's four bytes, big-endian */
    size_t body;   /* where the body begins */
    size_t next;   /* where it ends and the next box begins */
} CaptionsStep;

/* The box at `at` in a container that ends with the bytes. */
CaptionsStep captions_step(const uint8_t *bytes, size_t bytes_len, size_t at);

/* The tick of ms rounded down; the ms of a tick rounded up, 0 for scale 0 or a tick of 2^48 or more. */
uint64_t captions_tick(uint32_t scale, uint32_t ms);
uint64_t captions_ms(uint32_t scale, uint64_t tick);

/* ---- WebVTT: texts and samples ---- */

/* An identifier or settings; a payload; a vttC body; a vlab body. 6 for bad text, place 0. Lengths are not judged. */
CaptionsRefusal captions_wvtt_judge_identifier(const uint8_t *text, size_t text_len);
CaptionsRefusal captions_wvtt_judge_payload(const uint8_t *text, size_t text_len);
CaptionsRefusal captions_wvtt_judge_configuration(const uint8_t *text, size_t text_len);
CaptionsRefusal captions_wvtt_judge_label(const uint8_t *text, size_t text_len);

/* A payload by the tag profile: the tags b, i, u, c, v, lang and ruby, and rt directly inside ruby, each with its own end tag and at most 16 open
   at once; classes on any of them, an annotation on v and lang; timestamps hh:mm:ss.mmm that rise; of escapes &amp; &lt; &gt; &nbsp; &lrm; &rlm;.
   Refused: 9, place 0, for more than 4,095 bytes; 6, place 0, as by captions_wvtt_judge_payload; 21, whose place is the first byte that no text of
   the profile could have there, or the length of a text that ends too early. */
CaptionsRefusal captions_wvtt_judge_profile(const uint8_t *text, size_t text_len);

/* A WebVTT sample; the place is a byte of it. */
CaptionsRefusal captions_wvtt_judge_sample(const uint8_t *sample, size_t sample_len);

/* A cue, a refusal, or at the end neither: number 0 and nothing found. A cue's texts go from a byte of the sample to before another; a text
   that is not there is empty. */
typedef struct CaptionsCue {
    CaptionsRefusal refusal;
    bool found;
    bool named; /* whether it has an ID */
    uint32_t id;
    size_t identifier_from;
    size_t identifier_end;
    size_t settings_from;
    size_t settings_end;
    size_t payload_from;
    size_t payload_end;
    size_t next; /* from where to look for the next cue */
} CaptionsCue;

/* The first cue of a sample from `from` on: 0, or the `next` of the cue before. The walk gives 1 or 2 for a bad header before the cue or among
   its boxes, and judges nothing else: of a sample that captions_wvtt_judge_sample refuses for another reason, the last box of a kind counts,
   and a vsid that is not 4 bytes counts as none. */
CaptionsCue captions_wvtt_next_cue(const uint8_t *sample, size_t sample_len, size_t from);

/* ---- WebVTT: sample entries ---- */

/* The configuration and the label stand from a byte of the entry to before another; where there is no label, both are 0. */
typedef struct CaptionsWvttEntry {
    CaptionsRefusal refusal;
    uint32_t data_reference_index;
    bool labelled; /* whether it has a vlab */
    size_t configuration_from;
    size_t configuration_end;
    size_t label_from;
    size_t label_end;
} CaptionsWvttEntry;

/* Judges a wvtt entry and says where its texts stand; the place of a refusal is a byte of the entry. */
CaptionsWvttEntry captions_wvtt_read_entry(const uint8_t *entry, size_t entry_len);

typedef struct CaptionsWritten {
    CaptionsRefusal refusal;
    size_t bytes;
} CaptionsWritten;

/* Writes a wvtt entry with a configuration, a label if `labelled`, and a data reference index; reading it gives them back. Refused: 9, place 0, if
   its size does not fit 4 bytes; 6 for the configuration (place 0) or the label (place 1); last 15, place 0. Where not `labelled`, the label's
   bytes are not looked at. The room is the length it needs, or the same refusal but for 15. A packed track holds a vsid in every cue, so the
   entry beside it needs a label. */
CaptionsWritten captions_wvtt_entry_room(const uint8_t *configuration, size_t configuration_len, bool labelled, const uint8_t *label,
                                         size_t label_len);
CaptionsWritten captions_wvtt_write_entry(const uint8_t *configuration, size_t configuration_len, bool labelled, const uint8_t *label,
                                          size_t label_len, uint16_t data_reference_index, uint8_t *entry, size_t entry_len);

/* ---- WebVTT: settings ---- */

enum { CAPTIONS_VERTICAL_NONE = 0, CAPTIONS_VERTICAL_RL = 1, CAPTIONS_VERTICAL_LR = 2 };
enum { CAPTIONS_LINE_AUTO = 0, CAPTIONS_LINE_NUMBER = 1, CAPTIONS_LINE_PERCENT = 2 };
enum { CAPTIONS_LINE_ALIGN_START = 0, CAPTIONS_LINE_ALIGN_CENTER = 1, CAPTIONS_LINE_ALIGN_END = 2 };
enum { CAPTIONS_POSITION_AUTO = 0, CAPTIONS_POSITION_PERCENT = 1 };
enum {
    CAPTIONS_POSITION_ALIGN_AUTO = 0,
    CAPTIONS_POSITION_ALIGN_LINE_LEFT = 1,
    CAPTIONS_POSITION_ALIGN_CENTER = 2,
    CAPTIONS_POSITION_ALIGN_LINE_RIGHT = 3
};
enum { CAPTIONS_ALIGN_START = 0, CAPTIONS_ALIGN_CENTER = 1, CAPTIONS_ALIGN_END = 2, CAPTIONS_ALIGN_LEFT = 3, CAPTIONS_ALIGN_RIGHT = 4 };

/* What a cue's settings say, the region aside. Percentages are in hundredths, 0 to 10,000. An empty text says the defaults: no vertical, line and
   position auto with alignments start and auto, size 10,000, align center. */
typedef struct CaptionsSettings {
    uint8_t vertical;
    uint8_t line;
    uint8_t line_align;
    uint8_t position;
    uint8_t position_align;
    uint8_t align;
    int16_t line_number;       /* beside CAPTIONS_LINE_NUMBER; else 0 in reading, and not looked at in writing */
    uint16_t line_percent;     /* beside CAPTIONS_LINE_PERCENT; likewise */
    uint16_t position_percent; /* beside CAPTIONS_POSITION_PERCENT; likewise */
    uint16_t size;
} CaptionsSettings;

/* The region's name stands in the text from a byte to before another; where there is none, both are 0. */
typedef struct CaptionsSettingsRead {
    CaptionsRefusal refusal;
    CaptionsSettings settings; /* beside a refusal all 0, which are not the defaults */
    size_t region_from;
    size_t region_end;
} CaptionsSettingsRead;

/* Reads a settings text: settings of the form name:value with spaces and tabs between them, before and behind. Line numbers go from -32,768 to
   32,767, percentages from 0 to 100 with at most two decimals; auto is not written. A region's name has no white space.
   Refused: 9, place 0, for more than 255 bytes; 6, place 0, as by captions_wvtt_judge_identifier; 20, whose place is where the first setting begins
   that is unknown or malformed, or whose name was there before. */
CaptionsSettingsRead captions_wvtt_read_settings(const uint8_t *text, size_t text_len);

/* Writes settings in one form: vertical, line, position, size, align and region in this order, one space between them, each value as short as it
   can be, and no default. Reading it gives the same settings and region back. An empty region is none.
   Refused: 8, place 0, for what no text gives: a number that is not in its list, a value out of range, an alignment other than the default
   beside auto, a region's name with white space or bad as an identifier, or a text of more than 255 bytes; last 15, place 0. The room is the
   length that the text needs, or the same refusal but for 15. */
CaptionsWritten captions_wvtt_settings_room(CaptionsSettings settings, const uint8_t *region, size_t region_len);
CaptionsWritten captions_wvtt_write_settings(CaptionsSettings settings, const uint8_t *region, size_t region_len, uint8_t *text, size_t text_len);

/* ---- WebVTT: cue lists and tracks ---- */

/* A cue list: 24-byte records, and the pool of their texts, on a timeline of t ms; the place is a record's index. */
CaptionsRefusal captions_judge_list(uint32_t scale, uint32_t t, const uint8_t *records, size_t records_len, const uint8_t *pool,
                                    size_t pool_len);

/* A track: 8-byte table records, and the samples back to back; the place is a sample's index. */
CaptionsRefusal captions_wvtt_judge_track(const uint8_t *table, size_t table_len, const uint8_t *samples, size_t samples_len);

typedef struct CaptionsPacked {
    CaptionsRefusal refusal;
    size_t samples; /* the number of samples */
    size_t table_bytes;
    size_t sample_bytes;
} CaptionsPacked;

/* Packs a cue list into a table and samples; last 15, place 0 for the table and 1 for the samples. The room is what packing answers where there
   is room: the lengths it needs, or its refusal. */
CaptionsPacked captions_wvtt_pack_room(uint32_t scale, uint32_t t, const uint8_t *records, size_t records_len, const uint8_t *pool,
                                       size_t pool_len);
CaptionsPacked captions_wvtt_pack(uint32_t scale, uint32_t t, const uint8_t *records, size_t records_len, const uint8_t *pool,
                                  size_t pool_len, uint8_t *table, size_t table_len, uint8_t *samples, size_t samples_len);

typedef struct CaptionsUnpacked {
    CaptionsRefusal refusal;
    size_t record_bytes;
    size_t pool_bytes;
    uint32_t t; /* in ms */
} CaptionsUnpacked;

/* Unpacks a track into a cue list; last 15, place 0 for the records and 1 for the pool. The room is what unpacking answers where there is room.
   Both take up to 80 KiB of stack. */
CaptionsUnpacked captions_wvtt_unpack_room(uint32_t scale, const uint8_t *table, size_t table_len, const uint8_t *samples,
                                           size_t samples_len);
CaptionsUnpacked captions_wvtt_unpack(uint32_t scale, const uint8_t *table, size_t table_len, const uint8_t *samples, size_t samples_len,
                                      uint8_t *records, size_t records_len, uint8_t *pool, size_t pool_len);

typedef struct CaptionsChecked {
    CaptionsRefusal refusal;
    uint32_t who; /* CAPTIONS_LIST, scale and t among it: the place is a record; CAPTIONS_TRACK: it is a sample */
} CaptionsChecked;

/* Whether a track shows the list's cues at every tick: the list as packing judges it, the track, then 16 with the first wrong sample, or the
   sample count where the track ends early. A cue without vsid is a wrong cue. */
CaptionsChecked captions_wvtt_check(uint32_t scale, uint32_t t, const uint8_t *records, size_t records_len, const uint8_t *pool,
                                    size_t pool_len, const uint8_t *table, size_t table_len, const uint8_t *samples, size_t samples_len);

/* ---- Tracks of either kind ---- */

typedef struct CaptionsDropped {
    CaptionsRefusal refusal;
    size_t samples; /* how many are left */
    size_t table_bytes;
    size_t sample_bytes;
} CaptionsDropped;

/* Copies a table and its samples without the samples of duration 0, which no time shows and every reading of a track refuses. The others keep
   their order, their durations and their bytes, and so their times. Of a sample's bytes nothing is read, so that it serves wvtt and tx3g alike.
   Refused: 1 or 9 of the table, place 0; sample by sample 4, 1, place its index; 2 for bytes left over, place the sample count; last 15, place 0
   for the table and 1 for the samples. The room is what dropping answers where there is room. */
CaptionsDropped captions_drop_zero_durations_room(const uint8_t *table, size_t table_len, const uint8_t *samples, size_t samples_len);
CaptionsDropped captions_drop_zero_durations(const uint8_t *table, size_t table_len, const uint8_t *samples, size_t samples_len,
                                             uint8_t *table_out, size_t table_out_len, uint8_t *samples_out, size_t samples_out_len);

/* ---- WebVTT files ---- */

typedef struct CaptionsVttRead {
    CaptionsRefusal refusal;
    size_t cues; /* how many */
    size_t record_bytes;
    size_t pool_bytes;
} CaptionsVttRead;

/* Reads a WebVTT file into a cue list, IDs counted from 0. The place of a refusal is a line number, from 1: a cue's timing line, else the first line
   of the block. Header lines and NOTE blocks are passed over; 18 for a STYLE or REGION block, 19 for what is malformed, and each cue is judged as
   packing judges it at scale 1,000 and t 359,999,999; the offset of 6 counts in the text as the pool would hold it. Last 15, place 0 for the
   records and 1 for the pool. The room is what reading answers where there is room. Both take up to 80 KiB of stack. */
CaptionsVttRead captions_vtt_read_room(const uint8_t *file, size_t file_len);
CaptionsVttRead captions_vtt_read(const uint8_t *file, size_t file_len, uint8_t *records, size_t records_len, uint8_t *pool, size_t pool_len);

typedef struct CaptionsVttWritten {
    CaptionsRefusal refusal;
    uint32_t who; /* CAPTIONS_CONFIGURATION; CAPTIONS_LIST: the place is a record; CAPTIONS_OUTPUT, beside 15 */
    size_t bytes;
} CaptionsVttWritten;

/* Writes a configuration and a cue list as a WebVTT file: the configuration, an empty line, then the cues with an empty line between them. A cue
   is its identifier, its times as hh:mm:ss.mmm --> hh:mm:ss.mmm with its settings behind a space, and its payload. Every line ends in LF, the last
   too; of an empty text nothing is written, and the others go out byte for byte.
   Refused: 6, place 0, for a configuration that a wvtt entry could not hold; then the list as packing refuses it at scale 1,000 and
   t 359,999,999; last 15, place 0. The room is what writing answers where there is room.
   Reading the file gives the same times and texts in the same order, IDs counted from 0, where the configuration holds no empty line and no -->,
   and its first line is WEBVTT, alone or with a space or tab behind it; no payload holds a CR; and no settings begin or end with a space, tab or
   form feed. */
CaptionsVttWritten captions_vtt_write_room(const uint8_t *configuration, size_t configuration_len, const uint8_t *records, size_t records_len,
                                           const uint8_t *pool, size_t pool_len);
CaptionsVttWritten captions_vtt_write(const uint8_t *configuration, size_t configuration_len, const uint8_t *records, size_t records_len,
                                      const uint8_t *pool, size_t pool_len, uint8_t *file, size_t file_len);

/* ---- 3GPP text: entries ---- */

typedef struct CaptionsTx3gEntry {
    CaptionsRefusal refusal;
    uint32_t data_reference_index;
    uint32_t display_flags;
    int32_t horizontal; /* justification: -1, 0 or 1 */
    int32_t vertical;
    uint32_t background_red;
    uint32_t background_green;
    uint32_t background_blue;
    uint32_t background_alpha;
    int32_t top; /* the default text box */
    int32_t left;
    int32_t bottom;
    int32_t right;
    uint32_t font; /* the default style */
    uint32_t face; /* 1 bold, 2 italic, 4 underlined */
    uint32_t size;
    uint32_t red;
    uint32_t green;
    uint32_t blue;
    uint32_t alpha;
    size_t fonts;      /* how many */
    size_t fonts_from; /* where the first stands */
} CaptionsTx3gEntry;

/* Judges a tx3g entry and reads it; the place of a refusal is a byte of the entry. */
CaptionsTx3gEntry captions_tx3g_read_entry(const uint8_t *entry, size_t entry_len);

typedef struct CaptionsFont {
    bool found; /* whether its bytes are there */
    uint32_t id;
    size_t name_from;
    size_t name_end; /* where the next font stands */
} CaptionsFont;

/* The font that stands at a byte of an entry: `fonts_from`, or the `name_end` of the font before, `fonts` times. */
CaptionsFont captions_tx3g_font_at(const uint8_t *entry, size_t entry_len, size_t at);

/* ---- 3GPP text: samples ---- */

typedef struct CaptionsCount {
    CaptionsRefusal refusal;
    size_t characters;
} CaptionsCount;

/* The characters of a tx3g text, UTF-8, or UTF-16 after FE FF; 6 for bad text, place 0. */
CaptionsCount captions_tx3g_count_characters(const uint8_t *text, size_t text_len);

typedef struct CaptionsTx3gSample {
    CaptionsRefusal refusal;
    uint32_t who; /* CAPTIONS_ENTRY or CAPTIONS_SAMPLE */
    size_t characters;
    bool utf16;       /* the text is UTF-16, big-endian; else UTF-8 */
    size_t text_from; /* the text, without the mark FE FF of UTF-16 */
    size_t text_end;
    size_t modifiers;      /* where the modifier boxes begin */
    size_t styles;         /* how many styles there are */
    size_t styles_from;    /* where the first stands; 0 where there is no styl */
    bool retired_blinking; /* there is a blnk; which characters it names is not handed out */
} CaptionsTx3gSample;

/* Judges an entry, then a sample, and reads the sample. */
CaptionsTx3gSample captions_tx3g_read_sample(const uint8_t *entry, size_t entry_len, const uint8_t *sample, size_t sample_len);

typedef struct CaptionsStyle {
    CaptionsRefusal refusal;
    uint32_t who;
    uint32_t start; /* as in the styl record; 0 and 0 of the default style */
    uint32_t end;
    uint32_t font;
    uint32_t face;
    uint32_t size;
    uint32_t red;
    uint32_t green;
    uint32_t blue;
    uint32_t alpha;
} CaptionsStyle;

/* The style of character k: the entry is judged first, then the sample, then k (7, the sample's, place 0). For a whole text walk its runs. */
CaptionsStyle captions_tx3g_style(const uint8_t *entry, size_t entry_len, const uint8_t *sample, size_t sample_len, size_t k);

/* Characters of one style, from `from` to before `end`; or at the end of the text nothing. The style is the default one unless `styled`. */
typedef struct CaptionsRun {
    bool found;
    bool styled;
    size_t from;
    size_t end;
    uint32_t font;
    uint32_t face;
    uint32_t size;
    uint32_t red;
    uint32_t green;
    uint32_t blue;
    uint32_t alpha;
    size_t styles; /* the styles behind the run: how many, and where the first stands */
    size_t styles_from;
} CaptionsRun;

/* The run of a good sample that begins at character k: first `styles`, `styles_from` and `characters` of captions_tx3g_read_sample with k 0, then
   `styles` and `styles_from` of the run before with its `end`. The runs lie end to end and cover the text; neighbouring characters of the
   default style are in one run. Where k is not below `characters` nothing is found; styles that do not lie in the sample count as none. */
CaptionsRun captions_tx3g_next_run(const uint8_t *sample, size_t sample_len, size_t styles, size_t styles_from, size_t k, size_t characters);

typedef struct CaptionsTextBox {
    CaptionsRefusal refusal;
    uint32_t who;
    bool in_sample; /* its eight bytes stand in the sample, else in the entry */
    size_t from;    /* from this byte on */
    int32_t top;
    int32_t left;
    int32_t bottom;
    int32_t right;
} CaptionsTextBox;

/* The text box in force: the sample's, else the entry's. */
CaptionsTextBox captions_tx3g_text_box(const uint8_t *entry, size_t entry_len, const uint8_t *sample, size_t sample_len);

/* A modifier of a good sample, a refusal, or at the end neither: number 0 and nothing found. Its numbers and what stands from `from` on
   go by the type of its box:
   styl: count; styles of 12 bytes. hlit: start, end. hclr: red, green, blue, alpha. krok: start time, count; entries of 8 bytes.
   dlay: time. href: start, end; the URL up to `end`, and the alternative text. tbox: the 8 bytes. twrp: the flag. */
typedef struct CaptionsModifier {
    CaptionsRefusal refusal;
    bool found;
    uint32_t kind;
    uint32_t first;
    uint32_t second;
    uint32_t third;
    uint32_t fourth;
    size_t from;
    size_t end;
    size_t alternative_from;
    size_t alternative_end;
    size_t next;
} CaptionsModifier;

/* The first modifier from a place on: `modifiers` of captions_tx3g_read_sample, or the `next` of the one before. A bad header gives 1 or 2. A
   blnk, which is retired, is passed over, and so is a modifier box that its content does not fill, which a good sample never holds. */
CaptionsModifier captions_tx3g_next_modifier(const uint8_t *sample, size_t sample_len, size_t from);

/* ---- 3GPP text: tracks ---- */

typedef struct CaptionsTx3gConverted {
    CaptionsRefusal refusal;
    uint32_t who; /* CAPTIONS_ENTRY: the place is a byte of it; CAPTIONS_TRACK, the scale among it: it is a sample; CAPTIONS_OUTPUT, beside 15 */
    size_t cues;  /* how many */
    size_t record_bytes;
    size_t pool_bytes;
    uint32_t t;  /* in ms */
    size_t hlit; /* from here on: how many boxes of a kind were left out, over all samples */
    size_t retired_blinking; /* blnk */
    size_t hclr;
    size_t krok;
    size_t dlay;
    size_t href;
    size_t tbox;
    size_t twrp;
} CaptionsTx3gConverted;

/* Converts a tx3g track, its table, its samples and their one entry, into a cue list. Each sample with any text left becomes a cue over its own
   time, IDs counted from 0. The text is written as UTF-8, with &amp; &lt; &gt; for & < >; CRs and LFs that stand together become one LF, and
   those in front and at the end go. The characters of each style, and each longest stretch of the default style, stand in <b>, <i> and <u> by
   the face. What else the modifiers say is left out and counted.
   Refused: 10 for the scale, place 0; then the entry; then the track, as captions_wvtt_judge_track refuses one, with each sample read as
   captions_tx3g_read_sample reads it; then cue by cue, place its sample, 9 for the 1,025th and for a payload that is too long, 6 for a zero byte,
   with its offset in the payload, 10 for its times; 10 for t, place the cue count; last 15, place 0 for the records and 1 for the pool.
   The room is what converting answers where there is room. Old tracks often end with a sample of duration 0, which is 10:
   captions_drop_zero_durations takes it out. */
CaptionsTx3gConverted captions_tx3g_convert_room(uint32_t scale, const uint8_t *entry, size_t entry_len, const uint8_t *table,
                                                 size_t table_len, const uint8_t *samples, size_t samples_len);
CaptionsTx3gConverted captions_tx3g_convert(uint32_t scale, const uint8_t *entry, size_t entry_len, const uint8_t *table, size_t table_len,
                                            const uint8_t *samples, size_t samples_len, uint8_t *records, size_t records_len, uint8_t *pool,
                                            size_t pool_len);

#ifdef __cplusplus
}
#endif

#endif

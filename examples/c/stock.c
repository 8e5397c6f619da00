/* Converts a track of 3GPP text into a WebVTT file. A sample that lasts no time is left out first.
   cc -Iinclude examples/c/stock.c target/staticlib/libcaptions.a -o stock && ./stock examples/tx3g/stock 1000000 stock.vtt */
#include <captions.h>
#include <stdio.h>
#include <stdlib.h>

typedef struct Bytes {
    uint8_t *at; /* NULL where there was no memory or no file */
    size_t len;
} Bytes;

typedef struct Track {
    Bytes entry;
    Bytes table;
    Bytes samples;
} Track;

typedef struct List {
    Bytes records;
    Bytes pool;
} List;

static Bytes lend(size_t len) {
    Bytes bytes = {(uint8_t *)malloc(len + 1), len};
    return bytes;
}

/* The file of a name and an ending. */
static Bytes load(const char *name, const char *ending) {
    char path[4096];
    size_t room = 4096;
    Bytes bytes = {NULL, 0};
    if (snprintf(path, sizeof path, "%s.%s", name, ending) >= (int)sizeof path) return bytes;
    FILE *from = fopen(path, "rb");
    bytes.at = from ? (uint8_t *)malloc(room) : NULL;
    while (bytes.at) {
        bytes.len += fread(bytes.at + bytes.len, 1, room - bytes.len, from);
        if (bytes.len < room) break;
        uint8_t *more = (uint8_t *)realloc(bytes.at, room *= 2);
        if (!more) free(bytes.at);
        bytes.at = more;
    }
    if (from) fclose(from);
    return bytes;
}

static int save(const char *path, Bytes bytes) {
    FILE *to = fopen(path, "wb");
    if (!to) return 0;
    int whole = fwrite(bytes.at, 1, bytes.len, to) == bytes.len;
    return fclose(to) == 0 && whole;
}

/* The place is a byte of the entry, or a sample. */
static int refused(const char *whose, CaptionsRefusal why) {
    printf("%s refused %u %zu: %s\n", whose, why.number, why.place, captions_reason(why.number));
    return 1;
}

static int failed(const char *path) {
    perror(path);
    return 2;
}

/* Takes the samples of duration 0 out of a track. */
static int drop(Track *track) {
    Bytes table = track->table, samples = track->samples;
    CaptionsDropped room = captions_drop_zero_durations_room(table.at, table.len, samples.at, samples.len);
    if (room.refusal.number != CAPTIONS_DONE) return refused("track", room.refusal);
    track->table = lend(room.table_bytes);
    track->samples = lend(room.sample_bytes);
    if (!track->table.at || !track->samples.at) return failed("memory");
    CaptionsDropped left = captions_drop_zero_durations(table.at, table.len, samples.at, samples.len, track->table.at,
                                                        track->table.len, track->samples.at, track->samples.len);
    printf("dropped %zu of %zu samples\n", table.len / CAPTIONS_ROW_BYTES - left.samples, table.len / CAPTIONS_ROW_BYTES);
    free(table.at);
    free(samples.at);
    return left.refusal.number == CAPTIONS_DONE ? 0 : refused("track", left.refusal);
}

static void left_out(size_t count, const char *kind) {
    if (count) printf("left out: %zu %s\n", count, kind);
}

/* Asks for the room, lends so much, converts, and tells what a cue has no place for. */
static int convert(uint32_t scale, const Track *track, List *list) {
    Bytes entry = track->entry, table = track->table, samples = track->samples;
    CaptionsTx3gConverted room =
        captions_tx3g_convert_room(scale, entry.at, entry.len, table.at, table.len, samples.at, samples.len);
    if (room.refusal.number != CAPTIONS_DONE) return refused(room.who == CAPTIONS_ENTRY ? "entry" : "track", room.refusal);
    list->records = lend(room.record_bytes);
    list->pool = lend(room.pool_bytes);
    if (!list->records.at || !list->pool.at) return failed("memory");
    CaptionsTx3gConverted made = captions_tx3g_convert(scale, entry.at, entry.len, table.at, table.len, samples.at, samples.len,
                                                       list->records.at, list->records.len, list->pool.at, list->pool.len);
    if (made.refusal.number != CAPTIONS_DONE) return refused("output", made.refusal);
    printf("%zu cues, %u ms\n", made.cues, (unsigned)made.t);
    left_out(made.hlit, "hlit");
    left_out(made.retired_blinking, "retired blinking");
    left_out(made.hclr, "hclr");
    left_out(made.krok, "krok");
    left_out(made.dlay, "dlay");
    left_out(made.href, "href");
    left_out(made.tbox, "tbox");
    left_out(made.twrp, "twrp");
    return 0;
}

/* Asks for the room, lends so much, writes, and saves. */
static int write_list(const List *list, const char *path) {
    static const uint8_t header[] = {'W', 'E', 'B', 'V', 'T', 'T'};
    Bytes records = list->records, pool = list->pool;
    CaptionsVttWritten room = captions_vtt_write_room(header, sizeof header, records.at, records.len, pool.at, pool.len);
    if (room.refusal.number != CAPTIONS_DONE) return refused("list", room.refusal);
    Bytes file = lend(room.bytes);
    if (!file.at) return failed("memory");
    CaptionsVttWritten written =
        captions_vtt_write(header, sizeof header, records.at, records.len, pool.at, pool.len, file.at, file.len);
    if (written.refusal.number != CAPTIONS_DONE) return refused("list", written.refusal);
    int saved = save(path, file);
    free(file.at);
    return saved ? 0 : failed(path);
}

int main(int count, char **words) {
    List list = {{NULL, 0}, {NULL, 0}};
    if (count != 4) return fprintf(stderr, "stock NAME SCALE OUT.vtt, for NAME.entry, NAME.table and NAME.samples\n"), 2;
    Track track = {load(words[1], "entry"), load(words[1], "table"), load(words[1], "samples")};
    if (!track.entry.at || !track.table.at || !track.samples.at) return failed(words[1]);
    int status = drop(&track);
    if (!status) status = convert((uint32_t)strtoul(words[2], NULL, 10), &track, &list);
    if (!status) status = write_list(&list, words[3]);
    free(track.entry.at);
    free(track.table.at);
    free(track.samples.at);
    free(list.records.at);
    free(list.pool.at);
    return status;
}

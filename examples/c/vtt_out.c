/* Reads a WebVTT file into a cue list, writes the list as another file, and compares the cues of both:
   cc -Iinclude examples/c/vtt_out.c target/staticlib/libcaptions.a -o vtt_out && ./vtt_out examples/vtt/saws.vtt out.vtt */
#include <captions.h>
#include <stdio.h>
#include <stdlib.h>
#include <string.h>

typedef struct Bytes {
    uint8_t *at; /* NULL where there was no memory or no file */
    size_t len;
} Bytes;

typedef struct List {
    Bytes records;
    Bytes pool;
} List;

static Bytes lend(size_t len) {
    Bytes bytes = {(uint8_t *)malloc(len + 1), len};
    return bytes;
}

static Bytes load(const char *path) {
    FILE *from = fopen(path, "rb");
    size_t room = 4096;
    Bytes bytes = {from ? (uint8_t *)malloc(room) : NULL, 0};
    while (bytes.at) {
        bytes.len += fread(bytes.at + bytes.len, 1, room - bytes.len, from);
        if (bytes.len < room) break;
        uint8_t *more = (uint8_t *)realloc(bytes.at, room *= 2);
        if (!more) free(bytes.at);
        bytes.at = more;
    }
    if (bytes.at && ferror(from)) {
        free(bytes.at);
        bytes.at = NULL;
    }
    if (from) fclose(from);
    return bytes;
}

static int save(const char *path, Bytes bytes) {
    FILE *to = fopen(path, "wb");
    if (!to) return 0;
    int whole = fwrite(bytes.at, 1, bytes.len, to) == bytes.len;
    return fclose(to) == 0 && whole;
}

/* In reading the place is a line, in writing a record; of a bad text the offset says where in it. */
static int refused(CaptionsRefusal why) {
    printf("refused %u %zu\n%s", why.number, why.place, captions_reason(why.number));
    if (why.number == CAPTIONS_BAD_TEXT) printf(", byte %zu", why.offset);
    printf("\n");
    return 1;
}

static int failed(const char *path) {
    perror(path);
    return 2;
}

/* Asks for the room, lends so much, and reads. */
static int read_list(const char *path, List *list) {
    Bytes file = load(path);
    if (!file.at) return failed(path);
    CaptionsVttRead room = captions_vtt_read_room(file.at, file.len);
    if (room.refusal.number != CAPTIONS_DONE) return refused(room.refusal);
    list->records = lend(room.record_bytes);
    list->pool = lend(room.pool_bytes);
    if (!list->records.at || !list->pool.at) return failed("memory");
    CaptionsVttRead read = captions_vtt_read(file.at, file.len, list->records.at, list->records.len, list->pool.at, list->pool.len);
    free(file.at);
    return read.refusal.number == CAPTIONS_DONE ? 0 : refused(read.refusal);
}

/* Asks for the room, lends so much, writes, and saves. Header lines and notes are not in a list. */
static int write_list(const List *list, const char *path) {
    static const uint8_t header[] = {'W', 'E', 'B', 'V', 'T', 'T'};
    Bytes records = list->records, pool = list->pool;
    CaptionsVttWritten room = captions_vtt_write_room(header, sizeof header, records.at, records.len, pool.at, pool.len);
    if (room.refusal.number != CAPTIONS_DONE) return refused(room.refusal);
    Bytes file = lend(room.bytes);
    if (!file.at) return failed("memory");
    CaptionsVttWritten written =
        captions_vtt_write(header, sizeof header, records.at, records.len, pool.at, pool.len, file.at, file.len);
    if (written.refusal.number != CAPTIONS_DONE) return refused(written.refusal);
    if (!save(path, file)) return failed(path);
    printf("%zu cues, %zu bytes\n", records.len / CAPTIONS_RECORD_BYTES, written.bytes);
    free(file.at);
    return 0;
}

/* The big-endian number of so many bytes. */
static size_t number(const uint8_t *bytes, size_t count) {
    size_t number = 0;
    for (size_t at = 0; at < count; at++) number = number << 8 | bytes[at];
    return number;
}

/* Whether two lists have the same cue at a place. Records that are the same have their texts at the same place of their pools. */
static int same_cue(const List *list, const List *again, size_t place) {
    size_t at = CAPTIONS_RECORD_BYTES * place;
    if (at >= list->records.len || at >= again->records.len) return 0;
    const uint8_t *record = list->records.at + at;
    if (memcmp(record, again->records.at + at, CAPTIONS_RECORD_BYTES) != 0) return 0;
    size_t from = number(record + 12, 4), len = number(record + 16, 2) + number(record + 18, 2) + number(record + 20, 2);
    return memcmp(list->pool.at + from, again->pool.at + from, len) == 0;
}

/* Says which cues of two lists differ. */
static int compare(const List *list, const List *again) {
    size_t longer = list->records.len > again->records.len ? list->records.len : again->records.len;
    int status = 0;
    for (size_t place = 0; place < longer / CAPTIONS_RECORD_BYTES; place++) {
        if (same_cue(list, again, place)) continue;
        printf("cue %zu differs\n", place + 1);
        status = 1;
    }
    if (!status) printf("the same cues\n");
    return status;
}

int main(int count, char **words) {
    List list = {{NULL, 0}, {NULL, 0}}, again = {{NULL, 0}, {NULL, 0}};
    if (count != 3) return fprintf(stderr, "vtt_out FILE.vtt OUT.vtt\n"), 2;
    int status = read_list(words[1], &list);
    if (!status) status = write_list(&list, words[2]);
    if (!status) status = read_list(words[2], &again);
    if (!status) status = compare(&list, &again);
    free(list.records.at);
    free(list.pool.at);
    free(again.records.at);
    free(again.pool.at);
    return status;
}

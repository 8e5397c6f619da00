/* Reads a WebVTT file into cues.rec and cues.pool in the current folder:
   cc -Iinclude examples/c/vtt.c target/staticlib/libcaptions.a -o vtt && ./vtt examples/vtt/saws.vtt */
#include <captions.h>
#include <stdio.h>
#include <stdlib.h>

/* The bytes of a file and their number, or NULL. */
static uint8_t *load(const char *path, size_t *len) {
    FILE *from = fopen(path, "rb");
    size_t room = 4096;
    uint8_t *bytes = from ? (uint8_t *)malloc(room) : NULL;
    *len = 0;
    while (bytes) {
        *len += fread(bytes + *len, 1, room - *len, from);
        if (*len < room) break;
        uint8_t *more = (uint8_t *)realloc(bytes, room *= 2);
        if (!more) free(bytes);
        bytes = more;
    }
    if (bytes && ferror(from)) {
        free(bytes);
        bytes = NULL;
    }
    if (from) fclose(from);
    return bytes;
}

static int save(const char *path, const uint8_t *bytes, size_t len) {
    FILE *to = fopen(path, "wb");
    if (!to) return 0;
    int whole = fwrite(bytes, 1, len, to) == len;
    return fclose(to) == 0 && whole;
}

/* The place of a file's refusal is a line; of a bad text the offset says where in it. */
static int refused(CaptionsRefusal why) {
    printf("refused %u %zu\n%s", why.number, why.place, captions_reason(why.number));
    if (why.number == CAPTIONS_BAD_TEXT) printf(", byte %zu", why.offset);
    printf("\n");
    return 1;
}

static int failed(const char *path) {
    perror(path);
    return 2;
}

/* Asks for the room, lends so much, reads, and saves both. */
static int convert(const uint8_t *file, size_t len) {
    CaptionsVttRead room = captions_vtt_read_room(file, len);
    if (room.refusal.number != CAPTIONS_DONE) return refused(room.refusal);
    uint8_t *records = (uint8_t *)malloc(room.record_bytes + 1), *pool = (uint8_t *)malloc(room.pool_bytes + 1);
    if (!records || !pool) return failed("memory");
    CaptionsVttRead read = captions_vtt_read(file, len, records, room.record_bytes, pool, room.pool_bytes);
    if (read.refusal.number != CAPTIONS_DONE) return refused(read.refusal);
    if (!save("cues.rec", records, read.record_bytes)) return failed("cues.rec");
    if (!save("cues.pool", pool, read.pool_bytes)) return failed("cues.pool");
    printf("%zu cues: %zu bytes of records, %zu of pool\n", read.cues, read.record_bytes, read.pool_bytes);
    free(records);
    free(pool);
    return 0;
}

int main(int count, char **words) {
    size_t len;
    if (count != 2) return fprintf(stderr, "vtt FILE.vtt\n"), 2;
    uint8_t *file = load(words[1], &len);
    if (!file) return failed(words[1]);
    int status = convert(file, len);
    free(file);
    return status;
}

/* Packs a list of two cues and prints duration and size of each sample:
   cc -Iinclude examples/c/pack.c target/staticlib/libcaptions.a */
#include <captions.h>
#include <stdio.h>
#include <stdlib.h>
#include <string.h>

enum { SCALE = 1000, T = 3000 }; /* ticks a second; the timeline in ms */

/* Stores a number in so many bytes, the highest first. */
static void store(uint8_t *at, size_t bytes, uint32_t number) {
    for (size_t i = bytes; i > 0; i--, number >>= 8) at[i - 1] = (uint8_t)number;
}

static uint32_t load(const uint8_t *at) {
    return (uint32_t)at[0] << 24 | (uint32_t)at[1] << 16 | (uint32_t)at[2] << 8 | at[3];
}

/* Writes the record of a cue whose only text is its payload, which it puts into the pool, and gives the pool's new length. */
static size_t add_cue(uint8_t *record, uint32_t id, uint32_t start_ms, uint32_t end_ms, const char *payload, uint8_t *pool, size_t pool_len) {
    size_t len = strlen(payload);
    memset(record, 0, CAPTIONS_RECORD_BYTES);
    store(record, 4, id);
    store(record + 4, 4, start_ms);
    store(record + 8, 4, end_ms);
    store(record + 12, 4, (uint32_t)pool_len); /* where its texts begin */
    store(record + 20, 2, (uint32_t)len);      /* after the lengths of identifier and settings */
    memcpy(pool + pool_len, payload, len);
    return pool_len + len;
}

static int refused(CaptionsRefusal why) {
    printf("refused %u %zu %zu: %s\n", why.number, why.place, why.offset, captions_reason(why.number));
    return 1;
}

int main(void) {
    uint8_t records[2 * CAPTIONS_RECORD_BYTES], pool[64];
    size_t pool_len = 0;
    pool_len = add_cue(records, 1, 0, 1500, "Good morning.", pool, pool_len);
    pool_len = add_cue(records + CAPTIONS_RECORD_BYTES, 2, 1000, 2500, "Is it?", pool, pool_len);

    CaptionsPacked room = captions_wvtt_pack_room(SCALE, T, records, sizeof records, pool, pool_len);
    if (room.refusal.number != CAPTIONS_DONE) return refused(room.refusal);
    uint8_t *table = (uint8_t *)malloc(room.table_bytes), *samples = (uint8_t *)malloc(room.sample_bytes);
    if (!table || !samples) return 1;
    CaptionsPacked packed = captions_wvtt_pack(SCALE, T, records, sizeof records, pool, pool_len, table, room.table_bytes, samples,
                                               room.sample_bytes);
    if (packed.refusal.number != CAPTIONS_DONE) return refused(packed.refusal);
    for (const uint8_t *row = table; row < table + packed.table_bytes; row += CAPTIONS_ROW_BYTES) printf("%u %u\n", load(row), load(row + 4));
    free(table);
    free(samples);
    return 0;
}

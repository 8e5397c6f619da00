/* Reads settings, and writes them in the one form that they have, at another line:
   cc -Iinclude examples/c/settings.c target/staticlib/libcaptions.a -o settings && ./settings */
#include <captions.h>
#include <stdio.h>
#include <string.h>

static const char *const SETTINGS[] = {
    "size:050.00%\tline:-1 align:center",
    "region:fred position:12.5%,line-left",
    "align:left line:auto", /* auto is not written */
    "size:50% size:60%",    /* a name twice */
};

/* Beside 20 the place is where the setting begins; beside 6 the offset is where the text is bad. */
static void move_up(const char *settings) {
    const uint8_t *text = (const uint8_t *)settings;
    CaptionsSettingsRead read = captions_wvtt_read_settings(text, strlen(settings));
    uint8_t out[CAPTIONS_LONGEST_LINE];
    CaptionsWritten written;
    if (read.refusal.number != CAPTIONS_DONE) {
        printf("%s, at byte %zu: %s\n", captions_reason(read.refusal.number), read.refusal.place + read.refusal.offset, settings);
        return;
    }
    read.settings.line = CAPTIONS_LINE_NUMBER;
    read.settings.line_number = 0;
    written = captions_wvtt_write_settings(read.settings, text + read.region_from, read.region_end - read.region_from, out, sizeof out);
    if (written.refusal.number == CAPTIONS_DONE) printf("%.*s\n", (int)written.bytes, (const char *)out);
}

int main(void) {
    for (size_t k = 0; k < sizeof SETTINGS / sizeof *SETTINGS; k++) move_up(SETTINGS[k]);
    return 0;
}

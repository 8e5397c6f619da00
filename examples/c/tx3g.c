/* Reads a tx3g entry and a sample: fonts, text box, text and runs of style.
   cc -Iinclude examples/c/tx3g.c target/staticlib/libcaptions.a */
#include <captions.h>
#include <stdio.h>

/* One font, 1 of size 12; a text box of 60 by 400. */
static const char entry[] = "\0\0\0\x40tx3g\0\0\0\0\0\0\0\x01\0\0\0\0\0\xff\0\0\0\0\0\0\0\0\0\x3c\x01\x90\0\0\0\0\0\x01\0\x0c\xff\xff\xff\xff"
                            "\0\0\0\x12"
                            "ftab\0\x01\0\x01\x05Serif";
/* Five characters, of which the first two are bold. */
static const char sample[] = "\0\x05Hello\0\0\0\x16styl\0\x01\0\0\0\x02\0\x01\x01\x0c\xff\xff\xff\xff";

static void print_runs(const uint8_t *bytes, size_t len, const CaptionsTx3gEntry *read, const CaptionsTx3gSample *text) {
    CaptionsRun run = captions_tx3g_next_run(bytes, len, text->styles, text->styles_from, 0, text->characters);
    while (run.found) {
        uint32_t face = run.styled ? run.face : read->face;
        printf("characters %zu to %zu%s%s\n", run.from, run.end, face & 1 ? " bold" : "", face & 2 ? " italic" : "");
        run = captions_tx3g_next_run(bytes, len, run.styles, run.styles_from, run.end, text->characters);
    }
}

int main(void) {
    const uint8_t *e = (const uint8_t *)entry, *s = (const uint8_t *)sample;
    const size_t e_len = sizeof entry - 1, s_len = sizeof sample - 1;
    CaptionsTx3gEntry read = captions_tx3g_read_entry(e, e_len);
    CaptionsTx3gSample text = captions_tx3g_read_sample(e, e_len, s, s_len);
    if (text.refusal.number != CAPTIONS_DONE) {
        printf("%s refused: %s\n", text.who == CAPTIONS_ENTRY ? "entry" : "sample", captions_reason(text.refusal.number));
        return 1;
    }
    size_t at = read.fonts_from;
    for (size_t i = 0; i < read.fonts; i++) {
        CaptionsFont font = captions_tx3g_font_at(e, e_len, at);
        printf("font %u %.*s\n", font.id, (int)(font.name_end - font.name_from), entry + font.name_from);
        at = font.name_end;
    }
    CaptionsTextBox box = captions_tx3g_text_box(e, e_len, s, s_len);
    printf("box %d %d %d %d of the %s\n", box.top, box.left, box.bottom, box.right, box.in_sample ? "sample" : "entry");
    printf("%s %.*s\n", text.utf16 ? "UTF-16" : "UTF-8", (int)(text.text_end - text.text_from), sample + text.text_from);
    print_runs(s, s_len, &read, &text);
    return 0;
}

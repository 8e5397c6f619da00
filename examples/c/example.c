/* Reads a sample of one cue: cc -Iinclude examples/c/example.c target/staticlib/libcaptions.a */
#include <captions.h>
#include <stdio.h>

int main(void) {
    const char sample[] = "\0\0\0\x1evttc\0\0\0\x0cvsid\0\0\0\x07\0\0\0\x0apaylHi";
    const uint8_t *bytes = (const uint8_t *)sample;
    size_t len = sizeof sample - 1;
    CaptionsRefusal judged = captions_wvtt_judge_sample(bytes, len);
    if (judged.number != CAPTIONS_DONE) {
        printf("refused %u %zu %zu: %s\n", judged.number, judged.place, judged.offset, captions_reason(judged.number));
        return 1;
    }
    CaptionsCue cue = captions_wvtt_next_cue(bytes, len, 0);
    while (cue.found) {
        printf("%u %.*s\n", cue.id, (int)(cue.payload_end - cue.payload_from), sample + cue.payload_from);
        cue = captions_wvtt_next_cue(bytes, len, cue.next);
    }
    return 0;
}

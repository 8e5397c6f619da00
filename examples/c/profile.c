/* Judges payloads by the tag profile:
   cc -Iinclude examples/c/profile.c target/staticlib/libcaptions.a -o profile && ./profile */
#include <captions.h>
#include <stdio.h>
#include <string.h>

static const char *const PAYLOADS[] = {
    "<v Fred>Hi, <i>Bill</i>.</v>",
    "<b>Hi, <i>Bill</b></i>", /* an end tag of the innermost that is open */
    "<v Fred>Hi, Bill.",      /* it ends too early */
    "Fred & Bill",            /* a bare ampersand */
};

/* Beside 21 the place is a byte of the payload, or its length; beside 6 the offset is. */
static void judge(const char *payload) {
    CaptionsRefusal answer = captions_wvtt_judge_profile((const uint8_t *)payload, strlen(payload));
    switch (answer.number) {
    case CAPTIONS_DONE: printf("inside: %s\n", payload); break;
    case CAPTIONS_OUTSIDE_PROFILE: printf("outside at byte %zu: %s\n", answer.place, payload); break;
    case CAPTIONS_BAD_TEXT: printf("bad at byte %zu: %s\n", answer.offset, payload); break;
    default: printf("%s\n", captions_reason(answer.number));
    }
}

int main(void) {
    for (size_t k = 0; k < sizeof PAYLOADS / sizeof *PAYLOADS; k++) judge(PAYLOADS[k]);
    return 0;
}

/* Our checker on one image, so many times: check IMAGE N. It starts from the image's bytes, and what the last check
   said is printed in the form of bench/whole. The difference between N = 11 and N = 1 is ten checks and nothing else. */
#include "cablebirch.h"
#include <inttypes.h>
#include <stdio.h>
#include <stdlib.h>

/* One byte more than an image may have: a file that is too long is not cut to one that is not. */
static uint8_t image[CABLEBIRCH_IMAGE_MAX + 1], sheet[CABLEBIRCH_SHEET_MAX], message[CABLEBIRCH_MESSAGE_ROOM];

int main(int argc, char **argv) {
    FILE *file = argc == 3 ? fopen(argv[1], "rb") : NULL;
    if (!file) {
        fprintf(stderr, "usage: check IMAGE N\n");
        return 2;
    }
    size_t length = fread(image, 1, sizeof image, file);
    fclose(file);
    long times = strtol(argv[2], NULL, 10);
    cablebirch_answer answer = {0};
    for (long i = 0; i < times; i++) {
        /* T knows no other setting. */
        answer = cablebirch_check(CABLEBIRCH_PLAIN, image, length, sheet, sizeof sheet, message, sizeof message);
    }
    if (answer.code == 0) {
        printf("accepted\n");
    } else if (answer.code >= 20) {
        printf("refused %zu %.*s\n", answer.place, (int)answer.message_length, (const char *)message);
    } else {
        printf("no tree: %u %zu\n", answer.code, answer.place);
    }
    uint64_t sum = 0xcbf29ce484222325; /* FNV-1a of the sheet */
    for (size_t i = 0; i < answer.sheet_length; i++) sum = (sum ^ sheet[i]) * 0x100000001b3;
    printf("code %u, span %u to %u, sheet %zu #%016" PRIx64 "\n", answer.code, answer.span_start, answer.span_end,
           answer.sheet_length, sum);
    return 0;
}

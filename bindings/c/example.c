/* usage: example [plain | strict] IMAGE [SHEET]
 *        example steady IMAGE
 *        example convert IMAGE
 * Prints the checker's line for a program image, in plain if no setting is named, and for codes 23 and 25 where the old type was
 * first set. Given the last approved sheet, it says whether the script loads unseen; if someone must look, the names that changed
 * too, or all names if the approved file is no type sheet. With `steady` it says whether no def stands inside an if, and else which
 * one does. With `convert` it writes the image with Sets for its TreeSets to standard output. */
#include "cablebirch.h"
#include <stdio.h>
#include <string.h>

static uint8_t image[CABLEBIRCH_IMAGE_MAX + 1], converted[CABLEBIRCH_IMAGE_MAX], approved[CABLEBIRCH_SHEET_MAX + 1];
static uint8_t sheet[CABLEBIRCH_SHEET_MAX], again[CABLEBIRCH_SHEET_MAX], message[CABLEBIRCH_MESSAGE_ROOM];
/* For the names of a sheet too: CABLEBIRCH_SHOW_MAX is less. */
static uint8_t text[CABLEBIRCH_CHANGES_MAX];

static int read_file(const char *name, uint8_t *room, size_t size, size_t *length)
{
    FILE *file = fopen(name, "rb");
    if (!file) {
        fprintf(stderr, "example: cannot read %s\n", name);
        return 0;
    }
    *length = fread(room, 1, size, file);
    fclose(file);
    return 1;
}

/* Whether a word names a setting, and which. */
static int names_setting(const char *word, uint32_t *setting)
{
    *setting = strcmp(word, "strict") == 0 ? CABLEBIRCH_STRICT : CABLEBIRCH_PLAIN;
    return *setting == CABLEBIRCH_STRICT || strcmp(word, "plain") == 0;
}

/* A word of a sheet's header. */
static uint32_t word(unsigned at)
{
    const uint8_t *b = sheet + 4 * at;
    return b[0] | (uint32_t)b[1] << 8 | (uint32_t)b[2] << 16 | (uint32_t)b[3] << 24;
}

/* The lines that say what changed since the approved sheet. */
static void print_changes(size_t approved_length, size_t sheet_length)
{
    cablebirch_words w = cablebirch_changes(approved, approved_length, sheet, sheet_length, text, sizeof text);
    if (w.code == CABLEBIRCH_NO_SHEET) {
        puts("the approved file is no type sheet; the names of the new one:");
        w = cablebirch_show(sheet, sheet_length, text, sizeof text);
    }
    fwrite(text, 1, w.length, stdout);
}

/* The line that says whether no def stands inside an if. */
static void print_steadiness(size_t image_length)
{
    cablebirch_steadiness s = cablebirch_steady(image, image_length);
    if (s.steady)
        puts("steady");
    else if (s.code)
        printf("refused %u %zu\n", s.code, s.place);
    else
        printf("a def inside an if %zu %u %u\n", s.place, s.span_start, s.span_end);
}

/* Writes the converted image, or says why there is none: code 15 is not among the reasons, as no image is longer than the room. */
static int write_converted(size_t image_length)
{
    cablebirch_conversion c = cablebirch_convert(image, image_length, converted, sizeof converted);
    if (c.code) {
        fprintf(stderr, "refused %u %zu\n", c.code, c.place);
        return 2;
    }
    if (fwrite(converted, 1, c.length, stdout) != c.length || fflush(stdout)) {
        perror("example");
        return 2;
    }
    return 0;
}

int main(int count, char **words)
{
    uint32_t setting = CABLEBIRCH_PLAIN;
    size_t image_length, approved_length = 0;
    int steady = count == 3 && strcmp(words[1], "steady") == 0;
    int convert = count == 3 && strcmp(words[1], "convert") == 0;
    if (steady || convert || (count > 1 && names_setting(words[1], &setting)))
        count--, words++;
    if (count < 2 || count > 3) {
        fprintf(stderr, "usage: example [plain | strict] IMAGE [SHEET]\n       example steady | convert IMAGE\n");
        return 2;
    }
    if (!read_file(words[1], image, sizeof image, &image_length))
        return 2;
    if (steady) {
        print_steadiness(image_length);
        return 0;
    }
    if (convert)
        return write_converted(image_length);
    if (count == 3 && !read_file(words[2], approved, sizeof approved, &approved_length))
        return 2;

    cablebirch_answer a;
    uint32_t loading = CABLEBIRCH_LOOK;
    if (count == 2) {
        a = cablebirch_check(setting, image, image_length, sheet, sizeof sheet, message, sizeof message);
    } else {
        cablebirch_verdict v = cablebirch_load(setting, image, image_length, approved, approved_length, sheet, sizeof sheet,
                                               message, sizeof message);
        a = (cablebirch_answer){.code = v.code,
                                .span_start = v.span_start,
                                .span_end = v.span_end,
                                .second_start = v.second_start,
                                .second_end = v.second_end,
                                .place = v.place,
                                .sheet_length = v.sheet_length,
                                .message_length = v.message_length};
        loading = v.loading;
    }
    if (a.code != CABLEBIRCH_ACCEPTED) {
        printf("refused %u %zu %u %u ", a.code, a.place, a.span_start, a.span_end);
        printf("%.*s\n", a.message_length ? (int)a.message_length : 1, a.message_length ? (char *)message : "-");
        if (a.code == CABLEBIRCH_BRANCHES_DIFFER || a.code == CABLEBIRCH_CANNOT_ASSIGN)
            printf("first set here %u %u\n", a.second_start, a.second_end);
        return 0;
    }
    printf("accepted %u %u %zu\n", word(5), word(1), a.sheet_length);

    /* What a check writes, the reader takes, and the writer writes the same again. */
    cablebirch_answer w = cablebirch_write_sheet(sheet, a.sheet_length, again, sizeof again);
    if (cablebirch_read_sheet(sheet, a.sheet_length) != 0 || w.code != 0 || w.sheet_length != a.sheet_length ||
        memcmp(sheet, again, a.sheet_length) != 0) {
        fprintf(stderr, "example: the sheet is not read and written again as it was\n");
        return 1;
    }
    if (count == 2)
        return 0;
    if (loading == CABLEBIRCH_LOADS) {
        puts("loads unseen");
    } else {
        puts("someone must look at the new sheet");
        print_changes(approved_length, a.sheet_length);
    }
    return 0;
}

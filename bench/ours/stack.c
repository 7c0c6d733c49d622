/* The stack that one call needs: stack [--MODE] FILE...
   The call runs on a stack of its own that was painted before. The lowest byte that is no longer paint, counted from
   the stack pointer at the call, is how deep it went. Done with two paints, since a byte may be written with the very
   value of the paint; the deeper one counts. A byte that a frame reserves and never writes is seen only if something
   below it is written. There are 16 MiB; a call that needs more runs into a page that may not be touched, and dies.

   Prints for each file: bytes, the call's code, what was called, and the file. A file is an image, checked in plain, or
   with --strict in strict, or with --told in plain and a message buffer in which every message fits. The same by the load
   rule, with the image's own sheet approved: --load, --load-strict and --load-told. With --steady it is asked whether a def
   stands inside an if, with --convert the image is converted. With --read a file is a sheet that is read, with --sheet one
   that is read and written again, with --show one whose names are shown; with --changes each two files are an old sheet and a
   new one. Ends with 3 if the archives do not have the function. */
#define _GNU_SOURCE
#include "cablebirch.h"
#include <stdio.h>
#include <stdlib.h>
#include <string.h>
#include <sys/mman.h>
#include <ucontext.h>

/* Functions that the archives do not have are not called. */
#ifdef SHEETS
enum { HAS_SHEETS = 1 };
#else
enum { HAS_SHEETS = 0 };
#define cablebirch_read_sheet(...) 0
#define cablebirch_write_sheet(...) (cablebirch_answer){0}
#endif
#ifdef LOAD
enum { HAS_LOAD = 1 };
#else
enum { HAS_LOAD = 0 };
#define cablebirch_load(...) (cablebirch_verdict){0}
#define cablebirch_show(...) (cablebirch_words){0}
#define cablebirch_changes(...) (cablebirch_words){0}
#endif
#ifdef STEADY
enum { HAS_STEADY = 1 };
#else
enum { HAS_STEADY = 0 };
#define cablebirch_steady(...) (cablebirch_steadiness){0}
#endif
#ifdef CONVERT
enum { HAS_CONVERT = 1 };
#else
enum { HAS_CONVERT = 0 };
#define cablebirch_convert(...) (cablebirch_conversion){0}
#endif

enum { ROOM = 16 << 20, GUARD = 1 << 16 };

/* An image or a sheet, and of two sheets the new one. */
static uint8_t input[CABLEBIRCH_IMAGE_MAX + 1], other[CABLEBIRCH_SHEET_MAX + 1];
static uint8_t approved[CABLEBIRCH_SHEET_MAX], sheet[CABLEBIRCH_SHEET_MAX], text[1 << 20];
static size_t length, other_length, approved_length;
static const char *mode = "plain";
static uint32_t code;
static uint8_t *entered;
static ucontext_t here, there;

static int is(const char *word) { return !strcmp(mode, word); }

static int is_load(void) { return is("load") || is("load-strict") || is("load-told"); }

static int is_check(void) { return is("plain") || is("strict") || is("told"); }

static int is_on_image(void) { return is_check() || is_load() || is("steady") || is("convert"); }

static void call(void) {
    /* Pushing its return address is the first thing that a call writes. */
    __asm__ volatile("mov %%rsp, %0" : "=m"(entered));
    uint32_t setting = is("strict") || is("load-strict") ? CABLEBIRCH_STRICT : CABLEBIRCH_PLAIN;
    size_t room = is("told") || is("load-told") ? sizeof text : CABLEBIRCH_MESSAGE_ROOM;
    if (is_check()) {
        code = cablebirch_check(setting, input, length, sheet, sizeof sheet, text, room).code;
    } else if (is_load()) {
        code = cablebirch_load(setting, input, length, approved, approved_length, sheet, sizeof sheet, text, room).code;
    } else if (is("steady")) {
        code = cablebirch_steady(input, length).code;
    } else if (is("convert")) {
        code = cablebirch_convert(input, length, text, CABLEBIRCH_IMAGE_MAX).code;
    } else if (is("read")) {
        code = cablebirch_read_sheet(input, length);
    } else if (is("sheet")) {
        code = cablebirch_write_sheet(input, length, sheet, sizeof sheet).code;
    } else if (is("show")) {
        code = cablebirch_show(input, length, text, CABLEBIRCH_SHOW_MAX).code;
    } else {
        code = cablebirch_changes(input, length, other, other_length, text, CABLEBIRCH_CHANGES_MAX).code;
    }
}

static size_t depth(uint8_t *stack, uint8_t paint) {
    memset(stack, paint, ROOM);
    getcontext(&there);
    there.uc_stack.ss_sp = stack;
    there.uc_stack.ss_size = ROOM;
    there.uc_link = &here;
    makecontext(&there, call, 0);
    swapcontext(&here, &there);
    uint64_t word, painted;
    memset(&painted, paint, sizeof painted);
    uint8_t *at = stack;
    for (; at < entered; at += sizeof word) {
        memcpy(&word, at, sizeof word);
        if (word != painted) break;
    }
    while (at < entered && *at == paint) at++;
    return (size_t)(entered - at);
}

/* Reads a file, or ends the program. */
static size_t bytes_of(const char *name, uint8_t *room, size_t size) {
    FILE *file = fopen(name, "rb");
    if (!file) {
        perror(name);
        exit(2);
    }
    size_t count = fread(room, 1, size, file);
    fclose(file);
    return count;
}

int main(int argc, char **argv) {
    int first = 1;
    if (argc > 1 && !strncmp(argv[1], "--", 2)) {
        mode = argv[1] + 2;
        first = 2;
    }
    int on_sheet = is("read") || is("sheet"), in_words = is("show") || is("changes");
    int each = is("changes") ? 2 : 1;
    if (first >= argc || (argc - first) % each || !(is_on_image() || on_sheet || in_words)) {
        fprintf(stderr, "usage: stack [--plain | --strict | --told] IMAGE...\n"
                        "       stack --load | --load-strict | --load-told | --steady | --convert IMAGE...\n"
                        "       stack --read | --sheet | --show SHEET...\n"
                        "       stack --changes OLD NEW...\n");
        return 2;
    }
    if ((on_sheet && !HAS_SHEETS) || ((is_load() || in_words) && !HAS_LOAD) || (is("steady") && !HAS_STEADY) ||
        (is("convert") && !HAS_CONVERT)) {
        fprintf(stderr, "stack: no archive has the function for --%s\n", mode);
        return 3;
    }
    uint8_t *mapped = mmap(NULL, GUARD + ROOM, PROT_NONE, MAP_PRIVATE | MAP_ANONYMOUS, -1, 0);
    if (mapped == MAP_FAILED || mprotect(mapped + GUARD, ROOM, PROT_READ | PROT_WRITE)) {
        perror("stack");
        return 2;
    }
    for (int i = first; i < argc; i += each) {
        length = bytes_of(argv[i], input, sizeof input);
        if (each == 2) other_length = bytes_of(argv[i + 1], other, sizeof other);
        if (is_load())
            approved_length = cablebirch_check(CABLEBIRCH_PLAIN, input, length, approved, sizeof approved, text, 0).sheet_length;
        size_t one = depth(mapped + GUARD, 0xa5), another = depth(mapped + GUARD, 0x5a);
        printf("%zu %u %s %s", one > another ? one : another, code, mode, argv[i]);
        printf("%s%s\n", each == 2 ? " " : "", each == 2 ? argv[i + 1] : "");
    }
    return 0;
}

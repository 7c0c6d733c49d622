/* Cablebirch: a proved script checker. MIT licence.
 *
 * Two archives for x86-64 Linux, in target/staticlib; `tools/staticlib checker` and `tools/staticlib load` prove and write them:
 *
 *     libchecker.a    cablebirch_check, cablebirch_read_sheet, cablebirch_write_sheet
 *     libload.a       cablebirch_load, cablebirch_show, cablebirch_changes, cablebirch_steady, cablebirch_convert
 *
 * Link the one whose functions you call, or both, in any order: neither needs the other.
 *
 * The functions keep no state: any number of threads may call them at once, each with buffers of its own. Within one call, a
 * buffer that is written must not overlap another buffer. No pointer may be null, even where its length is 0.
 *
 * They allocate nothing and work on the caller's stack. The most that each was seen to need (measured on the deepest inputs known, by
 * bench/stack, and not proved): cablebirch_check and cablebirch_load 198 KB (198,688 and 198,704 bytes), cablebirch_read_sheet and
 * cablebirch_write_sheet 90 KB (89,760 and 89,872), cablebirch_show 124 KB (124,032), cablebirch_changes 253 KB (252,400),
 * cablebirch_steady and cablebirch_convert 5 KB (4,264 and 4,328). A message buffer of more than CABLEBIRCH_MESSAGE_ROOM moved none of
 * these: a message that names a type of 1,891 levels took 175,232 and 175,248 bytes.
 *
 * A script loads unseen exactly when it is accepted and its sheet equals the last approved sheet, byte for byte:
 *
 *     static uint8_t sheet[CABLEBIRCH_SHEET_MAX], message[CABLEBIRCH_MESSAGE_ROOM], text[CABLEBIRCH_CHANGES_MAX];
 *     cablebirch_verdict v = cablebirch_load(CABLEBIRCH_STRICT, image, image_len, approved, approved_len, sheet, sizeof sheet,
 *                                            message, sizeof message);
 *     if (v.loading == CABLEBIRCH_LOADS) puts("loads unseen");
 *     else if (v.loading == CABLEBIRCH_REFUSED) printf("refused %u: %.*s\n", v.code, (int)v.message_length, (char *)message);
 *     else {
 *         cablebirch_words w = cablebirch_changes(approved, approved_len, sheet, v.sheet_length, text, sizeof text);
 *         if (w.code == CABLEBIRCH_NO_SHEET) w = cablebirch_show(sheet, v.sheet_length, text, sizeof text);
 *         printf("someone must look at the new sheet:\n%.*s", (int)w.length, (char *)text);
 *     }
 */
#ifndef CABLEBIRCH_H
#define CABLEBIRCH_H

#include <stddef.h>
#include <stdint.h>

#ifdef __cplusplus
extern "C" {
#endif

/* No sheet is longer: with this much room, code 10 cannot come. */
#define CABLEBIRCH_SHEET_MAX 42532
/* No program image is longer: with this much room for a converted one, code 15 cannot come. */
#define CABLEBIRCH_IMAGE_MAX 59936
/* No text of cablebirch_show is longer, and none of cablebirch_changes: with this much room, code 10 cannot come. */
#define CABLEBIRCH_SHOW_MAX 34176
#define CABLEBIRCH_CHANGES_MAX 68864
/* The room for a message that the program `typecheck` has. Messages have no longest: one that does not fit is left out whole. */
#define CABLEBIRCH_MESSAGE_ROOM 1024

/* The settings. Plain passes over a typing error inside the body of an `if` or a `while`; strict returns it, as any other. What
 * strict accepts, plain accepts with the same sheet. */
#define CABLEBIRCH_PLAIN 0
#define CABLEBIRCH_STRICT 1

/* Codes; docs/CODES.md has them all. 1 to 8: the image is not well formed. 9: a ninth frame. 14: a TreeSet, which is retired. 20 to
 * 50: a typing error. */
#define CABLEBIRCH_ACCEPTED 0
#define CABLEBIRCH_NINTH_FRAME 9
#define CABLEBIRCH_SHEET_TOO_LONG 10
#define CABLEBIRCH_NO_SHEET 12
#define CABLEBIRCH_NO_SETTING 13
#define CABLEBIRCH_RETIRED 14
#define CABLEBIRCH_OUTPUT_TOO_SHORT 15
/* The codes with a second span: after an `if` a name would have different types by branch, and a name gets a value of
 * another type than it has. Go by the code: that span too is as the image has it, and may be 0 and 0. */
#define CABLEBIRCH_BRANCHES_DIFFER 23
#define CABLEBIRCH_CANNOT_ASSIGN 25

/* ---- libchecker.a */

typedef struct {
    uint32_t code;         /* 0 accepted, else why not */
    uint32_t span_start;   /* codes 20 to 50: the span of the node at `place`, as the image has it; else 0 */
    uint32_t span_end;
    uint32_t second_start; /* codes 23 and 25: the span of what first made the old type known; else 0 */
    uint32_t second_end;
    size_t place;          /* codes 4 and 5: a name's number; 6 to 9, 14 and 20 to 50: a node's number; else 0 */
    size_t sheet_length;   /* code 0: how many bytes of the sheet were written, at its front; else 0 */
    size_t message_length; /* codes 20 to 50: how many bytes of the message were written, at its front; 0 if it did not fit */
} cablebirch_answer;

/* Judges a program image under a setting. A setting other than the two gives code 13, whatever the image is.
 * Code 0 writes the type sheet to the front of `sheet`; the bytes after it, and `message`, stay as they are. The sheet lists each name that
 * the script may assign outside functions and classes, loop names too, with its type at the end, or Unknown where that is not known.
 * Codes 20 to 50 write the message to the front of `message` if it fits (ASCII, each byte 32 to 126, with no 0 at its end); `sheet`
 * stays as it is.
 * For every other code, 10 too, no buffer is touched.
 * Code 14 is for an image that is well formed and has a TreeSet, a node of kind 30, wherever it stands: it comes before 9 and every typing
 * error, at the first one. cablebirch_convert makes TreeSets Sets.
 * Codes 23 and 25 tell in a second span where the old type was first set: the name where it was assigned, or what a loop goes
 * over if the loop binds the name. The old type is for 25 the one that the name has, for 23 that of the first branch that knows one. */
cablebirch_answer cablebirch_check(uint32_t setting, const uint8_t *image, size_t image_len, uint8_t *sheet, size_t sheet_len,
                                   uint8_t *message, size_t message_len);

/* Is this a type sheet? 0 exactly if the bytes have the form of a sheet, 12 if not. What a check writes always has it. */
uint32_t cablebirch_read_sheet(const uint8_t *sheet, size_t len);

/* Reads a sheet and writes it again to the front of `out`. Code 0, with sheet_length; 10 if `out` is too short; 12 if it is no
 * sheet. On a refusal `out` is not touched. Place, both spans and message length are 0. */
cablebirch_answer cablebirch_write_sheet(const uint8_t *sheet, size_t len, uint8_t *out, size_t out_len);

/* ---- libload.a */

/* The load rule's three cases. */
#define CABLEBIRCH_LOADS 0
#define CABLEBIRCH_LOOK 1
#define CABLEBIRCH_REFUSED 2

typedef struct {
    uint32_t loading;      /* one of the three cases */
    uint32_t code;         /* this and the rest: the answer that cablebirch_check gives */
    uint32_t span_start;
    uint32_t span_end;
    uint32_t second_start;
    uint32_t second_end;
    size_t place;
    size_t sheet_length;
    size_t message_length;
} cablebirch_verdict;

/* The load rule. CABLEBIRCH_LOADS exactly if the check accepts the image and its sheet equals `approved`, whatever bytes these are;
 * CABLEBIRCH_LOOK if it accepts with another sheet; else CABLEBIRCH_REFUSED. Everything else is as cablebirch_check has it, the two
 * buffers too: in the first two cases the sheet stands at the front of `sheet`. While nothing is approved, hand in 0 bytes: no sheet
 * equals them. */
cablebirch_verdict cablebirch_load(uint32_t setting, const uint8_t *image, size_t image_len, const uint8_t *approved,
                                   size_t approved_len, uint8_t *sheet, size_t sheet_len, uint8_t *message, size_t message_len);

typedef struct {
    uint32_t code; /* 0, 10 if the text does not fit, or 12 for what is no sheet */
    size_t length; /* code 0: how many bytes of the text were written, at the front of `out`; else 0 */
} cablebirch_words;

/* The next two write a text to the front of `out` (ASCII, each line with a byte 10 at its end, and with no 0 at the text's end); the bytes
 * after it stay as they are. On a refusal `out` is not touched. Types are in Rust's Debug form, `List(Int)`, `Tuple([String, Int])`; one
 * whose text is longer than 200 bytes is its outermost kind with dots, `Tuple(..)`. */

/* The names of a sheet with their types, one line a name in byte order: `step: Int`. Code 0; 10 if `out` is too short; 12 if it is no
 * sheet. */
cablebirch_words cablebirch_show(const uint8_t *sheet, size_t len, uint8_t *out, size_t out_len);

/* What changed from one sheet to another, one line a name that differs, in byte order: `+ mode: String`, `- laps: List(Int)`,
 * `~ step: Int -> Float`. Two types that differ may both be shown with dots. Code 0, with length 0 exactly if the two sheets are equal
 * byte for byte; 10 if `out` is too short; 12 if one of them is no sheet. */
cablebirch_words cablebirch_changes(const uint8_t *old, size_t old_len, const uint8_t *new_, size_t new_len, uint8_t *out,
                                    size_t out_len);

typedef struct {
    uint32_t steady;     /* 1 if no def stands inside an if; else 0 */
    uint32_t code;       /* 1 to 8 if the image is not well formed; else 0 */
    uint32_t span_start; /* of a def inside an if: its span, as the image has it; else 0 */
    uint32_t span_end;
    size_t place;        /* of a def inside an if: its node's number; codes 4 and 5: a name's number; 6 to 8: a node's number; else 0 */
} cablebirch_steadiness;

/* Does no `def` stand anywhere inside an `if`? At any depth, through loops and other defs, in any branch; a def that holds an `if` is no
 * matter. `steady` is 1 exactly if none does, and every other field is 0 then. If one does, `steady` and `code` are 0, with the place and
 * span of the first one in program order. If the image is not well formed, code and place are those that cablebirch_check gives.
 * What it is for: slots may be laid out while a script is read. Once a name's type is known after a module statement that was accepted, it
 * stays that type, with the place where it was first set, and it is the type in the sheet of the accepted script: in strict always, in
 * plain if `steady` is 1. (Plain passes over errors inside an `if`, and a def that fails there leaves its own variables behind.) */
cablebirch_steadiness cablebirch_steady(const uint8_t *image, size_t image_len);

typedef struct {
    uint32_t code; /* 0, 1 to 8 if the image is not well formed, or 15 if the converted one does not fit */
    size_t place;  /* codes 4 and 5: a name's number; 6 to 8: a node's number; else 0 */
    size_t length; /* code 0: how many bytes of the converted image were written, at the front of `out`: the image's own number; else 0 */
} cablebirch_conversion;

/* Converts a stored image: each TreeSet (a node of kind 30) becomes a Set (29), and every other byte is the same. So an image without
 * TreeSets comes out as it is, and converting twice changes nothing. Code 0 writes it to the front of `out`; the bytes after it stay as
 * they are. If the image is not well formed, code and place are those that cablebirch_check gives; else 15 if `out_len` is less than
 * `image_len`, with a TreeSet or without. On a refusal `out` is not touched. Nothing is typed: an image with typing errors is converted
 * too.
 * `out` must not overlap `image`: none is converted in its place.
 * What it is for: a check of the converted image never gives 14. It gives what a check of the old one gave before TreeSets were retired:
 * code, place, both spans, sheet and message, under either setting and with buffers of any length. So an approved sheet stays approved. */
cablebirch_conversion cablebirch_convert(const uint8_t *image, size_t image_len, uint8_t *out, size_t out_len);

#ifdef __cplusplus
}
#endif

#endif

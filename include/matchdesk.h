/*
 * The MatchDesk rewrite: image checks, cleanup, CrystalFold and the two whole rewrites of cell images (docs/FORMAT.md says what an image is), the
 * rewrite until it rests, the rewrite of a whole release, the sealing check, the pages and the packed form of an image, and the other factor of a
 * product.
 *
 * Library: crates/capi/out/libcapi.a for Linux on x86-64 (x86-64-v2), made by `rt lib` in `crates/capi`. Every function is proved to meet its contract
 * (crates/capi/specs/Promises.antt), for images and releases of all bytes and lengths, outputs of all lengths and all numbers.
 *
 * What a caller must see to, and no proof covers:
 *
 * - Every pointer is valid for the length given with it, and not NULL even for a length of 0.
 * - What is written (the output, the answers of a release, and the numbers) overlaps with nothing else that the call is lent: the output isn't
 *   the image, and two numbers are two.
 * - The floating-point environment is the default one for matchdesk_crystalfold, matchdesk_rewrite, matchdesk_rewrite_fuller,
 *   matchdesk_rewrite_until_rest and matchdesk_rewrite_release: see 'The floating-point environment' below.
 * - There is room on the stack: MATCHDESK_STACK, and MATCHDESK_STACK_UNTIL_REST for matchdesk_rewrite_until_rest.
 *
 * No function allocates, keeps a pointer or a state, or reads or writes anything but what it is lent. Threads may call at the same time, if
 * what one call writes is lent to no other. The library needs one symbol from elsewhere, memset. This header is for C99 or later and for C++.
 */
#ifndef MATCHDESK_H
#define MATCHDESK_H

#include <stddef.h>
#include <stdint.h>

#if __STDC_HOSTED__
#include <fenv.h>
#endif

/* The version of this interface: it rises when a function is added or an answer changes. */
#define MATCHDESK_VERSION 10

/* The bytes of a cell. */
#define MATCHDESK_CELL 16
/* The longest image, in bytes. For a rewrite and for matchdesk_pack an output as long as the image always suffices, for matchdesk_unpack this. */
#define MATCHDESK_MAX_IMAGE 65536
/* The most instruction cells and the most event cells of a function. */
#define MATCHDESK_MAX_INSTRUCTIONS 2048
#define MATCHDESK_MAX_EVENTS 1024
/* Registers are 0 to MATCHDESK_REGISTERS - 1. */
#define MATCHDESK_REGISTERS 1024
/* The bytes of a page's line, with its line feed, and of the longest pages: 4,179 lines. */
#define MATCHDESK_PAGE_LINE 58
#define MATCHDESK_MAX_PAGES 242382
/* The bytes of an image's length in a release, and of its three numbers in the answers. */
#define MATCHDESK_RELEASE_LENGTH 4
#define MATCHDESK_RELEASE_ANSWER 12

/*
 * A call of any function but matchdesk_rewrite_until_rest takes no more stack than this, in bytes, whatever the image. Measured, not proved
 * (tests/cinterface/stack.c paints a stack and looks how far each call went): 30 KiB for matchdesk_sealing_check, 21 KiB for matchdesk_cleanup,
 * the two rewrites and matchdesk_rewrite_release, however many images there are, 19 KiB for matchdesk_crystalfold, 17 KiB for matchdesk_pages,
 * 14 KiB for matchdesk_site_check, under 1 KiB for matchdesk_image_check, matchdesk_pack, matchdesk_unpack and the factors. The rest is reserve.
 * The frames have fixed sizes, and no function calls itself. What a thread needs for itself comes on top: one made with a stack of 28 KiB could call
 * matchdesk_rewrite, one of 24 KiB could not.
 */
#define MATCHDESK_STACK 32768

/* A call of matchdesk_rewrite_until_rest takes no more than this: 85 KiB, measured in the same way, of which 64 KiB are memory for one image. */
#define MATCHDESK_STACK_UNTIL_REST 98304

#ifdef __cplusplus
extern "C" {
#endif

/*
 * The checks return 0 if the image is good, and else the refusal's number:
 *
 *    1  length above 65,536 or no multiple of 16
 *    2  a head that isn't one, or whose counts pass a limit or the image's end
 *    3  unknown command or event kind
 *    4  an operand out of range, or a spare byte or absent value that isn't zero
 *   11  an activation site on two StoreVars
 *   12  a Write event with an activation site
 *   13  a second Borrow event for an activation site
 *   14  the activation sites of commands and of events differ
 *   21  a write site on two commands
 *   22  a Borrow event with a write site
 *   23  a Write event without a write site
 *   24  a command's write site with no event
 *   25  a StoreVar's write site with more than one event
 *   26  an event's write site on no command
 *
 * Both numbers are always written:
 *
 *              *position                         *detail
 *   good       0                                 0
 *   refusal    the function's, counted from 0;   2 to 4: the cell's position in the image, counted from 0
 *              0 for 1                           11 to 13, 21, 22, 24 to 26: the site
 *                                                1, 14, 23: 0
 *
 * Nothing else is written.
 */

/* The image check: 1; then 2 to 4, cell by cell. */
size_t matchdesk_image_check(const unsigned char *image, size_t image_length, size_t *position, size_t *detail);

/* The site check: as the image check; then 11 to 26, function by function. */
size_t matchdesk_site_check(const unsigned char *image, size_t image_length, size_t *position, size_t *detail);

/*
 * The sealing check: one numbering for a whole image, so that a site can be looked up without knowing the function. As the site check; then, over
 * all functions together,
 *
 *   34  a function repeats an activation number of an earlier one
 *   35  a function repeats a write number of an earlier one; only where no function has 34
 *
 * A number is the site of a StoreVar or, for write numbers, also of a MakeRecord; those of unreachable commands count. Activation and write numbers
 * don't meet: the same one may be both. *position is that of the first function, in order, that repeats one, *detail its first such number in
 * instruction order. What the rewriting operations below write of an image that passes, passes again; none of them asks for it.
 */
size_t matchdesk_sealing_check(const unsigned char *image, size_t image_length, size_t *position, size_t *detail);

/*
 * The rewriting operations return 0 on success, and else the refusal's number: 1; then
 *
 *    5  the output is shorter than the image
 *
 * and then as the site check. Both numbers and every byte of the output are said, on success and on a refusal:
 *
 *              *first                         *second                             out
 *   success    length written, in bytes; no   number of rewrites; the image has   the rewritten image up to that length,
 *              more than image_length         changed if it isn't 0               behind it every byte as it was
 *   refusal    position, as above; 0 for 5    detail, as above; 0 for 5           every byte as it was
 *
 * The image is only read. What is written passes the image check and the site check, and the sealing check if the image does.
 */

/* Cleanup of every function. */
size_t matchdesk_cleanup(const unsigned char *image, size_t image_length, unsigned char *out, size_t out_length, size_t *first, size_t *second);

/* CrystalFold of every function. */
size_t matchdesk_crystalfold(const unsigned char *image, size_t image_length, unsigned char *out, size_t out_length, size_t *first, size_t *second);

/* The default rewrite: cleanup of every function, then CrystalFold of every function. */
size_t matchdesk_rewrite(const unsigned char *image, size_t image_length, unsigned char *out, size_t out_length, size_t *first, size_t *second);

/*
 * The fuller rewrite: as the default one, except that CrystalFold also folds the truth-order quads QTruthAnd, QTruthOr, QTruthNot and QTruthImpl,
 * and DivF64 by 0.0 or -0.0 as IEEE 754 has it: a nonzero number by zero is an infinity with the product of the signs, zero or NaN by zero is NaN
 * (7FF8000000000000). matchdesk_crystalfold and matchdesk_rewrite leave these as they are. It refuses as the default one.
 */
size_t matchdesk_rewrite_fuller(const unsigned char *image, size_t image_length, unsigned char *out, size_t out_length, size_t *first, size_t *second);

/*
 * The rewrite until it rests: rounds of the default rewrite, each of what the one before handed back, until one reports 0. *first is the length
 * that the last round wrote and *second the sum of all counts. Behind that length the output stays as it was, however long an earlier round was.
 * Never more than three rounds: LoadI32 r1 5, AddI32 r1 r1 r1 is LoadI32 r1 5, LoadI32 r1 10 after one and LoadI32 r1 10 after two, and the third
 * reports 0. A further matchdesk_rewrite of what is written reports 0 and writes the same bytes. It refuses as the default one: 5 if the output is
 * shorter than the image as sent, though the result would fit.
 */
size_t matchdesk_rewrite_until_rest(const unsigned char *image, size_t image_length, unsigned char *out, size_t out_length, size_t *first, size_t *second);

/*
 * A whole release in one call: the default rewrite of each of its images. A release is images one behind the other, each behind its length in 4
 * bytes, the lowest first; the output has the same form. The answers are three such numbers an image, in the same order:
 *
 *                     in the output                                in the answers
 *   image rewritten   the new length, the rewritten image          0, number of rewrites, 0
 *   image refused     a length of 0                                the refusal's number, position and detail
 *
 * Each image comes out as from matchdesk_rewrite alone with an output as long as the image, so one bad image changes nothing in its neighbours:
 * position and detail are counted in the image itself, 1 (a length above 65,536 or no multiple of 16) is refused of that image only, and 5 never
 * is. The release is only read, and its images are rewritten straight into their place in the output, with no copy in between.
 *
 * Returns 0 on success, however many images are refused, and else, before anything is written to either buffer,
 *
 *   33  the release ends within a length or an image; the output is shorter than the release, though the result would fit; or the answers have
 *       fewer than 12 bytes an image
 *
 *              *first                         *second    out                                answers
 *   success    length written to the output   0          as above up to that length,        as above, 12 bytes an image, behind
 *                                                        behind it every byte as it was     them every byte as it was
 *   refusal    0                              0          every byte as it was               every byte as it was
 *
 * A release of no bytes has no image and succeeds with 0. There is no limit on the number of images or on the length of the whole.
 */
size_t matchdesk_rewrite_release(const unsigned char *release, size_t release_length, unsigned char *out, size_t out_length, unsigned char *answers,
                                 size_t answers_length, size_t *first, size_t *second);

/*
 * The pages of an image, for people to read: lines of 57 bytes and a line feed. Each function begins a page:
 *
 *   function 00007 page 001
 *       0  LoadI32             010005000000000000000000000000
 *       1  AddI32              020001000100000000000000000000
 *
 * A heading (the function's name in five digits, the page in three, blanks), then at most 49 cells, instructions before events; a new page of the
 * same function begins only where a cell follows the 49th. A cell's line has its position in the function, from 0, in five places with blanks in
 * front; the command's or the event kind's name in 18 places; the cell's last 15 bytes in hexadecimal. The empty image has no line. No two
 * accepted images have the same pages.
 *
 * Returns 0 on success, and else the refusal's number: as the site check; then
 *
 *   30  the output is shorter than the pages; MATCHDESK_MAX_PAGES bytes always suffice
 *
 *              *first                         *second                             out
 *   success    length written, in bytes       0                                   the pages up to that length, behind it
 *                                                                                 every byte as it was
 *   refusal    position, as above; 0 for 30   detail, as above; 0 for 30          every byte as it was
 */
size_t matchdesk_pages(const unsigned char *image, size_t image_length, unsigned char *out, size_t out_length, size_t *first, size_t *second);

/*
 * The packed form of an image: its cells one behind the other, each without its spare zeros. A head keeps 7 bytes, an event 15, an instruction the
 * command byte and its operands, 3 to 15 bytes (docs/FORMAT.md, 'Commands'); an absent value keeps its zeros. The empty image packs to no bytes.
 * Neither function checks sites.
 *
 * Both return 0 on success, and else the refusal's number:
 *
 *              *first                         *second                             out
 *   success    length written, in bytes       0                                   the packed form, or the image, up to that
 *                                                                                 length, behind it every byte as it was
 *   refusal    position                       detail                              every byte as it was
 *
 * matchdesk_unpack undoes matchdesk_pack and the other way round: no two images pack alike, and no image has two packed forms.
 */

/*
 * Packs an image. Refuses as the image check, with its position and detail; then
 *
 *    5  the output is shorter than the packed form; one as long as the image always suffices; position and detail are 0
 */
size_t matchdesk_pack(const unsigned char *image, size_t image_length, unsigned char *out, size_t out_length, size_t *first, size_t *second);

/*
 * Unpacks an image, which then passes the image check. The packed form is read cell by cell, and the first cell at fault decides. Of each cell, in
 * this order:
 *
 *    1  the cell, there or only promised by its head, takes the image past 65,536 bytes
 *    3  unknown command or event kind, even if nothing follows that byte
 *   32  the packed form ends inside the cell, or before it where it is promised
 *    2  a head whose first byte isn't F0, or whose counts pass a limit
 *    4  an operand out of range, or an absent value that isn't zero
 *
 * and behind all cells
 *
 *    5  the output is shorter than the image; MATCHDESK_MAX_IMAGE bytes always suffice
 *
 * For 2, 3, 4 and 32 the position is the function's and the detail the cell's in the whole image, both counted from 0; for 1 and 5 both are 0. A
 * head that promises more cells than can follow isn't at fault by that: the first of them that is missing, wrong or past 65,536 bytes is.
 */
size_t matchdesk_unpack(const unsigned char *packed, size_t packed_length, unsigned char *out, size_t out_length, size_t *first, size_t *second);

/*
 * Which factor gives this product? Of all int32_t numbers whose product with `factor` is `wanted`, the one nearest zero, and of two equally near
 * the positive one. The product is that of the command: MulFx's, the exact product of two counts of thousandths by 1000, truncated toward zero, of
 * which there is none outside int32_t; MulI32's, modulo 2^32. It doesn't matter which of the two factors is given.
 *
 * Returns 0 on success, and else
 *
 *   36  no int32_t number gives the wanted product
 *
 *              *other
 *   success    the factor
 *   refusal    0
 *
 * Always written. The wanted product 0 has the factor 0, by 0 too. Neither function searches.
 */

/* MulFx: 2250 by 1500 is 1500; 1 by 1999 is 1, but by 2000 it is 36; -2147483648 by 1000 is -2147483648, by -1000 it is 36. */
size_t matchdesk_factor_fx(int32_t wanted, int32_t factor, int32_t *other);

/* MulI32: 1 by 3 is -1431655765; 1 by 2 is 36; -2147483648 by 1073741824 is 2, though -2 gives it as well. */
size_t matchdesk_factor_i32(int32_t wanted, int32_t factor, int32_t *other);

/*
 * The floating-point environment.
 *
 * CrystalFold folds f64 commands with the machine's own operations, and the proofs speak of IEEE 754's default: round to nearest, ties to
 * even; subnormal numbers kept; no traps. In a thread that has set something else, matchdesk_crystalfold, matchdesk_rewrite,
 * matchdesk_rewrite_fuller, matchdesk_rewrite_until_rest and matchdesk_rewrite_release write other bytes, or don't come back:
 *
 *   rounding upward            1.0 / 3.0 folds to 3FD5555555555556, not 3FD5555555555555
 *   FTZ and DAZ set (start-    5e-324 + 0.0 folds to 0.0, not 5e-324; CmpEq of 5e-324 and 0.0 to true, not false
 *   up code of -ffast-math)
 *   FE_INVALID trapped         inf - inf raises SIGFPE
 *   FE_DIVBYZERO trapped       1.0 / 0.0 raises SIGFPE, in the fuller rewrite, which folds it
 *
 * The fold also raises exception flags (FE_INEXACT and others) and leaves them raised. The other functions compute no floating-point number.
 *
 * These two set the default environment before a call and give the thread its own back afterwards, its flags included:
 *
 *   fenv_t host;
 *   if (matchdesk_enter_default_environment(&host) != 0)
 *       ... it can't be set: don't call
 *   number = matchdesk_rewrite(image, image_length, out, out_length, &first, &second);
 *   matchdesk_leave_default_environment(&host);
 *
 * They are fegetenv and fesetenv of the C library: link with -lm. That these also clear FTZ and DAZ is not in the C standard; glibc does it,
 * and tests/cinterface/environment.c tries it.
 */
#if __STDC_HOSTED__
/* Keeps the thread's environment in *host and sets the default one: 0 if that is done. */
static inline int matchdesk_enter_default_environment(fenv_t *host)
{
    return fegetenv(host) != 0 || fesetenv(FE_DFL_ENV) != 0;
}

/* Sets the thread's own environment again: 0 if that is done. */
static inline int matchdesk_leave_default_environment(const fenv_t *host)
{
    return fesetenv(host) != 0;
}
#endif

#ifdef __cplusplus
}
#endif

#endif

/*
 * How much stack each function takes: it runs on a painted stack, and the paint that is gone is counted. The header's MATCHDESK_STACK must
 * cover it, and MATCHDESK_STACK_UNTIL_REST that of matchdesk_rewrite_until_rest.
 */
#include <stdint.h>
#include <ucontext.h>

#include "images.h"

#define PAINT 0xA5

static unsigned char stack[1 << 20] __attribute__((aligned(4096)));
static unsigned char image[LONGEST], packed[LONGEST], release[3 * (MATCHDESK_RELEASE_LENGTH + LONGEST)], out[MATCHDESK_MAX_PAGES];
static unsigned char answers[3 * MATCHDESK_RELEASE_ANSWER];
static size_t length, packed_length, release_length, number, first, second;
static int32_t wanted, factor, other;
static ucontext_t host, guest;

static void image_check(void) { number = matchdesk_image_check(image, length, &first, &second); }
static void site_check(void) { number = matchdesk_site_check(image, length, &first, &second); }
static void sealing_check(void) { number = matchdesk_sealing_check(image, length, &first, &second); }
static void cleanup(void) { number = matchdesk_cleanup(image, length, out, sizeof out, &first, &second); }
static void crystalfold(void) { number = matchdesk_crystalfold(image, length, out, sizeof out, &first, &second); }
static void rewrite(void) { number = matchdesk_rewrite(image, length, out, sizeof out, &first, &second); }
static void rewrite_fuller(void) { number = matchdesk_rewrite_fuller(image, length, out, sizeof out, &first, &second); }
static void rewrite_until_rest(void) { number = matchdesk_rewrite_until_rest(image, length, out, sizeof out, &first, &second); }
static void rewrite_release(void) { number = matchdesk_rewrite_release(release, release_length, out, sizeof out, answers, sizeof answers, &first, &second); }
static void pages(void) { number = matchdesk_pages(image, length, out, sizeof out, &first, &second); }
static void pack(void) { number = matchdesk_pack(image, length, out, sizeof out, &first, &second); }
static void unpack(void) { number = matchdesk_unpack(packed, packed_length, out, sizeof out, &first, &second); }
static void factor_fx(void) { number = matchdesk_factor_fx(wanted, factor, &other); }
static void factor_i32(void) { number = matchdesk_factor_i32(wanted, factor, &other); }

struct function {
    const char *name;
    void (*call)(void);
    /* the number for the second text, one byte; the others are good */
    size_t refusal;
};

static const struct function functions[] = {
    {"image_check", image_check, 1}, {"site_check", site_check, 1}, {"sealing_check", sealing_check, 1}, {"cleanup", cleanup, 1},
    {"crystalfold", crystalfold, 1}, {"rewrite", rewrite, 1}, {"rewrite_fuller", rewrite_fuller, 1}, {"rewrite_release", rewrite_release, 33},
    {"pages", pages, 1}, {"pack", pack, 1}, {"unpack", unpack, 32},
};

/* This one has memory for an image. */
static const struct function until_rest = {"rewrite_until_rest", rewrite_until_rest, 1};

/* These take no image. They are called on every two of the numbers, whether a factor is found or not. */
static const struct function factors[] = {{"factor_fx", factor_fx, 0}, {"factor_i32", factor_i32, 0}};

static const int32_t numbers[] = {0, 1, -1, 2, 3, 1000, -1999, 2000, 1073741824, 1431655765, INT32_MAX, INT32_MIN};

/* Ret, then 2,047 unreachable cells: 1,024 StoreVars with an activation site or a write site, and a Borrow or Write event for each */
static void many_sites(void)
{
    length = assemble("F0070000080004 0C 2047*13020001000100 1024*00", image);
    for (size_t i = 0; i < 1024; i++) {
        unsigned char *store = image + MATCHDESK_CELL * (2 + i), *event = image + MATCHDESK_CELL * (2049 + i);
        unsigned char site[5] = {1, (unsigned char)i, (unsigned char)(i >> 8), 0, 0};
        memset(store, 0, MATCHDESK_CELL);
        store[0] = 0x4D;
        memcpy(store + (i % 2 ? 5 : 10), site, 5);
        event[0] = i % 2 ? 0 : 1;
        memcpy(event + (i % 2 ? 1 : 6), site, 5);
    }
}

/* What is unpacked: the packed form of the image, and one byte where that is none. */
static void pack_image(void)
{
    memcpy(packed, image, sizeof packed);
    packed_length = length;
    size_t bytes;
    if (length % MATCHDESK_CELL == 0 && matchdesk_pack(image, length, packed, sizeof packed, &bytes, &second) == 0)
        packed_length = bytes;
}

static void add_to_release(size_t bytes)
{
    unsigned char frame[MATCHDESK_RELEASE_LENGTH] = {(unsigned char)bytes, (unsigned char)(bytes >> 8), (unsigned char)(bytes >> 16), 0};
    memcpy(release + release_length, frame, sizeof frame);
    memcpy(release + release_length + sizeof frame, image, bytes);
    release_length += sizeof frame + bytes;
}

/* What is released: the image, one byte, which is refused, and the image again; and one byte where the image is that. */
static void release_image(void)
{
    release_length = 0;
    add_to_release(length);
    add_to_release(1);
    add_to_release(length);
    if (length % MATCHDESK_CELL != 0)
        release_length = length;
}

static size_t used(void (*call)(void))
{
    memset(stack, PAINT, sizeof stack);
    getcontext(&guest);
    guest.uc_stack.ss_sp = stack;
    guest.uc_stack.ss_size = sizeof stack;
    guest.uc_link = &host;
    makecontext(&guest, call, 0);
    swapcontext(&host, &guest);
    size_t kept = 0;
    while (kept < sizeof stack && stack[kept] == PAINT)
        kept++;
    return sizeof stack - kept;
}

static size_t deepest_of_factors(void (*call)(void))
{
    size_t count = sizeof numbers / sizeof *numbers, deepest = 0;
    for (size_t i = 0; i < count * count; i++) {
        wanted = numbers[i / count], factor = numbers[i % count];
        size_t bytes = used(call);
        deepest = bytes > deepest ? bytes : deepest;
    }
    return deepest;
}

static const char *texts[] = {
    "", "=00", "F0070001 2B010005", "F007000008 2048*0A0100", "F007000008 2B010005 2047*13020001000100", "F007000008 2B0100 2047*13010001000100",
    "F007000008 2C010002 2047*3D030001000100", "F007000008 2C010002 2047*42030001000100",
    "F0070000080004 290100000000000000F03F 2047*25020001000100 1024*00", "F007000008 2048*28010001", "4096*F00700",
};

static size_t deepest_of_images(const struct function *f)
{
    size_t deepest = 0;
    for (size_t i = 0; i <= sizeof texts / sizeof *texts; i++) {
        if (i < sizeof texts / sizeof *texts)
            length = assemble(texts[i], image);
        else
            many_sites();
        pack_image();
        release_image();
        size_t bytes = used(f->call);
        if (number != (i == 1 ? f->refusal : 0)) {
            printf("stack: %s answers %zu %zu %zu on image %zu\n", f->name, number, first, second, i);
            exit(1);
        }
        deepest = bytes > deepest ? bytes : deepest;
    }
    return deepest;
}

static size_t show(const char *name, size_t bytes)
{
    printf("stack of %s: %zu bytes\n", name, bytes);
    return bytes;
}

int main(void)
{
    size_t most = 0;
    for (size_t f = 0; f < sizeof functions / sizeof *functions; f++) {
        size_t bytes = show(functions[f].name, deepest_of_images(&functions[f]));
        most = bytes > most ? bytes : most;
    }
    for (size_t f = 0; f < sizeof factors / sizeof *factors; f++) {
        size_t bytes = show(factors[f].name, deepest_of_factors(factors[f].call));
        most = bytes > most ? bytes : most;
    }
    size_t rest = show(until_rest.name, deepest_of_images(&until_rest));
    int above = most > MATCHDESK_STACK || rest > MATCHDESK_STACK_UNTIL_REST;
    printf("stack: at most %zu bytes of %d, until it rests %zu of %d: %s\n", most, MATCHDESK_STACK, rest, MATCHDESK_STACK_UNTIL_REST, above ? "ABOVE" : "within");
    return above;
}

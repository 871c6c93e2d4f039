/*
 * Rewrites the image in one file to another: rewrite IN OUT
 *
 *   (cd crates/capi && rt lib)
 *   cc -O2 -Wall -I include examples/rewrite.c crates/capi/out/libcapi.a -lm -o target/rewrite
 *
 * Exit status: 0 OUT holds the rewritten image; 1 IN can't be read or OUT not written; 2 wrong use; 3 the image was refused. A refusal leaves
 * OUT alone.
 */
#include <stdio.h>

#include "matchdesk.h"

enum { DONE, FAILED, WRONG_USE, REFUSED };

/* A byte more than the longest image, so that a longer file is refused and not cut. */
static unsigned char image[MATCHDESK_MAX_IMAGE + 1];
static unsigned char out[MATCHDESK_MAX_IMAGE];

static int read_file(const char *name, size_t *length)
{
    FILE *file = fopen(name, "rb");
    if (file == NULL)
        return FAILED;
    *length = fread(image, 1, sizeof image, file);
    int failed = ferror(file);
    fclose(file);
    return failed ? FAILED : DONE;
}

static int write_file(const char *name, size_t length)
{
    FILE *file = fopen(name, "wb");
    if (file == NULL)
        return FAILED;
    int failed = fwrite(out, 1, length, file) != length;
    /* What is still in the buffer is written by fclose. */
    failed |= fclose(file) != 0;
    return failed ? FAILED : DONE;
}

int main(int argc, char **argv)
{
    if (argc != 3) {
        fprintf(stderr, "usage: rewrite IN OUT\n");
        return WRONG_USE;
    }
    const char *in = argv[1], *to = argv[2];

    size_t length;
    if (read_file(in, &length) != DONE) {
        perror(in);
        return FAILED;
    }

    /* The proofs speak of the default floating-point environment; a program that never changes it may leave the two calls out. */
    fenv_t host;
    if (matchdesk_enter_default_environment(&host) != 0) {
        fprintf(stderr, "rewrite: the default floating-point environment can't be set\n");
        return FAILED;
    }
    size_t first, second;
    size_t number = matchdesk_rewrite(image, length, out, sizeof out, &first, &second);
    matchdesk_leave_default_environment(&host);

    if (number != 0) {
        fprintf(stderr, "%s: refused %zu, function %zu, detail %zu\n", in, number, first, second);
        return REFUSED;
    }
    if (write_file(to, first) != DONE) {
        perror(to);
        return FAILED;
    }
    printf("%s: %zu bytes of %zu, rewrites %zu\n", to, first, length, second);
    return DONE;
}

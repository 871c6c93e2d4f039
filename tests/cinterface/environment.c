/*
 * The floating-point environment of the caller: what the folds come to in another one than the default, and that the two functions of the
 * header that set the default one around a call keep them right. Each call is made in a process of its own, since one of them is killed.
 */
#define _GNU_SOURCE
#include <fenv.h>
#include <signal.h>
#include <sys/wait.h>
#include <unistd.h>
#include <xmmintrin.h>

#include "images.h"

static void nothing(void) {}

static void round_upward(void)
{
    fesetround(FE_UPWARD);
}

/* FTZ is bit 15 of MXCSR and DAZ bit 6: what the start-up code of -ffast-math sets. */
static void flush_subnormals(void)
{
    _mm_setcsr(_mm_getcsr() | 0x8040);
}

static void trap_invalid(void)
{
    feenableexcept(FE_INVALID);
}

static void trap_division_by_zero(void)
{
    feenableexcept(FE_DIVBYZERO);
}

#define DIVISION "F0070003 290100000000000000F03F 2902000000000000000840 25030001000200"
#define SUM "F0070003 29010001 290200 11030001000200"
#define EQUALITY "F0070003 29010001 290200 19030001000200"
#define INF_MINUS_INF "F0070002 290100000000000000F07F 4E030001000100"
#define BY_ZERO "F0070003 290100000000000000F03F 290200 25030001000200"
#define INFINITE "F0070003 290100000000000000F03F 290200 290300000000000000F07F"

typedef size_t operation(const unsigned char *, size_t, unsigned char *, size_t, size_t *, size_t *);

/* A release of one image of less than 256 bytes, answered as matchdesk_rewrite answers it: what stands behind the length goes to the output. */
static size_t release_of_one(const unsigned char *image, size_t length, unsigned char *out, size_t out_length, size_t *first, size_t *second)
{
    unsigned char release[MATCHDESK_RELEASE_LENGTH + 256] = {(unsigned char)length}, written[sizeof release], answers[MATCHDESK_RELEASE_ANSWER];
    memcpy(release + MATCHDESK_RELEASE_LENGTH, image, length);
    size_t number = matchdesk_rewrite_release(release, MATCHDESK_RELEASE_LENGTH + length, written, sizeof written, answers, sizeof answers, first, second);
    if (number != 0 || answers[0] != 0 || *first != MATCHDESK_RELEASE_LENGTH + (size_t)written[0] || out_length < written[0])
        return 33;
    *first = written[0];
    *second = answers[4];
    memcpy(out, written + MATCHDESK_RELEASE_LENGTH, *first);
    return 0;
}

static const struct row {
    const char *name;
    void (*set)(void);
    const char *image;
    /* what is written without the two functions, NULL where the process is killed by SIGFPE; and with them */
    const char *bare, *guarded;
    operation *call;
} rows[] = {
    {"default, 1.0 / 3.0", nothing, DIVISION,
     "F0070003 290100000000000000F03F 2902000000000000000840 290300555555555555D53F",
     "F0070003 290100000000000000F03F 2902000000000000000840 290300555555555555D53F", matchdesk_rewrite},
    {"default, 5e-324 + 0.0", nothing, SUM, "F0070003 29010001 290200 29030001", "F0070003 29010001 290200 29030001", matchdesk_rewrite},
    {"default, CmpEq of 5e-324 and 0.0", nothing, EQUALITY, "F0070003 29010001 290200 280300", "F0070003 29010001 290200 280300", matchdesk_rewrite},
    {"default, inf - inf", nothing, INF_MINUS_INF,
     "F0070002 290100000000000000F07F 290300000000000000F87F", "F0070002 290100000000000000F07F 290300000000000000F87F", matchdesk_rewrite},
    {"rounding upward, 1.0 / 3.0", round_upward, DIVISION,
     "F0070003 290100000000000000F03F 2902000000000000000840 290300565555555555D53F",
     "F0070003 290100000000000000F03F 2902000000000000000840 290300555555555555D53F", matchdesk_rewrite},
    {"rounding upward, until it rests, 1.0 / 3.0", round_upward, DIVISION,
     "F0070003 290100000000000000F03F 2902000000000000000840 290300565555555555D53F",
     "F0070003 290100000000000000F03F 2902000000000000000840 290300555555555555D53F", matchdesk_rewrite_until_rest},
    {"rounding upward, a release, 1.0 / 3.0", round_upward, DIVISION,
     "F0070003 290100000000000000F03F 2902000000000000000840 290300565555555555D53F",
     "F0070003 290100000000000000F03F 2902000000000000000840 290300555555555555D53F", release_of_one},
    {"FTZ and DAZ, 5e-324 + 0.0", flush_subnormals, SUM, "F0070003 29010001 290200 290300", "F0070003 29010001 290200 29030001", matchdesk_rewrite},
    {"FTZ and DAZ, CmpEq of 5e-324 and 0.0", flush_subnormals, EQUALITY, "F0070003 29010001 290200 28030001", "F0070003 29010001 290200 280300", matchdesk_rewrite},
    {"FE_INVALID trapped, inf - inf", trap_invalid, INF_MINUS_INF, NULL, "F0070002 290100000000000000F07F 290300000000000000F87F", matchdesk_rewrite},
    {"default, fuller rewrite, 1.0 / 0.0", nothing, BY_ZERO, INFINITE, INFINITE, matchdesk_rewrite_fuller},
    {"FE_DIVBYZERO trapped, fuller rewrite, 1.0 / 0.0", trap_division_by_zero, BY_ZERO, NULL, INFINITE, matchdesk_rewrite_fuller},
    {"FE_DIVBYZERO trapped, default rewrite, 1.0 / 0.0", trap_division_by_zero, BY_ZERO, BY_ZERO, BY_ZERO, matchdesk_rewrite},
};

static unsigned char image[LONGEST], out[LONGEST], expected[LONGEST];

/* In the child: 0 as expected, 1 wrong bytes, 2 the host's environment isn't the same afterwards, 3 the default one can't be set. */
static int called(const struct row *r, const char *want, int guard)
{
    size_t length = assemble(r->image, image), bytes = want != NULL ? assemble(want, expected) : 0;
    size_t first, second, number;
    fenv_t host;
    r->set();
    unsigned before = _mm_getcsr();
    if (guard && matchdesk_enter_default_environment(&host) != 0)
        return 3;
    number = r->call(image, length, out, sizeof out, &first, &second);
    if (guard && (matchdesk_leave_default_environment(&host) != 0 || _mm_getcsr() != before))
        return 2;
    size_t count = want != NULL && strcmp(want, r->image) != 0;
    return number != 0 || second != count || first != bytes || memcmp(out, expected, bytes) != 0;
}

static int wrong(const struct row *r, const char *want, int guard)
{
    fflush(stdout);
    pid_t child = fork();
    if (child == 0)
        _exit(called(r, want, guard));
    int status;
    if (child < 0 || waitpid(child, &status, 0) != child) {
        perror("environment");
        return 1;
    }
    int killed = WIFSIGNALED(status) && WTERMSIG(status) == SIGFPE;
    int fine = want == NULL ? killed : WIFEXITED(status) && WEXITSTATUS(status) == 0;
    printf("%s, %s: %s", r->name, guard ? "guarded" : "bare", fine ? (killed ? "SIGFPE, as expected" : "as expected") : "NOT as expected");
    if (!fine)
        printf(WIFEXITED(status) ? ", child's status %d" : ", signal %d", WIFEXITED(status) ? WEXITSTATUS(status) : WTERMSIG(status));
    printf("\n");
    return !fine;
}

/* A bare call leaves exception flags raised; between the two functions it doesn't. */
static int flags_wrong(int guard)
{
    size_t length = assemble(DIVISION, image), first, second;
    fenv_t host;
    feclearexcept(FE_ALL_EXCEPT);
    if (guard && matchdesk_enter_default_environment(&host) != 0)
        return 1;
    matchdesk_rewrite(image, length, out, sizeof out, &first, &second);
    if (guard && matchdesk_leave_default_environment(&host) != 0)
        return 1;
    int want = guard ? 0 : FE_INEXACT, got = fetestexcept(FE_ALL_EXCEPT);
    printf("flags raised, %s: %s\n", guard ? "guarded" : "bare", got == want ? "as expected" : "NOT as expected");
    return got != want;
}

int main(void)
{
    int bad = 0;
    for (size_t i = 0; i < sizeof rows / sizeof *rows; i++) {
        bad += wrong(&rows[i], rows[i].bare, 0);
        bad += wrong(&rows[i], rows[i].guarded, 1);
    }
    bad += flags_wrong(0) + flags_wrong(1);
    printf("environment: %zu rows, %d wrong\n", 2 * (sizeof rows / sizeof *rows) + 2, bad);
    return bad != 0;
}

/*
 * The factor that gives a wanted product (document 02, W14), found for a fixed list of pairs by trying every i32: search, without arguments, writes
 * a line a pair, `fx WANTED FACTOR ANSWER` or `i32 WANTED FACTOR ANSWER`, in decimal, the answer `none` where no factor gives it. Nothing is known
 * here of the equation: each of the 2^32 products is computed by the leaf's definition and compared.
 *
 * `run` compiles it and writes found.txt.
 */
#include <pthread.h>
#include <stdbool.h>
#include <stddef.h>
#include <stdint.h>
#include <stdio.h>
#include <stdlib.h>
#include <string.h>
#include <unistd.h>

#define LEAST INT32_MIN
#define MOST INT32_MAX

enum kind { FX, I32 };

struct pair {
    enum kind kind;
    int32_t wanted, factor;
    bool found;
    int32_t answer;
};

/* The leaves. MulFx has no value outside i32; the product of two i32 is exact in 64 bits. */
static inline bool mul_fx(int32_t a, int32_t b, int32_t *value)
{
    int64_t quotient = (int64_t)a * b / 1000;
    *value = (int32_t)quotient;
    return LEAST <= quotient && quotient <= MOST;
}

static inline int32_t mul_i32(int32_t a, int32_t b)
{
    return (int32_t)((uint32_t)a * (uint32_t)b);
}

/* "Of several, the one nearest zero is given, the positive one on a tie." */
static bool better(int32_t x, int32_t than)
{
    int64_t size = x < 0 ? -(int64_t)x : x, other = than < 0 ? -(int64_t)than : than;
    return size < other || (size == other && x > than);
}

static void keep(struct pair *p, int32_t x)
{
    if (!p->found || better(x, p->answer))
        p->answer = x;
    p->found = true;
}

/* "Every i32 counts as a possible factor." */
static void search_fx(struct pair *p)
{
    const int32_t wanted = p->wanted, factor = p->factor;
    for (int64_t x = LEAST; x <= MOST; x++) {
        int32_t value;
        if (mul_fx((int32_t)x, factor, &value) && value == wanted)
            keep(p, (int32_t)x);
    }
}

static void search_i32(struct pair *p)
{
    const int32_t wanted = p->wanted, factor = p->factor;
    for (int64_t x = LEAST; x <= MOST; x++)
        if (mul_i32((int32_t)x, factor) == wanted)
            keep(p, (int32_t)x);
}

/* Wanted value and factor, by hand. */
static const int32_t fx_by_hand[][2] = {
    /* zero is given by zero, and no other value by the factor zero */
    {0, 0}, {0, 1}, {0, -1000}, {0, MOST}, {0, LEAST}, {1, 0}, {-1, 0}, {MOST, 0}, {LEAST, 0},
    /* around one, in all signs: overshot by 2000, not by 1999 */
    {1, 1}, {1, -1}, {-1, 1}, {-1, -1}, {1, 999}, {-1, 999}, {1, 1000}, {1, -1000}, {1, 1001}, {-1, -1001}, {1, 1999}, {1, -1999}, {-1, 1999},
    {-1, -1999}, {1, 2000}, {1, -2000}, {-1, 2000}, {-1, -2000}, {2, 2000}, {-2, 2000}, {2, 1999}, {2, 1001}, {999, 1001}, {1000, 999}, {1000, 1001},
    {1001, 1001}, {-1000, 1000}, {2250, 1500},
    /* the ends wanted */
    {LEAST, 1}, {LEAST, -1}, {LEAST, 999}, {LEAST, -999}, {LEAST, 1000}, {LEAST, -1000}, {LEAST, 1001}, {LEAST, -1001}, {LEAST, 2000}, {LEAST, -2000},
    {LEAST, LEAST}, {LEAST, MOST}, {MOST, 1}, {MOST, 999}, {MOST, 1000}, {MOST, -1000}, {MOST, 1001}, {MOST, 2000}, {MOST, MOST}, {MOST, LEAST},
    {LEAST + 1, 1000}, {LEAST + 1, -1000}, {LEAST + 1, MOST}, {LEAST + 1, LEAST},
    /* the ends as factors */
    {1, LEAST}, {-1, MOST}, {2147483, MOST}, {-2147483, LEAST}, {2147483, LEAST}, {2147484, LEAST}, {4294967, LEAST}, {4294967, MOST},
    /* the last values that 1 gives, and the first that it doesn't */
    {2147483, 1}, {-2147483, 1}, {2147483, -1}, {2147484, 1}, {-2147484, 1},
    /* answers of the size 2^31: the least number or none */
    {268435456, 125}, {-268435456, 125}, {268435456, -125}, {-268435456, -125}, {2145336164, 999}, {-2145336164, 999}, {2145336164, -999},
    {-2145336164, -999}, {2145336163, 999}, {1073741824, 500}, {-1073741824, 500},
};

static const int32_t i32_by_hand[][2] = {
    {0, 0}, {0, 1}, {0, 2}, {0, 1000}, {0, MOST}, {0, LEAST}, {1, 0}, {-1, 0}, {MOST, 0}, {LEAST, 0},
    /* odd factors: one answer */
    {1, 1}, {1, -1}, {-1, 1}, {-1, -1}, {7, -1}, {1, 3}, {-1, 3}, {5, 5}, {10, 5}, {1, 999}, {1, 1001}, {-1, 1999}, {1, 65537}, {MOST, 1}, {MOST, -1},
    {MOST, MOST}, {1, MOST}, {-1, MOST}, {MOST, 3}, {LEAST + 1, 1}, {LEAST + 1, MOST},
    /* the least number: its positive twin is no i32 */
    {LEAST, 1}, {LEAST, -1}, {LEAST, 3}, {LEAST, 999}, {LEAST, MOST}, {LEAST, LEAST + 1},
    /* ties */
    {LEAST, 2}, {LEAST, -2}, {LEAST, 4}, {LEAST, 6}, {LEAST, 1000}, {LEAST, 65536}, {LEAST, 1073741824}, {LEAST, -1073741824}, {LEAST, LEAST},
    {LEAST, 536870912}, {LEAST, 1610612736},
    /* even factors: several, or none */
    {1, 2}, {-1, 2}, {2, 2}, {-2, 2}, {6, 2}, {6, 4}, {12, 4}, {MOST, 2}, {1, LEAST}, {MOST, LEAST}, {10, 6}, {7, 1000}, {8, 1000}, {-8, 1000},
    {1000000, 1000}, {1, 2000}, {8, 2000}, {16, 2000}, {65536, 65536}, {-65536, 65536}, {32768, 65536}, {1073741824, 1073741824},
    {-1073741824, 1073741824}, {1073741824, 2}, {-1073741824, 2}, {1073741824, LEAST}, {536870912, 1073741824}, {2, MOST - 1}, {2, LEAST + 2},
    {1073741824, -4}, {-1073741824, 12},
};

#define COUNT(list) (sizeof list / sizeof *list)
/* Random pairs of each kind. */
#define RANDOM 32

static struct pair pairs[COUNT(fx_by_hand) + COUNT(i32_by_hand) + 2 * RANDOM];
static size_t count;

/* SplitMix64. */
static uint64_t state = 14;

static uint64_t bits(void)
{
    uint64_t z = state += 0x9E3779B97F4A7C15;
    z = (z ^ (z >> 30)) * 0xBF58476D1CE4E5B9;
    z = (z ^ (z >> 27)) * 0x94D049BB133111EB;
    return z ^ (z >> 31);
}

/* Every length of a number comes as often. */
static int32_t number(void)
{
    return (int32_t)((int64_t)(bits() << 32) >> (32 + bits() % 32));
}

static void add(enum kind kind, int32_t wanted, int32_t factor)
{
    pairs[count++] = (struct pair){.kind = kind, .wanted = wanted, .factor = factor};
}

/* Every second wanted value is a product, so that it has a factor; half of the i32's factors are even. */
static void add_random(enum kind kind)
{
    for (int i = 0; i < RANDOM;) {
        int32_t wanted = number(), factor = number(), x = number();
        if (kind == I32 && i % 4 < 2)
            factor = (int32_t)((uint32_t)factor << (1 + bits() % 20));
        if (i % 2 == 0 && kind == I32)
            wanted = mul_i32(x, factor);
        if (i % 2 == 0 && kind == FX && !mul_fx(x, factor, &wanted))
            continue;
        if (wanted == 0 || factor == 0)
            continue;
        add(kind, wanted, factor);
        i++;
    }
}

static void list(void)
{
    for (size_t i = 0; i < COUNT(fx_by_hand); i++)
        add(FX, fx_by_hand[i][0], fx_by_hand[i][1]);
    add_random(FX);
    for (size_t i = 0; i < COUNT(i32_by_hand); i++)
        add(I32, i32_by_hand[i][0], i32_by_hand[i][1]);
    add_random(I32);
}

/* The pair that is searched next, by whichever thread is free. */
static size_t next;
static pthread_mutex_t lock = PTHREAD_MUTEX_INITIALIZER;

static void *work(void *unused)
{
    for (;;) {
        pthread_mutex_lock(&lock);
        size_t i = next++;
        pthread_mutex_unlock(&lock);
        if (i >= count)
            return unused;
        if (pairs[i].kind == FX)
            search_fx(&pairs[i]);
        else
            search_i32(&pairs[i]);
    }
}

int main(int arguments, char **argument)
{
    if (arguments > 1) {
        fprintf(stderr, "usage: search; writes what it finds on standard output\n");
        return strcmp(argument[1], "--help") == 0 ? 0 : 2;
    }
    list();
    enum { MOST_THREADS = 64 };
    pthread_t threads[MOST_THREADS];
    long cores = sysconf(_SC_NPROCESSORS_ONLN), started = 0;
    for (; started < cores && started < MOST_THREADS; started++)
        if (pthread_create(&threads[started], NULL, work, NULL) != 0)
            break;
    if (started == 0)
        work(NULL);
    for (long i = 0; i < started; i++)
        pthread_join(threads[i], NULL);
    for (size_t i = 0; i < count; i++) {
        const struct pair *p = &pairs[i];
        printf("%s %ld %ld ", p->kind == FX ? "fx" : "i32", (long)p->wanted, (long)p->factor);
        if (p->found)
            printf("%ld\n", (long)p->answer);
        else
            printf("none\n");
    }
    return ferror(stdout) ? 2 : 0;
}

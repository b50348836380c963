/* The same generator in plain C, and how long each call takes. */
#include <stdint.h>
#include <stdio.h>
#include <time.h>

#define COUNT 200000000u
#define UNIFORM 20000000u
#define SEEDS 1000000u
#define diff(a, b) (((a) - (b)) & 0x7fffffff)
#define join(a, b) (((a) + (b)) & 0x7fffffff)

typedef struct { uint32_t words[55]; uint32_t unread; } flip_t;

static __attribute__((noinline)) void cycle(uint32_t *a) {
    int i;
    for (i = 0; i < 24; i++) a[i] = diff(a[i], a[i + 31]);
    for (i = 24; i < 55; i++) a[i] = diff(a[i], a[i - 24]);
}

static __attribute__((noinline)) void uncycle(uint32_t *a) {
    int i;
    for (i = 54; i >= 24; i--) a[i] = join(a[i], a[i - 24]);
    for (i = 23; i >= 0; i--) a[i] = join(a[i], a[i + 31]);
}

static inline uint32_t next(flip_t *f) {
    if (f->unread == 0) { cycle(f->words); f->unread = 55; }
    return f->words[--f->unread];
}

static inline void back(flip_t *f) {
    if (f->unread == 54) { uncycle(f->words); f->unread = 0; }
    else f->unread++;
}

static inline uint32_t uniform(flip_t *f, uint32_t m) {
    uint32_t t = 0x80000000u - 0x80000000u % m, r;
    do r = next(f); while (r >= t);
    return r % m;
}

static __attribute__((noinline)) void seed(flip_t *f, int64_t s) {
    uint32_t x = s & 0x7fffffff, prev = x, now = 1;
    int i;
    f->words[54] = prev;
    for (i = 21; i; i = (i + 21) % 55) {
        f->words[i - 1] = now;
        now = diff(prev, now);
        x = (x >> 1) | ((x & 1) << 30);
        now = diff(now, x);
        prev = f->words[i - 1];
    }
    for (i = 0; i < 5; i++) cycle(f->words);
    f->unread = 54;
}

static double seconds(void) {
    struct timespec t;
    clock_gettime(CLOCK_MONOTONIC, &t);
    return t.tv_sec + t.tv_nsec * 1e-9;
}

/* A call's name, its time in picoseconds, and what came of it, so that nothing is left out. */
static void tell(const char *name, double start, double count, uint32_t check) {
    printf("%s %.0f %u\n", name, (seconds() - start) * 1e12 / count, check);
}

/* Each bound in two loops, of which the faster one counts: where a loop lies decides. */
#define UNIFORM_OF(name, bound) \
    start = seconds(); \
    for (i = 0; i < UNIFORM; i++) all ^= uniform(&f, bound); \
    tell(name, start, UNIFORM, all);

int main(void) {
    flip_t f;
    uint32_t all = 0;
    uint32_t i, round;
    double start;
    seed(&f, 1);
    for (round = 0; round < 5; round++) {
        start = seconds();
        for (i = 0; i < COUNT / 4; i++) { all ^= next(&f); all ^= next(&f); all ^= next(&f); all ^= next(&f); }
        tell("next", start, COUNT, all);
        start = seconds();
        for (i = 0; i < COUNT / 4; i++) { back(&f); back(&f); back(&f); back(&f); }
        tell("back", start, COUNT, all);
        start = seconds();
        for (i = 0; i < COUNT / 55; i++) uncycle(f.words);
        tell("back_by", start, COUNT, f.words[0]);
        UNIFORM_OF("uniform_6", 6)
        UNIFORM_OF("uniform_6", 6)
        UNIFORM_OF("uniform_1000", 1000)
        UNIFORM_OF("uniform_1000", 1000)
        UNIFORM_OF("uniform_2^30+1", 1073741825)
        UNIFORM_OF("uniform_2^30+1", 1073741825)
        start = seconds();
        for (i = 0; i < SEEDS; i++) { flip_t g; seed(&g, i); all ^= next(&g); }
        tell("seeding", start, SEEDS, all);
    }
    return 0;
}

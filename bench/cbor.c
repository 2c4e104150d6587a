/* Times the proved walk over one CBOR item beside two plain C walks: one that does the same work (definite and
   indefinite lengths, nesting, heads counted), and one that knows definite lengths only and counts nothing.
   Built and run by bench/cbor. Each time is the least of 31 runs, the walks in turn, so that what else the machine does
   counts little. With a size as its argument it times nothing, and walks one item of that size once: for a tool that
   counts instructions. With `rows` or `growth` it prints rows of bench/run's tables: ratios to the plain walk that does
   the same work, to memcpy, and, where it is installed, to libcbor's stream decoder with callbacks that do nothing. That
   one checks no nesting and is found when the program runs. */
#define _GNU_SOURCE
#include <dlfcn.h>
#include <stdint.h>
#include <stdio.h>
#include <stdlib.h>
#include <string.h>
#include "item.h"

extern size_t cbor_end(const uint8_t *, size_t, size_t);
extern size_t cbor_heads(const uint8_t *, size_t, size_t);

/* The plain walk that knows definite lengths only, and counts no heads. */
static long lean(const uint8_t *b, long n)
{
    uint64_t left[17];
    int d = 0;
    long at = 0;
    left[0] = 1;
    for (;;) {
        while (left[d] == 0) {
            if (d == 0)
                return at;
            d--;
        }
        left[d]--;
        if (at >= n)
            return INCOMPLETE;
        uint8_t i = b[at++];
        int m = i >> 5, a = i & 31;
        uint64_t v;
        if (a < 24) {
            v = a;
        } else if (a == 24) {
            if (at + 1 > n)
                return INCOMPLETE;
            v = b[at];
            at += 1;
        } else if (a == 25) {
            if (at + 2 > n)
                return INCOMPLETE;
            v = b[at] << 8 | b[at + 1];
            at += 2;
        } else if (a == 26) {
            if (at + 4 > n)
                return INCOMPLETE;
            v = (uint64_t)b[at] << 24 | b[at + 1] << 16 | b[at + 2] << 8 | b[at + 3];
            at += 4;
        } else if (a == 27) {
            if (at + 8 > n)
                return INCOMPLETE;
            v = 0;
            for (int k = 0; k < 8; k++)
                v = v << 8 | b[at + k];
            at += 8;
        } else {
            return BAD;
        }
        if (m == 2 || m == 3) {
            if (v > (uint64_t)(n - at))
                return INCOMPLETE;
            at += v;
        } else if (m >= 4 && m <= 6) {
            if (d == 16)
                return BAD;
            left[++d] = m == 4 ? v : m == 5 ? 2 * v : 1;
        }
    }
}

static uint8_t item[1 << 19], open_item[1 << 19], ring[1 << 19], alike_item[1 << 19], apart[1 << 19], copies[1 << 19];
static size_t size, open_size, from, alike_size, parts, ends[1 << 10], part;
static volatile long sink;

static void walked(void) { sink += cbor_end(item, size, 0); }
static void walked_open(void) { sink += cbor_end(open_item, open_size, 0); }
static void walked_ring(void) { sink += cbor_end(ring, size, from); }
static void plainly(void) { sink += plain(item, size).end; }
static void plainly_open(void) { sink += plain(open_item, open_size).end; }
static void leanly(void) { sink += lean(item, size); }
static void walked_alike(void) { sink += cbor_end(alike_item, alike_size, 0); }

static void walked_apart(void)
{
    for (size_t i = 0; i < parts; i++)
        sink += cbor_end(apart + ends[i], ends[i + 1] - ends[i], 0);
}

static void walked_copies(void)
{
    for (size_t i = 0; i < parts; i++)
        sink += cbor_end(copies + i * part, part, 0);
}

/* The least times of the walks, run in turn. */
enum { WALKS = 9, RUNS = 31 };
static void times(double *least)
{
    static void (*const walks[WALKS])(void) = { walked, walked_open, walked_ring, plainly, plainly_open, leanly,
                                                walked_alike, walked_apart, walked_copies };
    int rounds = 1 + 6000000 / (int)size;
    for (int r = 0; r < RUNS; r++)
        for (int w = 0; w < WALKS; w++) {
            double begun = now();
            for (int k = 0; k < rounds; k++)
                walks[w]();
            double t = (now() - begun) / rounds;
            if (r == 0 || t < least[w])
                least[w] = t;
        }
}

/* About as many bytes in small items: different ones, that go on with each other's transactions, and copies of the
   first. */
static void made_small(void)
{
    for (parts = 0; parts == 0 || ends[parts] + part <= size; parts++) {
        ends[parts + 1] = ends[parts] + build(apart + ends[parts], 2000, 0);
        first = seed;
        part = ends[1];
    }
    first = 1;
    for (size_t i = 0; i < parts; i++)
        memcpy(copies + i * part, apart, part);
}

static int small_whole(void)
{
    for (size_t i = 0; i < parts; i++)
        if (cbor_end(apart + ends[i], ends[i + 1] - ends[i], 0) != ends[i + 1] - ends[i] || cbor_end(copies + i * part, part, 0) != part)
            return 0;
    return 1;
}

static void made(size_t wanted)
{
    size = build(item, wanted, 0);
    open_size = build(open_item, wanted, 1);
    alike = 1;
    alike_size = build(alike_item, wanted, 0);
    alike = 0;
    made_small();
    from = size * 2 / 3;
    for (size_t i = 0; i < size; i++)
        ring[(from + i) % size] = item[i];
    struct told a = plain(item, size), b = plain(open_item, open_size);
    if ((size_t)a.end != size || cbor_end(item, size, 0) != size || cbor_end(ring, size, from) != size || (size_t)lean(item, size) != size
        || (size_t)b.end != open_size || cbor_end(open_item, open_size, 0) != open_size || cbor_heads(item, size, 0) != (size_t)a.heads
        || cbor_heads(ring, size, from) != (size_t)a.heads || cbor_heads(open_item, open_size, 0) != (size_t)b.heads
        || cbor_end(alike_item, alike_size, 0) != alike_size || !small_whole()) {
        puts("the walks do not agree");
        exit(1);
    }
}

/* libcbor (0.8 and 0.10): one head at a time. */
struct decoded { size_t read; int status; size_t required; };
static struct decoded (*decode)(const uint8_t *, size_t, const void *, void *);
static const void *callbacks;

static void found(void)
{
    void *lib = dlopen("libcbor.so.0.8", RTLD_NOW);
    if (!lib)
        lib = dlopen("libcbor.so.0.10", RTLD_NOW);
    if (!lib)
        return;
    callbacks = dlsym(lib, "cbor_empty_callbacks");
    *(void **)&decode = callbacks ? dlsym(lib, "cbor_stream_decode") : 0;
}

static long by_libcbor(const uint8_t *b, size_t n)
{
    size_t at = 0;
    while (at < n) {
        struct decoded d = decode(b + at, n - at, callbacks, 0);
        if (d.status)
            return BAD;
        at += d.read;
    }
    return at;
}

/* An item's walks by their number: the proved one, plain C, memcpy, libcbor. */
enum { PROVED, PLAIN, COPY, LIBCBOR, WAYS };
static void *(*volatile copied)(void *, const void *, size_t) = memcpy;

static long walk(int way, const uint8_t *b, size_t n)
{
    if (way == PROVED)
        return cbor_end(b, n, 0);
    if (way == PLAIN)
        return plain(b, n).end;
    if (way == COPY)
        copied(copies, b, n);
    return way == COPY ? (long)n : by_libcbor(b, n);
}

static void walks_timed(const uint8_t *b, size_t n, double *least)
{
    int rounds = 1 + 3000000 / (int)(n < 4000 ? 4000 : n), ways = decode ? WAYS : LIBCBOR;
    for (int w = 0; w < ways; w++)
        if (walk(w, b, n) != (long)n) {
            puts("the walks do not agree");
            exit(1);
        }
    for (int r = 0; r < RUNS; r++)
        for (int w = 0; w < ways; w++) {
            double begun = now();
            for (int k = 0; k < rounds; k++)
                sink += walk(w, b, n);
            double t = (now() - begun) / rounds;
            if (r == 0 || t < least[w])
                least[w] = t;
        }
}

static void row(const char *what, const uint8_t *b, size_t n, double bound)
{
    double t[WAYS];
    walks_timed(b, n, t);
    printf("| measure, %s: %zu bytes, %zu heads | %.2f | %.3f | ", what, n, cbor_heads(b, n, 0), t[PROVED] / t[PLAIN], t[COPY] / t[PROVED]);
    if (decode)
        printf("%.2f | ", t[PROVED] / t[LIBCBOR]);
    else
        printf("| ");
    printf("at most %g × plain C | %s |\n", bound, t[PROVED] <= bound * t[PLAIN] ? "yes" : "no");
}

static void rows(void)
{
    found();
    row("an item like a block", item, build(item, 65000, 0), 1.3);
    row("the same, small", item, build(item, 1500, 0), 1.3);
    row("the same, large", item, build(item, 128000, 0), 1.3);
    row("all containers indefinite", item, build(item, 65000, 1), 2);
    out = item;
    len = 0;
    string(2, 65000);
    row("one string", item, len, 4.2);
}

static void growth(void)
{
    double a[WAYS], b[WAYS];
    size_t n = build(item, 2000, 0);
    walks_timed(item, n, a);
    size = build(item, 128000, 0);
    walks_timed(item, size, b);
    double times = (double)size / n;
    printf("| measure, an item of %zu bytes to one of %zu | %.2f | %.2f | %.2f |\n", size, n, b[PROVED] / a[PROVED] / times,
           b[PLAIN] / a[PLAIN] / times, b[COPY] / a[COPY] / times);
}

static int walked_once(size_t wanted)
{
    if (wanted > sizeof item)
        return 1;
    size = build(item, wanted, 0);
    printf("%zu bytes\n", size);
    return cbor_end(item, size, 0) != size;
}

int main(int argc, char **argv)
{
    double t[WALKS];
    if (argc == 2 && !strcmp(argv[1], "rows"))
        return rows(), 0;
    if (argc == 2 && !strcmp(argv[1], "growth"))
        return growth(), 0;
    if (argc == 2)
        return walked_once(strtoul(argv[1], 0, 10));
    made(65000);
    times(t);
    printf("item of %zu bytes, %zu heads: walk %.1f us, plain C %.1f us (ratio %.2f), definite-only C %.1f us (ratio %.2f)\n", size,
           cbor_heads(item, size, 0), t[0], t[3], t[0] / t[3], t[5], t[0] / t[5]);
    printf("all containers indefinite, %zu heads: walk %.1f us (%.2f of the definite), plain C %.1f us (ratio %.2f)\n",
           cbor_heads(open_item, open_size, 0), t[1], t[1] / t[0], t[4], t[1] / t[4]);
    printf("wrapped in a ring: walk %.1f us (%.2f of the plain slice)\n", t[2], t[2] / t[0]);
    for (size_t wanted = 1000; wanted <= 128000; wanted *= 2) {
        made(wanted);
        times(t);
        printf("%6zu bytes: walk %.3f ns a byte, plain C %.3f, definite-only C %.3f; walk, transactions alike, %.3f\n", size,
               t[0] * 1000 / size, t[3] * 1000 / size, t[5] * 1000 / size, t[6] * 1000 / alike_size);
    }
    printf("%6zu bytes in %zu different items: walk %.3f ns a byte; in %zu copies of the first: %.3f\n", ends[parts], parts,
           t[7] * 1000 / ends[parts], parts, t[8] * 1000 / (parts * part));
    return 0;
}

/* What the benchmarks share: an item like a block, and a plain C walk over one item, which does what the proved walk does
   on a plain slice (definite and indefinite lengths, nesting, heads counted). */
#include <stddef.h>
#include <stdint.h>
#include <time.h>

/* A block-like item: a header, and transactions of inputs, outputs, values, a fee and witnesses. */
static uint8_t *out;
static size_t len;
static int endless, alike;
static uint32_t seed, first = 1;

static void byte(unsigned b) { out[len++] = b; }

static void head(unsigned m, uint64_t v)
{
    int w = v < 24 ? 0 : v < 256 ? 1 : v < 65536 ? 2 : v >> 32 ? 8 : 4;
    byte(m << 5 | (w == 0 ? v : w == 1 ? 24 : w == 2 ? 25 : w == 4 ? 26 : 27));
    while (w--)
        byte(v >> 8 * w & 255);
}

static void string(unsigned m, size_t n)
{
    head(m, n);
    for (size_t i = 0; i < n; i++)
        byte((i * 7 + n) & 255);
}

static void opened(unsigned m, uint64_t n)
{
    if (endless)
        byte(m << 5 | 31);
    else
        head(m, n);
}

static void closed(void)
{
    if (endless)
        byte(255);
}

static unsigned any(unsigned n)
{
    seed = seed * 1664525u + 1013904223u;
    return (seed >> 8) % n;
}

static void input(void)
{
    opened(4, 2);
    string(2, 32);
    head(0, any(4));
    closed();
}

static void output(void)
{
    opened(4, 2);
    string(2, 57);
    if (any(3)) {
        head(0, 1000000 + any(16000000));
    } else {
        opened(4, 2);
        head(0, 1500000 + any(16000000));
        opened(5, 1);
        string(2, 28);
        opened(5, 2);
        string(2, 5);
        head(0, any(100000));
        string(2, 8);
        head(0, 1);
        closed();
        closed();
        closed();
    }
    closed();
}

static void witness(void)
{
    opened(4, 2);
    string(2, 32);
    string(2, 64);
    closed();
}

static void transaction(void)
{
    if (alike)
        seed = first;
    unsigned inputs = 1 + any(3), outputs = 1 + any(3);
    opened(4, 2);
    opened(5, 4);
    head(0, 0);
    opened(4, inputs);
    while (inputs--)
        input();
    closed();
    head(0, 1);
    opened(4, outputs);
    while (outputs--)
        output();
    closed();
    head(0, 2);
    head(0, 170000 + any(65536));
    head(0, 3);
    head(0, 40000000 + any(16000000));
    closed();
    opened(5, 2);
    head(0, 0);
    opened(4, 2);
    witness();
    witness();
    closed();
    head(0, 1);
    opened(4, 2);
    head(6, 24);
    string(2, 20);
    byte(0xf6);
    closed();
    closed();
    closed();
}

static inline size_t build(uint8_t *b, size_t size, int indefinite)
{
    size_t n = 0;
    endless = indefinite;
    out = b;
    for (len = 0, seed = first; len + 800 < size; n++)
        transaction();
    len = 0;
    seed = first;
    opened(4, 2);
    opened(4, 3);
    head(0, 7654321);
    string(2, 32);
    string(2, 200);
    closed();
    opened(4, n);
    while (n--)
        transaction();
    closed();
    closed();
    return len;
}

/* The plain walk that does the same work. */
struct told { long end, heads; };
enum { INCOMPLETE = -1, BAD = -2 };
enum { ITEMS, ELEMENTS, PAIRS, BYTES, TEXT };

static inline struct told plain(const uint8_t *b, size_t n)
{
    uint64_t lefts[18], left = 1;
    uint8_t kinds[18], kind = ITEMS;
    int depth = 0;
    size_t at = 0;
    long heads = 0;
    for (;;) {
        while (kind == ITEMS && left == 0) {
            if (depth == 0)
                return (struct told){ at, heads };
            depth--;
            kind = kinds[depth];
            left = lefts[depth];
        }
        if (at >= n)
            return (struct told){ INCOMPLETE, heads };
        unsigned i = b[at], m = i >> 5, a = i & 31;
        size_t p = at + 1;
        uint64_t v = a;
        if (i == 255) {
            if (kind == ITEMS || (kind == PAIRS && left % 2))
                return (struct told){ BAD, heads };
            kind = ITEMS;
            left = 0;
            heads++;
            at = p;
            continue;
        }
        if (kind >= BYTES && (m != kind - BYTES + 2u || a >= 28))
            return (struct told){ BAD, heads };
        if (m >= 4 && m <= 6 && depth == 16)
            return (struct told){ BAD, heads };
        if (a >= 24) {
            if (a == 31 && m >= 2 && m <= 5) {
                kinds[depth] = kind;
                lefts[depth++] = left - 1;
                kind = m == 2 ? BYTES : m == 3 ? TEXT : m == 4 ? ELEMENTS : PAIRS;
                left = 0;
                heads++;
                at = p;
                continue;
            }
            if (a >= 28)
                return (struct told){ BAD, heads };
            size_t w = (size_t)1 << (a - 24);
            if (n - p < w)
                return (struct told){ INCOMPLETE, heads };
            v = 0;
            for (size_t k = 0; k < w; k++)
                v = v << 8 | b[p + k];
            p += w;
            if (m == 7 && w == 1 && v < 32)
                return (struct told){ BAD, heads };
        }
        heads++;
        left--;
        if (m == 2 || m == 3) {
            if (v > n - p)
                return (struct told){ INCOMPLETE, heads };
            p += v;
        } else if (m >= 4 && m <= 6) {
            kinds[depth] = kind;
            lefts[depth++] = left;
            kind = ITEMS;
            left = m == 4 ? v : m == 5 ? 2 * v : 1;
        }
        at = p;
    }
}

/* Microseconds. */
static inline double now(void)
{
    struct timespec t;
    clock_gettime(CLOCK_MONOTONIC, &t);
    return t.tv_sec * 1e6 + t.tv_nsec * 1e-3;
}

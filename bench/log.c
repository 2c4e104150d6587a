/* Times the proved search in a log of points beside plain C that tests that the slots rise and then searches by halves, and
   prints a row of a table for each log: ratios only. Built and run by bench/run. Before a log is timed, both have to come
   to the same places. Each time is the least of RUNS runs, the two in turn. */
#include <stdint.h>
#include <stdio.h>
#include <stdlib.h>
#include "item.h"

extern size_t log_find(const uint64_t *, size_t, const uint64_t *, size_t, size_t, uint64_t);

enum { MOST = 100000, RUNS = 31 };

static uint64_t slots[MOST], hashes[4 * MOST];
static volatile size_t sink;

/* How many slots there are up to the last at or below `slot`; 0 where they do not rise. */
__attribute__((noinline)) static size_t plain_find(const uint64_t *s, size_t len, const uint64_t *h, size_t words, size_t n, uint64_t slot)
{
    (void)h;
    if (words != 4 * len || n > len)
        return 0;
    int good = 1;
    for (size_t i = 1; i < n; i++)
        good &= s[i - 1] < s[i];
    if (!good)
        return 0;
    size_t low = 0, high = n;
    while (low < high) {
        size_t mid = low + (high - low) / 2;
        if (s[mid] <= slot)
            low = mid + 1;
        else
            high = mid;
    }
    return low;
}

typedef size_t find(const uint64_t *, size_t, const uint64_t *, size_t, size_t, uint64_t);

/* Searches below, at, between and above the slots of a log of n, in turn. */
static size_t searched(find *f, size_t n, size_t times)
{
    size_t sum = 0;
    for (size_t k = 0; k < times; k++)
        sum += f(slots, n, hashes, 4 * n, n, k * 7919 % (3 * n + 3));
    return sum;
}

static void row(size_t n)
{
    find *volatile ways[2] = { log_find, plain_find };
    size_t times = 1;
    double least[2];
    for (size_t i = 0; i < n; i++)
        slots[i] = 3 * i + 2;
    if (searched(ways[0], n, 1000) != searched(ways[1], n, 1000)) {
        printf("find in a log of %zu: the two do not agree\n", n);
        exit(1);
    }
    for (double begun = now(); searched(ways[0], n, times), now() - begun < 1000; begun = now())
        times *= 2;
    for (int r = 0; r < RUNS; r++)
        for (int way = 0; way < 2; way++) {
            double begun = now();
            sink += searched(ways[way], n, times);
            double t = (now() - begun) / times;
            if (r == 0 || t < least[way])
                least[way] = t;
        }
    printf("| find in a log of %zu points | %.2f | | | at most 2 × plain C | %s |\n", n, least[0] / least[1], least[0] <= 2 * least[1] ? "yes" : "no");
}

int main(void)
{
    row(1000);
    row(MOST);
    return 0;
}

/* Times the hot paths of the proved front beside a plain C front (bench/plain.c) and memcpy of the same bytes, and prints
   a row of a table for each: ratios only. Built and run by bench/run. Before a path is timed, both fronts have to come to
   the same bytes and counts. Each time is the least of RUNS runs, the three in turn.
   With `growth` it prints how much more work of the same kind costs. With the number of a row (from 0), a word (proved or
   plain) and a count it times nothing, and runs that path so many times: for a tool that counts instructions. */
#include <stdint.h>
#include <stdio.h>
#include <stdlib.h>
#include <string.h>
#include "item.h"

#define PATHS(who)                                                                                                                \
    extern uint64_t who##_feed(uint8_t *, size_t, const uint8_t *, size_t, const uint8_t *, size_t, size_t, uint64_t);            \
    extern uint64_t who##_next(const uint8_t *, size_t, const uint8_t *, size_t, uint8_t *, size_t, uint64_t, uint64_t, uint64_t, \
                               uint64_t, uint64_t);                                                                               \
    extern uint64_t who##_look(const uint8_t *, size_t, const uint8_t *, size_t, uint8_t *, size_t, uint64_t, uint64_t, uint64_t); \
    extern uint64_t who##_put(const uint8_t *, size_t, uint8_t *, size_t, const uint8_t *, size_t, uint64_t);                     \
    extern uint64_t who##_way(uint8_t *, size_t, uint8_t *, size_t, uint8_t *, size_t, uint8_t *, size_t, uint8_t *, size_t,      \
                              uint8_t *, size_t, const uint8_t *, size_t, const uint8_t *, size_t, uint64_t, uint64_t);
PATHS(front)
PATHS(plain)
extern size_t cbor_end(const uint8_t *, size_t, size_t);
extern uint64_t front_reply(const uint8_t *, size_t, uint8_t *, size_t, const uint8_t *, size_t, uint64_t);

enum { CAPACITY = 131072, STORE = 9 * CAPACITY, HEADER = 8, FETCHES = 3, SERVES = 4, RUNS = 31 };
enum { FEED, NEXT, LOOK, PUT, WAY };
enum { PROVED, PLAIN, COPY, LESS, WAYS };
enum { NO_GOAL, TO_PLAIN, TO_COPY, TO_LESS, TO_LESS_AND_COPIES };

/* A path, its work, and the goal: at most so many times plain C; at least so much of memcpy's speed; at most so many times
   a part of the work (the proved measure of the same item; Keep-alive's way without looks), or that part and so many copies.
   For feed, `size` bytes to a segment, `count` segments (0: as many as fit), and runs of `cut` bytes (0: all at once). For
   next segment, the payload limit and how many queues are busy. For look and put, the item's size, and whether it wraps.
   For Keep-alive's way, whether there is a look before each drop. */
struct work {
    const char *what;
    int path;
    size_t size, count, cut;
    int goal;
    double bound;
};

static const struct work works[] = {
    { "feed, segments of 16 bytes, all in one run", FEED, 16, 0, 0, TO_PLAIN, 2 },
    { "feed, segments of 128 bytes, all in one run", FEED, 128, 0, 0, NO_GOAL, 0 },
    { "feed, segments of 1,024 bytes, all in one run", FEED, 1024, 0, 0, NO_GOAL, 0 },
    { "feed, segments of 8,192 bytes, all in one run", FEED, 8192, 0, 0, NO_GOAL, 0 },
    { "feed, segments of 65,535 bytes, all in one run", FEED, 65535, 0, 0, TO_COPY, 0.7 },
    { "feed, segments of 16 bytes, a run each", FEED, 16, 0, 24, TO_PLAIN, 10 },
    { "feed, segments of 128 bytes, a run each", FEED, 128, 0, 136, NO_GOAL, 0 },
    { "feed, segments of 1,024 bytes, a run each", FEED, 1024, 0, 1032, NO_GOAL, 0 },
    { "feed, segments of 8,192 bytes, a run each", FEED, 8192, 0, 8200, NO_GOAL, 0 },
    { "feed, segments of 65,535 bytes, a run each", FEED, 65535, 0, 65543, TO_COPY, 0.7 },
    { "feed, segments of 16 bytes, runs of 1,448", FEED, 16, 0, 1448, TO_PLAIN, 2 },
    { "feed, segments of 128 bytes, runs of 1,448", FEED, 128, 0, 1448, NO_GOAL, 0 },
    { "feed, segments of 1,024 bytes, runs of 1,448", FEED, 1024, 0, 1448, NO_GOAL, 0 },
    { "feed, segments of 8,192 bytes, runs of 1,448", FEED, 8192, 0, 1448, NO_GOAL, 0 },
    { "feed, segments of 65,535 bytes, runs of 1,448", FEED, 65535, 0, 1448, NO_GOAL, 0 },
    { "next segment, S 1,000, one queue", NEXT, 1000, 1, 0, TO_PLAIN, 6 },
    { "next segment, S 1,000, eight queues", NEXT, 1000, 8, 0, TO_PLAIN, 6 },
    { "next segment, S 65,535, one queue", NEXT, 65535, 1, 0, TO_COPY, 0.6 },
    { "next segment, S 65,535, eight queues", NEXT, 65535, 8, 0, TO_COPY, 0.6 },
    { "look, a Block of 64 kB", LOOK, 65000, 0, 0, TO_LESS, 1.05 },
    { "look, a Block of 64 kB, wrapped", LOOK, 65000, 1, 0, TO_LESS_AND_COPIES, 1.2 },
    { "put, a Block of 64 kB", PUT, 65000, 0, 0, NO_GOAL, 0 },
    { "a Keep-alive message and its answer: put, next segment, feed, drop", WAY, 5, 0, 0, TO_PLAIN, 5.5 },
    { "the same with a look before each drop", WAY, 5, 1, 0, TO_LESS, 1.35 },
};

/* Pairs of works of which the second has so many times the first's bytes and segments: its time should grow no more. */
static const struct {
    const char *what;
    struct work small, large;
    double times;
} growths[] = {
    { "feed, segments of 16 bytes in one run: 8,000 to 500", { "", FEED, 16, 500, 0, 0, 0 }, { "", FEED, 16, 8000, 0, 0, 0 }, 16 },
    { "feed, segments of 1,024 bytes in one run: 128 to 8", { "", FEED, 1024, 8, 0, 0, 0 }, { "", FEED, 1024, 128, 0, 0, 0 }, 16 },
    { "look, a Block of 128 kB to one of 8 kB", { "", LOOK, 8000, 0, 0, 0, 0 }, { "", LOOK, 128000, 0, 0, 0, 0 }, 0 },
};

static uint8_t receive[STORE], sending[STORE], far_receive[STORE], far_send[STORE], stream[1 << 19], message[1 << 18], buf[1 << 18], wire[1 << 17];
static uint8_t seen[STORE], seen_buf[1 << 18];
static const uint8_t ask[] = { 0x82, 0, 0x19, 0x12, 0x34 }, answer[] = { 0x82, 1, 0x19, 0x12, 0x34 };
static size_t stream_size, message_size, start;
static void *(*volatile copied)(void *, const void *, size_t) = memcpy;
static volatile uint64_t sink;

static size_t segments_of(const struct work *w)
{
    return w->path == NEXT ? w->count * (CAPACITY / w->size) : w->count ? w->count : CAPACITY / w->size;
}

/* Segments for Block-Fetch's initiator, or a Block message laid into the area of Block-Fetch. */
static void made(const struct work *w)
{
    size_t at = 0;
    if (w->path == FEED) {
        for (size_t k = segments_of(w); k; k--) {
            const uint8_t h[HEADER] = { 0, 0, 0, 1, 0x80, 3, w->size >> 8, w->size };
            memcpy(stream + at, h, HEADER);
            for (size_t j = 0; j < w->size; j++)
                stream[at + HEADER + j] = j * 7 + k;
            at += HEADER + w->size;
        }
        stream_size = at;
    }
    if (w->path == LOOK || w->path == PUT) {
        message[0] = 0x82;
        message[1] = 4;
        message_size = 2 + build(message + 2, w->size, 0);
        start = w->count ? CAPACITY - message_size / 3 : 0;
        for (size_t j = 0; j < message_size; j++)
            receive[FETCHES * CAPACITY + (start + j) % CAPACITY] = message[j];
    }
    if (w->path == NEXT)
        for (size_t j = 0; j < STORE; j++)
            sending[j] = j * 7 + j / CAPACITY;
}

static uint64_t fed(const struct work *w, int way, uint64_t times)
{
    size_t cut = w->cut ? w->cut : stream_size;
    if (way == PROVED)
        return front_feed(receive, STORE, sending, STORE, stream, stream_size, cut, times);
    if (way == PLAIN)
        return plain_feed(receive, STORE, sending, STORE, stream, stream_size, cut, times);
    for (; times; times--)
        for (size_t k = 0, n = segments_of(w); k < n; k++)
            copied(receive + FETCHES * CAPACITY + k * w->size, stream + k * (HEADER + w->size) + HEADER, w->size);
    return 0;
}

static uint64_t sent(const struct work *w, int way, uint64_t times)
{
    size_t bytes = CAPACITY / w->size * w->size, n = segments_of(w);
    if (way == PROVED)
        return front_next(receive, STORE, sending, STORE, wire, sizeof wire, w->size, w->count, bytes, n, times);
    if (way == PLAIN)
        return plain_next(receive, STORE, sending, STORE, wire, sizeof wire, w->size, w->count, bytes, n, times);
    for (; times; times--)
        for (size_t k = 0; k < n; k++)
            copied(wire + HEADER, sending + (1 + k % w->count) * CAPACITY + k / w->count * w->size, w->size);
    return 0;
}

static uint64_t looked(int way, uint64_t times)
{
    const uint8_t *area = receive + FETCHES * CAPACITY;
    size_t ahead = message_size < CAPACITY - start ? message_size : CAPACITY - start;
    if (way == PROVED)
        return front_look(receive, STORE, sending, STORE, buf, sizeof buf, start, message_size, times);
    if (way == PLAIN)
        return plain_look(receive, STORE, sending, STORE, buf, sizeof buf, start, message_size, times);
    for (; times; times--) {
        if (way == LESS) {
            sink += cbor_end(area, CAPACITY, start);
            continue;
        }
        copied(buf, area + start, ahead);
        copied(buf + ahead, area, message_size - ahead);
    }
    return 0;
}

static uint64_t put(int way, uint64_t times)
{
    if (way == PROVED)
        return front_put(receive, STORE, sending, STORE, message, message_size, times);
    if (way == PLAIN)
        return plain_put(receive, STORE, sending, STORE, message, message_size, times);
    for (; times; times--) {
        if (way == LESS)
            sink += cbor_end(message, message_size, 0);
        else
            copied(sending + SERVES * CAPACITY, message, message_size);
    }
    return 0;
}

static uint64_t exchanged(const struct work *w, int way, uint64_t times)
{
    if (way == PROVED || way == LESS)
        return front_way(receive, STORE, sending, STORE, far_receive, STORE, far_send, STORE, wire, sizeof wire, buf, sizeof buf, ask, sizeof ask,
                         answer, sizeof answer, way == PROVED ? w->count : 0, times);
    if (way == PLAIN)
        return plain_way(receive, STORE, sending, STORE, far_receive, STORE, far_send, STORE, wire, sizeof wire, buf, sizeof buf, ask, sizeof ask,
                         answer, sizeof answer, w->count, times);
    for (; times; times--) {
        for (size_t k = 0; k < 4; k++)
            copied(buf, ask, sizeof ask);
        for (size_t k = 0; k < 4; k++)
            copied(buf, answer, sizeof answer);
    }
    return 0;
}

static uint64_t done(const struct work *w, int way, uint64_t times)
{
    switch (w->path) {
    case FEED:
        return fed(w, way, times);
    case NEXT:
        return sent(w, way, times);
    case LOOK:
        return looked(way, times);
    case PUT:
        return put(way, times);
    default:
        return exchanged(w, way, times);
    }
}

/* What a path writes: feed to the receive store, put to the send store, next segment and look to the buffers. */
static void cleared(const struct work *w)
{
    if (w->path == FEED)
        memset(receive, 0, sizeof receive);
    if (w->path == PUT)
        memset(sending, 0, sizeof sending);
    memset(buf, 0, sizeof buf);
    memset(wire, 0, sizeof wire);
}

static int agree(const struct work *w)
{
    uint64_t times = w->path == WAY ? 20001 : 1;
    cleared(w);
    uint64_t a = done(w, PROVED, times);
    memcpy(seen, w->path == PUT ? sending : receive, STORE);
    memcpy(seen_buf, w->path == NEXT ? wire : buf, sizeof wire);
    cleared(w);
    uint64_t b = done(w, PLAIN, times);
    size_t wanted = w->path == FEED ? segments_of(w) * w->size : w->path == NEXT ? 0 : w->path == WAY ? 20001 * sizeof answer : message_size;
    return a == b && a == wanted && !memcmp(seen, w->path == PUT ? sending : receive, STORE)
           && !memcmp(seen_buf, w->path == NEXT ? wire : buf, sizeof wire);
}

/* The least times of the ways, in turn. */
static void timed(const struct work *w, double *least)
{
    uint64_t times = 1;
    made(w);
    if (!agree(w)) {
        printf("%s: the fronts do not agree\n", w->what);
        exit(1);
    }
    for (double begun = now(); done(w, PROVED, times), now() - begun < 1000; begun = now())
        times *= 2;
    for (int r = 0; r < RUNS; r++)
        for (int way = 0; way < (w->path == FEED || w->path == NEXT ? LESS : WAYS); way++) {
            double begun = now();
            sink += done(w, way, times);
            double t = (now() - begun) / times;
            if (r == 0 || t < least[way])
                least[way] = t;
        }
}

static void row(const struct work *w)
{
    double t[WAYS] = { 0 };
    timed(w, t);
    double to_plain = t[PROVED] / t[PLAIN], of_copy = t[COPY] / t[PROVED], to_less = t[PROVED] / t[LESS];
    double and_copies = t[PROVED] / (t[LESS] + w->bound * t[COPY]);
    const char *less = w->path == WAY ? "the row above" : "measure";
    printf("| %s | %.2f | %.3f | | ", w->what, to_plain, of_copy);
    if (w->goal == TO_PLAIN)
        printf("at most %g × plain C | %s |\n", w->bound, to_plain <= w->bound ? "yes" : "no");
    if (w->goal == TO_COPY)
        printf("at least %g of memcpy | %s |\n", w->bound, of_copy >= w->bound ? "yes" : "no");
    if (w->goal == TO_LESS)
        printf("at most %g × %s: %.3f | %s |\n", w->bound, less, to_less, to_less <= w->bound ? "yes" : "no");
    if (w->goal == TO_LESS_AND_COPIES)
        printf("at most %s and %g copies: %.2f of that | %s |\n", less, w->bound, and_copies, and_copies <= 1 ? "yes" : "no");
    if (w->goal == NO_GOAL)
        printf("| |\n");
}

/* A ReplyTxIds of so many pairs of a 32-byte id and a size: message array, list and pairs all definite, or all indefinite. */
static size_t reply(uint8_t *b, size_t pairs, int open)
{
    const uint8_t definite[] = { 0x82, 1, 0x99, pairs >> 8, pairs }, indefinite[] = { 0x9f, 1, 0x9f };
    size_t at = open ? sizeof indefinite : sizeof definite;
    memcpy(b, open ? indefinite : definite, at);
    for (size_t k = 0; k < pairs; k++) {
        b[at++] = open ? 0x9f : 0x82;
        b[at++] = 0x58;
        b[at++] = 32;
        for (size_t j = 0; j < 32; j++)
            b[at++] = j * 7 + k;
        b[at++] = 0x19;
        b[at++] = 0x12;
        b[at++] = k;
        if (open)
            b[at++] = 0xff;
    }
    if (open) {
        b[at++] = 0xff;
        b[at++] = 0xff;
    }
    return at;
}

static void reply_row(void)
{
    enum { PAIRS = 1000, TIMES = 20 };
    const double bound = 1.4;
    size_t size[] = { reply(message, PAIRS, 0), reply(buf, PAIRS, 1) };
    const uint8_t *bytes[] = { message, buf };
    double least[2];
    for (int r = 0; r < RUNS; r++)
        for (int open = 0; open < 2; open++) {
            double begun = now();
            uint64_t n = front_reply(receive, STORE, sending, STORE, bytes[open], size[open], TIMES);
            double t = now() - begun;
            if (n != size[open]) {
                printf("a ReplyTxIds of %d pairs is not put\n", PAIRS);
                exit(1);
            }
            if (r == 0 || t < least[open])
                least[open] = t;
        }
    printf("| put, a ReplyTxIds of 1,000 pairs, all indefinite | | | | at most %g × the same all definite: %.2f | %s |\n", bound, least[1] / least[0],
           least[1] <= bound * least[0] ? "yes" : "no");
}

static void growth(int k)
{
    double small[WAYS], large[WAYS];
    size_t size;
    timed(&growths[k].small, small);
    size = message_size;
    timed(&growths[k].large, large);
    double times = growths[k].times ? growths[k].times : (double)message_size / size;
    printf("| %s | %.2f | %.2f | %.2f |\n", growths[k].what, large[PROVED] / small[PROVED] / times, large[PLAIN] / small[PLAIN] / times,
           large[COPY] / small[COPY] / times);
}

int main(int argc, char **argv)
{
    size_t n = sizeof works / sizeof *works;
    if (argc == 4 && strtoul(argv[1], 0, 10) < n) {
        const struct work *w = works + strtoul(argv[1], 0, 10);
        made(w);
        sink = done(w, argv[2][1] == 'r' ? PROVED : PLAIN, strtoul(argv[3], 0, 10));
        printf("%s\n", w->what);
        return 0;
    }
    if (argc == 2 && !strcmp(argv[1], "growth")) {
        for (size_t k = 0; k < sizeof growths / sizeof *growths; k++)
            growth(k);
        return 0;
    }
    for (size_t k = 0; k < n; k++)
        row(works + k);
    reply_row();
    return 0;
}

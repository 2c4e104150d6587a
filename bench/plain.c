/* A plain C front, for bench/front.c to set beside the proved one: the functions plain_* run the paths that the functions
   front_* of bench_front run, in the same order and as many times.

   It does what feed, look, drop, put and next segment do where nothing is refused for its range: headers and routes, the
   room asked once for a segment, rings, the walk over an item, forms, rows and agency, the turn, the numbers of the
   refusals. It reads the messages of all five protocols but those with pairs or with a version map.
   It does not test the range of the record nor the length of a store, keeps where each area begins, changes its record
   in place instead of handing a new one back, and copies by memcpy. A header that lies whole in the run is read there.
   What is held and wraps is joined in scratch, or for drop in a buffer of its own, and walked there. */
#include <stdint.h>
#include <string.h>
#include "item.h"

enum { INSTANCES = 9, CAPACITY = 131072, LIMIT = 65535, HEADER = 8 };
enum { HANDSHAKE, CHAIN_SYNC, BLOCK_FETCH, TX_SUBMISSION, KEEP_ALIVE };
enum { NOBODY = 2 };

struct front {
    unsigned side;
    size_t limit;
    size_t receive[INSTANCES], send[INSTANCES], in[INSTANCES], out[INSTANCES];
    size_t starts[INSTANCES], held[INSTANCES];
    uint8_t header[HEADER];
    size_t count, instance, rest;
    size_t firsts[INSTANCES], waiting[INSTANCES], turn;
    uint8_t states[INSTANCES];
    int accepted, closed;
};

struct message {
    unsigned kind;
    uint64_t numbers[3];
    size_t places[4], count, parts, len;
    int next;
};

static const uint8_t protocols[INSTANCES] = { HANDSHAKE, CHAIN_SYNC, CHAIN_SYNC, BLOCK_FETCH, BLOCK_FETCH,
                                              TX_SUBMISSION, TX_SUBMISSION, KEEP_ALIVE, KEEP_ALIVE };
static const uint8_t numbers[INSTANCES] = { 0, 2, 2, 3, 3, 4, 4, 8, 8 };
static const int8_t routes[9][2] = { { 0, 0 }, { -1, -1 }, { 2, 1 }, { 4, 3 }, { 6, 5 }, { -1, -1 }, { -1, -1 }, { -1, -1 }, { 8, 7 } };
static const uint8_t done[5] = { 2, 4, 3, 5, 2 };

/* Who may send, by protocol and state: 0 the initiator, 1 the responder. */
static const uint8_t agents[5][6] = { { 0, 1, 2 }, { 0, 1, 1, 1, 2 }, { 0, 1, 1, 2 }, { 0, 1, 0, 0, 0, 2 }, { 0, 1, 2 } };

/* The fields behind the number, by protocol and kind: i an item, l a list, w a word, b a bool, v a version. */
static const char *const forms[5][8] = { { 0, "vi", "i" }, { "", "", "ii", "ii", "l", "ii", "i", "" }, { "ii", "", "", "", "i", "" },
                                         { "bww", 0, "l", "l", "", 0, "" }, { "w", "w", "" } };

/* Where a message leads, by protocol, state and kind, and 1 more; 0 is nowhere. Kind 8 is RequestTxIds with true. */
static const uint8_t rows[5][6][9] = {
    { { [0] = 2 }, { [1] = 3, [2] = 3 } },
    { { [0] = 2, [4] = 4, [7] = 5 }, { [1] = 3, [2] = 1, [3] = 1 }, { [2] = 1, [3] = 1 }, { [5] = 1, [6] = 1 } },
    { { [0] = 2, [1] = 4 }, { [2] = 3, [3] = 1 }, { [4] = 3, [5] = 1 } },
    { { [6] = 2 }, { [8] = 3, [0] = 4, [2] = 5 }, { [1] = 2, [4] = 6 }, { [1] = 2 }, { [3] = 2 } },
    { { [0] = 2, [2] = 3 }, { [1] = 1 } },
};

static unsigned mode_of(unsigned side, size_t i) { return i == 0 ? side : i % 2 == 0; }

static void ring_write(uint8_t *area, size_t cap, size_t at, const uint8_t *from, size_t n)
{
    if (at >= cap)
        at -= cap;
    size_t ahead = cap - at;
    if (n <= ahead) {
        memcpy(area + at, from, n);
    } else {
        memcpy(area + at, from, ahead);
        memcpy(area, from + ahead, n - ahead);
    }
}

static void ring_read(uint8_t *to, const uint8_t *area, size_t cap, size_t at, size_t n)
{
    size_t ahead = cap - at;
    if (n <= ahead) {
        memcpy(to, area + at, n);
    } else {
        memcpy(to, area + at, ahead);
        memcpy(to + ahead, area, n - ahead);
    }
}

static int admit(struct front *f, const uint8_t *h)
{
    unsigned mode = h[4] >> 7, protocol = (h[4] & 127) << 8 | h[5];
    size_t n = h[6] << 8 | h[7];
    f->count = 0;
    if (protocol > 8 || routes[protocol][mode] < 0)
        return 11;
    size_t i = routes[protocol][mode];
    if (mode == mode_of(f->side, i))
        return 12;
    if (f->held[i] + n > f->receive[i])
        return 13;
    f->instance = i;
    f->rest = n;
    return 0;
}

__attribute__((noinline)) static int feed(struct front *f, uint8_t *store, const uint8_t *in, size_t n, size_t *used)
{
    size_t at = 0, k;
    *used = 0;
    if (f->closed)
        return 20;
    while (at < n) {
        if (f->rest) {
            size_t i = f->instance;
            k = f->rest < n - at ? f->rest : n - at;
            ring_write(store + f->in[i], f->receive[i], f->starts[i] + f->held[i], in + at, k);
            f->held[i] += k;
            f->rest -= k;
            at += k;
            continue;
        }
        const uint8_t *h = in + at;
        k = HEADER - f->count < n - at ? HEADER - f->count : n - at;
        if (k < HEADER) {
            memcpy(f->header + f->count, in + at, k);
            h = f->header;
        }
        f->count += k;
        at += k;
        if (f->count == HEADER && (f->closed = admit(f, h)))
            break;
    }
    *used = at;
    return f->closed;
}

__attribute__((noinline)) static int next_segment(struct front *f, const uint8_t *store, uint32_t time, uint8_t *buf, size_t room, size_t *len)
{
    size_t i = 0, left = INSTANCES - 1;
    *len = 0;
    if (f->closed)
        return 20;
    if (!f->waiting[0]) {
        for (i = f->turn; !f->waiting[i]; i = i == INSTANCES - 1 ? 1 : i + 1)
            if (--left == 0)
                return 4;
    }
    size_t n = f->waiting[i] < f->limit ? f->waiting[i] : f->limit;
    if (room < HEADER + n)
        return 18;
    unsigned word = mode_of(f->side, i) << 15 | numbers[i];
    buf[0] = time >> 24;
    buf[1] = time >> 16;
    buf[2] = time >> 8;
    buf[3] = time;
    buf[4] = word >> 8;
    buf[5] = word;
    buf[6] = n >> 8;
    buf[7] = n;
    ring_read(buf + HEADER, store + f->out[i], f->send[i], f->firsts[i], n);
    f->firsts[i] += n;
    if (f->firsts[i] >= f->send[i])
        f->firsts[i] -= f->send[i];
    f->waiting[i] -= n;
    if (i)
        f->turn = i == INSTANCES - 1 ? 1 : i + 1;
    *len = HEADER + n;
    return 0;
}

/* The head at a place of what is known to be one item. */
static uint64_t argument(const uint8_t *b, size_t *at)
{
    unsigned a = b[(*at)++] & 31;
    if (a < 24)
        return a;
    uint64_t v = 0;
    for (size_t w = (size_t)1 << (a - 24); w; w--)
        v = v << 8 | b[(*at)++];
    return v;
}

static int is(const uint8_t *b, size_t at, unsigned major) { return b[at] >> 5 == major && (b[at] & 31) < 28; }

static void placed(struct message *m, size_t start, size_t end)
{
    m->places[2 * m->parts] = start;
    m->places[2 * m->parts++ + 1] = end - start;
}

static int numbered(struct message *m, const uint8_t *b, size_t *at, uint64_t limit)
{
    if (!is(b, *at, 0) || (m->numbers[m->count++] = argument(b, at)) >= limit)
        return 15;
    return 0;
}

static int field(struct message *m, char f, const uint8_t *b, size_t n, size_t *at, int last)
{
    size_t from = *at;
    if (f == 'w')
        return numbered(m, b, at, 65536);
    if (f == 'v')
        return numbered(m, b, at, (uint64_t)1 << 32);
    if (f == 'b') {
        m->numbers[m->count++] = b[from] == 0xf5;
        *at += 1;
        return b[from] == 0xf4 || b[from] == 0xf5 ? 0 : 15;
    }
    if (f == 'l') {
        if (!is(b, from, 4))
            return 15;
        argument(b, &from);
    }
    *at = last ? n : *at + plain(b + *at, n - *at).end;
    placed(m, from, *at);
    return 0;
}

/* One item of n bytes, in a state of its protocol. */
static int judge(struct message *m, unsigned protocol, unsigned state, const uint8_t *b, size_t n)
{
    size_t at = 0;
    memset(m, 0, sizeof *m);
    m->len = n;
    if (!is(b, 0, 4))
        return 15;
    uint64_t count = argument(b, &at);
    if (count == 0 || !is(b, at, 0))
        return 15;
    uint64_t kind = argument(b, &at);
    if (kind > 7 || !forms[protocol][kind])
        return 15;
    m->kind = kind;
    const char *form = forms[protocol][kind];
    if (count != strlen(form) + 1)
        return 15;
    for (; *form; form++)
        if (field(m, *form, b, n, &at, !form[1]))
            return 15;
    m->next = rows[protocol][state][protocol == TX_SUBMISSION && kind == 0 && m->numbers[0] ? 8 : kind] - 1;
    return m->next < 0 ? 16 : 0;
}

static int ours(const struct front *f, size_t i)
{
    return agents[protocols[i]][f->states[i]] == mode_of(f->side, i);
}

static void moved(struct front *f, size_t i, const struct message *m)
{
    f->states[i] = m->next;
    if (i == 0 && m->kind == 1)
        f->accepted = 1;
}

static int fault(struct front *f, int number)
{
    if (!f->closed)
        f->closed = number;
    return number;
}

/* What is heard of an instance, and where its bytes are: in the store, or joined in a buffer. */
static inline int heard(struct front *f, const uint8_t *store, size_t i, uint8_t *buf, size_t room, struct message *m, const uint8_t **part)
{
    if (i >= INSTANCES)
        return 10;
    if (i && !f->accepted)
        return 19;
    unsigned p = protocols[i];
    if (f->states[i] == done[p])
        return f->held[i] ? fault(f, 17) : 3;
    if (ours(f, i))
        return 2;
    const uint8_t *area = store + f->in[i], *b = area + f->starts[i];
    if (f->starts[i] + f->held[i] > f->receive[i]) {
        if (room < f->held[i])
            return 18;
        ring_read(buf, area, f->receive[i], f->starts[i], f->held[i]);
        b = buf;
    }
    long n = plain(b, f->held[i]).end;
    if (n == INCOMPLETE)
        return f->closed ? 20 : 1;
    if (n == BAD)
        return fault(f, 14);
    int number = judge(m, p, f->states[i], b, n);
    *part = b;
    return number ? fault(f, number) : 0;
}

__attribute__((noinline)) static int look(struct front *f, const uint8_t *store, size_t i, uint8_t *scratch, size_t room, struct message *m,
                                          const uint8_t **part)
{
    return heard(f, store, i, scratch, room, m, part);
}

__attribute__((noinline)) static int drop(struct front *f, const uint8_t *store, size_t i, struct message *m)
{
    static uint8_t joined[CAPACITY];
    const uint8_t *part;
    int number = heard(f, store, i, joined, sizeof joined, m, &part);
    if (number)
        return number;
    f->starts[i] += m->len;
    if (f->starts[i] >= f->receive[i])
        f->starts[i] -= f->receive[i];
    f->held[i] -= m->len;
    moved(f, i, m);
    return 0;
}

__attribute__((noinline)) static int put(struct front *f, uint8_t *store, size_t i, const uint8_t *b, size_t n)
{
    struct message m;
    if (i >= INSTANCES)
        return 10;
    if (f->closed)
        return 20;
    if (i && !f->accepted)
        return 19;
    if (!ours(f, i))
        return 21;
    long end = plain(b, n).end;
    if (end < 0 || (size_t)end != n)
        return 15;
    int number = judge(&m, protocols[i], f->states[i], b, n);
    if (number)
        return number;
    if (i == 0 && n > f->limit)
        return 24;
    if (f->waiting[i] + n > f->send[i])
        return 22;
    ring_write(store + f->out[i], f->send[i], f->firsts[i] + f->waiting[i], b, n);
    f->waiting[i] += n;
    moved(f, i, &m);
    return 0;
}

/* Opened, Handshake ended in Accept, Block-Fetch streaming. */
static struct front talking(unsigned side, size_t limit)
{
    struct front f = { .side = side, .limit = limit, .turn = 1, .accepted = 1, .states = { [0] = 2, [3] = 2, [4] = 2 } };
    for (size_t i = 0; i < INSTANCES; i++) {
        f.receive[i] = f.send[i] = CAPACITY;
        f.in[i] = f.out[i] = i * CAPACITY;
    }
    return f;
}

uint64_t plain_feed(uint8_t *receive, size_t a, const uint8_t *send, size_t b, const uint8_t *in, size_t n, size_t cut, uint64_t times)
{
    struct front fresh = talking(0, LIMIT), f = fresh;
    size_t used;
    for (; times; times--) {
        f = fresh;
        for (size_t at = 0; at < n; at += cut)
            feed(&f, receive, in + at, cut < n - at ? cut : n - at, &used);
    }
    return f.held[3];
}

uint64_t plain_next(const uint8_t *receive, size_t a, const uint8_t *send, size_t b, uint8_t *buf, size_t room, uint64_t limit, uint64_t busy,
                    uint64_t bytes, uint64_t segments, uint64_t times)
{
    struct front full = talking(0, limit), f = full;
    size_t len;
    for (size_t i = 1; i <= busy; i++)
        full.waiting[i] = bytes;
    for (; times; times--) {
        f = full;
        for (uint64_t k = 0; k < segments; k++)
            next_segment(&f, send, 1, buf, room, &len);
    }
    return f.waiting[1];
}

uint64_t plain_look(const uint8_t *receive, size_t a, const uint8_t *send, size_t b, uint8_t *scratch, size_t room, uint64_t start, uint64_t n,
                    uint64_t times)
{
    struct front f = talking(0, LIMIT);
    struct message m;
    const uint8_t *part;
    f.starts[3] = start;
    f.held[3] = n;
    for (; times; times--)
        look(&f, receive, 3, scratch, room, &m, &part);
    return m.len;
}

uint64_t plain_put(const uint8_t *receive, size_t a, uint8_t *send, size_t b, const uint8_t *message, size_t n, uint64_t times)
{
    struct front fresh = talking(0, LIMIT), f = fresh;
    for (; times; times--) {
        f = fresh;
        put(&f, send, 4, message, n);
    }
    return f.waiting[4];
}

uint64_t plain_way(uint8_t *receive, size_t a, uint8_t *send, size_t b, uint8_t *far_receive, size_t c, uint8_t *far_send, size_t d, uint8_t *wire,
                   size_t e, uint8_t *scratch, size_t g, const uint8_t *ask, size_t m, const uint8_t *answer, size_t n, uint64_t looks,
                   uint64_t times)
{
    struct front near = talking(0, LIMIT), far = talking(1, LIMIT);
    struct message got;
    const uint8_t *part;
    size_t len, used;
    for (; times; times--) {
        put(&near, send, 7, ask, m);
        next_segment(&near, send, 1, wire, e, &len);
        feed(&far, far_receive, wire, len, &used);
        if (looks)
            look(&far, far_receive, 8, scratch, g, &got, &part);
        drop(&far, far_receive, 8, &got);
        put(&far, far_send, 8, answer, n);
        next_segment(&far, far_send, 1, wire, e, &len);
        feed(&near, receive, wire, len, &used);
        if (looks)
            look(&near, receive, 7, scratch, g, &got, &part);
        drop(&near, receive, 7, &got);
    }
    return near.starts[7];
}

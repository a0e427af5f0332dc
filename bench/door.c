/* A tile's rounds through the exported calls, each judging the words that it is given: door rounds PACKETS CELLS COUNT SLOT, door gap CELLS SLOT,
   door unconfirm PACKETS SLOT. The same rounds as original.rs makes. door runs PACKETS CELLS COUNT SLOT SIZE: the calls of each end in lists of SIZE. */
#include <stdbool.h>
#include <stddef.h>
#include <stdint.h>
#include <stdio.h>
#include <stdlib.h>
#include <string.h>

#define WORDS 1248
#define CELLS 64

uint64_t fk_fresh(uint64_t *w, size_t n, uint32_t start, uint32_t buffer, uint32_t cells, uint64_t *r, size_t k);
uint64_t fk_add(uint64_t *w, size_t n, uint64_t id, uint64_t trip, bool limited, uint64_t max, bool blocked, bool unconfirmed, uint64_t *v);
uint64_t fk_send(uint64_t *w, size_t n, uint8_t *s, size_t l, uint8_t slot, uint64_t time, uint8_t kind, uint32_t count, const uint8_t *p, size_t b, uint64_t *v);
uint64_t fk_receive(uint64_t *w, size_t n, uint8_t *s, size_t l, uint64_t *r, size_t k, uint8_t slot, uint8_t kind, uint32_t number, uint32_t count, const uint8_t *p, size_t b);
uint64_t fk_showing(const uint64_t *w, size_t n, const uint8_t *s, size_t l, const uint64_t *r, size_t k, uint64_t *v);
uint64_t fk_take(uint64_t *w, size_t n, uint64_t *r, size_t k, uint64_t *v);
uint64_t fk_take_ack(uint64_t *w, size_t n, uint8_t slot, uint64_t *v);
uint64_t fk_ack(uint64_t *w, size_t n, uint8_t slot, uint64_t time, uint32_t number);
uint64_t fk_unconfirm(uint64_t *w, size_t n, uint8_t slot);
uint64_t fk_run(uint64_t *w, size_t n, uint8_t *s, size_t l, uint8_t *t, size_t m, uint64_t *r, size_t k, const uint64_t *c, size_t d, const uint8_t *p, size_t b, uint64_t *a, size_t e);
bool fk_is_sound(const uint64_t *w, size_t n);

struct end {
    uint64_t words[WORDS];
    uint64_t records[CELLS];
    uint8_t sent[65536];
    uint8_t received[CELLS * 1024];
};

static uint64_t values[3];

static void must(uint64_t number) {
    if (number) {
        printf("refused with %lu\n", number);
        exit(1);
    }
}

static struct end *new_end(void) {
    struct end *e = calloc(1, sizeof *e);
    must(fk_fresh(e->words, WORDS, 0, 65536, CELLS, e->records, CELLS));
    must(fk_add(e->words, WORDS, 7, 1000, false, 0, false, false, values));
    must(fk_add(e->words, WORDS, 8, 1000, false, 0, false, false, values));
    return e;
}

static uint8_t data[1024];

static uint32_t sent(struct end *e, uint8_t slot, uint8_t kind, uint64_t time) {
    must(fk_send(e->words, WORDS, e->sent, sizeof e->sent, slot, time, kind, 0, data, sizeof data, values));
    return values[0];
}

static void received(struct end *e, uint8_t slot, uint8_t kind, uint32_t n) {
    must(fk_receive(e->words, WORDS, e->received, sizeof e->received, e->records, CELLS, slot, kind, n, 0, data, sizeof data));
}

/* calls that wait for a run */
struct list {
    struct end *end;
    size_t size, count;
    uint64_t calls[64][8];
    uint64_t answers[64][4];
};

static void done(struct list *l) {
    struct end *e = l->end;
    must(fk_run(e->words, WORDS, e->sent, sizeof e->sent, e->received, sizeof e->received, e->records, CELLS, l->calls[0], 8 * l->count, data, sizeof data,
                l->answers[0], 4 * l->count));
    for (size_t i = 0; i < l->count; i++) must(l->answers[i][0]);
    l->count = 0;
}

static void asked(struct list *l, uint64_t a, uint64_t b, uint64_t c, uint64_t d, uint64_t e, uint64_t f, uint64_t g) {
    uint64_t *call = l->calls[l->count++];
    call[0] = a, call[1] = b, call[2] = c, call[3] = d, call[4] = e, call[5] = f, call[6] = g;
    if (l->count == l->size) done(l);
}

static void in_runs(struct end *a, struct end *b, uint32_t packets, uint32_t cells, uint32_t rounds, uint8_t slot, uint8_t kind, uint32_t size) {
    struct list one = {.end = a, .size = size}, two = {.end = b, .size = size};
    uint32_t n = 0, acked = 0;
    for (; n < packets - 1; n++) sent(a, slot, kind, 0);
    for (uint32_t i = 0; i < cells - 1; i++) {
        received(b, slot, kind, i);
        must(fk_take_ack(b->words, WORDS, slot, values));
    }
    for (uint32_t i = 0; i < rounds; i++) {
        asked(&one, 10, slot, 1000000ull * i, kind, 0, 0, sizeof data);
        asked(&two, 13, slot, kind, cells - 1 + i, 0, 0, sizeof data);
        asked(&two, 14, 0, 0, 0, 0, 0, 0);
        asked(&two, 15, 0, 0, 0, 0, 0, 0);
        asked(&two, 16, slot, 0, 0, 0, 0, 0);
        asked(&one, 12, slot, 1000000ull * i, acked++, 0, 0, 0);
    }
    if (one.count) done(&one);
    if (two.count) done(&two);
}

/* the message that closes a gap, apart from those before it */
__attribute__((noinline)) void last_received(struct end *e, uint8_t slot, uint8_t kind) {
    received(e, slot, kind, 0);
}

int main(int count, char **given) {
    uint32_t number[5] = {0};
    for (int i = 2; i < count && i < 7; i++) number[i - 2] = atoi(given[i]);
    memset(data, 7, sizeof data);
    uint8_t kind = 7;
    struct end *a = new_end(), *b = new_end();
    if (!strcmp(given[1], "rounds")) {
        uint32_t packets = number[0], cells = number[1], rounds = number[2], taken = 0, acked = 0;
        uint8_t slot = number[3];
        for (uint32_t n = 0; n < rounds + packets - 1; n++) {
            uint64_t time = 1000000ull * n;
            received(b, slot, kind, sent(a, slot, kind, time));
            if (n >= packets - 1 || n - taken >= cells - 1) {
                must(fk_showing(b->words, WORDS, b->received, sizeof b->received, b->records, CELLS, values));
                must(fk_take(b->words, WORDS, b->records, CELLS, values));
                taken++;
            }
            must(fk_take_ack(b->words, WORDS, slot, values));
            if (n >= packets - 1) must(fk_ack(a->words, WORDS, slot, time, acked++));
        }
        printf("%d\n", fk_is_sound(a->words, WORDS));
    } else if (!strcmp(given[1], "runs")) {
        in_runs(a, b, number[0], number[1], number[2], number[3], kind, number[4]);
    } else if (!strcmp(given[1], "gap")) {
        uint8_t slot = number[1];
        for (uint32_t n = 1; n <= number[0]; n++) {
            received(b, slot, kind, n);
            must(fk_take_ack(b->words, WORDS, slot, values));
        }
        last_received(b, slot, kind);
    } else {
        uint8_t slot = number[1];
        for (uint32_t n = 0; n < number[0]; n++) sent(a, slot, kind, n);
        must(fk_unconfirm(a->words, WORDS, slot));
    }
    return 0;
}

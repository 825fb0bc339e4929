/* Table start and step in plain C, with the whole of check 19: what the proved calls are measured against.
   The same job in the same way: a field is read through a window of eight bytes, and nothing of a table is copied. */

#include "plain.h"

struct counts {
    usize modules, events, states;
};

/* Where the bytes end within the window. Kept apart: with it in the loop over the entries the plain C takes a tenth longer. */
static __attribute__((noinline)) usize last_window(const u8 *t, usize n, usize at) {
    usize w = 0;
    for (usize k = 0; k < 8; k++)
        w = w << 8 | (at + k < n ? t[at + k] : 0);
    return w;
}

static usize window(const u8 *t, usize n, usize at) {
    usize w;
    if (at + 8 > n)
        return last_window(t, n, at);
    __builtin_memcpy(&w, t + at, 8);
    return __builtin_bswap64(w);
}

/* The field of 0 to 32 bits from a bit on. */
static usize field(const u8 *t, usize n, usize bit, usize width) {
    usize behind = 63 - (bit & 7) - width;
    return window(t, n, bit >> 3) >> behind >> 1 & ((1UL << width) - 1);
}

static usize entry_place(struct counts c, usize state, usize letter) {
    usize letters = c.modules + c.events;
    return 24 + 6 * letters + (state * letters + letter) * (10 + 2 * c.modules);
}

/* Layout, counts and length. */
static int header(const u8 *t, usize n, struct counts *c) {
    if (n < 3 || field(t, n, 0, 4) != 1)
        return 0;
    c->modules = field(t, n, 4, 4);
    c->events = field(t, n, 8, 4);
    c->states = field(t, n, 12, 12) + 1;
    if (c->modules > 8 || c->events > 8 || c->states > 512)
        return 0;
    return n == (entry_place(*c, c->states, 0) + 7) / 8;
}

static int ascending(const u8 *t, usize n, usize from, usize count) {
    usize least = 0;
    for (usize k = 0; k < count; k++) {
        usize name = field(t, n, 24 + 5 * (from + k), 5);
        if (name > 25 || name < least)
            return 0;
        least = name + 1;
    }
    return 1;
}

static int starts_right(const u8 *t, usize n, struct counts c) {
    usize start = 24 + 5 * (c.modules + c.events) + c.events;
    for (usize k = 0; k < c.modules; k++)
        if (field(t, n, start + k, 1) != field(t, n, entry_place(c, 0, k), 1))
            return 0;
    return 1;
}

/* Entries one after the other. An entry that is not possible counts as no state; one of zeros as state 0, where `round` is 2^26 - 1. */
static int run_right(const u8 *t, usize n, usize bit, usize count, usize down, usize states, usize round) {
    for (usize k = 0; k < count; k++) {
        usize entry = field(t, n, bit, 10 + down);
        if (((entry >> down) + 512) % 1024 * ((entry + round) >> 26) >= states)
            return 0;
        bit += 10 + down;
    }
    return 1;
}

static int rows_right(const u8 *t, usize n, struct counts c) {
    usize down = 2 * c.modules, bit = entry_place(c, 0, 0);
    for (usize s = 0; s < c.states; s++) {
        if (!run_right(t, n, bit, c.modules, down, c.states, 67108863))
            return 0;
        bit += c.modules * (10 + down);
        if (!run_right(t, n, bit, c.events, down, c.states, 67108864))
            return 0;
        bit += c.events * (10 + down);
    }
    return 1;
}

static int checked(const u8 *t, usize n, struct counts *c) {
    if (!header(t, n, c))
        return 0;
    usize end = entry_place(*c, c->states, 0);
    return ascending(t, n, 0, c->modules) && ascending(t, n, c->modules, c->events) && starts_right(t, n, *c) &&
           rows_right(t, n, *c) && field(t, n, end, 8 * n - end) == 0;
}

static struct plain_table refusal(usize number) {
    return (struct plain_table){.number = number};
}

static struct plain_table goes(const u8 *t, usize n, usize state, usize bit, usize width, usize modules) {
    struct plain_table a = {.state = state};
    for (usize k = 0; k < modules; k++)
        a.orders[k] = field(t, n, bit + width * k, width);
    return a;
}

struct plain_table plain_table_start(const u8 *t, usize n) {
    struct counts c;
    if (!checked(t, n, &c))
        return refusal(19);
    return goes(t, n, 0, 24 + 5 * (c.modules + c.events) + c.events, 1, c.modules);
}

struct plain_table plain_table_step(const u8 *t, usize n, usize state, u8 letter) {
    struct counts c;
    if (!checked(t, n, &c))
        return refusal(19);
    if (state >= c.states)
        return refusal(20);
    usize l = 0, letters = c.modules + c.events;
    while (l < letters && (l < c.modules ? 97 : 65) + field(t, n, 24 + 5 * l, 5) != letter)
        l++;
    if (l == letters)
        return refusal(21);
    usize bit = entry_place(c, state, l);
    if (field(t, n, bit, 1) != 1)
        return refusal(22);
    return goes(t, n, field(t, n, bit + 1, 9), bit + 10, 2, c.modules);
}

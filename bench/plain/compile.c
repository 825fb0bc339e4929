/* Compile for either edition: the states in order of discovery, then the table. No. 1 to 18. */
#include "plain.h"

enum { MOST_ENTRIES = MOST_STATES * 2 * MOST_NAMES, SLOTS = 1024 };

/* What discovery finds: how many states, and for each state and letter the number of an entry: a bit, the next state, the orders. The states
   themselves are in the working slice, 128 bytes each. */
struct found {
    usize states;
    int over, large;
    u8 running; /* at the start */
    u16 slot[SLOTS]; /* numbers of states plus one, by hash */
    u32 entry[MOST_ENTRIES];
};

static usize hash(const u8 *b) {
    u64 x[LIVE_BYTES / 8], h = 0, g = 0;
    __builtin_memcpy(x, b, LIVE_BYTES);
    for (usize k = 0; k < LIVE_BYTES / 8; k += 2) {
        h = (h ^ x[k]) * 0x9e3779b97f4a7c15ul;
        h ^= h >> 29;
        g = (g ^ x[k + 1]) * 0xbf58476d1ce4e5b9ul;
        g ^= g >> 32;
    }
    return (h ^ g) * 0x94d049bb133111ebul >> 54;
}

/* The number of a state: the next one where it is new, MOST_STATES where there is no place for it. */
static usize enroll(struct found *f, u8 *work, const struct state *s) {
    u8 b[LIVE_BYTES];
    plain_pack(s, b);
    usize h = hash(b);
    for (; f->slot[h]; h = (h + 1) % SLOTS) {
        usize k = f->slot[h] - 1u;
        if (__builtin_memcmp(work + LIVE_BYTES * k, b, LIVE_BYTES) == 0)
            return k;
    }
    if (f->states == MOST_STATES)
        return MOST_STATES;
    __builtin_memcpy(work + LIVE_BYTES * f->states, b, LIVE_BYTES);
    f->slot[h] = (u16)++f->states;
    return f->states - 1;
}

/* The number of a possible entry. */
static u32 entry_of(usize next, struct orders o, usize modules) {
    u32 entry = 512u + (u32)next;
    if (!(o.low | o.high))
        return entry << 2 * modules;
    for (usize k = 0; k < modules; k++)
        entry = entry << 2 | (o.high >> k & 1u) << 1 | (o.low >> k & 1u);
    return entry;
}

static void discover(const struct program *p, u8 *work, struct found *f) {
    struct letter letter[2 * MOST_NAMES];
    struct state s, t;
    struct orders o;
    usize letters = p->modules + p->events, at = 0;
    for (usize k = 0; k < letters; k++)
        plain_letter(p, k < p->modules ? 'a' + p->module[k] : 'A' + p->event[k - p->modules], &letter[k]);
    __builtin_memset(f->slot, 0, sizeof f->slot);
    f->states = 0;
    f->over = f->large = 0;
    plain_begin(p, &s);
    f->running = s.running;
    enroll(f, work, &s);
    for (usize turn = 0; turn < f->states; turn++) {
        plain_unpack(p, work + LIVE_BYTES * turn, &s);
        f->large |= plain_parts(p, &s) > MOST_PARTS;
        for (usize k = 0; k < letters; k++) {
            u32 entry = 0;
            if (!(letter[k].module & ~s.running)) {
                usize next = plain_react(p, &s, letter[k], &t, &o) ? enroll(f, work, &t) : turn;
                if (next == MOST_STATES) {
                    f->over = 1;
                    return;
                }
                entry = entry_of(next, o, p->modules);
            }
            f->entry[at++] = entry;
        }
    }
}

/* Fields, most significant bit first. */
struct writer {
    u8 *out;
    u64 bits; /* those not written yet are the lowest */
    usize waiting;
};

static void put(struct writer *w, usize width, u64 value) {
    w->bits = w->bits << width | value;
    w->waiting += width;
    if (w->waiting >= 32) {
        w->waiting -= 32;
        u32 four = __builtin_bswap32((u32)(w->bits >> w->waiting));
        __builtin_memcpy(w->out, &four, 4);
        w->out += 4;
    }
}

/* The table at the front of the output; answers its size. */
static usize emit(const struct program *p, const struct found *f, u8 *output) {
    struct writer w = {output, 0, 0};
    usize entries = f->states * (p->modules + p->events), width = 10 + 2 * p->modules;
    put(&w, 12, 1u << 8 | p->modules << 4 | p->events);
    put(&w, 12, f->states - 1);
    for (usize k = 0; k < p->modules; k++)
        put(&w, 5, p->module[k]);
    for (usize k = 0; k < p->events; k++)
        put(&w, 5, p->event[k]);
    for (usize k = 0; k < p->events; k++)
        put(&w, 1, p->fugitive_letters >> p->event[k] & 1);
    for (usize k = 0; k < p->modules; k++)
        put(&w, 1, f->running >> k & 1);
    for (usize k = 0; k < entries; k++)
        put(&w, width, f->entry[k]);
    put(&w, (8 - w.waiting % 8) % 8, 0);
    while (w.waiting) {
        w.waiting -= 8;
        *w.out++ = (u8)(w.bits >> w.waiting);
    }
    return (usize)(w.out - output);
}

static struct plain_compiled refuse(usize number, usize place) {
    return (struct plain_compiled){number, place, 0, 0};
}

struct plain_compiled plain_compile(const u8 *file, usize n, int basic, u8 *output, usize output_len, u8 *work, usize work_len) {
    struct program p;
    struct found f;
    if (output_len < OUTPUT_BYTES || work_len < WORK_BYTES)
        return refuse(1, 0);
    struct refusal r = plain_read(file, n, basic, &p);
    if (r.number == 0)
        discover(&p, work, &f);
    __builtin_memset(work, 0, work_len);
    if (r.number)
        return refuse(r.number, r.place);
    if (f.over)
        return refuse(17, 0);
    if (f.large)
        return refuse(18, 0);
    return (struct plain_compiled){0, 0, f.states, emit(&p, &f, output)};
}

/* A state, one reaction on it, its 128 bytes; live start and live step. */
#include "plain.h"

/* The units of a word, by their first number (docs/CODING.md). Below STARRED: what is before is followed by that node. */
enum { STARRED = 192, SLASH = 384, WAITING = 576, UNIT_ONE = 768, SIDES = 769, LETTER = 770, NO_UNIT = 1023 };
/* Where the 128 bytes have the units' high bits, their count, the stopped set and the memory. */
enum { HIGH = 96, COUNT = 120, STOPPED = 121, MEMORY = 122 };

static usize put(u16 *dst, usize at, usize unit) {
    dst[at - 1] = (u16)unit;
    return at - 1;
}

/* Puts `/` with the interruption i to the term that starts there: `1/i` is one unit. */
static usize put_slash(u16 *dst, usize at, usize i) {
    if (dst[at] != UNIT_ONE)
        return put(dst, at, SLASH + i);
    dst[at] = (u16)(WAITING + i);
    return at;
}

/* Writes the word of a term's node in front of e, and answers where it starts. */
static usize expand(const struct program *p, usize j, u16 *dst, usize e) {
    struct node n = p->node[j];
    switch (n.kind) {
    case SEQ:
        return put(dst, expand(p, n.left, dst, e), n.right);
    case PAR:
        return put(dst, expand(p, n.left, dst, expand(p, n.right, dst, e)), SIDES);
    case STAR:
        return put(dst, expand(p, n.left, dst, e), STARRED + j);
    case ACT:
        return put_slash(dst, expand(p, n.left, dst, e), n.right);
    case MODULE:
        return put(dst, e, LETTER + n.letter);
    default:
        return put(dst, e, UNIT_ONE);
    }
}

static usize hit(const struct program *p, usize i, u8 event, u16 *dst, usize e);

/* `1/i`: hit where the event heads i, else it waits. */
static usize side(const struct program *p, usize i, u8 event, u16 *dst, usize e) {
    return p->heads[i] & event ? hit(p, i, event, dst, e) : put(dst, e, WAITING + i);
}

/* What an event leaves of an interruption that it heads, in front of e. */
static usize hit(const struct program *p, usize i, u8 event, u16 *dst, usize e) {
    struct node n = p->node[i];
    if (n.kind == TREAT)
        return expand(p, n.right, dst, e);
    if (n.kind == EITHER)
        return hit(p, p->heads[n.left] & event ? n.left : n.right, event, dst, e);
    if (n.kind == EVENT)
        return e;
    usize b = side(p, n.right, event, dst, e), a = side(p, n.left, event, dst, b);
    return a == b || b == e ? a : put(dst, a, SIDES);
}

/* Rewrites the word that starts at s by a completion (of the module with that unit) or by an event, into dst, and answers where it starts there.
   From its end on: a stack holds the terms that wait to be parts of another, each written in dst, the last one from a on. */
static usize rewrite(const struct program *p, const u16 *src, usize s, u16 *dst, usize gone, u8 event) {
    u8 end[MOST_UNITS + 1], behind[MOST_UNITS + 1]; /* of a term: where it ends in dst and in src */
    usize depth = 0, a = MOST_UNITS;
    end[0] = MOST_UNITS;
    for (usize i = MOST_UNITS; i-- > s;) {
        usize unit = src[i], e = end[depth];
        if (unit == SIDES) {
            usize last = end[--depth];
            if (a != e && e != last)
                a = put(dst, a, SIDES);
        } else if (unit >= WAITING) {
            end[++depth] = (u8)a;
            behind[depth] = (u8)(i + 1);
            if (unit < UNIT_ONE)
                a = side(p, unit - WAITING, event, dst, a);
            else if (unit != gone)
                a = put(dst, a, unit);
        } else if (unit >= SLASH) {
            if (p->heads[unit - SLASH] & event)
                a = hit(p, unit - SLASH, event, dst, e);
            else if (a != e)
                a = put_slash(dst, a, unit - SLASH);
        } else if (a == e) {
            a = expand(p, unit % STARRED, dst, e);
        } else if (unit < STARRED) {
            a = put(dst, a, unit);
        } else {
            usize size = e - a;
            int same = size == behind[depth] - i - 1 && __builtin_memcmp(src + i + 1, dst + a, 2 * size) == 0;
            a = put(dst, a, same ? unit : unit - STARRED);
        }
    }
    return a;
}

/* The modules that run and the events that are armed. */
static void look(const struct program *p, struct state *s) {
    u32 running = 0, armed = 0;
    for (usize i = s->start; i < MOST_UNITS; i++) {
        usize unit = s->unit[i];
        if (unit >= LETTER)
            running |= 1u << p->module_place[unit - LETTER];
        else if (unit >= SLASH && unit < UNIT_ONE)
            armed |= p->heads[unit < WAITING ? unit - SLASH : unit - WAITING];
    }
    s->running = (u8)running;
    s->armed = (u8)armed;
}

/* A set of one: the event stored at a place, the oldest at 0. */
static u8 stored(u32 memory, usize k) {
    return (u8)(1u << ((memory >> (28 - 4 * k) & 15) - 1));
}

static int has_event(const struct state *s, u8 event) {
    for (usize k = 0; k < s->stored; k++)
        if (stored(s->memory, k) == event)
            return 1;
    return 0;
}

/* While a stored event is armed, the oldest such is taken and leaves the memory; at the end the memory is empty. */
static void settle(const struct program *p, struct state *s) {
    for (;;) {
        look(p, s);
        if (s->start == MOST_UNITS)
            s->memory = s->stored = 0;
        usize k = 0;
        while (k < s->stored && !(s->armed & stored(s->memory, k)))
            k++;
        if (k == s->stored)
            return;
        u16 word[MOST_UNITS];
        u8 event = stored(s->memory, k);
        u32 younger = 0xffffffffu >> 4 * k;
        s->memory = (s->memory & ~younger) | (s->memory << 4 & younger);
        s->stored--;
        __builtin_memcpy(word + s->start, s->unit + s->start, 2 * (MOST_UNITS - s->start));
        s->start = (u8)rewrite(p, word, s->start, s->unit, NO_UNIT, event);
    }
}

/* The letter of a byte, if it is one of the program's. */
int plain_letter(const struct program *p, u8 byte, struct letter *l) {
    u32 m = byte - (u32)'a', e = byte - (u32)'A';
    *l = (struct letter){0, 0, 0, NO_UNIT};
    if (m < 26 && p->module_letters >> m & 1) {
        l->module = (u8)(1u << p->module_place[m]);
        l->unit = (u16)(LETTER + m);
    } else if (e < 26 && p->event_letters >> e & 1) {
        l->event = (u8)(1u << p->event_place[e]);
        l->fugitive = p->fugitive_letters >> e & 1;
    }
    return l->module | l->event;
}

/* The start. */
void plain_begin(const struct program *p, struct state *s) {
    s->start = (u8)expand(p, p->root, s->unit, MOST_UNITS);
    s->memory = s->stored = s->stopped = 0;
    look(p, s);
}

/* One reaction from s; a module that completes runs there. Answers whether anything changes: then t is the state after it, else nothing is told. */
int plain_react(const struct program *p, const struct state *s, struct letter l, struct state *t, struct orders *o) {
    *o = (struct orders){0, 0};
    if (l.event && !(s->armed & l.event)) {
        if (l.fugitive || s->start == MOST_UNITS || has_event(s, l.event))
            return 0;
        *t = *s;
        t->memory |= (u32)(__builtin_ctz(l.event) + 1) << (28 - 4 * t->stored++);
        return 1;
    }
    if (l.event && !l.fugitive && has_event(s, l.event))
        return 0;
    t->start = (u8)rewrite(p, s->unit, s->start, t->unit, l.unit, l.event);
    t->memory = s->memory;
    t->stored = s->stored;
    settle(p, t);
    u8 before = s->running & (u8)~l.module, begin = t->running & (u8)~before, stop = before & (u8)~t->running;
    u8 resume = begin & s->stopped & (u8)~l.module;
    *o = (struct orders){(u8)((begin ^ resume) | stop), resume | stop};
    t->stopped = t->start == MOST_UNITS ? 0 : (s->stopped | stop) & (u8)~resume;
    return 1;
}

/* The parts of a state's term: those of what stands right of the walk, and one for each mark of it. */
usize plain_parts(const struct program *p, const struct state *s) {
    usize n = 0;
    for (usize i = s->start; i < MOST_UNITS; i++) {
        usize unit = s->unit[i];
        n += 1;
        if (unit < STARRED || (unit >= SLASH && unit < UNIT_ONE))
            n += p->parts[unit % MOST_NODES] + (unit >= WAITING);
    }
    return n;
}

void plain_pack(const struct state *s, u8 *b) {
    const u16 *word = s->unit + s->start;
    usize n = MOST_UNITS - s->start, i = 0;
    __builtin_memset(b, 0, LIVE_BYTES);
    for (usize k = 0; k < n; k++)
        b[k] = (u8)word[k];
    for (; i + 4 <= n; i += 4)
        b[HIGH + i / 4] = (u8)(word[i] >> 8 << 6 | word[i + 1] >> 8 << 4 | word[i + 2] >> 8 << 2 | word[i + 3] >> 8);
    for (; i < n; i++)
        b[HIGH + i / 4] |= (u8)(word[i] >> 8 << (6 - 2 * (i % 4)));
    b[COUNT] = (u8)n;
    b[STOPPED] = s->stopped;
    for (usize k = 0; k < 4; k++)
        b[MEMORY + k] = (u8)(s->memory >> (24 - 8 * k));
}

/* What bytes with at most 96 units say. */
static void load(const u8 *b, struct state *s) {
    usize n = b[COUNT];
    s->start = (u8)(MOST_UNITS - n);
    for (usize i = 0; i < n; i++)
        s->unit[s->start + i] = (u16)(b[i] | (b[HIGH + i / 4] >> (6 - 2 * (i % 4)) & 3) << 8);
    s->stopped = b[STOPPED];
    s->memory = (u32)b[MEMORY] << 24 | (u32)b[MEMORY + 1] << 16 | (u32)b[MEMORY + 2] << 8 | b[MEMORY + 3];
    s->stored = 0;
    while (s->stored < MOST_NAMES && s->memory << 4 * s->stored >> 28)
        s->stored++;
}

/* The state of bytes that were packed here. */
void plain_unpack(const struct program *p, const u8 *b, struct state *s) {
    load(b, s);
    look(p, s);
}

/* The weight of a unit's term, the last of those that wait weighing w; over MOST_UNITS where the unit may not stand there. `part` is the word of the
   last term, up to `end`. */
static usize weigh(const struct program *p, usize unit, usize w, const u16 *part, const u16 *end) {
    enum { WRONG = MOST_UNITS + 1 };
    usize j = unit % MOST_NODES, least = w ? w : 1;
    if (unit >= LETTER)
        return unit - LETTER < 26 && p->module_letters >> (unit - LETTER) & 1 ? 1 : WRONG;
    if (unit == UNIT_ONE)
        return 0;
    if (j >= p->nodes)
        return WRONG;
    struct node n = p->node[j];
    usize v = p->weight[j];
    if (unit < STARRED)
        return n.kind > ACT ? WRONG : least + 1 > v ? least + 1 : v;
    if (unit >= WAITING)
        return n.kind <= ACT ? WRONG : v ? v : 1;
    if (unit >= SLASH)
        return n.kind <= ACT || *part == UNIT_ONE ? WRONG : w + 1 > v ? w + 1 : v;
    u16 own[MOST_UNITS];
    if (n.kind != STAR || p->weight[n.left] != w)
        return WRONG;
    usize a = expand(p, n.left, own, MOST_UNITS), size = MOST_UNITS - a;
    return size == (usize)(end - part) && __builtin_memcmp(part, own + a, 2 * size) == 0 ? least + 1 : WRONG;
}

/* The word is that of one term, or of none, and weighs at most 96. */
static int is_word(const struct program *p, const struct state *s) {
    u8 weight[MOST_UNITS + 1], behind[MOST_UNITS + 1];
    usize depth = 0, w;
    for (usize i = MOST_UNITS; i-- > s->start;) {
        usize unit = s->unit[i], parts = unit < WAITING ? 1 : unit == SIDES ? 2 : 0;
        if (depth < parts)
            return 0;
        if (parts == 2) {
            usize x = weight[depth], y = weight[depth - 1];
            depth--;
            w = (x ? x : 1) + (y ? y : 1) + 1;
        } else {
            w = weigh(p, unit, parts ? weight[depth] : 0, s->unit + i + 1, s->unit + (parts ? behind[depth] : 0));
            if (parts == 0)
                behind[++depth] = (u8)(i + 1);
        }
        if (w > MOST_UNITS)
            return 0;
        weight[depth] = (u8)w;
    }
    return depth <= 1;
}

/* The memory lists different standard events of the program. */
static int is_memory(const struct program *p, const struct state *s) {
    u32 seen = 0;
    for (usize k = 0; k < s->stored; k++) {
        usize place = (s->memory >> (28 - 4 * k) & 15) - 1;
        if (place >= p->events || seen >> place & 1 || p->fugitive_letters >> p->event[place] & 1)
            return 0;
        seen |= 1u << place;
    }
    return 1;
}

/* The state of any bytes, or No. 23: exactly what codes no state of the written set. Stray bytes are those that packing does not give again. */
int plain_unpack_checked(const struct program *p, const u8 *b, struct state *s) {
    u8 again[LIVE_BYTES];
    if (b[COUNT] > MOST_UNITS || b[STOPPED] >> p->modules || (b[COUNT] == 0 && (b[STOPPED] || b[MEMORY])))
        return 0;
    load(b, s);
    if (s->stored < MOST_NAMES)
        s->memory &= ~(0xffffffffu >> 4 * s->stored);
    if (!is_word(p, s) || !is_memory(p, s))
        return 0;
    look(p, s);
    plain_pack(s, again);
    return __builtin_memcmp(again, b, LIVE_BYTES) == 0;
}

static struct plain_live refuse(usize number, usize place) {
    return (struct plain_live){number, place, {0}};
}

struct plain_live plain_live_start(const u8 *file, usize n, u8 *live, usize live_len) {
    struct program p;
    struct state s;
    if (live_len != LIVE_BYTES)
        return refuse(1, 0);
    struct refusal r = plain_read(file, n, 0, &p);
    if (r.number)
        return refuse(r.number, r.place);
    plain_begin(&p, &s);
    plain_pack(&s, live);
    struct plain_live answer = {0, 0, {0}};
    for (usize k = 0; k < p.modules; k++)
        answer.orders[k] = s.running >> k & 1;
    return answer;
}

struct plain_live plain_live_step(const u8 *file, usize n, u8 *live, usize live_len, u8 letter) {
    struct program p;
    struct state s, t;
    struct letter l;
    struct orders o;
    if (live_len != LIVE_BYTES)
        return refuse(1, 0);
    struct refusal r = plain_read(file, n, 0, &p);
    if (r.number)
        return refuse(r.number, r.place);
    if (!plain_unpack_checked(&p, live, &s))
        return refuse(23, 0);
    if (!plain_letter(&p, letter, &l))
        return refuse(21, 0);
    if (l.module & ~s.running)
        return refuse(22, 0);
    if (plain_react(&p, &s, l, &t, &o))
        plain_pack(&t, live);
    struct plain_live answer = {0, 0, {0}};
    for (usize k = 0; k < p.modules; k++)
        answer.orders[k] = (u8)((o.high >> k & 1) << 1 | (o.low >> k & 1));
    return answer;
}

/* A configuration file to a program: No. 2 to 16. One pass over the lines, one over the program's bytes, one reading of the grammar. */
#include "plain.h"

enum { MOST_BYTES = 1024, MOST_TOKENS = 96, MOST_DEPTH = 16, MOST_STARS = 3, SLOTS = 512, NONE = -1 };
static const usize NOWHERE = ~0ul;

/* What the lines say. */
struct lines {
    usize value, end;    /* the program's value */
    usize fugitive_line; /* where it starts */
    u32 listed, fugitive;
    u16 place[26]; /* where a letter is listed */
};

/* What the program's bytes say, whatever its tree: places are NOWHERE where nothing is wrong. */
struct counts {
    usize token_over, depth_over, not_listed, ninth_module, ninth_event;
};

struct reader {
    const u8 *file;
    usize at;
    int building; /* nothing is built of a program with too many tokens */
    struct program *p;
    u32 standard;
    u64 names[MOST_NODES]; /* modules, and from bit 32 on events */
    u8 stars[MOST_NODES];
    u32 key[MOST_NODES]; /* a node's columns as one number */
    u8 slot[SLOTS];      /* nodes by the hash of their keys; 0 for none */
    usize star_over, shared_module, shared_event, joined;
};

static struct refusal refuse(usize number, usize place) {
    return (struct refusal){number, place};
}

static usize find(const u8 *file, usize from, usize to, u8 byte) {
    while (from < to && file[from] != byte)
        from++;
    return from;
}

static int is_key(const u8 *file, usize size, const char *key, usize wanted) {
    return size == wanted && __builtin_memcmp(file, key, wanted) == 0;
}

static struct refusal read_list(const u8 *file, usize from, usize to, struct lines *l) {
    for (; from < to; from++) {
        u32 letter = file[from] - (u32)'A';
        if (letter > 25 || l->listed >> letter & 1)
            return refuse(6, from);
        l->listed |= 1u << letter;
        l->place[letter] = (u16)from;
    }
    return refuse(0, 0);
}

/* No. 2 to 7. */
static struct refusal read_lines(const u8 *file, usize n, struct lines *l) {
    int standard = 0, program = 0;
    l->fugitive_line = NOWHERE;
    l->listed = l->fugitive = 0;
    if (n > MOST_BYTES)
        return refuse(2, 0);
    for (usize start = 0, end; start < n; start = end + 1) {
        end = find(file, start, n, '\n');
        usize space = find(file, start, end, ' '), size = space - start;
        if (end == n || end - space < 2)
            return refuse(3, start);
        if (is_key(file + start, size, "program", 7)) {
            if (program)
                return refuse(5, start);
            program = 1;
            l->value = space + 1;
            l->end = end;
            continue;
        }
        int fugitive = is_key(file + start, size, "fugitive", 8);
        if (!fugitive && !is_key(file + start, size, "standard", 8))
            return refuse(4, start);
        if (fugitive ? l->fugitive_line != NOWHERE : standard)
            return refuse(5, start);
        u32 before = l->listed;
        struct refusal r = read_list(file, space + 1, end, l);
        if (r.number)
            return r;
        if (fugitive) {
            l->fugitive_line = start;
            l->fugitive = l->listed & ~before;
        } else {
            standard = 1;
        }
    }
    return program ? refuse(0, 0) : refuse(7, n);
}

/* Notes the first place of something. */
static void first(usize *place, usize here) {
    if (here < *place)
        *place = here;
}

/* One letter more of a set; notes the place where it is the ninth. */
static void occurs(u32 *letters, usize *different, u32 letter, usize *ninth, usize here) {
    if (*letters >> letter & 1)
        return;
    *letters |= 1u << letter;
    if (++*different == MOST_NAMES + 1)
        *ninth = here;
}

/* Tokens, brackets, and which letters occur. */
static struct counts count(const u8 *file, const struct lines *l, struct program *p) {
    struct counts c = {NOWHERE, NOWHERE, NOWHERE, NOWHERE, NOWHERE};
    usize tokens = 0, depth = 0, modules = 0, events = 0;
    p->module_letters = p->event_letters = 0;
    for (usize i = l->value; i < l->end; i++) {
        u8 b = file[i];
        if (++tokens > MOST_TOKENS)
            first(&c.token_over, i);
        if (b >= 'a' && b <= 'z') {
            occurs(&p->module_letters, &modules, b - (u32)'a', &c.ninth_module, i);
        } else if (b >= 'A' && b <= 'Z') {
            occurs(&p->event_letters, &events, b - (u32)'A', &c.ninth_event, i);
            if (!(l->listed >> (b - 'A') & 1))
                first(&c.not_listed, i);
        } else if (b == '[' || b == '{') {
            if (++depth > MOST_DEPTH)
                first(&c.depth_over, i);
        } else if (b == ']' || b == '}') {
            depth--;
        } else if (b == '|' && file[i + 1] == '|') {
            i++;
        }
    }
    return c;
}

/* The letters of a set, ascending, and the place of each. */
static usize names(u32 letters, u8 *name, u8 *place) {
    usize n = 0;
    __builtin_memset(place, 0, 26);
    for (; letters && n < MOST_NAMES; letters &= letters - 1) {
        u8 letter = (u8)__builtin_ctz(letters);
        place[letter] = (u8)n;
        name[n++] = letter;
    }
    return n;
}

static u8 room(u8 weight) {
    return weight ? weight : 1;
}

static u8 larger(u8 a, u8 b) {
    return a > b ? a : b;
}

/* What follows of a new node from its parts. */
static void describe(struct reader *r, usize k) {
    struct program *p = r->p;
    struct node n = p->node[k];
    u8 w = p->weight[n.left], v = p->weight[n.right];
    r->names[k] = r->names[n.left] | r->names[n.right];
    r->stars[k] = larger(r->stars[n.left], r->stars[n.right]);
    p->heads[k] = p->heads[n.left] | p->heads[n.right];
    p->parts[k] = (u8)(1 + p->parts[n.left] + p->parts[n.right]);
    switch (n.kind) {
    case MODULE:
        r->names[k] = 1ul << n.letter;
        p->weight[k] = p->parts[k] = 1;
        break;
    case SEQ:
        p->weight[k] = larger((u8)(room(w) + 1), v);
        break;
    case STAR:
        r->stars[k]++;
        p->parts[k] = (u8)(1 + p->parts[n.left]);
        p->weight[k] = (u8)(room(w) + 1);
        break;
    case ACT:
        p->weight[k] = larger((u8)(w + 1), v);
        break;
    case EVENT:
    case TREAT:
        r->names[k] |= 1ul << (32 + n.letter);
        p->heads[k] = (u8)(1u << p->event_place[n.letter]);
        p->parts[k] = n.kind == EVENT ? 1 : (u8)(2 + p->parts[n.right]);
        p->weight[k] = n.kind == EVENT ? 0 : v;
        break;
    case EITHER:
        p->weight[k] = larger(w, v);
        break;
    default: /* PAR, BOTH */
        p->weight[k] = (u8)(room(w) + room(v) + 1);
    }
}

/* The node of these parts: one that is there, or one more. */
static int make(struct reader *r, u8 kind, int left, int right, int letter) {
    struct program *p = r->p;
    if (!r->building)
        return 0;
    u32 key = (u32)kind | (u32)left << 8 | (u32)right << 16 | (u32)letter << 24, hash;
    for (hash = key * 2654435769u >> 23; r->slot[hash]; hash = (hash + 1) % SLOTS)
        if (r->key[r->slot[hash]] == key)
            return r->slot[hash];
    usize k = p->nodes++;
    r->slot[hash] = (u8)k;
    r->key[k] = key;
    p->node[k] = (struct node){kind, (u8)left, (u8)right, (u8)letter};
    describe(r, k);
    return (int)k;
}

/* A `||` of terms or of interruptions: its two sides may not share a module, nor a standard event. */
static int join(struct reader *r, u8 kind, int left, int right, usize place) {
    if (kind == BOTH)
        first(&r->joined, place);
    if (r->building) {
        u64 shared = r->names[left] & r->names[right];
        if ((u32)shared)
            first(&r->shared_module, place);
        if (shared >> 32 & r->standard)
            first(&r->shared_event, place);
    }
    return make(r, kind, left, right, 0);
}

/* The next byte is this one, and is taken. Behind a value stands its line end, so no end is looked for. */
static int takes(struct reader *r, u8 byte) {
    int is = r->file[r->at] == byte;
    r->at += (usize)is;
    return is;
}

/* Each of these answers a node, or NONE where the next byte is one that no program continues with. */
static int read_sequence(struct reader *r);
static int read_item(struct reader *r);

static int read_body(struct reader *r) {
    int left = read_sequence(r);
    if (left < 0 || r->file[r->at] != '|')
        return left;
    usize place = r->at++;
    if (!takes(r, '|'))
        return NONE;
    int right = read_body(r);
    return right < 0 ? NONE : join(r, PAR, left, right, place);
}

static int read_atom(struct reader *r) {
    u8 b = r->file[r->at];
    if (b >= 'a' && b <= 'z') {
        r->at++;
        return make(r, MODULE, 0, 0, b - 'a');
    }
    if (takes(r, '1'))
        return 0;
    if (!takes(r, '['))
        return NONE;
    int body = read_body(r);
    return body < 0 || !takes(r, ']') ? NONE : body;
}

static int read_interruption(struct reader *r);

/* Interruptions up to `}`, all joined by `|` or all by `||`. */
static int read_rest(struct reader *r, int both) {
    int left = read_interruption(r);
    if (left < 0 || takes(r, '}'))
        return left;
    usize place = r->at;
    if (!takes(r, '|') || (both && !takes(r, '|')))
        return NONE;
    int right = read_rest(r, both);
    if (right < 0)
        return NONE;
    return both ? join(r, BOTH, left, right, place) : make(r, EITHER, left, right, 0);
}

static int read_interruption(struct reader *r) {
    u8 b = r->file[r->at];
    if (b >= 'A' && b <= 'Z') {
        r->at++;
        int event = make(r, EVENT, 0, 0, b - 'A');
        if (!takes(r, ':'))
            return event;
        int treatment = read_item(r);
        return treatment < 0 ? NONE : make(r, TREAT, 0, treatment, b - 'A');
    }
    if (!takes(r, '{'))
        return NONE;
    int left = read_interruption(r);
    usize place = r->at;
    if (left < 0 || !takes(r, '|'))
        return NONE;
    int both = takes(r, '|'), right = read_rest(r, both);
    if (right < 0)
        return NONE;
    return both ? join(r, BOTH, left, right, place) : make(r, EITHER, left, right, 0);
}

static int read_item(struct reader *r) {
    int part = read_atom(r);
    usize place = r->at;
    if (part >= 0 && takes(r, '*')) {
        if (r->building && r->stars[part] >= MOST_STARS)
            first(&r->star_over, place);
        part = make(r, STAR, part, 0, 0);
    }
    if (part < 0 || !takes(r, '/'))
        return part;
    int interruption = read_interruption(r);
    return interruption < 0 ? NONE : make(r, ACT, part, interruption, 0);
}

static int read_sequence(struct reader *r) {
    int left = read_item(r);
    u8 b = r->file[r->at];
    if (left < 0 || !((b >= 'a' && b <= 'z') || b == '1' || b == '['))
        return left;
    int right = read_sequence(r);
    return right < 0 ? NONE : make(r, SEQ, left, right, 0);
}

/* No. 8, and the tree. */
static int read_program(struct reader *r, usize end) {
    struct program *p = r->p;
    p->node[0] = (struct node){ONE, 0, 0, 0};
    p->heads[0] = p->weight[0] = 0;
    p->parts[0] = 1;
    p->nodes = 1;
    r->names[0] = 0;
    r->stars[0] = 0;
    __builtin_memset(r->slot, 0, SLOTS);
    r->star_over = r->shared_module = r->shared_event = r->joined = NOWHERE;
    int root = read_sequence(r);
    p->root = (usize)root;
    return root >= 0 && takes(r, '.') && r->at == end;
}

/* No. 11. */
static usize not_used(const struct lines *l, u32 used) {
    usize place = NOWHERE;
    for (u32 unused = l->listed & ~used; unused; unused &= unused - 1)
        first(&place, l->place[__builtin_ctz(unused)]);
    return place;
}

struct refusal plain_read(const u8 *file, usize n, int basic, struct program *p) {
    struct lines l;
    struct refusal refused = read_lines(file, n, &l);
    if (refused.number)
        return refused;
    struct counts c = count(file, &l, p);
    p->modules = names(p->module_letters, p->module, p->module_place);
    p->events = names(p->event_letters, p->event, p->event_place);
    p->fugitive_letters = l.fugitive;
    struct reader r;
    r.file = file;
    r.at = l.value;
    r.building = c.token_over == NOWHERE;
    r.p = p;
    r.standard = l.listed & ~l.fugitive;
    if (!read_program(&r, l.end))
        return refuse(8, r.at);
    struct refusal in_order[] = {{9, c.token_over},    {9, c.depth_over},   {9, r.star_over},
                                 {10, c.not_listed},   {11, not_used(&l, p->event_letters)},
                                 {12, c.ninth_module}, {12, c.ninth_event}, {13, r.shared_module},
                                 {14, r.shared_event}, {15, basic ? l.fugitive_line : NOWHERE},
                                 {16, basic ? r.joined : NOWHERE}};
    for (usize k = 0; k < sizeof in_order / sizeof *in_order; k++)
        if (in_order[k].place != NOWHERE)
            return in_order[k];
    return refuse(0, 0);
}

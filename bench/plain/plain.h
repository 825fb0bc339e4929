/* The six calls in plain C: what the proved ones are measured against. The same contracts, byte for byte: document 01, and docs/CODING.md for the
   live state. No header of a C library is used: the kit's compiler, which builds both, comes without them. */
#ifndef PLAIN_H
#define PLAIN_H

typedef unsigned char u8;
typedef unsigned short u16;
typedef unsigned int u32;
typedef unsigned long u64;
typedef unsigned long usize;

enum { MOST_NAMES = 8, LIVE_BYTES = 128, OUTPUT_BYTES = 26640, WORK_BYTES = 65536 };

/* Number and place of a refusal, all else zero; or number 0 and what the call answers. */
struct plain_compiled {
    usize number, place, states, size;
};
struct plain_table {
    usize number, place, state;
    u8 orders[MOST_NAMES];
};
struct plain_live {
    usize number, place;
    u8 orders[MOST_NAMES];
};

struct plain_compiled plain_compile(const u8 *file, usize n, int basic, u8 *output, usize output_len, u8 *work, usize work_len);
struct plain_table plain_table_start(const u8 *table, usize n);
struct plain_table plain_table_step(const u8 *table, usize n, usize state, u8 letter);
struct plain_live plain_live_start(const u8 *file, usize n, u8 *live, usize live_len);
struct plain_live plain_live_step(const u8 *file, usize n, u8 *live, usize live_len, u8 letter);

/* What the files share. */

enum { MOST_NODES = 192, MOST_UNITS = 96, MOST_STATES = 512, MOST_PARTS = 8192 };

/* Kinds of nodes: terms up to ACT, then interruptions. */
enum { MODULE, ONE, SEQ, PAR, STAR, ACT, EVENT, TREAT, EITHER, BOTH };

/* A part of the program. Equal parts are one node, so equal trees have equal numbers; node 0 is `1`. Letters count from a or A. */
struct node {
    u8 kind, left, right, letter;
};

struct program {
    struct node node[MOST_NODES];
    u8 heads[MOST_NODES];  /* of an interruption: the events at its head */
    u8 weight[MOST_NODES]; /* a term's word has no more units, and no rule raises it (docs/CODING.md) */
    u8 parts[MOST_NODES];  /* as No. 18 counts them */
    usize nodes, root;
    u8 module[MOST_NAMES], event[MOST_NAMES]; /* the names, ascending */
    usize modules, events;
    u8 module_place[26], event_place[26]; /* of a name: its place among them. A set is a bit for each place */
    u32 module_letters, event_letters;    /* the same names, a bit for each letter */
    u32 fugitive_letters;
};

struct refusal {
    usize number, place;
};

/* reader.c: a file to a program. Number 0, or why not. */
struct refusal plain_read(const u8 *file, usize n, int basic, struct program *p);

/* A state: its term as a word of units (docs/CODING.md) at the end of `unit`. Nothing is left of the term where it starts at MOST_UNITS. */
struct state {
    u16 unit[MOST_UNITS];
    u32 memory;        /* half a byte for each stored event, the oldest highest: its place plus one */
    u8 start, stored;  /* where the word starts, how many events are stored */
    u8 stopped;        /* modules */
    u8 running, armed; /* modules that run, events that are armed: both follow from the word */
};

/* A letter of the program: a set of one module or of one event, the other empty. */
struct letter {
    u8 module, event, fugitive;
    u16 unit; /* of the module; of an event, no unit */
};

/* What modules are told: started or stopped, resumed or stopped. */
struct orders {
    u8 low, high;
};

/* engine.c: states, their 128 bytes, and reactions. */
int plain_letter(const struct program *p, u8 byte, struct letter *l);
void plain_begin(const struct program *p, struct state *s);
int plain_react(const struct program *p, const struct state *s, struct letter l, struct state *t, struct orders *o);
usize plain_parts(const struct program *p, const struct state *s);
void plain_pack(const struct state *s, u8 *b);
void plain_unpack(const struct program *p, const u8 *b, struct state *s);
int plain_unpack_checked(const struct program *p, const u8 *b, struct state *s);

#endif

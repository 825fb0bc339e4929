/* Measures the proved table calls and the plain ones on the table of standard input: first that they answer alike, then the time of a call of each,
   in turns, and the stack that it uses. Ends with 1 where the proved call takes over 1.2 times as long. */
#include "measuring.h"

enum { ROUNDS = 101, CALLS = 50, MOST = 65536 };

static u8 table[MOST];
static usize size;
static volatile struct plain_table kept;
static usize state;
static u8 letter;

static void proved_start(void) { kept = cart_table_start(table, size); }
static void plain_start(void) { kept = plain_table_start(table, size); }
static void proved_step(void) { kept = cart_table_step(table, size, state, letter); }
static void plain_step(void) { kept = plain_table_step(table, size, state, letter); }

/* The two answer alike: start, and each letter byte in some states. */
static int alike(void) {
    struct plain_table a = cart_table_start(table, size), b = plain_table_start(table, size);
    int same = a.number == 0 && memcmp(&a, &b, sizeof a) == 0;
    for (usize s = 0; s < 520; s += 37)
        for (usize l = 0; l < 256; l++) {
            a = cart_table_step(table, size, s, (u8)l);
            b = plain_table_step(table, size, s, (u8)l);
            same = same && memcmp(&a, &b, sizeof a) == 0;
        }
    return same;
}

/* Both in turns, the medians; whether the proved call is fast enough. */
static int compared(const char *name, void (*proved)(void), void (*plain)(void)) {
    struct times t = in_turns(proved, plain, ROUNDS, CALLS);
    printf("%s: proved %.0f ns, plain C %.0f ns, ratio %.3f (least: %.0f and %.0f ns); stack: proved %lu bytes, plain C %lu bytes\n", name, t.first,
           t.second, t.first / t.second, t.first_least, t.second_least, stack_of(proved), stack_of(plain));
    return t.first <= 1.2 * t.second;
}

int main(void) {
    long got;
    while (size < MOST && (got = read(0, table + size, MOST - size)) > 0)
        size += (usize)got;
    if (!alike()) {
        printf("not a table, or the two answer it differently\n");
        return 1;
    }
    state = 511;
    letter = 'a';
    while (letter < 'z' && cart_table_step(table, size, state, letter).number != 0)
        letter++;
    printf("a table of %lu bytes, %d rounds of %d calls each, in turns, medians\n", size, ROUNDS, CALLS);
    int start = compared("start", proved_start, plain_start);
    int step = compared("step", proved_step, plain_step);
    return !(start && step);
}

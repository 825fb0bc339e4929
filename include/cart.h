/* Cart dispatch: the six calls of the library libcart.a, for C99 and C++.
 *
 * A configuration file is handed over as its bytes. Every call takes any bytes of any length, allocates nothing, keeps nothing, ends, and answers one plain
 * struct. `number` 0 is success; any other number is a refusal, with the `place` in the file that it is about, a byte counted from 0, and all else zero. A
 * number for which no place is named has place 0. What each number means at a site: docs/INTEGRATING.md.
 *
 * A pointer may be null only where its length is 0. Slices that a call writes to must not overlap each other or the file. Calls share no state, so any
 * number of them may run at the same time on different slices.
 *
 * Refusals, in the order in which they are looked for:
 *    1  a slice is too short (compile), or the live state is not CART_LIVE bytes
 *    2  the file has over CART_FILE bytes
 *    3  a line without its end, without a space, or with nothing after that space; place: the line's start
 *    4  an unknown key, an empty one too; place: the line's start
 *    5  a key a second time; place: the line's start
 *    6  an event list has a byte that is not A to Z, or a letter listed before; place: that byte
 *    (3 to 6 line by line, the next ones each over the whole file)
 *    7  no program line; place: the file's length
 *    8  not a program; place: the first byte that no program continues with, or the line end if the value stops short
 *    9  over 96 tokens, then brackets and braces over 16 deep, then stars over 3 deep; place: the first token over, the first star over a part with
 *       three nested
 *   10  an event that is not listed; place: its first use
 *   11  a listed event that is not used; place: its letter, the earliest
 *   12  a ninth module, then a ninth event; place: its first use
 *   13  a module on both sides of a `||`; place: the first such `||`
 *   14  a standard event on both sides of a `||`; place: the first such `||`
 *   15  Basic: a `fugitive` line; place: the line's start
 *   16  Basic: interruptions joined by `||`; place: the first such `||`
 *   17  more than CART_STATES reachable states
 *   18  a reachable term of more than 8,192 parts
 *   19  not a table
 *   20  a state number that is not below the table's count
 *   23  live bytes that code no state
 *   21  a letter that is not in the program
 *   22  the completion of a module that is not running
 */
#ifndef CART_H
#define CART_H

#include <stddef.h>
#include <stdint.h>

#ifdef __cplusplus
extern "C" {
#endif

#define CART_FILE 1024    /* a configuration file has at most so many bytes */
#define CART_OUTPUT 26640 /* compile needs so many bytes for a table, or more */
#define CART_WORK 65536   /* compile needs so many bytes to work in, or more */
#define CART_LIVE 128     /* the live state has exactly so many bytes */
#define CART_STATES 512   /* a table has at most so many states */
#define CART_NAMES 8      /* a program has at most so many modules, and so many events */

/* Orders, one for each module in the order of its letters, zeros up to CART_NAMES. A start answers 1 for each module that runs. */
enum cart_order { CART_NONE = 0, CART_START = 1, CART_RESUME = 2, CART_STOP = 3 };

struct cart_compiled {
    size_t number;
    size_t place;
    size_t states; /* the table's states */
    size_t size;   /* its bytes, at the front of the output */
};

struct cart_table {
    size_t number;
    size_t place; /* always 0 */
    size_t state; /* the next state */
    uint8_t orders[CART_NAMES];
};

struct cart_live {
    size_t number;
    size_t place;
    uint8_t orders[CART_NAMES];
};

/* Compiles a file for Basic: refusals 1 to 18.
 * output: at least CART_OUTPUT bytes. After success the table stands in its first `size` bytes, and the bytes beyond keep theirs; a refusal leaves all of it
 * as it was. work: at least CART_WORK bytes; zero, all of it, after every call but refusal 1, which touches nothing. */
struct cart_compiled cart_compile_basic(
    const uint8_t *file, size_t file_size, uint8_t *output, size_t output_size, uint8_t *work, size_t work_size);

/* Compiles a file for Adaptive: refusals 1 to 14, 17 and 18. The slices are asked for and left as by cart_compile_basic. */
struct cart_compiled cart_compile_adaptive(
    const uint8_t *file, size_t file_size, uint8_t *output, size_t output_size, uint8_t *work, size_t work_size);

/* The table's start: refusal 19, or state 0, and order 1 for each module that runs. The table is not written to. */
struct cart_table cart_table_start(const uint8_t *table, size_t table_size);

/* The table's step from a state by a letter, a byte a to z (a module's completion) or A to Z (an event): refusals 19 to 22, or the next state and the orders.
 * After a refusal the run is still in the state before it. The table is not written to. Any number below the table's count is taken for a state, also one
 * that another table answered. */
struct cart_table cart_table_step(const uint8_t *table, size_t table_size, size_t state, uint8_t letter);

/* The live start: refusals 1 to 14, or the start's code in `live`, and order 1 for each module that runs.
 * live: exactly CART_LIVE bytes, of any value; a refusal leaves them as they were. */
struct cart_live cart_live_start(const uint8_t *file, size_t file_size, uint8_t *live, size_t live_size);

/* The live step by a letter: refusals 1 to 14, 23, 21, 22, or the next state's code in `live`, and the orders.
 * live: exactly CART_LIVE bytes, as a start or a step over the same file left them; a refusal leaves them as they were. Bytes of another file's run may
 * code a state of this one, and are then taken. */
struct cart_live cart_live_step(
    const uint8_t *file, size_t file_size, uint8_t *live, size_t live_size, uint8_t letter);

#ifdef __cplusplus
}
#endif

#endif

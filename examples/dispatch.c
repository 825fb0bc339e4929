/* Cart dispatch by a configuration file: compiles it for Adaptive, then steps the table and the live engine side by side through some letters.
 *
 *     dispatch FILE [LETTERS]     (a FILE of - is standard input)
 *
 * Prints `ok STATES BYTES` or `refused NUMBER at PLACE`, then a line for the start and for each letter: the table's state and the orders, `+` start,
 * `~` resume, `-` stop, or the refusal's number. A file of too many states for a table (17) runs live alone, and its lines say so. Ends with 0, with 1 where
 * the file is refused, with 2 where it cannot be read, and with 3 where table and live engine differ, which they are proved not to.
 *
 * A board does the same with fewer parts: either the table alone, compiled on a desk, or the file and the live state alone. */
#include <stdio.h>

#include "cart.h"

/* All memory there is: no call allocates, and none keeps anything between two calls. */
static uint8_t file[CART_FILE + 1]; /* one byte more than allowed, so that a longer file is refused by 2 and not cut */
static uint8_t table[CART_OUTPUT];
static uint8_t work[CART_WORK];
static uint8_t live[CART_LIVE];

static size_t file_size;
static struct cart_compiled compiled;
static size_t state;             /* the table's present state; the live engine's is in `live` */
static char modules[CART_NAMES]; /* order k is for module k, in the order of their letters */

static int read_file(const char *path) {
    FILE *from = path[0] == '-' && path[1] == 0 ? stdin : fopen(path, "rb");
    if (from == NULL) {
        return 0;
    }
    file_size = fread(file, 1, sizeof file, from);
    return !ferror(from);
}

/* The modules of an accepted file: the letters a to z behind the keys, ascending. The lists of events have none. */
static void name_modules(void) {
    unsigned char found[26] = {0};
    int in_value = 0;
    for (size_t i = 0; i < file_size; i++) {
        if (file[i] == '\n' || file[i] == ' ') {
            in_value = file[i] == ' ';
        } else if (in_value && file[i] >= 'a' && file[i] <= 'z') {
            found[file[i] - 'a'] = 1;
        }
    }
    for (size_t letter = 0, k = 0; letter < 26; letter++) {
        if (found[letter] && k < CART_NAMES) {
            modules[k++] = (char)('a' + letter);
        }
    }
}

/* What a board does with the orders; here they are printed. */
static void carry_out(const uint8_t orders[CART_NAMES]) {
    for (size_t k = 0; k < CART_NAMES; k++) {
        switch (orders[k]) {
        case CART_START: printf(" +%c", modules[k]); break;
        case CART_RESUME: printf(" ~%c", modules[k]); break;
        case CART_STOP: printf(" -%c", modules[k]); break;
        default: break;
        }
    }
}

static int same(const uint8_t a[CART_NAMES], const uint8_t b[CART_NAMES]) {
    size_t k = 0;
    while (k < CART_NAMES && a[k] == b[k]) {
        k++;
    }
    return k == CART_NAMES;
}

/* One answer of the live engine, and of the table where there is one: 0 where they differ. */
static int answered(struct cart_live by_live, struct cart_table by_table) {
    if (compiled.number == 0 && (by_live.number != by_table.number || !same(by_live.orders, by_table.orders))) {
        printf(" DIFFERENT: live %d, table %d\n", (int)by_live.number, (int)by_table.number);
        return 0;
    }
    if (by_live.number != 0) { /* the run stays in the state before */
        printf(" refused %d\n", (int)by_live.number);
        return 1;
    }
    if (compiled.number == 0) {
        state = by_table.state;
        printf(" state %d", (int)state);
    } else {
        printf(" live");
    }
    carry_out(by_live.orders);
    printf("\n");
    return 1;
}

static int begin(void) {
    struct cart_table by_table = {0, 0, 0, {0}};
    struct cart_live by_live = cart_live_start(file, file_size, live, sizeof live);
    if (compiled.number == 0) {
        by_table = cart_table_start(table, compiled.size);
    }
    printf("start:");
    return answered(by_live, by_table);
}

static int step(uint8_t letter) {
    struct cart_table by_table = {0, 0, 0, {0}};
    struct cart_live by_live = cart_live_step(file, file_size, live, sizeof live, letter);
    if (compiled.number == 0) {
        by_table = cart_table_step(table, compiled.size, state, letter);
    }
    printf("%c:", letter);
    return answered(by_live, by_table);
}

int main(int count, char **words) {
    if (count < 2 || count > 3 || !read_file(words[1])) {
        fprintf(stderr, "usage: dispatch FILE [LETTERS], and the file must be readable\n");
        return 2;
    }
    compiled = cart_compile_adaptive(file, file_size, table, sizeof table, work, sizeof work);
    if (compiled.number == 0) {
        printf("ok %d %d\n", (int)compiled.states, (int)compiled.size);
    } else {
        printf("refused %d at %d\n", (int)compiled.number, (int)compiled.place);
        if (compiled.number != 17) {
            return 1;
        }
    }
    name_modules();
    if (!begin()) {
        return 3;
    }
    for (const char *letter = count == 3 ? words[2] : ""; *letter != 0; letter++) {
        if (!step((uint8_t)*letter)) {
            return 3;
        }
    }
    return 0;
}

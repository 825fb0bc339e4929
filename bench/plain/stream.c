/* The plain calls as a program, to be compared with the second program: the frames and the lines of `twin stream WHAT` (twin/README.md), WHAT being
   basic, adaptive, tables, lives or walks. What a call must leave of each buffer is looked at here, beside its answer. */
#include "plain.h"
#include <stdio.h>
#include <stdlib.h>
#include <string.h>

enum { MARK = 0xa5, MORE = 40 };

static u8 *input;
static usize size, at;

static void fail(const char *why) {
    fprintf(stderr, "stream: %s, before byte %lu\n", why, at);
    exit(1);
}

static const u8 *next(usize count) {
    if (size - at < count)
        fail("the last frame is cut short");
    at += count;
    return input + at - count;
}

static usize two_bytes(const u8 *b) {
    return (usize)b[0] << 8 | b[1];
}

static const u8 *next_long(usize *n) {
    *n = two_bytes(next(2));
    return next(*n);
}

static void print_hex(const u8 *b, usize n) {
    for (usize k = 0; k < n; k++)
        printf("%02x", b[k]);
    putchar('\n');
}

static int all(const u8 *b, usize n, u8 byte) {
    return n == 0 || (b[0] == byte && memcmp(b, b + 1, n - 1) == 0);
}

/* Compile into buffers of MARKs: what is to keep its bytes, what is to be zero, and that nothing is touched where a buffer is too short. */
static void compile(int basic) {
    static u8 output[OUTPUT_BYTES + MORE], work[WORK_BYTES + MORE];
    usize n, outputs = OUTPUT_BYTES + at % MORE, works = WORK_BYTES + at % MORE;
    const u8 *file = next_long(&n);
    memset(output, MARK, sizeof output);
    memset(work, MARK, sizeof work);
    struct plain_compiled a = plain_compile(file, n, basic, output, OUTPUT_BYTES - 1, work, works);
    struct plain_compiled b = plain_compile(file, n, basic, output, outputs, work, WORK_BYTES - 1);
    if (a.number != 1 || b.number != 1 || a.place + a.states + a.size + b.place + b.states + b.size != 0)
        fail("No. 1 is not given");
    if (!all(output, sizeof output, MARK) || !all(work, sizeof work, MARK))
        fail("a buffer is touched by No. 1");
    a = plain_compile(file, n, basic, output, outputs, work, works);
    if (!all(work, works, 0) || !all(work + works, sizeof work - works, MARK))
        fail("the working slice is not zero, or what is behind it touched");
    if (!all(output + a.size, sizeof output - a.size, MARK))
        fail("the output is touched behind the table");
    if (a.number) {
        if (a.states + a.size != 0)
            fail("a refusal with states or a size");
        printf("refused %lu at %lu\n", a.number, a.place);
        return;
    }
    printf("ok %lu %lu\n", a.states, a.size);
    print_hex(output, a.size);
}

static void table(void) {
    usize n;
    const u8 *call = next(4), *bytes = next_long(&n);
    struct plain_table a = call[0] ? plain_table_step(bytes, n, two_bytes(call + 1), call[3]) : plain_table_start(bytes, n);
    if (a.number) {
        if (a.place + a.state != 0 || !all(a.orders, MOST_NAMES, 0))
            fail("a refusal with a place, a state or orders");
        printf("refused %lu\n", a.number);
        return;
    }
    printf("state %lu", a.state);
    for (usize k = 0; k < MOST_NAMES; k++)
        printf(" %d", a.orders[k]);
    putchar('\n');
}

static void live(void) {
    usize n;
    const u8 *call = next(3), *file = next_long(&n), *given = next(call[2]);
    u8 bytes[256];
    memset(bytes, MARK, sizeof bytes);
    memcpy(bytes, given, call[2]);
    struct plain_live a = call[0] ? plain_live_step(file, n, bytes, call[2], call[1]) : plain_live_start(file, n, bytes, call[2]);
    if (!all(bytes + call[2], sizeof bytes - call[2], MARK))
        fail("bytes behind the live state are touched");
    if (a.number) {
        if (memcmp(bytes, given, call[2]) != 0 || !all(a.orders, MOST_NAMES, 0))
            fail("a refusal that touches the live state, or with orders");
        printf("refused %lu at %lu ", a.number, a.place);
    } else {
        for (usize k = 0; k < MOST_NAMES; k++)
            printf("%d", a.orders[k]);
        putchar(' ');
    }
    print_hex(bytes, call[2]);
}

/* The modules of an accepted file, ascending. */
static usize modules_of(const u8 *file, usize n, u8 *modules) {
    usize start = 0, count = 0;
    int used[256] = {0};
    while (memcmp(file + start, "program ", 8) != 0)
        start = (usize)((const u8 *)memchr(file + start, '\n', n - start) - file) + 1;
    for (start += 8; file[start] != '\n'; start++)
        used[file[start]] = 1;
    for (u8 m = 'a'; m <= 'z'; m++)
        if (used[m])
            modules[count++] = m;
    return count;
}

static void walk(void) {
    usize n, letters;
    const u8 *file = next_long(&n), *letter = next_long(&letters);
    u8 bytes[LIVE_BYTES], modules[26];
    struct plain_live a = plain_live_start(file, n, bytes, LIVE_BYTES);
    if (a.number) {
        printf("refused %lu at %lu\n", a.number, a.place);
        return;
    }
    usize count = modules_of(file, n, modules);
    printf("start");
    for (usize m = 0; m < count; m++)
        if (a.orders[m])
            printf(" %c", modules[m]);
    putchar('\n');
    for (usize k = 0; k < letters; k++) {
        a = plain_live_step(file, n, bytes, LIVE_BYTES, letter[k]);
        putchar(letter[k]);
        if (a.number)
            printf(" refused %lu", a.number);
        for (usize m = 0; m < count; m++)
            if (a.orders[m])
                printf(" %c%c", " +~-"[a.orders[m]], modules[m]);
        putchar('\n');
    }
}

int main(int count, char **words) {
    const char *what = count == 2 ? words[1] : "";
    usize most = 1 << 20;
    input = malloc(most);
    for (usize got; input && (got = fread(input + size, 1, most - size, stdin)) > 0;)
        if ((size += got) == most)
            input = realloc(input, most *= 2);
    if (!input)
        fail("no memory");
    while (at < size) {
        if (strcmp(what, "basic") == 0 || strcmp(what, "adaptive") == 0)
            compile(*what == 'b');
        else if (strcmp(what, "tables") == 0)
            table();
        else if (strcmp(what, "lives") == 0)
            live();
        else if (strcmp(what, "walks") == 0)
            walk();
        else
            fail("WHAT is basic, adaptive, tables, lives or walks");
    }
    return 0;
}

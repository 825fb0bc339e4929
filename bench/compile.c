/* Measures the proved compile and the plain one on the files of standard input: first that they answer alike and leave the same bytes, then the time
   of a call of each, in turns, and the stack that it uses. A frame is a byte for what the file is for (see `families`), the edition (0 for Basic), a
   name with its length in a byte before it, and the file with its length in two, high first. Ends with 1 where the heavy files together take over a
   second. */
#include "measuring.h"

enum { ROUNDS = 21, MOST = 65536, WORTH = 4000000 };

static const char *const families[] = {"heavy files", "[a||b||..], a module more each time", "[aa..||bb..], two sequences", "aa.., one sequence"};

static u8 input[MOST];
static usize size;
static u8 output[2][OUTPUT_BYTES], work[2][WORK_BYTES];
static const u8 *file;
static usize bytes;
static int basic;
static volatile struct plain_compiled kept;

static struct plain_compiled proved(void) {
    return basic ? cart_compile_basic(file, bytes, output[0], OUTPUT_BYTES, work[0], WORK_BYTES)
                 : cart_compile_adaptive(file, bytes, output[0], OUTPUT_BYTES, work[0], WORK_BYTES);
}

static struct plain_compiled plain(void) {
    return plain_compile(file, bytes, basic, output[1], OUTPUT_BYTES, work[1], WORK_BYTES);
}

static void proved_once(void) { kept = proved(); }
static void plain_once(void) { kept = plain(); }

static int alike(struct plain_compiled *a) {
    for (usize k = 0; k < 2; k++) {
        memset(output[k], PAINT, OUTPUT_BYTES);
        memset(work[k], PAINT, WORK_BYTES);
    }
    *a = proved();
    struct plain_compiled b = plain();
    int cleared = work[0][0] == 0 && memcmp(work[0], work[0] + 1, WORK_BYTES - 1) == 0 && memcmp(work[0], work[1], WORK_BYTES) == 0;
    return cleared && memcmp(a, &b, sizeof b) == 0 && memcmp(output[0], output[1], OUTPUT_BYTES) == 0;
}

/* One line for a file; what it took is added to the sums. */
static int measured(const u8 *name, u8 length, double *proved_sum, double *plain_sum) {
    struct plain_compiled a;
    if (!alike(&a)) {
        printf("%.*s: the two answer it differently\n", length, (const char *)name);
        return 0;
    }
    usize calls = 1 + (usize)(WORTH / (timed(proved_once, 3) + timed(plain_once, 3)));
    struct times t = in_turns(proved_once, plain_once, ROUNDS, calls);
    *proved_sum += t.first;
    *plain_sum += t.second;
    printf("  %-26.*s %-8s ", length, (const char *)name, basic ? "Basic" : "Adaptive");
    if (a.number)
        printf("  No. %-2lu", a.number);
    else
        printf("%8lu", a.states);
    printf(" %10.1f %10.1f %7.2f", t.first / 1e3, t.second / 1e3, t.first / t.second);
    if (a.number == 0)
        printf(" %10.0f %10.0f", t.first / (double)a.states, t.second / (double)a.states);
    printf("\n");
    return 1;
}

int main(void) {
    long got;
    int same = 1, last = -1;
    double proved_sum[4] = {0}, plain_sum[4] = {0};
    usize proved_stack = 0, plain_stack = 0;
    while (size < MOST && (got = read(0, input + size, MOST - size)) > 0)
        size += (usize)got;
    printf("%d rounds, proved and plain in turns, medians\n", ROUNDS);
    for (usize at = 0; at < size; at = (usize)(file - input) + bytes) {
        u8 family = input[at] & 3, length = input[at + 2];
        const u8 *name = input + at + 3;
        basic = input[at + 1] == 0;
        bytes = (usize)name[length] << 8 | name[length + 1];
        file = name + length + 2;
        if (family != last)
            printf("%-36s   states  proved us   plain us   ratio proved ns/state, plain\n", families[family]);
        last = family;
        same &= measured(name, length, &proved_sum[family], &plain_sum[family]);
        usize one = stack_of(proved_once), two = stack_of(plain_once);
        proved_stack = one > proved_stack ? one : proved_stack;
        plain_stack = two > plain_stack ? two : plain_stack;
    }
    double ratio = proved_sum[0] / plain_sum[0];
    printf("heavy files together: proved %.2f ms, plain C %.2f ms, ratio %.2f\n", proved_sum[0] / 1e6, plain_sum[0] / 1e6, ratio);
    printf("stack: proved %lu bytes, plain C %lu bytes\n", proved_stack, plain_stack);
    return !(same && proved_sum[0] < 1e9);
}

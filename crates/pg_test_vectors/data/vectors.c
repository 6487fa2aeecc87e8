/* Makes the rows of vectors.txt: 300 for each operation, an operation, a width, two operands and the result;
   and at the end 30 rows that are wrong on purpose, one for each answer that an operation may get wrong.
   gcc -O1 -o vectors vectors.c && ./vectors > vectors.txt
   The results are those of C's own 64-bit arithmetic on operands that are cut or sign-extended first. */
#include <inttypes.h>
#include <stdio.h>
#include <string.h>

static uint64_t state = 0x9e3779b97f4a7c15u;

static uint64_t next(void) {
    state ^= state << 13;
    state ^= state >> 7;
    state ^= state << 17;
    return state;
}

static uint64_t mask(int w) { return w == 64 ? ~0ull : (1ull << w) - 1; }

static int64_t sign(uint64_t a, int w) { return (int64_t)(a << (64 - w)) >> (64 - w); }

/* a random value of the width, often one at an end of its range */
static uint64_t value(int w) {
    switch (next() % 8) {
    case 0: return 0;
    case 1: return mask(w);
    case 2: return 1ull << (w - 1);
    case 3: return (1ull << (w - 1)) - 1;
    case 4: return next() % 4 & mask(w);
    default: return next() & mask(w);
    }
}

static const char *const binary[] = {"add",  "sub",  "mul", "udiv", "sdiv", "urem", "srem", "shl",
                                     "lshr", "ashr", "and", "or",   "xor",  "eq",   "ne",   "ugt",
                                     "uge",  "ult",  "ule", "sgt",  "sge",  "slt",  "sle"};

/* the result in `to`, or a word where there is none */
static const char *result(const char *op, int w, uint64_t a, uint64_t b, uint64_t *to) {
    int64_t x = sign(a, w), y = sign(b, w);
    int least = a == 1ull << (w - 1) && b == mask(w);
    uint64_t r = 0;
    if (!strcmp(op, "add")) r = a + b;
    else if (!strcmp(op, "sub")) r = a - b;
    else if (!strcmp(op, "mul")) r = a * b;
    else if (strstr("udiv sdiv urem srem", op)) {
        if (b == 0) return "zero";
        if (op[0] == 's' && least) return "overflow";
        if (!strcmp(op, "udiv")) r = a / b;
        else if (!strcmp(op, "urem")) r = a % b;
        else if (!strcmp(op, "sdiv")) r = (uint64_t)(x / y);
        else r = (uint64_t)(x % y);
    } else if (!strcmp(op, "shl")) r = b < (uint64_t)w ? a << b : 0;
    else if (!strcmp(op, "lshr")) r = b < (uint64_t)w ? a >> b : 0;
    else if (!strcmp(op, "ashr")) r = (uint64_t)(x >> (b < (uint64_t)w ? b : 63));
    else if (!strcmp(op, "and")) r = a & b;
    else if (!strcmp(op, "or")) r = a | b;
    else if (!strcmp(op, "xor")) r = a ^ b;
    else if (!strcmp(op, "eq")) r = a == b;
    else if (!strcmp(op, "ne")) r = a != b;
    else if (!strcmp(op, "ugt")) r = a > b;
    else if (!strcmp(op, "uge")) r = a >= b;
    else if (!strcmp(op, "ult")) r = a < b;
    else if (!strcmp(op, "ule")) r = a <= b;
    else if (!strcmp(op, "sgt")) r = x > y;
    else if (!strcmp(op, "sge")) r = x >= y;
    else if (!strcmp(op, "slt")) r = x < y;
    else if (!strcmp(op, "sle")) r = x <= y;
    *to = r & mask(w);
    return NULL;
}

int main(void) {
    static const int widths[] = {1, 8, 16, 32, 64};
    for (size_t o = 0; o < sizeof binary / sizeof *binary; o++)
        for (int i = 0; i < 300; i++) {
            int w = widths[next() % 5];
            int shifts = strstr("shl lshr ashr", binary[o]) != NULL;
            uint64_t a = value(w), b = shifts && next() % 4 ? (next() % (2 * w)) & mask(w) : value(w), r = 0;
            const char *none = result(binary[o], w, a, b, &r);
            if (none) printf("%s %d %" PRIu64 " %" PRIu64 " %s\n", binary[o], w, a, b, none);
            else printf("%s %d %" PRIu64 " %" PRIu64 " %" PRIu64 "\n", binary[o], w, a, b, r);
        }
    for (int i = 0; i < 300; i++) {
        int w = widths[next() % 5];
        uint64_t a = value(64);
        printf("trunc %d %" PRIu64 " 0 %" PRIu64 "\n", w, a, a & mask(w));
    }
    /* the second operand is the width that the first is extended to */
    for (int i = 0; i < 300; i++) {
        int from = next() % 4, to = from + 1 + next() % (4 - from);
        uint64_t a = value(widths[from]);
        printf("sext %d %" PRIu64 " %d %" PRIu64 "\n", widths[from], a, widths[to],
               (uint64_t)sign(a, widths[from]) & mask(widths[to]));
    }
    /* a pointer's offset is its low 21 bits */
    for (int i = 0; i < 300; i++) {
        uint64_t p = value(64), d = value(64), low = mask(21);
        printf("move 64 %" PRIu64 " %" PRIu64 " %" PRIu64 "\n", p, d, (p & ~low) | ((p + d) & low));
    }
    /* an access of 1, 2, 4 or 8 bytes: the second operand is their number, the result the first byte's place */
    for (int i = 0; i < 300; i++) {
        uint64_t start = next() % 4 ? next() % 64 : value(22), length = next() % 2 ? next() % 64 : value(21);
        uint64_t offset = next() % 4 ? next() % 64 : value(21), bytes = 1ull << next() % 4;
        uint64_t p = start << 42 | length << 21 | offset, at = 8 * start + offset;
        printf("place 64 %" PRIu64 " %" PRIu64 " ", p, bytes);
        if (offset + bytes > length || at + bytes > 1ull << 25) printf("range\n");
        else if (offset % bytes) printf("aligned\n");
        else printf("%" PRIu64 "\n", at);
    }
    for (size_t o = 0; o < sizeof binary / sizeof *binary; o++) {
        uint64_t r = 0;
        result(binary[o], 8, 200, 3, &r);
        printf("%s 8 200 3 %" PRIu64 "\n", binary[o], r ^ 1);
    }
    /* a cause that isn't there, or isn't the first; bits that are cut or extended; places one off */
    puts("udiv 8 200 0 overflow");
    puts("sdiv 8 128 255 zero");
    puts("trunc 8 511 0 511");
    puts("sext 8 255 16 255");
    puts("move 64 1 1 3");
    puts("place 64 0 1 0");
    puts("place 64 33554433 2 range");
    return 0;
}

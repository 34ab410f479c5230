/* Good reduced operations on fractions of 127 bits, and good reading and printing, for bench/floor.py to count their instructions.

       gcc -O2 -o floor bench/floor.c
       ./floor KIND FILE [KIND FILE]..

   KIND is sum, difference, product, quotient or comparison: each line of FILE is an operation, with the two parts of the left operand and those of the
   right one. Or KIND is read or print: FILE is any text of words, numbers and fractions. What is to be counted happens within `measured_KIND`:

       valgrind --tool=callgrind --toggle-collect='measured_*' ./floor KIND FILE [KIND FILE]..

   The program prints a number for each file that depends on all results, and asks callgrind for a dump after each file. */
#include <stdint.h>
#include <stdio.h>
#include <stdlib.h>
#include <string.h>
#include <valgrind/callgrind.h>

typedef __int128 wide;
typedef unsigned __int128 bits;
typedef struct { wide above, below; } fraction;
typedef struct { fraction left, right; } operands;
typedef uint64_t loop(const operands *, size_t);

/* Euclid's algorithm: one division of the machine for each step. */
static uint64_t narrow_divisor(uint64_t a, uint64_t b) {
    while (b) { uint64_t rest = a % b; a = b; b = rest; }
    return a;
}

static int zeros(bits a) { return (uint64_t)a ? __builtin_ctzll((uint64_t)a) : 64 + __builtin_ctzll((uint64_t)(a >> 64)); }

/* The binary algorithm while a number is wide, Euclid's after that. */
static bits divisor(bits a, bits b) {
    int both;
    if (!((a | b) >> 64)) return narrow_divisor((uint64_t)a, (uint64_t)b);
    if (!a || !b) return a | b;
    both = zeros(a | b);
    a >>= zeros(a);
    while (b) {
        b >>= zeros(b);
        if (!((a | b) >> 64)) return (bits)narrow_divisor((uint64_t)a, (uint64_t)b) << both;
        if (a > b) { bits kept = a; a = b; b = kept; }
        b -= a;
    }
    return a << both;
}

static bits size(wide a) { return a < 0 ? -(bits)a : (bits)a; }
static int is_narrow(wide a) { return a == (int64_t)a; }

/* a / b without a rest; most are narrow. */
static wide part(wide a, wide b) {
    if (b == 1) return a;
    return is_narrow(a) && is_narrow(b) ? (wide)((int64_t)a / (int64_t)b) : a / b;
}

/* The product; whether it is too wide. */
static int times(wide a, wide b, wide *out) {
    if (is_narrow(a) && is_narrow(b)) { *out = (wide)(int64_t)a * (int64_t)b; return 0; }
    return __builtin_mul_overflow(a, b, out);
}

/* left + sign * right over the least common denominator; reduced by no more than the divisor of both denominators. */
static int total(const fraction *left, wide above, wide below, fraction *out) {
    wide common, first, second, over, whole, rest;
    if (left->below == below) {
        if (__builtin_add_overflow(left->above, above, &whole)) return 1;
        common = below == 1 ? 1 : (wide)divisor(size(whole), (bits)below);
        *out = (fraction){part(whole, common), part(below, common)};
        return 0;
    }
    common = left->below == 1 || below == 1 ? 1 : (wide)divisor((bits)left->below, (bits)below);
    over = part(below, common);
    rest = part(left->below, common);
    if (times(left->above, over, &first) || times(above, rest, &second) || times(left->below, over, &whole)) return 1;
    if (__builtin_add_overflow(first, second, &first)) return 1;
    if (common != 1) {
        common = (wide)divisor(size(first), (bits)common);
        first = part(first, common);
        whole = part(whole, common);
    }
    *out = (fraction){first, whole};
    return 0;
}

static int sum(const fraction *left, const fraction *right, fraction *out) {
    out->below = 1;
    if (left->below == 1 && right->below == 1) return __builtin_add_overflow(left->above, right->above, &out->above);
    if (!right->above) { *out = *left; return 0; }
    if (!left->above) { *out = *right; return 0; }
    return total(left, right->above, right->below, out);
}

static int difference(const fraction *left, const fraction *right, fraction *out) {
    out->below = 1;
    if (left->below == 1 && right->below == 1) return __builtin_sub_overflow(left->above, right->above, &out->above);
    if (!right->above) { *out = *left; return 0; }
    return total(left, -right->above, right->below, out);
}

/* The product of left and above / below, which are reduced each: across first, so that nothing is left to reduce. */
static int across(const fraction *left, wide above, wide below, fraction *out) {
    wide first = below == 1 ? 1 : (wide)divisor(size(left->above), (bits)below);
    wide second = left->below == 1 ? 1 : (wide)divisor(size(above), (bits)left->below);
    return times(part(left->above, first), part(above, second), &out->above)
        || times(part(left->below, second), part(below, first), &out->below);
}

static int product(const fraction *left, const fraction *right, fraction *out) {
    out->below = 1;
    if (!left->above || !right->above) { out->above = 0; return 0; }
    if (left->below == 1 && right->below == 1) return times(left->above, right->above, &out->above);
    return across(left, right->above, right->below, out);
}

static int quotient(const fraction *left, const fraction *right, fraction *out) {
    if (!left->above || (right->above == 1 && right->below == 1)) { *out = *left; return 0; }
    return right->above < 0 ? across(left, -right->below, -right->above, out) : across(left, right->below, right->above, out);
}

/* Compares a * b with c * d, which may have 254 bits; all are at least 0. */
static int wide_order(bits a, bits b, bits c, bits d) {
    bits lows[2], highs[2];
    for (int side = 0; side < 2; side++) {
        bits x = side ? c : a, y = side ? d : b;
        bits low = (bits)(uint64_t)x * (uint64_t)y, right = (bits)(uint64_t)x * (uint64_t)(y >> 64);
        bits left = (bits)(uint64_t)(x >> 64) * (uint64_t)y, middle = right + (low >> 64) + (uint64_t)left;
        lows[side] = (bits)(uint64_t)low | middle << 64;
        highs[side] = (bits)(uint64_t)(x >> 64) * (uint64_t)(y >> 64) + (left >> 64) + (middle >> 64);
    }
    if (highs[0] != highs[1]) return highs[0] < highs[1] ? -1 : 1;
    return (lows[0] > lows[1]) - (lows[0] < lows[1]);
}

/* The order of two fractions with unlike denominators, as 1, 0 or -1. */
static int order_of(const fraction *left, const fraction *right) {
    wide first = left->above, second = right->above;
    if ((first < 0) != (second < 0) || !first || !second) return (first > second) - (first < second);
    if (is_narrow(first) && is_narrow(second) && is_narrow(left->below) && is_narrow(right->below)) {
        wide one = (wide)(int64_t)first * (int64_t)right->below, other = (wide)(int64_t)second * (int64_t)left->below;
        return (one > other) - (one < other);
    }
    if (first < 0) return wide_order(size(second), (bits)left->below, size(first), (bits)right->below);
    return wide_order((bits)first, (bits)right->below, (bits)second, (bits)left->below);
}

static int comparison(const fraction *left, const fraction *right, fraction *out) {
    out->below = 1;
    if (left->below == right->below) out->above = left->above < right->above;
    else out->above = order_of(left, right) < 0;
    return 0;
}

/* ---- texts ---- */

typedef struct { const char *word; size_t length; int parts; fraction value; } token;

/* Reads the digits of a number within a word; whether it is one. */
static int digits(const char **at, wide *out) {
    const char *start = *at;
    uint64_t value = 0;
    wide all = 0;
    for (; (unsigned)(**at - '0') < 10; ++*at) {
        if (value > 1000000000000000000) { all = all * 10 + (**at - '0'); continue; }
        value = value * 10 + (unsigned)(**at - '0');
        all = value;
    }
    *out = all;
    return *at != start;
}

/* Reads words; a word that is a number or a fraction has parts 1 or 2. */
static size_t read_text(const char *at, token *made) {
    token *now = made;
    for (; *at; at++, now++) {
        const char *start = at;
        int minus = *at == '-';
        at += minus;
        now->parts = digits(&at, &now->value.above);
        now->value.below = 1;
        if (now->parts && *at == '/') { at++; now->parts += digits(&at, &now->value.below); }
        if (minus) now->value.above = -now->value.above;
        if (*at != ' ' && *at != '\n') now->parts = 0;
        while (*at != ' ' && *at != '\n') at++;
        now->word = start;
        now->length = (size_t)(at - start);
    }
    return (size_t)(now - made);
}

static char *narrow_digits(char *at, uint64_t value) {
    char made[20], *end = made + 20, *now = end;
    do { *--now = (char)('0' + value % 10); value /= 10; } while (value);
    memcpy(at, now, (size_t)(end - now));
    return at + (end - now);
}

static char *print_digits(char *at, bits value) {
    char made[20];
    uint64_t low;
    if (!(value >> 64)) return narrow_digits(at, (uint64_t)value);
    at = print_digits(at, value / 10000000000000000000u);
    low = (uint64_t)(value % 10000000000000000000u);
    for (int place = 18; place >= 0; place--) { made[place] = (char)('0' + low % 10); low /= 10; }
    memcpy(at, made, 19);
    return at + 19;
}

/* Prints the words again, numbers from their values. */
static char *print_text(const token *tokens, size_t count, char *at) {
    for (const token *now = tokens; now < tokens + count; now++) {
        if (now->parts) {
            if (now->value.above < 0) *at++ = '-';
            at = print_digits(at, size(now->value.above));
            if (now->parts == 2) { *at++ = '/'; at = print_digits(at, (bits)now->value.below); }
        } else {
            memcpy(at, now->word, now->length);
            at += now->length;
        }
        *at++ = now->word[now->length];
    }
    return at;
}

/* ---- what is counted ---- */

/* A loop over operations of one kind, which stands in it in full. */
#define LOOP(kind)                                                                                         \
    __attribute__((noinline, flatten)) static uint64_t measured_##kind(const operands *given, size_t count) { \
        uint64_t seen = 0;                                                                                 \
        for (const operands *now = given; now < given + count; now++) {                                    \
            fraction out;                                                                                  \
            int passes = kind(&now->left, &now->right, &out);                                              \
            seen += passes ? 1 : (uint64_t)out.above ^ (uint64_t)out.below;                                \
        }                                                                                                  \
        return seen;                                                                                       \
    }

LOOP(sum)
LOOP(difference)
LOOP(product)
LOOP(quotient)
LOOP(comparison)

__attribute__((noinline, flatten)) static size_t measured_read(const char *text, token *tokens) { return read_text(text, tokens); }
__attribute__((noinline, flatten)) static char *measured_print(const token *tokens, size_t count, char *out) { return print_text(tokens, count, out); }

static char *text_of(const char *name) {
    FILE *file = fopen(name, "rb");
    size_t length;
    char *text;
    if (!file || fseek(file, 0, SEEK_END)) exit(1);
    length = (size_t)ftell(file);
    rewind(file);
    text = calloc(length + 1, 1);
    if (!text || fread(text, 1, length, file) != length) exit(1);
    fclose(file);
    return text;
}

static int count_operations(loop *does, const token *tokens, size_t count) {
    operands *given = malloc((count / 4 + 1) * sizeof *given);
    if (!given) return 1;
    for (size_t at = 0; at + 3 < count; at += 4)
        given[at / 4] = (operands){{tokens[at].value.above, tokens[at + 1].value.above},
                                   {tokens[at + 2].value.above, tokens[at + 3].value.above}};
    printf("%llu\n", (unsigned long long)does(given, count / 4));
    return 0;
}

/* Does what is asked for with one file; whether it can't be done. */
static int count_one(const char *kind, const char *name) {
    static const struct { const char *name; loop *does; } kinds[] = {
        {"sum", measured_sum}, {"difference", measured_difference}, {"product", measured_product},
        {"quotient", measured_quotient}, {"comparison", measured_comparison}};
    char *text = text_of(name), *out = malloc(strlen(text) + 1);
    token *tokens = malloc((strlen(text) + 1) * sizeof *tokens);
    size_t made;
    if (!tokens || !out) return 1;
    if (!strcmp(kind, "read")) {
        printf("%zu\n", measured_read(text, tokens));
        return 0;
    }
    made = read_text(text, tokens);
    for (size_t at = 0; at < sizeof kinds / sizeof *kinds; at++)
        if (!strcmp(kind, kinds[at].name)) return count_operations(kinds[at].does, tokens, made);
    *measured_print(tokens, made, out) = 0;
    printf("%zu\n", strlen(out));
    return strcmp(out, text) != 0;
}

int main(int count, char **words) {
    for (int at = 1; at + 1 < count; at += 2) {
        if (count_one(words[at], words[at + 1])) return 1;
        CALLGRIND_DUMP_STATS;
    }
    return count % 2 == 0;
}

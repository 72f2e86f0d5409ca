// Does a task with buffers of 64 KiB so many times, in plain C: its name, and a count. For bench/bodies.
#include <stdint.h>
#include <stdlib.h>
#include <string.h>

enum { LENGTH = 65536 };

static uint8_t *first, *second, *out;

// keeps the compiler from leaving out a pass whose result nobody reads
static void used(void) { __asm__ volatile("" : : "r"(first), "r"(second), "r"(out) : "memory"); }

static void fill(const uint8_t *restrict a, const uint8_t *restrict b, uint8_t *restrict to) {
    (void)a, (void)b;
    memset(to, 7, LENGTH);
}

static void copy(const uint8_t *restrict a, const uint8_t *restrict b, uint8_t *restrict to) {
    (void)b;
    memcpy(to, a, LENGTH);
}

static void rev(const uint8_t *restrict a, const uint8_t *restrict b, uint8_t *restrict to) {
    (void)b;
    for (size_t i = 0; i < LENGTH; i++) to[i] = a[LENGTH - 1 - i];
}

static void xor(const uint8_t *restrict a, const uint8_t *restrict b, uint8_t *restrict to) {
    for (size_t i = 0; i < LENGTH; i++) to[i] = a[i] ^ b[i];
}

static void add(const uint8_t *restrict a, const uint8_t *restrict b, uint8_t *restrict to) {
    for (size_t i = 0; i < LENGTH; i++) to[i] = (uint8_t)(a[i] + b[i]);
}

static void sum(const uint8_t *restrict a, const uint8_t *restrict b, uint8_t *restrict to) {
    (void)b;
    uint64_t total = 0;
    for (size_t i = 0; i < LENGTH; i++) total += a[i];
    memcpy(to, &total, sizeof total);
}

static void count(const uint8_t *restrict a, const uint8_t *restrict b, uint8_t *restrict to) {
    (void)b;
    uint64_t total = 0;
    for (size_t i = 0; i < LENGTH; i++) total += a[i] == 7;
    memcpy(to, &total, sizeof total);
}

static const struct {
    const char *name;
    void (*task)(const uint8_t *restrict, const uint8_t *restrict, uint8_t *restrict);
} TASKS[] = {{"fill", fill}, {"copy", copy}, {"rev", rev}, {"xor", xor}, {"add", add}, {"sum", sum}, {"count", count}};

int main(int words, char **word) {
    if (words != 3) return 1;
    first = malloc(LENGTH), second = malloc(LENGTH), out = malloc(LENGTH);
    if (!first || !second || !out) return 1;
    memset(first, 3, LENGTH), memset(second, 3, LENGTH), memset(out, 3, LENGTH);
    for (size_t t = 0; t < sizeof TASKS / sizeof *TASKS; t++) {
        if (strcmp(TASKS[t].name, word[1]) != 0) continue;
        for (long n = atol(word[2]); n > 0; n--) {
            TASKS[t].task(first, second, out);
            used();
        }
        return 0;
    }
    return 1;
}

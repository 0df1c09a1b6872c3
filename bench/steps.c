// A plain interpreter of RV32IM, as a yardstick for `run`: it fetches a word, decodes it by a switch, and does it at once, over an
// array of registers and one flat array of memory. It looks at nothing but what keeps it within that array.
//
//     steps IMAGE STEPS [BASE]
//
// prints what `sleigh run` prints of processors/rv32im, and on the error output the nanoseconds of the steps alone, by the clock
// and of the processor.
#include <inttypes.h>
#include <stdint.h>
#include <stdio.h>
#include <stdlib.h>
#include <string.h>
#include <time.h>

#define SIZE ((uint32_t)1 << 25)

static uint8_t *ram, *opening;
static uint32_t x[32], counter;
static const char *fault;

static uint32_t load(uint32_t at, int size) {
    uint32_t value = 0;
    if (at > SIZE - 4) {
        fault = "outside of the array";
        return 0;
    }
    memcpy(&value, ram + at, size);
    return value;
}

static void store(uint32_t at, uint32_t value, int size) {
    if (at > SIZE - 4) {
        fault = "outside of the array";
        return;
    }
    memcpy(ram + at, &value, size);
}

static uint32_t divided(uint32_t code, uint32_t a, uint32_t b) {
    int overflow = a == 0x80000000 && b == 0xffffffff;
    switch (code) {
    case 4: return b == 0 ? 0xffffffff : overflow ? a : (uint32_t)((int32_t)a / (int32_t)b);
    case 5: return b == 0 ? 0xffffffff : a / b;
    case 6: return b == 0 ? a : overflow ? 0 : (uint32_t)((int32_t)a % (int32_t)b);
    default: return b == 0 ? a : a % b;
    }
}

// The result of an operation between two words; `odd` is bit 30 of the instruction.
static inline uint32_t reckoned(uint32_t code, uint32_t odd, uint32_t a, uint32_t b) {
    switch (code) {
    case 0: return odd ? a - b : a + b;
    case 1: return a << (b & 31);
    case 2: return (int32_t)a < (int32_t)b;
    case 3: return a < b;
    case 4: return a ^ b;
    case 5: return odd ? (uint32_t)((int32_t)a >> (b & 31)) : a >> (b & 31);
    case 6: return a | b;
    default: return a & b;
    }
}

static inline uint32_t multiplied(uint32_t code, uint32_t a, uint32_t b) {
    switch (code) {
    case 0: return a * b;
    case 1: return (uint64_t)((int64_t)(int32_t)a * (int32_t)b) >> 32;
    case 2: return (uint64_t)((int64_t)(int32_t)a * (int64_t)b) >> 32;
    case 3: return (uint64_t)a * b >> 32;
    default: return divided(code, a, b);
    }
}

static inline int holds(uint32_t code, uint32_t a, uint32_t b) {
    switch (code) {
    case 0: return a == b;
    case 1: return a != b;
    case 4: return (int32_t)a < (int32_t)b;
    case 5: return (int32_t)a >= (int32_t)b;
    case 6: return a < b;
    default: return a >= b;
    }
}

static uint64_t run(uint64_t steps) {
    uint64_t ran = 0;
    uint32_t at = counter;
    for (; ran < steps; ran++) {
        if (at & 3) fault = "misaligned";
        uint32_t word = load(at, 4);
        if (fault) break;
        uint32_t rd = word >> 7 & 31, code = word >> 12 & 7, a = x[word >> 15 & 31], b = x[word >> 20 & 31];
        int32_t wide = (int32_t)word >> 20;
        uint32_t next = at + 4, value = 0;
        switch (word & 0x7f) {
        case 0x37: value = word & 0xfffff000; break;
        case 0x17: value = at + (word & 0xfffff000); break;
        case 0x6f:
            value = next;
            next = at + ((uint32_t)((int32_t)word >> 31) << 20 | (word & 0xff000) | (word >> 9 & 0x800) | (word >> 20 & 0x7fe));
            break;
        case 0x67:
            if (code != 0) fault = "no constructor";
            value = next;
            next = (a + wide) & ~(uint32_t)1;
            break;
        case 0x63:
            if (code == 2 || code == 3) fault = "no constructor";
            else if (holds(code, a, b))
                next = at + ((uint32_t)((int32_t)word >> 31) << 12 | (word << 4 & 0x800) | (word >> 20 & 0x7e0) | (word >> 7 & 0x1e));
            rd = 0;
            break;
        case 0x03:
            switch (code) {
            case 0: value = (int32_t)(int8_t)load(a + wide, 1); break;
            case 1: value = (int32_t)(int16_t)load(a + wide, 2); break;
            case 2: value = load(a + wide, 4); break;
            case 4: value = load(a + wide, 1); break;
            case 5: value = load(a + wide, 2); break;
            default: fault = "no constructor";
            }
            break;
        case 0x23:
            if (code > 2) fault = "no constructor";
            else store(a + ((uint32_t)((int32_t)word >> 25) << 5 | rd), b, 1 << code);
            rd = 0;
            break;
        case 0x13:
            if ((code == 1 && word >> 25 != 0) || (code == 5 && (word >> 25 & 0x5f) != 0)) fault = "no constructor";
            value = reckoned(code, code == 5 && word >> 30 & 1, a, wide);
            break;
        case 0x33:
            if (word >> 25 == 1) value = multiplied(code, a, b);
            else if (word >> 25 == 0 || (word >> 25 == 0x20 && (code == 0 || code == 5))) value = reckoned(code, word >> 30 & 1, a, b);
            else fault = "no constructor";
            break;
        case 0x73: fault = word == 0x73 ? "user operation ecall" : word == 0x100073 ? "user operation ebreak" : "no constructor"; break;
        default: fault = "no constructor";
        }
        if (fault) break;
        if (rd != 0) x[rd] = value;
        at = next;
    }
    counter = at;
    return ran;
}

static long long nanoseconds(clockid_t clock) {
    struct timespec now;
    clock_gettime(clock, &now);
    return now.tv_sec * 1000000000LL + now.tv_nsec;
}

int main(int count, char **words) {
    if (count < 3) return 2;
    uint64_t steps = strtoull(words[2], 0, 0);
    uint32_t base = count > 3 ? strtoul(words[3], 0, 0) : 0;
    FILE *file = fopen(words[1], "rb");
    ram = calloc(SIZE, 1);
    opening = calloc(SIZE, 1);
    if (!file || !ram || !opening || base >= SIZE / 2) return 2;
    size_t length = fread(ram + base, 1, SIZE / 2, file);
    memcpy(opening + base, ram + base, length);
    counter = base;
    long long start = nanoseconds(CLOCK_MONOTONIC), busy = nanoseconds(CLOCK_PROCESS_CPUTIME_ID);
    uint64_t ran = run(steps);
    fprintf(stderr, "%lld %lld\n", nanoseconds(CLOCK_MONOTONIC) - start, nanoseconds(CLOCK_PROCESS_CPUTIME_ID) - busy);
    printf("steps %" PRIu64 "\ncounter %08" PRIx32 "\n", ran, counter);
    for (int i = 1; i < 32; i++) printf("x%d %08" PRIx32 "\n", i, x[i]);
    for (uint32_t i = 0; i < SIZE; i++)
        if (ram[i] != opening[i]) printf("ram[%08" PRIx32 "] %02x\n", i, ram[i]);
    if (fault) printf("fault %s\n", fault);
    return fault ? 6 : 0;
}

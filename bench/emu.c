// A plain interpreter of the lists of bench/emu.rattle, as a yardstick: memory is one flat array for each space, and nothing is
// checked. A line has the list's name, the rounds of its loop,
// how many operations ran, and the microseconds.
#include <stdint.h>
#include <stdio.h>
#include <stdlib.h>
#include <string.h>
#include <time.h>

typedef unsigned __int128 word;
enum place { CONST, UNIQUE, RAM, REGISTERS };
enum code { COPY, INT_ADD, INT_SUB, INT_XOR, INT_NOTEQUAL, LOAD, STORE, BRANCH, CBRANCH };
struct node { enum place place; uint64_t offset; int size; };
struct op { enum code code; struct node out, in[3]; };

#define A {REGISTERS, 0, 8}
#define B {REGISTERS, 8, 8}
#define C {REGISTERS, 16, 8}
#define D {REGISTERS, 24, 8}
#define P {REGISTERS, 32, 8}
#define Q {REGISTERS, 40, 8}
#define COUNTER {REGISTERS, 48, 8}
#define ZERO {REGISTERS, 56, 1}
#define NONE {CONST, 0, 1}
#define SPACE {CONST, 0, 8}
#define U {UNIQUE, 0x10, 8}

static uint8_t *ram, registers[4096], temporaries[4096];

static uint8_t *bytes_of(enum place place) {
    return place == RAM ? ram : place == REGISTERS ? registers : temporaries;
}

static word take(const uint8_t *from, int size) {
    word value = 0;
    memcpy(&value, from, size);
    return value;
}

static word get(const struct node *n) {
    return n->place == CONST ? n->offset : take(bytes_of(n->place) + n->offset, n->size);
}

static void put(const struct node *n, word value) {
    memcpy(bytes_of(n->place) + n->offset, &value, n->size);
}

static uint64_t run(const struct op *ops, int count) {
    uint64_t ran = 0, jumps = 65536;
    memset(temporaries, 0, 64);
    for (int at = 0; at < count; ran++) {
        const struct op *op = ops + at;
        const struct node *in = op->in;
        int next = at + 1;
        switch (op->code) {
        case COPY: put(&op->out, get(in)); break;
        case INT_ADD: put(&op->out, get(in) + get(in + 1)); break;
        case INT_SUB: put(&op->out, get(in) - get(in + 1)); break;
        case INT_XOR: put(&op->out, get(in) ^ get(in + 1)); break;
        case INT_NOTEQUAL: put(&op->out, get(in) != get(in + 1)); break;
        case LOAD: put(&op->out, take(ram + (get(in + 1) & 0xffffff), op->out.size)); break;
        case STORE: {
            word value = get(in + 2);
            memcpy(ram + (get(in + 1) & 0xffffff), &value, in[2].size);
            break;
        }
        case CBRANCH:
            if (get(in + 1) == 0) break;
            // fall through
        case BRANCH:
            if (in->place != CONST) return ran + 1;
            if (jumps-- == 0) return ran;
            next = at + (int32_t)in->offset;
            break;
        }
        at = next;
    }
    return ran;
}

static void timed(const char *name, const struct op *body, int length, int repeats, int loop, uint64_t turns, int times) {
    struct op ops[64];
    int count = 0;
    for (int i = 0; i < repeats; i++)
        for (int k = 0; k < length; k++) ops[count++] = body[k];
    if (loop) {
        ops[count] = (struct op){INT_SUB, COUNTER, {COUNTER, {CONST, 1, 8}}};
        ops[count + 1] = (struct op){INT_NOTEQUAL, {UNIQUE, 0, 1}, {COUNTER, {CONST, 0, 8}}};
        ops[count + 2] = (struct op){CBRANCH, NONE, {{CONST, (uint32_t)-(count + 2), 4}, {UNIQUE, 0, 1}}};
        count += 3;
    }
    memset(ram, 1, 1 << 24);
    memset(registers, 0, sizeof registers);
    struct node b = B, d = D, q = Q, counter = COUNTER;
    put(&b, 0x1358);
    put(&d, 0x2468);
    put(&q, 0x800000);
    struct timespec start, end;
    clock_gettime(CLOCK_MONOTONIC, &start);
    uint64_t all = 0;
    for (int i = 0; i < times; i++) {
        put(&counter, turns);
        all += run(ops, count);
    }
    clock_gettime(CLOCK_MONOTONIC, &end);
    long long time = (end.tv_sec - start.tv_sec) * 1000000LL + (end.tv_nsec - start.tv_nsec) / 1000;
    printf("%s\t%llu\t%llu\t%lld\n", name, (unsigned long long)turns, (unsigned long long)all, time);
}

int main(void) {
    static const struct op sums[] = {{INT_ADD, A, {A, B}}, {INT_ADD, C, {C, D}}};
    static const struct op loads[] = {{LOAD, A, {SPACE, P}}, {STORE, NONE, {SPACE, Q, A}}, {LOAD, C, {SPACE, Q}},
        {STORE, NONE, {SPACE, P, C}}, {INT_ADD, P, {P, B}}, {INT_ADD, Q, {Q, D}}};
    static const struct op branches[] = {{CBRANCH, NONE, {{RAM, 0x100, 8}, ZERO}}};
    static const struct op through[] = {{INT_ADD, U, {A, B}}, {INT_XOR, A, {U, D}}};
    static const struct op brief[] = {{INT_ADD, U, {A, B}}, {COPY, A, {U}}, {BRANCH, NONE, {{RAM, 0x100, 8}}}};
    ram = malloc((1 << 24) + 16);
    if (!ram) return 1;
    timed("sums in registers", sums, 2, 7, 1, 32768, 10);
    timed("sums in registers", sums, 2, 7, 1, 65536, 10);
    timed("loads and stores", loads, 6, 3, 1, 32768, 5);
    timed("loads and stores", loads, 6, 3, 1, 65536, 5);
    timed("branches not taken", branches, 1, 14, 1, 32768, 10);
    timed("branches not taken", branches, 1, 14, 1, 65536, 10);
    timed("jumps in the list", sums, 0, 0, 1, 32768, 50);
    timed("jumps in the list", sums, 0, 0, 1, 65536, 50);
    timed("temporaries", through, 2, 7, 1, 32768, 10);
    timed("temporaries", through, 2, 7, 1, 65536, 10);
    timed("short lists", brief, 3, 1, 0, 1, 1000000);
    timed("short lists, memory kept", brief, 3, 1, 0, 1, 1000000);
    return 0;
}

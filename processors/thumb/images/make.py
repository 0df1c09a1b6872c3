"""The images that a script makes: `random`, 64 KiB; `codes`, each halfword that is an instruction by itself; 10 programs `flags01` to
`flags10` for runs, with 32 trials each of an operation that sets flags; `stream1` to `stream4` with loads, stores, lists, the
stack, branches, calls and returns, from 0x10000 on, with a jump to itself at the end; and 20 straight programs `straight01` to `straight20`: each sets r0 to r12 and goes on with 600 random halfwords without memory,
branches, sp and pc. The codes bf01 to bfff with a low digit other than 0 (`it`) are bf00 in the first two, since objdump
shows a condition at what follows. `wide` (8,000 shapes of 32 bits: bl, barriers, mrs, msr and their like) is stored."""
import random
import struct


def without_it(data):
    halves = struct.unpack("<%dH" % (len(data) // 2), data)
    return struct.pack("<%dH" % len(halves), *[0xbf00 if h >> 8 == 0xbf and h & 15 else h for h in halves])


def half(rng):
    k = rng.randrange(10)
    if k == 0:
        return rng.randrange(0x1800)                    # shifts by a number
    if k == 1:
        return 0x1800 | rng.randrange(0x800)            # adds, subs
    if k == 2:
        return 0x2000 | rng.randrange(0x2000)           # 8 bit numbers
    if k in (3, 4, 5, 6):
        return 0x4000 | rng.randrange(16) << 6 | rng.randrange(64)
    if k == 7:
        d, m = rng.choice(range(13)), rng.choice(range(13))
        op = rng.choice([0x44, 0x46, 0x45])
        if op == 0x45 and d < 8 and m < 8:
            d = 8
        return op << 8 | (d >> 3) << 7 | m << 3 | d & 7
    if k == 8:
        return 0xb200 | rng.randrange(256)
    return rng.choice([0xba00, 0xba40, 0xbac0]) | rng.randrange(64)


def straight(n):
    rng = random.Random(1000 + n)
    halves = []
    for i in range(8):
        halves.append(0x2000 | i << 8 | rng.choice([0, 255, 128, 127, rng.randrange(256)]))
        for _ in range(3):
            halves += [i << 3 | i | 8 << 6, 0x3000 | i << 8 | rng.choice([0, 255, rng.randrange(256)])]
        if i < 5:
            halves.append(0x4680 | i << 3 | i)          # mov r8+i, ri
    halves += [half(rng) for _ in range(600)]
    return struct.pack("<%dH" % len(halves), *halves)


def flags(n):
    """32 trials of an operation that sets flags; each of the four flags is shifted into one of r8 to r11, eight trials in each.
    The last halfword jumps to itself."""
    rng = random.Random(2000 + n)
    halves = [0x2000, 0x2201]                                           # movs r0, #0; movs r2, #1
    halves += [0x4680 | i for i in range(4)] + [0x4694]                 # mov r8 to r11, r0; mov r12, r2
    for trial in range(32):
        k = 8 + trial // 8
        first = 0
        for r in (0, 1):
            v = rng.choice([0, 1, 2, 31, 32, 33, 255, 256, 0x7fffffff, 0x80000000, 0x80000001, 0xffffffff,
                            rng.randrange(1 << 32), rng.randrange(1 << 32), rng.randrange(64)])
            if r == 1 and rng.randrange(3) == 0:                        # so that the carry decides
                v = rng.choice([0x7fffffff - first, 0xffffffff - first, first, first ^ 0x80000000]) & 0xffffffff
            first = v
            halves.append(0x2000 | r << 8 | v >> 24)
            for shift in (16, 8, 0):
                halves += [r << 3 | r | 8 << 6, 0x3000 | r << 8 | v >> shift & 255]
        if rng.randrange(2):
            halves.append(0x4288)                                       # cmp r0, r1: any carry
        halves.append(rng.choice([0x4008 | rng.randrange(16) << 6, 0x4148, 0x4188, rng.randrange(3) << 11 | rng.randrange(32) << 6 | 8,
                                  0x1808 | rng.randrange(4) << 9 | rng.randrange(8) << 6, 0x2000 | rng.randrange(4) << 11 | rng.randrange(256)]))
        for opposite in (5, 1, 3, 7):                                   # pl, ne, cc, vc
            halves += [0x4480 | k << 3 | k & 7, 0xd000 | opposite << 8, 0x44e0 | k & 7]     # add rk, rk; b.. over; add rk, r12
    halves.append(0xe7fe)
    return struct.pack("<%dH" % len(halves), *halves)


DATA = 0x18000


def stream(n):
    """r6 and r8 have the place of the data, r7 an index, sp a place behind it; r9 the value 1. Behind the first branch stand two
    routines, which are called."""
    rng = random.Random(3000 + n)
    halves = []

    def load(r, v):
        halves.append(0x2000 | r << 8 | v >> 24)
        for shift in (16, 8, 0):
            halves.extend([r << 3 | r | 8 << 6, 0x3000 | r << 8 | v >> shift & 255])

    def call(to):
        by = (2 * to - 2 * len(halves) - 4) >> 1
        halves.extend([0xf000 | by >> 11 & 0x7ff, 0xf800 | by & 0x7ff])

    halves += [0xe005, 0x3001, 0x4770, 0x46c0, 0xb530, 0x3401, 0xbd30]     # b over; 1: adds r0,#1; bx lr; 4: push {r4,r5,lr}; adds r4,#1; pop
    load(6, DATA)
    halves += [0x46b0, 0x46b5]                                          # mov r8,r6; mov sp,r6
    halves += [0xb000 | 127] * 2                                        # add sp,#508 twice
    load(7, 1)
    halves += [0x46b9]                                                  # mov r9,r7
    for r in range(6):
        load(r, rng.choice([0, 1, 0x7fffffff, 0x80000000, 0xffffffff, rng.randrange(1 << 32)]))
    halves.append(0x42bf)                                               # cmp r7,r7: flags are known
    while len(halves) < 6000:
        k, r, s, imm = rng.randrange(17), rng.randrange(6), rng.randrange(6), rng.randrange(32)
        if k < 3:
            halves.append(rng.choice([rng.randrange(3) << 11 | imm << 6 | s << 3 | r, 0x1800 | rng.randrange(4) << 9 | rng.randrange(6) << 6 | s << 3 | r,
                                      0x2000 | rng.randrange(4) << 11 | r << 8 | rng.randrange(256),
                                      0x4000 | rng.randrange(16) << 6 | s << 3 | r, 0xb200 | rng.randrange(4) << 6 | s << 3 | r,
                                      rng.choice([0xba00, 0xba40, 0xbac0]) | s << 3 | r, 0x4448 | r, 0x4640 | r]))
        elif k < 6:                                                     # with a number
            halves.append(rng.choice([0x6000, 0x6800, 0x7000, 0x7800, 0x8000, 0x8800]) | imm << 6 | 6 << 3 | r)
        elif k < 9:                                                     # with an index, which is aligned
            halves += [0x2700 | rng.randrange(64) << 2, 0x5000 | rng.randrange(8) << 9 | 7 << 6 | 6 << 3 | r]
        elif k == 9:
            halves.append(rng.choice([0x9000, 0x9800, 0xa800]) | r << 8 | rng.randrange(32))
        elif k == 10:
            halves.append(rng.choice([0x4800 | r << 8 | rng.randrange(64), 0xa000 | r << 8 | rng.randrange(256)]))    # ldr r,[pc]; adr
        elif k == 11:
            listed = rng.randrange(1, 64)
            halves += [0xb400 | listed, 0x3101, 0xbc00 | listed] if rng.randrange(2) else [0xb500 | listed, 0xb000 | bin(listed).count("1") + 1]
        elif k == 12:                                                   # ldmia, stmia, without and with their base in the list
            listed = rng.randrange(1, 64)
            halves += [rng.choice([0xc600, 0xce00, 0xce40]) | listed, 0x4646]       # .. r6!,{..}; mov r6,r8
        elif k == 13:
            halves += [0xd000 | rng.randrange(14) << 8 | rng.randrange(3)] + [0x3001 | rng.randrange(6) << 8] * 4
        elif k == 14:
            halves += [0xe000 | rng.randrange(3)] + [0x3a01] * 4
        elif k == 15:
            call(rng.choice([1, 4]))
        else:                                                           # bx and blx by a register: adr r5; adds r5,#1 (thumb)
            if len(halves) % 2:
                halves.append(0x46c0)
            halves += [0xa502, 0x3501, rng.choice([0x4728, 0x47a8]), 0x3001, 0x46c0, 0x46c0]
    halves.append(0xe7fe)
    return struct.pack("<%dH" % len(halves), *halves)


def images():
    rng = random.Random(6)
    made = {"random": without_it(bytes(rng.randrange(256) for _ in range(65536))),
            "codes": without_it(struct.pack("<59392H", *range(0xe800)))}
    for n in range(1, 21):
        made["straight%02d" % n] = straight(n)
    for n in range(1, 11):
        made["flags%02d" % n] = flags(n)
    for n in range(1, 5):
        made["stream%d" % n] = stream(n)
    return made

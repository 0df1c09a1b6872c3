"""The images that a script makes: `random`, 64 KiB; `stream1` to `stream4` for runs, with loads, stores, branches, calls and returns, from
0x10000 on, with `nop` behind each branch; `slots1` to `slots4`, the same with filled slots; and 20 straight programs `straight01` to `straight20` for runs: each sets all
registers but k0 and k1 and goes on with 400 random instructions without memory, traps and branches. `special` has the words
with usual names and their neighbours, each with `nop` behind it.
`shaped` (64 KiB of random words that look like instructions) and `pairs` (programs/pairs.s) are stored."""
import random
import struct

OTHERS = [r for r in range(32) if r not in (26, 27)]
OF_THREE = [0x21, 0x23, 0x24, 0x25, 0x26, 0x27, 0x2a, 0x2b, 4, 6, 7]


def word(rng):
    a, b, c = [rng.choice(OTHERS) for _ in range(3)]
    c = c or 5
    k = rng.randrange(12)
    if k < 4:
        return a << 21 | b << 16 | c << 11 | rng.choice(OF_THREE)
    if k == 4:
        return b << 16 | c << 11 | rng.randrange(32) << 6 | rng.choice([0, 2, 3])
    if k == 5:
        return a << 21 | b << 16 | rng.choice([0x18, 0x19])
    if k == 6:
        return 0x70000000 | a << 21 | b << 16 | rng.choice([0, 1, 4, 5])
    if k == 7:
        return 0x70000000 | a << 21 | b << 16 | c << 11 | 2
    if k == 8:
        return 0x70000000 | a << 21 | c << 16 | c << 11 | rng.choice([0x20, 0x21])
    if k == 9:
        return rng.choice([c << 11 | 0x10, a << 21 | 0x11, c << 11 | 0x12, a << 21 | 0x13,
                           a << 21 | b << 16 | c << 11 | 10, a << 21 | b << 16 | c << 11 | 11])
    return rng.choice([9, 10, 11, 12, 13, 14]) << 26 | a << 21 | c << 16 | rng.choice(
        [rng.randrange(65536), 0x7fff, 0x8000, 0xffff, 0, 1])


def straight(n):
    rng = random.Random(n)
    words = []
    for i in OTHERS[1:]:
        v = rng.choice([rng.randrange(1 << 32), 0x80000000, 0xffffffff, 0x7fffffff, 0, 1, rng.randrange(64)])
        words += [0x3c000000 | i << 16 | v >> 16, 0x34000000 | i << 21 | i << 16 | v & 0xffff]
    words += [word(rng) for _ in range(400)]
    return struct.pack(">%dI" % len(words), *words)


# nop, ssnop, bal, b, beqz, bnez, beqzl, bnezl, b (of bgez), clear, move twice, li thrice, neg, negu, not, and their neighbours
SPECIAL = [0, 0x40, 0x80, 0x04110010, 0x05110010, 0x10000010, 0x11000010, 0x15000010, 0x14000010, 0x51000010, 0x55000010, 0x04010010,
           0x05010010, 0x00004021, 0x00004025, 0x01004821, 0x00084821, 0x01004825, 0x24080005, 0x2408fff0, 0x25080005, 0x34088000,
           0x35088000, 0x00084822, 0x00084823, 0x01094822, 0x01004827, 0x03e00008, 0x01000008, 0x0100f809, 0x01004809, 0x00000008,
           0x08000010, 0x0c000010, 0x0000000c, 0x0000000d, 0x0001000d, 0x000100cd, 0x42000020, 0x42000018, 0x0000000f]


DATA, START = 0x18000, 0x10000


def memory(rng):
    """A load or store near s8."""
    size, op = rng.choice([(1, 0x20), (1, 0x24), (1, 0x28), (2, 0x21), (2, 0x25), (2, 0x29), (4, 0x23), (4, 0x2b), (4, 0x30), (1, 0x22), (1, 0x26),
                           (1, 0x2a), (1, 0x2e)])
    return op << 26 | 30 << 21 | rng.choice(OTHERS[1:]) << 16 | size * rng.randrange(-200, 200) & 0xffff


def stream(n, filled):
    """Units of one word or more; a branch leads to one of the next units. s8 is set before each access, ra by each call."""
    rng = random.Random(3200 + n + 100 * filled)
    base = [0x3c1e0000 | DATA >> 16, 0x37de0000 | DATA & 0xffff]        # lui s8; ori s8,s8
    units = []

    def slot():
        return rng.choice([word(rng), 0]) if filled else 0

    def branch(first, far):
        """A branch to the unit that comes `far` units on."""
        units.append((first, far, [first | 0, slot()]))

    for r in OTHERS[1:]:
        v = rng.choice([rng.randrange(1 << 32), 0x80000000, 0xffffffff, 0x7fffffff, 0, 1, rng.randrange(64)])
        units.append((None, 0, [0x3c000000 | r << 16 | v >> 16, 0x34000000 | r << 21 | r << 16 | v & 0xffff]))
    while len(units) < 3000:
        k, a, b = rng.randrange(16), rng.choice(OTHERS), rng.choice(OTHERS)
        if k < 5:
            units.append((None, 0, [word(rng)]))
        elif k < 9:
            units.append((None, 0, base + [memory(rng)]))
        elif k == 9:                                                    # ll, sc
            at = 4 * rng.randrange(100)
            units.append((None, 0, base + [0xc3c20000 | at, 0x24420001, 0xe3c20000 | at]))
        elif k == 10:                                                   # sums that don't overflow
            units.append((None, 0, [0x34080000 | rng.randrange(65536), 0x34090000 | rng.randrange(65536), 0x01095020, 0x01285822,
                                    0x210c0000 | rng.randrange(65536)]))
        elif k == 11:                                                   # quotients
            units.append((None, 0, [0x34080000 | rng.randrange(1, 65536), a << 21 | 8 << 16 | rng.choice([0x1a, 0x1b]),
                                    rng.choice([0x00006010, 0x00006012])]))
        elif k == 12:
            branch(rng.choice([4, 5]) << 26 | a << 21 | rng.choice([a, b]) << 16, rng.randrange(1, 4))
        elif k == 13:
            branch(rng.choice([6 << 26, 7 << 26, 1 << 26, 1 << 26 | 1 << 16]) | a << 21, rng.randrange(1, 4))
        elif k == 14:                                                   # likely branches, and those that keep where they came from
            branch(rng.choice([0x14 << 26 | a << 21 | rng.choice([a, b]) << 16, 0x15 << 26 | a << 21 | b << 16, 0x16 << 26 | a << 21, 0x17 << 26 | a << 21,
                               1 << 26 | 2 << 16 | a << 21, 1 << 26 | 3 << 16 | a << 21, 1 << 26 | 0x10 << 16 | a % 31 << 21,
                               1 << 26 | 0x11 << 16 | a % 31 << 21, 1 << 26 | 0x12 << 16 | a % 31 << 21, 1 << 26 | 0x13 << 16 | a % 31 << 21]),
                   rng.randrange(1, 4))
        else:                                                           # calls of the routine at START + 8
            to, last = START + 8, rng.choice([0, 0x27ff0000, 0x00021021 | a << 21, 0x24840001]) if filled else 0    # ra stays
            units.append((None, 0, rng.choice([[0x0c000000 | to >> 2, last],
                                               [0x3c190000 | to >> 16, 0x37390000 | to & 0xffff, 0x0320f809, last]])))
    words = [0x10000004, 0, 0x24420001, 0x03e00008, 0x24630001 if filled else 0]       # b over; addiu v0,v0,1; jr ra; addiu v1,v1,1
    starts, at = [], len(words)
    for _, _, code in units:
        starts.append(at)
        at += len(code)
    starts += [at] * 4
    for i, (first, far, code) in enumerate(units):
        if first is not None:
            code[0] = first | (starts[i + far] - starts[i] - 1) & 0xffff
        words += code
    return struct.pack(">%dI" % (len(words) + 2), *words, 0x1000ffff, 0)                # b to itself


def images():
    rng = random.Random(32)
    made = {"random": bytes(rng.randrange(256) for _ in range(65536))}
    made["special"] = b"".join(struct.pack(">II", w, 0) for w in SPECIAL)
    for n in range(1, 21):
        made["straight%02d" % n] = straight(n)
    for n in range(1, 5):
        made["stream%d" % n], made["slots%d" % n] = stream(n, False), stream(n, True)
    return made

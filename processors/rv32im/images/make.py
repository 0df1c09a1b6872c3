"""The images that a script makes: `words`, random words of an instruction's length, half of them with an operation code that is used; `shapes`, the operation codes
with each f3 and with f7 from each kind; `csrs`, each number of a csr; and `stream1` to `stream4` for runs: registers with extreme
values, then random instructions with loads, stores, branches and jumps forward, and a jump to itself. The others are stored: `alu1`
to `alu3` (random code on extreme values, each result stored), `edges` (each register operation on pairs of extreme values, branches,
loads), and the C programs `sorting`, `hashing`, `numbers` and `text` (gcc 12 -O2)."""
import random
import struct

USED = [0x03, 0x0f, 0x13, 0x17, 0x23, 0x33, 0x37, 0x63, 0x67, 0x6f, 0x73]
DATA = 0x18000                                  # where the loads and stores of the streams go
VALUES = [0, 1, 2, 31, 32, 0x7fffffff, 0x80000000, 0x80000001, 0xffffffff, 0xfffffffe, 0x0000ffff, 0xffff8000]


def branch(f3, a, b, by):
    return (by >> 12 & 1) << 31 | (by >> 5 & 63) << 25 | b << 20 | a << 15 | f3 << 12 | (by >> 1 & 15) << 8 | (by >> 11 & 1) << 7 | 0x63


def stream(n):
    """x31 has the place of the data, x30 a place to come back to; neither is changed by chance."""
    rng = random.Random(320 + n)
    words = []

    def load(r, v):
        low = v & 0xfff
        words.append(((v + 0x800) & 0xfffff000) | r << 7 | 0x37)
        words.append(low << 20 | r << 15 | r << 7 | 0x13)

    for r in range(1, 30):
        load(r, rng.choice(VALUES) if rng.randrange(2) else rng.randrange(1 << 32))
    load(31, DATA)
    while len(words) < 3000:
        d, a, b = rng.randrange(30), rng.randrange(30), rng.randrange(30)
        k, by = rng.randrange(12), rng.randrange(-1024, 1024)
        if k < 4:
            f7, f3 = rng.choice([(0, f) for f in range(8)] + [(0x20, 0), (0x20, 5)] + [(1, f) for f in range(8)])
            words.append(f7 << 25 | b << 20 | a << 15 | f3 << 12 | d << 7 | 0x33)
        elif k < 6:
            f3 = rng.randrange(8)
            i = rng.randrange(32) | (rng.randrange(2) << 10 if f3 == 5 else 0) if f3 in (1, 5) else rng.choice([0, 1, 0x7ff, 0x800, 0xfff, rng.randrange(4096)])
            words.append(i << 20 | a << 15 | f3 << 12 | d << 7 | 0x13)
        elif k == 6:
            words.append(rng.randrange(1 << 20) << 12 | d << 7 | rng.choice([0x37, 0x17]))
        elif k == 7:
            words.append((by & 0xfff) << 20 | 31 << 15 | rng.choice([0, 1, 2, 4, 5]) << 12 | d << 7 | 0x03)
        elif k == 8:
            words.append((by >> 5 & 127) << 25 | b << 20 | 31 << 15 | rng.choice([0, 1, 2]) << 12 | (by & 31) << 7 | 0x23)
        elif k == 9:
            words.append(branch(rng.choice([0, 1, 4, 5, 6, 7]), a, rng.choice([a, b]), 4 * rng.randrange(1, 4)))
        elif k == 10:
            words.append(2 * rng.randrange(1, 3) << 21 | d << 7 | 0x6f)
        else:                                       # auipc x30,0; jalr d,12(x30) and the like, where no jump leads between the two
            words += [0x13] * 3 + [30 << 7 | 0x17, rng.choice([12, 13, 16]) << 20 | 30 << 15 | d << 7 | 0x67]
    words += [0x13] * 4 + [0x6f]
    return struct.pack("<%dI" % len(words), *words)


def images():
    rng = random.Random(32)
    words = [rng.randrange(1 << 32) & ~0x7f | (rng.choice(USED) if n % 2 else rng.randrange(32) << 2 | 3) for n in range(1 << 14)]
    words = [w & ~4 if w & 0x1f == 0x1f else w for w in words]          # else they are longer
    shapes = [f7 << 25 | rng.randrange(1 << 32) & 0x01ff8f80 | f3 << 12 | code
              for code in USED for f3 in range(8) for f7 in [0, 1, 0x20, 0x21, 0x7f] + [rng.randrange(128) for _ in range(60)]]
    csrs = [n << 20 | rng.choice([1, 2, 3, 5, 6, 7]) << 12 | rng.randrange(32) << 15 | rng.randrange(32) << 7 | 0x73 for n in range(4096)]
    made = {name: struct.pack("<%dI" % len(v), *v) for name, v in (("words", words), ("shapes", shapes), ("csrs", csrs))}
    made.update({"stream%d" % n: stream(n) for n in range(1, 5)})
    return made

"""The images, all made here: `codes0` to `codes3`, all pairs of first bytes, 12 34 behind each, which are instructions of one byte;
`bits`, all codes behind DD CB and FD CB; `random`, 64 KiB; `flags` for runs, trials of each operation with the registers and the
flags that count kept in memory behind each; and `stream` for runs, random instructions that stay in line.
Memory of the runs: the code, from 0x9000 on the results of `flags`, from 0xc000 on data, from 0xff00 on the stack."""
import random
import struct

S, Z, H, P, N, C = 0x80, 0x40, 0x10, 0x04, 0x02, 0x01
KNOWN = S | Z | H | P | N | C                   # bits 3 and 5 of F are in no manual
EDGES = [0, 1, 2, 0x0f, 0x10, 0x7f, 0x80, 0x81, 0x99, 0x9a, 0xf0, 0xff]
MEMORY = 0xc000


def byte(rng):
    return rng.choice(EDGES) if rng.randrange(2) else rng.randrange(256)


def word(rng):
    return rng.choice([0, 1, 0x0fff, 0x1000, 0x7fff, 0x8000, 0xffff, byte(rng), byte(rng) << 8, rng.randrange(65536)])


def place(rng):
    return MEMORY + 0x80 + rng.randrange(0x1e00)


def plain(op):
    """Whether a code of one byte stays in line, has no operand byte and leaves the stack alone."""
    x, z = op >> 6, op & 7
    if op == 0x76 or op in (0x06, 0x0e, 0x16, 0x1e, 0x26, 0x2e, 0x36, 0x3e) or op in (0x22, 0x2a, 0x32, 0x3a):
        return False
    if x == 0:
        return z != 0 and not (z == 1 and not op & 8) and op not in (0x33, 0x39, 0x3b) or op in (0, 8)
    return x in (1, 2) or op in (0xd9, 0xeb)


PLAIN = [op for op in range(256) if plain(op)]
OF_MEMORY = [op for op in PLAIN if op in (2, 10, 0x12, 0x1a, 0x34, 0x35) or op >> 6 in (1, 2) and op & 7 == 6 or op >> 3 == 14]
IN_ED = [0x42, 0x52, 0x62, 0x4a, 0x5a, 0x6a, 0x44, 0x47, 0x4f, 0x57, 0x67, 0x6f, 0xa0, 0xa1, 0xa8, 0xa9, 0xb0, 0xb1, 0xb8, 0xb9,
         0x40, 0x48, 0x50, 0x58, 0x60, 0x68, 0x70, 0x78, 0x41, 0x49, 0x51, 0x59, 0x61, 0x69, 0x71, 0x79, 0xa2, 0xaa, 0xa3, 0xab,
         0xb2, 0xba, 0xb3, 0xbb, 0x46, 0x56, 0x5e]


def operation(rng):
    """(code, the flags that the manual says anything of, whether hl, de and bc have to be places)."""
    k = rng.randrange(14)
    if k < 4:
        op = rng.choice(PLAIN)
        return bytes([op]), KNOWN, op in OF_MEMORY
    if k < 5:
        return bytes([rng.choice([0xc6, 0xce, 0xd6, 0xde, 0xe6, 0xee, 0xf6, 0xfe]), byte(rng)]), KNOWN, False
    if k < 7:
        op = rng.randrange(256)
        return bytes([0xcb, op]), Z | H | N | C if op >> 6 == 1 else KNOWN, op & 7 == 6
    if k < 9:
        op = rng.choice(IN_ED)
        return bytes([0xed, op]), Z if op >> 4 >= 10 and op & 2 else KNOWN, op in (0x67, 0x6f) or op >= 0xa0
    prefix = rng.choice([0xdd, 0xfd])
    if k < 11:
        op = rng.choice([o for o in range(0x40, 0xc0) if o != 0x76 and (o & 7 == 6 or 0x70 <= o < 0x78)] + [0x34, 0x35])
        return bytes([prefix, op, rng.randrange(256)]), KNOWN, True
    if k < 12:
        op = rng.randrange(256)
        op = op & 0xf8 | 6 if op >> 6 == 1 else op                      # no manual has the others
        return bytes([prefix, 0xcb, rng.randrange(256), op]), Z | H | N | C if op >> 6 == 1 else KNOWN, True
    op = rng.choice([0x09, 0x19, 0x29, 0x23, 0x2b, 0x24, 0x25, 0x2c, 0x2d] +
                    [o for o in range(0x40, 0xc0) if o & 7 in (4, 5) and not 0x70 <= o < 0x78 or 0x60 <= o < 0x70 and o & 7 != 6])
    return bytes([prefix, op]), KNOWN, False


def loaded(rng, places):
    """Gives all registers a value; places are such that any displacement stays within the data."""
    value = place if places else word
    code = b"".join(bytes(first) + struct.pack("<H", value(rng)) for first in ([0xdd, 0x21], [0xfd, 0x21], [0x11]))
    code += b"\x01" + struct.pack("<H", MEMORY | 0x100 * rng.randrange(1, 30) | 3 if places else word(rng))
    code += b"\x21" + struct.pack("<BB", rng.randrange(256) & ~0x28, byte(rng)) + b"\xe5\xf1"        # ld hl,..; push hl; pop af
    return code + b"\x21" + struct.pack("<H", value(rng))


def flags():
    rng = random.Random(80)
    code, at = b"\x31\x00\x00" + b"\xf3", 0x9000                        # ld sp,0; di
    while len(code) < 0x8f00 and at + 12 <= MEMORY:
        op, mask, places = operation(rng)
        if op[:2] in (b"\xed\xb0", b"\xed\xb1", b"\xed\xb8", b"\xed\xb9"):
            code += loaded(rng, True) + b"\x01" + struct.pack("<H", rng.randrange(1, 20))           # few rounds
        else:
            code += loaded(rng, places)
        code += op
        code += b"\x22" + struct.pack("<H", at) + b"\xed\x53" + struct.pack("<H", at + 2)           # hl, de
        code += b"\xed\x43" + struct.pack("<H", at + 4)                                             # bc
        code += b"\xdd\x22" + struct.pack("<H", at + 6) + b"\xfd\x22" + struct.pack("<H", at + 8)   # ix, iy
        code += b"\xf5\xe1\x7d\xe6" + bytes([mask]) + b"\x6f\x22" + struct.pack("<H", at + 10)      # af, but for some flags
        at += 12
    return code + b"\x18\xfe"


def stream():
    """Arithmetic, jumps over a few bytes, the stack, calls and returns."""
    rng = random.Random(81)
    code = b"\x31\x00\x00\xc3\x06\x00" + loaded(rng, True)
    while len(code) < 0x8000:
        k = rng.randrange(12)
        here = len(code)
        if k < 5:
            op, mask, places = operation(rng)
            if op[0] == 0xed or mask != KNOWN or places:
                continue
            code += op
        elif k == 5:                                                    # a jump over one to three bytes
            skip = bytes(rng.choice([o for o in PLAIN if o not in OF_MEMORY]) for _ in range(rng.randrange(1, 4)))
            code += bytes([rng.choice([0x18, 0x20, 0x28, 0x30, 0x38, 0x10]), len(skip)]) + skip
        elif k == 6:
            code += bytes([rng.choice([0xc2, 0xca, 0xd2, 0xda, 0xe2, 0xea, 0xf2, 0xfa, 0xc3])]) + struct.pack("<H", here + 4) + b"\x3c"
        elif k == 7:                                                    # a call of what comes behind a jump, and a return
            code += b"\x18\x02" + bytes([0x04, 0xc9])
            code += bytes([rng.choice([0xc4, 0xcc, 0xd4, 0xdc, 0xe4, 0xec, 0xf4, 0xfc, 0xcd])]) + struct.pack("<H", here + 2)
        elif k == 8:                                                    # a return on a condition, else by itself
            code += b"\x18\x02" + bytes([rng.choice([0xc0, 0xc8, 0xd0, 0xd8, 0xe0, 0xe8, 0xf0, 0xf8]), 0xc9])
            code += b"\xcd" + struct.pack("<H", here + 2)
        elif k == 9:
            code += rng.choice([b"\xc5\xe1", b"\xd5\xc1", b"\xe5\xd1", b"\xe5\xe3\xe1", b"\xdd\xe5\xfd\xe1", b"\xfd\xe5\xdd\xe3\xdd\xe1",
                                b"\x08", b"\xd9", b"\xeb"])
        elif k == 10:                                                   # a jump by a register
            code += bytes(rng.choice([[0x21], [0xdd, 0x21], [0xfd, 0x21]]))
            register = code[here:here + 1] if len(code) > here + 1 else b""
            code += struct.pack("<H", len(code) + 3 + len(register) + 1) + register + b"\xe9\x04"
        else:
            at = place(rng)
            code += rng.choice([b"\x22", b"\x2a", b"\x32", b"\x3a", b"\xed\x43", b"\xed\x4b", b"\xed\x53", b"\xed\x5b", b"\xdd\x22",
                                b"\xfd\x2a"]) + struct.pack("<H", at)
    return code + b"\x18\xfe"


def images():
    rng = random.Random(1976)
    made = {"random": bytes(rng.randrange(256) for _ in range(65536))}
    for n in range(4):
        made["codes%d" % n] = b"".join(bytes([64 * n + i // 256, i % 256, 0x12, 0x34]) for i in range(64 * 256))
    made["bits"] = b"".join(bytes([prefix, 0xcb, 0x85, op]) for prefix in (0xdd, 0xfd) for op in range(256))
    made["flags"], made["stream"] = flags(), stream()
    return made

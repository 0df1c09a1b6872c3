"""The images, all made here: `names` has each direct address and each bit address once, in `mov a,direct` and `cpl bit`; `random` is 64
KiB; `flags` for runs, trials of each operation with A, PSW, B and R0 kept in the external memory behind each; and `stream` for runs,
random instructions that stay in line, jumps over a few bytes, calls and returns. Both end with a jump to itself."""
import random

EDGES = [0, 1, 2, 9, 0x0f, 0x10, 0x7f, 0x80, 0x99, 0x9a, 0xf0, 0xfe, 0xff]
REGISTERS = [0xe0, 0xf0, 0xd0, 0x82, 0x83, 0x81]        # ACC B PSW DPL DPH SP: other special function registers have effects outside
LAST = b"\x85\xd0\x7f\x80\xfe"                        # mov 7f,psw; sjmp to itself


def byte(rng):
    return rng.choice(EDGES) if rng.randrange(3) else rng.randrange(256)


def direct(rng):
    """A direct address: mostly the internal memory."""
    return rng.choice(REGISTERS) if rng.randrange(4) == 0 else rng.randrange(128)


def bit(rng):
    """A bit address: mostly the internal memory. s51 overlooks that RS0 and RS1, bits d3 and d4, choose another bank."""
    return rng.choice([0xe0, 0xe4, 0xf0, 0xf4, 0xd4]) + rng.randrange(1, 4) if rng.randrange(4) == 0 else rng.randrange(128)


OF_NONE = [0x00, 0x03, 0x04, 0x13, 0x14, 0x23, 0x33, 0xa3, 0xa4, 0x84, 0xc3, 0xc4, 0xb3, 0xd3, 0xd4, 0xe4, 0xf4, 0xe2, 0xe3, 0xf2, 0xf3, 0xe0,
           0xf0, 0x83]
OF_ROWS = [0x0, 0x1, 0x2, 0x3, 0x4, 0x5, 0x6, 0x9, 0xc, 0xe, 0xf]
OF_BITS = [0xc2, 0xd2, 0xb2, 0x92, 0xa2, 0x82, 0xb0, 0x72, 0xa0]


def operation(rng):
    """An instruction that goes on behind itself. DPTR stays low where it is used to fetch from the program."""
    k = rng.randrange(16)
    if k < 2:
        return bytes([rng.choice(OF_NONE)])
    if k < 6:
        row, low = rng.choice(OF_ROWS), rng.choice([4, 5, 6, 7] + [8 + i for i in range(8)])
        if low >= 6:
            return bytes([row << 4 | low])
        if low == 4:
            return bytes([row << 4 | 4] + ([byte(rng)] if 2 <= row <= 9 else [])) if row not in (0xc, 0xe, 0xf) else b"\x74" + bytes([byte(rng)])
        return bytes([row << 4 | 5, direct(rng)])
    if k == 6:
        return bytes([rng.choice([0x42, 0x52, 0x62]), direct(rng)])
    if k == 7:
        return bytes([rng.choice([0x43, 0x53, 0x63, 0x75]), direct(rng), byte(rng)])
    if k == 8:
        return bytes([0x85, direct(rng), direct(rng)])
    if k == 9:
        return bytes([rng.choice([0x70, 0x80, 0xa0]) | 6 + rng.randrange(10)] + [direct(rng)])
    if k == 10:
        return bytes([rng.choice([0x78, 0x79, 0x7a, 0x7f, 0x76, 0x77]), byte(rng)])
    if k == 11:
        return bytes([0x90, rng.randrange(256), rng.randrange(256)])
    if k < 14:
        return bytes([rng.choice(OF_BITS), bit(rng)])
    if k == 14:
        return bytes([rng.choice([0xc0, 0xd0]), rng.choice(REGISTERS[:5]) if rng.randrange(2) else rng.randrange(128)])
    return bytes([rng.choice([0xd6, 0xd7])])


def flags():
    rng = random.Random(51)
    code, at = bytes([0x75, 0x81, 0x40, 0x75, 0xa0, 0x12]), 0           # mov sp,#40; mov p2,#12
    while len(code) < 0xfd00:
        op = rng.choice([0x24, 0x34, 0x94, 0x28, 0x38, 0x98, 0x25, 0x35, 0x95, 0xa4, 0x84, 0xd4, 0x33, 0x13, 0xb4, 0xb5, 0xb8, 0xa2, 0x82, 0xb0,
                         0x72, 0xa0, 0x26, 0x36, 0x96, 0x24, 0x34, 0x94, 0xd4])
        code += bytes([0x75, 0xd0, rng.choice([0, 0x80, 0x40, 0xc0]) | rng.choice([0, 4])])     # mov psw,#
        code += bytes([0x74, byte(rng), 0x75, 0xf0, byte(rng)])                                 # mov a,#; mov b,#
        code += bytes([0x78, byte(rng) if op not in (0x26, 0x36, 0x96) else 0x30, 0x75, 0x30, byte(rng)])  # mov r0,#; mov 30,#
        if op in (0x24, 0x34, 0x94):
            code += bytes([op, byte(rng)])
        elif op in (0x25, 0x35, 0x95):
            code += bytes([op, rng.choice([0xf0, 0x30, 0xe0, 0xd0])])
        elif op == 0xb4:
            code += bytes([op, byte(rng), 0])
        elif op == 0xb5:
            code += bytes([op, rng.choice([0xf0, 0x30]), 0])
        elif op == 0xb8:
            code += bytes([op, byte(rng), 0])
        elif op in OF_BITS:
            code += bytes([op, rng.choice([0xe0, 0xf0, 0xd0]) + rng.randrange(8)])
        else:
            code += bytes([op])
        code += bytes([0x90, at >> 8, at & 255, 0xf0, 0xa3, 0xe5, 0xd0, 0xf0, 0xa3, 0xe5, 0xf0, 0xf0, 0xa3, 0xe8, 0xf0])
        at += 4
    return code + LAST


def stream():
    rng = random.Random(52)
    code = bytes([0x75, 0x81, 0x40, 0x75, 0xa0, 0x12])                  # mov sp,#40; mov p2,#12
    while len(code) < 0xf000:
        k, here = rng.randrange(20), len(code)
        skip = bytes([rng.choice([0x04, 0x14, 0xf4, 0x08, 0x19, 0x33])])
        over = skip * rng.randrange(1, 4)
        if k < 14:
            code += operation(rng)
        elif k == 14:
            code += bytes([rng.choice([0x40, 0x50, 0x60, 0x70, 0x80]), len(over)]) + over
        elif k == 15:
            code += bytes([rng.choice([0x20, 0x30, 0x10]), bit(rng), len(over)]) + over
        elif k == 16:
            op = rng.choice([0xb4, 0xb5] + list(range(0xb6, 0xc0)))
            code += bytes([op, direct(rng) if op == 0xb5 else byte(rng), len(over)]) + over
        elif k == 17:
            code += rng.choice([bytes([0xd8 | rng.randrange(8), len(over)]), bytes([0xd5, rng.randrange(128), len(over)])]) + over
        elif k == 18:                                                   # a call of what comes behind a jump, and a return
            code += b"\x75\x81" + bytes([rng.choice([0x30, 0x7d, 0x50])]) + b"\x80\x02" + skip + rng.choice([b"\x22", b"\x32"])
            to = here + 5
            page = (to >> 8 & 7) << 5
            same = to >> 11 == (len(code) + 2) >> 11
            code += bytes([0x11 | page, to & 255]) if same and rng.randrange(2) else bytes([0x12, to >> 8, to & 255])
        else:                                                           # jumps to what comes next
            to = here + 7
            code += rng.choice([bytes([0x02, to >> 8, to & 255]) + bytes(4),
                                bytes([0x74, 5, 0x90, (to - 5) >> 8, to - 5 & 255, 0x73]) + bytes(1),
                                bytes([0x90, to >> 8, to & 255]) + b"\xe4\x93\x00\x00"])        # a fetch from the program
    return code + bytes(256) + LAST                                     # a fetch from the program stays in the image


def images():
    rng = random.Random(8051)
    return {"names": b"".join(bytes([0xe5, n, 0xb2, n]) for n in range(256)),
            "random": bytes(rng.randrange(256) for _ in range(65536)), "flags": flags(), "stream": stream()}

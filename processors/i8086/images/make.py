"""The images, all made here. For listings: `codes`, all pairs of first bytes with 12 34 40 40 behind each; `random`, 64 KiB.

For runs, each ends with a jump to itself:

- `flags`, trials of each operation with the registers and the flags that the manual defines kept in memory behind each; `fewer`, the same
  with CL at most 31; `counts`, shifts and rotations by CL, and `ones`, the same by 1 as often.
- `stream`, random instructions with all addressing modes, strings, ports, the stack, jumps, calls and returns, with DS 2000, SS 3000,
  ES 4000 and CS 0; `apart`, the same with SS 6000; `jumps`, near jumps and calls round the end of the code segment.
- `words`, trials with words at offset ffff, on the stack and in strings too; `pointers`, the same with two words; `top`, words round the
  end of the memory.
- With CS 80 `interrupts`; `divisions`, quotients that fit and that don't; `least`, those of -80 and -8000, and `thrown`, the same with
  int 0 in place of each division; `bounds`, BOUND and AAM."""
import random

CF, PF, AF, ZF, SF, OF = 1, 4, 0x10, 0x40, 0x80, 0x800
ALL = CF | PF | AF | ZF | SF | OF
RESULT = PF | ZF | SF
LAST = b"\xeb\xfe"


def segments(stack):
    """push 2000; pop ds; push 4000; pop es; ss = stack; sp = 8000."""
    return b"\x68\x00\x20\x1f\x68\x00\x40\x07\xb8" + word(stack) + b"\x8e\xd0\xbc\x00\x80"


def word(v):
    return bytes([v & 255, v >> 8 & 255])


def number(rng):
    return rng.choice([0, 1, 2, 0x7f, 0x80, 0xff, 0x100, 0x7fff, 0x8000, 0xffff, 0x8080, 0x0f0f, rng.randrange(65536)]) if rng.randrange(2) \
        else rng.randrange(65536)


def trial(rng, ax, bx, cx, dx):
    """(code, mask of the flags that it defines) of an operation on AX, BX, CX and DX."""
    r8, r16 = rng.randrange(8), rng.randrange(4)
    pair8, pair16 = 0xc0 | rng.randrange(64), 0xc0 | rng.randrange(4) << 3 | r16
    k = rng.randrange(16)
    if k < 5:
        alu = rng.randrange(8)
        mask = ALL & ~AF if alu in (1, 4, 6) else ALL
        form = rng.randrange(8)
        code = [bytes([alu << 3 | form, pair16 if form & 1 else pair8]) if form < 4 else b"",
                bytes([alu << 3 | 4, rng.randrange(256)]), bytes([alu << 3 | 5]) + word(number(rng)),
                bytes([rng.choice([0x80, 0x82]), 0xc0 | alu << 3 | r8, rng.randrange(256)]),
                bytes([0x81, 0xc0 | alu << 3 | r16]) + word(number(rng)), bytes([0x83, 0xc0 | alu << 3 | r16, rng.randrange(256)])]
        return (code[0], mask) if form < 4 else (rng.choice(code[1:]), mask)
    if k == 5:
        return rng.choice([bytes([0x40 | r16]), bytes([0x48 | r16]), bytes([0xfe, 0xc0 | rng.randrange(16)]),
                           bytes([0xff, 0xc0 | rng.randrange(2) << 3 | r16])]), ALL
    if k == 6:
        return rng.choice([bytes([0xf6, 0xd8 | r8]), bytes([0xf7, 0xd8 | r16])]), ALL
    if k == 7:
        return rng.choice([bytes([0xf6, 0xd0 | r8]), bytes([0xf7, 0xd0 | r16]), b"\x98", b"\x99", b"\x9e", b"\x9f", b"\xf5", b"\xf8", b"\xf9",
                           bytes([0x86, pair8]), bytes([0x87, pair16]), bytes([0x90 | r16])]), ALL
    if k == 8:
        return rng.choice([bytes([0x84, pair8]), bytes([0x85, pair16]), bytes([0xa8, rng.randrange(256)]), b"\xa9" + word(number(rng))]), ALL & ~AF
    if k == 9:
        return rng.choice([bytes([0xf6, 0xe0 | rng.randrange(16)]), bytes([0xf7, 0xe0 | rng.randrange(2) << 3 | r16]),
                           bytes([0x6b, pair16, rng.randrange(256)]), bytes([0x69, pair16]) + word(number(rng))]), CF | OF
    if k == 10:                                     # quotients that fit
        low, signed = bx & 255, lambda v, n: v - (1 << n) if v >> n - 1 else v
        found = []
        if low and ax // low < 256:
            found.append(b"\xf6\xf3")
        if bx and (dx << 16 | ax) // bx < 65536:
            found.append(b"\xf7\xf3")
        if low and abs(signed(ax, 16)) // abs(signed(low, 8)) < 127:
            found.append(b"\xf6\xfb")
        if bx and abs(signed(dx << 16 | ax, 32)) // abs(signed(bx, 16)) < 32767:
            found.append(b"\xf7\xfb")
        return (rng.choice(found), 0) if found else (b"\x90", ALL)
    if k == 11:
        if rng.randrange(2):
            return rng.choice([b"\x27", b"\x2f"]), ALL & ~OF
        # where the 80286 and later carry from AL into AH, the 8086 doesn't
        if 6 <= ax & 255 <= 0xf9:
            return rng.choice([b"\x37", b"\x3f"]), AF | CF
        return b"\x27", ALL & ~OF
    if k == 12:
        return rng.choice([bytes([0xd4, rng.randrange(1, 256)]), bytes([0xd5, rng.randrange(256)]), b"\xd4\x0a", b"\xd5\x0a"]), RESULT
    op, how, wide = rng.choice([0, 1, 2, 3, 4, 5, 7]), rng.randrange(3), rng.randrange(2)
    count = [1, cx & 31, rng.choice([0, 1, 2, 7, 8, 9, 15, 16, 17, 31, 33])][how]
    target = 0xc0 | op << 3 | (r16 if wide else r8)
    code = [bytes([0xd0 | wide, target]), bytes([0xd2 | wide, target]), bytes([0xc0 | wide, target, count])][how]
    count &= 31
    mask = ALL if count == 0 else (RESULT | CF if op >= 4 else RESULT | CF | AF) | (OF if count == 1 else 0)
    if op in (4, 5) and count > (16 if wide else 8):
        mask &= ~CF
    if op < 4 and count == 0:
        mask = ALL
    return code, mask


def flags(most):
    """Trials of operations on registers; CL is at most `most`, or any."""
    rng = random.Random(86)
    code, at = segments(0x3000), 0
    while len(code) < 0xf000:
        ax, bx, cx, dx = number(rng), number(rng), number(rng), number(rng)
        if rng.randrange(3) == 0:
            dx = rng.randrange(bx or 1)
        if rng.randrange(2):
            cx = rng.randrange(34)
        if most:
            cx = cx & 0xff00 | min(cx & 0xff, most)
        op, mask = trial(rng, ax, bx, cx, dx)
        code += b"\xb8" + word(ax) + b"\xbb" + word(bx) + b"\xb9" + word(cx) + b"\xba" + word(dx)
        code += b"\x68" + word(rng.randrange(65536) & ALL | 2) + b"\x9d" + op
        code += b"\xa3" + word(at) + b"\x89\x1e" + word(at + 2) + b"\x89\x0e" + word(at + 4) + b"\x89\x16" + word(at + 6)
        code += b"\x9c\x58\x25" + word(mask) + b"\xa3" + word(at + 8) + b"\x50\x58"         # the flags; what the stack had goes
        at += 10
    return code + LAST


def counts(by_ones):
    """Shifts and rotations by CL, whatever it is; or, in as many bytes, by 1 as many times as CL says, which is the same on the 8086."""
    rng = random.Random(8)
    code, at = segments(0x3000), 0
    while len(code) < 0xf000:
        op, wide, r = rng.choice([0, 1, 2, 3, 4, 5, 7]), rng.randrange(2), rng.choice([0, 2, 3])
        count = rng.choice([rng.randrange(256), rng.randrange(32, 256), 32, 33, 64, 255])
        target = 0xc0 | op << 3 | r
        code += b"\xb8" + word(number(rng)) + b"\xbb" + word(number(rng)) + b"\xb9" + word(count) + b"\xba" + word(number(rng))
        code += b"\x68" + word(rng.randrange(65536) & ALL | 2) + b"\x9d"
        ones = b"\x51\xe3\x04" + bytes([0xd0 | wide, target]) + b"\xe2\xfc\x59"           # push cx; jcxz; by 1; loop; pop cx
        code += ones if by_ones else bytes([0xd2 | wide, target]).ljust(len(ones), b"\x90")
        code += b"\xa3" + word(at) + b"\x89\x1e" + word(at + 2) + b"\x89\x0e" + word(at + 4) + b"\x89\x16" + word(at + 6)
        mask = CF | (RESULT if op >= 4 else RESULT | AF)
        code += b"\x9c\x58\x25" + word(mask) + b"\xa3" + word(at + 8) + b"\x50\x58"         # the flags; what the stack had goes
        at += 10
    return code + LAST


def modrm(rng, reg):
    """A mod r/m byte with displacement: memory mostly; SP is no register of these."""
    if rng.randrange(4) == 0:
        return bytes([0xc0 | reg << 3 | rng.choice([0, 1, 2, 3, 5, 6, 7])])
    mod, rm = rng.randrange(3), rng.randrange(8)
    size = 2 if mod == 0 and rm == 6 else mod
    return bytes([mod << 6 | reg << 3 | rm]) + bytes(rng.randrange(256) for _ in range(size))


def stream(stack):
    rng = random.Random(87)
    code = b"\xeb\x05" + b"\xcb" + b"\x42\xc3" + b"\xff\xc1" + segments(stack)         # jmp; 2: retf; 3: inc dx, ret; 5: inc cx
    for r in (0, 1, 2, 3, 5, 6, 7):
        code += bytes([0xb8 | r]) + word(number(rng))
    regs = [0, 1, 2, 3, 5, 6, 7]
    while len(code) < 0xf000:
        k, reg, here = rng.randrange(24), rng.choice(regs), len(code)
        over = rng.choice([b"", b"", b"\x26", b"\x36", b"\x3e"])
        if k < 7:                                                       # arithmetic with memory
            alu, form = rng.randrange(8), rng.randrange(4)
            code += over + bytes([alu << 3 | form]) + modrm(rng, reg if form & 1 else rng.randrange(8))
            if alu in (1, 4, 6):
                code += b"\x39\xd8"                                     # cmp ax,bx: all flags are known again
        elif k < 9:
            wide = rng.randrange(2)
            code += over + rng.choice([bytes([0x88 | wide]) + modrm(rng, reg), bytes([0x8a | wide]) + modrm(rng, reg if wide else rng.randrange(8)),
                                       bytes([0xfe | wide]) + modrm(rng, rng.randrange(2)), bytes([0x86 | wide]) + modrm(rng, reg)])
        elif k == 9:
            n = rng.choice([0x80, 0x81, 0x83])
            alu = rng.choice([0, 2, 3, 5, 7])
            code += over + bytes([n]) + modrm(rng, alu) + bytes(rng.randrange(256) for _ in range(1 + (n == 0x81)))
        elif k == 10:
            code += rng.choice([b"\x8d", b"\x2e\x8b"])
            m = modrm(rng, reg)
            while m[0] >= 0xc0:
                m = modrm(rng, reg)
            code += m
        elif k == 11:
            code += over + rng.choice([b"\xa0", b"\xa1", b"\xa2", b"\xa3"]) + word(rng.randrange(65536))
        elif k == 12:
            wide = rng.randrange(2)
            code += over + bytes([0xc6 | wide]) + modrm(rng, 0) + bytes(rng.randrange(256) for _ in range(1 + wide))
        elif k == 13:                                                   # the stack; sp comes back
            a, b = rng.choice(regs), rng.choice(regs)
            code += rng.choice([bytes([0x50 | a, 0x58 | b]), b"\xff" + modrm(rng, 6) + bytes([0x58 | b]), bytes([0x50 | a]) + b"\x8f" + modrm(rng, 0),
                                b"\x60\x61", b"\x6a" + bytes([rng.randrange(256), 0x58 | a]), b"\x68" + word(number(rng)) + bytes([0x58 | b]),
                                b"\x1e\x06\x1f\x07\x06\x1e\x07\x1f", b"\xc8\x10\x00" + bytes([rng.randrange(4)]) + b"\xc9"])
        elif k == 14:                                                   # strings, at times backwards
            string = rng.choice([0xa4, 0xa5, 0xa6, 0xa7, 0xaa, 0xab, 0xac, 0xad, 0xae, 0xaf])
            code += rng.choice([b"\xfc", b"\xfd", b""]) + rng.choice([b"", over]) + bytes([string]) + rng.choice([b"\xfc", b""])
        elif k == 15:
            string = rng.choice([0xa4, 0xa5, 0xa6, 0xa7, 0xaa, 0xab, 0xac, 0xad, 0xae, 0xaf])
            repeat = rng.choice([b"\xf2", b"\xf3"]) if string in (0xa6, 0xa7, 0xae, 0xaf) else b"\xf3"
            code += b"\xb9" + word(rng.randrange(12)) + rng.choice([b"\xfc", b"\xfd", b""]) + rng.choice([repeat, repeat + over, over + repeat]) + bytes([string])
        elif k == 16:
            some = rng.choice([b"\x42", b"\x4a", b"\xf9", b"\x46\x47"])
            code += rng.choice([bytes([0x70 | rng.randrange(16)]), b"\xe3", b"\xeb"]) + bytes([len(some)]) + some
        elif k == 17:
            some = rng.choice([b"\x42", b"\x4a", b"\xf9", b"\x46\x47"])
            code += bytes([0xe0 | rng.randrange(3), len(some)]) + some
        elif k == 18:                                                   # calls of the two routines at the beginning
            code += rng.choice([b"\x9a\x02\x00\x00\x00", b"\xe8" + word(3 - here - 3) if here < 0x7ff0 else b"\x90", b"\xb8\x03\x00\xff\xd0",
                                b"\xe9\x00\x00", b"\xb8" + word(here + 6) + b"\xff\xe0\x42", b"\xea" + word(here + 6) + b"\x00\x00\x42"])
        elif k == 19:
            code += rng.choice([b"\xc4", b"\xc5"])
            m = modrm(rng, reg)
            while m[0] >= 0xc0:
                m = modrm(rng, reg)
            code += m + b"\x68\x00\x40\x07\x68\x00\x20\x1f"              # and es and ds again
        elif k == 20:
            code += rng.choice([over + b"\xd7", b"\x98", b"\x99", b"\x9f", b"\x9e", b"\xf5", b"\xf8", b"\xf9", bytes([0x90 | reg])])
        elif k == 21 and rng.randrange(2):                              # ports
            wide = rng.randrange(2)
            code += rng.choice([bytes([0xe4 | wide, rng.randrange(256)]), bytes([0xe6 | wide, rng.randrange(256)]), bytes([0xec | wide]), bytes([0xee | wide]),
                                bytes([0x6c | wide]), over + bytes([0x6e | wide])])
        elif k == 21:
            code += over + bytes([0x8c]) + modrm(rng, rng.choice([0, 2, 3]))
        elif k == 22:
            wide = rng.randrange(2)
            code += over + rng.choice([bytes([0xd0 | wide]) + modrm(rng, rng.choice([0, 1, 2, 3, 4, 5, 7])),
                                       bytes([0xf6 | wide]) + modrm(rng, rng.choice([2, 3]))]) + b"\x39\xd8"
        else:
            code += rng.choice([bytes([0xb0 | rng.randrange(8), rng.randrange(256)]), bytes([0xb8 | reg]) + word(number(rng))])
    return code + b"\x39\xd8" + LAST


SEGMENT, START = 0x80, 0x800                            # linear 1000
DATA = b"\xb8\x00\x20\x8e\xd8\xb8\x00\x30\x8e\xd0\xbc\x00\x80\x31\xff"      # ds = 2000, ss = 3000, sp = 8000; di = 0


def keep(registers):
    """mov [di],r; add di,2 for each."""
    return b"".join(bytes([0x89, 0x05 | r << 3]) + b"\x83\xc7\x02" for r in registers)


def handler(k):
    """Keeps IP, CS and the flags of the caller, and changes the flags that are above the processor's six."""
    code = b"\x55\x89\xe5"                                              # push bp; mov bp,sp
    for at in (2, 4):
        code += b"\x8b\x46" + bytes([at]) + keep([0])
    code += b"\x8b\x46\x06\x25\xd5\x0e" + keep([0])                     # without the bits that are always 1
    code += b"\x9c\x58\x25\x00\x07" + keep([0])                         # those of the handler: I, T and D
    return code + bytes([0x83, 0xc6, k]) + b"\x5d\xcf"                   # add si,k; pop bp; iret


def interrupts():
    """Interrupts, near and far calls at 0080:0800, whose handlers and routines keep what they find on the stack.
    The vectors 3, 4 and 40 to 4f lead to handlers. (code, address of the jump to itself)"""
    rng = random.Random(88)
    handlers, at = b"", {}
    for k in range(16):
        at[k] = START + 0x6000 + len(handlers)
        handlers += handler(k)
    near = START + 0x6000 + len(handlers)
    handlers += b"\x58\x50" + keep([0]) + b"\xc2\x04\x00"               # pop ax; push ax; kept; ret 4
    far = START + 0x6000 + len(handlers)
    handlers += b"\x58\x5b\x53\x50" + keep([0, 3]) + b"\xca\x02\x00"    # pop ax; pop bx; push both; kept; retf 2
    code = DATA
    while len(code) < 0x5f00:
        k, here = rng.randrange(9), START + len(code)
        if k < 4:
            flags = rng.randrange(65536) & 0x0ed5 | 2
            code += b"\x68" + word(flags) + b"\x9d"                     # push; popf
            op = rng.choice([b"\xcd" + bytes([0x40 | rng.randrange(16)]), b"\xcd" + bytes([0x40 | rng.randrange(16)]), b"\xcc", b"\xce"])
            code += op + b"\xfc\x9c\x58\x25\xd5\x0a" + keep([0, 6])     # cld; the flags behind it, si
        elif k == 4:
            code += b"\x50\x50\xe8" + word(near - (here + 5))
        elif k == 5:
            code += b"\x50\x50\xb8" + word(near) + b"\xff\xd0"
        elif k == 6:
            code += b"\x50\x9a" + word(far) + word(SEGMENT)
        elif k == 7:                                                    # a far call through memory
            code += b"\xc7\x06\x00\xf0" + word(far) + b"\xc7\x06\x02\xf0" + word(SEGMENT) + b"\x50\xff\x1e\x00\xf0"
        else:                                                           # jumps by a register and through memory
            code += rng.choice([b"\xb8" + word(here + 6) + b"\xff\xe0\x46",
                                b"\xc7\x06\x00\xf0" + word(here + 17) + b"\xc7\x06\x02\xf0" + word(SEGMENT) + b"\xff\x2e\x00\xf0\x46"])
    code += b"\xeb\xfe"
    last = SEGMENT * 16 + START + len(code) - 2
    code = code.ljust(0x6000, b"\x90") + handlers
    first = b"\xea" + word(START) + word(SEGMENT)
    vectors = {3: at[3], 4: at[4], **{0x40 + k: at[k] for k in at}}
    table = b"".join(word(vectors.get(n, 0)) + word(SEGMENT if n in vectors else 0) for n in range(256))
    return (first + table[len(first):]).ljust(SEGMENT * 16 + START, b"\0") + code, last


def top():
    """Words whose first byte is the last of the memory, so that the second one is the first, at an offset that isn't ffff."""
    rng, code, at = random.Random(20), b"\xeb\x05".ljust(7, b"\x90") + segments(0x3000), 0x100
    while len(code) < 0x6000:
        base = rng.randrange(0xf001, 0x10000)
        offset = 0xfffff - 16 * base
        to, reg = word(offset), rng.choice([0, 1, 2, 3])
        for r in range(4):
            code += bytes([0xb8 | r]) + word(number(rng))
        code += b"\x68" + word(rng.randrange(65536) & ALL | 2) + b"\x9d\x68" + word(base) + b"\x07\xbe" + to + b"\xbf" + to      # es; si; di
        alu = rng.choice([0, 2, 3, 5, 7])
        code += rng.choice([b"\x26\xa1" + to, b"\x26\xa3" + to, bytes([0x26, alu << 3 | 1, 6 | reg << 3]) + to,
                            bytes([0x26, alu << 3 | 3, 6 | reg << 3]) + to, bytes([0x26, 0xff, 6 | rng.randrange(2) << 3]) + to,
                            bytes([0x26, 0x87, 6 | reg << 3]) + to, b"\x26\xad", b"\xab", b"\xaf", b"\x26\xa5", b"\x26\xa7",
                            b"\x06\x17\xbc" + word(offset + 2) + b"\x51\x5b\x68\x00\x30\x17\xbc\x00\x80"])            # push cx; pop bx
        code += b"\xa3" + word(at) + b"\x89\x1e" + word(at + 2) + b"\x89\x0e" + word(at + 4) + b"\x89\x16" + word(at + 6)
        code += b"\x9c\x58\x25" + word(ALL) + b"\xa3" + word(at + 8) + b"\x50\x58"
        code += b"\x68\xff\xff\x07\x26\xa0\x0f\x00\x26\x8a\x26\x10\x00\xa3" + word(at + 10)          # both bytes
        at += 12
    return code + LAST


# Segments 80 bytes apart, so that each has its own bytes on both sides of the end of its 64 KiB.
FIRST_SEGMENT, SEGMENTS_APART, CODE_SEGMENTS, PAD = 0x100, 8, 128, 24


def jumps():
    """Near jumps, loops and calls round the end of the code segment, both ways: in each segment four places at its beginning and four at
    its end, in turn, whose numbers are kept at ES:DI as they are come by; behind a call also the IP that it pushed. ES 2000, SS 3000."""
    rng = random.Random(186)
    image = bytearray(b"\xb8\x00\x20\x8e\xc0\xb8\x00\x30\x8e\xd0\xbc\x00\x80\x31\xff\xfc\xea" + word(0) + word(FIRST_SEGMENT))
    base = lambda j: (FIRST_SEGMENT + SEGMENTS_APART * j) * 16
    image = image.ljust(base(CODE_SEGMENTS) + 0x10000, b"\x90")
    for j in range(CODE_SEGMENTS):
        starts = [PAD * (k // 2) if k % 2 == 0 else 0x10000 - PAD * (k // 2 + 1) for k in range(8)]
        called = False
        for k, at in enumerate(starts):
            code = b"\x58\xab" * called + b"\xb8" + word(8 * j + k) + b"\xab"                   # pop ax; stosw; mov ax,number; stosw
            called = False
            if k == 7:
                code += b"\xea" + word(0) + word(FIRST_SEGMENT + SEGMENTS_APART * (j + 1)) if j + 1 < CODE_SEGMENTS else LAST
            else:
                near = lambda code, size: (starts[k + 1] - (at + len(code) + size) + 0x8000) % 0x10000 - 0x8000
                if rng.randrange(4) == 0:
                    called, code = True, code + b"\xe8" + word(near(code, 3) & 0xffff)
                else:
                    code += b"\x68" + word(rng.randrange(65536) & ALL | 2) + b"\x9d\xb9" + word(rng.randrange(3))   # popf; mov cx
                    if -128 <= near(code, 2) < 128:
                        op = rng.choice([0xe0, 0xe1, 0xe2, 0xe3, 0xeb, 0x70 | rng.randrange(16), 0x70 | rng.randrange(16)])
                        code += bytes([op, near(code, 2) & 0xff])
                    code += b"\xe9" + word(near(code, 3) & 0xffff)
            assert len(code) <= PAD
            image[base(j) + at:base(j) + at + len(code)] = code
            last = base(j) + at + len(code) - 2
    return bytes(image), last


WORD_SEGMENTS = {"ds": 0x2000, "es": 0x4000, "ss": 0x6000}                  # the 64 KiB behind each are free
PREFIX = {"es": 0x26, "cs": 0x2e, "ss": 0x36, "ds": 0x3e}
AX, CX, DX, BX, SP, BP, SI, DI = range(8)
BASES = [(BX, SI), (BX, DI), (BP, SI), (BP, DI), (SI,), (DI,), (BP,), (BX,)]


def set_register(r, v):
    return bytes([0xb8 | r]) + word(v)


def operand(rng, reg, offset):
    """(code before, prefix, mod r/m with displacement, segment) of a word of memory at an offset, with any base and segment."""
    rm, mod = rng.randrange(8), rng.randrange(3)
    prefix = rng.choice([None, None, "es", "ss", "ds"])
    if mod == 0 and rm == 6:
        before, part = b"", word(offset)
    else:
        part = bytes(rng.randrange(256) for _ in range(mod))
        distance = (part[0] ^ 0x80) - 0x80 if mod == 1 else int.from_bytes(part, "little")
        values = [rng.randrange(65536) for _ in BASES[rm]]
        values[-1] = (offset - distance - sum(values[:-1])) & 0xffff
        before = b"".join(set_register(r, v) for r, v in zip(BASES[rm], values))
    segment = prefix or ("ss" if rm in (2, 3) or rm == 6 and mod else "ds")
    return before, bytes([PREFIX[prefix]]) if prefix else b"", bytes([mod << 6 | reg << 3 | rm]) + part, segment


def kept(at, mask=None, segment=None):
    """Keeps AX, BX, CX and DX at DS:at, then the flags of a mask, and the bytes at ffff and at 0 of a segment."""
    code = b"\xa3" + word(at) + b"\x89\x1e" + word(at + 2) + b"\x89\x0e" + word(at + 4) + b"\x89\x16" + word(at + 6)
    code += b"\x9c\x58\x25" + word(mask) + b"\xa3" + word(at + 8) + b"\x50\x58"             # what the stack had goes
    over = bytes([PREFIX[segment]])
    return code + over + b"\xa0\xff\xff" + over + b"\x8a\x26\x00\x00\xa3" + word(at + 10)


def word_trial(rng, offset):
    """(code before, operation, mask of the flags that it defines, segment) on a word of memory."""
    k, reg = rng.randrange(14), rng.choice([AX, CX, DX])
    memory = lambda code, reg: (lambda before, over, rest, segment: (before, over + code + rest, segment))(*operand(rng, reg, offset))
    if k < 5:
        alu = rng.randrange(8)
        before, op, segment = memory(*[(bytes([alu << 3 | 1]), reg), (bytes([alu << 3 | 3]), reg), (b"\x81", alu), (b"\x83", alu)][k % 4])
        more = [b"", b"", word(number(rng)), bytes([rng.randrange(256)])][k % 4]
        return before, op + more, ALL & ~AF if alu in (1, 4, 6) else ALL, segment
    if k == 5:
        before, op, segment = memory(b"\xff", rng.randrange(2))
        return before, op, ALL, segment
    if k == 6:
        kind = rng.choice([0, 2, 3, 4, 5])
        before, op, segment = memory(b"\xf7", kind)
        return before, op + (word(number(rng)) if kind == 0 else b""), [ALL & ~AF, 0, ALL, ALL, CF | OF, CF | OF][kind], segment
    if k == 7:
        op, how = rng.choice([0, 1, 2, 3, 4, 5, 7]), rng.randrange(3)
        before, code, segment = memory([b"\xd1", b"\xd3", b"\xc1"][how], op)
        return (before + (set_register(CX, rng.randrange(16)) if how == 1 else b""), code + (bytes([rng.randrange(16)]) if how == 2 else b""),
                0, segment)
    if k == 8:
        before, op, segment = memory(*rng.choice([(b"\x89", reg), (b"\x8b", reg), (b"\x87", reg), (b"\x85", reg), (b"\x8c", rng.randrange(4))]))
        return before, op, ALL & ~AF if op.lstrip(b"\x26\x36\x3e")[0] == 0x85 else ALL, segment
    if k == 9:
        segment = rng.choice(["es", "ss", "ds"])
        return b"", bytes([PREFIX[segment], rng.choice([0xa1, 0xa3])]) + word(offset), 0, segment
    if k == 10:
        before, op, segment = memory(*rng.choice([(b"\xc7", 0), (b"\x69", reg), (b"\x6b", reg)]))
        code = op.lstrip(b"\x26\x36\x3e")[0]
        return before, op + (bytes([rng.randrange(256)]) if code == 0x6b else word(number(rng))), 0, segment
    if k == 11:                                                         # through the stack
        before, op, segment = memory(*rng.choice([(b"\xff", 6), (b"\x8f", 0)]))
        stack = bytes([0x58 | reg]) if op.lstrip(b"\x26\x36\x3e")[0] == 0xff else b""
        return before + (b"" if stack else bytes([0x50 | reg])), op + stack, 0, segment
    if k == 12:                                                         # a near call through memory
        before, over, rest, segment = operand(rng, 0, offset)
        return before, over + b"\xc7" + rest + word(ROUTINE) + over + b"\xff" + bytes([rest[0] | 2 << 3]) + rest[1:], 0, segment
    return b"", rng.choice([b"\x98", b"\x99"]), 0, "ds"


ROUTINE = 3                                                             # jmp over it; inc dx; ret


def stack_trial(rng):
    """Code that pushes and pops with an odd SP, round the end of the stack segment, and puts SP back."""
    reg, other, sp = rng.choice([AX, CX, DX, BX]), rng.choice([AX, CX, DX, BX]), rng.choice([1, 1, 1, 3, 5, 0xffff])
    some = rng.choice([bytes([0x50 | reg, 0x58 | other]), b"\x50\x53\x51\x5a\x58\x5b", b"\x9c\x58\x25\xd5\x0f\x50\x58", b"\x68" + word(number(rng)) + b"\x58",
                       b"\x6a" + bytes([rng.randrange(256)]) + b"\x5b", b"\xb8" + word(ROUTINE) + b"\xff\xd0", b"\x0e\x59", b"\x60\x40\x4b\x61",
                       b"\x9a" + word(ROUTINE + 2) + word(0), b"\xc8\x04\x00" + bytes([rng.randrange(3)]) + b"\xc9"])
    return set_register(SP, sp) + some + set_register(SP, 0x8000)


def string_trial(rng):
    """A string instruction of words from or to offset ffff, in either direction, at times with repetition."""
    string = rng.choice([0xa5, 0xa7, 0xab, 0xad, 0xaf, 0x6d, 0x6f])
    over = rng.choice([b"", b"", b"\x26", b"\x36"]) if string in (0xa5, 0xa7, 0xad, 0x6f) else b""
    repeat = b"" if string in (0x6d, 0x6f) else rng.choice([b"", b"\xf3", b"\xf2" if string in (0xa7, 0xaf) else b"\xf3"])
    ends = [0xffff, 0xfffd, 1, 3, 0x8000]
    return (set_register(SI, rng.choice(ends)) + set_register(DI, rng.choice(ends)) + set_register(CX, rng.randrange(1, 4)) +
            set_register(DX, 0x300) * (string in (0x6d, 0x6f)) + rng.choice([b"\xfc", b"\xfd"]) + over + repeat + bytes([string]) + b"\xfc")


def word_segments():
    return b"".join(b"\xb8" + word(WORD_SEGMENTS[name]) + bytes([0x8e, 0xc0 | n << 3]) for name, n in (("es", 0), ("ss", 2), ("ds", 3))) + \
        set_register(SP, 0x8000)


# jmp over two routines: inc dx, ret; dec dx, retf
ROUTINES = b"\xeb\x05\x90\x42\xc3\x4a\xcb"


def words(seed, part):
    """Trials with words at offset ffff, each by `part`, which gives (code, mask of the flags that it defines, segment)."""
    rng, code, at = random.Random(seed), ROUTINES + word_segments(), 0x100
    while len(code) < 0xf000:
        for r in (AX, BX, CX, DX):
            code += set_register(r, number(rng))
        code += b"\x68" + word(rng.randrange(65536) & ALL | 2) + b"\x9d"
        some, mask, segment = part(rng, len(code))
        code += some + kept(at, mask, segment)
        at += 12
    return code + LAST


def word_part(rng, _):
    k = rng.randrange(8)
    if k == 0:
        return stack_trial(rng), ALL & ~AF, "ss"
    if k == 1:
        return string_trial(rng), ALL, rng.choice(["ds", "es", "ss"])
    before, op, mask, segment = word_trial(rng, rng.choice([0xffff, 0xffff, 0xffff, 0xfffe, 0]))
    over = bytes([PREFIX[segment]])
    put = over + b"\xc6\x06\xff\xff" + bytes([rng.randrange(256)]) + over + b"\xc6\x06\x00\x00" + bytes([rng.randrange(256)])
    return (put if rng.randrange(2) else b"") + before + op, mask, segment


def pointer_part(rng, here):
    """Two words at offsets from fffc on: les, lds, bound, far jumps and calls."""
    k, offset, reg = rng.randrange(5), rng.choice([0xffff, 0xffff, 0xfffe, 0xfffd, 0xfffc]), rng.choice([AX, CX, DX])
    put = lambda low, high: b"\xc7\x06" + word(offset) + word(low) + b"\xc7\x06" + word(offset + 2) + word(high)
    if k < 2:                                                           # les or lds; bx = es or ds, and es and ds again
        before, over, rest, _ = operand(rng, reg, offset)
        return before + over + bytes([0xc4 | k]) + rest + [b"\x8c\xc3", b"\x8c\xdb"][k] + b"\x68\x00\x40\x07\x68\x00\x20\x1f", ALL, "ds"
    if k == 2:
        return put(0x8000, 0x7fff) + bytes([0x62, 6 | reg << 3]) + word(offset), ALL, "ds"
    if k == 3:
        return put(ROUTINE + 2, 0) + b"\xff\x1e" + word(offset), ALL, "ds"
    return put(here + 17, 0) + b"\xff\x2e" + word(offset) + b"\x42", ALL, "ds"


def traps(seed, part, instead=None):
    """Trials whose interrupts 0 and 5 lead to handlers that keep the flags I, T and D of both sides in BX and DI, and go on at SI, since
    emulators of later processors push the address of the instruction itself. `instead` stands in the place of each operation.
    (code, address of the jump to itself)"""
    rng = random.Random(seed)
    # push bp; mov bp,sp; [bp+2] = si; bx = [bp+6] and 700; pushf; pop di; di = di and 700, plus k; pop bp; iret
    handlers = [b"\x55\x89\xe5\x89\x76\x02\x8b\x5e\x06\x81\xe3\x00\x07\x9c\x5f\x81\xe7\x00\x07\x83\xc7" + bytes([k]) + b"\x5d\xcf" for k in (1, 5)]
    entry, wide = START + 0xe000, len(handlers[0])
    code = b"".join(b"\xc7\x06" + word(4 * n) + word(entry + k * wide) + b"\xc7\x06" + word(4 * n + 2) + word(SEGMENT)
                    for k, n in enumerate((0, 5))) + DATA
    at = 0
    while len(code) < 0xdf00:
        code += set_register(BX, number(rng)) + b"\x31\xff"
        some, op = part(rng)
        op = instead or op
        code += some + b"\x68" + word(rng.randrange(65536) & 0x0ed5 | 2) + b"\x9d"
        code += set_register(SI, START + len(code) + 3 + len(op)) + op
        for r in (AX, BX, CX, DX, DI):
            code += bytes([0x89, 6 | r << 3]) + word(at)
            at += 2
        code += b"\x6a\x00" * 5 + b"\x58" * 5                           # what the stack had goes
    code += b"\x6a\x02\x9d" + LAST                                     # the flags are known again
    last = SEGMENT * 16 + START + len(code) - 2
    code = code.ljust(0xe000, b"\x90") + b"".join(handlers)
    return (b"\xea" + word(START) + word(SEGMENT)).ljust(SEGMENT * 16 + START, b"\0") + code, last


def is_least(dividend, divisor, half):
    """Whether the quotient of two numbers with a sign, of 4 * half * half and of 2 * half values, is -half."""
    dividend = (dividend + 2 * half * half) % (4 * half * half) - 2 * half * half
    divisor = (divisor + half) % (2 * half) - half
    return (dividend < 0) != (divisor < 0) and abs(dividend) // abs(divisor) == half


def division(rng, least):
    """Divisions of DX, AX by CX, with quotients that fit, that don't, and the last ones of either; or with the least quotient of IDIV alone,
    which the 80186 has and the 8086 hasn't."""
    wide, signed = rng.randrange(2), least or rng.randrange(2)
    half = 1 << (15 if wide else 7)
    divisor = rng.choice([0, 1, half - 1, half, 2 * half - 1, rng.randrange(2 * half), rng.randrange(2 * half)])
    if least or divisor and rng.randrange(4):
        divisor = divisor or 1
        by = divisor - 2 * half if signed and divisor >= half else divisor
        last = rng.choice([0, 1, -1, half - 1, half, 1 - half, -half - 1, 2 * half - 1, 2 * half])
        quotient = -half if least else last if rng.randrange(2) else rng.randrange(1 - half, half)
        # with a sign the remainder has that of the dividend, and the dividend has to fit
        dividend = quotient * by
        dividend += rng.randrange(abs(by)) * (1 if dividend >= 0 else -1)
    else:
        dividend = rng.randrange(4 * half * half)
    if not least and signed and divisor and is_least(dividend, divisor, half):
        dividend = 0
    ax, dx = (dividend & 0xffff, dividend >> 16 & 0xffff) if wide else (dividend & 0xffff, number(rng))
    cx = divisor if wide else divisor | rng.randrange(256) << 8
    return set_register(AX, ax) + set_register(CX, cx) + set_register(DX, dx), bytes([0xf6 | wide, 0xf1 | signed << 3])


def divisions():
    return traps(0, lambda rng: division(rng, False))


def least():
    return traps(1, lambda rng: division(rng, True))


def thrown():
    return traps(1, lambda rng: division(rng, True), b"\xcd\x00")


def bound(rng):
    """BOUND of DX, or AAM."""
    if rng.randrange(8) == 0:
        return set_register(AX, number(rng)), b"\xd4" + bytes([rng.choice([0, 0, 10, rng.randrange(256)])])
    low, high = number(rng), number(rng)
    index = rng.choice([low, high, low - 1 & 0xffff, high + 1 & 0xffff, number(rng)])
    offset = rng.randrange(0x8000, 0xfff0)
    return (b"\xc7\x06" + word(offset) + word(low) + b"\xc7\x06" + word(offset + 2) + word(high) + set_register(DX, index) +
            set_register(AX, number(rng)), b"\x62\x16" + word(offset))


def bounds():
    return traps(5, bound)


def images():
    rng = random.Random(86)
    codes = b"".join(bytes([first, second, 0x12, 0x34, 0x40, 0x40]) for first in range(256) for second in range(256))
    return {"random": bytes(rng.randrange(256) for _ in range(65536)), "codes": codes,
            "flags": flags(None), "fewer": flags(31), "counts": counts(False), "ones": counts(True),
            "stream": stream(0x3000), "apart": stream(0x6000), "jumps": jumps()[0],
            "words": words(16, word_part), "pointers": words(32, pointer_part), "top": top(),
            "interrupts": interrupts()[0], "divisions": divisions()[0], "least": least()[0], "thrown": thrown()[0], "bounds": bounds()[0]}

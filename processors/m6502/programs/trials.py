"""An assembly text for ca65 on standard output: the function `trials` tries each operation on random
registers, flags and memory, sums in decimal mode too,, and stores the registers and flags after it."""
import random

rng = random.Random(6502)
PLAIN = "asl a;rol a;lsr a;ror a;inx;iny;dex;dey;tax;tay;txa;tya;clc;sec;clv;cli;sei;tsx".split(";")
READ = "ora and eor adc sbc cmp lda".split()
CHANGE = "asl rol lsr ror inc dec".split()
count = 0
lines = []


def trial(operation, x=None, y=None, a=None, decimal=0):
    global count
    at = "kept+%d" % (5 * count)
    pick = lambda: rng.choice([0, 1, 0x7f, 0x80, 0xff] + [rng.randrange(256)] * 5)
    lines.append("\tlda #$%02x\n\tpha\n\tldx #$%02x\n\tldy #$%02x\n\tlda #$%02x\n\tplp\n\t%s"
                 % (rng.randrange(256) & 0xf7 | decimal, pick() if x is None else x, pick() if y is None else y,
                    pick() if a is None else a, operation))
    lines.append("\tphp\n\tcld\n\tsta %s\n\tpla\n\tsta %s+1\n\tstx %s+2\n\tsty %s+3" % ((at,) * 4))
    if "cells" in operation:
        lines.append("\tlda cells+%d\n\tsta %s+4" % (rng.randrange(16), at))
    count += 1


for op in PLAIN:
    trial(op if op != "tsx" else "nop")
    trial(op if op != "tsx" else "nop")
for op in READ:
    for _ in range(3):
        trial("%s #$%02x" % (op, rng.randrange(256)))
    trial("%s cells+%d" % (op, rng.randrange(16)))
    trial("%s cells,x" % op, x=rng.randrange(16))
    trial("%s cells,y" % op, y=rng.randrange(16))
    trial("%s $1e" % op)
    trial("%s $f8,x" % op, x=rng.choice([rng.randrange(8), 0x26]))
    trial("%s (pointer,x)" % op, x=2 * rng.randrange(2))
    trial("%s (pointer),y" % op, y=rng.randrange(12))
for op in CHANGE:
    for _ in range(2):
        trial("%s cells+%d" % (op, rng.randrange(16)))
        if op != "rol":     # `rol abs,x` of sim65 2.19 goes astray
            trial("%s cells,x" % op, x=rng.randrange(16))
for op in "cpx cpy ldx ldy".split():
    for _ in range(3):
        trial("%s #$%02x" % (op, rng.randrange(256)))
    trial("%s cells+%d" % (op, rng.randrange(16)))
EDGES = [0, 1, 0x7f, 0x80, 0xff]
for m in EDGES:
    for n in EDGES:
        trial("%s #$%02x" % (rng.choice(["adc", "sbc"]), n), a=m)
    trial("cmp #$%02x" % m, a=m)
    trial("cpx #$%02x" % m, x=m)
    trial("cpy #$%02x" % m, y=m)
    trial("cmp #$%02x" % ((m + 1) & 255), a=m)
for _ in range(4):
    trial("bit cells+%d" % rng.randrange(16))
for branch in "bpl bmi bvc bvs bcc bcs bne beq".split():
    for _ in range(2):
        trial("%s *+4\n\teor #$55" % branch)
for _ in range(120):
    digits = lambda: rng.randrange(10) << 4 | rng.randrange(10)
    trial("adc #$%02x" % digits(), a=digits(), decimal=8)       # sim65 2.19 loses the borrow of decimal differences
print("\t.export _trials\n\t.bss\nkept:\t.res %d" % (5 * count))
print("\t.data\ncells:\t.byte " + ", ".join("$%02x" % rng.choice([0, 1, 0x7f, 0x80, 0xff, rng.randrange(256)]) for _ in range(40)))
print("\t.zeropage\npointer:\t.res 4\n\t.code\n_trials:")
for i, what in enumerate(["<cells", ">cells", "<(cells+4)", ">(cells+4)"]):
    print("\tlda #%s\n\tsta pointer+%d" % (what, i))
for at in [0x1e] + list(range(0xf8, 0x100)):     # sim65's memory isn't cleared
    print("\tlda #$%02x\n\tsta $%02x" % (rng.randrange(256), at))
print("\n".join(lines) + "\n\trts")

"""compare.py PROGRAM [--no-run] [--reasons]: lists the images with PROGRAM and compares each line with what d52 printed, then runs the
programs and compares with what s51 ended with: the steps, the counter, the special function registers that are described, and the
bytes of the internal and the external memory.

d52 shows names for special function registers and bits. Which number a name has is learnt, on both sides, from the
image `names`, which has each direct address and each bit address once. Ends with 0 exactly if all lines agree or are
excepted for the reason below, and all runs agree."""
import os
import re
import sys

sys.dont_write_bytecode = True
sys.path.insert(0, os.path.join(os.path.dirname(os.path.abspath(__file__)), ".."))
from common import Comparison, number, paired

FILL = "d52 leaves out a lone byte 00 or ff"
OF_BITS = {0x10, 0x20, 0x30, 0x72, 0x82, 0x92, 0xa0, 0xa2, 0xb0, 0xb2, 0xc2, 0xd2}
OF_JUMPS = ({0x40, 0x50, 0x60, 0x70, 0x80, 0x02, 0x12, 0x10, 0x20, 0x30, 0xb4, 0xb5, 0xd5}
            | set(range(0xb6, 0xc0)) | set(range(0xd8, 0xe0)) | {x for x in range(256) if x & 15 == 1})
FIXED = {"a", "ab", "c", "dptr", "@r0", "@r1", "@dptr", "@a+dptr", "@a+pc"} | {"r%d" % i for i in range(8)}


def value(text):
    """The number that a text stands for (12h, 0x12, 12, and d52's label X0012), or none."""
    if re.fullmatch(r"-?0x[0-9a-f]+", text) or re.fullmatch(r"[0-9]+", text):
        return number(text)
    if re.fullmatch(r"[0-9][0-9a-f]*h", text):
        return int(text[:-1], 16)
    if re.fullmatch(r"x[0-9a-f]{4}", text):
        return int(text[1:], 16)
    return None


def split(text):
    mnemonic, _, operands = re.sub(r"\s+", " ", text.lower()).partition(" ")
    return mnemonic, [o for o in operands.replace(" ", "").split(",") if o]


def plain(code, text, direct, bits):
    """Mnemonic and operands, numbers decimal, each with its kind."""
    mnemonic, operands = split(text)
    found = []
    for i, o in enumerate(operands):
        if o in FIXED:
            found.append(o)
        elif o[0] == "#":
            found.append("#%d" % value(o[1:]))
        elif code in OF_JUMPS and i == len(operands) - 1:
            found.append("to %d" % (value(o) % 65536))
        elif code in OF_BITS:
            bare = o.lstrip("/")
            n = value(bare)
            found.append(("/" if o[0] == "/" else "") + "bit %d" % (bits[bare] if n is None else n))
        else:
            n = value(o)
            found.append("direct %d" % (direct[o] if n is None else n))
    return mnemonic, found


def learn(lines, data):
    direct, bits = {}, {}
    for address, (_, text) in lines.items():
        _, operands = split(text)
        if data[address] == 0xe5:
            direct.setdefault(operands[1], data[address + 1])
        elif data[address] == 0xb2:
            bits.setdefault(operands[0], data[address + 1])
    return direct, bits


def main():
    c = Comparison(__file__)
    spec = "i8051.slaspec"
    ours_names = learn(c.listing(spec, "names"), c.images["names"])
    real_names = learn(c.expected("names"), c.images["names"])

    def judge(data, address, real, ours):
        if ours == "??" or real.startswith("db"):
            return ours == "??" and real.startswith("db")
        return plain(data[0], ours, *ours_names) == plain(data[0], real, *real_names)

    for name in ("names", "random"):
        def alone(address, ours, real):
            return FILL if real is None and ours[0] == 1 and c.images[name][address] in (0, 0xff) else False
        c.lines(name, name, 0, c.listing(spec, name), c.expected(name), judge, alone)
    for name, real in c.ended("programs").items() if c.with_runs else []:
        steps = int(real[0].split(" ")[1])
        status, out = c.run(spec, name, steps)
        found = dict(line.split(" ", 1) for line in out)
        lines = ["%s %s" % (key, found.get(key)) for key in ["steps", "counter", "ACC", "B", "PSW", "SP", "DPL", "DPH", "P2"]]
        for memory in ("INTMEM[", "EXTMEM["):
            lines += [line for line in out if line.startswith(memory)]
        wrong = paired(lines, real)
        if status != 0 or len(real) < 100:
            wrong.append(("status %d" % status, "status 0"))
        c.ran(name, "s51", steps, wrong)
    return c.end()


if __name__ == "__main__":
    sys.exit(main())

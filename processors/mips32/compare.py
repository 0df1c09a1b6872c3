"""compare.py PROGRAM [--no-run] [--reasons]: lists the images with PROGRAM and compares each line with what GNU objdump printed:
mips32.slaspec with its plain names, mips32_aliases.slaspec with its aliases, and mips32_pairs.slaspec with the plain names again,
where a branch and its delay slot are one line of ours and two of objdump's. Then the straight programs against qemu-mips, and
the run of pairs.bin. Ends with 0 exactly if all lines agree or are excepted for a reason named here, and all runs agree."""
import os
import re
import struct
import sys

sys.dont_write_bytecode = True
sys.path.insert(0, os.path.join(os.path.dirname(os.path.abspath(__file__)), ".."))
from common import Comparison, number, paired

OUTSIDE = "floating point, coprocessors 1 to 3, jalx, EJTAG and other instructions beyond the described ones"
COUNTS = "clz, clo: objdump shows rd and rt (the two have to be the same register), ours rd alone"
NEGATION = "objdump shows neg and negu in spite of no-aliases"
ROTATION = "rorv is of release 2"
CLEAR = "objdump shows `clear` as a move of the register zero"
UNFILLED = "pairs: a branch before a word that is no instruction, one beyond the described ones, or a branch or eret"
ERET = 0x42000018
BASE = 0x10000                                  # of the streams
FOREIGN = re.compile(r"(.*\.[sdw](\.|$)|bc1|[sl][wd]c[123]$|[mc][ft]c[1234]$|c[0123]$|bc[0123]|m[ft]c2|jalx|movf$|movt$"
                     r"|[ls][wd]xc1|pref?x|sdbbp|deret)")
# What pairs.s ends with: qemu-mips knows no run of given steps, so this is worked out by hand from the source.
PAIRS = ["counter 00000038", "v0 00000037", "v1 00000038", "t0 ffffffff", "s0 00000000", "s1 00000002", "s2 00000003",
         "ra 0000001c", "ram[00000103] 37"]


def plain(text):
    """One blank, coprocessor registers by number, numbers decimal in 32 bits."""
    text = re.sub(r"\bc0_(\d+)", r"$\1", text.replace("\t", " "))
    return re.sub(r"(?<![\w$])-?(0x[0-9a-f]+|[0-9]+)\b", lambda m: str(number(m.group(0)) % (1 << 32)), text).strip()


def judge_as(kind):
    def judge(data, address, real, ours):
        word = struct.unpack(">I", data)[0]
        mnemonic = real.split("\t")[0]
        foreign = FOREIGN.match(mnemonic)
        theirs = "??" if real.startswith(".word") else plain(real)
        mine = ours if ours == "??" else plain(ours)
        if mine == theirs:
            return True
        if word >> 26 == 0x1c and word & 0x3f in (0x20, 0x21) and mine != "??":
            a, b = mine.split(","), theirs.split(",")
            return COUNTS if mine.split(" ")[0] == theirs.split(" ")[0] and a[1] == b[1][:len(a[1])] else False
        if kind == "plain" and theirs.startswith("neg"):
            return NEGATION if mine == theirs.replace("negu ", "subu ").replace("neg ", "sub ").replace(",", ",zero,") else False
        if kind == "aliases" and mine.startswith("clear "):
            return CLEAR if theirs == "move" + mine[5:] + ",zero" else False
        if mine == "??" and theirs.startswith("rorv "):
            return ROTATION
        return OUTSIDE if mine == "??" and foreign else False
    return judge


def branches(word):
    op = word >> 26
    return (op in (2, 3, 4, 5, 6, 7, 0x14, 0x15, 0x16, 0x17) or op == 0 and word & 0x3f in (8, 9)
            or op == 1 and word >> 16 & 31 in (0, 1, 2, 3, 0x10, 0x11, 0x12, 0x13))


def pairs(c, name, single):
    """mips32_pairs: the two parts of a line, each at its address. `single` is the listing by mips32.slaspec."""
    words = struct.unpack(">%dI" % (len(c.images[name]) // 4), c.images[name])
    judge = judge_as("plain")

    def judge_pair(data, address, real, ours):
        verdict = judge(data, address, real, ours)
        if verdict is False and ours == "??" and branches(words[address // 4]):
            behind = single.get(address + 4)
            if behind is None or behind[1] == "??" or branches(words[address // 4 + 1]) or words[address // 4 + 1] == ERET:
                return UNFILLED
        return verdict

    ours = {}
    for address, (length, text) in c.listing("mips32_pairs.slaspec", name).items():
        for i, part in enumerate(text.split("; ")):
            ours[address + 4 * i] = (4, part)
    end = len(c.images[name])
    c.lines("%s, pairs" % name, name, 0, {a: o for a, o in ours.items() if a < end}, c.expected(name + ".plain"), judge_pair)


def stream(c, name, spec, real):
    """A run until the branch to itself at the end, and all memory behind it. The steps are those that the emulator took, as the
    description counts them."""
    steps = next(number(line.split(" ")[2]) for line in real if line.startswith("steps %s " % spec))
    real = [line for line in real if not line.startswith("steps ")]
    status, out = c.run(spec + ".slaspec", name, steps, BASE)
    found = dict(line.split(" ", 1) for line in out)
    ours = ["%s %s" % (r.split(" ")[0], found.get(r.split(" ")[0])) for r in real if not r.startswith("ram[")]
    wrong = paired(ours + [line for line in out if line.startswith("ram[")], real)
    if status != 0 or len(real) < 200:
        wrong.append(("status %d" % status, "status 0"))
    c.ran("%s, %s" % (spec, name), "qemu-mips", steps, wrong)


def main():
    c = Comparison(__file__)
    for spec, kind in (("mips32.slaspec", "plain"), ("mips32_aliases.slaspec", "aliases")):
        for name in ("random", "shaped", "special"):
            ours = c.listing(spec, name)
            c.lines("%s, %s" % (name, kind), name, 0, ours, c.expected("%s.%s" % (name, kind)), judge_as(kind))
            if kind == "plain":
                pairs(c, name, ours)
    if c.with_runs:
        for name, real in c.ended("programs").items():
            if name.startswith("straight"):
                steps = len(c.images[name]) // 4
                status, out = c.run("mips32.slaspec", name, steps)
                found = dict(line.split(" ", 1) for line in out)
                wrong = paired(["%s %s" % (r.split(" ")[0], found.get(r.split(" ")[0])) for r in real], real)
                if status != 0 or out[0] != "steps %d" % steps or len(real) != 31:
                    wrong.append((out[0], "steps %d" % steps))
                c.ran(name, "qemu-mips", steps, wrong)
            else:                                   # streams by both, filled slots by the pairs alone
                for spec in ("mips32", "mips32_pairs") if name.startswith("stream") else ("mips32_pairs",):
                    stream(c, name, spec, real)
        status, out = c.run("mips32_pairs.slaspec", "pairs", 40)
        wrong = [("(not there)", line) for line in PAIRS if line not in out]
        if status != 0:
            wrong.append(("status %d" % status, "status 0"))
        c.ran("pairs", "the source", 40, wrong)
    return c.end()


if __name__ == "__main__":
    sys.exit(main())

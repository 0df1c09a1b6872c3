"""compare.py PROGRAM [--no-run] [--reasons]: lists the images with PROGRAM and compares each line with what GNU objdump printed, then
runs the programs and compares with what qemu-riscv32 ended with: the steps, the counter, x1 to x31 and each byte of memory that
changed. Ends with 0 exactly if all lines agree or are excepted for a reason named here, and all runs agree."""
import os
import re
import sys

sys.dont_write_bytecode = True
sys.path.insert(0, os.path.join(os.path.dirname(os.path.abspath(__file__)), ".."))
from common import NEITHER, Comparison, paired

SPEC = "rv32im.slaspec"
LISTS = ("words", "shapes", "csrs")
BASE = 0x10000
WIDE = "a shift by 32 or more, reserved with 32 bits, which objdump shows all the same"


def as_objdump(text):
    """A target without 0x, the displacement of a store in decimal."""
    if re.match(r"(jal|b[a-z]+) ", text):
        return re.sub(r"0x([0-9a-f]+)$", r"\1", text)
    if re.match(r"s[bhw] ", text):
        return re.sub(r"-?0x[0-9a-f]+(?=\()", lambda m: str(int(m.group(), 16)), text)
    return text


def judge(data, address, real, ours):
    none = re.match(r"\.[0-9a-z]+ ?0x", real)
    if ours == "??":
        if none:
            return NEITHER
        return WIDE if re.match(r"s(ll|rl|ra)i .*,0x[23][0-9a-f]$", real) else False
    return as_objdump(ours) == real


def main():
    c = Comparison(__file__)
    for name in sorted(c.images):
        base = 0 if name in LISTS else BASE
        real = c.expected(name, base)
        ours = {at: line for at, line in c.listing(SPEC, name, base).items() if at <= max(real)}    # data behind the code is not listed
        c.lines(name, name, base, ours, real, judge)
    for name, real in c.ended("programs").items() if c.with_runs else []:
        steps = int(real[0].split(" ")[1])
        status, out = c.run(SPEC, name, steps, BASE)
        wrong = paired(out, real)
        if status != 0 or len(real) < 33:
            wrong.append(("status %d" % status, "status 0"))
        c.ran(name, "qemu-riscv32", steps, wrong)
    return c.end()


if __name__ == "__main__":
    sys.exit(main())

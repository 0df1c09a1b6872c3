"""compare.py PROGRAM [--no-run] [--reasons]: lists the images with PROGRAM and compares each line with what avr-objdump printed, then
runs the programs and compares with what simavr ended with: the counter, R0 to R31, SREG, SP and the data memory from 0x100 on.
There is no exception. Ends with 0 exactly if all agree."""
import os
import re
import sys

sys.dont_write_bytecode = True
sys.path.insert(0, os.path.join(os.path.dirname(os.path.abspath(__file__)), ".."))
from common import Comparison, number, paired

SPEC = "avr.slaspec"
RUNS = {"sums": 20000, "program": 300000, "alu": 20000, "jumps": 2000}
SPACE = 1 << 24
PAIRS = {"W": "r24", "X": "r26", "Y": "r28", "Z": "r30"}


def ours_plain(text):
    """Mnemonic, operands; pairs by their lower register, numbers decimal."""
    mnemonic, _, rest = text.partition(" ")
    found = []
    for o in [o.strip() for o in rest.split(",")] if rest else []:
        pair = re.match(r"R\d+R(\d+)$", o)
        if pair:
            o = "r" + pair.group(1)
        elif o in PAIRS and mnemonic in ("movw", "adiw", "sbiw"):
            o = PAIRS[o]
        elif re.match(r"R\d+$", o):
            o = o.lower()
        elif re.match(r"-?(0x)?[0-9a-f]+$", o):
            o = str(number(o))
        elif re.match(r"[YZ]\+0x", o):
            o = o[:2] + str(number(o[2:]))
        found.append(o)
    return mnemonic, found


def real_plain(address, text):
    """The same of avr-objdump's line; it shows targets as distances."""
    mnemonic, _, rest = text.split(";")[0].strip().partition("\t")
    found = []
    for o in [o.strip() for o in rest.split(",")] if rest else []:
        if o.startswith("."):
            o = str((address + 2 + int(o[1:])) % SPACE)
        elif re.match(r"(0x)?[0-9A-Fa-f]+$", o):
            o = str(number(o))
        elif re.match(r"[YZ]\+\d", o):
            o = o[:2] + str(number(o[2:]))
        found.append(o)
    return mnemonic, found


def judge(data, address, real, ours):
    if ours == "??" or real.startswith(".word"):
        return ours == "??" and real.startswith(".word")
    return ours_plain(ours) == real_plain(address, real)


def main():
    c = Comparison(__file__)
    for name in ("codes", "random", "program", "alu"):
        c.lines(name, name, 0, c.listing(SPEC, name), c.expected(name), judge)
    for name, steps in RUNS.items() if c.with_runs else []:
        status, out = c.run(SPEC, name, steps)
        found = dict(line.split(" ", 1) for line in out)
        lines = ["%s %s" % (key, found.get(key)) for key in
                 ["steps", "counter"] + ["R%d" % i for i in range(32)] + ["SREG", "SP"]]
        lines += sorted(line for line in out if line.startswith("mem[") and int(line[4:-4], 16) >= 0x100)
        wrong = paired(lines, c.ended(name)[name])
        if status != 0:
            wrong.append(("status %d" % status, "status 0"))
        c.ran(name, "simavr", steps, wrong)
    return c.end()


if __name__ == "__main__":
    sys.exit(main())

"""compare.py PROGRAM [--no-run] [--reasons]: lists the images with PROGRAM and compares each line with what da65 printed, then runs the
programs up to their call of sim65's `write` and compares the bytes that they handed to it (all their variables) with our memory. Ends with 0 exactly if all lines agree or are excepted for the reason below, and all
runs agree."""
import os
import re
import sys

sys.dont_write_bytecode = True
sys.path.insert(0, os.path.join(os.path.dirname(os.path.abspath(__file__)), ".."))
from common import NEITHER, Comparison

SPEC = "m6502.slaspec"
LISTS = ("codes", "random", "flags", "text")
BASES = {"codes": 0x1000, "random": 0x1000, "flags": 0x200, "text": 0x200, "decimal": 0x200}
# What a run is compared with, its steps, and where it ends: at the call of sim65's `write`, or behind the code.
RUNS = {"flags": ("sim65", 10008, "fff7"), "text": ("sim65", 78158, "fff7"), "decimal": ("the rule of decimal differences", 10501, "5409")}
TAKEN_APART = "da65 takes an instruction apart into .byte where another line's target lies inside it"


def plain(text):
    """da65's `$12`, `L1234` and `a:..` (a short address in the long form) as numbers."""
    if text.startswith(".byte"):
        return "??"
    return re.sub(r"(?:a:)?(?:\$|\bL)([0-9A-F]{2,4})\b", lambda m: hex(int(m.group(1), 16)), text)


def compare(c, name):
    ours, real = c.listing(SPEC, name, BASES[name]), c.expected(name, BASES[name])
    targets = {int(t, 16) for _, text in real.values() for t in re.findall(r"\bL([0-9A-F]{4})\b", text)}

    def judge(data, address, theirs, mine):
        theirs = plain(theirs)
        if mine == theirs:
            return NEITHER if mine == "??" else True
        if theirs == "??" and any(address + i in targets for i in range(1, ours[address][0])):
            return TAKEN_APART
        return False

    c.lines(name, name, BASES[name], ours, real, judge)


def main():
    c = Comparison(__file__)
    for name in LISTS:
        compare(c, name)
    for name, (by, steps, last) in RUNS.items() if c.with_runs else ():
        status, out = c.run(SPEC, name, steps, BASES[name])
        memory = dict(line.split(" ") for line in out if line.startswith("ram["))
        real = c.ended(name)[name]
        wrong = [("%s %s" % (at, memory.get(at, "00")), line) for line in real for at, byte in [line.split(" ")]
                 if memory.get(at, "00") != byte]
        if status != 0 or "counter " + last not in out or not real:
            wrong.append(("status %d, %s" % (status, out[1]), "status 0, counter " + last))
        c.ran(name, by, steps, wrong)
    return c.end()


if __name__ == "__main__":
    sys.exit(main())

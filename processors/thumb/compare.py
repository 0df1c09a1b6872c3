"""compare.py PROGRAM [--no-run] [--reasons]: lists the images with PROGRAM and compares each line with what GNU objdump printed for
armv6s-m (it shows Thumb-2, v8-M and coprocessor instructions too), then runs the programs and compares with qemu-arm.
Ends with 0 exactly if all lines agree or are excepted for a reason named here, and all runs agree."""
import os
import re
import struct
import sys

sys.dont_write_bytecode = True
sys.path.insert(0, os.path.join(os.path.dirname(os.path.abspath(__file__)), ".."))
from common import NEITHER, Comparison, number, paired

OUTSIDE = "objdump shows an instruction of Thumb-2, of v8-M or of a coprocessor"
SHOULD_BE_ZERO = "bx with bits set that should be 0, which objdump shows all the same"
CPS = "cps of the flags a and f, which ARMv6-M has not"
NEGS = "objdump shows the older name negs of rsbs"
SEVL = "sevl is of v8"
SPECIAL = "special registers that ARMv6-M has not"
APSR = "objdump shows CPSR where the manual has APSR"
BARRIER = "objdump shows ssbb, pssbb and dfb for options of dsb"
BASE = 0x10000                                  # of the streams
NUMBERED = {"sl": "r10", "fp": "r11", "ip": "r12", "sb": "r9"}
OF_V6M = ("bl", "msr", "mrs", "dmb", "dsb", "isb")
BEYOND = ("cbz", "cbnz", "hlt", "setend", "setpan", "bxns", "blxns", "bxnsne")


def plain(text):
    """One blank, no remark, registers and numbers alike; objdump gives the address of `adr` in its remark."""
    adr = re.search(r"@ \(adr \w+, (0x[0-9a-f]+)\)", text)
    text = text.split("@")[0].replace("\t", " ").strip()
    if adr:
        text = re.sub(r"#\d+$", adr.group(1), text)
    text = re.sub(r"^(\w+)\.n\b", r"\1", text)
    text = re.sub(r", +", ",", text)
    text = re.sub(r"\b(sl|fp|ip|sb)\b", lambda m: NUMBERED[m.group(1)], text)
    return re.sub(r"(?<![\w$])-?(0x[0-9a-f]+|[0-9]+)\b", lambda m: str(number(m.group(0)) % (1 << 32)), text).strip()


def excepted(first, long, ours, real):
    if not long:
        if first >> 7 == 0x8e and first & 7:
            return SHOULD_BE_ZERO if ours == "??" and real.startswith("bx ") else None
        if first >> 4 in (0xb66, 0xb67):
            return CPS if ours == "??" and real.startswith("cpsi") else None
        if first >> 6 == 0x109:
            return NEGS if ours == real.replace("negs", "rsbs") + ",#0" else None
        if first == 0xbf50:
            return SEVL if real == "sevl" else None
        return None
    if first >> 4 in (0xf38, 0xf39) and ours in ("?entry", "??") and real.startswith("msr "):
        return SPECIAL
    if first == 0xf3ef and ours == "?entry" and (real.startswith("mrs ") or "UNDEF" in real):
        return SPECIAL
    if first >> 4 == 0xf38:
        if ours == "?entry" and "<unknown>" in real:
            return SPECIAL
        return APSR if ours == real.replace("CPSR_f", "APSR") else None
    if first == 0xf3ef:
        return APSR if ours == real.replace("CPSR", "APSR") else None
    if first == 0xf3bf:
        return BARRIER if ours.startswith("dsb ") and real in ("ssbb", "pssbb", "dfb") else None
    return None


def judge(data, address, real, ours):
    mnemonic = real.split("\t")[0].split(".")[0]
    theirs = "??" if "UNDEFINED" in real else plain(real)
    mine = ours if ours == "??" else plain(ours)
    if mine == theirs:
        return NEITHER if mine == "??" else True
    first = struct.unpack("<H", data[:2])[0]
    reason = excepted(first, len(data) == 4, mine, theirs)
    if reason:
        return reason
    if mine == "??":
        if len(data) == 4 and mnemonic not in OF_V6M:
            return OUTSIDE
        if len(data) == 2 and (mnemonic in BEYOND or mnemonic.startswith("it") or mnemonic.startswith("nop")):
            return OUTSIDE
    return False


def main():
    c = Comparison(__file__)
    for name in ("random", "codes", "wide"):
        c.lines(name, name, 0, c.listing("thumb.slaspec", name), c.expected(name), judge)
    if c.with_runs:
        for name, real in c.ended("programs").items():
            streams = name.startswith("stream")
            steps = int(real[0].split(" ")[1]) if streams else 3000 if name.startswith("flags") else len(c.images[name]) // 2
            status, out = c.run("thumb.slaspec", name, steps, BASE if streams else 0)
            found = dict(line.split(" ", 1) for line in out)
            wrong = paired(["%s %s" % (r.split(" ")[0], found.get(r.split(" ")[0])) for r in real if not r.startswith("ram[")]
                           + ([line for line in out if line.startswith("ram[")] if streams else []), [r for r in real if not r.startswith("ram[")]
                           + [r for r in real if r.startswith("ram[")])
            if status != 0 or out[0] != "steps %d" % steps or len(real) < 17:
                wrong.append((out[0], "steps %d" % steps))
            c.ran(name, "qemu-arm", steps, wrong)
    return c.end()


if __name__ == "__main__":
    sys.exit(main())

"""compare.py PROGRAM [--no-run] [--reasons]: lists the images with PROGRAM, from 0x1000 on, and compares each line with what mspdebug and,
where stored, GNU objdump printed; both know the MSP430X too. Then runs the programs and compares with what mspdebug's simulator
ended with: the counter, the registers, and the bytes from 0x200 on that differ from the image. Ends with 0 exactly if all lines
agree or are excepted for a reason named here, and all runs agree."""
import os
import re
import sys

sys.dont_write_bytecode = True
sys.path.insert(0, os.path.join(os.path.dirname(os.path.abspath(__file__)), ".."))
from common import NEITHER, Comparison, paired

SPEC = "msp430.slaspec"
BASE = 0x1000
LISTS = ["codes%d" % i for i in range(8)] + ["random", "alu", "program", "program_s"]
RUNS = {"alu": 6000, "flags": 7200, "program": 200000, "program_s": 200000}

EXTENDED = "an instruction of the MSP430X"
BYTE_FORM = "mspdebug shows swpb, sxt and call with the byte bit, which do not exist"
PLACE = "mspdebug gives the place of a symbolic operand of rrc, swpb, rra, sxt, push and call 2 too high (and shows no .b)"
SUFFIX = "mspdebug shows no .b of rrc, rra and push (and an immediate byte in 16 bits)"
FARTHEST = "objdump has no jump by -512 words"
BRANCH = "objdump shows `br` for mov.b to pc"
ROTATION = "objdump shows `rla X(r)`, `rlc X(r)` for a sum of two places at the same register, and for addc #1,X(r3)"
ALIAS = "objdump gives a symbolic or absolute destination by the bare distance, or by the source's place"
ENDED = "objdump ends at this word"

WITH_CONSTANT = {"clr": ("mov", 0), "inv": ("xor", 0xffff), "tst": ("cmp", 0), "inc": ("add", 1), "incd": ("add", 2),
                 "dec": ("sub", 1), "decd": ("sub", 2), "adc": ("addc", 0), "dadc": ("dadd", 0), "sbc": ("subc", 0)}
OF_FLAGS = {"setc": ("bis", 1), "setz": ("bis", 2), "setn": ("bis", 4), "clrc": ("bic", 1), "clrz": ("bic", 2),
            "clrn": ("bic", 4), "dint": ("bic", 8), "eint": ("bis", 8)}
JUMPS = {"jnz": "jne", "jz": "jeq", "jnc": "jlo", "jc": "jhs"}
NAMES = {"r0": "pc", "r1": "sp", "r2": "sr"}


def operand(text):
    """All numbers decimal in 16 bits, names small."""
    text = text.strip().lower()
    text = re.sub(r"(?<![a-z0-9])-?(0x[0-9a-f]+|\d+)", lambda m: str(int(m.group(0), 0) % 65536), text)
    text = re.sub(r"\br[012]\b", lambda m: NAMES[m.group(0)], text)
    return text.replace("_lo", "")


def plain(mnemonic, operands):
    """The instruction without its aliases."""
    byte = ".b" if mnemonic.endswith(".b") else ""
    if byte:
        operands = [re.sub(r"^#(\d+)$", lambda m: "#%d" % (int(m.group(1)) % 256), o) for o in operands]
    name = mnemonic[:-2] if mnemonic.endswith((".b", ".w")) else mnemonic
    name = JUMPS.get(name, name)
    if name in WITH_CONSTANT and len(operands) == 1:
        name, constant = WITH_CONSTANT[name]
        operands = ["#%d" % (constant % (256 if byte else 65536))] + operands
    elif name in OF_FLAGS:
        name, constant = OF_FLAGS[name]
        operands = ["#%d" % constant, "sr"]
    elif name == "br":
        name, operands = "mov", operands + ["pc"]
    elif name == "ret":
        name, operands = "mov", ["@sp+", "pc"]
    elif name == "pop":
        name, operands = "mov", ["@sp+"] + operands
    elif name == "nop":
        name, operands = "mov", ["#0", "r3"]
    elif name in ("rla", "rlc"):
        name, operands = {"rla": "add", "rlc": "addc"}[name], operands * 2
    return name + byte + " " + ",".join(operands)


def ours_plain(text):
    mnemonic, _, rest = text.partition(" ")
    return plain(mnemonic, [operand(o) for o in rest.split(",")] if rest else [])


def of_mspdebug(address, text):
    mnemonic, _, rest = text.partition(" ")
    return mnemonic.lower(), [operand(o) for o in rest.split(",")] if rest else []


def of_objdump(address, text):
    """Its remarks have the places of symbolic operands."""
    text, _, remark = text.partition(";")
    places = re.findall(r"PC rel\. (0x[0-9a-f]+)", remark)
    mnemonic, _, rest = text.strip().partition("\t")
    operands = []
    for o in rest.split(",") if rest.strip() else []:
        o = o.strip()
        target = re.match(r"\$([+-]\d+)$", o)
        if target:
            o = str((address + int(target.group(1))) % 65536)
        elif re.match(r"-?(0x[0-9a-f]+|\d+)$", o) and places:
            o = places.pop(0)
        operands.append(operand(o))
    return mnemonic.strip().lower(), operands


def excepted_mspdebug(word, mine, real):
    if not 0x1000 <= word < 0x1300:
        return False
    if mine is None:
        return BYTE_FORM if word & 0x40 and real.split(" ")[0] in ("swpb", "sxt", "call") else False
    bare, symbolic = mine.replace(".b", ""), word & 0x3f == 0x10
    if symbolic:
        real = re.sub(r"\d+$", lambda m: str((int(m.group(0)) - 2) % 65536), real)
    real = re.sub(r"#(\d+)$", lambda m: "#%d" % (int(m.group(1)) % 256 if word & 0x40 else int(m.group(1))), real)
    return (PLACE if symbolic else SUFFIX) if bare == real else False


def excepted_objdump(word, mine, real):
    if mine is None:
        return False
    if word & 0xf0cf == 0x4040:
        return BRANCH if real.startswith("mov ") and real.endswith(",pc") and mine.startswith("mov.b ") else False
    rotation = word >> 12 in (5, 6) and word & 0xb0 == 0x90 and word >> 8 & 15 == word & 15
    if rotation and word & 15 == 3:
        return ROTATION if mine == mine.split(" ")[0] + " #1," + real.split(",")[-1] else False
    if word >= 0x4000 and (rotation or word & 0x8f == 0x80) and mine.rsplit(",", 1)[0] == real.rsplit(",", 1)[0]:
        return ROTATION if rotation else ALIAS
    return False


def judge_by(reader, excepted):
    def judge(data, address, real, ours):
        word = int.from_bytes(data[:2], "little")
        mine = None if ours == "??" else ours_plain(ours)
        if real == "(ended)":
            return ENDED
        mnemonic, operands = reader(address, real)
        none = mnemonic in ("", "???", ".word", ".short")
        if none or word < 0x1000 or 0x1300 < word < 0x2000 or mnemonic.endswith((".a", "x")):
            if mine is None:
                return NEITHER if none else EXTENDED
            return FARTHEST if word & 0xe3ff == 0x2200 else False
        theirs = plain(mnemonic, operands)
        return mine == theirs or excepted(word, mine, theirs)
    return judge


def main():
    c = Comparison(__file__)
    for name in LISTS:
        ours = c.listing(SPEC, name, BASE)
        for tool, judge in (("mspdebug", judge_by(of_mspdebug, excepted_mspdebug)),
                            ("objdump", judge_by(of_objdump, excepted_objdump))):
            if os.path.exists(os.path.join(c.here, "expected", "%s.%s.txt.gz" % (name, tool))):
                c.lines("%s by %s" % (name, tool), name, BASE, ours, c.expected("%s.%s" % (name, tool), BASE), judge)
    for name, steps in RUNS.items() if c.with_runs else []:
        status, out = c.run(SPEC, name, steps, BASE)
        found = dict(line.split(" ", 1) for line in out)
        lines = ["%s %s" % (key, found.get(key)) for key in
                 ["steps", "counter", "SP", "SR", "R3"] + ["R%d" % i for i in range(4, 16)]]
        lines += [line for line in out if line.startswith("RAM[") and int(line[4:8], 16) >= 0x200]
        wrong = paired(lines, c.ended(name)[name])
        if status != 0:
            wrong.append(("status %d" % status, "status 0"))
        c.ran(name, "mspdebug", steps, wrong)
    return c.end()


if __name__ == "__main__":
    sys.exit(main())

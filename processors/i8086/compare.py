"""compare.py PROGRAM [--no-run] [--reasons]: lists the image with PROGRAM and compares each line with what GNU objdump printed for i8086,
which shows floating point and later instructions too, then runs the programs as the 8086 and as the 80186, and compares with what unicorn, or libx86emu,
ended with: the counter, the registers, the flags, the bytes of memory that changed and the ports. Ends with 0 exactly if all lines agree or are excepted for a reason
named here, and all runs agree."""
import os
import re
import sys

sys.dont_write_bytecode = True
sys.path.insert(0, os.path.join(os.path.dirname(os.path.abspath(__file__)), ".."))
from common import NEITHER, Comparison, number, paired

BEYOND = "objdump shows floating point or an instruction of the 80286 or later"
PREFIX = "objdump shows prefixes that the description takes in no such order or number, rep before no string, or a lone prefix"
LATER_SEGMENTS = "mov of fs and gs is of the 80386"
SAL = "sal as /6, which isn't documented"
TEST = "test as /1, which isn't documented"
FWAIT = "objdump joins fwait with the floating point instruction behind it"
VECTORS = "objdump shows AVX, TSX and CET"
LEA = "objdump shows the segment prefix of lea, which has no effect"
SEGMENTS = (0x26, 0x2e, 0x36, 0x3e)
PREFIXES = SEGMENTS + (0xf0, 0xf2, 0xf3)
REPEATED = {"repe": "repz", "repne": "repnz"}
STRINGS = {0xa4: "movsb", 0xa5: "movsw", 0xa6: "cmpsb", 0xa7: "cmpsw", 0xaa: "stosb", 0xab: "stosw", 0xac: "lodsb", 0xad: "lodsw",
           0xae: "scasb", 0xaf: "scasw", 0x6c: "insb", 0x6d: "insw", 0x6e: "outsb", 0x6f: "outsw"}


def after_prefixes(data):
    """(prefixes, the rest) of an instruction."""
    n = 0
    while n < len(data) and data[n] in PREFIXES:
        n += 1
    return data[:n], data[n:]


def plain(text, data, is_ours):
    """One case, numbers decimal in 16 bits; string instructions by their prefix and their name alone."""
    text = re.sub(r"\s+", " ", text.strip().lower()).replace(", ", ",")
    prefixes, rest = after_prefixes(data)
    before, op = [], rest[0] if rest else None
    while True:
        m = re.match(r"(lock|repe|repne|repz|repnz|rep|es|cs|ss|ds) ", text)
        if not m:
            break
        text = text[m.end():]
        if m[1] not in ("es", "cs", "ss", "ds"):                        # a segment prefix without use
            before.append(REPEATED.get(m[1], m[1]))
    before = " ".join(before)
    if op in STRINGS:
        return before, STRINGS[op]
    if is_ours:
        text = re.sub(r"^(jmp|call)f ", r"\1 ", text)
        text = re.sub(r"^lea (\w+),(?!\[)(.*)$", r"lea \1,[\2]", text)
    else:
        shown = 0x3e in prefixes
        text = re.sub(r"\b(ds|es|cs|ss):(0x[0-9a-f]+)",
                      lambda m: ("" if m.group(1) == "ds" and not shown else m.group(1) + ":") + "[" + m.group(2) + "]", text)
        if op is not None and 0x90 <= op <= 0x97:
            text = re.sub(r"^xchg (\w+),ax$", r"xchg ax,\1", text)
        text = re.sub(r"^(xlat byte ptr )ds:(?=\[)", r"\1ds:" if shown else r"\1", text)
    text = re.sub(r"(?<=\w)-(?=0x)", "~-", re.sub(r"\+(?=0x)", "~", text))
    return before, re.sub(r"(?<![\w$])-?(0x[0-9a-f]+|[0-9]+)\b", lambda m: str(number(m.group(0)) & 0xffff), text)


def beyond(op):
    return op in (0x0f, 0x63, 0x64, 0x65, 0x66, 0x67, 0xf1, 0xd6) or 0xd8 <= op <= 0xdf


def excepted(data, mine, theirs):
    prefixes, b = after_prefixes(data)
    if b and beyond(b[0]):
        return BEYOND if mine == "??" else False
    if mine == "??" and len(b) > 1:
        reg = b[1] >> 3 & 7
        if b[0] in (0x8c, 0x8e) and reg > 3:
            return LATER_SEGMENTS
        if b[0] in (0xc0, 0xc1, 0xd0, 0xd1, 0xd2, 0xd3) and reg == 6:
            return SAL
        if b[0] in (0xf6, 0xf7) and reg == 1:
            return TEST
    if b and b[0] == 0x9b and len(b) > 1:
        return FWAIT if mine == "??" or mine[1] == "fwait" else False
    if mine == "??" and b and b[0] in (0xc4, 0xc5, 0xc6, 0xc7) and theirs[1].startswith(("v", "xabort", "xbegin")):
        return VECTORS
    if prefixes == b"\x3e" and b[0] == 0xff and theirs[1].startswith("notrack "):
        return VECTORS if mine != "??" and mine[1].replace("ds:", "") == theirs[1][8:] else False
    if mine == "??":
        return PREFIX if prefixes else False
    if b and b[0] == 0x8d:
        bare = re.sub(r"[ecsd]s:", "", theirs[1]).replace("[", "")
        return LEA if mine[0] == theirs[0] and mine[1].replace("[", "") == bare else False
    return False


def judge(data, address, real, ours):
    if ours == "??" and "(bad)" in real:
        return NEITHER
    mine, theirs = "??" if ours == "??" else plain(ours, data, True), plain(real, data, False)
    return mine == theirs or excepted(data, mine, theirs)


def main():
    c = Comparison(__file__)
    for name in ("codes", "random"):
        c.lines(name, name, 0, c.listing("i8086.slaspec", name), c.expected(name), judge)
    # a count of CL above 31, a word at offset ffff and the least quotient of idiv are where the two differ
    runs = [("80186", name, "unicorn", real) for name, real in c.ended("programs").items()]
    runs += [("80186", name, "libx86emu", real) for name, real in c.ended("interrupts").items() if name != "thrown"]
    runs += [("8086", name, "unicorn", real) for name, real in c.ended("programs").items() if name not in ("flags", "stream", "words", "least")]
    runs += [("8086", name, "unicorn, mirrored segments", real) for name, real in c.ended("mirrored").items()]
    runs += [("8086", name, "libx86emu", real) for name, real in c.ended("interrupts").items() if name != "least"]
    runs += [("8086", name, "unicorn", real) for name, real in c.ended("ones").items()]
    runs += [(processor, name, "unicorn, mirrored memory", real) for processor in ("80186", "8086") for name, real in c.ended("round").items()]
    for processor, name, by, real in runs if c.with_runs else []:
        # the emulator was given another program, which says in other words what the 8086 does in this one
        ours = {"ones": "counts", "thrown": "least"}.get(name, name)
        status, out = c.run("i%s.slaspec" % processor, ours, number(real[0].split(" ")[1]))
        found = dict(line.split(" ", 1) for line in out)
        lines = ["%s %s" % (line.split(" ")[0], found.get(line.split(" ")[0])) for line in real if not line.startswith(("ram[", "io["))]
        # what `interrupts` leaves on the stack has bits of the flags that are 1 here and 0 in libx86emu
        memory = [line for line in out if line.startswith("ram[") and (by != "libx86emu" or line < "ram[030000]")]
        memory += [line for line in out if line.startswith("io[")]
        wrong = paired(lines + memory, real)
        if status != 0 or len(real) < 1000:
            wrong.append(("status %d" % status, "status 0"))
        c.ran("%s (%s)" % (ours if ours == name else "%s as %s" % (ours, name), processor), by, number(real[0].split(" ")[1]), wrong)
    return c.end()


if __name__ == "__main__":
    sys.exit(main())

"""RV32IM code for the scripts: an assembler of what they need, and words that look like a compiler's."""
import random
import re

BETWEEN = {  # opcode 0x33: bits 31..25 and 14..12
    "add": (0, 0), "sub": (32, 0), "sll": (0, 1), "slt": (0, 2), "sltu": (0, 3), "xor": (0, 4), "srl": (0, 5), "sra": (32, 5),
    "or": (0, 6), "and": (0, 7), "mul": (1, 0), "mulh": (1, 1), "mulhsu": (1, 2), "mulhu": (1, 3), "div": (1, 4), "divu": (1, 5),
    "rem": (1, 6), "remu": (1, 7)}
IMMEDIATE = {"addi": 0, "slti": 2, "sltiu": 3, "xori": 4, "ori": 6, "andi": 7}
SHIFTS = {"slli": (0, 1), "srli": (0, 5), "srai": (32, 5)}
LOADS = {"lb": 0, "lh": 1, "lw": 2, "lbu": 4, "lhu": 5}
STORES = {"sb": 0, "sh": 1, "sw": 2}
BRANCHES = {"beq": 0, "bne": 1, "blt": 4, "bge": 5, "bltu": 6, "bgeu": 7}


def word(name, *operands):
    """The instruction with these operands: numbers of registers, and numbers, in the order of the text."""
    def fields(high, two, one, code, low, opcode):
        return (high & 0x7f) << 25 | (two & 31) << 20 | (one & 31) << 15 | code << 12 | (low & 31) << 7 | opcode

    if name in BETWEEN:
        (high, code), (rd, one, two) = BETWEEN[name], operands
        return fields(high, two, one, code, rd, 0x33)
    if name in SHIFTS:
        (high, code), (rd, one, count) = SHIFTS[name], operands
        return fields(high, count, one, code, rd, 0x13)
    if name in IMMEDIATE or name in LOADS or name == "jalr":
        opcode, code = (0x13, IMMEDIATE[name]) if name in IMMEDIATE else (0x03, LOADS[name]) if name in LOADS else (0x67, 0)
        rd, one, number = operands if name in IMMEDIATE else (operands[0], operands[2], operands[1])
        return fields(number >> 5, number, one, code, rd, opcode)
    if name in STORES:
        two, number, one = operands
        return fields(number >> 5, two, one, STORES[name], number, 0x23)
    if name in BRANCHES:
        one, two, away = operands
        high = (away >> 12 & 1) << 6 | away >> 5 & 63
        return fields(high, two, one, BRANCHES[name], away & 30 | away >> 11 & 1, 0x63)
    if name in ("lui", "auipc"):
        rd, number = operands
        return (number & 0xfffff) << 12 | rd << 7 | (0x37 if name == "lui" else 0x17)
    rd, away = operands
    assert name == "jal", name
    return (away >> 20 & 1) << 31 | (away >> 1 & 0x3ff) << 21 | (away >> 11 & 1) << 20 | (away >> 12 & 0xff) << 12 | rd << 7 | 0x6f


def image(words):
    return b"".join(it.to_bytes(4, "little") for it in words)


def assembled(text):
    """The words of a program: instructions and labels, one a line, with `#` before a comment."""
    lines, labels = [], {}
    for line in text.splitlines():
        line = line.split("#")[0].strip()
        if line.endswith(":"):
            labels[line[:-1]] = 4 * len(lines)
        elif line:
            lines.append(line)

    def operand(text, at):
        return int(text[1:]) if re.fullmatch(r"x\d+", text) else labels[text] - at if text in labels else int(text, 0)

    split = [re.findall(r"[\w-]+", line) for line in lines]
    return [word(name, *(operand(it, 4 * n) for it in operands)) for n, (name, *operands) in enumerate(split)]


def like_a_compiler(count):
    """So many instructions in about the shares that compiled programs have, the same in each run."""
    draw = random.Random(1)
    number = lambda: draw.choice((draw.randrange(-64, 64), draw.randrange(-2048, 2048)))
    reg = lambda: draw.randrange(32)
    shapes = [
        (22, IMMEDIATE, lambda: (reg(), reg(), number())), (22, LOADS, lambda: (reg(), number(), reg())),
        (12, STORES, lambda: (reg(), number(), reg())), (14, BRANCHES, lambda: (reg(), reg(), draw.randrange(-512, 512) * 2)),
        (14, BETWEEN, lambda: (reg(), reg(), reg())), (5, SHIFTS, lambda: (reg(), reg(), reg())),
        (5, ["lui", "auipc"], lambda: (reg(), draw.randrange(1 << 20))), (4, ["jal"], lambda: (reg(), draw.randrange(-8192, 8192) * 2)),
        (2, ["jalr"], lambda: (reg(), number(), reg()))]
    shares = [share for share, _, _ in shapes]
    picked = draw.choices(shapes, shares, k=count)
    return [word(draw.choice(list(names)), *operands()) for _, names, operands in picked]

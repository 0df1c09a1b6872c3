"""Texts that want to be slow or large, each of a size that can be chosen, for bench/limits."""
import random
from typing import Callable, NamedTuple

DONE, REFUSED, STOPPED = 0, 1, 6

SPACE = "define endian=big;\ndefine space ram type=ram_space size=%d default;\n"
PLAIN = SPACE % 4 + "define token t (8) a=(4,7) b=(0,3);\n"
ONE = ":x is a=1 {}\n"
MACHINE = SPACE % 4 + """define space register type=register_space size=4;
define register offset=0 size=1 [ A B C D ];
define register offset=0x20 size=4 [ X Y ];
define token t (8) a=(4,7) b=(0,3);
"""
CHECK = ("check", "s")
LIST = ("list", "s", "i")


class Hostile(NamedTuple):
    """A kind of text: its name, what its size counts, the sizes to try, the greatest within the limits, what makes the files and
    the answer at a size, and the words. The answer is a status and how the output begins."""
    name: str
    unit: str
    sizes: tuple[int, ...]
    most: str
    files: Callable
    answer: Callable
    words: tuple[str, ...] = CHECK


def ok(tables=1, constructors=1):
    return DONE, "ok: %d tables, %d constructors\n" % (tables, constructors)


def always_ok(_size):
    return ok()


def powers(first, last, step=4):
    """first, step times as much, and so on, and last."""
    sizes = []
    while first < last:
        sizes.append(first)
        first *= step
    return (*sizes, last)


# ---- the preprocessor


def empty_values(size):
    """Sixteen levels of names, each of which names the one below it so many times, and the lowest is empty."""
    names = "@define E0\n" + "".join('@define E%d "%s"\n' % (n, "$(E%d)" % (n - 1) * size) for n in range(1, 16))
    return {"s": names + "$(E15)\n" + PLAIN + ONE}


def two_levels(size):
    """A value with so many names of an empty value, and as many uses of it."""
    return {"s": '@define E\n@define V "%s"\n' % ("$(E)" * size) + "$(V)" * size + "\n" + PLAIN + ONE}


def redefined(size):
    """The same, and another name of the value is given its value anew before each use."""
    return {"s": '@define E\n@define V "%s"\n' % ("$(E)" * size) + "@define E\n$(V)\n" * size + PLAIN + ONE}


def empty_files(size):
    """Sixteen files each of which includes the next one so many times, and the last is empty."""
    files = {"f%d" % n: '@include "f%d"\n' % (n + 1) * size for n in range(2, 16)}
    return files | {"s": '@include "f2"\n' * size + PLAIN + ONE, "f16": ""}


def dead_files(size):
    """A file of so many KiB in which nothing is live, included as many times."""
    return {"s": '@include "b"\n' * size + PLAIN + ONE, "b": "@ifdef NO\n" + ("x" * 1023 + "\n") * size + "@endif\n"}


def long_comparisons(size):
    """Two equal values of so many KiB, compared so many times in one condition."""
    value = "x" * (size << 10)
    tests = "&&".join(["A==B"] * (size << 5))
    return {"s": '@define A "%s"\n@define B "%s"\n@if %s\n@endif\n' % (value, value, tests) + PLAIN + ONE}


def open_groups(size):
    """So many groups inside one another, as many lines of text, and their ends."""
    return {"s": "@ifndef N\n" * size + "#\n" * size + "@endif\n" * size + PLAIN + ONE}


def condition_brackets(size):
    return {"s": "@if " + "(" * size + "defined(N)" + ")" * size + "\n@endif\n" + PLAIN + ONE}


# ---- names

MASK = (1 << 64) - 1
MULTIPLIER = 0x9E3779B97F4A7C15
LETTERS = b"abcdefghijklmnopqrstuvwxyzABCDEFGHIJKLMNOPQRSTUVWXYZ_0123456789"


def folded(a, b):
    product = a * b
    return (product & MASK) ^ (product >> 64)


def hashed(name, state=0x243F6A8885A308D3, is_start=True):
    """The state of the hash of a list of bytes, written one by one behind their number."""
    if is_start:
        state = folded(state ^ len(name), MULTIPLIER ^ 16)
    for byte in name:
        state = folded(state ^ byte * 0x10101, MULTIPLIER ^ 2)
    return state


def meeting_names(count, length=6):
    """So many names that an open table of as many would all put into its first sixteenth: they push one another on from there."""
    groups = 1
    while 9 * groups < count:
        groups *= 2
    least = max(groups // 16, 1)
    found = []
    start = folded(0x243F6A8885A308D3 ^ length, MULTIPLIER ^ 16)

    def fronts(prefix, state, left):
        if left == 0:
            yield prefix, state
            return
        for byte in LETTERS:
            if prefix or byte > 57:
                yield from fronts(prefix + bytes([byte]), folded(state ^ byte * 0x10101, MULTIPLIER ^ 2), left - 1)

    for prefix, state in fronts(b"", start, length - 1):
        for byte in LETTERS:
            end = folded(state ^ byte * 0x10101, MULTIPLIER ^ 2)
            if (end ^ end >> 32) & (groups - 1) < least:
                found.append((prefix + bytes([byte])).decode())
                if len(found) == count:
                    return found
    raise ValueError("too few names")


def scattered_names(count, length=6):
    """As many names, which don't meet on purpose."""
    names = []
    for number in range(count):
        text = ""
        for _ in range(length):
            text = chr(LETTERS[number % 53]) + text
            number //= 53
        names.append(text)
    return names


def operations(names):
    return {"s": SPACE % 4 + "define pcodeop [ %s ];\ndefine token t (8) a=(4,7);\n" % " ".join(names) + ONE}


def defined_names(names):
    return {"s": "".join("@define %s\n" % name for name in names) + PLAIN + ONE}


def shared_list(size):
    """A list of so many members for as many fields."""
    names = ["f%d" % n for n in range(size)]
    token = "define token w (64) %s;\n" % " ".join("%s=(0,31)" % name for name in names)
    return {"s": PLAIN + token + "attach values [ %s ] [ %s];\n" % (" ".join(names), "1 " * size) + ONE}


# ---- what doubles at each step


def passed_on(size):
    """So many macros of 1,000 parameters, each of which passes all of its own on to the one before."""
    names = ", ".join("p%d" % n for n in range(1000))
    lines = ["macro m0(%s) { %s }\n" % (names, " ".join("p%d = 1;" % n for n in range(1000)))]
    lines += ["macro m%d(%s) { m%d(%s); }\n" % (n, names, n - 1, names) for n in range(1, size)]
    return {"s": MACHINE + "".join(lines) + ONE}


def doubling_macros(size):
    lines = ["macro m0() { A = A; }\n"] + ["macro m%d() { m%d(); m%d(); }\n" % (n, n - 1, n - 1) for n in range(1, size)]
    return {"s": MACHINE + "".join(lines) + ":x is a=1 { m%d(); }\n" % (size - 1)}


def doubling_tables(size, joined="&", least="b=1"):
    """Two tables at each step, each of which names both of the step below."""
    lines = ["%s0: \"e\" is %s {}\n" % (name, least) for name in "uv"]
    lines += ["%s%d: \"e\" is u%d %s v%d {}\n" % (name, n, n - 1, joined, n - 1) for n in range(1, size) for name in "uv"]
    return PLAIN + "".join(lines)


def reached_doubling(size):
    return {"s": doubling_tables(size) + ":x is a=1 & u%d {}\n" % (size - 1)}


def unreached_doubling(size):
    return {"s": doubling_tables(size) + ONE}


def doubling_tokens(size):
    """Tables that nothing reaches, with twice as many tokens at each step; both of the last one have to be compared."""
    return {"s": doubling_tables(size, ";", least="b") + "w: \"w\" is u%d & v%d {}\n" % (size - 1, size - 1) + ONE}


def doubling_exports(size):
    """Two tables at each step, each of which hands on the export of one or of the other of the step below."""
    lines = ["%s0: \"e\" is epsilon { export A; }\n" % name for name in "uv"]
    for n in range(1, size):
        for name in "uv":
            for bit, below in enumerate("uv"):
                lines.append("%s%d: \"e\" is b=%d & %s%d { export %s%d; }\n" % (name, n, bit, below, n - 1, below, n - 1))
    return {"s": MACHINE + "".join(lines) + ONE}


def doubling_text(size):
    """A chain of tables each of which shows the next one twice."""
    lines = ["t0: \"ab\" is epsilon {}\n"] + ["t%d: t%d t%d is t%d {}\n" % (n, n - 1, n - 1, n - 1) for n in range(1, size)]
    return {"s": PLAIN + "".join(lines) + ":x t%d is a=1 & t%d {}\n" % (size - 1, size - 1), "i": b"\x10"}


def doubling_nothing(size):
    """The same without a byte to show."""
    lines = ["t0: \"\" is epsilon {}\n"] + ["t%d: t%d^t%d is t%d {}\n" % (n, n - 1, n - 1, n - 1) for n in range(1, size)]
    return {"s": PLAIN + "".join(lines) + ":x t%d is a=1 & t%d {}\n" % (size - 1, size - 1), "i": b"\x10"}


# ---- one thing for many constructors


def distinct(count, piece, front=MACHINE, before="", behind=""):
    """So many constructors of which no two meet, each with the piece behind its opcode."""
    token = "define token c (32) code=(0,31) top=(24,31);\n"
    return front + token + before + "".join(":o%d is code=%d%s\n" % (n, n, piece) for n in range(count)) + behind


def heavy_macro(size):
    """So many constructors, each with a call of one macro of 65,528 tokens."""
    macro = "macro m() { %s }\n" % ("A = A; " * 16382)
    return {"s": distinct(size, " { m(); }", before=macro)}


def heads(size):
    """So many constructors in sixteen blocks, each with a pattern of 128 constraints."""
    head = "with : " + " & ".join(["b>=0"] * 128) + " {\n"
    front = SPACE % 4 + "define token c (32) code=(8,31) b=(0,3);\n"
    return {"s": front + head * 16 + "".join(":o%d is code=%d {}\n" % (n, n) for n in range(size)) + "}\n" * 16}


def named_heads(size):
    """So many constructors in sixteen blocks, each with a pattern of 127 constraints and an operand."""
    head = "with : %s & " + " & ".join(["b>=0"] * 127) + " {\n"
    fields = " ".join("n%d=(0,%d)" % (n, n % 4) for n in range(16))
    front = SPACE % 4 + "define token c (32) code=(8,31) b=(0,3) %s;\n" % fields
    heads = "".join(head % ("n%d" % n) for n in range(16))
    return {"s": front + heads + "".join(":o%d is code=%d {}\n" % (n, n) for n in range(size)) + "}\n" * 16}


def listed_named_heads(size):
    return {**named_heads(size), "i": bytes(64)}


def listed_table_heads(size):
    """So many constructors in sixteen blocks, each with a pattern of 127 constraints and a table."""
    head = "with : t%d & " + " & ".join(["b>=0"] * 127) + " {\n"
    front = SPACE % 4 + "define token c (32) code=(8,31) b=(0,3);\n"
    tables = "".join('t%d: "o" is b>=0 {}\n' % n for n in range(16))
    lines = "".join(":o%d is code=%d {}\n" % (n, n) for n in range(size))
    return {"s": front + tables + "".join(head % n for n in range(16)) + lines + "}\n" * 16, "i": bytes(64)}


def acting_heads(size):
    """So many constructors in sixteen blocks, each with a pattern of 128 constraints, the outermost with an action."""
    text = heads(size)["s"].replace(" {\n", " [ m = 1; ] {\n", 1)
    front = "define space register type=register_space size=4;\ndefine register offset=0 size=4 k;\ndefine context k m=(0,7);\n"
    return {"s": text.replace("define token", front + "define token", 1)}


def head_tables(size):
    """So many tables, each with a constructor, in sixteen blocks, each with a pattern of 128 constraints."""
    head = "with : " + " & ".join(["b>=0"] * 128) + " {\n"
    front = SPACE % 4 + "define token c (32) code=(8,31) b=(0,3);\n:i is code=0 {}\n"
    return {"s": front + head * 16 + "".join('t%d: "o" is code=%d {}\n' % (n, n) for n in range(size)) + "}\n" * 16}


def wide_heads(size):
    """So many constructors in a block of 1,024 cubes and fifteen others of 128 constraints."""
    wide = "with : p!=0 & q!=0 & r!=0 {\n"
    head = "with : " + " & ".join(["b>=0"] * 128) + " {\n"
    front = SPACE % 4 + "define token w (64) p=(0,7) q=(8,15) r=(16,31) b=(32,35) code=(40,63);\n"
    return {"s": front + wide + head * 15 + "".join(":o%d is code=%d {}\n" % (n, n) for n in range(size)) + "}\n" * 16}


def head_actions(size):
    """So many actions in the head of a block, and as many constructors inside."""
    front = MACHINE + "define register offset=0x40 size=4 c;\ndefine context c m=(0,7);\ndefine token w (32) code=(0,31);\n"
    lines = "".join(":o%d is code=%d {}\n" % (n, n) for n in range(size))
    return {"s": front + "with : [ %s ] {\n" % ("m = 1; " * size) + lines + "}\n"}


def listed_head_actions(size):
    return {**head_actions(size), "i": bytes(64)}


def listed_far_commits(size):
    """So many commits in the head of a block, at an address that stands behind a table, and as many constructors inside."""
    front = MACHINE + "define register offset=0x40 size=4 c;\ndefine context c m=(0,7);\ndefine token w (32) code=(8,31) f=(0,3);\n"
    lines = "".join(":o%d is a=0 ; code=%d {}\n" % (n, n) for n in range(size))
    return {"s": front + 'e: "e" is a=0 {}\nwith : e ; f [ %s ] {\n' % ("globalset(f, m); " * size) + lines + "}\n", "i": bytes(64)}


def using_heads(count):
    """`count` blocks, each with a pattern of 127 constraints on fields of its own, all of which its action uses."""
    each = 127
    names = ["f%d" % n for n in range(each * count)]
    rows = [names[first:first + each] for first in range(0, len(names), each)]
    front = SPACE % 4 + "define token c (32) code=(8,31) %s;\n" % " ".join("%s=(0,3)" % name for name in names)
    return front + "".join("with : %s [ n%d = %s; ] {\n" % (" & ".join("%s>=0" % name for name in row), n, " + ".join(row)) for n, row in enumerate(rows))


def listed_using_heads(size):
    """So many constructors in sixteen such blocks."""
    return {"s": using_heads(16) + "".join(":o%d is code=%d {}\n" % (n, n) for n in range(size)) + "}\n" * 16, "i": bytes(64)}


def listed_inner_heads(size):
    """So many blocks of one constructor in fifteen such blocks."""
    lines = "".join("with : f0>=0 [ k = f1; ] { :o%d is code=%d {} }\n" % (n, n) for n in range(size))
    return {"s": using_heads(15) + lines + "}\n" * 15, "i": bytes(64)}


def listed_outer_uses(size):
    """So many constructors in fifteen blocks, each with a pattern of 127 constraints on fields of its own, all of which the actions of a block
    round them use."""
    each = 127
    names = ["f%d" % n for n in range(each * 15)]
    rows = [names[first:first + each] for first in range(0, len(names), each)]
    front = SPACE % 4 + "define token c (32) code=(8,31) %s;\n" % " ".join("%s=(0,3)" % name for name in names)
    outer = "with : [ %s ] {\n" % " ".join("n%d = %s;" % (n, " + ".join(row)) for n, row in enumerate(rows))
    inner = "".join("with : %s {\n" % " & ".join("%s>=0" % name for name in row) for row in rows)
    lines = "".join(":o%d is code=%d {}\n" % (n, n) for n in range(size))
    return {"s": front + outer + inner + lines + "}\n" * 16, "i": bytes(64)}


def listed_moved_uses(size):
    """So many actions in the head of a block that use a field, and as many constructors inside, in each of which it stands elsewhere than in the one
    before."""
    front = MACHINE + "define register offset=0x40 size=4 c;\ndefine context c m=(0,7);\ndefine token w (32) code=(8,31) f=(0,3);\n"
    lines = "".join(":o%d is code=%d %s f>=0 {}\n" % (n, n, ";&"[n % 2]) for n in range(size))
    return {"s": front + "with : [ %s ] {\n" % ("m = f; " * size) + lines + "}\n", "i": bytes(64)}


def wide_sets(size):
    """So many constructors of 1,024 cubes of which no two meet."""
    front = SPACE % 4 + "define token w (64) p=(0,7) q=(8,15) r=(16,31) code=(40,63);\n"
    return {"s": front + "".join(":o%d is code=%d & p!=0 & q!=0 & r!=0 {}\n" % (n, n) for n in range(size))}


def listed_wide_sets(size):
    return {**wide_sets(size), "i": bytes(1 << 18)}


def relations(size):
    """A chain of so many sets, each within the next one."""
    return {"s": SPACE % 4 + "define token w (16) e=(0,15);\n" + "".join(":o%d is e<%d {}\n" % (n, n) for n in range(1, size + 1))}


def listed_relations(size):
    return relations(size) | {"i": b"\0\0" * (1 << 17)}


def random_bits(size):
    """So many constructors each of which fixes three bits of sixteen bytes, and one for all bytes."""
    rng = random.Random(1)
    fields = ["f%d" % n for n in range(64)]
    tokens = "".join("define token w%d (64) %s;\n" % (k, " ".join("%s_%d=(%d,%d)" % (f, k, n, n) for n, f in enumerate(fields))) for k in range(2))
    lines = []
    for n in range(size):
        parts = [[], []]
        for bit in rng.sample(range(128), 3):
            parts[bit // 64].append("f%d_%d=%d" % (bit % 64, bit // 64, rng.randrange(2)))
        lines.append(":o%d is %s {}\n" % (n, " ; ".join(" & ".join(part or ["f0_%d>=0" % k]) for k, part in enumerate(parts))))
    return {"s": SPACE % 4 + tokens + ":all is f0_0>=0 {}\n" + "".join(lines)}


def pigeons(size):
    """Two constructors, one for all bytes, the other for those that don't tell of one pigeon more than there are holes how each has
    a hole of its own. Both are equal, but that is hard to see."""
    count = size + 1
    bits = {(h, p): h * count + p for h in range(size) for p in range(count)}
    single = ["b%d_%d=(%d,%d)" % (h, p, bit, bit) for (h, p), bit in bits.items()]
    rest = ["r%d_%d=(%d,%d)" % (h, p, bits[h, p] + 1, bits[h, size]) for h in range(size) for p in range(size)]
    homeless = [" & ".join("b%d_%d=0" % (h, p) for h in range(size)) for p in range(count)]
    shared = ["b%d_%d=1 & r%d_%d!=0" % (h, p, h, p) for h in range(size) for p in range(size)]
    token = "define token w (64) %s;\n" % " ".join(single + rest)
    return {"s": SPACE % 4 + token + ":x is %s {}\n:y is b0_0>=0 {}\n" % " | ".join(homeless + shared)}


# ---- sections


def labels(size):
    """A section with so many labels, and a jump to each."""
    body = "".join("if (A == 1) goto <l%d>; <l%d> " % (n, n) for n in range(size))
    return {"s": MACHINE + ":x is a=1 { %s }\n" % body, "i": b"\x10"}


def many_labels(size):
    """So many constructors each of which calls a macro with 4,600 labels and as many jumps."""
    macro = "macro m() { %s }\n" % "".join("if (A == 1) goto <l%d>; <l%d> " % (n, n) for n in range(4600))
    return {"s": distinct(size, " { m(); }", before=macro)}


def late_fields(size):
    """A pattern with 128 fields, and so many actions that name the last of them."""
    names = ["f%d" % n for n in range(128)]
    front = MACHINE + "define register offset=0x40 size=4 c;\ndefine context c m=(0,7);\ndefine token w (8) %s;\n" % " ".join(
        "%s=(0,7)" % name for name in names)
    return {"s": front + ":x is %s [ %s ] {}\n" % (" & ".join("%s>=0" % name for name in names), "m = f127; " * size)}


def late_names(size):
    """A constructor in sixteen blocks, each with a pattern of 127 fields, and so many actions that name the last of them all."""
    names = ["f%d" % n for n in range(16 * 127)]
    front = MACHINE + "define register offset=0x40 size=4 c;\ndefine context c m=(0,7);\ndefine token w (8) op=(0,7) %s;\n" % " ".join(
        "%s=(0,7)" % name for name in names)
    heads = "".join("with : %s {\n" % " & ".join("%s>=0" % name for name in names[first:first + 127]) for first in range(0, len(names), 127))
    return {"s": front + heads + ":x is op=16 [ %s ] {}\n" % ("m = %s; " % names[-1] * size) + "}\n" * 16, "i": b"\x10"}


def loop(size):
    """One instruction that jumps 65,536 times over so many statements."""
    body = "<top> %s goto <top>;" % ("X = X + 1; " * size)
    return {"s": MACHINE + ":x is a=1 { %s }\n" % body, "i": b"\x10"}


def pointers(size):
    """A chain of 1,000 tables, each a byte of memory whose pointer is the next one, read so many times."""
    lines = ["t0: \"t\" is epsilon { export *[ram]:4 X; }\n"]
    lines += ["t%d: \"t\" is t%d { export *[ram]:4 t%d; }\n" % (n, n - 1, n - 1) for n in range(1, 1000)]
    return {"s": MACHINE + "".join(lines) + ":x is a=1 & t999 { %s }\n" % ("Y = t999; " * size), "i": b"\x10"}


# ---- listings and runs


def falling(size, kind=""):
    """So many instructions, each with a commit at an address below that of the one before."""
    front = SPACE % 4 + "define space register type=register_space size=4;\ndefine register offset=0 size=4 c;\n" \
        "define context c m=(0,0)%s n=(1,1)%s;\ndefine token t (8) a=(4,7) b=(0,3);\n" % (kind, kind)
    return {"s": front + ":x q is a=1 [ q = 0x7fffffff - inst_start; m = 1; globalset(q, m); ] {}\n", "i": b"\x10" * size}


def spreading(size):
    """So many commits of one field, and then as many of another one below them, each of which flows on over all of the first."""
    front = SPACE % 4 + "define space register type=register_space size=4;\ndefine register offset=0 size=4 c;\n" \
        "define context c m=(0,0) n=(1,1);\ndefine token t (8) a=(4,7) b=(0,3);\n"
    return {"s": front + ":x q is a=1 [ q = 0x10000000 + inst_start; m = 1; globalset(q, m); ] {}\n"
            ":y is a=2 [ n = 1; globalset(0x8000000, n); ] {}\n:z is a=3 [ n = 0; globalset(0x8000000, n); ] {}\n",
            "i": b"\x10" * size + b"\x20\x30" * (size // 2)}


def deep_nodes(size):
    """So many instructions of one byte and 1,024 nodes."""
    lines = ["t0: \"\" is epsilon {}\n"] + ["t%d: t%d is t%d {}\n" % (n, n - 1, n - 1) for n in range(1, 1023)]
    return {"s": PLAIN + "".join(lines) + ":x t1022 is a=1 & t1022 {}\n", "i": b"\x10" * size}


def many_pages(size):
    """So many steps, each of which writes to a page of its own."""
    return {"s": MACHINE + ":x is a=1 { X = X + 0x1000; *[ram]:1 X = 1; goto 0; }\n", "i": b"\x10"}


def many_spaces(size):
    return {"s": MACHINE + "".join("define space s%d type=ram_space size=8;\n" % n for n in range(size)) + ONE, "i": b"\x10"}


KINDS = (
    Hostile("16 levels of names over an empty value", "names of the one below in each", (2, 3, 4), "about 150,000", empty_values, always_ok),
    Hostile("an empty value many times in a value that is used as many times", "times", powers(1000, 1600000), "about 1,600,000",
            two_levels, always_ok),
    Hostile("the same, and a name defined anew before each use", "times", powers(1000, 800000), "about 800,000", redefined, always_ok),
    Hostile("16 files within one another, the last empty", "includes of the next in each", (2, 3, 4), "about 1,000,000", empty_files, always_ok),
    Hostile("a file without a live line, included again and again", "KiB, and times", powers(256, 1 << 14), "16,384, and 1,000,000 times",
            dead_files, always_ok),
    Hostile("long equal values compared in one condition", "KiB, and 32 times as many comparisons", powers(256, 1 << 12), "about 7,000",
            long_comparisons, always_ok),
    Hostile("groups inside one another", "groups", powers(10000, 880000), "about 880,000", open_groups, always_ok),
    Hostile("brackets of a condition", "brackets", powers(100000, 8300000, 8), "about 8,000,000", condition_brackets, always_ok),
    Hostile("names of operations, at random", "names", powers(9 << 14, 9 << 18), "2,359,296", lambda n: operations(scattered_names(n)), always_ok),
    Hostile("names of operations that meet on purpose", "names", powers(9 << 12, 9 << 18), "2,359,296",
            lambda n: operations(meeting_names(n)), always_ok),
    Hostile("defined names of the preprocessor that meet on purpose", "names", powers(9 << 12, 9 << 16), "about 1,100,000",
            lambda n: defined_names(meeting_names(n)), always_ok),
    Hostile("a list of numbers for as many fields", "of each", (1000, 100000, 600000), "about 600,000", shared_list, always_ok),
    Hostile("macros that call the one before twice", "macros", (100, 10000, 350000), "about 390,000", doubling_macros,
            lambda n: (REFUSED, "s:%d: rule 38\n" % (n + 7))),
    Hostile("macros that pass 1,000 parameters on", "macros", (10, 100, 1300), "about 1,400", passed_on, always_ok),
    Hostile("tables that name two of the step before, reached", "steps", (100, 10000, 32766), "32,766", reached_doubling,
            lambda n: (REFUSED, "s:%d: rule 36\n" % (2 * n + 4))),
    Hostile("tables that name two of the step before, not reached", "steps", (100, 10000, 32766), "32,766", unreached_doubling,
            lambda n: ok(2 * n + 1, 2 * n + 1)),
    Hostile("tables with twice as many tokens at each step, compared", "steps", (10, 20, 24, 28, 100, 1000, 32766), "32,766", doubling_tokens,
            lambda n: ok(2 * n + 2, 2 * n + 2)),
    Hostile("exports of one of two tables of the step before", "steps", (100, 1000, 16383), "16,383", doubling_exports,
            lambda n: ok(2 * n + 1, 4 * n - 1)),
    Hostile("a text that each table shows twice", "tables", (8, 16, 20, 24, 26, 1022), "1,022", doubling_text,
            lambda n: (DONE, "00000000: 10 x ab ab ab ab"), LIST),
    Hostile("a text without a byte that each table shows twice", "tables", (8, 16, 24, 1022), "1,022", doubling_nothing,
            lambda n: (DONE, "00000000: 10 x "), LIST),
    Hostile("constructors that call one macro of 65,528 tokens", "constructors", powers(16, 65535), "65,535", heavy_macro, lambda n: ok(1, n)),
    Hostile("constructors in 16 blocks of 128 constraints", "constructors", powers(256, 65535), "65,535", heads, lambda n: ok(1, n)),
    Hostile("constructors in 16 blocks of 127 constraints and an operand", "constructors", powers(256, 65535), "65,535", named_heads, lambda n: ok(1, n)),
    Hostile("the same, listed", "constructors", powers(256, 65535), "65,535", listed_named_heads, lambda n: (DONE, "00000000: 00000000 o0\n"), LIST),
    Hostile("constructors in 16 blocks of 127 constraints and a table, listed", "constructors", powers(256, 65519), "65,519", listed_table_heads,
            lambda n: (DONE, "00000000: 00000000 o0\n"), LIST),
    Hostile("constructors in 16 blocks of 128 constraints and one action", "constructors", powers(256, 65535), "65,535", acting_heads, lambda n: ok(1, n)),
    Hostile("tables of one constructor in 16 blocks of 128 constraints", "tables", powers(256, 65534), "65,534", head_tables, lambda n: ok(n + 1, n + 1)),
    Hostile("constructors in a block of 1,024 cubes and 15 others", "constructors", powers(16, 65535), "65,535", wide_heads, lambda n: ok(1, n)),
    Hostile("actions in the head of a block round constructors", "of each", powers(2000, 65535), "65,535, and 2,000,000 actions",
            head_actions, lambda n: ok(1, n)),
    Hostile("the same actions, listed", "of each", powers(500, 65535), "65,535, and 2,000,000 actions",
            listed_head_actions, lambda n: (DONE, "00000000: 00000000 o0\n"), LIST),
    Hostile("constructors in 16 blocks of 127 constraints on fields that their actions use, listed", "constructors", powers(256, 65535), "65,535",
            listed_using_heads, lambda n: (DONE, "00000000: 00000000 o0\n"), LIST),
    Hostile("blocks of one constructor in 15 such blocks, listed", "blocks", powers(256, 65535), "65,535", listed_inner_heads,
            lambda n: (DONE, "00000000: 00000000 o0\n"), LIST),
    Hostile("constructors in 15 blocks of 127 constraints on fields that actions of a block round them use, listed", "constructors",
            powers(256, 65535), "65,535", listed_outer_uses, lambda n: (DONE, "00000000: 00000000 o0\n"), LIST),
    Hostile("actions in a head that use a field, and as many constructors in which it stands now here and now there, listed", "of each", powers(256, 65535),
            "65,535", listed_moved_uses, lambda n: (DONE, "00000000: 0000000000000000 o0\n"), LIST),
    Hostile("commits in a head at an address behind a table, and as many constructors, listed", "of each", powers(500, 65534), "65,534, and 900,000 commits",
            listed_far_commits, lambda n: (DONE, "00000000: 0000000000 o0\n"), LIST),
    Hostile("constructors of 1,024 cubes", "constructors", powers(64, 65535), "65,535", wide_sets, lambda n: ok(1, n)),
    Hostile("the same, 131,072 instructions listed", "constructors", powers(64, 65535), "65,535", listed_wide_sets,
            lambda n: (DONE, "00000000: "), LIST),
    Hostile("a chain of relations, checked", "constructors", powers(1024, 65535), "65,535", relations, lambda n: ok(1, n)),
    Hostile("a chain of relations, 131,072 instructions listed", "constructors", powers(256, 65535), "65,535", listed_relations,
            lambda n: (DONE, "00000000: 0000 o1\n"), LIST),
    Hostile("constructors that fix three bits of 128 at random", "constructors", powers(64, 65534), "65,534", random_bits,
            lambda n: (REFUSED, "s:")),
    Hostile("pigeons and holes", "holes", (3, 4, 5, 6), "6", pigeons,
            lambda n: (REFUSED, "s:4: ambiguous in instruction with s:5\nboth %s %s\nsame\n" % ("0" * 32, "0" * 16))),
    Hostile("labels of one section", "labels", powers(512, 4680), "4,681", labels, always_ok),
    Hostile("labels of one section, p-code", "labels", powers(512, 4680), "4,681", labels, lambda n: (DONE, "00000000: 10 x\n"), ("pcode", "s", "i")),
    Hostile("constructors that call one macro with 4,600 labels", "constructors", powers(16, 65535), "65,535", many_labels, lambda n: ok(1, n)),
    Hostile("actions that name the last of 128 fields", "actions", powers(10000, 1600000), "1,600,000", late_fields, always_ok),
    Hostile("actions that name the last of 2,032 fields in sixteen blocks, listed", "actions", powers(10000, 1300000), "1,300,000", late_names,
            lambda n: (DONE, "00000000: 10 x\n"), LIST),
    Hostile("65,536 jumps over statements, one step", "statements", powers(64, 10920), "10,921", loop,
            lambda n: (STOPPED, "steps 0\n"), ("run", "s", "i")),
    Hostile("reads through 1,000 pointers, checked", "reads", powers(16, 14000), "about 14,000", pointers, lambda n: ok(1001, 1001)),
    Hostile("reads through 1,000 pointers, p-code", "reads", powers(16, 14000), "about 14,000", pointers, lambda n: (DONE, "00000000: 10 x\n"), ("pcode", "s", "i")),
    Hostile("commits at falling addresses", "instructions", powers(1 << 16, 1 << 24), "16,777,216", falling,
            lambda n: (DONE, "00000000: 10 x 0x7fffffff\n"), LIST),
    Hostile("commits of a noflow field at falling addresses", "instructions", powers(1 << 16, 1 << 24), "16,777,216", lambda n: falling(n, " noflow"),
            lambda n: (DONE, "00000000: 10 x 0x7fffffff\n"), LIST),
    Hostile("commits that flow over others", "instructions", powers(1 << 14, 1 << 23), "8,388,608", spreading,
            lambda n: (DONE, "00000000: 10 x 0x10000000\n"), LIST),
    Hostile("instructions of 1,024 nodes listed", "instructions", powers(1 << 10, 1 << 24), "16,777,216", deep_nodes,
            lambda n: (DONE, "00000000: 10 x \n"), LIST),
    Hostile("steps that each write to a page of their own", "steps", powers(1 << 14, 1 << 20), "1,048,576 pages", many_pages,
            lambda n: (DONE, "steps %d\n" % n), ("run", "s", "i", "--steps", "N")),
    Hostile("spaces", "spaces", (10000, 100000, 380000), "about 390,000", many_spaces, lambda n: (DONE, "steps 1\n"), ("run", "s", "i")),
)

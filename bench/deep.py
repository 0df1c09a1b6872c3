"""The deepest texts of each kind, for bench/limits: what the program reads or runs by calls within calls."""

DONE = 0
SPACE = "define endian=big;\ndefine space ram type=ram_space size=4 default;\n"
MACHINE = SPACE + """define space register type=register_space size=4;
define register offset=0 size=1 [ A B C D ];
define register offset=0x20 size=4 [ X ];
define token t (8) a=(4,7) b=(0,3);
"""
OK = "ok: 1 tables, 1 constructors\n"
LISTED = "00000000: 10 x\n"
STEP = "steps 1\ncounter 00000001\n"
ALL = (("check", "s"), ("list", "s", "i"), ("pcode", "s", "i"), ("run", "s", "i"))
BEGINS = {"check": "ok: ", "list": "00000000: 10 x", "pcode": "00000000: 10 x", "run": STEP}


def section(body, display="x"):
    return {"s": MACHINE + ":%s is a=1 { %s }\n" % (display, body), "i": b"\x10"}


def chain(count, least, each):
    """A chain of tables, and a constructor that names its last one; the sections have the number of the table before."""
    lines = ["t0: \"e\" is epsilon { %s }\n" % least]
    lines += ["t%d: t%d is t%d { %s }\n" % (n, n - 1, n - 1, each.replace("N", str(n - 1))) for n in range(1, count)]
    return MACHINE + "".join(lines)


def chained(least, each, body, count=1023):
    text = chain(count, least, each) + ":x t%d is a=1 & t%d { %s }\n" % (count - 1, count - 1, body.replace("N", str(count - 1)))
    return {"s": text, "i": b"\x10"}


def macros(count):
    lines = ["macro m0() { X = X + 1; }\n"] + ["macro m%d() { m%d(); }\n" % (n, n - 1) for n in range(1, count)]
    return {"s": MACHINE + "".join(lines) + ":x is a=1 { m%d(); }\n" % (count - 1), "i": b"\x10"}


def actions(expression):
    return {"s": MACHINE + ":x q is a=1 & b [ q = %s; ] {}\n" % expression, "i": b"\x10"}


def pattern(text):
    return {"s": MACHINE + ":x is %s {}\n" % text, "i": b"\x10"}


def blocks():
    """Sixteen blocks inside one another, each with a pattern in 255 brackets."""
    heads = "".join("with : %sb=0%s {\n" % ("(" * 255, ")" * 255) for _ in range(16))
    return {"s": MACHINE + heads + ":x is a=1 {}\n" + "}\n" * 16, "i": b"\x10"}


def files():
    """Sixteen files within one another, each with sixteen levels of replacement, and a condition in a million brackets in the last."""
    names = "@define E0 # none\n" + "".join('@define E%d "$(E%d)"\n' % (n, n - 1) for n in range(1, 16))
    told = {"s" if n == 1 else "f%d" % n: names + "$(E15)\n" + '@include "f%d"\n' % (n + 1) for n in range(1, 16)}
    last = "@if %sdefined(NO)%s\n@else\n" % ("(" * 1000000, ")" * 1000000)
    return told | {"f16": names + "$(E15)\n" + last + MACHINE + ":x is a=1 {}\n@endif\n", "i": b"\x10"}


def nested_sets():
    """Sets each of which fixes one bit more than the one before, of sixteen bytes and of the context."""
    token = " ".join("%%s%d=(%d,63)" % (n, 63 - n) for n in range(64))
    fields = [token.replace("%s", name) for name in "wvc"]
    front = SPACE + "define space register type=register_space size=4;\ndefine register offset=0 size=8 c;\n" \
        "define token w (64) %s;\ndefine token v (64) %s;\ndefine context c %s;\n" % tuple(fields)
    lines = []
    for n in range(192):
        parts = "(w%d=0 ; v%s)" % (min(n, 63), "%d=0" % min(n - 64, 63) if n >= 64 else "0>=0")
        lines.append(":x%d is %s%s {}\n" % (n, parts, " & c%d=0" % (n - 128) if n >= 128 else ""))
    return {"s": front + "".join(lines), "i": b"\0" * 16}


def shown_twice():
    """A chain of tables each of which shows the next one twice, the last one nothing."""
    lines = ["t0: \"\" is b=0 {}\n"] + ["t%d: t%d^t%d is t%d {}\n" % (n, n - 1, n - 1, n - 1) for n in range(1, 1023)]
    return {"s": MACHINE + "".join(lines) + ":x t1022 is a=1 & t1022 {}\n", "i": b"\x10"}


def unreached():
    lines = ["t0: \"e\" is b=1 {}\n"] + ["t%d: t%d is t%d {}\n" % (n, n - 1, n - 1) for n in range(1, 65534)]
    return {"s": MACHINE + "".join(lines) + ":x is a=1 {}\n"}


def texts():
    """Names, the files, the words of each call, and by the command the status and how the output begins."""
    ends = dict.fromkeys(BEGINS, DONE)
    yield "256 brackets in a section", section("A = %sB%s;" % ("(" * 256, ")" * 256)), ALL, ends, BEGINS
    yield "256 prefixes", section("A = %sB;" % ("~" * 256)), ALL, ends, BEGINS
    yield "a sum of 257", section("A = B%s;" % (" + B" * 256)), ALL, ends, BEGINS
    yield "a sum of 129, from its end", section("A = %sB%s;" % ("B + (" * 128, ")" * 128)), ALL, ends, BEGINS
    yield "a load through 255 loads", section("A = %sX;" % ("*:1 " + "*:4 " * 254)), ALL, ends, BEGINS
    yield "255 calls of a function", section("A = %sA%s;" % ("carry(" * 255, ", A)" * 255)), ALL, ends, BEGINS
    yield "256 brackets in an action", actions("(" * 256 + "b" + ")" * 256), ALL, ends, BEGINS
    yield "256 prefixes in an action", actions("-" * 256 + "b"), ALL, ends, BEGINS
    yield "255 brackets in a constraint", pattern("a=%s1%s" % ("(" * 255, ")" * 255)), ALL, ends, BEGINS
    yield "255 brackets round a pattern", pattern("(" * 255 + "a=1" + ")" * 255), ALL, ends, BEGINS
    yield "255 ellipses", pattern("(" * 127 + "a=1" + " ...)" * 127), ALL, ends, BEGINS
    yield "16 blocks inside one another, in brackets", blocks(), ALL, ends, BEGINS
    yield "16 files, levels of replacement, and a condition in brackets", files(), ALL, ends, BEGINS
    yield "16,000 macros that call one another", macros(16000), ALL, ends, BEGINS
    yield "1,023 tables", chained("", "", ""), ALL, ends, BEGINS
    yield "1,023 tables with sections", chained("X = X + 1;", "X = X + 1; build tN;", "X = X + 1; build tN;"), ALL, ends, BEGINS
    yield "1,023 tables that hand on an export", chained("export A;", "export tN;", "tN = tN + 1;"), ALL, ends, BEGINS
    yield "1,023 tables that are pointers", chained("export *:4 X;", "export *:4 tN;", "tN = tN + 1;"), ALL, ends, BEGINS
    yield "1,023 tables, each of which shows the next twice", shown_twice(), ALL, ends, BEGINS
    yield "65,534 tables below one another", unreached(), ALL[:1], ends, BEGINS
    yield "192 sets, each of a bit more", nested_sets(), ALL[:2], ends, BEGINS | {"list": "00000000: %s x191\n" % ("0" * 32)}

"""Makes expected/*.gz with GNU objdump and qemu-mips (Debian's binutils-mips-linux-gnu 2.40, qemu-user 7.2)."""
import os
import re
import shutil
import struct
import subprocess
import sys
import tempfile

HERE = os.path.dirname(os.path.abspath(__file__))
sys.dont_write_bytecode = True
sys.path.insert(0, os.path.join(HERE, "..", ".."))
import qemu
from common import all_images, store, store_runs

OBJDUMP = "mips-linux-gnu-objdump -D -z -b binary -m mips:isa32 -EB -M %scp0-names=numeric"
NAMES = ("zero at v0 v1 a0 a1 a2 a3 t0 t1 t2 t3 t4 t5 t6 t7 s0 s1 s2 s3 s4 s5 s6 s7 t8 t9 k0 k1 gp sp s8 ra").split()
images = all_images(os.path.join(HERE, ".."))
BASE = 0x10000
COUNTER = 37
REGISTERS = [(n, i) for i, n in enumerate(NAMES) if i] + [("hi", 34), ("lo", 33)]
runs = []


def signed(value):
    return value - (1 << 32) if value >> 31 else value


def taken(stub, word):
    """Whether the word is a branch that is taken from the state of the stub; None, if it is no branch."""
    op, rt = word >> 26, word >> 16 & 31
    if op in (2, 3) or op == 0 and word & 0x3f in (8, 9):
        return True
    if op in (4, 5, 6, 7, 0x14, 0x15, 0x16, 0x17):
        a, b = signed(stub.register(word >> 21 & 31)), signed(stub.register(rt))
        return [a == b, a != b, a <= 0, a > 0][op & 3]
    if op == 1 and rt in (0, 1, 2, 3, 0x10, 0x11, 0x12, 0x13):
        return (signed(stub.register(word >> 21 & 31)) >= 0) == bool(rt & 1)
    return None


def counted(stub, data, last):
    """The instructions until `last`, as each of the two descriptions takes them: without the slots of branches that are taken, and
    without any slot of a branch."""
    for _, index in REGISTERS:
        stub.put(index, 0)
    plain = pairs = 0
    before, here = None, stub.register(COUNTER)         # whether the branch before was taken
    while here != last:
        branch = taken(stub, struct.unpack_from(">I", data, here - BASE)[0])
        stub.step()
        there = stub.register(COUNTER)
        plain += not before
        pairs += before is None
        # a likely branch that isn't taken goes past its slot
        before = branch if branch is None or there == here + 4 else None
        here = there
    return plain, pairs


def emulator(data):
    return qemu.Stub(["qemu-mips", "-cpu", "4Kc"], ">", 0x50001000, BASE, 0x20000, data, BASE)


with tempfile.TemporaryDirectory() as place:
    code = os.path.join(place, "code.bin")
    shutil.copy(os.path.join(HERE, "..", "programs", "straight.s"), place)
    for name, data in images.items():
        open(code, "wb").write(data)
        for kind, option in (("plain", "no-aliases,"), ("aliases", "")):
            if name not in ("random", "shaped", "special"):
                continue
            command = OBJDUMP % option
            rows = []
            for line in subprocess.check_output(command.split() + [code], text=True).splitlines():
                m = re.match(r" *([0-9a-f]+):\t([0-9a-f]{8}) \t(.*)", line)
                if m:
                    at = int(m.group(1), 16)
                    assert data[at:at + 4].hex() == m.group(2)
                    rows.append((at, 4, m.group(3)))
            store(os.path.join(HERE, "%s.%s.txt.gz" % (name, kind)), "GNU objdump 2.40: " + command, data, rows)
        if name.startswith("straight"):
            for command in ("mips-linux-gnu-as -mips32 -EB -o q.o straight.s", "mips-linux-gnu-ld -EB -o q q.o"):
                subprocess.check_call(command.split(), cwd=place)
            out = subprocess.check_output(["qemu-mips", "-cpu", "4Kc", "./q"], cwd=place)
            v = struct.unpack(">34I", out)
            lines = ["%s %08x" % (NAMES[i], v[i]) for i in range(32) if i not in (0, 26, 27)]
            runs.append((name, data, lines + ["hi %08x" % v[32], "lo %08x" % v[33]]))
        if name.startswith(("stream", "slots")):
            last = BASE + len(data) - 8
            with emulator(data) as stub:
                steps = ["steps mips32 %d" % n if k == 0 else "steps mips32_pairs %d" % n for k, n in enumerate(counted(stub, data, last))]
            with emulator(data) as stub:
                runs.append((name, data, steps + qemu.ended(stub, REGISTERS, COUNTER, BASE, data, 0x10000, last, False)))
store_runs(os.path.join(HERE, "programs.run.gz"), "qemu-mips 7.2, -cpu 4Kc", runs)

"""Makes expected/*.gz with GNU objdump and qemu-arm (Debian's binutils-arm-none-eabi 2.40, qemu-user 7.2)."""
import os
import re
import shutil
import struct
import subprocess
import sys
import tempfile

HERE = os.path.dirname(os.path.abspath(__file__))
sys.dont_write_bytecode = True
sys.path.insert(0, os.path.join(HERE, "..", ".."))
import qemu
from common import all_images, store, store_runs

OBJDUMP = "arm-none-eabi-objdump -D -z -b binary -m armv6s-m -M force-thumb"
images = all_images(os.path.join(HERE, ".."))
BASE = 0x10000
FLAGS = (("NG", 31), ("ZR", 30), ("CY", 29), ("OV", 28))
runs = []
with tempfile.TemporaryDirectory() as place:
    code = os.path.join(place, "code.bin")
    shutil.copy(os.path.join(HERE, "..", "programs", "straight.s"), place)
    for name, data in images.items():
        open(code, "wb").write(data[:-2] if name.startswith("flags") else data)
        if name.startswith("stream"):
            with qemu.Stub(["qemu-arm"], "<", 0x05000000, BASE, 0x20000, data, BASE + 1) as stub:
                stub.kind = 2
                lines = qemu.ended(stub, [("r%d" % i, i) for i in range(13)] + [("sp", 13), ("lr", 14)], 15, BASE, data, 0x10000,
                                   BASE + len(data) - 2)
                runs.append((name, data, lines + ["%s %02x" % (f, stub.register(25) >> b & 1) for f, b in FLAGS]))
        elif not name.startswith(("straight", "flags")):
            rows = []
            for line in subprocess.check_output(OBJDUMP.split() + [code], text=True).splitlines():
                m = re.match(r" *([0-9a-f]+):\t([0-9a-f]{4})(?: ([0-9a-f]{4}))? *\t(.*)", line)
                if m:
                    at = int(m.group(1), 16)
                    halves = [int(h, 16) for h in m.groups()[1:3] if h]
                    assert data[at:at + 2 * len(halves)] == struct.pack("<%dH" % len(halves), *halves)
                    rows.append((at, 2 * len(halves), m.group(4)))
            store(os.path.join(HERE, name + ".txt.gz"), "GNU objdump 2.40: " + OBJDUMP, data, rows)
        else:
            for command in ("arm-none-eabi-as -o q.o straight.s", "arm-none-eabi-ld -o q q.o"):
                subprocess.check_call(command.split(), cwd=place)
            v = struct.unpack("<14I", subprocess.check_output(["qemu-arm", "./q"], cwd=place))
            lines = ["r%d %08x" % (i, v[6 + i]) for i in range(8)] + ["r%d %08x" % (8 + i, v[i]) for i in range(5)]
            runs.append((name, data, lines + ["%s %02x" % (f, v[5] >> b & 1) for f, b in FLAGS]))
store_runs(os.path.join(HERE, "programs.run.gz"), "qemu-arm 7.2", runs)

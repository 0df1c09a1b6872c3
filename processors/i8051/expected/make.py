"""Makes expected/*.gz with d52 and s51 (Debian's d52 3.4.1, sdcc-ucsim 4.2.0, whose simulator calls itself 0.6.4).

`d52 -b -d IMAGE` writes a text with the address and the bytes behind each line. s51 is given cleared memories, and stops at the jump to
itself at the end."""
import os
import re
import subprocess
import sys
import tempfile

HERE = os.path.dirname(os.path.abspath(__file__))
sys.dont_write_bytecode = True
sys.path.insert(0, os.path.join(HERE, "..", ".."))
from common import all_images, store, store_runs

NAMES = [("ACC", 0xe0), ("B", 0xf0), ("PSW", 0xd0), ("SP", 0x81), ("DPL", 0x82), ("DPH", 0x83), ("P2", 0xa0)]


def hexed(data):
    """Intel's hexadecimal form."""
    lines = []
    for at in range(0, len(data), 16):
        row = bytes([len(data[at:at + 16]), at >> 8, at & 255, 0]) + data[at:at + 16]
        lines.append(":%s%02X" % (row.hex().upper(), -sum(row) & 255))
    return "\n".join(lines + [":00000001FF", ""])


def simulated(place, data):
    path = os.path.join(place, "code.ihx")
    open(path, "w").write(hexed(data))
    commands = ["set error stack off", "fill iram 0 0xff 0", "fill xram 0 0xffff 0", "break 0x%x" % (len(data) - 2), "run", "state"] + [
                    w for dump in ("sfr 0x80 0xff", "iram 0 0xff", "xram 0 0xffff") for w in ("expression 424242", "dump " + dump)] + ["quit", ""]
    out = subprocess.run(["s51", "-t", "8052", "-b", "-q", "-P", path], input="\n".join(commands), stdout=subprocess.PIPE,
                         stderr=subprocess.STDOUT, text=True).stdout
    memory, bytes_of = -1, [{}, {}, {}]
    for line in out.splitlines():
        m = re.match(r"0x([0-9a-f]+)(?: \w+:)?\s+(?:0b[01]+ 0x([0-9a-f]{2})|((?:[0-9a-f]{2} )+))", line)
        if line == "424242":
            memory += 1
        elif m and memory >= 0:
            for i, b in enumerate(bytes.fromhex(m[2] or m[3])):
                bytes_of[memory][int(m[1], 16) + i] = b
    assert [len(b) for b in bytes_of] == [128, 256, 65536], [len(b) for b in bytes_of]
    counter = int(re.search(r"PC= 0x([0-9a-f]+)", out)[1], 16)
    steps = int(re.search(r"Inst= (\d+)", out)[1])
    return (["steps %d" % steps, "counter %04x" % counter] + ["%s %02x" % (name, bytes_of[0][at]) for name, at in NAMES]
            + ["INTMEM[%02x] %02x" % (at, b) for at, b in sorted(bytes_of[1].items()) if b]
            + ["EXTMEM[%04x] %02x" % (at, b) for at, b in sorted(bytes_of[2].items()) if b])


runs = []
with tempfile.TemporaryDirectory() as place:
    for name, data in all_images(os.path.join(HERE, "..")).items():
        if name in ("flags", "stream"):
            runs.append((name, data, simulated(place, data)))
            continue
        open(os.path.join(place, name + ".bin"), "wb").write(data)
        subprocess.run(["d52", "-b", "-d", name + ".bin"], cwd=place, check=True, stdout=subprocess.DEVNULL)
        rows = []
        for line in open(os.path.join(place, name + ".d52")):
            m = re.match(r"(?:\w+:)?\t(\S+\t?[^;]*?)\s*; ([0-9a-f]{4})   ((?:[0-9a-f]{2} ){1,3})", line)
            if m and not re.match(r"(equ|org)\b", m.group(1)):
                code = bytes.fromhex(m.group(3))
                at = int(m.group(2), 16)
                assert data[at:at + len(code)] == code
                rows.append((at, len(code), m.group(1)))
        store(os.path.join(HERE, name + ".txt.gz"), "d52 3.4.1: d52 -b -d; labels left out", data, rows)
store_runs(os.path.join(HERE, "programs.run.gz"), "s51 0.6.4 as an 8052", runs)

"""Makes images/flags.bin and text.bin of programs/ and expected/*.gz with cl65, da65 and sim65 (Debian's cc65 2.19).

A program hands all its variables to sim65's `write` and ends; the run has those bytes with their addresses."""
import os
import re
import runpy
import subprocess
import sys
import tempfile

HERE = os.path.dirname(os.path.abspath(__file__))
HOME = os.path.join(HERE, "..")
sys.dont_write_bytecode = True
sys.path.insert(0, os.path.join(HOME, ".."))
from common import all_images, store, store_runs

BASES = {"codes": 0x1000, "random": 0x1000, "flags": 0x200, "text": 0x200}


def programs(place):
    here = os.path.join(HOME, "programs")
    trials = subprocess.check_output([sys.executable, "trials.py"], cwd=here)
    open(os.path.join(place, "trials.s"), "wb").write(trials)
    for source in ("shell.c", "flags.c", "text.c"):
        open(os.path.join(place, source), "wb").write(open(os.path.join(here, source), "rb").read())
    for name, extra in (("flags", ["trials.s"]), ("text", [])):
        subprocess.check_call(["cl65", "-t", "sim6502", "-O", "-Ln", name + ".lbl", "-o", name, "shell.c", name + ".c"] + extra, cwd=place)
        data = open(os.path.join(place, name), "rb").read()[12:]        # sim65's header
        open(os.path.join(HOME, "images", name + ".bin"), "wb").write(data)
        out = subprocess.run(["sim65", name], cwd=place, stdout=subprocess.PIPE).stdout
        labels = open(os.path.join(place, name + ".lbl")).read().splitlines()
        start = [int(line.split()[1], 16) for line in labels if line.split()[-1] == ".__BSS_RUN__"][0]
        lines = ["ram[%04x] %02x" % (start + i, b) for i, b in enumerate(out)]
        store_runs(os.path.join(HERE, name + ".run.gz"), "sim65 2.19", [(name, data, lines)])


with tempfile.TemporaryDirectory() as place:
    programs(place)
    for name, data in all_images(HOME).items():
        if name == "decimal":       # by the rule itself: sim65 loses the borrow
            kept = [v for _, _, _, rest, carry in runpy.run_path(os.path.join(HOME, "images", "make.py"))["differences"]()
                    for v in (rest // 10 << 4 | rest % 10, carry)]
            lines = ["ram[%04x] %02x" % (0x8000 + i, v) for i, v in enumerate(kept)]
            store_runs(os.path.join(HERE, "decimal.run.gz"), "differences of decimal numbers, reckoned", [(name, data, lines)])
            continue
        image = os.path.join(place, name + ".bin")
        open(image, "wb").write(data)
        base, rows = BASES[name], []
        command = "da65 --cpu 6502 --comments 4 -S 0x%x" % base
        for line in subprocess.check_output(command.split() + [image], text=True).splitlines():
            m = re.match(r"(?:L[0-9A-F]{4}:)?\s+(\S.*?)\s*; ([0-9A-F]{4}) ((?:[0-9A-F]{2} )+)", line)
            if m:
                at, code = int(m.group(2), 16), bytes.fromhex(m.group(3))
                assert data[at - base:at - base + len(code)] == code
                rows.append((at, len(code), " ".join(m.group(1).split())))
        store(os.path.join(HERE, name + ".txt.gz"), "da65 2.19: %s; runs of blanks made one, labels left out" % command, data, rows, base)

"""Makes expected/*.gz with z80dasm 1.1.6 and z80ex 1.1.21 (Debian's z80dasm, libz80ex-dev)."""
import os
import re
import subprocess
import sys
import tempfile

HERE = os.path.dirname(os.path.abspath(__file__))
HOME = os.path.join(HERE, "..")
sys.dont_write_bytecode = True
sys.path.insert(0, os.path.join(HOME, ".."))
from common import all_images, store, store_runs

Z80DASM = "z80dasm -a -t -u -g 0"
RUNS = ("flags", "stream")
runs = []
with tempfile.TemporaryDirectory() as place:
    subprocess.check_call(["gcc", "-O2", "-w", "-o", place + "/z80run", "z80run.c", "-lz80ex"], cwd=os.path.join(HOME, "programs"))
    for name, data in sorted(all_images(HOME).items()):
        image = os.path.join(place, name + ".bin")
        open(image, "wb").write(data)
        if name in RUNS:
            runs.append((name, data, subprocess.check_output([place + "/z80run", image], text=True).splitlines()))
            continue
        rows = []
        out = subprocess.run(Z80DASM.split() + [image], stdout=subprocess.PIPE, stderr=subprocess.DEVNULL, check=True, text=True).stdout
        for line in re.finditer(r"^\t(.*?)\t+;([0-9a-f]{4})\t((?:[0-9a-f]{2} )+)", out, re.M):
            at, code = int(line[2], 16), bytes.fromhex(line[3])
            assert data[at:at + len(code)] == code
            rows.append((at, len(code), line[1]))
        store(os.path.join(HERE, name + ".txt.gz"), "z80dasm 1.1.6: " + Z80DASM, data, rows)
store_runs(os.path.join(HERE, "programs.run.gz"), "z80ex 1.1.21; bits 3 and 5 of F left out", runs)

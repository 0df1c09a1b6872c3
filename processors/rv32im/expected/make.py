"""Makes expected/*.gz with GNU objdump and qemu-riscv32 (Debian's binutils-riscv64-unknown-elf 2.40, qemu-user 7.2). The listings of
the stored programs end with their code."""
import os
import re
import subprocess
import sys
import tempfile

HERE = os.path.dirname(os.path.abspath(__file__))
HOME = os.path.join(HERE, "..")
sys.dont_write_bytecode = True
sys.path.insert(0, os.path.join(HOME, ".."))
import qemu
from common import all_images, store, store_runs

AS = "riscv64-unknown-elf-as -march=rv32im_zicsr_zifencei -mabi=ilp32 -o"       # so that objdump shows no compressed instruction
OBJDUMP = "riscv64-unknown-elf-objdump -D -z -j .text -M no-aliases,numeric"
LISTS = ("words", "shapes", "csrs")
ENDS = {"alu1": 0x108cc, "alu2": 0x108f0, "alu3": 0x10908, "edges": 0x121e0}
ENDS_OF_CODE = {"alu1": 0x8d0, "alu2": 0x8f4, "alu3": 0x90c, "edges": 0x21e4, "hashing": 0x4ec, "numbers": 0x63c, "sorting": 0x53c, "text": 0xaac}
BASE = 0x10000
runs = []
with tempfile.TemporaryDirectory() as place:
    for name, data in sorted(all_images(HOME).items()):
        image = os.path.join(place, name + ".bin")
        open(image, "wb").write(data[:ENDS_OF_CODE.get(name)])
        base, rows = 0 if name in LISTS else BASE, []
        subprocess.run(AS.split() + [image + ".o", "-"], input='.incbin "%s"\n' % image, check=True, text=True)
        out = subprocess.check_output(OBJDUMP.split() + ["--adjust-vma=%d" % base, image + ".o"], text=True)
        for line in re.finditer(r"^ *([0-9a-f]+):\t([0-9a-f]+) *\t(.*)", out, re.M):
            at, code = int(line[1], 16), bytes.fromhex(line[2])[::-1]
            assert data[at - base:at - base + len(code)] == code
            rows.append((at, len(code), re.sub(r"\s*[#<].*", "", line[3]).replace("\t", " ")))
        store(os.path.join(HERE, name + ".txt.gz"), "GNU objdump 2.40: " + OBJDUMP, data, rows, base)
        if name in LISTS:
            continue
        # until the jump to itself at the end, or the first ecall
        last = BASE + len(data) - 4 if name.startswith("stream") else ENDS.get(name) or [at for at, _, text in rows if text == "ecall"][0]
        with qemu.Stub(["qemu-riscv32"], "<", 0, BASE, 0x100000, data, BASE) as stub:
            registers = [("x%d" % i, i) for i in range(1, 32)]
            runs.append((name, data, qemu.ended(stub, registers, 32, BASE, data, 0x10000, last)))
store_runs(os.path.join(HERE, "programs.run.gz"), "qemu-riscv32 7.2, step by step", runs)

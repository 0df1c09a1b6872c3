"""Makes expected/*.gz with GNU objdump 2.40, unicorn 2.0.1 and libx86emu 3.5 (Debian's binutils, python3-unicorn, libx86emu-dev), by
Debian's own Python. unicorn hands interrupts to its caller, so libx86emu runs `interrupts`, and of 0 and 5 the caller is this script."""
import ctypes
import os
import re
import runpy
import subprocess
import sys
import tempfile

from unicorn import UC_ARCH_X86, UC_HOOK_CODE, UC_HOOK_INSN, UC_HOOK_INTR, UC_MODE_16, UC_PROT_ALL, Uc, x86_const as x86

HERE = os.path.dirname(os.path.abspath(__file__))
sys.dont_write_bytecode = True
sys.path.insert(0, os.path.join(HERE, "..", ".."))
from common import all_images, store, store_runs

OBJDUMP = "objdump -D -z -b binary -m i8086 -M intel --insn-width=16"
REGISTERS = ["AX", "CX", "DX", "BX", "SP", "BP", "SI", "DI", "ES", "CS", "SS", "DS"]
FLAGS = [("CF", 0), ("PF", 2), ("AF", 4), ("ZF", 6), ("SF", 7), ("DF", 10), ("OF", 11)]


MOST_TRAPS = 5000
KIB64 = 0x10000


class Machine:
    """unicorn in 16 bit mode. `mirrors` has, by its address, which other 64 KiB each 64 KiB show. Where those behind a segment show
    the segment, a word at offset ffff has its second byte at offset 0, as the 8086 has it."""

    def __init__(self, data, mirrors):
        self.data, self.mirrors = data, mirrors
        self.unicorn, self.ports, self.steps, self.here, self.trap = Uc(UC_ARCH_X86, UC_MODE_16), bytearray(KIB64), 0, None, None
        self.buffers = []
        for at in range(0, 0x120000, KIB64):
            if at in mirrors.values():
                buffer = ctypes.create_string_buffer(KIB64 + 4096)
                self.buffers.append(buffer)
                aligned = ctypes.addressof(buffer) + 4095 & ~4095
                for place in [at] + [mirror for mirror in mirrors if mirrors[mirror] == at]:
                    self.unicorn.mem_map_ptr(place, KIB64, UC_PROT_ALL, aligned)
            elif at not in mirrors:
                self.unicorn.mem_map(at, KIB64)
        self.unicorn.mem_write(0, data)
        self.fresh = self.unicorn.context_save()
        self.unicorn.hook_add(UC_HOOK_CODE, self.count)
        self.unicorn.hook_add(UC_HOOK_INTR, self.interrupted)
        self.unicorn.hook_add(UC_HOOK_INSN, self.get, None, 1, 0, x86.UC_X86_INS_IN)
        self.unicorn.hook_add(UC_HOOK_INSN, self.put, None, 1, 0, x86.UC_X86_INS_OUT)

    def read(self, name):
        return self.unicorn.reg_read(getattr(x86, "UC_X86_REG_" + name))

    def write(self, name, value):
        self.unicorn.reg_write(getattr(x86, "UC_X86_REG_" + name), value)

    def count(self, _, address, size, __):
        """A step, but where a repeated string instruction comes again only to find that CX is 0."""
        if address != self.here or self.read("CX") != 0 or not {0xf2, 0xf3} & set(self.unicorn.mem_read(address, 2)):
            self.steps += 1
        self.here = address

    def put(self, _, port, size, value, __):
        for i in range(size):
            self.ports[port + i & 0xffff] = value >> 8 * i & 0xff

    def get(self, _, port, size, __):
        return sum(self.ports[port + i & 0xffff] << 8 * i for i in range(size))

    def interrupted(self, machine, number, _):
        self.trap = number
        machine.emu_stop()

    def enter(self, number):
        """What the processor does at an interrupt; unicorn, which doesn't know that it is served, would take the next one for a second fault,
        so it begins anew with the same registers. The address to go on at."""
        before = {name: self.read(name) for name in REGISTERS + ["IP", "EFLAGS"]}
        self.unicorn.context_restore(self.fresh)
        for name, value in before.items():
            self.write(name, value)
        for value in self.read("EFLAGS") & 0xffff, self.read("CS"), self.read("IP"):
            self.write("SP", self.read("SP") - 2 & 0xffff)
            self.unicorn.mem_write(self.read("SS") * 16 + self.read("SP"), bytes([value & 255, value >> 8]))
        self.write("EFLAGS", self.read("EFLAGS") & ~0x300)
        vector = self.unicorn.mem_read(4 * number, 4)
        self.write("CS", int.from_bytes(vector[2:], "little"))
        return int.from_bytes(vector[2:], "little") * 16 + int.from_bytes(vector[:2], "little")

    def ended(self, last):
        """Runs until the jump to itself at an address; what compare.py compares."""
        at = 0
        for _ in range(MOST_TRAPS):
            self.unicorn.emu_start(at, last)
            if self.trap is None:
                break
            at, self.trap = self.enter(self.trap), None
        assert self.read("CS") * 16 + self.read("IP") == last
        lines = ["steps %d" % self.steps, "counter %06x" % last]
        lines += ["%s %04x" % (name, self.read(name)) for name in REGISTERS]
        lines += ["%s %02x" % (name, self.read("EFLAGS") >> bit & 1) for name, bit in FLAGS]
        memory = self.unicorn.mem_read(0, 0x110000)
        shown = (at for at in range(0x110000) if at & ~0xffff not in self.mirrors)
        lines += ["ram[%06x] %02x" % (at, memory[at]) for at in shown if memory[at] != (self.data[at] if at < len(self.data) else 0)]
        return lines + ["io[%04x] %02x" % (at, b) for at, b in enumerate(self.ports) if b]


def by_unicorn(name, mirrors={}):
    return name, IMAGES[name], Machine(IMAGES[name], mirrors).ended(last_of(name))


def by_x86emu(name):
    with tempfile.TemporaryDirectory() as place:
        program, image = os.path.join(place, "x86run"), os.path.join(place, "image")
        open(image, "wb").write(IMAGES[name])
        subprocess.check_call(["gcc", "-w", "-o", program, os.path.join(HERE, "..", "programs", "x86run.c"), "-lx86emu"])
        return name, IMAGES[name], subprocess.check_output([program, image, hex(last_of(name))], text=True).splitlines()


def last_of(name):
    """The address of the jump to itself."""
    return LASTS.get(name, len(IMAGES[name]) - 2)


def listed(name):
    with tempfile.NamedTemporaryFile() as image:
        image.write(IMAGES[name])
        image.flush()
        for line in subprocess.check_output(OBJDUMP.split() + [image.name], text=True).splitlines():
            m = re.match(r" *([0-9a-f]+):\t((?:[0-9a-f]{2} )+) *\t(.*)", line)
            if m:
                at, code = int(m.group(1), 16), bytes.fromhex(m.group(2))
                assert IMAGES[name][at:at + len(code)] == code
                yield at, len(code), m.group(3)


def keep(name, remark, runs):
    store_runs(os.path.join(HERE, name + ".run.gz"), remark, runs)


make = runpy.run_path(os.path.join(HERE, "..", "images", "make.py"))
LASTS = {name: make[name]()[1] for name in ("interrupts", "jumps", "divisions", "least", "thrown", "bounds")}
IMAGES = all_images(os.path.join(HERE, ".."))
for name in ("codes", "random"):
    store(os.path.join(HERE, name + ".txt.gz"), "GNU objdump 2.40: " + OBJDUMP, IMAGES[name], listed(name))
keep("programs", "unicorn 2.0.1, 16 bit mode", map(by_unicorn, ("flags", "fewer", "stream", "jumps", "words", "divisions", "least", "bounds")))
behind = {at * 16 + KIB64: at * 16 for at in [0, *make["WORD_SEGMENTS"].values()]}
keep("mirrored", "unicorn 2.0.1, 16 bit mode, the segments again in the 64 KiB behind",
     [by_unicorn(name, behind) for name in ("apart", "words", "pointers")])
keep("round", "unicorn 2.0.1, 16 bit mode, the first 64 KiB again behind the last", [by_unicorn("top", {0x100000: 0})])
keep("interrupts", "libx86emu 3.5", map(by_x86emu, ("interrupts", "jumps", "divisions", "least", "thrown")))
# the steps are those of the program that is compared
keep("ones", "unicorn 2.0.1, 16 bit mode", [("ones", IMAGES["ones"], by_unicorn("counts")[2][:1] + by_unicorn("ones")[2][1:])])

"""Runs an image in qemu's user emulators, step by step through their debugging stub, and tells what it ended with.

The image is put into a program of one segment, which can be read, written and run, so that loads and stores of the image meet memory
that is there. The registers are set to 0 at the start."""
import os
import socket
import struct
import subprocess
import tempfile
import time

MACHINES = {"qemu-riscv32": 243, "qemu-mips": 8, "qemu-arm": 40}


def elf(machine, order, flags, base, size, data, entry):
    """A program of 32 bits with one segment from `base` on."""
    head = b"\x7fELF" + bytes([1, 1 if order == "<" else 2, 1]) + bytes(9)
    head += struct.pack(order + "HHIIIIIHHHHHH", 2, machine, 1, entry, 52, 0, flags, 52, 32, 1, 0, 0, 0)
    head += struct.pack(order + "IIIIIIII", 1, 0x1000, base, base, len(data), size, 7, 0x1000)
    return head.ljust(0x1000, b"\0") + data


class Stub:
    """A running emulator: `step`, `register`, `put`, `memory`."""

    def __init__(self, command, order, flags, base, size, data, entry):
        self.order, self.place = order, tempfile.TemporaryDirectory()
        path = os.path.join(self.place.name, "program")
        with open(path, "wb") as file:
            file.write(elf(MACHINES[command[0]], order, flags, base, size, data, entry))
        os.chmod(path, 0o755)
        with socket.create_server(("127.0.0.1", 0)) as free:
            port = free.getsockname()[1]
        self.process = subprocess.Popen(command + ["-g", str(port), path], stdout=subprocess.DEVNULL)
        for _ in range(100):
            try:
                self.link = socket.create_connection(("127.0.0.1", port), 5)
                break
            except OSError:
                time.sleep(0.05)
        self.link.setsockopt(socket.IPPROTO_TCP, socket.TCP_NODELAY, 1)
        self.rest = b""
        self.ask("qXfer:features:read:target.xml:0,ffb")                # else it knows no single registers

    def ask(self, text):
        self.link.sendall(b"$%s#%02x" % (text.encode(), sum(text.encode()) & 255))
        while True:
            while b"#" not in self.rest or len(self.rest) < self.rest.index(b"#") + 3:
                got = self.link.recv(65536)
                if not got:
                    raise OSError("the emulator ended")
                self.rest += got
            end = self.rest.index(b"#")
            packet, self.rest = self.rest[self.rest.index(b"$") + 1:end], self.rest[end + 3:]
            self.link.sendall(b"+")
            return packet.decode()

    kind = 4                                    # of a breakpoint: 2 where instructions may have 2 bytes

    def __enter__(self):
        return self

    def __exit__(self, *_):
        self.process.kill()
        self.process.wait()
        self.link.close()
        self.place.cleanup()

    def step(self):
        answer = self.ask("s")
        assert answer[:3] in ("T05", "S05"), answer

    def register(self, index):
        """By itself, or, where the emulator doesn't know that, out of all of them."""
        answer = self.ask("p%x" % index) or self.ask("g")[8 * index:]
        return struct.unpack(self.order + "I", bytes.fromhex(answer[:8]))[0]

    def put(self, index, value):
        value = struct.pack(self.order + "I", value).hex()
        if self.ask("P%x=%s" % (index, value)) != "OK":
            every = self.ask("g")
            assert self.ask("G" + every[:8 * index] + value + every[8 * index + 8:]) == "OK"

    def memory(self, start, size):
        data = b""
        while len(data) < size:
            data += bytes.fromhex(self.ask("m%x,%x" % (start + len(data), min(1024, size - len(data)))))
        return data


def ended(stub, registers, counter, base, data, size, last, count=True, shown="%s %08x", memory="ram[%08x] %02x"):
    """Runs until the counter is `last`, and there are the lines: the steps, if they are to be counted, the counter, the registers of
    (name, index), and the bytes that changed. Counting takes a call for each step."""
    for _, index in registers:
        stub.put(index, 0)
    lines = []
    if count:
        steps = 0
        while stub.register(counter) != last:
            stub.step()
            steps += 1
        lines.append("steps %d" % steps)
    else:
        assert stub.ask("Z0,%x,%x" % (last, stub.kind)) == "OK"
        answer = stub.ask("c")
        assert answer[:3] in ("T05", "S05") and stub.register(counter) == last, answer
        assert stub.ask("z0,%x,%x" % (last, stub.kind)) == "OK"
    lines.append("counter %08x" % last)
    lines += [shown % (name, stub.register(index)) for name, index in registers]
    for at, byte in enumerate(stub.memory(base, size)):
        if byte != (data[at] if at < len(data) else 0):
            lines.append(memory % (base + at, byte))
    return lines

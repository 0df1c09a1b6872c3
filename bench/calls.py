"""Calls of the built program with limits of time, memory and stack, for the scripts of this folder."""
import os
import resource
import signal
import sys
from typing import NamedTuple

TOP = os.path.dirname(os.path.dirname(os.path.abspath(__file__)))
# SLEIGH names another program in its place.
PROGRAM = os.environ.get("SLEIGH") or os.path.join(TOP, "crates", "sleigh", "out", "sleigh")
NAMES = {0: "Done", 1: "Refused", 2: "Usage", 3: "ReadFault", 4: "WriteFault", 5: "NoMemory", 6: "Stopped"}
# How many times as long as its time on a processor a call may take by the clock, since other work may share the machine.
PATIENCE = 20


class Limits(NamedTuple):
    """Seconds on a processor, MiB of memory, and KiB of stack; None: as the system has it."""
    seconds: int
    mib: int
    stack: int | None = None


class Ended(NamedTuple):
    """How a call ended: its status, or a word for how it was killed; seconds on a processor, and the greatest memory in MiB."""
    status: int | str
    seconds: float
    mib: int


def must_be_built():
    if not os.access(PROGRAM, os.X_OK):
        sys.exit("%s: there is no program %s: run ./sleigh first" % (sys.argv[0], PROGRAM))


def bound(kind, most, behind=0):
    resource.setrlimit(kind, (most, most + behind))


def begin(words, folder, limits, files, environment):
    """The program in place of this process, in the folder; `files` are those for input, output and errors."""
    try:
        os.chdir(folder)
        for number, file in enumerate(files):
            os.dup2(file, number)
        bound(resource.RLIMIT_CORE, 0)
        # The signal of the first limit says that the time is over; that of the second could be any.
        bound(resource.RLIMIT_CPU, limits.seconds, 1)
        bound(resource.RLIMIT_AS, limits.mib << 20)
        if limits.stack is not None:
            bound(resource.RLIMIT_STACK, limits.stack << 10)
        os.execve(PROGRAM, ["sleigh", *words], environment)
    finally:
        os._exit(127)


def killed_by(number):
    """A word for a call that a signal has ended."""
    return "no end" if number == signal.SIGXCPU else signal.Signals(number).name


def wait(child, seconds):
    """The child's status and use, where it is killed after so many seconds by the clock."""
    signal.signal(signal.SIGALRM, lambda _number, _frame: os.kill(child, signal.SIGXCPU))
    signal.alarm(seconds)
    _, status, use = os.wait4(child, 0)
    signal.alarm(0)
    return status, use


def call(words, folder, limits, output, errors, environment=None):
    """Runs the program with these words in the folder, and keeps what it writes in the files of these names."""
    flags = os.O_WRONLY | os.O_CREAT | os.O_TRUNC
    files = [os.open(os.devnull, os.O_RDONLY), os.open(output, flags, 0o600), os.open(errors, flags, 0o600)]
    child = os.fork()
    if child == 0:
        begin(words, folder, limits, files, os.environ if environment is None else environment)
    for file in files:
        os.close(file)
    status, use = wait(child, limits.seconds * PATIENCE)
    code = os.waitstatus_to_exitcode(status)
    return Ended(killed_by(-code) if code < 0 else code, use.ru_utime + use.ru_stime, use.ru_maxrss >> 10)


def front(name, most=1 << 16):
    """The first bytes of a file."""
    with open(name, "rb") as file:
        return file.read(most)


def write(folder, files):
    """Writes the files, each given by its name as bytes, a text, or a function that makes these."""
    for name, data in files.items():
        data = data() if callable(data) else data
        with open(os.path.join(folder, name), "wb") as file:
            file.write(data.encode() if isinstance(data, str) else data)


def make(folder, files):
    """Writes the files in a process of its own: a new process counts the memory of the one that starts it."""
    child = os.fork()
    if child == 0:
        try:
            write(folder, files() if callable(files) else files)
            os._exit(0)
        finally:
            os._exit(1)
    if os.waitpid(child, 0)[1] != 0:
        sys.exit("%s: the inputs could not be made" % sys.argv[0])


def clear(folder):
    for name in os.listdir(folder):
        os.unlink(os.path.join(folder, name))

"""What the scripts that time the program beside another one share: calls that are timed in turn, and their tables."""
import json
import os
import shutil
import sys
import time

TOP = os.path.dirname(os.path.dirname(os.path.abspath(__file__)))
PROGRAM = os.path.join(TOP, "crates", "sleigh", "out", "sleigh")


def spawned(words, out, errors):
    """One call: wall seconds, seconds of the processor, the greatest memory in KiB, and the status."""
    writes = os.O_WRONLY | os.O_CREAT | os.O_TRUNC
    files = [(os.POSIX_SPAWN_OPEN, 1, out, writes, 0o600), (os.POSIX_SPAWN_OPEN, 2, errors, writes, 0o600)]
    start = time.monotonic()
    child = os.posix_spawn(words[0], words, os.environ, file_actions=files)
    _, status, usage = os.wait4(child, 0)
    return time.monotonic() - start, usage.ru_utime + usage.ru_stime, usage.ru_maxrss, os.waitstatus_to_exitcode(status)


def helper():
    """A process that makes the calls: a new process counts the memory of the one that starts it, and this one stays small."""
    (from_us, to_helper), (from_helper, to_us) = os.pipe(), os.pipe()
    if os.fork() == 0:
        os.close(to_helper)
        os.close(from_helper)
        with os.fdopen(from_us) as asked, os.fdopen(to_us, "w") as told:
            for line in asked:
                print(json.dumps(spawned(*json.loads(line))), file=told, flush=True)
        os._exit(0)
    os.close(from_us)
    os.close(to_us)
    return os.fdopen(to_helper, "w"), os.fdopen(from_helper)


ASK, TOLD = helper()


class Call:
    """A command with a name, and the best that its calls took so far."""

    def __init__(self, name, words, out=os.devnull, errors=os.devnull):
        self.name, self.words, self.out, self.errors = name, words, out, errors
        self.wall = self.cpu = float("inf")
        self.kib = self.status = 0

    def once(self):
        print(json.dumps((self.words, self.out, self.errors)), file=ASK, flush=True)
        wall, cpu, kib, self.status = json.loads(TOLD.readline())
        self.wall, self.cpu, self.kib = min(self.wall, wall), min(self.cpu, cpu), max(self.kib, kib)
        return self


def in_turn(calls, rounds):
    """Makes each call once, then each once more, and so on, so that all meet the machine in the same states."""
    for _ in range(rounds):
        for call in calls:
            call.once()
    return calls


def built():
    if not os.access(PROGRAM, os.X_OK):
        sys.exit("the program isn't built: run ./sleigh first")


def sleigh(*words, name="sleigh", out=os.devnull):
    return Call(name, [PROGRAM, *words], out)


def found(*names):
    """The path of the first of these programs that is installed."""
    for name in names:
        path = shutil.which(name)
        if path:
            return path
    sys.exit("none of these is installed: %s" % ", ".join(names))


def load():
    return "load %.1f on %d processors" % (os.getloadavg()[0], os.cpu_count())


def table(*heads):
    print("| %s |\n|%s" % (" | ".join(heads), "---|" * len(heads)))


def row(*cells):
    print("| %s |" % " | ".join("%.3f" % it if isinstance(it, float) else str(it) for it in cells), flush=True)

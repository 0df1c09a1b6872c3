"""What the comparisons of the processors have in common: the images, what the real tools printed, the counting, and the README.

Images. `images/make.py` has a function `images()` with the bytes of those that a script makes; others lie there as NAME.bin, or
NAME.bin.gz. `images/sums.txt` has the SHA-256 of each.

What a disassembler printed lies in `expected/NAME.txt.gz`, one line for each of its lines: the number of bytes, a blank, and its
text as it was (labels and trailing comments of addresses left out where the README says so). The lines follow one another;
`@ADDRESS` comes before one that doesn't begin where the last one ended. `#` begins a remark. The bytes are those of the image.

What an emulator ended with lies in `expected/NAME.run.gz`: for each program a line `program IMAGE SHA-256`, then its lines.

Both name the SHA-256 of the image that the real tool was given. A result for another image is refused."""
import collections
import gzip
import hashlib
import os
import re
import runpy
import shutil
import subprocess
import sys
import tempfile

TOP = os.path.dirname(os.path.dirname(os.path.abspath(__file__)))
OUT_OF_STEP = "out of step behind a line that is excepted or no instruction, up to the next address where both have one"
NEITHER = "neither shows an instruction"        # agrees, of whatever length


def sum_of(data):
    return hashlib.sha256(data).hexdigest()


def made_images(here):
    """The images that images/make.py of a processor makes, by name."""
    script = os.path.join(here, "images", "make.py")
    return runpy.run_path(script)["images"]() if os.path.exists(script) else {}


def all_images(here):
    """All images of a processor, by name."""
    found = dict(made_images(here))
    place = os.path.join(here, "images")
    for name in sorted(os.listdir(place)):
        if name.endswith(".bin"):
            found[name[:-4]] = open(os.path.join(place, name), "rb").read()
        elif name.endswith(".bin.gz"):
            found[name[:-7]] = gzip.open(os.path.join(place, name)).read()
    return found


def store(path, remark, data, rows, base=0):
    """Writes rows of (address, length, text) as expected/NAME.txt.gz, with the sum of the image."""
    lines, at = ["# " + remark, "# image " + sum_of(data)], base
    for address, length, text in rows:
        if address != at:
            lines.append("@%x" % address)
        lines.append("%d %s" % (length, text))
        at = address + length
    write(path, lines)


def store_runs(path, remark, runs):
    """Writes (image, its bytes, lines) of each run as expected/NAME.run.gz."""
    lines = ["# " + remark]
    for name, data, out in runs:
        lines += ["program %s %s" % (name, sum_of(data))] + list(out)
    write(path, lines)


def write(path, lines):
    """Writes lines with gzip, the same bytes each time."""
    with open(path, "wb") as raw, gzip.GzipFile("", "wb", 9, raw, mtime=0) as file:
        file.write(("\n".join(lines) + "\n").encode())


def number(text):
    """0x12, -0x12 or 12."""
    return int(text, 0)


def shown(page, command):
    """The block of text behind an indented command of a page, as lines, or none."""
    found = re.search(r"^    %s\n\n```text\n(.*?)^```$" % re.escape(command), page, re.M | re.S)
    return found and found.group(1).splitlines()


def shows(page, command, lines):
    """Whether a page shows these lines behind a command. A line `...` there stands for any lines."""
    block = shown(page, command)
    if block is None:
        return False
    pattern = "".join("(?:.*\n)*?" if line == "..." else re.escape(line + "\n") for line in block)
    return re.fullmatch(pattern, "".join(line + "\n" for line in lines)) is not None


class Comparison:
    def __init__(self, file):
        self.here = os.path.dirname(os.path.abspath(file))
        self.name = os.path.basename(self.here)
        words = [w for w in sys.argv[1:] if not w.startswith("--")]
        flags = {w for w in sys.argv[1:] if w.startswith("--")}
        if len(words) != 1 or flags - {"--no-run", "--reasons"}:
            sys.exit("usage: compare.py PROGRAM [--no-run] [--reasons]")
        self.binary = os.path.abspath(shutil.which(words[0]) or words[0])
        self.with_runs, self.with_reasons = "--no-run" not in flags, "--reasons" in flags
        self.total = self.agreed = self.excepted = self.differ = 0
        self.good = True
        self.told = []
        self.runs = collections.OrderedDict()
        self.images = all_images(self.here)
        self.place = tempfile.TemporaryDirectory()
        sums = dict(line.split()[::-1] for line in open(os.path.join(self.here, "images", "sums.txt")))
        if set(sums) != set(self.images):
            sys.exit("%s: images/sums.txt is of other images" % self.name)
        for name, data in self.images.items():
            if sums[name] != sum_of(data):
                sys.exit("%s: the image %s isn't the one that was compared" % (self.name, name))
            with open(self.image(name), "wb") as file:
                file.write(data)

    def tell(self, line):
        """A line of the details, which --reasons shows and the README has."""
        self.told.append(line)
        if self.with_reasons:
            print(line)

    def image(self, name):
        return os.path.join(self.place.name, name + ".bin")

    def tool(self, words, where=None):
        done = subprocess.run([self.binary] + words, cwd=where or self.here, stdout=subprocess.PIPE)
        return done.returncode, done.stdout.decode().splitlines()

    def stored(self, name):
        with gzip.open(os.path.join(self.here, "expected", name + ".gz"), "rt") as file:
            return file.read().splitlines()

    def is_of(self, name, image, told):
        if image not in self.images or told != sum_of(self.images[image]):
            sys.exit("%s: expected/%s.gz is of another image than %s" % (self.name, name, image))

    def listing(self, spec, image, base=0):
        """{address: (length, text)} as the program lists the image."""
        status, lines = self.tool(["list", spec, self.image(image), "--base", hex(base)])
        found = {}
        for line in lines:
            address, data, text = line.split(" ", 2)
            found[int(address[:-1], 16)] = (len(data) // 2, text)
        if status != 0:
            self.good = False
            print("%s: status %d of list %s %s" % (self.name, status, spec, image))
        return found

    def expected(self, name, base=0):
        """{address: (length, text)} as the real disassembler listed the image that the first part of the name says."""
        found, at, of = {}, base, None
        for line in self.stored(name + ".txt"):
            if line.startswith("# image "):
                of = line[8:]
            elif line[0] == "@":
                at = int(line[1:], 16)
            elif line[0] != "#":
                length, _, text = line.partition(" ")
                found[at] = (int(length), text)
                at += int(length)
        self.is_of(name + ".txt", name.split(".")[0], of)
        return found

    def ended(self, name):
        """{image: lines} as the emulator ended."""
        found, here = collections.OrderedDict(), None
        for line in self.stored(name + ".run"):
            if line.startswith("program "):
                _, here, told = line.split(" ")
                self.is_of(name + ".run", here, told)
                found[here] = []
            elif line[0] != "#":
                found[here].append(line)
        return found

    def lines(self, title, image, base, ours, real, judge, alone=None):
        """Judges each line of the real disassembler. `judge(data, address, real text, our text)` answers True where they
        agree (the lengths have to as well), NEITHER, the reason of an exception, or False; `alone(address, ours, real)` the
        reason why a line stands on one side."""
        data = self.images[image]
        agreed, reasons, shown = 0, collections.Counter(), []
        loose = False
        for address in sorted(set(ours) | set(real)):
            mine, theirs = ours.get(address), real.get(address)
            if mine and theirs:
                bytes_here = data[address - base:address - base + theirs[0]]
                verdict = judge(bytes_here, address, theirs[1], mine[1])
                loose = verdict is not True and mine[0] != theirs[0]
                if verdict == NEITHER or verdict is True and mine[0] == theirs[0]:
                    agreed += 1
                elif verdict and verdict is not True:
                    reasons[verdict] += 1
                else:
                    shown.append((address, bytes_here, mine, theirs))
            elif loose:
                if theirs:
                    reasons[OUT_OF_STEP] += 1
            else:
                verdict = alone(address, mine, theirs) if alone else False
                if verdict:
                    reasons[verdict] += 1
                else:
                    shown.append((address, b"", mine, theirs))
        self.agreed += agreed
        self.excepted += sum(reasons.values())
        self.differ += len(shown)
        self.total += agreed + sum(reasons.values()) + len(shown)
        for address, code, mine, theirs in shown[:8]:
            print("  %s %x %s\n    ours %s\n    real %s" % (title, address, code.hex(), mine, theirs))
        self.tell("  list %s: %d agree, %d excepted, %d differ" % (title, agreed, sum(reasons.values()), len(shown)))
        for reason, count in sorted(reasons.items(), key=lambda r: (-r[1], r[0])):
            self.tell("    %d %s" % (count, reason))

    def run(self, spec, image, steps, base=0):
        """(status, lines) of a run."""
        return self.tool(["run", spec, self.image(image), "--base", hex(base), "--steps", str(steps)])

    def ran(self, title, tool, steps, wrong):
        """Tells of one run: `wrong` has pairs of our line and the emulator's. Runs whose titles differ by their number alone
        are counted as one row."""
        row = self.runs.setdefault((title.rstrip("0123456789"), tool), [0, 0, 0])
        row[0] += 1
        row[1] += not wrong
        row[2] += steps
        self.good = self.good and not wrong
        if wrong:
            print("%s run %s: differs from %s in %d lines" % (self.name, title, tool, len(wrong)))
        for mine, theirs in wrong[:8]:
            print("    ours %s\n    real %s" % (mine, theirs))

    def page(self):
        """Whether the README shows what the program and this comparison print."""
        readme = open(os.path.join(self.here, "README.md")).read()
        good, commands = True, re.findall(r"^    \./sleigh (.*)$", readme, re.M)
        for words in commands:
            if not shows(readme, "./sleigh " + words, self.tool(words.split(), TOP)[1]):
                print("%s: README.md doesn't show what `./sleigh %s` prints" % (self.name, words))
                good = False
        if len(commands) < 2:
            print("%s: README.md has no listing and run" % self.name)
            good = False
        good = self.shows_gaps(readme) and good
        if self.with_runs and shown(readme, "processors/compare --reasons " + self.name) != self.told:
            print("%s: README.md doesn't show what `processors/compare --reasons %s` prints" % (self.name, self.name))
            good = False
        return good

    def shows_gaps(self, readme):
        """Whether the README has the command `gaps` of each description, with each line that it prints, but for tables that are complete."""
        good = True
        for spec in self.specs():
            words = "gaps processors/%s/%s" % (self.name, spec)
            told = [[line for line in lines or [] if line != "..." and not line.endswith(": complete")]
                    for lines in (shown(readme, "./sleigh " + words), self.tool(words.split(), TOP)[1])]
            if told[0] != told[1] or not told[0]:
                print("%s: README.md doesn't show each gap, shadowed constructor and hole of %s" % (self.name, spec))
                good = False
        return good

    def specs(self):
        """The descriptions of the folder."""
        return sorted(n for n in os.listdir(self.here) if n.endswith(".slaspec"))

    def end(self):
        """Prints the lines of counts; the status."""
        for (title, tool), (count, agreed, steps) in self.runs.items():
            self.tell("  run %s beside %s: %d of %d agree, %d steps" % (title, tool, agreed, count, steps))
        counts = ["%s: %d lines, %d agree, %d excepted, %d differ" % (self.name, self.total, self.agreed, self.excepted, self.differ)]
        if self.with_runs:
            rows = self.runs.values()
            counts.append("%s: %d runs, %d agree, %d steps"
                          % (self.name, sum(r[0] for r in rows), sum(r[1] for r in rows), sum(r[2] for r in rows)))
        for line in counts:
            self.told.append(line)
            print(line)
        return 0 if self.checked() and self.page() and self.good and self.differ == 0 and self.total > 0 else 1

    def checked(self):
        """Whether `check` says ok of each description of the folder."""
        good = True
        for spec in self.specs():
            status, out = self.tool(["check", spec])
            if status != 0:
                print("%s: status %d of check %s: %s" % (self.name, status, spec, out))
                good = False
        return good


def paired(ours, real):
    """The lines where two lists differ, with what is missing at either."""
    wide = max(len(ours), len(real))
    ours, real = ours + ["(none)"] * (wide - len(ours)), real + ["(none)"] * (wide - len(real))
    return [(a, b) for a, b in zip(ours, real) if a != b]

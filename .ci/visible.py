"""What a crate can see of the crates below it, found by names.

A file of code or of definitions sees the files from which it takes a name by `use`, and what these see, as far as the names
stand in the text that is seen. Of a file of code the types, the traits and the constants are seen, and the contract of a
function where the crate's own code has a word that is its name, since only there it can be called. A file that declares a
type or a trait brings the files that have an `impl` of it. Comments and bodies are never seen, nor are proofs: a lemma
below can't make a body right that breaks its contract.

All of this errs to one side: a name that stands for something else makes more seen than there is, never less.
"""
import functools
import re
from pathlib import Path

FUNCTION = re.compile(r"^( *)(pub )?(?:pub\([a-z]+\) )?(?:(?:const|unsafe) )*fn (\w+)")
TRAIT = re.compile(r"(?:pub(?:\([a-z]+\))? )?(?:trait\b|impl\b.* for )")
BLOCK = re.compile(r"(?:pub(?:\([a-z]+\))? )?(?:impl|trait|mod)\b")
USE = re.compile(r"^ *(?:pub(?:\([a-z]+\))? )?(ghost )?use ([^;]+);\n?", re.M)
GHOST_USE = re.compile(r"^ *(?:pub )?use (Rattle[^{\n]*(?:\{[^}]*\})?[^\n]*)\n?", re.M)
DECLARED = re.compile(r"^(?:pub(?:\([a-z]+\))? )?(?:struct|enum|trait|union|type) (\w+)", re.M)
INLINE = re.compile(r"\b(sl_\w+(?:::\w+)+)")
IMPL = re.compile(r"^impl\b[^{]*", re.M)


def code(text, mark):
    """The text without its lines of comment."""
    return "\n".join(line for line in text.splitlines() if not line.lstrip().startswith(mark))


def heads(text):
    """The code without its functions, and the name and the head of each that crates above can call; of a method of a trait the
    name is None. It goes by the kit's layout."""
    rest, functions, head, closing, is_of_trait = [], [], None, None, False
    for line in text.splitlines():
        if closing is not None:
            closing = None if line == closing else closing
            continue
        function = FUNCTION.match(line)
        if BLOCK.match(line):
            is_of_trait = bool(TRAIT.match(line))
        if function:
            indent, is_public, name = function.groups()
            is_method = bool(indent) and is_of_trait
            head = (indent, None if is_method else name, is_method or bool(is_public), [])
        (rest if head is None else head[3]).append(line)
        if head is None:
            continue
        is_end = len(line) - len(line.lstrip()) == len(head[0])
        if line.endswith(";") or is_end and line.endswith(("{", "{}")):
            if head[2]:
                functions.append((head[1], "\n".join(head[3])))
            closing = head[0] + "}" if line.endswith("{") else None
            head = None
    return "\n".join(rest), functions


def parted(text):
    """The parts of a list between commas that stand in no braces."""
    parts, depth, start = [], 0, 0
    for at, char in enumerate(text + ","):
        depth += (char == "{") - (char == "}")
        if char == "," and depth == 0:
            parts.append(text[start:at].strip())
            start = at + 1
    return [part for part in parts if part]


def paths(tree):
    """The paths that a `use` of Rust's form takes, each with the name that it gets."""
    tree = tree.strip()
    group = re.match(r"([^{]*?)(?:::)?\s*\{(.*)\}$", tree, re.S)
    if group:
        before = [group[1]] if group[1] else []
        return [("::".join(before + [path]), name) for part in parted(group[2]) for path, name in paths(part)]
    path, _, name = tree.partition(" as ")
    return [(path.strip(), name.strip() or path.strip().split("::")[-1])]


class Visible:
    def __init__(self, top, listed):
        self.crates, self.listed = top / "crates", listed

    def crate_of(self, path):
        return path.relative_to(self.crates).parts[0]

    @functools.lru_cache(maxsize=None)
    def files(self, crate):
        """The files of a crate: its code, its definitions and its proofs."""
        parts = (("src", "rt"), ("specs", "antt"), ("proofs", "antt"))
        return [path for part, ending in parts for path in sorted((self.crates / crate / part).rglob(f"*.{ending}"))]

    @functools.lru_cache(maxsize=None)
    def read(self, path):
        """The text of a file without its functions and imports; its functions; and what it imports: the names that each import
        gives (None where these can't be told), and the path."""
        if path.suffix == ".antt":
            text = code(path.read_text(), "--")
            return GHOST_USE.sub("", text), [], self.imports([("ghost ", use) for use in GHOST_USE.findall(text)])
        text = code(path.read_text(), "//")
        imports = self.imports(USE.findall(text))
        text = USE.sub("", text)
        return *((text, []) if "macro_rules!" in text else heads(text)), imports + [(None, one) for one in INLINE.findall(text)]

    def imports(self, uses):
        found = []
        for ghost, use in uses:
            if not ghost:
                found += [([name] if name != "*" else None, one) for one, name in paths(use)]
                continue
            of, names = re.match(r"([^{\s]*?)\.?(?:\{(.*)\})?(?: as .*)?$", use.strip(), re.S).groups()
            given = None if names is None else [word for part in parted(names) for word in part.split(" as ")]
            found.append((given, of))
        return found

    @functools.lru_cache(maxsize=None)
    def module(self, crate, parts):
        """The file of the longest module path that these words begin with, else the crate's first file."""
        source = self.crates / crate / "src"
        for many in range(len(parts), 0, -1):
            for file in (source.joinpath(*parts[:many]).with_suffix(".rt"), source.joinpath(*parts[:many]) / "mod.rt"):
                if file.exists():
                    return file
        return self.first(crate)

    def first(self, crate):
        source = self.crates / crate / "src"
        return next((source / top for top in ("lib.rt", "main.rt") if (source / top).exists()), None)

    @functools.lru_cache(maxsize=None)
    def exported(self, crate):
        """What the first file of a library hands on, by name."""
        first = self.crates / crate / "src" / "lib.rt"
        text = code(first.read_text(), "//") if first.exists() else ""
        return {name: path for use in re.findall(r"^pub use ([^;]+);", text, re.M) for path, name in paths(use)}

    def each(self, name):
        """What a path names: where it takes all that a library hands on, each of it."""
        crate = name.removesuffix("::*")
        return [name] + [f"{crate}::{one}" for one in (self.exported(crate) if crate != name and crate in self.listed else [])]

    def target(self, path, name):
        """The file, and whether all of its functions count, that a path names where it stands in a file; None where it isn't of
        this repository, or is a lemma."""
        if name.startswith("Rattle."):
            _, crate, part, *inner = name.split(".")
            if crate not in self.listed or part == "proofs":
                return None
            if inner[0] in ("declared", "contracts"):
                return self.module(crate, tuple(inner[1:])), inner[0] == "contracts"
            files = [self.crates.joinpath(crate, part, *inner[:many]).with_suffix(".antt") for many in range(len(inner), 0, -1)]
            return next(((file, False) for file in files if file.exists()), None)
        first, *inner = name.split("::")
        home, at = self.crate_of(path), path.relative_to(self.crates).with_suffix("").parts[2:]
        if first in self.listed:
            home = first
        elif first in ("super", "self"):
            inner = [*(at if first == "self" else at[:-1]), *inner]
        elif first != "crate":
            inner = [first, *inner]
            if not (self.crates / home / "src" / f"{first}.rt").exists():
                return None
        if inner and inner[0] in ("specs", "proofs"):
            return self.target(path, ".".join(["Rattle", home, *inner]))
        file = self.module(home, tuple(inner))
        if inner and file == self.first(home) and inner[0] in self.exported(home):
            return self.target(file, self.exported(home)[inner[0]])
        return file and (file, False)

    @functools.lru_cache(maxsize=None)
    def implementations(self, crate):
        """The files of a crate that have an `impl` of, or for, a name."""
        found = {}
        for path in self.files(crate):
            for head in IMPL.findall(path.read_text()) if path.suffix == ".rt" else []:
                for word in re.findall(r"\w+", head):
                    found.setdefault(word, []).append(path)
        return found

    def seen(self, path, words, is_whole):
        """What is seen of a file below by a crate whose code has these words."""
        rest, functions, imports = self.read(path)
        heads = [head for name, head in functions if name is None or is_whole or name in words]
        return "\n".join([line for line in rest.splitlines() if line.strip()] + heads), imports

    def below(self, crate, words):
        """The texts that a crate, whose code and edits have these words, sees of the crates below, by their paths."""
        texts, whole = {}, set()
        todo = [(file, False) for file in self.files(crate)]
        while todo:
            path, is_whole = todo.pop()
            if path in texts and (path in whole or not is_whole):
                continue
            whole.update([path] if is_whole else [])
            texts[path], imports = self.seen(path, words, is_whole)
            is_own, named = self.crate_of(path) == crate, set(re.findall(r"\w+", texts[path]))
            for names, of in imports:
                if is_own or names is None or any(not name.isidentifier() or name in named for name in names):
                    todo += [it for it in (self.target(path, one) for one in self.each(of)) if it]
            for name in [] if is_own else DECLARED.findall(texts[path]):
                todo += [(file, False) for file in self.implementations(self.crate_of(path)).get(name, [])]
        return {str(path.relative_to(self.crates)): text for path, text in texts.items() if self.crate_of(path) != crate}

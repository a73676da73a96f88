"""Reads the repository's antt files: their imports, their items, and the words of each. For lint and reading."""
import os
import re

START = re.compile(r"^((?:(?:unfoldable|abbrev) )*)(pub )?(data |record )?(\S+)(.*)$")
NESTED = re.compile(r"^(?:  (?=\S)|\s+(?=(?:unfoldable |abbrev )*pub ))(?:unfoldable |abbrev )*(?:pub )?(?:data |record )?(\S+)(?: .*)? :")


LIBRARIES = ("lib", "mathlib", "native", "borrow")


def words_of(text):
    """The words of a text; of a qualified one the parts too; a projection, as in `r.field` or `(f x).field`, is no word."""
    found = set()
    for word in re.split(r"[\s(){},;]+", re.sub(r"--.*", "", text)):
        if word and not word.startswith("."):
            first, *parts = word.split(".")
            found |= {word, first}
            # a module's name begins with a capital letter, and so does that of a plan or a codec, of one letter
            if first in LIBRARIES or first[:1].isupper() and len(first) > 1:
                found |= set(filter(None, parts))
    return found


def uses_name(words, name):
    """A name stands among the words; of an operator, as ◌≡◌, each part does."""
    return name in words or "◌" in name and all(p in words for p in name.split("◌") if p)


def parse_use(line):
    """The module, the names (None for a whole one) and the alias of an import."""
    some = re.match(r"^use (\S+?)\.\{(.*)\}$", line)
    if some:
        return some.group(1), [x.strip() for x in some.group(2).split(",") if x.strip()], None
    whole = re.match(r"^use (\S+)(?: as (\S+))?$", line)
    return whole.group(1), None, whole.group(2)


class Item:
    """A definition or a law: its comment, its lines, the names that it gives."""

    def __init__(self, comment, line, kind, name, mods, pub):
        self.comment, self.lines, self.kind, self.mods, self.pub = comment, [line], kind, mods, pub
        self.names = [] if kind == "module" else [name]

    def close(self):
        while self.lines and not self.lines[-1].strip():
            self.lines.pop()
        self.text = "\n".join(self.lines)
        self.words = words_of(self.text)
        inner = self.lines[1:]
        if self.kind == "data":
            self.names += [m.group(1) for m in (re.match(r"^  (\S+) :", x) for x in inner) if m]
        if self.kind == "module":
            self.names += [m.group(1) for m in (NESTED.match(x) for x in inner) if m and "=" not in x_left(m.group(0))]

    def claim(self):
        """What a law says, without its name and its layout; None for what is no law."""
        if self.kind != "def" or "abbrev" in self.mods or "unfoldable" in self.mods:
            return None
        head = [self.lines[0].split(" : ", 1)[-1]]
        for line in self.lines[1:]:
            if not line.startswith(" "):
                break
            head.append(line)
        return " ".join(" ".join(head).split())


def x_left(signature):
    return signature.split(" :")[0]


class Module:
    def __init__(self, text):
        self.head, self.uses, self.items = [], [], []
        lines = text.rstrip("\n").split("\n")
        while lines and lines[0].startswith("--"):
            self.head.append(lines.pop(0))
        item, comment, names = None, [], None
        for line in lines:
            if names is not None:
                # an import of several lines
                names += line.strip()
            elif line.startswith("use "):
                names = line
            if names is not None:
                if "{" not in names or "}" in names:
                    self.uses.append(names)
                    names = None
            elif line.startswith(("pub mod ", "mod ")):
                continue
            elif not line.strip():
                if item and not comment:
                    item.lines.append(line)
            elif line.startswith("--"):
                comment.append(line)
            elif line.startswith(" ") or (item and self.goes_on(item, line)):
                item.lines += comment + [line]
                comment = []
            else:
                mods, pub, kind, name, _ = START.match(line).groups()
                kind = "module" if name == "module" else (kind or "def").strip()
                item = Item(comment, line, kind, name, mods, bool(pub))
                comment = []
                self.items.append(item)
        for item in self.items:
            item.close()
        self.words = set().union(*[x.words for x in self.items]) if self.items else set()
        self.imported = set().union(*[set(parse_use(u)[1] or []) for u in self.uses]) if self.uses else set()

    @staticmethod
    def goes_on(item, line):
        """A line at the margin that belongs to the item before it: `unfolding`, or one of its equations."""
        mods, pub, kind, name, rest = START.match(line).groups()
        if item.kind != "def" or mods or pub or kind or name == "module":
            return False
        return name in item.names or name == "unfolding" or not rest.startswith(" :")


class Tree:
    """All antt files below crates/, by their paths; what rt made in out/ is none of them."""

    def __init__(self, root):
        self.modules = {}
        for base, folders, names in os.walk(f"{root}/crates"):
            if os.path.dirname(base) == f"{root}/crates":
                folders[:] = [x for x in folders if x != "out"]
            for name in sorted(names):
                if name.endswith(".antt"):
                    path = f"{base}/{name}"
                    with open(path, encoding="utf-8") as f:
                        self.modules[os.path.relpath(path, root)] = Module(f.read())

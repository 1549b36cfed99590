"""Spec files as the tools of this folder read them."""
import re
from pathlib import Path

TOP = Path(__file__).resolve().parent.parent
CRATES = TOP / "crates"
USE = re.compile(r"use Rattle\.(\w+)\.specs\.(\w+)\.\{([^}]*)\}")
NAME = re.compile(r"[A-Za-z_][\w'-]*")
DEFINES = re.compile(
    r"(\s*)(?:abbrev |unfoldable |recursive )*(?:pub )?(?:(record|data) (?=[A-Z]))?"
    r"([A-Za-z_][\w'-]*)(?: :|(?<=\w)(?= [({]))"
)


def imports(text):
    """The names that `use` lines of this text take from spec files of this repository."""
    found = {}
    for crate, name, items in USE.findall(text):
        path = CRATES / crate / "specs" / f"{name}.antt"
        if path.is_file():
            found.update((item.strip(), path) for item in items.split(","))
    return found


def words(part):
    return set(NAME.findall("\n".join(line for line in part if not line.strip().startswith("--"))))


def cites(text, known):
    return [(known[word], word) for word in set(NAME.findall(text)) if word in known]


def defined_in(part):
    """The names that these lines define. Fields and constructors are none: who meets one has met
    its type."""
    owner = None
    for line in part:
        found = DEFINES.match(line)
        if line.strip().startswith("--") or found is None:
            continue
        indent, kind, name = found.groups()
        if owner is not None and len(indent) > owner:
            continue
        owner = len(indent) if kind else None
        if kind or line.rstrip()[len(indent) :].split(" :")[0].split()[-1] == name:
            yield name


class Spec:
    """A spec file: its imports, and its definitions, which empty lines part."""

    read = {}

    def __init__(self, path):
        text = path.read_text(encoding="utf8")
        self.imports = imports(text)
        kept = [line for line in text.splitlines() if not line.startswith("use ")]
        parts = [part.split("\n") for part in re.split(r"\n\s*\n", "\n".join(kept))]
        self.parts = [
            [line for line in part if line.strip() and not line.strip().startswith("module ")]
            for part in parts
        ]
        self.defined = {}
        for at, part in enumerate(self.parts):
            for name in defined_in(part):
                self.defined.setdefault(name, at)

    @classmethod
    def of(cls, path):
        if path not in cls.read:
            cls.read[path] = cls(path)
        return cls.read[path]


def by_definitions(cited, given=None):
    """The definitions, as file and place in it, that these names of files rest on, but for what one
    that is given rests on."""
    found, left = set(), list(cited)
    while left:
        path, name = left.pop()
        spec = Spec.of(path)
        at = spec.defined.get(name)
        if at is None or (path, at) in found or (path, name) == given:
            continue
        found.add((path, at))
        for word in words(spec.parts[at]):
            if word in spec.defined:
                left.append((path, word))
            elif word in spec.imports:
                left.append((spec.imports[word], word))
    return found

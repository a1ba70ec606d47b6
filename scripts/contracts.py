"""Reads the public calls of the crates, and their clauses, out of the sources. What checks the documents stands on it."""

import functools
import re
from dataclasses import dataclass, field
from pathlib import Path

ROOT = Path(__file__).resolve().parent.parent
CRATES = ROOT / "crates"


@dataclass
class Clause:
    kind: str  # requires or ensures
    name: str  # empty where the clause has none
    text: str


@dataclass
class Call:
    crate: str
    file: str  # from the crate's folder
    line: int
    owner: str  # the type or trait, empty for a function of the module
    trait: str  # the trait that an impl is of, empty for others
    name: str
    public: bool
    documented: bool
    clauses: list = field(default_factory=list)
    scope: dict = field(default_factory=dict)  # names of our own definitions -> (crate, file, name)

    def __str__(self):
        return f"{self.owner}::{self.name}" if self.owner else self.name


@functools.lru_cache(maxsize=None)
def crate_names():
    lines = (ROOT / "crates.txt").read_text(encoding="utf-8").splitlines()
    return [line.split(":")[0] for line in lines if ":" in line and not line.startswith(("#", "Handles"))]


BLANKED = re.compile(r"//[^\n]*|b?\"(?:\\.|[^\"\\])*\"|(?<!\w)b?'(?:\\[^']*|[^'\\])'", re.S)


def without_comments(text):
    """The text with comments and the insides of literals blanked, so that places stay."""
    return BLANKED.sub(lambda match: re.sub(r"[^\n]", " ", match.group()), text)


def closing(text, place):
    """The place behind the bracket that closes the one at a place."""
    depth = 0
    while place < len(text):
        if text[place] in "{([":
            depth += 1
        elif text[place] in "})]":
            depth -= 1
            if depth == 0:
                return place + 1
        place += 1
    raise ValueError("a bracket is not closed")


def imports(text):
    """What `ghost use` names of our own specs: word -> (crate, file, name), with no name for a whole file."""
    found = {}
    for match in re.finditer(r"ghost use Rattle\.(\w+)\.specs\.([\w.]+?)(?:\.\{([^}]*)\}| as (\w+))?;", text):
        crate, path, names = match.group(1), match.group(2), match.group(3)
        if crate not in crate_names() or path.startswith(("declared", "contracts")):
            continue
        if match.group(4):
            found[match.group(4)] = (crate, path, "")
        listed = [name.strip() for name in (names or "").split(",") if name.strip()]
        for name in listed:
            real, _, alias = name.partition(" as ")
            found[(alias or real).strip()] = (crate, path, real.strip())
    return found


def exported(crate):
    """The names that a crate's root hands out, and the modules that are public themselves."""
    text = without_comments((CRATES / crate / "src/lib.rt").read_text(encoding="utf-8"))
    names = set()
    for match in re.finditer(r"pub use ([\w:]+)::(?:\{([^}]*)\}|(\w+));", text):
        listed = match.group(2) or match.group(3)
        for name in listed.split(","):
            names.add(name.split(" as ")[-1].strip())
    modules = set(re.findall(r"pub mod (\w+);", text))
    return names, modules


DECLARED = re.compile(r"\bpub (?:struct|enum|trait|fn|type) (\w+)")


def calls_of_file(crate, path):
    raw = path.read_text(encoding="utf-8")
    text = without_comments(raw)
    scope = imports(text)
    relative = str(path.relative_to(CRATES / crate))
    owners = []
    for match in re.finditer(r"^[ ]*(?:pub )?(?:unsafe )?(impl|trait)\b([^{;]*)\{", text, re.M):
        if match.group(1) == "impl" or "trait" in match.group(0):
            owners.append((match.end() - 1, closing(text, match.end() - 1), match.group(1), match.group(2), match.group(0)))
    calls = []
    for match in re.finditer(r"^([ ]*)(pub (?:\(crate\) )?)?(?:const )?fn (\w+)", text, re.M):
        begin = match.start()
        owner, trait, in_trait, of_trait = "", "", False, False
        for start, end, kind, header, whole in owners:
            if start < begin < end:
                if kind == "trait":
                    owner, in_trait = re.match(r"\s*(\w+)", header).group(1), "pub trait" in whole
                else:
                    header = re.sub(r"^\s*<(?:[^<>]|<[^<>]*>)*>", "", header)
                    left, _, right = header.partition(" for ")
                    if right:
                        trait, of_trait = re.match(r"\s*&?([\w:]+)", left).group(1), True
                        owner = re.match(r"\s*&?([\w:]+)", right).group(1)
                    else:
                        owner = re.match(r"\s*([\w:]+)", left).group(1)
        place = match.end()
        clauses = []
        while place < len(text) and text[place] not in "{;":
            if text[place] in "([":
                place = closing(text, place)
                continue
            word = re.compile(r"(requires|ensures)\b\s*(\w*)\s*\{").match(text, place)
            if word and not re.match(r"\w", text[place - 1]):
                end = closing(text, word.end() - 1)
                clauses.append(Clause(word.group(1), word.group(2), text[word.end() : end - 1].strip()))
                place = end
                continue
            place += 1
        line = text.count("\n", 0, begin) + 1
        above = raw.split("\n")[: line - 1]
        while above and above[-1].strip().startswith(("#[", "#!")):
            above.pop()
        documented = bool(above) and above[-1].strip().startswith("///")
        calls.append(Call(crate, relative, line, owner, trait, match.group(3), bool(match.group(2)) or in_trait or of_trait, documented, clauses, scope))
    return calls


def test_files(crate):
    """Files whose modules are there for tests alone."""
    found = set()
    for path in (CRATES / crate / "src").rglob("*.rt"):
        text = path.read_text(encoding="utf-8")
        for name in re.findall(r"#\[cfg\(test\)\]\s*(?:pub )?mod (\w+);", text):
            base = path.parent if path.name in ("lib.rt", "main.rt") else path.parent / path.stem
            found.add(base / f"{name}.rt")
    return found


def trait_laws(crate):
    """The laws that public traits state: (trait, name)."""
    root = CRATES / crate / "src/lib.rt"
    if not root.exists():
        return []
    found = []
    for path in sorted((CRATES / crate / "src").rglob("*.rt")):
        text = without_comments(path.read_text(encoding="utf-8"))
        for match in re.finditer(r"pub trait (\w+)[^{;]*\{", text):
            body = text[match.end() : closing(text, match.end() - 1)]
            found += [(match.group(1), name) for name in re.findall(r"ghost (\w+) *:", body)]
    return found


def stands_on(crate):
    """The crates that a crate stands on, by crates.txt."""
    for line in (ROOT / "crates.txt").read_text(encoding="utf-8").splitlines():
        name, _, rest = line.partition(":")
        if name == crate:
            return set(rest.split())
    return set()


@functools.lru_cache(maxsize=None)
def public_calls(crate):
    """The calls that other crates can name: functions and methods of what the root hands out, and of traits."""
    root = CRATES / crate / "src/lib.rt"
    if not root.exists():
        return []
    names, modules = exported(crate)
    texts = {path: path.read_text(encoding="utf-8") for path in sorted((CRATES / crate / "src").rglob("*.rt"))}
    declared = {path: set(DECLARED.findall(text)) for path, text in texts.items()}
    everywhere = set().union(*declared.values())
    tests = test_files(crate)
    found = []
    for path in texts:
        if path in tests:
            continue
        module = path.relative_to(CRATES / crate / "src").with_suffix("").parts[0]
        for call in calls_of_file(crate, path):
            target = call.owner or call.name
            here = target in declared[path]
            handed_out = target in names and (here or (call.owner and target in everywhere))
            in_module = module in modules and (not call.owner or here)
            if call.public and (handed_out or in_module):
                found.append(call)
    return found


def names_in(call, clause):
    """Our own definitions that a clause names: (crate, file, name)."""
    found = set()
    for word in re.findall(r"[^\W\d][\w'’]*(?:\.[^\W\d][\w]*)*", clause.text, re.UNICODE):
        head, *rest = word.split(".")
        if head in call.scope:
            crate, file, name = call.scope[head]
            if name or rest:
                found.add((crate, file, name or rest[0]))
    return found

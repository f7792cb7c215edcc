"""Finds lemmas that nobody uses, lemmas that stand twice, and lemmas that the standard library states already, by their text."""
import collections
import pathlib
import re
import subprocess

NAME = r"[\w'≤≡∷≢₁₂₃⁻-]+"
WORDS = re.compile(NAME)
STATED = re.compile(rf"(?:abbrev |unfoldable )?(pub )?(?:abbrev |unfoldable |record |data )?({NAME})(?: \{{.*?\}}| \(.*?\))* : (.*)$")
GOALS = ("Answers.antt", "Invariants.antt", "Proof.antt")


def sources(crates):
    for path in sorted(crates.glob("*/**/*")):
        if path.suffix in (".rt", ".antt") and path.relative_to(crates).parts[1] != "out":
            yield path


def is_import(line):
    return re.match(r"\s*(?:pub |ghost )*use ", line)


def unused(crates):
    """The places and names of lemmas and definitions in proofs/ and specs/ that no line but their own names."""
    texts = {path: path.read_text(encoding="utf-8").split("\n") for path in sources(crates)}
    named = collections.Counter()
    for lines in texts.values():
        for line in lines:
            if not is_import(line) and not line.strip().startswith(("--", "//")):
                named.update(WORDS.findall(line))
    for path, lines in texts.items():
        if path.suffix != ".antt" or path.name in GOALS:
            continue
        for at, line in enumerate(lines, 1):
            stated = STATED.match(line)
            if stated and stated.group(2) not in ("use", "mod", "module", "record", "data", "where", "pub"):
                name = stated.group(2)
                own = sum(WORDS.findall(it).count(name) for it in lines if is_own(it, name))
                if named[name] <= own:
                    yield path.relative_to(crates), at, name


def is_own(line, name):
    """Whether the line states the name or is one of its equations."""
    return not is_import(line) and re.match(rf"(?:abbrev |unfoldable |record |data |pub )*{re.escape(name)}(?:\s|$)", line)


def shape(statement):
    """A statement without its layout, its universe levels and the names of what it binds; tests of numbers by their names in lemmas."""
    statement = re.sub(r"\{ℓ[^}]*\}\s*(→)?", "", statement)
    statement = re.sub(r"\bType (?:\d+|\w+)", "Type", statement)
    statement = re.sub(r"([({][\w' ]+ : [^(){}]*[)}]) → (?=[({])", r"\1 ", statement)
    bound = []
    for names in re.findall(r"[({]([\w' ]+?) : ", statement):
        bound += names.split()
    numbers = {name: f"v{at}" for at, name in enumerate(dict.fromkeys(bound))}
    statement = WORDS.sub(lambda it: numbers.get(it.group(0), it.group(0)), statement)
    statement = re.sub(r"[\s(){}]+", " ", statement).strip()
    statement = re.sub(r"(\S+) == (\S+)", r"eqb \1 \2", statement)
    return re.sub(r"\bnat_l([te])\b", lambda it: {"t": "ltb", "e": "leb"}[it.group(1)], statement)


def statements(path):
    """The lemmas of a file: line, name and whole statement."""
    lines = path.read_text(encoding="utf-8").split("\n")
    for at, line in enumerate(lines):
        stated = re.match(rf"(?:pub )?({NAME}) : (.*)$", line)
        if stated and not stated.group(2).startswith("goal."):
            whole = stated.group(2)
            for more in lines[at + 1:]:
                if not more.startswith("    "):
                    break
                whole += " " + more.strip()
            yield at + 1, stated.group(1), whole


def restated(crates):
    """The places and names of lemmas in proofs/ that the standard library's pages state, with its name there."""
    front = subprocess.run(["rt", "doc"], capture_output=True, text=True).stdout.strip()
    known = {}
    for page in (pathlib.Path(front).parent / "rattle/std/lemmas").glob("**/*.md"):
        for name, statement in re.findall(rf"^pub ({NAME}) : (.*)$", page.read_text(encoding="utf-8"), re.M):
            known.setdefault(shape(statement), name)
    for path in sources(crates):
        if path.suffix == ".antt" and "proofs" in path.parts:
            for at, name, statement in statements(path):
                if shape(statement) in known:
                    yield path.relative_to(crates), at, name, known[shape(statement)]


def twice(crates):
    """The lemmas of proofs/ of which another crate, or the same, states one of the same shape: place, name, and the first one's place."""
    first = {}
    for path in sources(crates):
        if path.suffix == ".antt" and "proofs" in path.parts and path.name not in GOALS:
            for at, name, statement in statements(path):
                key = shape(statement)
                if "→" in key and not key.startswith("Lang") and "→ Lang" not in key:
                    if key in first:
                        yield path.relative_to(crates), at, name, first[key]
                    else:
                        first[key] = path.relative_to(crates)

#!/usr/bin/env python3
"""respell.py [LIST]: spells the names that this repository's specs/ and proofs/ declare as today's Rattle does.

Run once at the top, after port.py of the kit. Words are joined by `_`, a type is in camel case, and a name of the kit keeps its spelling.
The names of src/ stay as they are. LIST gets a line for each name that changes. It prints which names meet: those of src/ that are called like a
definition, and definitions of two modules, which no file takes both.
"""
import collections
import pathlib
import re
import sys

CHAR = r"[^\s(){}.;,@\"«»`]"
DASHED = re.compile(rf"(?<!{CHAR}){CHAR}*[A-Za-z0-9_']-{CHAR}+(?!{CHAR})")
USE = re.compile(r"^(?:pub )?use (\S+?)(?:\.\{([^}]*)\})?(?: as (\S+))?$|^ghost use (\S+?)(?:\.\{([^}]*)\})?(?: as (\S+))?;$")
OWN = {p.name for p in pathlib.Path("crates").iterdir()}
# Names whose plain spelling is taken, or says less.
SPECIAL = {"bool-byte": "bool_byte_is"}
CAMEL = re.compile(r"[a-z][a-z0-9_']*[A-Z][\w']*")
ANSWERS = re.compile(r"/(Answers|Invariants)\.antt$")


def files():
    for path in sorted(pathlib.Path("crates").rglob("*")):
        if path.suffix in (".antt", ".rt") and "out" not in path.parts and path.is_file():
            yield path


def is_own(module):
    parts = module.split(".")
    return parts[0] == "Rattle" and len(parts) > 1 and parts[1] in OWN


def imported(text):
    """The names that a file takes from the kit."""
    names = set()
    for line in text.splitlines():
        found = USE.match(line.strip())
        if found:
            module, items = found.group(1) or found.group(4), found.group(2) or found.group(5)
            if not is_own(module):
                for item in (items or "").split(","):
                    names.add(item.strip().split(" as ")[0])
    return names


def strip(line, suffix):
    return line.split("--")[0] if suffix == ".antt" else line.split("//")[0]


def declared():
    """The dashed names that specs/ and proofs/ declare, each with whether it is a type."""
    types, others = set(), set()
    head = re.compile(rf"^\s*(?:(?:pub|abbrev|unfoldable|private|record|data|module)\s+)*({CHAR}+)\s*(.*)$")
    for path in files():
        if path.suffix != ".antt" or ANSWERS.search(str(path)):
            continue
        for line in path.read_text().splitlines():
            code = strip(line, ".antt")
            found = head.match(code)
            if not found or code.lstrip().startswith("use "):
                continue
            name, rest = found.groups()
            if not (DASHED.fullmatch(name) or CAMEL.fullmatch(name)) or not re.match(r"(?:[({].*)?:", rest):
                continue
            kind = re.match(r"^\s*(?:pub\s+)?(record|data)\b", code)
            signature = rest.rstrip()
            is_type = bool(kind) or re.search(r"(^|[→:]\s*)Type( 0)?( where)?$", signature)
            (types if is_type else others).add(name)
    return types, others


def locals_of(names):
    """Other dashed words of specs/, lemmas and clauses: parameters, names given by `as`, variables of a `let`."""
    found = set()
    for path in files():
        if ANSWERS.search(str(path)):
            continue
        text = path.read_text()
        kit = imported(text)
        for line in text.splitlines():
            code = re.sub(r'"[^"]*"', "", strip(line, path.suffix))
            found.update(w for w in DASHED.findall(code) if w not in names and w not in kit)
    return found


def spelled(name, is_type):
    if name in SPECIAL:
        return SPECIAL[name]
    if CAMEL.fullmatch(name):
        return re.sub(r"(?<=[a-z0-9])[A-Z]", lambda m: "_" + m[0].lower(), name)
    parts = name.split("-")
    if is_type:
        return "".join(p[:1].upper() + p[1:] for p in parts)
    if re.fullmatch(r"[A-Z]", parts[0]):
        parts[0] = parts[0].lower()
    return "_".join(parts)


def main():
    types, others = declared()
    both = types & others
    if both:
        sys.exit("a type and another name: %s" % sorted(both))
    names = {n: spelled(n, True) for n in types}
    names.update({n: spelled(n, False) for n in others})
    kit = set()
    words = set()
    for path in files():
        text = path.read_text()
        kit |= imported(text)
        for line in text.splitlines():
            words.update(re.findall(rf"{CHAR}+", strip(line, path.suffix)))
    for name in sorted(set(names) & kit):
        print("of the kit too, stays:", name)
        del names[name]
    met = collections.defaultdict(set)
    for name, new in names.items():
        met[new].add(name)
        if new in words:
            met[new].add(new)
    clash = {new: sorted(old) for new, old in met.items() if len(old) > 1}
    for new, old in sorted(clash.items()):
        print("meet:", new, old)
    rest = locals_of(names)
    locally = {n: spelled(n, n[0].isupper() and n[1] != "-") for n in rest}
    if "--dry" in sys.argv:
        print(len(names), sorted(locally.items()))
        return
    for path in files():
        text = path.read_text()
        kit_here = imported(text)
        here = names if ANSWERS.search(str(path)) else {**names, **locally}

        def respell(match):
            word = match.group(0)
            return word if word in kit_here else here.get(word, word)

        new = re.sub(rf"(?<!{CHAR}){CHAR}+(?!{CHAR})", respell, text)
        if new != text:
            path.write_text(new)
    lists = [a for a in sys.argv[1:] if not a.startswith("-")]
    if lists:
        pathlib.Path(lists[0]).write_text("".join("%s %s\n" % pair for pair in sorted({**names, **locally}.items())))


main()

#!/usr/bin/env python3
"""Spells this repository's own definitions and lemmas as today's Rattle spells names: words in snake case, types and facts in camel case.

usage: python3 tools/respell.py, once, at the top, on what port.py has left.

A name that specs/ or a lemma file of proofs/ declares is respelled wherever it stands: in specs/, proofs/, clauses, must-fail edits, and
between backticks in comments and pages. Types keep their capitals. Names of a library, and what Rattle makes of a function, stay.
A lemma that would get the name of a definition, or of another lemma, gets '_lem' behind it.
"""
import glob
import re

NAME = r"[^\s(){}\[\].;,@\"«»]+"
DECLARED = re.compile(
    r"\s*(?:\| )?(?:(?:pub|abbrev|unfoldable|data|record|field)\s+)*([^\s(){}.;,@\"«»:]+)(?:\s+\{[^{}]*\}|\s+\([^()]*\))* :(?:\s|$)"
)
USE = re.compile(r"\buse ([^\s;{]+)\.\{([^}]*)\}")
BY_FUNCTION = ("Proof.antt", "Answers.antt", "Invariants.antt")
CRATES = {path.split("/")[1] for path in glob.glob("crates/*/")}


def read(path):
    with open(path, encoding="utf-8") as file:
        return file.read()


def antt_files():
    return sorted(glob.glob("crates/*/specs/**/*.antt", recursive=True) + glob.glob("crates/*/proofs/**/*.antt", recursive=True))


def declared():
    names = set()
    for path in antt_files():
        if not path.endswith(BY_FUNCTION):
            for line in read(path).split("\n"):
                met = DECLARED.match(re.sub(r"--.*", "", line))
                if met:
                    names.add(met[1])
    return names


def spelled(name):
    parted = re.sub(r"(?<=[a-z0-9])[A-Z]", lambda met: "_" + met[0].lower(), name) if "-" not in name else name
    return parted.replace("-", "_")


def table():
    names = declared()
    lower = {name for name in names if not name[0].isupper()}
    found = {name: spelled(name) for name in lower if "-" not in name}
    made = {new for name, new in found.items() if name != new}
    for name in set(found) & made:
        found[name] = name + "_lem"
    taken = set(found.values())
    for name in sorted(lower - set(found)):
        new = spelled(name)
        found[name] = new + "_lem" if new in taken else new
    clash = {}
    for name, new in sorted(found.items()):
        clash.setdefault(new, []).append(name)
    for new, olds in clash.items():
        if len(olds) > 1:
            print("falls together:", new, olds)
    return {name: new for name, new in found.items() if name != new}


def of_libraries(text):
    names = set()
    for module, items in USE.findall(text):
        steps = module.split(".")
        if steps[0] != "Rattle" or steps[1] not in CRATES:
            for item in items.split(","):
                names.add(item.strip().split(" as ")[-1])
    return names


def turned(text, names):
    stay = of_libraries(text)
    return re.sub(NAME, lambda met: met[0] if met[0] in stay else names.get(met[0], met[0]), text)


def quoted(text, names):
    return re.sub(r"`[^`\n]+`", lambda met: turned(met[0][1:-1], names).join("``"), text)


def line_by_line(text, names, mark):
    stay = of_libraries(text)
    these = {name: new for name, new in names.items() if name not in stay}
    lines = []
    for line in text.split("\n"):
        code, sign, said = line.partition(mark)
        lines.append(turned(code, these) + sign + quoted(said, these))
    return "\n".join(lines)


def write(path, old, new):
    if old != new:
        with open(path, "w", encoding="utf-8") as file:
            file.write(new)


def main():
    names = table()
    print(len(names), "names")
    for path in antt_files():
        text = read(path)
        write(path, text, line_by_line(text, names, "--"))
    for path in sorted(glob.glob("crates/*/src/**/*.rt", recursive=True)):
        text = read(path)
        write(path, text, line_by_line(text, names, "//"))
    for path in sorted(glob.glob("crates/*/must-fail/*.edit")):
        text = read(path)
        lines = [turned(line, names) if re.match(r"(old|new|fails):", line) else quoted(line, names) for line in text.split("\n")]
        write(path, text, "\n".join(lines))
    for path in ["README.md", *sorted(glob.glob("docs/*.md"))]:
        text = read(path)
        write(path, text, quoted(text, names))


main()

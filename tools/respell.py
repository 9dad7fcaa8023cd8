#!/usr/bin/env python3
"""Brings the repository's own definitions and lemmas to the spelling of today's kit: snake case in place of dashes and
of inner capitals. Types and modules, functions of src/, and names that Rattle makes for goals and steps stay. The crate
log, whose name is one of the kit's libraries now, becomes entry_log.

usage: tools/respell.py           at the top of the repository: rewrites crates/ and the names that the pages cite
       tools/respell.py --check   rewrites nothing, and prints the names that would fall together
"""

import os
import re
import sys

# A name: letters, digits, primes, subscripts, and dashes and dots inside.
INSIDE = r"[A-Za-z0-9_\u0370-\u03ff\u2080-\u209c'\u2032\u2115\u2260]"
NAME = re.compile(rf"[A-Za-z_\u0370-\u03ff\u2080-\u209c'\u2115]{INSIDE}*(?:-{INSIDE}+)*")
DECLARED = re.compile(r"^\s*(?:(?:pub|abbrev|unfoldable|opaque|private)\s+)*(?:record\s+|data\s+)?"
                      r"(\S+?(?:\s+[A-Za-z][\w'-]*)*)(?:\s+[({].*?)?\s+:(?:\s|$)")
CONSTRUCTOR = re.compile(r"^\s*\|?\s*(?:pub\s+)?([a-z][\w'-]*)\s+:\s")
USE = re.compile(r"^\s*(?:pub\s+|ghost\s+)*use\s+([\w.']+?)\.?(?:\{([^}]*)\})?\s*(?:as\s+\S+)?;?\s*$")
# Names that Rattle makes stand behind these words and a dot.
MADE = re.compile(r"(?:^|[^\w'-])(?:tie|goal|given)\.\Z")


def texts(root, endings):
    for top in ("crates",):
        for folder, dirs, files in os.walk(os.path.join(root, top)):
            dirs[:] = sorted(d for d in dirs if d != "out")
            for name in sorted(files):
                if name.endswith(endings):
                    yield os.path.join(folder, name)


def snake(name):
    parts = []
    for part in name.split("-"):
        if part[:1].islower():
            part = re.sub(r"(?<=[a-z0-9])([A-Z])", lambda m: "_" + m.group(1).lower(), part)
        parts.append(part)
    return "_".join(parts)


def comment_at(line):
    """Where a line's comment begins: -- at its head or behind a space."""
    m = re.search(r"(?:^|\s)--(?:\s|$)", line)
    return m.start() if m else len(line)


def names(root):
    """The names that the repository declares, the names it imports from the library, and where each is declared."""
    declared, library = {}, set()
    for path in texts(root, (".antt",)):
        for line in open(path, encoding="utf-8"):
            line = line[:comment_at(line)].rstrip("\n")
            used = USE.match(line)
            if used:
                if not re.match(r"Rattle\.(?!std\b|core\b)", used.group(1)):
                    for word in (used.group(2) or "").split(","):
                        library.add(word.strip().split(" as ")[0])
                continue
            found = DECLARED.match(line)
            several = found.group(1).split() if found else ()  # a line may declare several constructors
            for name in several:
                if several[0] != "let" and NAME.fullmatch(name):
                    declared.setdefault(name, set()).add(path)
    return declared, library


def mapping(root):
    """The new name of each that changes. Where two would fall together, the one with a dash, a lemma, gets _lem."""
    declared, library = names(root)
    to = {}
    for name in declared:
        if name not in library and snake(name) != name:
            to[name] = snake(name)
    taken = {to.get(name, name) for name in declared if "-" not in name} | library
    for name in list(to):
        if "-" in name and to[name] in taken:
            to[name] += "_lem"
    for name in declared:  # a lemma that the kit's own script respelled, and a definition that comes to its name now
        if name not in to and "_" in name and any(snake(d) == name for d in to if "-" not in d):
            to[name] = name + "_lem"
    return declared, library, to


def respell(text, to, in_proof=False, in_code=False):
    modules = set(re.findall(r"^\s*(?:pub |ghost )*use [\w.']+ as (\w+)$", text, re.M)) - {"tie", "goal", "given"}

    def one(m):
        name = m.group(0)
        new = to.get(name)
        if new is None:
            return name
        before = text[max(0, m.start() - 40):m.start()]
        plain = snake(name) == name
        if MADE.search(before) or plain and in_code:
            return name
        behind = re.search(r"([\w'-]*)\.\Z", before)
        if in_proof and behind and ("-" in name or plain) and behind.group(1) not in modules:
            return name  # a step that Rattle names
        return new
    return NAME.sub(one, text)


def aliased(text):
    """In a source file: a definition that came to a function's name is imported under the same words as a type is."""
    functions = set(re.findall(r"^\s*(?:pub )?(?:unsafe )?(?:extern \"C\" )?fn (\w+)", text, re.M))
    functions |= set(re.findall(r"^use [\w:]+::(\w+);", text, re.M))

    clash = set()
    for m in re.finditer(r"^ghost use [\w.]+\{([^}]*)\};", text, re.M):
        clash |= {word for word in m.group(1).split(", ") if word in functions}
    for word in clash:
        text = re.sub(r"(?<![\w.'-])(?<!fn )(?<!::)%s(?![\w'(-]|::| as )" % word, camel(word), text)
        text = re.sub(r"(?<=[{ ])%s(?=[,}])" % camel(word), word + " as " + camel(word), text, count=1)
    return text


def tight(text, declared):
    """An edit of a definition: projections are written tight, and paths with dots."""
    if not re.search(r"(?m)^file: specs/", text):
        return text
    text = re.sub(r"(?<=[\w')]) \.(?=[a-z0-9])", ".", text).replace("Rattle\u00b7", "Rattle.")
    text = re.sub(r"\(([a-z]\w*(?:\.\w+)+)\)", r"\1", text)
    return NAME.sub(lambda n: snake(n.group(0)) if snake(n.group(0)) in declared else n.group(0), text)


def camel(name):
    return "".join(part[:1].upper() + part[1:] for part in name.split("_"))


CRATES = {"log": "entry_log"}


def rename_crates(root):
    for old, new in CRATES.items():
        folder = os.path.join(root, "crates", old)
        if not os.path.isdir(folder):
            continue
        os.rename(folder, os.path.join(root, "crates", new))
        path = os.path.join(root, "crates.txt")
        with open(path, encoding="utf-8") as f:
            text = f.read()
        with open(path, "w", encoding="utf-8") as f:
            f.write(re.sub(r"(?m)(^|(?<=[ ]))%s(?=[:\s]|$)" % old, new, text))
        for path in texts(root, (".antt", ".rt", ".edit")):
            with open(path, encoding="utf-8") as f:
                text = f.read()
            turned = re.sub(r"Rattle([.\u00b7])%s(?=[.\u00b7])" % old, r"Rattle\1" + new, text)
            if not path.endswith(".antt"):
                turned = re.sub(r"(?<![\w.:])%s::" % old, new + "::", turned)
                turned = re.sub(r"(?m)^use %s;" % old, "use %s;" % new, turned)
            if path.endswith("Proof.antt"):
                turned = turned.replace("`%s::" % old, "`%s::" % new)
            if turned != text:
                with open(path, "w", encoding="utf-8") as f:
                    f.write(turned)


def main(root):
    if "--check" not in sys.argv:
        rename_crates(root)
    declared, library, to = mapping(root)
    if "--check" in sys.argv:
        print(len(declared), "declared,", len(to), "respelled")
        back = {}
        for old in list(to) + [d for d in declared if d not in to] + sorted(library):
            back.setdefault(to.get(old, old), set()).add(old)
        for new, olds in sorted(back.items()):
            if len(olds) > 1:
                files = [sorted(os.path.relpath(p, root) for p in declared.get(o, ())) for o in sorted(olds)]
                print(new, sorted(olds), files)
        return
    for path in texts(root, (".antt", ".rt", ".edit")):
        with open(path, encoding="utf-8") as f:
            text = was = f.read()
        if path.endswith(".edit"):
            text = tight(text, declared)
        new = respell(text, to, os.sep + "proofs" + os.sep in path, not path.endswith(".antt"))
        if path.endswith(".rt"):
            new = aliased(new)
        if new != was:
            with open(path, "w", encoding="utf-8") as f:
                f.write(new)
    cited = dict(to)
    for name in declared:
        cited.setdefault(name, name)

    def in_page(m):
        return NAME.sub(lambda n: to.get(n.group(0)) or
                        (snake(n.group(0)) if snake(n.group(0)) in cited else n.group(0)), m.group(0))

    for folder, dirs, files in os.walk(root):
        dirs[:] = [d for d in dirs if d in ("docs", "changes")]
        for name in files:
            if name.endswith(".md") and name != "PORT.md":
                path = os.path.join(folder, name)
                with open(path, encoding="utf-8") as f:
                    text = f.read()
                new = re.sub(r"`[^`\n]*`", in_page, text)
                if new != text:
                    with open(path, "w", encoding="utf-8") as f:
                        f.write(new)


if __name__ == "__main__":
    here = os.path.dirname(os.path.dirname(os.path.abspath(__file__)))
    main(here if len(sys.argv) < 2 or sys.argv[-1] == "--check" else sys.argv[1])

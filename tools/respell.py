#!/usr/bin/env python3
"""Brings the repository's own definitions, lemmas and local names in antt to the spelling of today's Rattle, after the kit's port.py has run:
words in snake case, facts as types; a dash only between the names of two definitions.

    python3 tools/respell.py [--list]      at the top of the repository; --list only prints old and new

Names of src/ (functions, fields, parameters), exported C names, strings, inputs and outputs stay as they are. It runs once: a second run changes nothing.
"""

import os
import re
import sys

# A name of antt: what stands between spaces, brackets, dots and the signs of terms.
NAME = re.compile(r"[A-Za-z_0-9ℕℤ₀-₉'?-]+")
SIGNATURE = re.compile(
    r"^\s*(?:(?:abbrev|unfoldable|pub|axiom)\s+)*(?:(?P<kind>data|record|module)\s+)?(?P<name>[A-Za-z_0-9ℕℤ₀-₉'?-]+)(?:\s+[({][^)}]*[)}])*\s*:(?!:)(?P<type>.*)$"
)
# Definitions whose value is a fact are spelled as types.
FACTS = {"gridOrNetStart": "GridOrNetStart", "isFormedAt": "IsFormedAt"}
# Words of the library that lemmas of this repository are named after, in today's spelling.
LIBRARY = {"getD": "get_or", "leZ": "int_le", "ltZ": "int_lt", "leb": "leb", "ltb": "ltb", "eqb": "eqb"}
# Lemmas that had a definition's name in today's spelling already, and the files in which they are known.
ALONE = {
    "crates/format/proofs/AboveWayUp.antt": ["above_at"],
    "crates/way_up/proofs/Own.antt": ["above_at"],
    "crates/format_directory/proofs/DirectoryChecks.antt": ["are_written"],
    "crates/edit_block/proofs/Items.antt": ["is_block"],
    "crates/form_bytes/proofs/Rules.antt": ["is_digit"],
    "crates/format/proofs/ChecksEdits.antt": ["one_less"],
    "crates/directories/proofs/Judging.antt": ["number_is"],
}
STD = set("append cons nil length drop take replicate map reverse cond and or not get_or set int_le int_lt div mod add sub mul pow min max".split())


def files(*ends):
    for top in ("crates", "docs", "README.md"):
        if os.path.isfile(top):
            if top.endswith(ends):
                yield top
            continue
        for folder, dirs, names in os.walk(top):
            dirs[:] = sorted(d for d in dirs if d not in ("out", "target"))
            for name in sorted(names):
                if name.endswith(ends):
                    yield os.path.join(folder, name)


def read(path):
    with open(path, encoding="utf-8") as f:
        return f.read()


def bare(text):
    """The text of a proof or definition file with no comments and no strings."""
    return re.sub(r'"[^"\n]*"', '""', re.sub(r"--.*", "", text))


def snake(word):
    word = re.sub(r"(?<=[A-Za-z])([23])D", r"_\1d", word)
    word = re.sub(r"(?<![A-Za-z])([23])D", r"\1d", word)
    word = re.sub(r"(?<=[a-z0-9'])([A-Z])", r"_\1", word)
    return word.lower() if re.match(r"[a-z0-9]", word) else word


def part(word):
    return LIBRARY.get(word) or FACTS.get(word) or snake(word)


def main():
    defined, imported, tokens, declared = set(), set(), set(), set()
    for path in files(".antt"):
        text = bare(read(path))
        tokens.update(NAME.findall(text))
        # What is imported from elsewhere than this repository keeps its name.
        for line in re.findall(r"^\s*(?:pub\s+)?use\s+.*$", text, re.M):
            found = re.match(r"\s*(?:pub\s+)?use\s+([^\s{]+)(?:\.?\{([^}]*)\})?", line)
            source, names = found.group(1), found.group(2) or ""
            own = re.match(r"Rattle\.(\w+)\.", source)
            if not own or not os.path.isdir(os.path.join("crates", own.group(1))):
                imported.update(re.findall(r"[^\s,{}]+", names.split(" as ")[0] if " as " not in names else names))
        if path.endswith(("/Proof.antt", "/Answers.antt", "/Invariants.antt")):
            continue
        for line in text.split("\n"):
            found = SIGNATURE.match(line)
            if found:
                defined.add(found.group("name"))
                if "/specs/" in path and "≡" not in found.group("type"):
                    declared.add(found.group("name"))
    words = {part(n) for n in declared if "-" not in n} | STD
    names = {}
    for name in sorted(tokens | defined):
        if name in imported or not re.search(r"[A-Za-z]", name):
            continue
        camel = re.match(r"[a-z]", name) and re.search(r"[A-Z]", name)
        dashed = "-" in name.strip("-") and name in defined
        if name in FACTS:
            names[name] = FACTS[name]
        elif dashed:
            parts = [part(p) for p in name.split("-")]
            names[name] = ("-" if all(p in words for p in parts) else "_").join(parts)
        elif camel and "-" not in name:
            names[name] = snake(name)
    names = {a: b for a, b in names.items() if a != b}
    # A lemma that would have the name of the definition that it speaks of gets `_lem`.
    taken = {b for a, b in names.items() if "-" not in a} | {n for n in declared if n not in names}
    for name, new in names.items():
        if "-" in name and new in taken:
            names[name] = new + "_lem"
    # Names that would fall together.
    after = {}
    for name in sorted(tokens | defined):
        after.setdefault(names.get(name, name), set()).add(name)
    clash = {b: sorted(a) for b, a in after.items() if len(a) > 1}
    if "--list" in sys.argv:
        for a, b in sorted(names.items()):
            print(a, b)
    for b, a in sorted(clash.items()):
        print("respell: these fall together:", *a, "as", b, file=sys.stderr)
    if "--list" in sys.argv:
        return

    def alone(path, text):
        for name in ALONE.get(path, ()):
            text = re.sub(r"(?<![\w'-])%s(?![\w'-])" % name, name + "_lem", text)
        return text

    def turn(text, dashes=True):
        return NAME.sub(lambda m: names.get(m.group(0), m.group(0)) if dashes or "-" not in m.group(0) else m.group(0), text)

    def turn_antt(text):
        out = []
        for line in text.split("\n"):
            code, dash, comment = line.partition("--") if not re.match(r"[^\"]*\"[^\"]*--", line) else (line, "", "")
            pieces = re.split(r'("[^"]*")', code)
            code = "".join(p if p.startswith('"') else turn(p) for p in pieces)
            # In a comment a dash may join two words of English: only what stands in backticks is a name there.
            comment = re.sub(r"`[^`]*`", lambda m: turn(m.group(0)), turn(comment, dashes=False))
            out.append(code + dash + comment)
        return "\n".join(out)

    def turn_rust(text):
        out = []
        for line in text.split("\n"):
            code, slashes, comment = line.partition("//")
            if re.match(r"\s*(ghost|requires|ensures|pub ghost)\b|.*\bghost use\b|.*≡", code):
                code = "".join(p if p.startswith('"') else turn(p) for p in re.split(r'("[^"]*")', code))
            comment = re.sub(r"`[^`]*`", lambda m: turn(m.group(0)), turn(comment, dashes=False))
            out.append(code + slashes + comment)
        return "\n".join(out)

    for path in files(".antt", ".rt", ".edit", ".md"):
        text = read(path)
        if path.endswith(".antt"):
            new = turn_antt(alone(path, text))
        elif path.endswith(".rt"):
            new = turn_rust(text)
        elif path.endswith(".edit"):
            new = "\n".join(turn(l) if re.match(r"(old|new):", l) else turn(l, dashes=False) for l in text.split("\n"))
        else:
            new = re.sub(r"`[^`\n]*`", lambda m: turn(m.group(0)), text)
        if new != text:
            with open(path, "w", encoding="utf-8") as f:
                f.write(new)


main()

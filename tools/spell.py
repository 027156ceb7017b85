#!/usr/bin/env python3
"""Brings the repository's own definitions, lemmas, fields and bound variables to Rattle's spelling: snake case for words, as a name of Rust.

usage: tools/spell.py            at the top of the repository, once

A word keeps its spelling where it is not the repository's own: a name that the library has, and a name that Rattle makes in proofs/F/ (a goal, a step,
a field of a step), where the dash joins parts. Types and modules are in camel case as they are. Strings and the code of src/ are left alone: what is
turned there are clauses and imports. Names of one file that fall together are told: look at each.
"""

import os
import re
import sys

WORD = re.compile(r"[A-Za-z_ℕκμλ][\w'₀-₉ℕ]*(?:-[\w'₀-₉≤<*+ℕ]+)*")
DECLARED = re.compile(r"^\s*(?:(?:pub|abbrev|unfoldable|data|record|ruleset)\s+)*((?:[\w'+₀-₉-]+ )+):(?:\s|$)")
USE = re.compile(r"^\s*(?:pub )?(?:ghost )?use ([\w·.+'-]+)(?:\.\{(.*)\})?(?: as ([\w'-]+))?;?\s*$")
MADE_TYPE = re.compile(r":\s*(?:tie|lts)\.|: \{M : Type 1\} → statement|Need-")
LIBRARY = ("mathlib", "native", "lib", "borrow", "Prim", "sound", "mir", "prog", "types", "store", "std", "logic", "Rattle.std", "Rattle.core", "Rattle.io", "Rattle.libc", "Rattle.os", "Rattle.bytes", "Rattle.std_alloc")

# Names that would fall together with another in snake case, and what each is named in its place.
RENAMED = {
    "isEntry": "entry_holds",  # beside the field is-entry
    "isRounded": "rounded_holds",  # beside the field is-rounded
    "whole-line": "whole_line_of_text",  # the lemma on wholeLine
    "line-of": "line_of_text",  # the lemma on line_of
    "of-kind": "times_of_kind",  # the lemma on ofKind
    "adds-to": "added_here",  # a variable beside addsTo
    "nothing_yet": "empty_at_start",  # a local lemma beside nothingYet
    "reads_on": "reads_further",  # the lemma on readsOn
    "critical-millikelvin": "critical_temperature",  # a variable beside criticalMillikelvin
    "critical-pascals": "critical_pressure",  # a variable beside criticalPascals
}


def spelled(word):
    """The word in snake case; a capital that begins it, or stands alone in it, is a type's or a single letter."""
    if word in RENAMED:
        return RENAMED[word]
    if word[0].isupper() or word[0] in "ℕ":
        return word
    word = word.replace("-", "_")
    return re.sub(r"(?<=[a-z0-9'])([A-Z])", lambda m: "_" + m.group(1).lower(), word)


def walk(top):
    for folder, dirs, files in os.walk(top):
        dirs[:] = sorted(d for d in dirs if d not in ("out", ".git", "target"))
        for name in sorted(files):
            yield os.path.join(folder, name)


def of_library(path):
    return any(path == it or path.startswith(it + ".") for it in LIBRARY)


def of_function(path):
    """Whether the file is part of the proof of a function: proofs/F/.. of a crate."""
    parts = path.split(os.sep)
    return "proofs" in parts and parts.index("proofs") < len(parts) - 2


def library_names(text):
    """What a file brings in from a library, and the short names that stand for modules."""
    names, modules = set(), set()
    for line in text.splitlines():
        m = USE.match(line)
        if not m:
            continue
        path, items, short = m.groups()
        made = of_library(path) or re.search(r"\.proofs\.[\w.+'-]+\.(?:Tie|Statement|Lts[\w-]*|Reads|Kinds|Given|Goals)\b", path) or (items and "statement" in items)
        if items:
            for item in items.split(","):
                item = item.strip().split(" as ")[-1]
                if made and item:
                    names.add(item)
        else:
            modules.add(short or path.split(".")[-1])
            if made:
                names.add(short or path.split(".")[-1])
    return names, modules


def declared(paths):
    """Every name that a file of specs/ or proofs/ declares, but for the answers to goals."""
    found = set()
    for path in paths:
        inside = of_function(path)
        with open(path, encoding="utf-8") as f:
            for line in f:
                m = DECLARED.match(line)
                if not m or re.match(r"\s*(let|use|module|open|infix)\b", line):
                    continue
                if inside and (MADE_TYPE.search(line) or re.match(r"\s*abbrev (Inv|μ|invariant|decreases)-", line)):
                    continue
                found.update(m.group(1).split())
    return found


def turn(text, chosen, kept):
    """Turns words of a text by chosen, which says of a word whether it is turned. A word behind a library's module is kept."""
    out, at = [], 0
    for m in WORD.finditer(text):
        word = m.group(0)
        before = text[: m.start()]
        head = re.search(r"([\w'-]+)\.$", before)
        new = word
        if word not in kept and not (head and head.group(1) in kept and head.group(1) not in ("c", "κs")) and chosen(word):
            new = spelled(word)
        out += [text[at : m.start()], new]
        at = m.end()
    out.append(text[at:])
    return "".join(out)


def antt(path, text, own):
    names, modules = library_names(text)
    inside = of_function(path)

    def chosen(word):
        return word in own if inside else ("-" in word or word in RENAMED or bool(re.search(r"[a-z][A-Z]", word)))

    lines = []
    for line in text.split("\n"):
        m = USE.match(line)
        if m and (of_library(m.group(1))):
            lines.append(line)
            continue
        if m:
            # a path's own words are modules and Rust's functions; its items are definitions
            head, brace, items = line.partition(".{")
            if brace and not re.search(r"\.proofs\.[\w.+'-]+\.(?:Tie|Statement|Lts[\w-]*|Reads|Kinds|Given|Goals)$", head):
                items = turn(items, lambda w: w in own or (not inside and chosen(w)), set())
            lines.append(head + brace + items)
            continue
        code, dash, comment = line.partition("-- ")
        if dash and code.strip() and not code.endswith(" "):
            code, dash, comment = line, "", ""
        comment = re.sub(r"`[^`]*`", lambda it: turn(it.group(0), lambda w: w in own, names), comment)
        comment = turn(comment, lambda w: w in own and bool(re.search(r"[a-z][A-Z]", w)), names)
        lines.append(turn(code, chosen, names) + dash + comment)
    return "\n".join(lines)


def rust(text, own):
    """Clauses, imports of ghost items and comments of a Rattle source."""

    def camel(word):
        return word in own and bool(re.search(r"[a-z][A-Z]", word))

    lines, clause = [], False
    for line in text.split("\n"):
        bare = line.strip()
        if re.match(r"(requires|ensures|ghost|invariant|#\[tactic|#!\[tactic)\b", bare) or bare.startswith("ghost "):
            clause = True
        if bare.startswith("//"):
            line = re.sub(r"`[^`]*`", lambda it: turn(it.group(0), lambda w: w in own, set()), line)
            lines.append(turn(line, camel, set()))
            continue
        if clause:
            m = USE.match(line)
            if m and of_library(m.group(1)):
                lines.append(line)
            else:
                lines.append(turn(line, lambda w: w in own, set()))
            if bare.endswith(("}", ";", "]")):
                clause = False
        else:
            lines.append(line)
    return "\n".join(lines)


def edit(path, text, own):
    lines, name = [], ""
    for line in text.split("\n"):
        if line.startswith("file: "):
            name = line[6:].strip()
        m = re.match(r"(old|new): ", line)
        if m:
            head, rest = line[:5], line[5:]
            if name.endswith(".antt"):
                rest = antt(os.path.join("crates", "it", name), rest, own)
            else:
                rest = rust(rest, own)
            line = head + rest
        elif line.startswith("#"):
            line = turn(line, lambda w: w in own and bool(re.search(r"[a-z][A-Z]", w)), set())
        lines.append(line)
    return "\n".join(lines)


def page(text, own):
    return re.sub(r"`[^`\n]*`", lambda it: turn(it.group(0), lambda w: w in own, set()), text)


def main():
    top = "crates"
    if not os.path.isdir(top):
        print("spell: no folder crates here: run it at the top of the repository", file=sys.stderr)
        return 2
    sources = [p for p in walk(top) if p.endswith((".antt", ".rt", ".edit"))]
    theories = [p for p in sources if p.endswith(".antt")]
    own = {w for w in declared(theories) if spelled(w) != w}
    pages = [p for p in ["README.md", "CONTRIBUTING.md", *sorted(os.path.join("docs", n) for n in os.listdir("docs") if n.endswith(".md"))] if os.path.isfile(p)]
    results, together = {}, []
    for p in sources + pages:
        with open(p, encoding="utf-8") as f:
            old = f.read()
        if p.endswith(".antt"):
            new = antt(p, old, own)
        elif p.endswith(".rt"):
            new = rust(old, own)
        elif p.endswith(".edit"):
            new = edit(p, old, own)
        else:
            new = page(old, own)
        if p.endswith(".antt"):
            before = {}
            code = "\n".join(l.partition("-- ")[0] for l in old.split("\n") if not USE.match(l))
            for m in WORD.finditer(code):
                before.setdefault(spelled(m.group(0)), set()).add(m.group(0))
            for name in library_names(old)[0]:
                before.setdefault(name, set()).add(name)
            together += [f"{p}: {sorted(v)}" for v in before.values() if len(v) > 1]
        if new != old:
            results[p] = new
    for line in together:
        print("look: " + line)
    for p, new in results.items():
        with open(p, "w", encoding="utf-8") as f:
            f.write(new)
    print(f"spell: {len(results)} files turned, {len(own)} names of the repository's own, {len(together)} places to look at")
    return 0


if __name__ == "__main__":
    sys.exit(main())

#!/usr/bin/env python3
"""Spells the repository's own definitions and lemmas in snake case, as today's Rattle does.

usage: tools/respell.py        at the top of the repository, once, after /opt/rattle/port/port.py

Every name that a file of specs/ or proofs/ declares and that begins with a small letter is turned: `monthOf` to
`month_of`, `leap-at` to `leap_at`. Types keep their camel case, and so do the labels of goals. Functions of src/,
exported names, strings, inputs and outputs are not touched. Where a lemma and a definition would fall together, the
lemma gets `_lem` behind its name. It turns .antt files, the clauses and `ghost use` lines of .rt files, the texts of
must-fail edits, and names between backticks in comments and in pages.
"""

import collections
import os
import re
import sys

WORD = re.compile(r'[^\s(){}.;,@"«»]+')
DECLARED = re.compile(r"^\s*(?:(?:abbrev|unfoldable|pub|private) )*(" + WORD.pattern + r")(?: \{[^{}\n]*\})* :(?: (.*))?$", re.M)
LABEL = re.compile(r"(?:tie|goal)\.")
IMPORT = re.compile(r"\buse ([^\s;{]+)\.\{([^}]*)\}")
SPAN = re.compile(r"`[^`\n]*`")
# Lemmas that the first script spelled like a definition is spelled now, as it knew of no definition of that name.
LEMMAS = {name: name + "_lem" for name in ("block_in", "all_digits", "all_small", "from_first")}


def files(*endings):
    for top in ("crates", "docs", "README.md"):
        if os.path.isfile(top):
            yield top
        for folder, dirs, names in os.walk(top):
            dirs[:] = sorted(d for d in dirs if d != "out")
            for name in sorted(names):
                if name.endswith(endings):
                    yield os.path.join(folder, name)


def read(path):
    with open(path, encoding="utf-8") as f:
        return f.read()


def snake(name):
    return re.sub(r"(?<=[a-z0-9])[A-Z]", lambda m: "_" + m[0].lower(), name).replace("-", "_")


def is_code(line):
    return not line.lstrip().startswith("--")


def declared():
    """Each declared name that is to be turned, with how it is spelled then."""
    names = collections.defaultdict(set)
    for path in files(".antt"):
        text = "\n".join(l for l in read(path).split("\n") if is_code(l))
        for m in DECLARED.finditer(text):
            if not LABEL.match(m[2] or ""):
                names[m[1]].add(path)
    turned = {n: snake(n) for n in names if n[:1].islower() and snake(n) != n}
    meet = collections.defaultdict(set)
    for n in names:
        meet[turned.get(n, n)].add(n)
    for new, old in sorted(meet.items()):
        if len(old) > 1:
            for n in old:
                if "-" in n:
                    turned[n] = new + "_lem"
    return turned | LEMMAS


def words(text, table, own=True):
    """Turns whole words; a step of a path stays, but for the last."""

    def one(m):
        w = m[0]
        if w in LEMMAS and (text[m.start() - 1 : m.start()] == "." or text[m.end() : m.end() + 1] == "."):
            return w
        return table.get(w, w)

    return WORD.sub(one, text)


def foreign(text, crates):
    """The names that a file takes from a library."""
    found = set()
    for m in IMPORT.finditer(text):
        steps = m[1].split(".")
        if steps[0] != "Rattle" or len(steps) < 2 or steps[1] not in crates:
            found |= {n.split(" as ")[0].strip() for n in m[2].split(",")}
    return found


def spans(text, table):
    return SPAN.sub(lambda m: words(m[0].replace("`", " ` "), table).replace(" ` ", "`"), text)


def antt(text, table):
    out = []
    for line in text.split("\n"):
        at = line.find("--") if re.search(r"(?:^|\s)--(?:\s|$)", line) else -1
        code, comment = (line, "") if at < 0 else (line[:at], line[at:])
        out.append(words(code, table) + spans(comment, table))
    return "\n".join(out)


def blocks(text):
    """Where clauses and ghost items stand in a source file."""
    for m in re.finditer(r"\bghost use [^;]*;|\b(?:requires|ensures)\*?(?: \w+)? \{|\bghost(?: \w+:?)? \{", text):
        end = m.end()
        if text[end - 1] == "{":
            depth = 1
            while depth:
                depth += {"{": 1, "}": -1}.get(text[end], 0)
                end += 1
        yield m.start(), end


def rt(text, table):
    out, at = [], 0
    for start, end in blocks(text):
        if start < at:
            continue
        out += [comments(text[at:start], table), words(text[start:end], table)]
        at = end
    return "".join(out) + comments(text[at:], table)


def comments(text, table):
    return re.sub(r"//[^\n]*", lambda m: spans(m[0], table), text)


def edit(text, table):
    out = []
    of_rt = False
    for line in text.split("\n"):
        if line.startswith("file:"):
            of_rt = line.rstrip().endswith(".rt")
        if line.startswith(("old:", "new:")):
            # In code only a clause has such a name, and a name with a dash would be a difference there.
            shown = {n: s for n, s in table.items() if not of_rt or ("-" not in n and n not in LEMMAS)}
            line = line[:4] + words(line[4:], shown)
        elif line.startswith("#"):
            line = spans(line, table)
        out.append(line)
    return "\n".join(out)


def main():
    if not os.path.isdir("crates"):
        sys.exit("run it at the top of the repository")
    crates = set(os.listdir("crates"))
    table = declared()
    count = 0
    for path in files(".antt", ".rt", ".edit", ".md"):
        text = read(path)
        turn = {"antt": antt, "rt": rt, "edit": edit, "md": spans}[path.rsplit(".", 1)[1]]
        from_elsewhere = foreign(text, crates) if turn in (antt, rt) else set()
        new = turn(text, {n: s for n, s in table.items() if n not in from_elsewhere})
        if new != text:
            count += 1
            with open(path, "w", encoding="utf-8") as f:
                f.write(new)
    print(f"{len(table)} names, {count} files")


if __name__ == "__main__":
    main()

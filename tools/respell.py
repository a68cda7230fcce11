#!/usr/bin/env python3
"""Spells the definitions and lemmas of this repository as Rattle spells its own: words in snake case, types and modules
in camel case, an apostrophe for a prime.

usage: python3 tools/respell.py [--check]

Run once at the top of the repository, right behind the kit's port.py. A name turns if a file of specs/ or proofs/
declares it; a function of src/ keeps its name, and so does a word that a file takes from outside the repository. In
src/ only clauses and `ghost use` lines turn, in docs/ and README only code spans, in edits the texts of definitions.
Where a lemma and a definition would fall together in a file, the definition has the name and the lemma gets `_law`
behind it. It names the places where two names still fall together.
"""
import collections
import os
import re
import sys

WORD = re.compile(r'[^\s(){}.;,@"«»]+')
# A word that is no later step of a path.
UNDOTTED = re.compile(r'(?<![^\s(){};,@"«»])[^\s(){}.;,@"«»]+')
DECLARED = re.compile(
    r"^( *)((?:(?:abbrev|unfoldable|pub|private|opaque|data|record|where)\s+)*)([^\s(){}.;,@\"«»:]+)((?:\s+\{[^{}\n]*\}|\s+\([^()\n]*\))*)\s+:(?= |$)"
)
# The one definition that is a type and was spelled as a word; the book's read, that would meet the event's name; a
# lemma that would meet a lemma of the library.
BY_HAND = {"leftAs": "LeftAs", "asOf": "strip_as_of", "non-neg": "non_neg_law"}
GHOST_USE = re.compile(r"ghost\s+use\b[^;]*;", re.S)
CLAUSE = re.compile(r"\b(?:requires|ensures)\*?\s*(?:\w+\s*)?\{|\bghost\s*(?:\w+\s*(?::\s*)?(?:=\s*)?)?\{")
USE = re.compile(r"^\s*(?:pub )?use ([^\s{]+?)\.?\{([^}]*)\}|^\s*(?:pub )?use (\S+)(?: as (\S+))?\s*$")
KEYWORDS = {"use", "module", "mod", "where", "let", "in", "elim", "as", "unfolding", "record", "data", "pub", "open"}


def snake(name):
    words = re.sub(r"(?<=[a-z0-9₀-₉])[A-Z]", lambda m: "_" + m[0].lower(), name)
    return words.replace("-", "_").replace("′", "'")


def files(root, ending):
    for folder, dirs, names in os.walk(root):
        dirs[:] = sorted(d for d in dirs if d not in ("out", "target", ".git"))
        for name in sorted(names):
            if name.endswith(ending):
                yield os.path.join(folder, name)


def of_a_function(path):
    """Is the file a function's proof? A theory file may be called Answers too: its folder's page names it."""
    folder, name = os.path.split(path)
    if name not in ("Proof.antt", "Answers.antt", "Invariants.antt"):
        return False
    page = folder + ".antt"
    return not (os.path.exists(page) and "mod " + name[:-5] in open(page, encoding="utf-8").read())


def imported(text):
    """The words that a file takes from outside the repository."""
    out = set()
    for line in text.splitlines():
        m = USE.match(line)
        if not m:
            continue
        source = m[1] or m[3]
        steps = source.split(".")
        if steps[0] == "Rattle" and len(steps) > 1 and steps[1] in CRATES:
            # names of source items, which keep their spelling
            if "declared" not in steps:
                continue
        for item in (m[2] or "").split(","):
            out.update(w.strip() for w in item.split(" as "))
    return out


def split_comments(text):
    """The text in pieces (is_code, piece); a comment is a piece of its own."""
    at = 0
    for m in re.finditer(r'--[^\n]*', text):
        if m.start() > 0 and not re.match(r'[\s(){}.;,@"«»]', text[m.start() - 1]):
            continue
        yield True, text[at:m.start()]
        yield False, m[0]
        at = m.end()
    yield True, text[at:]


def meetings(texts, table, outside):
    """The new names that two words of one file would have, each with the files and the words."""
    met = collections.defaultdict(list)
    for path, text in texts.items():
        if of_a_function(path):
            continue
        words = set()
        for is_code, piece in split_comments(text):
            if is_code:
                words |= set(UNDOTTED.findall(piece))
        back = collections.defaultdict(set)
        for w in words:
            back[table.get(w, w) if w not in outside[path] else w].add(w)
        for new, olds in back.items():
            if len(olds) > 1:
                met[new].append((path, olds))
    return met


def main(argv):
    global CRATES
    check = "--check" in argv
    CRATES = set(os.listdir("crates"))
    texts = {p: open(p, encoding="utf-8").read() for p in files("crates", ".antt")}
    declared = collections.defaultdict(set)
    for path, text in texts.items():
        if of_a_function(path):
            continue
        for line in text.splitlines():
            m = DECLARED.match(line)
            if m and m[3] not in KEYWORDS and not m[3].startswith("--"):
                declared[m[3]].add(path)
            m = USE.match(line)
            if m and (m[1] or "").split(".")[:2][-1] in CRATES:
                for item in m[2].split(","):
                    if " as " in item:
                        declared[item.split(" as ")[1].strip()].add(path)
    table = {}
    for name in declared:
        if not re.match(r"[a-z]", name):
            continue
        new = snake(name)
        if new != name and re.fullmatch(r"[\w'≡≢≤∙₀-₉-]+", name):
            table[name] = new
    table.update(BY_HAND)
    outside = {p: imported(t) for p, t in texts.items()}
    met = meetings(texts, table, outside)
    for new, places in met.items():
        olds = set().union(*(o for _, o in places)) & set(declared)
        first = min(olds, key=lambda o: ("-" in o, o == new and any(re.search(r"[A-Z]", x) for x in olds)))
        for old in olds - {first}:
            table[old] = new + "_law"
    met = meetings(texts, table, outside)
    for new, places in sorted(met.items()):
        for path, olds in sorted(places):
            print(f"look: {path}: {', '.join(sorted(olds))} would all read {new}")
    print(f"{len(table)} names turn")

    def turned(piece, leave, steps=False):
        """steps: the text is a function's proof, where a name with a dash behind a dot is Rattle's name of a step."""

        def word(m):
            before = piece[: m.start()]
            if steps and "-" in m[0] and before.endswith("."):
                return m[0]
            if m[0] in leave or re.search(r"(?:Rattle(?:\.[^\s(){}.;,@]+)*|tie|goal)\.$", before[-120:]):
                return m[0]
            return table.get(m[0], m[0])

        return WORD.sub(word, piece)

    def spans(text):
        return re.sub(r"`[^`\n]+`", lambda m: "`" + outer(m[0][1:-1]) + "`", text)

    spelled = {table.get(name, name) for name in declared}

    def outer(piece):
        """A text that port.py does not turn: what it respelled itself turns here too."""
        new = turned(piece, set())
        return WORD.sub(lambda m: snake(m[0]) if re.match("[a-z]", m[0]) and snake(m[0]) in spelled else m[0], new)

    changed = 0

    def write(path, text, new):
        nonlocal changed
        if new != text:
            changed += 1
            if not check:
                with open(path, "w", encoding="utf-8") as f:
                    f.write(new)

    for path, text in texts.items():
        leave = outside[path]
        out = []
        for is_code, piece in split_comments(text):
            out.append(turned(piece, leave, of_a_function(path)))
        write(path, text, "".join(out))
    for path in files("crates", ".rt"):
        text = open(path, encoding="utf-8").read()
        leave = set()
        out, at = [], 0
        places = [(m.start(), m.end()) for m in GHOST_USE.finditer(text)]
        for m in CLAUSE.finditer(text):
            deep, i = 1, m.end()
            while deep and i < len(text):
                deep += (text[i] == "{") - (text[i] == "}")
                i += 1
            places.append((m.end(), i))
        for a, b in sorted(places):
            if a < at:
                continue
            out += [text[at:a], turned(text[a:b], leave)]
            at = b
        out.append(text[at:])
        new = "".join(out)
        new = re.sub(r"//[^\n]*", lambda m: spans(m[0]), new)
        write(path, text, new)
    for path in list(files("docs", ".md")) + ["README.md"] + list(files("bench", ".md")):
        text = open(path, encoding="utf-8").read()
        write(path, text, spans(text))
    # edits: all words of what is replaced turn if the file that it lies in is of specs/
    for path in list(files(".ci", ".edit")) + list(files("crates", ".edit")):
        text = open(path, encoding="utf-8").read()
        lines, antt = [], False
        for line in text.splitlines(keepends=True):
            if line.startswith("file:"):
                antt = line.strip().endswith(".antt")
            if line.startswith(("old:", "new:")):
                if antt or "ensures" in line or "requires" in line:
                    line = outer(line)
            lines.append(line)
        write(path, text, "".join(lines))
    print(f"{changed} files {'would change' if check else 'changed'}")


main(sys.argv[1:])

#!/usr/bin/env python3
"""Brings the names of this repository's definitions, lemmas, fields and constructors to the spelling of today's Rattle.

usage: python3 tools/port-names.py [--list] [--check]      at the top of the repository, after port.py

Each word of a name is in snake case: headAt is head_at. A dash stays between two names, as in
filter-append; before a plain word it is an underscore, as in append_none. A type keeps its capital, as in All-append.
--list prints the table, --check says which names fall together; neither writes. Files: crates/**/*.antt, the .rt files,
the lines of must-fail edits, and the code spans of README.md and docs/*.md. Functions of src/ keep their names:
no name of Rust has a capital inside or a dash, and none is touched.
"""
import os, re, sys, collections

WORD = re.compile(r"[^\s(){}.;,@\"«»λ`]+")
DECLARED = re.compile(r"^ *(?:unfoldable |abbrev )?(?:pub )?(?:abbrev |unfoldable )?(?:data |record )?([^\s(){}.;,@\"«»]+) *(?:\([^)]*\) *|\{[^}]*\} *)*: ", re.M)
FIELD = re.compile(r"^ +([^\s(){}.;,@\"«»]+) : ", re.M)


# words that are also plain words of a name
STOP = set("a at c end fault first from go in is k last met next no of one p place q r step stored tail the to u v which yes".split())

# names that port.py had turned, and that would now be the name of a function
MORE = {"digits_from": "digits_from_lem", "is_field": "field_is"}


def walk(*ends):
    for top, folders, names in os.walk("crates"):
        folders[:] = sorted(f for f in folders if f not in ("out", "data"))
        for name in sorted(names):
            if name.endswith(ends):
                yield os.path.join(top, name)


def read(path):
    with open(path, encoding="utf-8") as f:
        return f.read()


def bare(text):
    """The text without comments."""
    return "\n".join(re.sub(r"(^|\s)--\s.*", "", line) for line in text.split("\n"))


def snake(part):
    if re.match("[A-Z]", part):
        return part
    return re.sub(r"([a-z0-9])([A-Z]+)", lambda m: m[1] + "_" + m[2].lower(), part)


def main():
    declared, words, fields, places = set(), set(), set(), collections.defaultdict(set)
    tokens = collections.Counter()
    for path in walk(".antt"):
        text = bare(read(path))
        for word in WORD.findall(text):
            tokens[word] += 1
        names = set(DECLARED.findall(text))
        for name in names:
            places[name].add(path)
        inner = path.split("/proofs/")[-1].count("/") > 0
        declared |= {name for name in names if not inner or "-" not in name}
        for kind in re.finditer(r"^ *(?:pub )?record [^\n]*where\n((?: +[^\n]*\n|\n)+)", text, re.M):
            fields |= set(FIELD.findall(kind[1]))
        if "/specs/" in path:
            words |= {snake(name) for name in names if "-" not in name}
        for line in re.findall(r"^use ((?!Rattle)[^\n]*)", text, re.M):
            items = re.search(r"\{([^}]*)\}", line)
            words |= {w.strip() for w in items[1].split(",") if "-" not in w and " " not in w.strip()} if items else set()
    words -= STOP

    def turned(name):
        parts = [snake(part) for part in name.split("-")]
        if "" in parts:
            return name
        sentence = not (parts[0] in words or re.match("[A-Z]", parts[0]))
        out = parts[0]
        for part in parts[1:]:
            out += ("-" if not sentence and (part in words or re.match("[A-Z]", part)) else "_") + part
        return out

    table = {name: turned(name) for name in declared if turned(name) != name}
    taken = collections.Counter(table.values())
    for name, new in table.items():
        # a lemma that would have its function's name
        if "-" in name and (taken[new] > 1 or tokens[new]):
            table[name] = new + "_lem"
    table.update(MORE)
    if "--list" in sys.argv:
        for name in sorted(table):
            print(f"{name}\t{table[name]}\t{' '.join(sorted(places[name]))}")
        return
    if "--check" in sys.argv:
        sources = collections.Counter(w for p in walk(".rt") for w in re.findall(r"\w+", read(p)))
        back = collections.defaultdict(list)
        for name in table:
            back[table[name]].append(name)
        for new in sorted(back):
            if len(back[new]) > 1 or tokens[new]:
                print("falls together:", new, back[new], "already:", tokens[new], sorted(places[new])[:3])
        for new in sorted(back):
            if sources[new]:
                print("in a source:", new, back[new], sources[new])
        return

    def replace(text):
        def one(m):
            word, at = m[0], m.start()
            plain = word.rstrip("':,")
            key = word if word in table else plain if plain in table else None
            if key is None:
                return word
            if text[at - 1 : at] == ".":
                head = re.search(r"([^\s(){};,]*)\.$", text[:at])[1]
                if not re.search(r"(^|\.)[A-Z][^.]*$", head) and key not in fields:
                    return word
            return table[key] + word[len(key):]
        return WORD.sub(one, text)

    changed = 0
    for path in list(walk(".antt", ".rt", ".edit")) + ["README.md"] + ["docs/" + n for n in sorted(os.listdir("docs")) if n.endswith(".md") and not n.startswith("PORT")]:
        old = read(path)
        if path.endswith(".md"):
            new = re.sub(r"`[^`\n]+`", lambda m: replace(m[0]), old)
        else:
            new = replace(old)
        if new != old:
            changed += 1
            with open(path, "w", encoding="utf-8") as f:
                f.write(new)
    print(f"{len(table)} names, {changed} files")


main()

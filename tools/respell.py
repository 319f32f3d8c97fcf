#!/usr/bin/env python3
"""Brings the repository's own names in specs/ and proofs/ to the spelling of today's Rattle.

usage: tools/respell.py            at the top of the repository: rewrites the files in place and prints what it renames
       tools/respell.py --list     prints it alone

Run once, on the tree that the kit's port.py left. Definitions, constructors and locals in camel case, and lemmas with
dashes, get underscores; types, modules, functions of src/, goals' names and exported names stay. In comments and pages only
what stands in backticks is turned.
"""
import collections
import glob
import re
import sys

TOKEN = re.compile(r"[^\s(){}\[\],;.λ«»→×|@`\"]+")
DEFINED = re.compile(r"(?:(?:unfoldable|abbrev|pub)\s+)*(data |record |ruleset |mutual )?([^\s:(){}]+)\s+(?:[({].*)?:(?:\s|$)")
FIELD = re.compile(r"  +(?:pub )?([^\s:(){}]+) : ")
BOUND = re.compile(r"let ([\w'-]+)|[({]([\w' -]+) : |λ ([\w' -]+)\.")
# Parts of the names that Rattle makes for goals; a name of the repository's own with a dash never is one of these.
GOALS = re.compile(r"^(returns|loop|overflow|in|if|then|else|decreases|invariant|array|slice|Need)-|-(requires|ensures|init|preserved|smaller)(-\d+)?$")


def snake(name):
    name = re.sub(r"(?<=[a-z0-9])(?=[A-Z])", "_", name)
    return name.lower()


def read(path):
    with open(path, encoding="utf-8") as file:
        return file.read()


def code_of(line):
    """The code of a line of antt, without its comment."""
    return re.split(r"(?:^|\s)--(?=\s|$)", line)[0]


def lemma_files():
    return sorted(glob.glob("crates/*/specs/*.antt") + glob.glob("crates/*/proofs/*.antt"))


def answer_files():
    return sorted(set(glob.glob("crates/*/proofs/**/*.antt", recursive=True)) - set(lemma_files()))


def names():
    """What is renamed: old name to new."""
    defined, camel, bound, goals = set(), set(), set(), set()
    for path in lemma_files() + answer_files():
        answers = path in answer_files()
        for line in read(path).splitlines():
            code = code_of(line)
            if code.startswith("use "):
                continue
            top = DEFINED.match(code)
            if top and not code.startswith(" "):
                (goals if answers and ": tie." in code else defined).add(top[2])
            field = FIELD.match(code)
            if field and not answers:
                defined.add(field[1])
            for token in TOKEN.findall(code):
                if re.search(r"[a-z0-9][A-Z]", token) and re.fullmatch(r"[a-z][\w']*", token):
                    camel.add(token)
            for found in BOUND.finditer(code):
                bound |= {t for part in found.groups() if part for t in part.split() if "-" in t}
    turned = {}
    for name in camel:
        turned[name] = snake(name)
    functions = set(turned.values()) | {name for name in defined if "-" not in name}
    for name in defined | bound:
        if re.fullmatch(r"[a-z][\w'-]*", name) and "-" in name and name not in goals:
            new = snake(name.replace("getD", "get_or").replace("-", "_"))
            turned[name] = new + "_lem" if new in functions else new
    return turned, goals


def turned_code(text, turned):
    return TOKEN.sub(lambda token: turned.get(token[0], token[0]), text)


def turned_quotes(text, turned):
    return re.sub(r"`[^`\n]+`", lambda quoted: turned_code(quoted[0], turned), text)


def turned_antt(text, turned):
    lines = []
    for line in text.split("\n"):
        code = code_of(line)
        lines.append(turned_code(code, turned) + turned_quotes(line[len(code):], turned))
    return "\n".join(lines)


def turned_source(text, turned):
    """Of a source file, clauses, ghost items and what stands in backticks of comments."""
    lines = []
    for line in text.split("\n"):
        comment = line.find("//")
        code, rest = (line, "") if comment < 0 else (line[:comment], line[comment:])
        lines.append(turned_code(code, turned) + turned_quotes(rest, turned))
    return "\n".join(lines)


def main():
    turned, goals = names()
    kept = sorted(name for name in goals if name in turned)
    tokens = collections.Counter()
    for path in lemma_files() + answer_files():
        for line in read(path).splitlines():
            tokens.update(TOKEN.findall(code_of(line)))
    for old, new in sorted(turned.items()):
        note = ""
        if tokens[new]:
            note = "   (stands already)"
        if sum(1 for other in turned.values() if other == new) > 1:
            note += "   (two fall together)"
        print(f"{old} -> {new}{note}")
    for name in kept:
        print(f"an answer has the name of a lemma: {name}")
    if "--list" in sys.argv:
        return
    camel = {old: new for old, new in turned.items() if "-" not in old}
    for path in lemma_files() + answer_files() + sorted(glob.glob("crates/*/counterexamples/*.proof")):
        rewrite(path, turned_antt, turned)
    for path in sorted(glob.glob("crates/*/src/**/*.rt", recursive=True)):
        rewrite(path, turned_source, camel)
    for path in sorted(glob.glob("crates/*/must-fail/*.edit") + glob.glob("crates/*/edits/*.edit")):
        rewrite(path, turned_edit, turned)
    for path in ["README.md"] + sorted(glob.glob("docs/**/*.md", recursive=True)):
        rewrite(path, turned_quotes, turned)


def turned_edit(text, turned):
    lines = []
    for line in text.split("\n"):
        if line.startswith(("old: ", "new: ")):
            line = line[:5] + turned_antt(line[5:], turned)
        lines.append(line)
    return "\n".join(lines)


def brought_in(text, own):
    """Names that a file takes from the library: they stay."""
    found = set()
    for use in re.finditer(r"^use ([\w.·]+)\.\{([^}]*)\}", text, re.MULTILINE):
        if not (use[1].startswith("Rattle.") and use[1].split(".")[1] in own):
            found |= {part.split(" as ")[0].strip() for part in use[2].split(",")}
    return found


def rewrite(path, turn, turned):
    before = read(path)
    own = {crate.split("/")[1] for crate in glob.glob("crates/*")}
    kept = brought_in(before, own)
    after = turn(before, {old: new for old, new in turned.items() if old not in kept})
    if after != before:
        with open(path, "w", encoding="utf-8") as file:
            file.write(after)


if __name__ == "__main__":
    main()

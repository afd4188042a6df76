#!/usr/bin/env python3
"""Spells the repository's own definitions and lemmas by the rules of Rattle's CONTRACT_STYLE.md, "Names".

usage: tools/spelling.py [--map FILE] [--check]

Run it once, at the top of a repository that port.py has turned. Words are in snake case, types and facts keep their capitals, a dash
joins two names, and a plain word is added with an underscore. FILE gets a line for each name: old, a tab, new.
"""
import collections
import glob
import os
import re
import sys

KIT = "/opt/rattle"
NAME = r"[^\s(){}\[\];,.@\"⌜⌝λ`]+"
DECLARED = re.compile(r"^(\s*)((?:abbrev |unfoldable |pub |record |data |mutual )*)(" + NAME + r")((?: " + NAME + r")*) :(?= |$)")
FIXED = {"A", "B"}
# Names that Rattle makes, or that its tactics and proof files give a meaning.
MADE = re.compile(r"^(loop|returns|invariant|decreases|overflow|if|then|else|in_|arm|match|statement|proof|needs?|Need|Start|enum[-_]told|.*-requires)(-|$|\d)")


def shared_files():
    return sorted(glob.glob("crates/*/specs/*.antt") + glob.glob("crates/*/proofs/*.antt"))


def proof_files():
    return sorted(f for f in glob.glob("crates/*/proofs/**/*.antt", recursive=True) if f.count("/") > 3)


def declared(files):
    found = collections.defaultdict(list)
    for path in files:
        for line in open(path, encoding="utf-8"):
            if line.lstrip().startswith("--"):
                continue
            m = DECLARED.match(line)
            if m:
                for name in [m[3]] + m[4].split():
                    found[name].append((path, len(m[1])))
    return found


def snake(segment):
    if not re.search(r"[a-z0-9'][A-Z]", segment) or segment[:1].isupper():
        return segment
    s = re.sub(r"(?<=[a-z0-9'])(?=[A-Z])", "_", segment)
    return s.lower()


def kit_names():
    names = set()
    for path in glob.glob(KIT + "/rattle/logic/**/*.antt", recursive=True) + glob.glob(KIT + "/rattle/std*/**/*.antt", recursive=True) + glob.glob(KIT + "/rattle/core/**/*.antt", recursive=True):
        try:
            for line in open(path, encoding="utf-8"):
                m = DECLARED.match(line)
                if m:
                    names.update([m[3]] + m[4].split())
        except UnicodeDecodeError:
            pass
    return names


def rename_map():
    shared, local = declared(shared_files()), declared(proof_files())
    kit = kit_names()
    every = set(shared) | set(local)
    words = {n for n in shared if "-" not in n} | {n for n in kit if "-" not in n}
    words |= {snake(n) for n in words}

    def is_name(segment):
        return segment in words or not re.match(r"^[A-Za-z]", segment)

    def spelled(name):
        parts = [p for p in re.split(r"(-)", name)]
        if parts[0] == "" or "" in (p for p in parts if p != "-"):
            return name
        segments = [snake(p) for p in parts[::2]]
        text = segments[0]
        for before, after in zip(segments, segments[1:]):
            joins = is_name(before) and is_name(after)
            text += ("-" if joins else "_") + after
        return text

    turned = {}
    for name in sorted(shared):
        if name in kit or MADE.match(name) or name in FIXED:
            continue
        new = spelled(name)
        if new != name:
            turned[name] = new
    for name in sorted(local):
        if name in kit or name in turned or name in shared or MADE.match(name) or "-" in name:
            continue
        new = snake(name)
        if new != name:
            turned[name] = new
    # Where two names fall together, the definition keeps the plain name, and the lemma gets _lem.
    made = {}
    for old, new in turned.items():
        if "-" not in old:
            made.setdefault(new, old)
    lemmas = {}
    for old, new in sorted(turned.items()):
        at_top = [path for path, indent in shared.get(new, []) if indent == 0]
        if "-" in old and (new in made or at_top or new in kit or new in local):
            plain = "-".join(snake(p) for p in old.split("-"))
            turned[old] = new + "_lem" if new in made else plain
            print(f"falls together: {old} -> {new}, so {turned[old]}")
        elif "-" not in old and at_top:
            for path in at_top:
                lemmas[(path, new)] = new + "_lem"
                print(f"falls together: {old} -> {new}, so the lemma of {path} is {new}_lem")
    return {o: n for o, n in turned.items() if o != n}, shared, lemmas


def turn_text(text, turned, fields, in_folder):
    def token(m, start_text):
        name = m.group(0)
        new = turned.get(name)
        if new is None:
            return name
        before = start_text[:m.start()]
        if in_folder and before.endswith(".") and name not in fields:
            owner = re.search(r"([^\s(){}\[\];,.@\"]+)\.$", before)
            if owner and not owner.group(1)[:1].isupper():
                return name
        return new

    word = re.compile(NAME)
    return word.sub(lambda m: token(m, text), text)


def turn_comment(text, turned):
    # In prose only names that are no English words: those with a capital inside. In backquotes all.
    text = re.sub(r"`[^`]*`", lambda m: turn_text(m.group(0), turned, set(), False), text)
    camel = {o: n for o, n in turned.items() if re.search(r"[a-z0-9][A-Z]", o)}
    return turn_text(text, camel, set(), False)


def split_comment(line, mark):
    at = -1
    quoted = False
    for i in range(len(line) - 1):
        if line[i] == '"':
            quoted = not quoted
        if not quoted and line.startswith(mark, i) and (i == 0 or line[i - 1] == " "):
            at = i
            break
    return (line, "") if at < 0 else (line[:at], line[at:])


def turn_file(path, turned, fields):
    text = open(path, encoding="utf-8").read()
    mark = "//" if path.endswith(".rt") else "--"
    in_folder = path.endswith(".antt") and path.count("/") > 3
    out = []
    for line in text.split("\n"):
        code, comment = split_comment(line, mark)
        if path.endswith(".edit"):
            code, comment = line, ""
        if path.endswith(".rt"):
            code = "".join(part if i % 2 else turn_text(part, turned, fields, False) for i, part in enumerate(re.split(r'("(?:[^"\\]|\\.)*")', code)))
        else:
            code = turn_text(code, turned, fields, in_folder)
        out.append(code + (turn_comment(comment, turned) if comment else ""))
    new = "\n".join(out)
    if new != text:
        open(path, "w", encoding="utf-8").write(new)
        return True
    return False


def turn_lemmas(lemmas):
    """Renames a lemma in the file that declares it and in those that import it from there."""
    for (path, old), new in sorted(lemmas.items()):
        module = path.split("/")[3][:-len(".antt")]
        users = re.compile(r"use [^\n]*\b" + module + r"\.\{[^}\n]*(?<![^\s{,])" + re.escape(old) + r"(?![^\s},])")
        for other in shared_files() + proof_files():
            text = open(other, encoding="utf-8").read()
            if other == path or users.search(text):
                turned = "\n".join(turn_text(line, {old: new}, set(), True) for line in text.split("\n"))
                open(other, "w", encoding="utf-8").write(turned)


def main(args):
    turned, shared, lemmas = rename_map()
    fields = {n for n, places in shared.items() if any(indent > 0 for _, indent in places)}
    if "--map" in args:
        with open(args[args.index("--map") + 1], "w", encoding="utf-8") as f:
            f.writelines(f"{o}\t{n}\n" for o, n in sorted(turned.items()))
    if "--check" in args:
        return
    turn_lemmas(lemmas)
    changed = 0
    for path in shared_files() + proof_files() + sorted(glob.glob("crates/*/src/*.rt")) + sorted(glob.glob("crates/*/must-fail/*.edit")):
        changed += turn_file(path, turned, fields)
    print(f"{len(turned)} names, {changed} files")


if __name__ == "__main__":
    main(sys.argv[1:])

#!/usr/bin/env python3
"""Brings the names of definitions and lemmas to one spelling: snake case, with a dash only between two names.

Run once, at the top of the repository, after the toolchain's own port. It goes over specs/, proofs/, the clauses in src/ and the
must-fail edits. Names from Rust source, types and names of the toolchain's libraries stay as they are. It stops where two names
would become one.
"""
import collections
import glob
import re
import sys

TOKEN = re.compile(r"[^\s(){}\[\].,;:λ\"`]+")
CAMEL = re.compile(r"^[a-z][\w']*[A-Z][\w']*$")
DECLARED = re.compile(r"^[ ]*(?:let )?((?:abbrev |unfoldable |pub |data |record )*)([^\s(){}.,;:\[\]λ]+)(?: [^:=\n]*)? :(?: |$)", re.M)
IMPORT = re.compile(r"^\s*(?:pub |ghost )?use ([^\s{]+?)(?:\.\{([^}]*)\})?(?: as ([^\s;]+))?;?\s*$", re.M)
GOAL = re.compile(r"^(?:pub )?(\S+) : (?:tie\.Need-|goal\.|given\.)", re.M)
# names of the libraries' own functions, between which and one of ours a dash stays
LIBRARY = set("append replicate length map drop set cond concat filter fold get_or".split())


# there the old bearer of the name is a field of what a proof may cite
FIELDS = {"entry_of"}
# a fact, spelled as a type, and two lemmas that would have the name of what they are about
GIVEN = {"pushFits": "PushFits", "newest-tail-in-range": "newest_tail_in_range_lem", "thief-stays": "thief_stays_lem"}
# a variable that would hide a definition
HIDING = {
    "crates/properties/proofs/CallLength.antt": ("no_call", "no_call_is"),
}


def code(text):
    """Without comments and strings."""
    return re.sub(r'(--|//).*|"[^"]*"', "", text)


def snake(word):
    word = re.sub(r"([a-z0-9'])([A-Z])", r"\1_\2", word)
    return re.sub(r"([A-Z])([A-Z][a-z])", r"\1_\2", word).lower()


def gather(files):
    declared, goals, foreign, words = set(), set(), set(), set()
    for path in files:
        text = code(open(path, encoding="utf-8").read())
        goals.update(GOAL.findall(text))
        for _, name in DECLARED.findall(text):
            declared.add(name)
            if "/specs/" in path:
                words.add(name)
        declared.update(re.findall(r" as ([a-z]\w*[A-Z]\w*)", text))
        for module, names, _ in IMPORT.findall(text):
            own = re.match(r"Rattle\.(\w+)\.", module)
            if names and not (own and own[1] in OWN):
                foreign.update(n.strip() for n in names.split(","))
    return declared, goals, foreign, words


def respelled(name, words):
    if name.endswith("-spec"):
        return name.replace("-", "_")
    parts = name.split("-")
    out = snake(parts[0]) if CAMEL.match(parts[0]) else parts[0]
    before = parts[0]
    for part in parts[1:]:
        both = all(w in LIBRARY or w in words and (CAMEL.match(w) or "_" in w) for w in (before, part))
        out += ("-" if both else "_") + (snake(part) if CAMEL.match(part) else part)
        before = part
    return out


OWN = {p.split("/")[1] for p in glob.glob("crates/*/")}
ANTT = sorted(glob.glob("crates/*/specs/**/*.antt", recursive=True) + glob.glob("crates/*/proofs/**/*.antt", recursive=True))


def renames():
    declared, goals, foreign, words = gather(ANTT)
    wanted = {}
    for name in declared - goals - foreign:
        if re.match(r"^(loop|returns|in_|in-|if|Need)-?\d*$", name) or re.search(r"-requires(-\d+)?$|^returns-|^loop-", name):
            continue
        if re.match(r"^[a-z₀-₉ℕ]", name) and ("-" in name or CAMEL.match(name)):
            new = respelled(name, words)
            if new != name:
                wanted[name] = new
    wanted.update({old: new for old, new in GIVEN.items() if old in declared})
    # a lemma that would have the name of a definition is told from it by `_lem`
    for old in sorted(declared - words - goals - foreign):
        new = wanted.get(old, old)
        if new in words or new in {wanted[w] for w in words if w in wanted}:
            wanted[old] = new + "_lem"
    clashes = collections.defaultdict(set)
    for old, new in wanted.items():
        clashes[new].add(old)
        if (new in declared or new in foreign) and new not in wanted:
            clashes[new].add(new)
    together = {}
    for path in ANTT:
        text = code(open(path, encoding="utf-8").read())
        tokens = set(TOKEN.findall(text))
        for old in tokens & set(wanted):
            if wanted[old] in tokens - set(wanted) - {part for m in IMPORT.findall(text) for part in m[0].split(".")}:
                together.setdefault(wanted[old], {old, wanted[old]}).add(path)
        for new, olds in clashes.items():
            if len(olds & tokens) > 1:
                together.setdefault(new, set(olds)).add(path)
    return wanted, {n: o for n, o in together.items() if n not in FIELDS}


def main():
    for path, (old, new) in HIDING.items():
        text = open(path, encoding="utf-8").read()
        open(path, "w", encoding="utf-8").write(TOKEN.sub(lambda m: new if m[0] == old else m[0], text))
    wanted, clashes = renames()
    if "--list" in sys.argv:
        for old, new in sorted(wanted.items()):
            print(old, new)
    if clashes:
        for new, olds in sorted(clashes.items()):
            print("falls together:", new, sorted(olds))
        if "--list" in sys.argv:
            return
        sys.exit(1)
    if "--list" in sys.argv:
        return
    swap = lambda m: wanted.get(m[0], m[0])
    for path in ANTT:
        lines = open(path, encoding="utf-8").read().split("\n")
        new = []
        for line in lines:
            head, dash, comment = line.partition("--") if re.search(r"(^|\s)--", line) else (line, "", "")
            comment = re.sub(r"`([^`]*)`", lambda m: "`" + TOKEN.sub(swap, m[1]) + "`", comment)
            new.append(TOKEN.sub(swap, head) + dash + comment)
        open(path, "w", encoding="utf-8").write("\n".join(new))
    for path in glob.glob("crates/*/src/*.rt"):
        lines = open(path, encoding="utf-8").read().split("\n")
        new = []
        for line in lines:
            head, slashes, comment = line.partition("//")
            # a name that is in snake case already is Rust's own there
            new.append(re.sub(r'"[^"]*"|' + TOKEN.pattern, lambda m: swap(m) if "-" in m[0] or CAMEL.match(m[0]) else m[0], head) + slashes + comment)
        open(path, "w", encoding="utf-8").write("\n".join(new))
    for path in glob.glob("crates/*/must-fail/*.edit"):
        lines = open(path, encoding="utf-8").read().split("\n")
        new = []
        for line in lines:
            if line.startswith(("old: ", "new: ")):
                line = re.sub(r"\((\w+) ((?:\.[\w-]+ ?)+)\)", lambda m: m[1] + m[2].replace(" ", ""), line)
                line = line[:5] + TOKEN.sub(lambda m: wanted.get(m[0], snake(m[0]) if CAMEL.match(m[0]) else m[0]), line[5:])
            new.append(line)
        open(path, "w", encoding="utf-8").write("\n".join(new))


if __name__ == "__main__":
    main()

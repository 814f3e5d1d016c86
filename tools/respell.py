#!/usr/bin/env python3
"""Respells the repository's own definitions, lemmas, fields and constructors in snake case, as Rattle's library spells its own.

usage: python3 tools/respell.py          in the repository, right after port.py: rewrites crates/*/{src,specs,proofs}
       python3 tools/respell.py --look   says what it would rename, and which names fall together, and writes nothing

Types and modules keep their camel case. Strings, comments, Rust's own code and names of the library stay; in comments a name
between backticks follows. TAKEN has the names whose plain respelling is another name already.
"""

import collections
import os
import re
import sys

# old name: new name, where snake case alone would meet another name, or where port.py left two halves of one name. As in Rattle's
# library, a lemma that would have its function's name gets `_lem`.
LEMMAS = (
    "adds-by class-fits class-of crew-run depth-at enter-row entered-row is-class is-less is-node made-nodes relation-kind shut-token "
    "some-begins taken-number tree-at typed-refusal typed-text whole-table"
)
TAKEN = {n: n.replace("-", "_") + "_lem" for n in LEMMAS.split()}
TAKEN |= {"bit-or": "bit_of_or", "bit-xor": "bit_of_xor", "bit_not": "bit_of_not", "orElse": "or_else"}
TAKEN |= {"Demand-3": "Demand3", "TypedDemand-3": "TypedDemand3", "no_Node": "no_node"}
# the same in one file alone
HERE = {
    "crates/rules/proofs/CodeLaws.antt": ["fields_fit", "whole_code"],
    "crates/rules/proofs/DigitLaws.antt": ["digit_value"],
    "crates/rule/proofs/EndLaws.antt": ["left_over", "none_open"],
    "crates/rule/proofs/EnterLaws.antt": ["number-at"],
    "crates/tokens/proofs/QuickLaws.antt": ["word_fits"],
}

NAME = r"[^\s(){}\[\];,.:λ→×⊎≡\"`]+"
TOKEN = re.compile(r"(?<![^\s(){}\[\];,.:λ→×⊎≡\"`])" + NAME)
SIGNATURE = re.compile(r"^(\s*)((?:abbrev |unfoldable |pub |private |infix[lr]? \d+ )*)(" + NAME + r"(?: " + NAME + r")*) :( |$)")
LIBRARY = re.compile(r"^\s*(?:ghost )?use ([^\s{;]+?)\.\{([^}]*)\}")


def snake(name):
    bare = name.replace("◌", "")
    if not re.search(r"[A-Za-z]", bare):
        return name
    new = re.sub(r"(?<=[^\W\d_])-(?=\w)|(?<=[\w'₀-₉])-(?=\w)", "_", name)
    if not re.match(r"◌?[A-Z]", new):
        new = re.sub(r"(?<=[a-z0-9₀-₉'])([A-Z])", lambda m: "_" + m.group(1).lower(), new)
    return new


def files():
    for folder, dirs, names in os.walk("crates"):
        dirs[:] = sorted(d for d in dirs if d != "out")
        for n in sorted(names):
            if n.endswith((".rt", ".antt")):
                yield os.path.join(folder, n)


def code_parts(path, text):
    """The text cut into (is code, part)."""
    comment = r"//[^\n]*" if path.endswith(".rt") else r"--[ \n][^\n]*|--$"
    rule = re.compile(r"(b?\"(?:[^\"\\]|\\.)*\"|(?:(?<=\s)|^)(?:" + comment + "))", re.M)
    at = 0
    for m in rule.finditer(text):
        yield True, text[at:m.start()]
        yield False, m.group(0)
        at = m.end()
    yield True, text[at:]


def own_crates():
    with open("crates.txt") as f:
        return {l.split(":")[0].strip() for l in f if ":" in l and not l.startswith("#")}


def declared(path, text):
    """The names that a proof or specs file declares, but for goals."""
    names, fields = set(), set()
    inside = None
    for line in text.split("\n"):
        m = re.match(r"^(\s*)(?:pub )?(record|data)\b", line)
        if m:
            inside = len(m.group(1))
        elif line.strip() and inside is not None and len(line) - len(line.lstrip()) <= inside:
            inside = None
        s = SIGNATURE.match(line)
        if s and not s.group(3).startswith(("use ", "module ", "record ", "data ", "open ", "let ", "-- ")) and not re.search(r"[=↦∙|]", s.group(3)):
            rest = line[s.end(3) + 2:].strip()
            if re.match(r"tie\.", rest) and "/proofs/" in path:
                continue
            for n in s.group(3).split():
                if n in ("let", "in", "pub"):
                    continue
                names.add(n)
                if inside is not None:
                    fields.add(n)
    return names, fields


def main(argv):
    own = own_crates()
    texts = {p: open(p, encoding="utf-8").read() for p in files()}
    names, fields = set(), set()
    for p, t in texts.items():
        if p.endswith(".antt"):
            a, b = declared(p, t)
            names |= a
            fields |= b
    turn = {}
    for n in sorted(names):
        new = TAKEN.get(n, snake(n))
        if new != n:
            turn[n] = new
            if "◌" in n:
                turn[n.replace("◌", "")] = new.replace("◌", "")
    turn.update(TAKEN)
    together = collections.defaultdict(set)
    for a, b in turn.items():
        together[b].add(a)
    say = []
    changed = 0
    for p, t in texts.items():
        kept = set()
        for line in re.sub(r"\{[^}]*\}", lambda m: m.group(0).replace("\n", " "), t).split("\n"):
            m = LIBRARY.match(line)
            if m and m.group(2):
                parts = m.group(1).split(".")
                if not (parts[0] == "Rattle" and len(parts) > 1 and parts[1] in own):
                    kept |= {x.split(" as ")[-1].strip() for x in m.group(2).split(",")}
        kept |= {x.replace("◌", "") for x in kept if "◌" in x}
        before = set()
        out = []

        def one(m):
            n = m.group(0)
            start = m.start()
            if n in HERE.get(p, ()):
                used.add((n, snake(n) + "_lem"))
                return snake(n) + "_lem"
            before.add(n)
            behind = m.string[start - 1:start] == "."
            if n not in turn or (n in kept and not behind):
                return n
            if behind and n not in fields and not module_path(m.string, start):
                return n
            used.add((n, turn[n]))
            return turn[n]

        used = set()
        for is_code, part in code_parts(p, t):
            if is_code:
                out.append(TOKEN.sub(one, part))
            else:
                if part.startswith(("--", "//")):
                    part = re.sub(r"`([^`\s]+)`", lambda m: "`" + ".".join(turn.get(x, x) for x in m.group(1).split(".")) + "`", part)
                out.append(part)
        new = "".join(out)
        for a, b in sorted(used):
            if b in before and a != b:
                say.append(f"{p}: {a} becomes {b}, which stands there")
            others = [x for x in together[b] if x != a and x in before and (x, b) in used]
            if others and a < min(others):
                say.append(f"{p}: {a} and {', '.join(others)} become {b}")
        if new != t:
            changed += 1
            if "--look" not in argv:
                with open(p, "w", encoding="utf-8") as f:
                    f.write(new)
    print("\n".join(say))
    print(f"respell: {len(turn)} names, {changed} files, {len(say)} to look at")
    if "--look" in argv:
        for b, olds in sorted(together.items()):
            if len(olds) > 1:
                print("fall together:", b, sorted(olds))
    if "--names" in argv:
        for a, b in sorted(turn.items()):
            print(a, b)


def module_path(text, at):
    """Whether the name at `at` stands in a path of modules, as Rattle.x.specs.Y.name."""
    head = re.search(r"[^\s({]*$", text[:at]).group(0)
    return head.startswith("Rattle.") or bool(re.match(r"[A-Z]\w*\.$", head))


if __name__ == "__main__":
    main(sys.argv[1:])

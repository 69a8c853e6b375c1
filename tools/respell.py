#!/usr/bin/env python3
"""Spells the names of definitions, lemmas, fields and variables in specs/, proofs/ and clauses as the installed Rattle spells its own.

  tools/respell.py            at the top of the repository: rewrites the files in place
  tools/respell.py --list     only lists the names, old and new, and those that would fall together

Types and facts are in upper camel case, everything else in snake case; a dash stays where it joins two functions' names, as in bit-packed,
and in names that the library or the checker makes. It goes by text and proves nothing. What is spelled so already is left alone.
"""
import collections
import os
import re
import sys

# lemmas about a call of one function at a call of another
KEPT = {"bit-and", "bit-not", "bit-or", "bit-packed", "bit-pow", "bit-suc", "bit-zero"}
# names that an earlier script spelled as if the second part were no function
MENDED = {"bit_not": "bit-not"}
# names of the library
FOREIGN = re.compile(
    r"(AllWithin|Decides|IfOk|add|and|or|not|cond|div|mod|mul|eq|eqb|le|leb|lt|ltb|get_or|length|map|pow|set|shr|sum_by|sub|zero|suc|take|drop|append)-"
    r"(upto|and|at|below_or|by_or|eqb|ltb|not|or|like|from_err|weaker|one|false|true|eq_of_lt|mul|mul-add|add|leb|append_right|drop|map-range_with_len"
    r"|range_with_len_more|replicate|set_other|set_same|take|set|suc|zero|shr|lt|add-lt|cons|append|mod_of_lt|one_shl|lt-suc)$"
)
WORD = re.compile(r"(?<![\w'.·◌-])[^\W\d][\w'₀-₉]*(?:-[\w'₀-₉]+)*(?![\w'-])")
FIELD = re.compile(r"(?<=\.)[^\W\d][\w'₀-₉]*(?:-[\w'₀-₉]+)+(?![\w'-])")


def files():
    for top, dirs, names in os.walk("crates"):
        dirs[:] = sorted(d for d in dirs if d != "out")
        for name in sorted(names):
            if name.endswith((".rt", ".antt")):
                yield os.path.join(top, name)


def code(line, mark):
    """A line, parted into what is text of the language and its comment."""
    at = line.find(mark)
    return (line, "") if at < 0 else (line[:at], line[at:])


def clause_lines(text):
    """The numbers of the lines of a source file that hold ghost text."""
    return {i for i, line in enumerate(text.split("\n")) if re.match(r"\s*(pub )?(ghost|requires|ensures)\b", line)}


def generated(texts):
    """The names of goals that the checker makes: what an answer or an invariant gives."""
    made = set()
    for path, text in texts.items():
        if path.endswith(("Answers.antt", "Invariants.antt", "Proof.antt")):
            made |= set(re.findall(r"^(?:abbrev )?(?:pub )?(?:abbrev )?(\S+) : goal\.", text, re.M))
            made |= set(re.findall(r"\bgoal\.([\w'-]+)", text))
    return made


def defined(texts):
    names = set()
    for path, text in texts.items():
        if path.endswith(".antt"):
            bare = re.sub(r"--.*", "", text)
            names |= set(re.findall(r"^\s*(?:abbrev |unfoldable |pub )*([^\s:({]+) :", bare, re.M))
            names |= set(re.findall(r"^\s*(?:abbrev |unfoldable |pub )*(?:record|data) ([^\s:({]+)", bare, re.M))
    return names


def respelled(name):
    if name in MENDED:
        return MENDED[name]
    if name in KEPT or "-" not in name:
        return name
    if name[0].isupper():
        return "".join(part[0].upper() + part[1:] for part in name.split("-"))
    return name.replace("-", "_")


def main():
    texts = {p: open(p, encoding="utf-8").read() for p in files()}
    made, own = generated(texts), defined(texts)
    labels = set()
    for path, text in texts.items():
        if path.endswith(".rt"):
            labels |= set(re.findall(r"\b(?:ensures|requires) (\w+) \{", text)) | set(re.findall(r"\bghost (\w+)\b", text))
    seen, used = set(), collections.Counter()
    for path, text in texts.items():
        if path.endswith(".antt"):
            for line in text.split("\n"):
                for found in WORD.findall(code(line, "--")[0]):
                    used[found] += 1
                    if "-" in found and not FOREIGN.match(found):
                        seen.add(found)
    # a step of a proof, as `c.then-p-n`, is a name that the checker makes; a variable is not
    steps = re.compile(r"(then|else|in|loop|if|match|returns|bounds|overflow|invariant|decreases|nonzero|slice|offset)-")
    names = {
        n: respelled(n)
        for n in sorted(seen | (set(MENDED) & own))
        if n not in made and (n in own or n.replace("-", "_") in labels or not steps.match(n))
    }
    names = {old: new for old, new in names.items() if old != new}
    together = collections.defaultdict(set)
    for old, new in names.items():
        together[new].add(old)
        if new in used or new in own:
            together[new].add(new)
    for new, olds in sorted(together.items()):
        if len(olds) > 1:
            print("fall together:", new, sorted(olds))
    if "--list" in sys.argv:
        for old, new in names.items():
            print(old, new)
        return
    fields = {old: new for old, new in names.items()}
    for path, text in texts.items():
        source = path.endswith(".rt")
        mark, wanted = ("//", clause_lines(text)) if source else ("--", None)
        lines = text.split("\n")
        for i, line in enumerate(lines):
            if wanted is not None and i not in wanted:
                continue
            body, comment = code(line, mark)
            body = WORD.sub(lambda m: names.get(m.group(), m.group()), body)
            body = FIELD.sub(lambda m: fields.get(m.group(), m.group()), body)
            lines[i] = body + comment
        after = "\n".join(lines)
        if after != text:
            with open(path, "w", encoding="utf-8") as out:
                out.write(after)


main()

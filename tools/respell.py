#!/usr/bin/env python3
"""Respells the repository's own names of specifications and lemmas: words in snake case, types and modules as they are.

usage: respell.py [--list]      at the top of the repository, once, right after the toolchain's own script for older repositories

A name that specs/ or a lemma file of proofs/ declares changes as follows: a dash and a capital inside it become an underscore,
and a decider `p?` is called `dec_p`. Where a lemma would then have the name of a definition, it gets `_lem` (LEMMAS below).
Functions, types, strings and comments of src/ keep theirs. --list prints the renamings and changes nothing.
"""

import collections
import glob
import re
import sys

NAME = r"[^\s(){}.;,@\"«»\[\]\\]+"
TOKEN = re.compile(r"--[^\n]*|\"(?:[^\"\\]|\\.)*\"|" + NAME)
HEAD = re.compile(r"\s*(?:(?:abbrev|unfoldable|pub|data|record|where)\s+)*(" + NAME + r")((?:\s*[({][^:]*:[^)}]*[)}])*)\s*:\s")

# Lemmas whose new name would be that of a definition.
LEMMAS = {
    n: n.replace("-", "_") + "_lem"
    for n in (
        "entry-bytes example-weights first-covers hop-action hop-row key-of line-from link-of not-later number_digits refusal-of response-of "
        "runs_to same-list same-value set-from taken-value"
    ).split()
}
# Names that would fall together with a field, a lemma or a name of the library, and one of the library's.
OTHER = {
    "leaderPlan": "leader_plan_at",
    "followerPlan": "follower_plan_at",
    "frontIs": "is_front",
    "reachIs": "is_reach",
    "le?": "dec_at_most",
    "Dec·and": "Dec.and",
    "Report-Refused": "ReportRefused",
}


def snake(name):
    if name in OTHER:
        return OTHER[name]
    decider = name.endswith("?")
    parts = []
    for part in name.rstrip("?").split("-"):
        parts.append(part if part[:1].isupper() else re.sub(r"(?<=[a-z0-9])([A-Z])", lambda m: "_" + m.group(1).lower(), part))
    return ("dec_" if decider else "") + "_".join(parts)


def turns(name):
    return bool(re.search(r"[A-Za-z0-9'?]-[A-Za-z0-9]", name) or re.match(r"[a-z]+\d*[A-Z]", name) or (len(name) > 1 and name.endswith("?")))


def texts(*patterns):
    return sorted(f for p in patterns for f in glob.glob(p, recursive=True))


def declared(text):
    """The names that a file of antt declares: items, fields, constructors, parameters, variables."""
    for line in text.split("\n"):
        line = re.sub(r"--.*", "", line)
        head = HEAD.match(line)
        if head:
            yield head.group(1)
        for group in re.findall(r"[({]([^(){}:]+?)\s:\s", line) + re.findall(r"λ ([^.]*)\.", line) + re.findall(r"\blet (" + NAME + ")", line):
            yield from re.findall(NAME, group)


def read(path):
    with open(path, encoding="utf-8") as f:
        return f.read()


def write(path, text):
    with open(path, "w", encoding="utf-8") as f:
        f.write(text)


def renamings():
    names = set(OTHER) | set(LEMMAS)
    for path in texts("crates/*/specs/**/*.antt", "crates/*/proofs/*.antt"):
        names.update(n for n in declared(read(path)) if turns(n))
    return {n: LEMMAS.get(n, snake(n)) for n in sorted(names)}


def respelled(text, to, of_function):
    def one(m):
        word = m.group(0)
        if word not in to:
            return word
        # behind a dot, in the proof of a function, stands a name of the source
        if of_function and text[m.start() - 1 : m.start()] == ".":
            return word.replace("-", "_")
        return to[word]

    return TOKEN.sub(one, text)


def main():
    to = renamings()
    if "--list" in sys.argv:
        met = collections.defaultdict(set)
        for path in texts("crates/*/specs/**/*.antt", "crates/*/proofs/*.antt"):
            for n in declared(read(path)):
                met[to.get(n, n)].add(n)
        for n in to:
            print(n, to[n])
        for n, olds in met.items():
            if len(olds) > 1:
                print("together:", n, *sorted(olds))
        return
    for path in texts("crates/*/specs/**/*.antt", "crates/*/proofs/**/*.antt", "crates/*/src/**/*.rt", "crates/*/must-fail/**/*.edit"):
        old = read(path)
        new = respelled(old, to, re.search(r"/proofs/.*/", path))
        if new != old:
            write(path, new)
    # the documents name definitions and laws between backquotes
    for path in texts("README.md", "docs/**/*.md"):
        old = read(path)
        write(path, re.sub(r"`([^`\n]+)`", lambda m: "`" + respelled(m.group(1), to, None) + "`", old))


main()

#!/usr/bin/env python3
"""Brings this repository's own names to the spelling of Rattle: words in snake case, types and modules in camel case.

usage: python3 tools/respell.py    at the top of the repository, once, after the kit's own port script

    decodeAt -> decode_at, length-listingOf -> length-listing_of, other-version -> other_version

Turned are: each word that begins with a small letter and has a capital in it; each name with a dash that specs/ declares; and the
lemmas in LEMMAS, whose names would otherwise be those of the functions that they speak of. Functions of src/, exported names,
strings, inputs and outputs keep theirs. It says which names fall together in one file, and changes nothing then.
"""

import glob
import os
import re
import sys

# A lemma that would have its function's name ends in _lem. None: in every file.
LEMMAS = {
    "kept_of": "crates/checker/proofs/",
    "place_at": None,
    "moved_in": ("crates/opcode/proofs/Entries.antt", "crates/machine/proofs/Ready.antt"),
    "neg_bits": "crates/scalar/proofs/",
    "count_under": "crates/run/proofs/",
    "result_count": ("crates/run/proofs/", "crates/gevurlat/proofs/Unique.antt"),
}
TOKEN = re.compile(r"\"(?:[^\"\\]|\\.)*\"|[^\s(){}.;,@\"«»\[\]\\`]+")
# In a .rt file also Rust's operators end a name.
RUST = re.compile(r"b?\"(?:[^\"\\]|\\.)*\"|[A-Za-z0-9_'-]+")
DECLARED = re.compile(r"^\s*(?:unfoldable |abbrev )*(?:pub )?([^\s(){}.;,@\"«»\[\]\\:]+(?: [^\s(){}.;,@\"«»\[\]\\:→]+)*) :(?: |$)")


def files():
    for pattern in ("specs/**/*.antt", "proofs/**/*.antt", "src/**/*.rt", "must-fail/*.edit"):
        yield from sorted(glob.glob("crates/*/" + pattern, recursive=True))


def snake(name):
    parts = name.split("-")
    for i, part in enumerate(parts):
        if re.fullmatch(r"[a-z][A-Za-z0-9_]*'?", part) and re.search(r"[a-z0-9][A-Z]", part) and not re.fullmatch(r"x[0-9A-F]{2}", part):
            parts[i] = re.sub(r"(?<=[a-z0-9])([A-Z])", lambda m: "_" + m.group(1).lower(), part)
    return "-".join(parts)


def dashed():
    out = set()
    for path in glob.glob("crates/*/specs/**/*.antt", recursive=True):
        for line in open(path, encoding="utf-8"):
            found = DECLARED.match(line.split("--")[0].rstrip())
            if found:
                out.update(n for n in found.group(1).split() if "-" in n)
    return out


def renamed(token, path, own):
    if token in LEMMAS:
        where = LEMMAS[token]
        if where is None or path.startswith(where):
            return token + "_lem"
    if token in own:
        token = token.replace("-", "_")
    return snake(token)


def main():
    own = dashed()
    texts = {path: open(path, encoding="utf-8").read() for path in files()}
    if not texts:
        sys.exit("respell: no crates here")
    together, turned = [], {}
    for path, text in texts.items():
        pattern = RUST if path.endswith(".rt") else TOKEN
        # A module's path and a field keep what a dot stands before, but for the fields of specs/.
        def one(found):
            token = found.group(0)
            if token.endswith('"'):
                return token
            after_dot = found.start() > 0 and text[found.start() - 1] == "."
            if token in LEMMAS and after_dot:
                return token
            return renamed(token, path, own)

        new = pattern.sub(one, text)
        before = set(t for t in pattern.findall(text) if not t.endswith('"'))
        for token in sorted(before):
            to = renamed(token, path, own)
            if to != token and path.endswith(".antt"):
                bare = re.compile(r"(?<![\w'.-])" + re.escape(to) + r"(?![\w'-])")
                if bare.search(re.sub(r"--.*", "", text)) and to not in LEMMAS and not to.endswith("_lem"):
                    together.append((path, token, to))
        if new != text:
            turned[path] = new
    if together and "--even-so" not in sys.argv:
        for row in together:
            print("falls together: %s: %s and %s" % row)
        sys.exit(1)
    for path, text in turned.items():
        with open(path, "w", encoding="utf-8") as f:
            f.write(text)
    print("respell: %d files" % len(turned))


if __name__ == "__main__":
    main()

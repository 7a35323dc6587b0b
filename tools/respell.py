#!/usr/bin/env python3
"""Respells the repository's own lowerCamel words in crates/ as snake case, as `keyNumber` to `key_number`.

usage: respell.py [--check] [FOLDER]      FOLDER (default: the repository) has crates/

Words are whole words of .antt, .rt and .edit files. What begins with a capital, and a name with a colon or middle dot, stays.
--check writes nothing and names the files where a new spelling meets a word that is there already.
"""
import os
import re
import sys

TOKEN = re.compile(r"[^\s(){}.;,@\"«»`]+")
CAMEL = re.compile(r"(?<=[a-z0-9])[A-Z]|(?<=[A-Z])[A-Z](?=[a-z])|(?<=[A-Z])[A-Z]$|(?<=[A-Z])[A-Z](?=-|')")
# words of std that a dash joins to our own
STD = {"getD": "get_or"}
# lemmas whose spelling a definition of the same file now has
LEMMAS = ["bits_of_bytes", "first_rows", "at_rest", "in_place"]
LEMMA_FILES = {
    "bits_of_bytes": ("bits/proofs", "card_form/proofs"),
    "first_rows": ("card_inverse/proofs",),
    "at_rest": ("magnitudes/proofs",),
    "in_place": ("set_places/proofs",),
}
# fields that had a dash
FIELDS = """after-x after-y and-fits ascends-more at-least-zero below-is by-reading by-truth call-changed call-missing call-refused
demand-three ends-never-fall first-start from-above from-below half-second high-divides in-format in-range is-whole known-by-key
largest-whole low-divides low-enough lower-even met-is nan-only next-beyond none-short not-a-number not-above not-below-zero
number-back others-few outcome-is own-amount refused-keeps same-bitCount stays-true sums-are ties-even upper-even votes-are
windows-counted""".split()
# types that had a dash
TYPES = """Three-of Shorten-three Shorten-records Record-at Put-record Place-before Place-after Known-row Kept-place Keeper-of
Join-segments Join-records Join-at Is-short First-short Emptied-segment Copy-down Close-gap""".split()


def snake(part):
    if part in STD:
        return STD[part]
    if not re.match(r"[a-z_]", part) or not re.search(r"[A-Z]", part):
        return part
    out = re.sub(r"([a-z0-9])([A-Z])", r"\1_\2", part)
    out = re.sub(r"([A-Z])([A-Z][a-z])", r"\1_\2", out)
    return out.lower()


def respelled(word, path=""):
    if "·" in word or "/" in word or ":" in word:
        return word
    if word in LEMMAS and any(f"crates/{f}" in path for f in LEMMA_FILES[word]):
        return word + "_lem"
    if path.endswith(".antt"):
        if word in FIELDS:
            return "_".join(snake(p) for p in word.split("-"))
        if word in TYPES:
            return "".join(p[0].upper() + p[1:] for p in word.split("-"))
    return "-".join(snake(p) for p in word.split("-"))


def files(root):
    for folder, dirs, names in os.walk(os.path.join(root, "crates")):
        dirs[:] = sorted(d for d in dirs if d not in ("out", "data"))
        for name in sorted(names):
            if name.endswith((".antt", ".rt", ".edit")):
                yield os.path.join(folder, name)


def code(path, text):
    """Pieces of the text that turn, and pieces that stay: Rattle's string literals."""
    if path.endswith(".antt"):
        return [(not t.startswith("--"), t) for t in re.split(r"((?:^|(?<=\s))--[^\n]*)", text)]
    return [(i % 2 == 0, t) for i, t in enumerate(re.split(r'("(?:[^"\\\n]|\\.)*")', text))]


def turn(text, path, whole):
    """The text in the new spelling; where it isn't whole, as in a comment, what has a dash stays."""
    if whole or path.endswith(".antt"):
        return TOKEN.sub(lambda m: respelled(m.group(), path) if whole or "-" not in m.group() else m.group(), text)
    return text


def main(argv):
    check = "--check" in argv
    root = next((a for a in argv if not a.startswith("--")), ".")
    for path in files(root):
        with open(path, encoding="utf-8") as f:
            text = f.read()
        bare = {m.group() for m in TOKEN.finditer(text) if text[m.start() - 1 : m.start()] != "."}
        turned = "".join(turn(t, path, on) for on, t in code(path, text))
        if check:
            for word in sorted(bare):
                new = respelled(word, path)
                if new != word and new in bare:
                    print(f"{path}: {word} meets {new}")
        elif turned != text:
            with open(path, "w", encoding="utf-8") as f:
                f.write(turned)
    return 0


if __name__ == "__main__":
    raise SystemExit(main(sys.argv[1:]))

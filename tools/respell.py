#!/usr/bin/env python3
"""Spells the repository's own definitions and lemmas as today's Rattle does. Run once, at the top, after the kit's port.py.

Words are in snake case and types in camel case; a dash joins two names that both stand for something (as length and append in
length-append), and any other part of a name is joined by an underscore. Names that come from src/, and names that the check makes
of them (goals, steps), keep their spelling.
"""
import glob
import re

# Names that the rule alone would not give: two names joined keep their dash, a fact keeps its capital, and a lemma that would
# have its function's name gets _lem.
GIVEN = {
    "Only-zeros": "OnlyZeros",
    "cong-sym": "Cong_sym",
    "cong-trans": "Cong_trans",
    "cong-add": "Cong-add",
    "cong-mod": "Cong-mod",
    "cong-small": "Cong_small",
    "cong-remainder": "Cong_remainder",
    "bounded-append": "Bounded-append",
    "bounded-known": "Bounded_known",
    "bounded-with": "Bounded_with",
    "bounded-at": "Bounded_at",
    "bounded_at": "Bounded_at",
    "bounded-firsts": "Bounded_firsts",
    "bounded-entries": "Bounded_entries",
    "bounded-readings": "Bounded_readings",
    "alike-bin": "Alike-bin",
    "alike-image": "Alike-image",
    "most-entries": "most-entries_of",
    "most-readings": "most-readings_of",
    "row-of": "row_of_lem",
    "turn-of": "turn_known",
    "product-of": "product_known",
    "quotient-of": "quotient_known",
    "row-in": "row_in_lem",
}

# Spelled by the rule: a capital inside a word, or a dash, becomes an underscore. Names of two names (abs-add, abs-mul,
# abs-sub, image-length, most-add, most-mul, pow-add, pow-one, Σ-add, Σ-neg, Σ-zero) stay as they were.
PLAIN = """
*ℤ-assoc *ℤ-left-comm C-is C-mirrors C-period C-size C-small L-room N-least N-most S-is S-mirrors S-period S-size S-small a-is
addP addP-is addT addT-is all-roomy b-is bin-factor bin-is bins-are bins-from by-eq c-are c-is cosine-at cosine-bin cosine-is
cosine-place cosine-times cosineMultiples cosineOf cosineRules cosines-agree cosines-are cosines-fall cosines-keep cosines-matched
dist-l dist-r dualCosines dualSines entries-small entriesOf eqZ eqZ-is everywhere-at fast-is fastCount few-products first-at
firstAbove fitShort fits-with g-room gain-least gain-most halfCosines halfSines image-at image-is imageAfter insert-is isShort
known-fits known-stored lawfulBy leading-passes less-half less-whole letterOf mapped-none minus-one modest-last most-small mulM
mulM-is mulP mulP-is mulT mulT-is n-is no-count no-gain no-length no-limit no-scale no-sine normal-is not-refused numbers-small
one-is only-zeros order-5 order-7 order-9 output-at over-row p-is plug-is product-is product-parts q-is quotient-is
r-is ready-by reading-at readingsOf reduced-is remainder-step right-cosines right-sines row-at row-entry row-length
row-matched row-none ruleAt run-fits run-is s-are same-after same-refusal sameM sameM-is second-is short-lawful short-laws
short-length short-only-zeros shortLimit sine-at sine-bin sine-is sine-place sine-times sineMultiples sineOf sineRules sines-above
sines-agree sines-are sines-keep sines-matched sines-order sizesWith slow-is small-at some-none standard-units stored-is stored-with
sum-fits sum-is sum-parts term-is term-small third-is times-is turned-is turns-are two-is unfitFirst unfitShort unit-small
up-to up-to-small value-at valueM valueP vanishes-is w-is whole-b whole-small word-fits word-is Σ-bound Σ-cong Σ-more Σ-none Σ-scale
Σ-single Σ-swap add-term
""".split()

NAME = re.compile(r"[^\s(){}\[\];,.λ|@\"`]+")


def plain(name):
    return re.sub(r"(?<=[a-z])([A-Z])", lambda m: "_" + m.group(1).lower(), name).replace("-", "_")


NEW = {name: plain(name) for name in PLAIN} | GIVEN


def files():
    for pattern in ("crates/*/specs/**/*.antt", "crates/*/proofs/**/*.antt", "crates/*/src/**/*.rt"):
        yield from sorted(glob.glob(pattern, recursive=True))


def main():
    texts = {path: open(path, encoding="utf-8").read() for path in files()}
    seen = {path: set(NAME.findall(text)) for path, text in texts.items()}
    for path, names in seen.items():
        made = {}
        for old in names & NEW.keys():
            made.setdefault(NEW[old], []).append(old)
        for new, olds in made.items():
            if len(olds) > 1 or new in names:
                print(f"look: {path}: {', '.join(olds)} and {new} fall together")
    for path, text in texts.items():
        turned = NAME.sub(lambda m: NEW.get(m.group(0), m.group(0)), text)
        if turned != text:
            with open(path, "w", encoding="utf-8") as f:
                f.write(turned)


main()

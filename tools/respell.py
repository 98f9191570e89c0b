#!/usr/bin/env python3
"""Brings the repository's own names in specs/ and proofs/ to today's spelling, and with them the clauses, must-fail edits and pages that cite them.

usage: tools/respell.py [ROOT]    once, right after the toolchain's own port script ran

Definitions, fields and constructors in camel case become snake case. In a lemma's name a dash stays where the left part is the name of a definition
(`decode-encode`), and every other one becomes `_` (`page_test`). Names of types, facts and modules are in camel case already and stay, and so do the
functions of src/. The port script respells some names itself and does not turn edits and pages, so those get its names too (PORTED).
"""
import glob
import os
import re
import sys

# What the port script says that it respelled, by the rule `snake` below, in specs/ and proofs/ alone.
PORTED = """add-read after-free after-kept afterAt alignUp all-end all-map all-of all-read all-without allocate-meets answer-back answerOf apart-of as-number
askedOf asks-nothing at-byte at-cut at-each at-first at-label at-most-one at-once at-size bad-kind best-none best-of block-1 block-2 block-3 block-4
block-5 block-6 block-back block-read blockOf both-is both-words by-bits by-byte by-chain by-count by-next bytes-apart bytesAt bytesOf call-none
chain-head chunk-of chunks-fit chunksOf cond-cases cond-same count-fits count-none count-same counted-next cut-all cut-stands digit-low
down-quotient drop-all each-row ends-on entryAt entryOf fieldOf first-found firstOf firstSlot found-all found-at found-none found-some
free-meets from-all from-next from-some from-zero given-back gives-up go-on goes-on handed-out hands-on has-other has-same head-of
headOf held-low held-next holds-fits idAt in-all in-block in-bytes in-lives in-order in-row in-table in-without in-words is-digit
isEmpty join-written kept-row kindAt labelAt last-line last-taken last-turn lastOf lends-out line-first line-read lineAt lineOf linkOf
live-at live-in live-more liveOf made-row mask-up most-bytes mul-words next-fits next-known nextAt nextOf no-block no-bytes no-call
no-chunk no-line no-room no-size no-slot no-table no-text noId none-after none-before none-free none-in none-left none-of none-or not-found not-free
not-made not-same not-sound not-written numberOf old-id once-more one-answer one-byte one-found one-more one-of one-size one-split only-one opened-one
or-right other-row out-of-range outcome-fits part-of pieceOf place-found place-kept place-of placeIn placed-on power-pos put-all put-back put-in
ranges-apart read-fits read-step read-table readBy reads-more reads-none refused-none room-fits row-kept row-other row-word row-written rowAt rowOf
run-ends run-length run-sound same-end same-first same-kind same-length same-place same-refl same-spot setRow size-in size-word sizeAt slotOf slots-at
slots-same slotsOf so-far some-byte splice-front split-rows startOf stateOf step-kept stepOf steps-on sub-words sum-lives sumOf table-here
table-of take-words takes-whole textOf tie-down tie-up to-start to-step too-large too-long too-much too-short turns-move two-bytes up-least up-top upTo
value-grows valueOf walk-from walk-refused walkOf whole-again whole-words wholeOf withNumber words-size wordsOf
by-total enum-told new-told one-field one-told parts-at""".split()

# Words that lemmas put on the left of a dash and that the standard library defines.
LIBRARY = {"length", "take", "drop", "map", "filter", "zip", "sum", "reverse", "replicate", "set", "get", "max", "min"}

# A name of antt: no space, bracket, dot, comma, semicolon or quotation mark in it.
NAME = re.compile(r"[^\s(){}\[\].,;:\"`∷λ]+")
DECLARED = re.compile(r"^(?:abbrev +|unfoldable +)?(?:pub +)?(?:abbrev +|unfoldable +)?([^\s:(){}\"]+)(?= [^=\n]*?:|\s*:)", re.M)
DEFINED = re.compile(r"^(?:(?:abbrev|unfoldable) pub|pub (?:abbrev|unfoldable)|abbrev|unfoldable) ([^\s:(){}]+)", re.M)
MEMBERS = re.compile(r"^(?:pub )?(?:record|data) .*\n((?:(?: +.*| *)\n)*)", re.M)
MEMBER = re.compile(r"^ +(?:pub )?([^\s:(){}|]+) :", re.M)
KEYWORDS = {"use", "mod", "pub", "where", "unfolding", "abbrev", "unfoldable", "record", "data", "ruleset", "--"}


def snake(name):
    return re.sub(r"(?<=[A-Za-z0-9])([A-Z])", lambda m: "_" + m[1].lower(), name).replace("-", "_")


def read(path):
    with open(path, encoding="utf-8") as it:
        return it.read()


def files(root, *patterns):
    return sorted(p for it in patterns for p in glob.glob(os.path.join(root, it), recursive=True))


def own_names(root):
    """Returns the names that the files of specs/ and the lemma files of proofs/ declare, and those of them that are definitions."""
    declared, defined = set(), set()
    for path in files(root, "crates/*/specs/**/*.antt", "crates/*/proofs/*.antt"):
        text = read(path)
        declared |= {m for m in DECLARED.findall(text) if m not in KEYWORDS and not m.startswith("--")}
        defined |= set(DEFINED.findall(text))
        for members in MEMBERS.findall(text):
            declared |= set(MEMBER.findall(members))
    return {n for n in declared if n[0].isalpha()}, {n for n in defined if n[0].isalpha()}


def respelled(name, words):
    """Returns today's spelling of a lower-case name."""
    parts = [snake(part) for part in name.split("-")]
    for cut in range(len(parts) - 1, 0, -1):
        if "_".join(parts[:cut]) in words:
            return "_".join(parts[:cut]) + "-" + "_".join(parts[cut:])
    return "_".join(parts)


def renaming(root):
    """Returns the new names by the old ones. Where a lemma's name would be that of a definition, the lemma gets `_lem`."""
    declared, defined = own_names(root)
    words = LIBRARY | {snake(n) for n in defined if n[0].islower()}
    names = {n: respelled(n, words) for n in declared | defined if n[0].islower()}
    together = {}
    for old, new in names.items():
        together.setdefault(new, set()).add(old)
    for new, olds in sorted(together.items()):
        for lemma in sorted(olds, key=lambda n: (not re.search("[A-Z]", n), n))[1:]:
            print(f"{lemma} would fall together with {', '.join(sorted(olds - {lemma}))}, and becomes {new}_lem")
            names[lemma] = new + "_lem"
    return {old: new for old, new in names.items() if old != new}


def put(text, names):
    return NAME.sub(lambda m: names.get(m[0], m[0]), text)


def in_source(text, names):
    """Respells the clauses and imports of a source file, and neither its strings nor its comments nor a name that Rust could have."""
    names = {old: new for old, new in names.items() if re.search("[A-Z-]", old)}
    return re.sub(r"//[^\n]*|b?\"(?:\\.|[^\"\\])*\"|[^/\"]+|/", lambda m: m[0] if m[0].startswith(("//", '"', 'b"')) else put(m[0], names), text)


def in_edit(text, names):
    return "\n".join(line[:5] + tight(put(line[5:], names)) if line.startswith(("old: ", "new: ")) else line for line in text.split("\n"))


def tight(text):
    """Writes a projection, `c .size`, as today: `c.size`."""
    return re.sub(r"(?<=[\w'′)]) \.(?=[a-z0-9])", ".", text)


def in_page(text, names):
    return re.sub(r"`[^`\n]+`", lambda m: put(m[0], names), text)


def main():
    root = sys.argv[1] if len(sys.argv) > 1 else "."
    names = renaming(root)
    every = {old: names.get(snake(old), snake(old)) for old in PORTED} | names
    jobs = [
        (("crates/*/specs/**/*.antt", "crates/*/proofs/**/*.antt"), put, names),
        (("crates/*/src/**/*.rt",), in_source, names),
        (("crates/*/must-fail/*.edit",), in_edit, every),
        (("README.md", "docs/*.md"), in_page, every),
    ]
    for patterns, turn, with_names in jobs:
        for path in files(root, *patterns):
            was = read(path)
            now = turn(was, with_names)
            if now != was:
                with open(path, "w", encoding="utf-8") as it:
                    it.write(now)
    print(f"{len(names)} names respelled")


main()

#!/usr/bin/env python3
"""Respells this repository's own definitions, lemmas and local names as today's Rattle spells names.

Run once, at the top, right after the toolchain's own port script. A type or a fact is written in upper camel case
(`Plays-the-run` becomes `PlaysTheRun`), every other name in snake case (`is-write` becomes `is_write`).

Which names are respelled: what specs/ and proofs/ declare with a type, as a record or as data, with a dash in it, and the
local names listed below. Names of goals, and the names of the toolchain's library, are left alone.
"""
import glob
import re

NAME = r"[A-Za-z_][A-Za-z0-9_'ℕ]*(?:-[A-Za-z0-9_'ℕ≤≡<>=+*2]+)*"
TOKEN = re.compile(NAME)
SIGNED = re.compile(r"^\s*(?:abbrev |unfoldable |pub )*(" + NAME + r")\s*:\s")
DECLARED = re.compile(r"^\s*(?:pub )?(?:record|data)\s+(" + NAME + ")")

# Names that proofs bind, and that no declaration shows.
LOCAL = """
waiting-after next-then Home-after prewrites-after writes-after no-waiting no-forward row-is-open-read stand-in-then low-test
alone-is at-k is-not not-held tag-kept homes-after after-rows after-used after-mark waits-as-k-did home-r next-is-from-home
returned-then row-is-open row-is-open-of row-is-queued when-below not-p-and-r held-is in-it same-used next-mark returned-is
waits-for-t names-p homes-then next-stands-from-home waits-at-home returned-more none-forwarded none-waits no-turn if-crashed
if-standing was-next has-masks has-line news-is journal-is if-true if-false none-prewrite none-write kept-up open-read not-above
stand-in is-so not-before Holds-more turned-parts here-one then-none fewer-left named-there other-low behind-first behind-code no-mask no-group
""".split()

# Comments speak English, where `stand-in` or `give-up` is a word; these are names there.
IN_COMMENTS = {"stands-in", "rows-put-in-turn", "put-where-a-message-can-wait"}


def proof_files():
    return sorted(glob.glob("crates/*/specs/**/*.antt", recursive=True) + glob.glob("crates/*/proofs/**/*.antt", recursive=True))


def declared_names():
    names = set(LOCAL)
    for path in proof_files():
        for line in open(path, encoding="utf-8"):
            text = line.split("--")[0]
            if "goal." in text:
                continue
            for form in (SIGNED, DECLARED):
                found = form.match(text)
                if found and "-" in found.group(1):
                    names.add(found.group(1))
    return names


def respelled(name):
    parts = name.split("-")
    if name[0].isupper():
        return "".join(part[0].upper() + part[1:] for part in parts)
    return "_".join(parts)


def respell_line(line, names, goals):
    cut = min([at for at in (line.find("--"), line.find("//")) if at >= 0], default=len(line))
    code, comment = line[:cut], line[cut:]
    code = TOKEN.sub(lambda m: respelled(m.group(0)) if m.group(0) in names and m.group(0) not in goals else m.group(0), code)
    comment = TOKEN.sub(lambda m: respelled(m.group(0)) if m.group(0) in IN_COMMENTS else m.group(0), comment)
    return code + comment


def main():
    names = declared_names()
    files = proof_files() + sorted(glob.glob("crates/*/src/**/*.rt", recursive=True))
    for path in files:
        text = open(path, encoding="utf-8").read()
        goals = set(re.findall(r"goal\.(" + NAME + ")", text))
        new = "".join(respell_line(line, names, goals) for line in text.splitlines(keepends=True))
        if new != text:
            open(path, "w", encoding="utf-8").write(new)
    print(f"{len(names)} names respelled")


if __name__ == "__main__":
    main()

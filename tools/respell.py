#!/usr/bin/env python3
"""Spells the repository's own definitions, lemmas, fields and cases in today's way.

usage: python3 tools/respell.py            at the top of the repository, once

A name of a fact, a relation or a record (it begins with a capital) becomes upper camel case: Rate-law is
RateLaw. Any other name gets underscores for its dashes: put-all is put_all. A dash before an operator
stays, as in puts-++. Names of goals, of std and of src/ are not touched. Files of specs/ and proofs/ are
turned whole; files of src/ and must-fail edits outside of text in quotes; pages in docs/ and the README
between backticks. Nothing is written where two names would fall together.
"""
import pathlib
import re
import sys

WORD = re.compile(r"[^\s(){}\[\];,.·«»\"`⌜⌝]+")
# names whose plain spelling is another thing's
CHOSEN = {
    "Percent-in-range": "IsPercentInRange",
    "Percent-out-of-range": "IsPercentOutOfRange",
    "Baud-in-range": "IsBaudInRange",
    "Baud-out-of-range": "IsBaudOutOfRange",
    "Clock-usable": "IsClockUsable",
    "Clock-unusable": "IsClockUnusable",
    "Out-of-bounds": "IsOutOfBounds",
    "finely-divided": "finely_divided_lem",
    "worked-examples": "worked_examples_lem",
    "refusal-name": "name_of_refusal",
    "valueFrom": "value_from",
}
# names that the kit's own port.py has turned in specs/ and proofs/, for the pages and the edits
TURNED = """all-alike apart-by as-many at-most back-fits back-more back-none below-one both-run digits-step field-at first-word
in-order index-of limits-of name-of no-bytes no-other no-word not-more number-of ok-same on-row one-end one-value open-up
or-assoc plain-row put-all read-by rest-of row-by row-carried row-done row-written run-row same-head same-rows same-test
so-far-more stands-after stands-by stands-one text-at text-of to-the-end too-large too-long value-of with-rest word-at
written-all written-is wrote-then""".split()
# fields of a record of facts, each named as the field of the settings that it is about
SHARED = {"clock_source", "data_bits", "stop_bits"}
HEAD = re.compile(r"^(?:(?:abbrev|unfoldable|pub|record|data) )*([^\s:(){}]+)")
PART = re.compile(r"^  (?:pub )?([^\s:(){}]+) : ")
TOP = re.compile(r"^(abbrev|unfoldable|pub|record|data)? ?.*[ }]: ")


def new_name(name):
    if name in CHOSEN:
        return CHOSEN[name]
    if name[0].isupper():
        return "".join(p[:1].upper() + p[1:] for p in name.split("-"))
    return re.sub(r"-(?=[\w'])", "_", name)


def own_names(path, lines):
    """The names that a file of specs/ or proofs/ declares."""
    goals = path.name in ("Answers.antt", "Invariants.antt", "Proof.antt")
    for line in lines:
        if line.startswith(("use ", "pub use ", "--", "mod ", "pub mod ", "unfolding ")):
            continue
        if line[:1].strip() and " : " in line:
            if not (goals and line.startswith(("pub ", "abbrev pub "))):
                yield HEAD.match(line).group(1)
        elif PART.match(line) and not goals:
            yield PART.match(line).group(1)


def turned(text, names):
    return WORD.sub(lambda m: names.get(m.group(0), m.group(0)), text)


def outside_quotes(text, names):
    return "".join(p if i % 2 else turned(p, names) for i, p in enumerate(re.split(r'("(?:[^"\\\n]|\\.)*")', text)))


def in_backticks(text, names):
    return re.sub(r"`[^`\n]+`", lambda m: turned(m.group(0), names), text)


def main():
    root = pathlib.Path.cwd()
    antt = sorted(p for p in root.glob("crates/*/*/**/*.antt") if "out" not in p.parts)
    antt += sorted(p for p in root.glob("crates/*/specs/*.antt") if p not in antt)
    names = {}
    for path in antt:
        for name in own_names(path, path.read_text().splitlines()):
            if ("-" in name or name in CHOSEN) and new_name(name) != name:
                names[name] = new_name(name)
    seen = {w for p in antt for w in WORD.findall(p.read_text())}
    clash = sorted((o, n) for o, n in names.items() if n in seen and n not in SHARED)
    for n in sorted(set(names.values())):
        if sum(v == n for v in names.values()) > 1:
            clash.append((n, "twice"))
    if clash:
        for c in clash:
            print("falls together:", *c)
        return 1
    names.update((n, new_name(n)) for n in TURNED)
    ways = [(antt, turned), (sorted(root.glob("crates/*/src/**/*.rt")) + sorted(root.glob("crates/*/must-fail/*.edit")), outside_quotes),
            (sorted(root.glob("docs/*.md")) + [root / "README.md"], in_backticks)]
    count = 0
    for paths, way in ways:
        for path in paths:
            old = path.read_text()
            new = way(old, names)
            if new != old:
                path.write_text(new)
                count += 1
    print(f"{len(names)} names in all, {count} files")
    return 0


if __name__ == "__main__":
    sys.exit(main())

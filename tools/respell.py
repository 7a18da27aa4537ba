#!/usr/bin/env python3
"""Brings the repository's own definitions and lemmas to today's spelling: snake case, for `camelCase` and `kebab-case`.

usage: tools/respell.py [--check]

Run once, after the kit's port.py, at the top of the repository. Types, records, modules and constructors keep their
upper camel case. Functions of src/, exported names, strings, inputs and outputs keep their names: what turns are words
that specs/ and proofs/ declare, where they stand in .antt files, in `ghost use` items, clauses and attributes of .rt
files, and between backquotes in comments and pages. Names that a function's own files (Proof, Answers, Invariants) give
to its goals are Rattle's, and stay. A file that has a name from a library keeps that name. --check writes nothing and
says what would fall together.
"""
import collections
import os
import re
import sys

WORD = re.compile(r"[^\s(){}.;,@\"«»\[\]`:]+")
DECLARED = re.compile(
    r"(?m)^ *(?:(?:abbrev|unfoldable|pub|data|record|opaque|private)\s+)*([^\s(){}.;,@\"«»:]+)(?: \{[^{}\n]*\})* :(?!:)"
)
USE = re.compile(r"\buse ([^\s;{]+)(\{[^}]*\})?")
ALIAS = re.compile(r"\buse [^\s;{]+ as ([a-z][^\s;]*)")
OF_A_FUNCTION = re.compile(r"/proofs/.*/(Proof|Answers|Invariants)\.antt$")
# The library has an `if◌then◌else◌` of its own now, which takes no chain of cases without brackets: ours is called otherwise.
CHOICE = {"if": "when", "if◌then◌else◌": "when◌then◌else◌"}
# Parameters, and what a proof has for itself.
LOCAL = """worksIn watchOf backOf andZero andPower voltsBefore voltsAfter ampsBefore ampsAfter mostTicks isKnown after-pass no-space
no-loss own-tries own-seconds add-two add-three with-masks with-ends with-message worked-eight rest-too frame-leaves
tick-leaves is-short tick-keeps frame-keeps modules-out message-left by-rule in-flight true-masks""".split()
# Names that would fall together with another of ours: a law that would be called like its definition says that it is the
# law, a wrong program that is shut out says so.
APART = {
    "notAKeying": "not_a_keying",
    "after-mark": "after_mark_law",
    "all-below": "all_below_law",
    "all_known": "all_known_law",
    "asked-for": "asked_for_law",
    "beacon-image": "beacon_image_law",
    "bit-and": "bit_and_law",
    "by-class": "by_class_law",
    "by-serial": "by_serial_law",
    "by_ones": "by_ones_law",
    "byte-in": "byte_in_law",
    "constant-report": "constant_report_shut_out",
    "doesAll": "DoesAll",
    "ends-while-waiting": "ends_while_waiting_shut_out",
    "ends_last": "ends_last_shut_out",
    "figure-bits": "figure_bits_law",
    "four-bits": "four_bits_law",
    "four-digits": "four_digits_law",
    "goes_on": "goes_on_law",
    "hex-digit": "hex_digit_law",
    "in-range": "in_range_law",
    "in_both": "in_both_law",
    "is-books": "is_books_law",
    "is-on": "is_on_law",
    "is-step": "is_step_law",
    "kept_from": "kept_from_law",
    "key-by": "key_by_law",
    "kind-of": "kind_of_law",
    "left_after": "left_after_law",
    "lent_back": "lent_back_law",
    "mission-four": "mission_four_law",
    "mode-byte": "mode_byte_law",
    "mode-code": "mode_code_law",
    "mode-in-range": "mode_in_range_law",
    "mode-letter": "mode_letter_law",
    "module-code": "module_code_law",
    "modules-first": "modules_first_shut_out",
    "modules-in-range": "modules_in_range_law",
    "moved_on": "moved_on_law",
    "no-on": "no_on_law",
    "no_sign": "no_sign_law",
    "none-on": "none_on_law",
    "on-switched": "on_switched_law",
    "one_more": "one_more_law",
    "only-reports": "only_reports_shut_out",
    "part-from": "part_from_law",
    "pass-image": "pass_image_law",
    "payload-on": "payload_on_shut_out",
    "phase-in-range": "phase_in_range_law",
    "power-code": "power_code_law",
    "requested-one": "requested_one_law",
    "requests-set": "requests_set_law",
    "stayed-on": "stayed_on_law",
    "step-image": "step_image_law",
    "two_steps": "two_steps_law",
}


def snake(name):
    words = re.sub(r"(?<=[a-z0-9])([A-Z])", lambda m: "_" + m[1].lower(), name)
    return words.replace("-", "_")


def files(top, endings):
    for folder, dirs, names in os.walk(top):
        dirs[:] = sorted(d for d in dirs if d not in ("out", "target", ".git"))
        for name in sorted(names):
            if name.endswith(endings):
                yield os.path.join(folder, name)


def read(path):
    with open(path, encoding="utf-8") as f:
        return f.read()


def table():
    """Old spelling to new, of each name that specs/ and proofs/ declare and that changes."""
    found = {}
    for path in files("crates", (".antt",)):
        if OF_A_FUNCTION.search(path):
            continue
        for name in DECLARED.findall(read(path)):
            if re.match(r"[a-z]", name) and (name in APART or snake(name) != name):
                found[name] = APART.get(name, snake(name))
    found.update({name: snake(name) for name in LOCAL})
    found.update(CHOICE)
    for path in files("crates", (".antt",)):
        for name in ALIAS.findall(read(path)):
            if "-" in name:
                found.setdefault(name, snake(name))
    return found


def foreign(text):
    """The names that a file brings in from a library."""
    names = set()
    for path, items in USE.findall(text):
        if path.startswith("Rattle.") and not path.startswith("Rattle.std"):
            continue
        names.update(WORD.findall(items or path.split(".")[-1]))
    return names


def turned(text, rows, kept=()):
    return WORD.sub(lambda m: m[0] if m[0] in kept else rows.get(m[0], m[0]), text)


def declared():
    """Every name that specs/ and proofs/ declare, as it stands."""
    found = set()
    for path in files("crates", (".antt",)):
        if not OF_A_FUNCTION.search(path):
            found.update(DECLARED.findall(read(path)))
    return found


def for_pages(rows):
    """The rows, and those of names that port.py turned in crates/ and that pages still have in the old spelling."""
    now = declared()

    class Rows(dict):
        def get(self, word, default):
            if word in self:
                return self[word]
            new = snake(word)
            if new == word or not re.match(r"[a-z]", word):
                return default
            if "-" in word and new in APART:
                return APART[new]
            return new if new in now else default

    return Rows(rows)


def spans(text, rows):
    """A page or a comment: only what stands between backquotes turns."""
    return re.sub(r"`[^`\n]+`", lambda m: turned(m[0], rows), text)


def antt(text, rows, kept):
    out = []
    for line in text.split("\n"):
        code, mark, comment = line.partition("--")
        if mark and (not code or code[-1].isspace()):
            out.append(turned(code, rows, kept) + mark + spans(comment, rows))
        else:
            out.append(turned(line, rows, kept))
    return re.sub(r"\buse (\S+)\.(\S+) as \2(?=\n|$)", r"use \1.\2", "\n".join(out))


CLAUSE = re.compile(r"(?:\b(?:requires|ensures)\b\s*\*?\s*(?:\w+\s*)?\{)")


def rust(text, rows):
    """Clauses, `ghost use` items and attributes turn; a comment's spans too; nothing else."""
    text = re.sub(r"ghost\s+use\b[^;]*;", lambda m: turned(m[0], rows), text)
    text = re.sub(r"#\[tactic\([^\]]*\]", lambda m: turned(m[0], rows), text)
    text = re.sub(r"(?m)^( *//.*)$", lambda m: spans(m[0], rows), text)
    out, at = [], 0
    for m in CLAUSE.finditer(text):
        if m.start() < at:
            continue
        depth, end = 1, m.end()
        while depth:
            depth += {"{": 1, "}": -1}.get(text[end], 0)
            end += 1
        out += [text[at : m.end()], turned(text[m.end() : end], rows)]
        at = end
    return "".join(out) + text[at:]


def clashes(rows):
    """New spellings that two names have, or that a name had before."""
    old = collections.defaultdict(set)
    for path in files("crates", (".antt",)):
        text = re.sub(r"--[^\n]*", "", read(path))
        for word in set(WORD.findall(text)):
            new = rows.get(word, word)
            old[new].add((word, path))
    for new, pairs in sorted(old.items()):
        words = {w for w, _ in pairs}
        if len(words) > 1:
            for word in sorted(words):
                where = sorted(p for w, p in pairs if w == word)
                yield f"{new}: {word}: {len(where)} files: {' '.join(where[:3])}"


def main(argv):
    rows = table()
    of_pages = for_pages(rows)
    if "--check" in argv:
        print(f"{len(rows)} names")
        for line in clashes(rows):
            print(line)
        return 0
    for path in files("crates", (".antt", ".rt")):
        text = read(path)
        if path.endswith(".rt"):
            new = rust(text, rows)
        else:
            new = antt(text, rows, foreign(text))
        if new != text:
            with open(path, "w", encoding="utf-8") as f:
                f.write(new)
    pages = [p for p in files("docs", (".md",))] + ["README.md"]
    for path in pages:
        text = read(path)
        new = spans(text, of_pages)
        if new != text:
            with open(path, "w", encoding="utf-8") as f:
                f.write(new)
    return 0


if __name__ == "__main__":
    raise SystemExit(main(sys.argv[1:]))

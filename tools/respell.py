#!/usr/bin/env python3
"""Brings the names of this repository's own definitions and lemmas to the spelling of today's library, after port.py of the kit has run.

usage: python3 tools/respell.py [FOLDER]        FOLDER is the top of a checkout, and the current folder where it is left out

Words are in snake case, and modules in camel case. A dash stays in a lemma's name where it joins two names, as in `length-table`.
Functions of src/, strings, inputs and outputs keep their names; must-fail edits are not touched. It goes by whole names, in .antt files, and
in .rt files too, where a dash stands in a name only in clauses. Run it once: a second run changes nothing.
"""

import os
import re
import sys

# Definitions and lemmas of this repository that get an underscore for each dash.
PLAIN = """
absorbed-all after-all after-signing all-granted at-comment at-end at-fault at-full at-message at-most-more bad-length begins-comment
begins-message begins-with blank-first body-again body-well-formed chain-short comment-bytes comment-ends count-is counted-first
counted-refused cut-comment cut-file cut-here cut-message cut-onward cut-placed cut-within default-table direct-outcome direct-outcomes
direct-split end-last end-words entry-answer entry-content entry-lies fault-number faulty-node few-faulty few-onward file-answer file-bytes
file-refusal filled-refused first-requests first-two-from first-two-of first-value flag-set flagged-more flags-are four-parts from-leader
from-none has-joined has-still ideal-rule injected-to is-table item-bytes joined-split laid-all laid-first laid-out-is law-first-fault
law-read-back law-read-is-written law-written-is-read leader-keeps little-eight little-first mac-rule made-roster may-is may-sign
message-bytes message-ends message-fits message-from message-put message-refusal messages-after messages-at messages-of messages-within
never-refused new-values next-bounds next-few next-first next-flag no-list node-line none-signed number-below number-filled number-two
number-two-at octet-at of-nodes on-top onward-same other-list others-after others-first others-more others-none outcomes-text own-list
parsed-some past-comment past-message past-table read-back-means read-body read-comment read-comment-bytes read-kind read-message
read-message-bytes read-none-bytes read-rest read-signatures reading-large reads-rest record-again record-answer record-at record-bad-kind
record-bad-length record-body record-bytes record-comment record-kind record-length record-lies record-message record-none record-refusal
records-left refusal-text relayed-to roster-answer roster-from same-roster sign-answer sign-fault-number signature-bytes signature-from
signatures-again signatures-from signatures-more signatures-push signatures-written signed-bytes signed-condition signed-lasts signed-lists
signed-now signed-outcomes signed-valid signers-of siphash-2-4 sized-body sized-signatures small-file state-name still-of told-kind
told-length turn-answer turn-from turn-text unnamed-set value-here value-joins value-later value-leaderless well-formed well-formed-parts
went-by write-answer written-is-read written-whole wrote-more
""".split()

NAMES = {name: name.replace("-", "_") for name in PLAIN} | {
    "length-after": "length-after_signing",
    "length-message-bytes": "length-message_bytes",
    "length-signature-bytes": "length-signature_bytes",
    "octets-drop": "Octets-drop",
    "octets-take": "Octets-take",
    # a ghost member has the name at_most_two
    "at-most-two": "few_are_signed",
}

# In these files alone.
IN_FILES = {
    "auth/specs/RecordFacts.antt": {"at_most_two": "few_are_signed"},
    "wire/specs/Faults.antt": {"at-record": "AtRecord", "at-message": "AtMessage", "at-file": "AtFile", "layer": "ALayer"},
    "wire/specs/Reading.antt": {"a-record": "ARecord", "an-entry": "AnEntry", "layer": "ALayer"},
    "wire/proofs/WholeFileLaws.antt": {"layer": "ALayer"},
    "wire/proofs/FileLaws.antt": {"layer": "ALayer"},
    "wire/proofs/RecordLaws.antt": {"layer": "ALayer"},
    "wire/proofs/file_layer/count_messages/Answers.antt": {"layer": "ALayer"},
}

# Those modules are named before a dot, or after `as`; the same word elsewhere is a variable or a field.
MODULES = {"AtRecord", "AtMessage", "AtFile", "ALayer", "ARecord", "AnEntry"}

# A test in a definition is written by std's word for it.
WORDS = {"ltb": "nat_lt"}

TOKEN = re.compile(r"[^\s(){}\[\],;.λ→]+")


def respelled(line, names):
    """The line with each whole name of `names` in its new spelling."""

    def turn(match):
        word = match[0]
        new = names.get(word)
        if new is None:
            return word
        if new in MODULES:
            before, after = line[: match.start()], line[match.end() :]
            if not (re.match(r"\.[A-Z]", after) or before.endswith("TheVariants as ")):
                return word
        return new

    return TOKEN.sub(turn, line)


def without_doubles(line):
    """An import list in which a name would now stand twice names it once."""
    match = re.match(r"((?:ghost )?use [\w.']+\.\{)([^{}]*)(\};?)$", line)
    if not match:
        return line
    return match[1] + ", ".join(dict.fromkeys(name.strip() for name in match[2].split(","))) + match[3]


def main(top):
    inside = os.path.join(top, "crates")
    for folder, folders, files in os.walk(inside):
        folders[:] = sorted(f for f in folders if f not in ("out", "must-fail"))
        for file in sorted(files):
            if not file.endswith((".antt", ".rt")):
                continue
            path = os.path.join(folder, file)
            with open(path, encoding="utf-8") as f:
                old = f.read()
            short = os.path.relpath(path, inside)
            names = {**NAMES, **IN_FILES.get(short, {})}
            if "/specs/" in short:
                names |= WORDS
            lines = [without_doubles(respelled(line, names)) for line in old.split("\n")]
            new = "\n".join(lines)
            if new == old:
                continue
            had = set(TOKEN.findall(old))
            for before, after in names.items():
                if before in had and after in had and after not in WORDS.values():
                    print(f"look: {short}: {before} falls together with {after}")
            with open(path, "w", encoding="utf-8") as f:
                f.write(new)
    return 0


if __name__ == "__main__":
    raise SystemExit(main(sys.argv[1] if len(sys.argv) > 1 else "."))

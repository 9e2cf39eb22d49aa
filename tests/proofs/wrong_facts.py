#!/usr/bin/env python3
"""Checks that the prover rejects each fact in crates/*/proofs/Facts.antt if its value is changed.

    tests/proofs/wrong_facts.py [CRATE..]

By default, the facts of all crates are tried. A fact, `LEFT ≡ RIGHT`, says which value a definition has. The script
changes the last literal in RIGHT, which is a string, a number or the name of an error. If RIGHT has no literal, the
script changes a copy of a value that the fact names and that is defined in the same file. If other facts use a
fact, the fact is kept, and the wrong one is added under another name. Facts without a value, such as laws, are not
tried.

The prover checks all facts of a crate in one run. It must report each wrong fact by its name, with the error that
two values differ.

Needs Python 3.9 or later and the kit.
"""

import os
import re
import sys
import tempfile

HERE = os.path.dirname(os.path.realpath(__file__))
sys.path += [os.path.join(HERE, "..", "shared"), os.path.join(HERE, "..", "..", "tools")]

import proved
from checks import Checks
from running import write
from sources import files_below, read, read_module
from wrong_bodies import HOLE, Trial

FACTS = "proofs/Facts.antt"
# The two sides of the statement of a fact. The statement ends before the line `unfolding` or before the proof.
STATEMENT = re.compile(r"(?ms)^(?:pub )?\S+ :\s(?P<left>.*)≡(?P<right>.*?)(?=^unfolding |^\S+ = )")
# A literal in a value: a string, a number, the name of an error, or an empty list that is not the end of another list.
LITERAL = re.compile(r'"[^"]+"|\b0x[0-9A-Fa-f]+\b|(?<![\w.])\d+\b|(?<=\bNamed )[A-Z]\w+|(?<=\bnamed\.)\w+|(?<!∷ )\[\]')
# The named errors that a file imports.
IMPORTED = re.compile(r"TheVariants\.\{([^}]*)\}")
# The prover's error for a fact with a wrong value, in one line or with indented lines.
DIFFERS = re.compile(r"(?m)^\./proofs/Facts\.antt:\d+:\d+: error: `([^`]+)`: (?:.*\bexpected type\b|(?:.*\n  )*?.*\bdiffer only\b)")


class Facts:
    """The facts of a crate. Changes each of them to a wrong fact."""

    def __init__(self, crate):
        self.text = read(f"crates/{crate}/{FACTS}")
        definitions = read_module(f"{proved.ROOT}/crates/{crate}/{FACTS}").definitions
        self.texts = {name: definition.text.rstrip() for name, definition in definitions.items()}
        # Maps the name of each wrong fact to the text of the right fact, and to the text that replaces it.
        self.wrong = dict(filter(None, map(self.wrong_fact, self.texts)))

    def wrong_fact(self, name):
        """Returns the name of the wrong fact, with the right text and the text that replaces it. Returns an empty
        string if the fact has no value. If other facts use the fact, the replacement contains both the right and
        the wrong fact."""
        right, wrong = self.texts[name], self.with_wrong_value(name)
        others = "\n".join(text for fact, text in self.texts.items() if fact != name)
        if not wrong or not re.search(rf"(?<![^\s(]){re.escape(name)}(?![^\s)])", others):
            return wrong and (name, (right, wrong))
        copy = re.sub(rf"(?m)^((?:pub )?){re.escape(name)}(?= [:=])", rf"\g<1>{name}-wrong", wrong)
        return f"{name}-wrong", (right, f"{right}\n\n{copy}")

    def with_wrong_value(self, name):
        """Returns the text of a fact with a wrong value. If the fact has no literal, a wrong copy of a value that
        it names precedes it. Returns an empty string if there is no literal to change."""
        text = self.texts[name]
        statement = STATEMENT.match(text)
        if not statement:
            return ""
        if wrong := self.with_last_literal_changed(statement["right"]):
            return text[:statement.start("right")] + wrong + text[statement.end("right"):]
        for value in reversed([word for word in re.findall(r"\w+", statement[0]) if word in self.texts and word != name]):
            line, _, rest = self.texts[value].partition("\n")
            if wrong := self.with_last_literal_changed(rest):
                copy = re.sub(rf"\b{value}\b", f"wrong_{name}", f"{line}\n{wrong}")
                before, after = statement[0].rsplit(value, 1)
                return f"{copy}\n\n{before}wrong_{name}{after}{text[statement.end():]}"
        return ""

    def with_last_literal_changed(self, value):
        """Returns the text of a value with its last literal changed, or an empty string if it has no literal."""
        match = ([*LITERAL.finditer(value)] or [None])[-1]
        return value[:match.start()] + self.other_literal(match[0]) + value[match.end():] if match else ""

    def other_literal(self, literal):
        """Returns a different literal of the same kind."""
        if literal == "[]":
            return "(0 ∷ [])"
        end = '"' if literal[0] == '"' else ""
        if end or literal[0].isdigit():
            digits = literal.removesuffix(end)
            return digits[:-1] + ("1" if digits[-1] == "0" else "0") + end
        imported = re.findall(r"\w+", " ".join(IMPORTED.findall(self.text))) or ["OutOfMemory", "ReadingFailed"]
        return next(name for name in imported if name != literal)

    def with_wrong_facts(self):
        """Returns the text of the file in which all facts with a value are wrong."""
        text = self.text
        for right, wrong in self.wrong.values():
            assert text.count(right) == 1, right
            text = text.replace(right, wrong)
        return text


def try_facts(report, crate):
    """Tries each fact of a crate with a wrong value. (`rt ci` proves the right facts.) So that the prover checks
    only the facts, it gets a single function to check, whose proof is replaced by a hole and by an import of the
    facts."""
    facts = Facts(crate)
    if not facts.wrong:
        return
    error = proved.build_libraries(proved.crates()[crate].dependencies)
    path = next(os.path.relpath(parent, f"crates/{crate}/proofs") for parent, _, files in sorted(os.walk(f"crates/{crate}/proofs"))
                if "Answers.antt" in files)
    *_, function = names = path.split(os.sep)
    hole = HOLE.format(path=".".join([crate, "proofs", *names]), name=function)
    if not report.check(not error, crate, error):
        return
    with tempfile.TemporaryDirectory(prefix="wrong-facts-") as scratch:
        Trial(crate).copy_into(scratch, [])
        for file in files_below(f"{scratch}/proofs/{path}"):
            os.remove(file)
        write(scratch, f"proofs/{path}/Proof.antt", f"use Rattle.{crate}.proofs.Facts\n{hole}".encode())
        write(scratch, FACTS, facts.with_wrong_facts().encode())
        flags = ("--allow-holes", "--only", "::".join(names))
        output = proved.rattle("check", crate, scratch, *flags, before=("nice", "-n", "19")).stdout
    for name, (_, wrong) in facts.wrong.items():
        report.check(name in DIFFERS.findall(output), f"{crate}/{FACTS}", f"{name} is not rejected with a wrong value: {wrong}")


def main(names):
    os.chdir(proved.ROOT)
    report, crates_with_facts = Checks(), [crate for crate in proved.crates() if os.path.exists(f"crates/{crate}/{FACTS}")]
    unknown = [name for name in names if name not in crates_with_facts]
    if unknown:
        report.check(False, f"no {FACTS} in {' or '.join(unknown)}; the crates with facts are: {', '.join(crates_with_facts)}")
        return report.end()
    for crate in crates_with_facts:
        if not names or crate in names:
            try_facts(report, crate)
    return report.end()


if __name__ == "__main__":
    sys.exit(main(sys.argv[1:]))

#!/usr/bin/env python3
"""Checks that the prover rejects every must-fail edit of crates/*/wrong-bodies/*.edit.

    tests/proofs/wrong_bodies.py [--all] [--record] [--unchanged] [CRATE | CRATE/EDIT]..

By default, the script tries the edits of each crate that has changed since all its edits were rejected, or that
depends on a changed crate (tried_mutants.py). With names, it tries all edits of these crates, and these single
edits.

    --all          Try the edits of all crates.
    --record       Record the crates whose edits are all rejected in tests/proofs/tried_mutants.txt. Edits that another run
                   on this machine has tried with the same sources are not tried again.
    --unchanged    Copy the functions without changing them, and expect that all copies are proved. This shows that edits
                   are rejected because of their changes, and not because of the copying.

A must-fail edit changes the body of a function so that its contract no longer holds; CONTRIBUTING.md says how to
write one. The changed function is called a wrong body. `rt ci` tries the edits in must-fail/, one at a time; this
script tries them only if they are named.

How edits are tried:

  * Many edits are tried in one run of the prover. The wrong body is added after the function, under another name, with the
    same contract and a copy of the written proof, so that the callers of the function need not be proved again. A method of a
    trait's impl cannot have a second name; it is changed in place.
  * `why:` names the clause that is false for the wrong body, which is called the mutant there. If the prover proves this clause
    by search, without a written proof, then the copy ensures only this clause and has no written proof, so that nothing else
    can be the reason for the rejection.
  * All other bodies of the crate are replaced by endless loops, and their proofs by holes, so that the prover has to check
    only the wrong bodies. An edit that is not rejected in its group is tried again by itself.
  * The unchanged crate must be proved. In CI, `rt ci` has proved it (tests/shared/proved.py). Otherwise, the script checks
    the functions that the edits change.

An edit passes if the search for a proof of one of the function's own goals ends without a proof. It fails

  * if the proof search stops at one of its limits, so that the goal may be true, or if only the written proof no longer fits
    the function. Both happen with correct bodies too. A line `by:` in the edit can allow one of the two;
  * if the function is proved, or if the prover could not decide;
  * if the only result is that the prover stopped at a limit in a written proof;
  * if `why:` names a clause that the function does not have.

Some limits are times, which are reached sooner on a busy machine. Therefore an edit whose search stopped at a limit is
tried again after all others, and CI runs this script last. tests/proofs/wrong_bodies.txt has the number of edits of each
crate; if a number differs, the script fails too. The last line is `N passed, M failed`. Needs Python 3.9 or later
and the kit.
"""

import glob
import os
import re
import shutil
import sys
import tempfile
import threading
from collections import Counter
from concurrent.futures import FIRST_COMPLETED, ThreadPoolExecutor, wait
from contextlib import contextmanager

HERE = os.path.dirname(os.path.realpath(__file__))
sys.path += [HERE, os.path.join(HERE, "..", "shared"), os.path.join(HERE, "..", "..", "tools")]

import proved
import tried_mutants
from running import write
from sources import ROOT, files_below, read, read_source

LIST = "tests/proofs/wrong_bodies.txt"
# The directories of a crate with the edits that this script tries, and with those that `rt ci` tries.
HERE_TRIED, KIT_TRIED = "wrong-bodies", "must-fail"
# The memory that checking one of these crates takes at most, in bytes.
MEMORY = 3_000_000_000
# The outcomes of a wrong body. GAVE_UP and PROOF_ONLY are rejections that say nothing about the contract; a line `by:`
# of an edit may quote them, without the beginning `rejected: `. PROVED is the expected outcome with --unchanged.
REJECTED = "rejected"
GAVE_UP = "rejected: the proof search stops at its limit (no counterexample)"
PROOF_ONLY = "rejected: only the written proof no longer fits"
FAILED = "FAILED"
PROVED = "proved, unchanged"
# The maximum number of wrong bodies that are tried in one run of the prover.
GROUP = 60
# The directories of a crate that the prover reads.
PARTS = ("src", "specs", "proofs")
# A body that has every type and calls nothing, and a proof that is a hole, which the prover accepts with
# --allow-holes. Callers of such a function still rely on its contract.
LOOP = "{ loop {} }"
HOLE = """use Rattle.{path}.Statement.{{statement}}

pub {name}_spec : {{M : Type 1}} → statement M
{name}_spec = ?
"""
# The prover's message for a called function without a proof.
UNPROVED = re.compile(r"a call of `(\w+)::([^`]+)`, which has no proof")
# The beginnings of the prover's verdict on a proved function. (The proofs of functions that it calls may be holes.)
PROVED_VERDICTS = ("proved", "no holes", "depends on a hole in")
# The clause that a line `why:` names as false.
FALSE = re.compile(r"the clause `(\w+)` is false")
# The form of an edit file, its fields, and its changes.
FORM = re.compile(r"why: .+\n(?:(?:file|fn|by): .+\n|old: .+\nnew:.*\n)+")
FIELD, CHANGE = re.compile(r"(?m)^(why|file|fn|by): (.*)$"), re.compile(r"(?m)^old: (.*)\nnew: ?(.*)$")
# Parts of the prover's messages. SEARCHED: a search found no proof for a goal of the function. ENSURED: the goal is
# a clause of the contract. AT_LIMIT: the search was cut short.
SEARCHED = re.compile(r"did not prove `|it is not proved that")
ENSURED, AT_LIMIT = "what the function ensures", "gave up at one of its limits"
# The prover's messages if it stopped early, so that the goal may be true.
STOPPED = re.compile(r"may hold\b|could not tell|stopped at its own limit|step limit|memory limit")


class WrongBody:
    """A must-fail edit: its name, the function that must be rejected, and the changes of its body.

    With `is_unchanged`, each change replaces the old text by the same text. `edit_error` is the error in the edit, or
    empty."""

    def __init__(self, crate, file, number=0, is_unchanged=False):
        self.crate, self.label, text = crate, f"{crate}/{os.path.basename(file).removesuffix('.edit')}", read(file)
        self.is_for_kit = os.path.basename(os.path.dirname(file)) == KIT_TRIED
        # The function if a copy of it is changed, or None if it is changed in place; and the suffix of the copy's name.
        self.copied, self.suffix = None, f"_with_wrong_body_{number}"
        fields, self.is_unchanged = dict(FIELD.findall(text)), is_unchanged
        self.changes = [(old, old if is_unchanged else new) for old, new in CHANGE.findall(text)]
        self.path, self.function, self.by = (fields.get(key, "") for key in ("file", "fn", "by"))
        # `false_clause` is the clause that the edit names as false. `clause` is the same if the copy ensures only this
        # clause, otherwise empty.
        self.false_clause = (FALSE.match(fields.get("why", "")) or ["", ""])[1]
        proof = f"{ROOT}/crates/{crate}/proofs/{self.function.replace('::', '/')}"
        self.clause, self.edit_error = self.false_clause if is_searched(proof, self.false_clause) else "", ""
        if not (file.endswith(".edit") and FORM.fullmatch(text) and text.count("\nfn: ") == 1 and self.path and self.changes):
            self.edit_error = (
                "it must be named *.edit, begin with `why:`, and have one `fn:`, a `file:`, and pairs of `old:` and"
                " `new:`"
            )
        if self.by and f"rejected: {self.by}" not in (GAVE_UP, PROOF_ONLY):
            self.edit_error = f"`by: {self.by}` is none of the outcomes `{GAVE_UP}` and `{PROOF_ONLY}`"
        if not self.edit_error and not os.path.isfile(f"{ROOT}/crates/{crate}/{self.path}"):
            self.edit_error = f"the crate has no file {self.path}"
        # The changes: begin and end, as offsets in the file, and the new text.
        self.places = [] if self.edit_error else self.find_places(read_source(f"crates/{crate}/{self.path}"))

    def find_places(self, source):
        """Returns the changes as begin, end and new text. Sets the function that they change, or the error in the edit."""
        places, remaining = [], source.text
        for old, new in self.changes:
            offset, times = remaining.find(old), remaining.count(old)
            remaining = remaining.replace(old, "\0" * len(old))
            function = next((item for item in functions_in(source) if item.body < offset < item.end), None)
            ensured = [clause.name for clause in function.clauses if clause.kind == "ensures"] if function else []
            if times != 1:
                self.edit_error = f"the old text `{old}` occurs {times} times in {self.path}, expected once"
            elif not function or function.name != self.function.rpartition("::")[2]:
                self.edit_error = f"it changes text outside the body of {self.function}"
            elif self.false_clause and self.false_clause not in ensured:
                self.edit_error = f"the function {function.name} has no clause `{self.false_clause}`"
            # A method of a trait's impl cannot have a second name, so it is changed in place.
            self.copied = function if function and not function.trait else None
            if self.copied and self.clause not in ensured:
                self.clause = ""
            places.append((offset, offset + len(old), new))
        return places

    @property
    def checked(self):
        """The name of the function that the prover must reject: the copy, or the function itself."""
        return self.function + self.suffix if self.copied else self.function

    def pieces(self, text):
        """Returns what must be replaced in the text of the file, as begin, end and new text: this inserts a changed
        copy after the function, or changes the function in place."""
        function = self.copied
        if not function:
            return self.places
        other_clauses = [(clause.begin, clause.end, "") for clause in function.clauses
                         if self.clause and clause.kind == "ensures" and clause.name != self.clause]
        suffix = (function.name_end, function.name_end, self.suffix)
        copy = replace_pieces(text[:function.end], [*self.places, suffix, *other_clauses])
        return [(function.end, function.end, "\n\n" + copy[function.begin:])]

    def copy_proof(self, directory):
        """Copies the written proof of the function for the changed copy, if there is a written proof and the copy
        needs it. `directory` is the directory of the crate."""
        proof, copy = (f"{directory}/proofs/{function.replace('::', '/')}" for function in (self.function, self.checked))
        if not self.copied or self.clause or not os.path.isdir(proof):
            return
        shutil.copytree(proof, copy)
        qualified_name = re.compile(rf"\b{re.escape(self.function.replace('::', '.'))}\b")
        for path in files_below(copy):
            write("", path, qualified_name.sub(self.checked.replace("::", "."), read(path)).encode())


class Verdict:
    """The outcome for a wrong body, and the reason.

    `is_expected` is true if the outcome is the expected one: a search ended without a proof, or the body was rejected
    as its line `by:` says. `is_unclear` is true if the edit should be tried again, because a search gave up."""

    def __init__(self, body, outcome, reason):
        self.body, self.outcome, self.why = body, outcome, reason[:240]
        self.is_expected = outcome in (REJECTED, PROVED, f"rejected: {body.by}")
        self.is_unclear = outcome == GAVE_UP and not self.is_expected
        self.text = f"wrong body {body.label}: {outcome}: {self.why}"


def bodies_of(crate, is_unchanged):
    """Returns the wrong bodies of a crate."""
    files = [file for directory in (HERE_TRIED, KIT_TRIED) for file in sorted(glob.glob(f"crates/{crate}/{directory}/*"))]
    return [WrongBody(crate, file, number, is_unchanged) for number, file in enumerate(files)]


def free_memory():
    """Returns the available memory in bytes."""
    match = re.search(r"MemAvailable:\s+(\d+)", read("/proc/meminfo"))
    return 1024 * int(match[1]) if match else 0


def assume(directory, crate, functions):
    """Replaces the proofs of these functions by holes. `directory` is a copy of the crate."""
    for function in functions:
        *_, name = path = function.split("::")
        if "fn" in path or "++" in function:
            # A closure belongs to the body around it, and code that drops a value is not a function of the crate.
            continue
        proof = f"{directory}/proofs/{'/'.join(path)}"
        os.makedirs(proof, exist_ok=True)
        for file in [name for name in os.listdir(proof) if name.endswith(".antt")]:
            os.remove(f"{proof}/{file}")
        write(proof, "Proof.antt", HOLE.format(path=".".join([crate, "proofs", *path]), name=name).encode())


def is_searched(directory, clause):
    """Returns true if the prover proves this clause of a function by search. This is so if the function has no
    written proof in this directory, or if its written proof is only about other clauses."""
    if not os.path.isdir(directory):
        return True
    if os.listdir(directory) != ["Answers.antt"]:
        return False
    written = re.findall(r"(?m)^pub (\S+) :", read(f"{directory}/Answers.antt"))
    return all(re.fullmatch(rf"returns\S*-clause-(?!{clause}$)\w+", name) for name in written)


def functions_in(source):
    """Returns the functions of a source file that have a body."""
    return [item for item in source.items if item.keyword == "fn" and item.body]


def loops(source, changed):
    """Returns the replacements, as begin, end and new text, that turn the functions of a file into endless loops.
    Functions that are changed in place, at the offsets `changed`, are left out."""
    return [(item.body, item.end, LOOP) for item in functions_in(source)
            if "const fn " not in item.header and not any(item.body < offset < item.end for offset in changed)]


class ProverSlots:
    """Limits the number of provers that run at the same time, by the number of processors and the available memory."""

    def __init__(self):
        self.count = max(1, min(len(os.sched_getaffinity(0)), free_memory() // MEMORY))
        self.free = threading.Semaphore(self.count)

    @contextmanager
    def slot(self):
        """Waits until another prover may run. It may run during the body of the `with` statement."""
        with self.free:
            yield


class Trial:
    """Tries the wrong bodies of a crate, in copies of the crate."""

    def __init__(self, crate, slots=None):
        self.crate, self.slots = crate, slots
        # The functions that are proved in the unchanged crate.
        self.proved = []

    def begin(self, bodies, pool):
        """Makes sure that the unchanged crate is proved, and starts to try the groups. Returns the verdicts that
        are already known, and the futures of the others."""
        valid = [body for body in bodies if not body.edit_error]
        reason = proved.build_libraries(proved.crates()[self.crate].dependencies) or self.lacks_proof(valid)
        verdicts = [Verdict(body, FAILED, f"bad edit: {body.edit_error}" if body.edit_error else f"not tried: {reason}")
                    for body in bodies if body.edit_error or reason]
        return verdicts, {pool.submit(self.try_group, group) for group in ([] if reason else groups_of(valid))}

    def lacks_proof(self, bodies):
        """Returns the reason why the unchanged crate is not proved, or an empty string if it is. If `rt ci` has not
        proved it, or reported none of its functions, this method checks the functions that these bodies change."""
        is_proved, output = proved.were_proved([self.crate]), proved.ci_output()
        words = [word for function in sorted({body.function for body in bodies}) for word in ("--only", function)]
        # `rt ci` reports no functions of a crate that an earlier run had proved.
        if not output or is_proved and not proved.functions_of(self.crate, output):
            directory = f"crates/{self.crate}"
            if output:
                process = proved.rattle("check", self.crate, directory, *words)
            else:
                process = proved.run(["rt", "check", *words], directory)
            output, is_proved = process.stdout, re.search(r"(?m)^only=(\d+) proved=\1$", process.stdout)
        self.proved = proved.functions_of(self.crate, output)
        return "" if is_proved else f"the unchanged crate is not proved: {proved.first_error(output)}"

    def copy_into(self, directory, group):
        """Copies the crate to a directory, with the wrong bodies of a group, and with all other bodies replaced by
        endless loops."""
        for part in [part for part in PARTS if os.path.isdir(f"crates/{self.crate}/{part}")]:
            shutil.copytree(f"crates/{self.crate}/{part}", f"{directory}/{part}")
        for path in [os.path.relpath(file, directory) for file in files_below(f"{directory}/src")]:
            source = read_source(f"crates/{self.crate}/{path}")
            pieces = [piece for body in group if body.path == path for piece in body.pieces(source.text)]
            in_place = [begin for body in group if body.path == path and not body.copied for begin, _, _ in body.places]
            write(directory, path, replace_pieces(source.text, [*pieces, *loops(source, in_place)]).encode())

    def try_group(self, group):
        """Tries a group of wrong bodies, and then each one that was not rejected by itself. Returns the verdicts
        and an empty set of further futures, as `begin` does."""
        return [self.tried_alone(verdict.body) if verdict.outcome == FAILED else verdict for verdict in self.tried(group)], set()

    def tried_alone(self, body):
        """Tries a single body and returns the verdict. Tries it again if it calls a function that was not yet known
        to be proved."""
        known, (verdict,) = len(self.proved), self.tried([body])
        return self.tried_alone(body) if len(self.proved) > known else verdict

    def tried(self, group):
        """Tries a group in one copy of the crate, and returns the verdict on each body."""
        checked = {body.checked for body in group}
        with tempfile.TemporaryDirectory(prefix="wrong-bodies-") as scratch:
            self.copy_into(scratch, group)
            for body in group:
                body.copy_proof(scratch)
            assume(scratch, self.crate, [function for function in self.proved if function not in checked])
            output = self.check(scratch, checked)
        # If `rt ci` did not report the functions of the crate, a wrong body may call a function that is not known
        # to be proved. Such a function is then assumed to satisfy its contract. This cannot cause a rejection.
        self.proved += {name for crate, name in UNPROVED.findall(output) if crate == self.crate} - {*self.proved}
        return [self.verdict_on(body, output) for body in group]

    def check(self, directory, functions):
        """Lets the prover check these functions of the crate in this directory, and returns its output. (For a
        function that is not proved, the prover starts a second time, and uses the results of the first time, which
        are in the directory `--incremental`.)"""
        words = [word for function in sorted(functions) for word in ("--only", function)]
        with self.slots.slot(), tempfile.TemporaryDirectory(prefix="wrong-bodies-results-") as results:
            words += ["--allow-holes", "--incremental", results]
            return proved.rattle("check", self.crate, directory, *words).stdout

    def verdict_on(self, body, output):
        """Returns the verdict on a body. It depends on three parts of the prover's output: the line about the
        function, the notes above this line, and the errors in the function's written proof."""
        verdict_line = re.search(rf"(?m)^fn {re.escape(f'{self.crate}::{body.checked}')}: (.*)$", output)
        if not verdict_line or not re.search(r"(?m)^only=", output):
            return Verdict(body, FAILED, f"bad edit: it did not reach the prover: {proved.first_error(output)}")
        line, text_above = verdict_line[1], f"\nfn \n{output[:verdict_line.start()]}".rpartition("\nfn ")[2]
        if line.startswith(PROVED_VERDICTS) or body.is_unchanged:
            is_expected = line.startswith(PROVED_VERDICTS) and body.is_unchanged
            return Verdict(body, PROVED if is_expected else FAILED, f"the function is {line}")
        notes = [note for note in re.findall(r"(?m)^note: .*", text_above) if SEARCHED.search(note)]
        proof = f"./proofs/{body.checked.replace('::', '/')}/"
        # The indented lines after an error are its details.
        proof_lines = "\n".join(re.findall(rf"(?m)^{re.escape(proof)}.*(?:\n  .*)*", output)).split("\n")
        errors = [line for line in proof_lines if line.startswith(proof) and ": error: " in line]
        if body.clause:
            # Notes about the precondition of a call, or about an invariant, are ignored.
            notes = [line for line in notes if ENSURED in line]
        is_searched = bool(notes or not body.clause and SEARCHED.search(line))
        ended_searches = [line for line in notes if AT_LIMIT not in line]
        if is_searched and (ended_searches or not notes) and "could not tell" not in line:
            return Verdict(body, REJECTED, (ended_searches or [line])[0])
        stopped = next((error for error in (line, *errors, *proof_lines) if STOPPED.search(error)), "")
        if stopped:
            return Verdict(body, FAILED, f"the prover could not tell, or stopped at a limit: {stopped}")
        if is_searched:
            return Verdict(body, GAVE_UP, (notes or [line])[0])
        if errors or line.startswith("not proved") and "it calls `" not in line:
            return Verdict(body, PROOF_ONLY, (errors or [line])[0])
        return Verdict(body, FAILED, f"not rejected for a goal of the function itself: {line}")


def replace_pieces(text, pieces):
    """Returns the text with these replacements, which are given as begin, end and new text."""
    for begin, end, new in sorted(pieces, reverse=True):
        text = text[:begin] + new + text[end:]
    return text


def groups_of(bodies):
    """Splits the bodies into groups of about the same size, at most GROUP, such that no group changes a function in
    place twice."""
    in_order = sorted(bodies, key=lambda body: body.function)
    changes_in_place = Counter(body.function for body in in_order if not body.copied)
    count = max(max(changes_in_place.values(), default=0), -(-len(in_order) // GROUP))
    return [in_order[first::count] for first in range(count)]


def try_all(tasks):
    """Tries the wrong bodies of each crate as soon as the unchanged crate is proved, and yields the verdicts.
    Bodies whose search gave up are tried again at the end, one at a time."""
    slots, gave_up = ProverSlots(), []
    trials = {crate: Trial(crate, slots) for crate in tasks}
    with ThreadPoolExecutor(len(tasks) + slots.count) as pool:
        futures = {pool.submit(trials[crate].begin, bodies, pool) for crate, bodies in tasks.items()}
        while futures:
            done, futures = wait(futures, return_when=FIRST_COMPLETED)
            # If a call raised an exception, result() raises it again, which ends this run.
            for verdicts, more in [future.result() for future in done]:
                futures |= more
                gave_up += [verdict.body for verdict in verdicts if verdict.is_unclear]
                yield from (verdict for verdict in verdicts if not verdict.is_unclear)
    for body in gave_up:
        yield trials[body.crate].tried([body])[0]


def wrong_numbers(bodies, names):
    """Returns a failure for each crate whose number of edits differs from the number in LIST. If there are names,
    only their crates are compared."""
    listed_numbers = {crate: int(edits) for crate, edits in re.findall(r"(?m)^(\w+): (\d+)$", read(LIST))}
    compared = {name.partition("/")[0] for name in names} or {*listed_numbers, *bodies}
    numbers = [(crate, listed_numbers.get(crate, 0), len(bodies.get(crate, [])))
               for crate in sorted({*listed_numbers, *bodies} & compared)]
    return [f"{crate} has {actual} edits, but {LIST} lists {expected}" for crate, expected, actual in numbers if expected != actual]


def record_rejected(tasks, bodies, skipped, digests, passed, is_recorded):
    """Records the crates whose edits are all rejected: the skipped ones, and those whose edits were all tried and
    passed. `passed` has the number of passed edits of each crate."""
    complete = [crate for crate in tasks if passed[crate] == len(tasks[crate])
                and all(body.is_for_kit or body in tasks[crate] for body in bodies[crate])]
    rejected = {crate: digests[crate] for crate in (*skipped, *complete)}
    tried_mutants.record(rejected, bodies, tried_mutants.TRIED_HERE)
    if is_recorded:
        tried_mutants.record(rejected, bodies)


def main(words):
    names, flags = [word for word in words if not word.startswith("--")], {word for word in words if word.startswith("--")}
    if not flags <= {"--all", "--record", "--unchanged"}:
        raise SystemExit(__doc__)
    is_unchanged = "--unchanged" in flags
    os.chdir(ROOT)
    bodies = {crate: crate_bodies for crate in proved.crates() for crate_bodies in [bodies_of(crate, is_unchanged)] if crate_bodies}
    known = {name for crate in bodies for name in (crate, *(body.label for body in bodies[crate]))}
    unknown = [name for name in names if name not in known]
    if unknown:
        # If the crate is known, its edits are listed, and otherwise the crates.
        parts = {name.partition("/")[0] for name in unknown} & {*bodies}
        listed = [body.label for crate in sorted(parts) for body in bodies[crate]] or sorted(bodies)
        print(f"FAILED: no crate or edit is named {' or '.join(unknown)}; the names are: {', '.join(listed)}")
        print(f"0 passed, {len(unknown)} failed")
        return 1
    failures = wrong_numbers(bodies, names)
    digests, recorded_digests = tried_mutants.digests(bodies), tried_mutants.recorded()
    if "--record" in flags:
        recorded_here = tried_mutants.recorded(tried_mutants.TRIED_HERE)
        recorded_digests |= {crate: tried for crate, tried in recorded_here.items() if tried == digests.get(crate)}
    # The crates that need not be tried again.
    skipped = (
        set()
        if names or {"--all", "--unchanged"} & flags
        else {crate for crate in bodies if recorded_digests.get(crate) == digests[crate]}
    )
    is_tried = (
        lambda crate, body: body.label in names
        or not body.is_for_kit
        and (crate in names or not names and crate not in skipped)
    )
    tasks = {crate: tried for crate in bodies if (tried := [body for body in bodies[crate] if is_tried(crate, body)])}
    outcomes, passed_by_crate = {crate: Counter() for crate in tasks}, Counter()
    for crate in skipped:
        print(f"{crate}: not tried, because nothing has changed since all its wrong bodies were rejected")
    for verdict in try_all(tasks):
        print(verdict.text, flush=True)
        outcomes[verdict.body.crate][verdict.outcome] += 1
        passed_by_crate[verdict.body.crate] += verdict.is_expected
        if verdict.outcome in (GAVE_UP, PROOF_ONLY) and not verdict.is_expected:
            failures.append(f"{verdict.body.label}: {verdict.outcome}. Change a smaller function instead")
    for crate, counts in outcomes.items():
        kinds = (PROVED, FAILED) if is_unchanged else (REJECTED, GAVE_UP, PROOF_ONLY, FAILED)
        print(f"{crate}: " + ", ".join(f"{counts[kind]} {kind}" for kind in kinds))
    for failure in failures:
        print(f"FAILED: {failure}")
    failed = sum(counts[FAILED] for counts in outcomes.values()) + len(failures)
    if not is_unchanged and not failures:
        record_rejected(tasks, bodies, skipped, digests, passed_by_crate, "--record" in flags)
    passed = sum(passed_by_crate.values()) + len(skipped)
    print(f"{passed} passed, {failed} failed")
    return 1 if failed or not passed else 0


if __name__ == "__main__":
    sys.exit(main(sys.argv[1:]))

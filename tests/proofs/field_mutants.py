#!/usr/bin/env python3
"""Checks that contracts reject generated mutants: functions that reset a field of a struct, and functions that return success
instead of an error.

    tests/proofs/field_mutants.py [--list | --unchanged | --all] [CRATE[/FUNCTION]..]

A field mutant resets one field of a struct behind a `&mut` parameter: numbers and bytes to 0, a bool to false, an Option to
None, an enum to its first variant, a Vec, String or slice to an empty one. It resets the field when the function begins, at its
end, or before one of its early returns. The fields of nested structs are reset one by one. A success mutant returns `Ok` in
place of one `Err(..)`, of the error that a `?` passes on, or of the error of its last expression. An exported function for C
returns 0 in place of an error number. The value in `Ok` is made of zeros and empty lists. If a type has no such value, the
mutant gets a value from its caller, as another parameter.

A mutant is rejected in one of three ways:

  * The contract allows only one value of what the mutant changes. The prover shows this with a function that calls the correct
    one twice with equal arguments, and ensures that the results are equal. It knows only the contract, so each mutant that
    behaves differently violates the contract. These mutants need not be tried one by one. If the contract says which state
    a struct represents, both structs have to represent the same state (see represented_states.py). Then the search also has
    to end without a proof that a struct represents the same states after the field is reset. If there is such a proof, the
    field has no meaning, and its mutants are not rejected.
  * The search for a proof of the mutant ends without one. The prover tries mutants in groups, as wrong_bodies.py describes.
  * The search gave up at a limit, or only the function's written proof does not fit the mutant, which says nothing about the
    contract. Then the prover tries to show with a function that calls the correct one that the contract keeps the field
    unchanged. If it does not, the reset is tried around a call of the correct function: the search has to find a proof for
    the call, and to end without one for the call with the reset. If the search gave up at a success with a value of zeros,
    the success is tried with a value from the caller.

A proved mutant is a failure, because the contract allows the wrong function. A rejection that still says nothing is a
failure too, and so is a mutant that does not compile. There are two exceptions. One is a mutant that changes nothing: the
prover proves that in the unchanged function the field already has this value at that place, or that the error cannot occur.
The other is a mutant that is listed in tests/proofs/accepted_mutants.txt with a reason: no contract can reject it (for
example because the kit's contract of a call of std does not say when the call fails), nothing uses what it changes (for
example after an error), or the clause that it violates and the input for which it does, because the search stops at its
limit. A line of this list may be a pattern, in which a star stands for any text.

No mutants are made of

  * functions without `ensures`, which promise nothing (a method of a trait has the clauses of the trait);
  * modules that are compiled only for tests, which the prover does not check;
  * fields that the module of the function cannot set, because they are private to another module or crate;
  * fields and successes of a generic type, and enums of other crates or without a plain variant, for which there is no value;
  * the end of a function that returns a reference into the struct, because the borrow checker rejects the reset;
  * methods of traits that have no clauses of their own, if they return a struct without a value of zeros. Other methods of
    this kind are changed in place, because they cannot have a second name;
  * functions that report a failure as `None` or `false`: these are results and not errors.

tests/proofs/field_mutants.txt records each function of which no mutant is a failure. The digest of a function covers the kit's
logic, its body, its written proof, its mutants, those of them that are listed as accepted, and everything else on which the
outcomes can depend: the definitions, the lemmas and the contracts of the crate and of the crates below, but not the bodies of
other functions. Only functions whose digest differs are tried, or that are named as CRATE/FUNCTION; --all tries all. Each
processor tries some functions at a time, and these are then recorded, so that a run that was interrupted continues where it ended.

--list only prints the mutants. --unchanged tries each mutant without its reset or success, but with the code around it. All of
these have to be proved, which shows that the change itself is rejected and not the code around it. A run over all crates takes
hours, so it is part of a release and not of CI. The last line is `N passed, M failed`. Needs Python 3.9 or later and the kit.
"""

import functools
import hashlib
import os
import re
import shutil
import sys
import tempfile
import threading
from collections import Counter
from concurrent.futures import ThreadPoolExecutor, as_completed

HERE = os.path.dirname(os.path.realpath(__file__))
sys.path += [HERE, os.path.join(HERE, "..", "shared"), os.path.join(HERE, "..", "..", "tools")]

import proved
import tried_mutants
from generated_mutants import DoubleCall, Generator, OnlyReset, structs_of
from running import write
from sources import ROOT, Reader, files_below, read, read_source
from wrong_bodies import PROOF_ONLY, FAILED, GAVE_UP, REJECTED, PROVED_VERDICTS, ProverSlots, Trial, Verdict
from wrong_bodies import assume, functions_in, loops, replace_pieces

# The outcomes of a trial besides those of wrong_bodies.py.
PROVED, SAME_FUNCTION, UNFIT = "PROVED", "the same function", "does not compile"
AROUND = "rejected as a change around a call"
WITH_OTHER_VALUE = "rejected with another value"
# The contract determines the value that the mutant changes, so every other value violates it.
ONE_VALUE = "rejected by a contract that allows one value"
# The contract says that the function does not change the field that the mutant resets.
KEPT = "rejected by a contract that keeps the field"
ACCEPTED = "accepted for a listed reason"
GOOD = (ONE_VALUE, KEPT, REJECTED, AROUND, WITH_OTHER_VALUE, SAME_FUNCTION, ACCEPTED)
# The outcomes after which a mutant is tried in another way.
UNCLEAR = (PROOF_ONLY, GAVE_UP, FAILED)
OUTCOMES = (*GOOD, GAVE_UP, PROOF_ONLY, UNFIT, PROVED, FAILED)
LIST = "tests/proofs/field_mutants.txt"
# Has the mutants that the contract cannot reject, each in a line, with the reason in the indented lines below it.
ACCEPTED_LIST = "tests/proofs/accepted_mutants.txt"
HEAD = """\
# The outcomes of the mutants that tests/proofs/field_mutants.py generates, for each function of which no mutant is a failure:
# a digest of everything that decides this, and the numbers of mutants. Below them are the mutants that change nothing, and
# those that are listed in tests/proofs/accepted_mutants.txt.
"""
# The names of the files in the directory of a function's written proof.
OF_FUNCTION = ("Answers.antt", "Invariants.antt", "Proof.antt")
# The maximum number of mutants that are tried in one run of the prover.
GROUP = 40
# The maximum number of mutants of a function that are tried before the prover is asked which outputs the contract determines,
# because that takes about as long as a few mutants.
FEW = 6
# The names that the clause of a probe may use.
PROBED = ("◌≡◌", "◌≢◌", "◌<◌", "OnOk", "OnErr", "replicate", "None", "false")
# An error of the sources, as the prover reports it.
AT = re.compile(r"(?m)^(?:\./)?(src/[\w/]+\.rt):(\d+)(?::\d+)?: error")


class FieldTrial(Trial):
    """Tries the mutants of a crate, in copies of the crate."""

    def __init__(self, crate, slots=None):
        super().__init__(crate, slots)
        # The directory in which the prover keeps the results of each thread, so that each check proves only what has changed.
        self.results = threading.local()
        # For each struct of which contracts say which state it represents, the fields without a meaning.
        self.meaningless = {}

    @property
    def structs(self):
        return structs_of(self.crate)

    def represented_parts(self, generator, owners):
        """Yields the fields of a function's struct whose type is one of `owners`, with this type."""
        for name, kind in self.structs.declared(generator.item.owner, generator.module):
            if kind in owners:
                yield f".{name}", kind

    def check(self, directory, functions):
        words = [word for function in sorted(functions) for word in ("--only", function)]
        if not hasattr(self.results, "directory"):
            self.results.directory = tempfile.TemporaryDirectory(prefix="field-mutants-results-")
        with self.slots.slot():
            words += ["--allow-holes", "--incremental", self.results.directory.name]
            return proved.rattle("check", self.crate, directory, *words).stdout

    def try_mutants(self, group):
        """Tries a group, and returns the verdicts. Mutants that do not compile are taken out of the group. Those that
        call functions not known to be proved are tried again, once these functions are assumed."""
        settled = []
        while group:
            known, (text, verdicts, lines) = len(self.proved), self.try_once(group)
            if "\nonly=" not in f"\n{text}":
                unfit = {body for path, line in AT.findall(text) for body in lines(path, int(line))}
                error = proved.first_error(text)
                if not unfit:
                    return settled + [Verdict(body, FAILED, f"the group did not reach the prover: {error}") for body in group]
                settled += [Verdict(body, UNFIT, error) for body in unfit]
                group = [body for body in group if body not in unfit]
                continue
            again = [verdict.body for verdict in verdicts if verdict.outcome == FAILED and len(self.proved) > known]
            settled += [verdict for verdict in verdicts if verdict.body not in again]
            group = again
        return settled

    def try_double_calls(self, group):
        """Checks a group of `DoubleCall`s. Each reads from the output which of its clauses are proved. Those that do not
        compile are left out. Returns the group."""
        remaining = list(group)
        while remaining:
            known, (text, lines) = len(self.proved), self.run(remaining)
            if "\nonly=" in f"\n{text}" and len(self.proved) == known:
                for body in remaining:
                    body.read_proved_clauses(text)
                break
            if "\nonly=" not in f"\n{text}":
                unfit = {body for path, line in AT.findall(text) for body in lines(path, int(line))}
                remaining = [body for body in remaining if body not in unfit] if unfit else []
        return group

    def try_once(self, group):
        """Checks a copy of the crate with a group. Returns the output, the verdicts, and a function that gives the
        mutants at a line of a file."""
        text, lines = self.run(group)
        return text, [self.verdict(body, text) for body in group], lines

    def run(self, group):
        """Checks a copy of the crate with a group. Returns the output, and a function that gives the mutants at a line
        of a file."""
        checked = {body.checked for body in group}
        with tempfile.TemporaryDirectory(prefix="field-mutants-") as scratch:
            self.copy_into(scratch, group)
            for body in group:
                body.copy_proof(scratch)
            assume(scratch, self.crate, [function for function in self.proved if function not in checked])
            text = self.check(scratch, checked)
            spans = {path: copies_in(f"{scratch}/{path}") for path in {body.path for body in group}}
        self.learn(text)
        lines = lambda path, line: [body for body in group for name, first, last in spans.get(path, ())
                                    if body.path == path and name.endswith(body.suffix) and first <= line <= last]
        return text, lines

    def copy_into(self, directory, group):
        super().copy_into(directory, group)
        for path in {body.path for body in group}:
            imports = read_source(f"crates/{self.crate}/{path}").imports
            needed = [name for name in PROBED if name not in imports]
            text = read(f"{directory}/{path}")
            # An import follows the comment of the module and its attributes.
            offset = re.search(r"(?m)^(?!//!|#!|$)", text).start()
            if needed:
                write(
                    directory,
                    path,
                    f"{text[:offset]}ghost use Rattle.std.specs.Prelude.{{{', '.join(needed)}}};\n{text[offset:]}".encode(),
                )

    def learn(self, text):
        """Adds the functions that mutants call to those that are assumed as proved. In the unchanged crate they are proved."""
        unproved_calls = re.findall(r"a call of `(\w+)::([^`]+)`, which has no proof", text)
        self.proved += {name for crate, name in unproved_calls if crate == self.crate} - {*self.proved}

    def verdict(self, body, text):
        line = re.search(rf"(?m)^fn {re.escape(f'{self.crate}::{body.checked}')}: (.*)$", text)
        return Verdict(body, PROVED, line[1]) if line and line[1].startswith(PROVED_VERDICTS) else self.verdict_on(body, text)


def copies_in(file):
    """Returns the name, the first and the last line of each function in a file."""
    reader = Reader(file)
    return [(item.name, item.line, reader.text.count("\n", 0, item.end) + 1) for item in functions_in(reader.read())]


def require_dependencies(crate):
    """Builds the crates on which a crate depends. Ends the script if they are not proved."""
    error = proved.build_libraries(proved.crates()[crate].dependencies)
    if error:
        raise SystemExit(f"the crates on which {crate} depends are not proved: {error}")


def names_of(crate, known):
    """Returns the prover's names of the functions of a crate, as far as they are needed for methods of traits. Those
    that are not among the names in `known` are read from a check in which all bodies are endless loops."""
    structs = structs_of(crate)
    items = [(path, item) for path, (_, source) in structs.files.items() for item in functions_in(source) if item.trait]
    unnamed = [generator for path, item in items for generator in [Generator(structs, path, item, False, known)]
               if not generator.function and generator.would_have_mutants()]
    modules = {generator.module for generator in unnamed}
    if not modules:
        return known
    require_dependencies(crate)
    with tempfile.TemporaryDirectory(prefix="field-mutants-names-") as scratch:
        FieldTrial(crate).copy_into(scratch, [])
        shutil.rmtree(f"{scratch}/proofs", ignore_errors=True)
        words = [word for module in sorted(modules) for word in ("--only", module)]
        output = proved.rattle("check", crate, scratch, *(words if all(modules) else ()), "--allow-holes").stdout
    names = re.findall(rf"(?m)^fn {crate}::(.+?): ", output)
    if not names:
        raise SystemExit(f"{crate}: the prover names no function: {proved.first_error(output)}")
    return (*known, *names)


def generators_of(crate, is_unchanged=False, names=()):
    """Returns the generators of a crate's functions. Methods of traits have mutants if their names are given."""
    structs = structs_of(crate)
    items = [(path, item) for path, (_, source) in structs.files.items() for item in functions_in(source)]
    return [Generator(structs, path, item, is_unchanged, names) for path, item in items]


def determined_outputs(trial, mutants, generators):
    """Returns, for each function that has one of these mutants, those outputs that its contract determines and that a
    mutant changes."""
    changed = {}
    for body in mutants:
        changed.setdefault(body.function, set()).add(body.changes)
    known = {}
    for is_by_field in (False, True):
        double_calls = []
        for generator in generators:
            fields = {output for output in changed.get(generator.function, ()) if output} - {"result"}
            missing = {output for output in fields if output.partition(".")[0] not in known.get(generator.function, ())}
            if generator.function in changed and generator.is_copied and (missing or not is_by_field):
                double_calls.append(DoubleCall(generator, missing if is_by_field else ()))
        for number, body in enumerate(double_calls):
            body.suffix = f"_with_call_{number}"
        for group in map(trial.try_double_calls, split_evenly(double_calls)):
            for body in group:
                known[body.function] = known.get(body.function, frozenset()) | body.determined
    return known


def begin_trial(crate, mutants, slots):
    """Returns a trial for a crate, and the verdicts that are known before any mutant is tried: on all mutants if the
    unchanged functions are not proved, otherwise on those of generic functions, for which the prover uses other
    names."""
    trial, unnamed_verdicts = FieldTrial(crate, slots), []
    reason = trial.lacks_proof(mutants)
    while unknown := re.search(r"has no function `([^`]+)`", reason):
        unnamed_verdicts += [Verdict(body, UNFIT, reason) for body in mutants if body.function == unknown[1]]
        mutants = [body for body in mutants if body.function != unknown[1]]
        reason = trial.lacks_proof(mutants)
    return trial, unnamed_verdicts + [Verdict(body, FAILED, f"not tried: {reason}") for body in mutants if reason]


def find_meaningless(trial, generators, pool):
    """Sets the fields without a meaning of each struct of which the contracts of these functions say which state it
    represents. After a reset of such a field the struct represents the same states as before."""
    methods = {generator.item.owner: generator for generator in generators if generator.state_clause and generator.is_copied}
    resets = [OnlyReset(generator, field, reset) for owner, generator in methods.items()
              for field, reset, _ in trial.structs.fields(owner, generator.module)
              if not any(field.startswith(f"{nested}.") for nested, _ in trial.represented_parts(generator, methods))]
    for group in pool.map(lambda part: try_in_groups(trial, part), [resets[first::8] for first in range(8)]):
        for verdict in group:
            if verdict.outcome == PROVED:
                trial.meaningless.setdefault(verdict.body.item.owner, set()).add(verdict.body.resets)
            elif verdict.outcome in (UNFIT, FAILED):
                print(f"{verdict.body.label}: {verdict.outcome}: {verdict.why}", flush=True)
    for owner, generator in methods.items():
        for nested, kind in trial.represented_parts(generator, methods):
            fields = {f"self{nested}{field.removeprefix('self')}" for field in trial.meaningless.get(kind, ())}
            trial.meaningless[owner] = trial.meaningless.get(owner, set()) | fields


def try_functions(trial, generators, mutants, is_unchanged):
    """Tries the mutants of some functions of a crate, and returns their verdicts."""
    if is_unchanged:
        return try_in_groups(trial, mutants)
    meaningless = [body for body in mutants
                   if body.generator.state_clause and body.resets in trial.meaningless.get(body.item.owner, ())]
    mutants = [body for body in mutants if body not in meaningless]
    reason = "the struct represents the same states after this reset"
    verdicts = [Verdict(body, PROVED, reason) for body in meaningless]
    return [as_accepted(verdict) if is_accepted(verdict.body.label) else verdict for verdict in verdicts] + try_meaningful(
        trial, generators, mutants
    )


def try_meaningful(trial, generators, mutants):
    """Tries those mutants of some functions that may change the state of a struct, and returns their verdicts."""
    counts = Counter(body.function for body in mutants)
    known = determined_outputs(trial, [body for body in mutants if counts[body.function] > FEW], generators)
    settled = [body for body in mutants if body.is_settled(known.get(body.function, frozenset()))]
    verdicts = try_in_groups(trial, [body for body in mutants if body not in settled])
    unclear = [verdict.body for verdict in verdicts
               if verdict.outcome in UNCLEAR and counts[verdict.body.function] <= FEW]
    known = determined_outputs(trial, unclear, generators)
    settled += [body for body in unclear if body.is_settled(known.get(body.function, frozenset()))]
    others = [verdict for verdict in verdicts if verdict.body not in settled]
    return [Verdict(body, ONE_VALUE, "") for body in settled] + retry_unclear(trial, others)


def retry_unclear(trial, verdicts):
    """Tries again, in another way, the mutants that are proved or whose rejection says nothing about the contract.
    Returns the verdicts. After an unclear rejection, a function is tried that calls the unchanged one and then makes
    the change. For a proved mutant, a probe shows if it changes anything at all."""
    verdicts = with_kept_fields(trial, verdicts)
    unclear = [verdict.body for verdict in verdicts if verdict.outcome in UNCLEAR and verdict.body.around]
    calls = {body.function: body.with_body(f"{{ {body.call} }}") for body in unclear}
    called = {verdict.body.function for verdict in try_in_groups(trial, [*calls.values()]) if verdict.outcome == PROVED}
    around = {body: body.with_body(body.around) for body in unclear if body.function in called}
    verdicts_around = {verdict.body: verdict for verdict in try_in_groups(trial, [*around.values()])}
    other_values = [body for verdict in verdicts if verdict.outcome == GAVE_UP and (body := verdict.body.with_other_value)]
    verdicts_with_values = {verdict.body: verdict for verdict in try_in_groups(trial, other_values)}
    settled = []
    for verdict in verdicts:
        verdict_with_value = verdicts_with_values.get(verdict.body.with_other_value)
        if verdict_with_value and verdict_with_value.outcome == REJECTED:
            verdict = Verdict(verdict.body, WITH_OTHER_VALUE, verdict_with_value.why)
        verdict_around = verdicts_around.get(around.get(verdict.body))
        if verdict_around and verdict_around.outcome in (REJECTED, PROVED):
            verdict = Verdict(verdict.body, AROUND if verdict_around.outcome == REJECTED else PROVED, verdict_around.why)
        settled.append(verdict)
    proved_bodies = [verdict.body for verdict in settled if verdict.outcome == PROVED and verdict.body.copied]
    probes = {body: body.probe(body in around) if body.field else body.with_places(body.unreachable)
              for body in proved_bodies if body.field or body.unreachable}
    same = {verdict.body for verdict in try_in_groups(trial, [*probes.values()]) if verdict.outcome == PROVED}
    settled = [Verdict(verdict.body, SAME_FUNCTION, "the field has this value there, or the error cannot occur")
               if probes.get(verdict.body) in same else verdict for verdict in settled]
    return [as_accepted(verdict) if is_accepted(verdict.body.label) else verdict for verdict in settled]


def with_kept_fields(trial, verdicts):
    """Returns the verdicts, after trying for each unclear one if the contract keeps the field that the mutant resets."""
    unclear = [verdict.body for verdict in verdicts
               if verdict.outcome in UNCLEAR and verdict.body.resets and verdict.body.copied]
    probes = {(body.function, body.resets): body.kept_probe() for body in unclear}
    proved_probes = {verdict.body for verdict in try_in_groups(trial, [*probes.values()]) if verdict.outcome == PROVED}
    is_kept = lambda body: probes.get((body.function, body.resets)) in proved_probes
    return [Verdict(verdict.body, KEPT, "the contract says that the field is unchanged")
            if verdict.outcome in UNCLEAR and is_kept(verdict.body) else verdict for verdict in verdicts]


@functools.lru_cache(maxsize=None)
def accepted():
    """Returns the labels of the mutants in ACCEPTED_LIST, and the patterns there, which have a star for any text."""
    listed = [line for line in read(ACCEPTED_LIST).splitlines() if line and not line.startswith((" ", "#"))]
    patterns = [re.compile(".*".join(map(re.escape, line.split("*")))) for line in listed if "*" in line]
    return {line for line in listed if "*" not in line}, patterns


def is_accepted(label):
    labels, patterns = accepted()
    return label in labels or any(pattern.fullmatch(label) for pattern in patterns)


def as_accepted(verdict):
    """Returns the verdict on a mutant that ACCEPTED_LIST accepts. If its contract rejects it, it must not be listed there, but a
    pattern may match it. A mutant that does not compile, or that could not be tried, is a failure even if it is listed."""
    if verdict.outcome in (UNFIT, FAILED) or verdict.outcome in GOOD and verdict.body.label not in accepted()[0]:
        return verdict
    if verdict.outcome in GOOD:
        return Verdict(verdict.body, FAILED, f"{verdict.outcome}, but it is listed in {ACCEPTED_LIST}")
    return Verdict(verdict.body, ACCEPTED, verdict.why)


def try_in_groups(trial, bodies):
    """Tries mutants in groups, and returns the verdicts. A group changes no function in place twice."""
    for number, body in enumerate(bodies):
        body.suffix = f"_with_mutant_{number}"
    return [verdict for group in split_evenly(bodies) for verdict in trial.try_mutants(group)]


def split_evenly(bodies):
    """Splits bodies into groups of about the same size."""
    in_order = sorted(bodies, key=lambda body: body.function)
    most_per_function = max(Counter(body.function for body in in_order if not body.copied).values(), default=0)
    number = max(most_per_function, -(-len(in_order) // GROUP))
    return [in_order[first::number] for first in range(number)]


# ---- The record of earlier runs ----


class Digests:
    """The digests of a crate's functions, each of everything that decides the outcomes of the function's mutants."""

    def __init__(self, crate):
        self.crate = crate
        self.common = hashlib.sha256(tried_mutants.kit().encode())
        # The texts of the written proofs by the directory of the function.
        self.proofs = {}
        for each in (*proved.crates()[crate].dependencies, crate):
            self.common.update(
                f"\0{each} {proved.crates()[each].direct_dependencies} {proved.crates()[each].kit_dependencies}".encode()
            )
            for file in files_below(f"{ROOT}/crates/{each}/src", ".rt"):
                source = read_source(file)
                self.add(file, replace_pieces(source.text, loops(source, [])))
            for file in (*files_below(f"{ROOT}/crates/{each}/specs"), *files_below(f"{ROOT}/crates/{each}/proofs")):
                place, name = os.path.split(os.path.relpath(file, f"{ROOT}/crates/{each}/proofs"))
                if name not in OF_FUNCTION:
                    self.add(file, read(file))
                elif each == crate:
                    self.proofs[place] = self.proofs.get(place, "") + read(file)

    def add(self, file, text):
        bare = tried_mutants.COMMENT.sub(b"", text.encode())
        self.common.update(f"\0{os.path.relpath(file, ROOT)} {len(bare)}\0".encode() + bare)

    def of(self, generator, mutants):
        """Returns the digest of a function with these mutants."""
        digest = self.common.copy()
        item = generator.item
        listed = sorted(body.label for body in mutants if is_accepted(body.label))
        proof = self.proofs.get(generator.function.replace("::", "/"), "")
        parts = (item.text, proof, *(body.text() for body in mutants), *listed)
        for part in parts:
            bare = tried_mutants.COMMENT.sub(b"", part.encode())
            digest.update(f"\0{len(bare)}\0".encode() + bare)
        return digest.hexdigest()[:32]


def recorded():
    """Returns the record: for each crate and function, the digest and the lines below it."""
    text, record, crate = read(LIST) if os.path.exists(LIST) else "", {}, ""
    for match in re.finditer(r"(?m)^(?P<crate>\w+):$|^    (?P<function>\S+): (?P<digest>\w+)\n(?P<lines>(?:        .*\n)*)", text):
        crate = match["crate"] or crate
        if match["function"]:
            record.setdefault(crate, {})[match["function"]] = match["digest"], match["lines"]
    return record


def record(crate, names, entries):
    """Writes functions of a crate into the record: their digests, and the lines below them. `names` are all functions of
    the crate that have mutants; others are dropped."""
    crates = recorded()
    crates[crate] = {name: value for name, value in {**crates.get(crate, {}), **entries}.items() if name in names}
    text = HEAD
    for recorded_crate in (name for name in proved.crates() if crates.get(name)):
        functions = sorted(crates[recorded_crate].items())
        text += f"{recorded_crate}:\n" + "".join(f"    {name}: {digest}\n{lines}" for name, (digest, lines) in functions)
    write(ROOT, LIST, text.encode())


def lines_of(verdicts):
    """Returns the lines of the record for a function: the numbers of outcomes, and the mutants that change nothing."""
    lines = [f"        {outcome_counts(Counter(verdict.outcome for verdict in verdicts))}\n"]
    return "".join(lines + [f"        {verdict.body.description}: {verdict.outcome}\n" for verdict in verdicts
                            if verdict.outcome not in (ONE_VALUE, KEPT, REJECTED, AROUND, WITH_OTHER_VALUE)])


def outcome_counts(outcomes):
    return ", ".join([f"{sum(outcomes.values())} mutants", *(f"{outcomes[kind]} {kind}" for kind in OUTCOMES if outcomes[kind])])


def parts_of(tried, max_count):
    """Splits functions into lists with at most `max_count` mutants. A function with more mutants gets a list of its own."""
    parts, number = [[]], 0
    for generator, bodies in tried.items():
        if parts[-1] and number + len(bodies) > max_count:
            parts.append([])
            number = 0
        parts[-1].append(generator)
        number += len(bodies)
    return [part for part in parts if part]


def report(verdicts, good):
    """Prints the mutants that are failures."""
    for verdict in verdicts:
        if verdict.outcome not in good:
            print(f"{verdict.body.label}: {verdict.outcome}: {verdict.why}", flush=True)


class Run:
    """A run of this script: the names and flags of its command line, and its results so far."""

    def __init__(self, names, flags, pool, slots):
        self.names, self.flags, self.pool, self.slots = names, flags, pool, slots
        self.is_unchanged = "--unchanged" in flags
        self.good = {PROVED} if self.is_unchanged else {*GOOD}
        self.outcomes, self.skipped = Counter(), 0

    def mutants_of(self, crate):
        """Returns the functions of a crate that have mutants, each with its mutants, and the list of the functions that
        the command line selects."""
        generators = generators_of(crate, self.is_unchanged, names_of(crate, tuple(recorded().get(crate, ()))))
        mutants = {generator: bodies for generator in generators if (bodies := list(generator.all()))}
        selected = [generator for generator in mutants
                  if not self.names or {crate, f"{crate}/{generator.function}"} & {*self.names}]
        return mutants, selected

    def try_crate(self, crate, mutants, selected):
        """Tries the mutants of a crate, except those of functions that are recorded and not named, and records the results."""
        digests = Digests(crate)
        digest = {generator: digests.of(generator, bodies) for generator, bodies in mutants.items()}
        known = {name: value for name, (value, _) in recorded().get(crate, {}).items()}
        tried = {generator: mutants[generator] for generator in selected
                 if self.flags or f"{crate}/{generator.function}" in self.names
                 or known.get(generator.function) != digest[generator]}
        skipped = sum(len(mutants[generator]) for generator in selected if generator not in tried)
        self.skipped += skipped
        if not tried:
            print(f"{crate}: {f'{skipped} mutants, which are recorded' if skipped else 'no mutants'}", flush=True)
            return
        require_dependencies(crate)
        trial, early_verdicts = begin_trial(crate, [body for bodies in tried.values() for body in bodies], self.slots)
        report(early_verdicts, self.good)
        outcomes = Counter(verdict.outcome for verdict in early_verdicts)
        untried = {verdict.body.function for verdict in early_verdicts}
        tried = {generator: bodies for generator, bodies in tried.items() if generator.function not in untried}
        bodies_of = lambda part: [body for generator in part for body in tried[generator]]
        find_meaningless(trial, tried, self.pool)
        # Several parts are tried at the same time.
        parts = {self.pool.submit(try_functions, trial, part, bodies_of(part), self.is_unchanged): part
                 for part in parts_of(tried, GROUP)}
        for future in as_completed(parts):
            part, verdicts = parts[future], future.result()
            report(verdicts, self.good)
            outcomes += Counter(verdict.outcome for verdict in verdicts)
            own_verdicts = {generator: [verdict for verdict in verdicts if verdict.body in tried[generator]] for generator in part}
            if not self.is_unchanged:
                record(crate, {generator.function for generator in mutants},
                       {generator.function: (digest[generator], lines_of(own_verdicts[generator])) for generator in part
                        if {verdict.outcome for verdict in own_verdicts[generator]} <= self.good})
        print(f"{crate}: {outcome_counts(outcomes)}{f', and {skipped} that are recorded' if skipped else ''}", flush=True)
        self.outcomes += outcomes


def unknown_names(names):
    """Returns an error that names what was expected instead, if one of the names is that of no crate and of no function with
    mutants. Otherwise returns an empty string."""
    crates = [*proved.crates()]
    for name in names:
        crate, slash, function = name.partition("/")
        if crate not in crates:
            return f"no crate is named {crate}; the crates are: {', '.join(crates)}"
        if not slash:
            continue
        generators = generators_of(crate, False, names_of(crate, tuple(recorded().get(crate, ()))))
        functions = sorted({generator.function for generator in generators} - {""})
        if function not in functions:
            return f"{crate} has no function {function}; its functions are: {', '.join(functions)}"
    return ""


def main(words):
    names, flags = [word for word in words if not word.startswith("--")], {word for word in words if word.startswith("--")}
    if not any(flags <= each for each in ({"--list"}, {"--unchanged"}, {"--all"})):
        raise SystemExit(__doc__)
    os.chdir(ROOT)
    unknown = unknown_names(names)
    if unknown:
        print(f"FAILED: {unknown}\n0 passed, 1 failed")
        return 1
    slots = ProverSlots()
    with ThreadPoolExecutor(slots.count) as pool:
        run = Run(names, flags, pool, slots)
        for crate in (each for each in proved.crates() if not names or each in {name.partition("/")[0] for name in names}):
            mutants, selected = run.mutants_of(crate)
            if "--list" in flags:
                print("".join(f"{body.label}\n" for generator in selected for body in mutants[generator]), end="")
            else:
                run.try_crate(crate, mutants, selected)
    if "--list" in flags:
        return 0
    passed = sum(run.outcomes[kind] for kind in run.good)
    failed = sum(run.outcomes.values()) - passed
    print(f"{passed + run.skipped} passed, {failed} failed")
    return 1 if failed or not passed + run.skipped else 0


if __name__ == "__main__":
    sys.exit(main(sys.argv[1:]))

"""Contracts that say which state a struct represents, for tests/proofs/field_mutants.py.

A clause of such a contract has this form, with a predicate like `HoldsState`, and sometimes with more premises:

    ensures { (s : State) → HoldsState self.old s → HoldsState self.new (next s) }

The clause determines the state that the new struct represents, but not every field. For example, the number of bytes that are
left has no meaning if the size is not known. So a double call (see field_mutants.py) has to show that both new structs represent
the same state. The search of the prover does not find the proof, so this module writes it.

A call that writes a message has a clause of another form: it determines the new state, the result and the message unless the
result is NoRoom. So the double call requires that neither result is NoRoom. Mutants that return a success instead of an error are
then tried one by one.
"""

import re
from typing import NamedTuple

# A value that a clause is about: `(s : State)`.
BINDER = re.compile(r"\((\w+) : \w+\)")
# The premise that the struct represents the state.
REPRESENTED = re.compile(r"(\w+) self\.old s")
# `CallSteps` abbreviates a conclusion with these premises.
CALL_STEPS = re.compile(r"CallSteps .* self\.old self\.new result")
CALL_STEPS_PREMISES = ("(s : State)", "Represents self.old s")
# The conclusions about a call that writes a message. Each is a record, here with its field that is about the new state and the
# result. The value of this field is a function of a proof that the result is not NoRoom.
CALLS_WITH_MESSAGE = {"SignatureSteps": ".steps", "SignatureLeads": ".leads"}
NOT_NO_ROOM = "result.{} ≢ Err (WrongUse NoRoom)"
IMPORTS = "use Rattle.std.proofs.Common.{◌∙◌, sym}\n"
IMPORTS_FOR_LENGTHS = """\
use Rattle.std.specs.Prelude.{◌≡◌, ◌++◌, ℕ, Bool, true, false, List, Option, Some, None, Result, Ok, Err, IfOk, OnErr, take, drop}
use Rattle.std.proofs.Common.{◌∙◌, sym, ap, true≢false}
use Rattle.std.proofs.lemmas.List.{take-append-drop}
use Rattle.minisign.specs.SignatureText.{SignatureTextRecord}
use Rattle.minisign_external.specs.declared.public_keys.PublicKeyValue.{PublicKeyValue}
use Rattle.minisign_external.specs.declared.state.Refusal.{Refusal}
use Rattle.minisign_install.specs.Faults.{Fault, InstallFault}
use Rattle.minisign_install.specs.Installations.{HasMessage, SignatureLeads, SignatureSteps, comment_message, judged_text}
use Rattle.minisign_install.specs.Installations.{without_length}
use Rattle.minisign_install.specs.Step.{State}
use Rattle.minisign_install.specs.declared.installation.progress.Progress.{Progress}
"""
# The lemmas about two calls whose results are equal except for the lengths in them: if they wrote the same message, they returned
# the same length and wrote the same bytes.
LEMMAS_FOR_LENGTHS = """
same_message : (message : Option (List ℕ)) (n m : ℕ) (before x y : List ℕ) → HasMessage message n before x
    → HasMessage message m before y → (n ≡ m) × (x ≡ y)
same_message (Some text) n m before x y (n_is, within, front, rest) (m_is, also_within, other_front, other_rest) =
    let same = n_is ∙ sym m_is in
    (same, sym (take-append-drop n x) ∙ ap (λ l. l ++ drop n x) (front ∙ sym other_front)
    ∙ ap (λ l. take m y ++ l) (rest ∙ ap (λ k. drop k before) same ∙ sym other_rest) ∙ take-append-drop m y)
same_message None n m before x y (n_is, unchanged) (m_is, also_unchanged) =
    (n_is ∙ sym m_is, unchanged ∙ sym also_unchanged)

is_ok : Result Unit (Refusal InstallFault) → Bool
is_ok (Ok n) = true
is_ok (Err e) = false

with_length : Result Unit (Refusal InstallFault) → Result ℕ (Refusal InstallFault)
with_length (Ok n) = Ok 0
with_length (Err e) = Err e

same_lengths : (r q : Result ℕ (Refusal InstallFault)) → without_length r ≡ without_length q → IfOk r (λ n. n ≡ 0)
    → IfOk q (λ n. n ≡ 0) → r ≡ q
unfolding is_ok with_length
same_lengths (Ok n) (Ok m) same one other = ap (λ k. Ok k) (one ∙ sym other)
same_lengths (Err e) (Err f) same one other = ap with_length same
same_lengths (Ok n) (Err f) same one other = absurd (true≢false (ap is_ok same))
same_lengths (Err e) (Ok m) same one other = absurd (true≢false (sym (ap is_ok same)))

same_outputs : (message : Option (List ℕ)) (r q : Result ℕ (Refusal InstallFault)) (before x y : List ℕ)
    → without_length r ≡ without_length q → IfOk r (λ n. HasMessage message n before x)
    → IfOk q (λ n. HasMessage message n before y) → OnErr r (x ≡ before) → OnErr q (y ≡ before)
    → (r ≡ q) × (x ≡ y)
unfolding is_ok with_length
same_outputs message (Ok n) (Ok m) before x y same one other on_error other_on_error =
    let both = same_message message n m before x y one other in
    (ap (λ k. Ok k) both.0, both.1)
same_outputs message (Err e) (Err f) before x y same one other on_error other_on_error =
    (ap with_length same, on_error ∙ sym other_on_error)
same_outputs message (Ok n) (Err f) before x y same one other on_error other_on_error =
    absurd (true≢false (ap is_ok same))
same_outputs message (Err e) (Ok m) before x y same one other on_error other_on_error =
    absurd (true≢false (sym (ap is_ok same)))

SignatureSteps_determines : (text : List ℕ) (time : Option ℕ) (s : State) (r q : Result ℕ (Refusal InstallFault))
    (P Q : State → Type 0) (before x y : List ℕ) → SignatureSteps text time s r P before x
    → SignatureSteps text time s q Q before y → without_length r ≡ without_length q → OnErr r (x ≡ before)
    → OnErr q (y ≡ before) → (r ≡ q) × (x ≡ y)
SignatureSteps_determines text time s r q P Q before x y one other same on_error other_on_error =
    same_outputs (comment_message (judged_text s text)) r q before x y same one.message other.message on_error
    other_on_error

SignatureLeads_determines : (judged : Result (SignatureTextRecord × List PublicKeyValue) Fault) (time : Option ℕ)
    (s : State) (r q : Result ℕ (Refusal InstallFault)) (new other_new : Progress) (before x y : List ℕ)
    → SignatureLeads judged time s r new before x → SignatureLeads judged time s q other_new before y
    → without_length r ≡ without_length q → OnErr r (x ≡ before) → OnErr q (y ≡ before) → (r ≡ q) × (x ≡ y)
SignatureLeads_determines judged time s r q new other_new before x y one other same on_error other_on_error =
    same_outputs (comment_message judged) r q before x y same one.message other.message on_error other_on_error
"""


class StateClause(NamedTuple):
    """A clause about the state that a struct represents: the premises, and the conclusion."""

    # The name of the clause, with a dot in front, as a proof appends it to `ensures`. It is empty if a proof needs no name.
    label: str
    premises: tuple
    conclusion: str
    # The predicate that says which states a struct represents.
    predicate: str

    @property
    def message_field(self):
        """The field of the conclusion that is about the new state, for a call that writes a message; otherwise empty."""
        return CALLS_WITH_MESSAGE.get(self.conclusion.partition(" ")[0], "")

    @property
    def is_conditional(self):
        """True if the clause is not about all results: not about NoRoom, or only about results after some arguments."""
        return bool(self.message_field) or not BINDER.match(self.premises[0])

    @property
    def is_about_length(self):
        """True if the conclusion is about the result except for the length in it, which other clauses determine."""
        return bool(self.message_field) or "(without_length result)" in self.conclusion

    @property
    def is_pair(self):
        """True if the conclusion has a second part, which is about the result."""
        return not self.conclusion.startswith(f"{self.predicate} ") or "×" in self.conclusion

    def double_clause(self, output, left, right):
        """Returns a clause of a double call: both calls have the same output, which is `left` after the first call and
        `right` after the second one."""
        room = [NOT_NO_ROOM.format(number) for number in (0, 1)] if self.message_field else []
        same = f"{left} ≡ {right}"
        if output == "self":
            same = f"(reached : State) × {self.predicate} {left} reached × {self.predicate} {right} reached"
        return " → ".join([*self.premises, *room, same])


def state_clause(item):
    """Returns the clause of a function about the state that its struct represents, or None if there is none."""
    ensured = [clause for clause in item.clauses if clause.kind == "ensures"]
    for clause in ensured:
        text = " ".join(clause.text.split())
        *premises, conclusion = split_at_arrows(text)
        if CALL_STEPS.fullmatch(conclusion):
            premises += CALL_STEPS_PREMISES
        predicates = [match[1] for premise in premises if (match := REPRESENTED.fullmatch(premise))]
        if predicates:
            label = f".{clause.name}" if clause.name and len(ensured) > 1 else ""
            return StateClause(label, tuple(premises), conclusion, predicates[0])
    return None


def split_at_arrows(text):
    """Returns the parts of a clause between the arrows that are not in parentheses."""
    parts, depth = [""], 0
    for sign in text:
        depth += (sign in "([{") - (sign in ")]}")
        parts = [*parts, ""] if sign == "→" and depth == 0 else [*parts[:-1], parts[-1] + sign]
    return [part.strip() for part in parts]


class DoubleCallProof:
    """The proof of a double call of a function. `equations` has for each parameter that is passed twice the name of the
    requirement that both are equal."""

    def __init__(self, clause, function, equations):
        self.clause, self.equations = clause, equations
        self.one_call, self.other_call = (f"c.{function}-{each}_call.ensures" for each in ("one", "other"))
        # The names of the premises in the proof, and those of the proofs that neither result is NoRoom.
        names = [BINDER.findall(premise) or [f"premise_{number}"] for number, premise in enumerate(clause.premises)]
        self.premises = " ".join(name for each in names for name in each)
        self.rooms = ("room", "other_room") if clause.message_field else ()

    def of_other_call(self, label, names):
        """Returns a clause of the second call, with the parameters of the first one. `names` are the parameters in the
        clause."""
        equal = ", ".join(f"c.requires.{equation}" for name, equation in self.equations.items() if name in names)
        return f"(rw ({equal}) at {self.other_call}{label})"

    def terms(self):
        """Returns the proof for each output."""
        clause = self.clause
        names = re.findall(r"\w+", " ".join([*clause.premises, clause.conclusion]))
        both = (f"({self.one_call}{clause.label} {self.premises})",
                f"({self.of_other_call(clause.label, names)} {self.premises})")
        steps = [f"({each}{clause.message_field} {room})" for each, room in zip(both, self.rooms)] or both
        states = [f"{step}.0" if clause.is_pair else step for step in steps]
        terms = {"self": f"(_, {', '.join(states)})", "result": f"{steps[0]}.1 ∙ sym {steps[1]}.1"}
        if clause.message_field:
            same = (f"({clause.conclusion.partition(' ')[0]}_determines{' _' * 10} {both[0]} {both[1]} ({terms['result']})"
                    f" {self.one_call}.unchanged {self.of_other_call('.unchanged', ('message',))})")
            terms |= {"result": f"{same}.0", "message": f"{same}.1"}
        elif clause.is_about_length:
            terms["result"] = f"same_lengths _ _ ({terms['result']}) {self.one_call}.is_zero {self.other_call}.is_zero"
        return terms

    def text(self, path, outputs):
        """Returns the text of the file Answers.antt. `path` is the module of the proof, and `outputs` has the output that
        each clause is about."""
        terms, is_about_length = self.terms(), self.clause.is_about_length
        answers = [f"\npub returns-clause-{name} : goal.returns-clause-{name}\n"
                   f"returns-clause-{name} c = λ {' '.join([self.premises, *self.rooms])}. {terms[output]}\n"
                   for name, output in outputs.items() if output in terms]
        return "".join([IMPORTS_FOR_LENGTHS if is_about_length else IMPORTS, f"use Rattle.{path}.Goals as goal\n",
                        LEMMAS_FOR_LENGTHS if is_about_length else "", *answers])

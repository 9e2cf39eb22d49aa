"""The generated mutants that tests/proofs/field_mutants.py tries: functions that reset a field of a struct, and functions that
return success instead of an error. Also the functions with which the prover shows what a contract says about a mutant."""

import functools
import os
import re

import proved
from represented_states import DoubleCallProof, state_clause
from running import write
from sources import NAME, ROOT, Reader, files_below
from wrong_bodies import PROVED_VERDICTS, WrongBody

# The prover has to show that control does not reach this.
UNREACHABLE = "unreachable!()"
# Stands for the suffix of a name until it is known.
SUFFIX = "_@"
INTEGER = re.compile(r"[iu](?:8|16|32|64|128|size)")
FIELD = re.compile(r"(?m)^[ \t]*(?P<public>pub(?:\([^)]*\))?\s+)?(?P<name>\w+): (?P<type>[^\n]+?),?$")
# Matches the types of parameters that can be passed twice.
COPIED = re.compile(r"&(?!(?:'\w+ )?mut )|Option<&(?!mut )|(?:[iu]\d+|[iu]size|bool|Global|\[\w+; .*\])$")
# Matches types whose lifetime has no name, and `Self`, which has no meaning outside of its impl.
UNNAMED = re.compile(r"&(?!')|'_|\bSelf\b")
# The values that reset a field of a type.
VALUES = {"()": "()", "bool": "false", "&str": '""', "&[u8]": "&[]"}
# The result of an exported function for C after an error: the number of the error.
NUMBER = re.compile(r"\.number\(\)|\bnumber_of(?P<macro>!)?\(|(?<=[>{])\s+(?P<constant>[A-Z][A-Z0-9_]{3,})(?=\s*[,}])")


class Mutant(WrongBody):
    """A mutant of one function: the pieces of text that change it, and a description of the change. A method of a trait's `impl`
    cannot have a second name. If it has clauses of its own, its copy is a method of the type. Otherwise it is changed in
    place."""

    def __init__(self, generator, places, description, field="", around="", call="", changes="", outputs=frozenset(), resets=""):
        self.generator, self.crate, self.path = generator, generator.structs.crate, generator.path
        self.item, self.function, self.places = generator.item, generator.function, places
        self.copied = self.item if generator.is_copied else None
        self.description, self.label, self.suffix = description, f"{self.crate}/{self.function}: {description}", ""
        # A condition, which is true if the field already has the reset value where the mutant resets it. Then the mutant
        # changes nothing.
        self.field = field
        # A body that calls the unchanged function, and then makes the same change as the mutant.
        self.around = around
        self.call = call
        # The same mutant with a value from its caller, if this one returns a success with a value of zeros.
        self.with_other_value = None
        # The changes with which the function must not reach the error, for a mutant that returns a success instead.
        self.unreachable = []
        self.clause = self.false_clause = self.by = self.edit_error = ""
        self.is_for_kit = self.is_unchanged = self.is_around = False
        # The output that the mutant changes, if there is exactly one, and all outputs of the function.
        self.changes, self.outputs = changes, outputs
        # The field that the mutant resets, or an empty string.
        self.resets = resets

    def probe(self, is_call):
        """Returns the unchanged function, or a function that calls it, with one clause: the field has the value to which the mutant
        resets it. If the prover accepts it, the mutant changes nothing."""
        body = self.item.body
        clause = f"ensures probe {{ {self.field} }}\n"
        probe = self.with_body(f"{clause}{{ {self.call} }}") if is_call else self.with_places([(body, body, clause)])
        probe.clause = "probe"
        return probe

    def kept_probe(self):
        """Returns a function that calls the unchanged one, with one clause: the field that the mutant resets is unchanged. If the
        prover accepts it, the contract says so, and the mutant violates the contract unless the field has the reset value."""
        name, _, field = self.resets.partition(".")
        probe = self.with_body(f"ensures kept {{ {name}.new.{field} ≡ {name}.old.{field} }}\n{{ {self.call} }}")
        probe.clause = "kept"
        return probe

    def with_places(self, places):
        return Mutant(self.generator, places, self.description)

    @property
    def checked(self):
        """The name of the function that the prover must reject: the copy, or the function itself."""
        return self.generator.copied_as + self.suffix if self.copied else self.function

    def pieces(self, text):
        return self.generator.in_impl(super().pieces(text)) if self.copied else self.places

    def with_body(self, body):
        """Returns the function with another body, for which no written proof is needed."""
        copy = self.with_places([(self.item.body, self.item.end, body)])
        copy.is_around = True
        return copy

    def copy_proof(self, directory):
        if not self.is_around:
            super().copy_proof(directory)

    def is_settled(self, determined):
        """Returns true if the contract determines what this mutant changes. `determined` has the outputs that it determines (see
        `DoubleCall`)."""
        clause = self.generator.state_clause
        if clause and clause.is_conditional and self.changes == "result":
            # The double call says nothing about some errors.
            return False
        return (self.changes in determined or self.changes.partition(".")[0] in determined
                or determined >= self.outputs > set())

    def text(self):
        """Returns the pieces as a text, for a digest."""
        return f"{self.label} {[new for _, _, new in self.places]}\n"


class DoubleCall(Mutant):
    """A function that calls the unchanged function twice, with equal arguments, and ensures that the outputs of both
    calls are equal: the result and what is behind each `&mut` parameter. The prover knows only the contract of the
    function, so a clause that it proves shows that the contract allows only one value of this output. Then every mutant
    with another value violates the contract. If the contract says which state a struct represents, the structs after both
    calls have to represent the same state (see represented_states.py)."""

    def __init__(self, generator, fields=()):
        super().__init__(generator, [], "two calls")
        self.added, self.ensured, self.equations = generator.call_twice(fields)
        # The outputs that the contract determines. It is empty until the prover has run.
        self.determined = frozenset()

    def pieces(self, text):
        return self.generator.in_impl([(self.item.end, self.item.end, self.added.replace(SUFFIX, self.suffix))])

    def copy_proof(self, directory):
        if self.generator.state_clause:
            proof = DoubleCallProof(self.generator.state_clause, self.item.name, self.equations)
            path = f"{self.crate}::proofs::{self.checked}".replace("::", ".")
            place = f"{directory}/proofs/{self.checked.replace('::', '/')}"
            os.makedirs(place)
            write(place, "Answers.antt", proof.text(path, self.ensured).encode())

    def read_proved_clauses(self, output):
        """Reads from the output of a check which clauses are proved."""
        line = re.search(rf"(?m)^fn {re.escape(f'{self.crate}::{self.checked}')}: (.*)$", output)
        goals = {f"returns-clause-{name}": output_name for name, output_name in self.ensured.items()}
        unproved = re.search(r"`search` did not prove ((?:`[^`]+`(?:, )?)+)", line[1]) if line else None
        refused = re.search(r"it stands on ((?:`[^`]+`(?:, )?)+), which antt refuses", line[1]) if line else None
        named = [name for each in (unproved, refused) if each for name in re.findall(r"`([^`]+)`", each[1])]
        missing = [name.rpartition(".Answers.")[2] for name in named]
        if line and (line[1].startswith(PROVED_VERDICTS) or missing and all(goal in goals for goal in missing)):
            self.determined = frozenset({*goals.values()} - {goals[goal] for goal in missing})


class OnlyReset(Mutant):
    """A function that only resets a field, and ensures that the struct represents the same states as before. If it is
    proved, the field has no meaning, and no contract about states rejects a mutant that resets it."""

    def __init__(self, generator, field, reset):
        super().__init__(generator, [], f"only self{reset}", resets=f"self{field}")
        predicate = generator.state_clause.predicate
        clause = f"{{ (s : State) → {predicate} self.old s → {predicate} self.new s }}"
        # The prover names a clause only if there is another one.
        self.added = (f"\n\n    fn only_reset{SUFFIX}(&mut self)\n        ensures same {clause}\n"
                      f"        ensures same_again {clause}\n    {{ self{reset}; }}\n")

    @property
    def checked(self):
        return "::".join([self.generator.copied_as.rpartition("::")[0], f"only_reset{self.suffix}"])

    def pieces(self, text):
        return [(self.item.end, self.item.end, self.added.replace(SUFFIX, self.suffix))]

    def copy_proof(self, directory):
        pass


@functools.lru_cache(maxsize=None)
def structs_of(crate):
    return Structs(crate)


class Structs:
    """The structs that a crate's functions can use: those of the crate, and of the crates that it depends on."""

    def __init__(self, crate):
        self.crate, self.by_name, self.files = crate, {}, {}
        # The values of constants, as they are written.
        self.constants = {}
        for each in (crate, *proved.crates()[crate].dependencies):
            files = {}
            for file in files_below(f"{ROOT}/crates/{each}/src", ".rt"):
                path = os.path.relpath(file, f"{ROOT}/crates/{each}")
                reader = Reader(f"crates/{each}/{path}")
                files[path] = reader, reader.read()
            tests = test_modules(files)
            for path, (reader, source) in files.items():
                module = module_of(path)
                if f"{module}::".startswith(tests):
                    continue
                if each == crate:
                    self.files[path] = (reader, source)
                for item in source.items:
                    if item.keyword == "const" and (value := re.search(r" = (\d+);$", item.text)):
                        self.constants[item.name] = value[1]
                    if item.keyword in ("struct", "enum"):
                        self.by_name.setdefault(item.name, (each, module, item))

    def declared(self, name, module):
        """Yields the fields of a struct that a module may set, as name and type."""
        crate, home, item = self.by_name.get(name, ("", "", None))
        if not item or item.keyword != "struct":
            return
        tuple_ = re.search(r"struct \w+(?:<[^(]*>)?\((.*)\)", item.header + item.text, re.S) if "{" not in item.text else None
        if tuple_:
            declared = [re.fullmatch(r"(pub(?:\([^)]*\))?\s+)?(.*)", each.strip(), re.S).groups() for each in in_parts(tuple_[1])]
            declared = [(public, str(number), kind) for number, (public, kind) in enumerate(declared)]
        else:
            body = item.text[item.text.find("{"):] if "{" in item.text else ""
            declared = [(each["public"], each["name"], each["type"]) for each in FIELD.finditer(body)]
        for public, field, kind in declared:
            public = (public or "").strip()
            if public == "pub" or crate == self.crate and (public or f"{module}::".startswith(f"{home}::") or not home):
                yield field, kind if crate == self.crate else self.with_constants(kind)

    def with_constants(self, text):
        """Returns a type or a statement with the values of constants in the lengths of arrays, because the constants may have no
        name in the module that uses it."""
        return re.sub(r"(?<=; )\w+(?=\])", lambda match: self.constants.get(match[0], match[0]), text)

    def fields(self, name, module, before=""):
        """Yields the fields of a struct that a module may set, including nested ones: the path, the statement that resets the field
        with the name of the parameter left out, and its type."""
        for name, kind in self.declared(name, module) if before.count(".") < 4 else ():
            field = f"{before}.{name}"
            value = self.reset_value(kind)
            if value:
                yield field, f"{field} = {value}", kind
            elif re.match(r"(?:Vec<|String$)", kind):
                yield field, f"{field}.clear()", kind
            else:
                yield from self.fields(NAME.match(kind)[0] if NAME.match(kind) else "", module, field)

    def reset_value(self, kind):
        """Returns the value that resets a field of this type, or an empty string if the type has none or is a struct, whose
        fields are reset one by one."""
        array = re.fullmatch(r"\[(\w+); (.+)\]", kind)
        if INTEGER.fullmatch(kind):
            return "0"
        if array and INTEGER.fullmatch(array[1]):
            return f"[0; {array[2]}]"
        if kind.startswith("Option<"):
            return "None"
        crate, home, item = self.by_name.get(kind, ("", "", None))
        if item and item.keyword == "enum" and crate == self.crate:
            # The first variant without fields.
            unit = re.search(r"(?m)^    (\w+)(?: = [^,\n]+)?,$", item.text)
            return "::".join(filter(None, ("crate", home, kind, unit[1]))) if unit else ""
        return VALUES.get(re.sub(r"&'\w+ ", "&", kind), "")

    def value(self, kind, module, is_at_hand, depth=0):
        """Returns a value of a type, or an empty string if this script knows none. `is_at_hand` is true if the function has a
        parameter `alloc`, from which the value may be made."""
        kind = re.sub(r"&'\w+ ", "&", kind)
        if kind.startswith("("):
            values = [self.value(each, module, is_at_hand, depth + 1) for each in in_parts(kind[1:-1])]
            return f"({', '.join(values)})" if all(values) else "()" if kind == "()" else ""
        simple = self.reset_value(kind)
        if simple:
            return simple
        if re.match(r"(?:Vec<|String$)", kind):
            return f"{kind.partition('<')[0]}::new(alloc)" if is_at_hand else ""
        crate, home, item = self.by_name.get(kind, ("", "", None))
        fields = list(self.declared(kind, module)) if crate == self.crate and depth < 4 else []
        values = [(field, self.value(each, module, is_at_hand, depth + 1)) for field, each in fields]
        # A struct with an invariant, or with a field that the module may not set, cannot be made of these.
        is_plain = values and "{" in item.text and "ghost " not in item.text and len(FIELD.findall(item.text)) == len(fields)
        if not is_plain or not all(value for _, value in values):
            return ""
        path = "::".join(filter(None, ("crate", home, kind)))
        return f"{path} {{ {', '.join(f'{field}: {value}' for field, value in values)} }}"


def in_parts(text):
    """Returns the parts of a list with commas."""
    parts, depth, begin = [], 0, 0
    for offset, sign in enumerate(text):
        depth += (sign in "<([{") - (sign in ")]}" or sign == ">" and text[offset - 1:offset] not in ("-", "="))
        if sign == "," and depth == 0:
            parts.append(text[begin:offset].strip())
            begin = offset + 1
    return [part for part in (*parts, text[begin:].strip()) if part]


def branches_of(expression):
    """Returns the values of the branches of an `if` or a `match`, or an empty list for another expression."""
    blocks = blocks_of(expression)
    if re.match(r"if\b", expression):
        return [f"{{{block}}}" for block in blocks] if len(blocks) > 1 else []
    return arms_of(blocks[-1]) if re.match(r"match\b", expression) else []


def blocks_of(text):
    """Returns the contents of the blocks in a text that are not in parentheses or in another block."""
    blocks, depth, begin = [], 0, 0
    for offset, sign in enumerate(text):
        if sign == "{" and depth == 0:
            begin = offset + 1
        depth += (sign in "([{") - (sign in ")]}")
        if sign == "}" and depth == 0:
            blocks.append(text[begin:offset])
    return blocks


def arms_of(text):
    """Returns the values of the arms in the block of a `match`."""
    values, depth, begin = [], 0, -1
    for offset, sign in enumerate(f"{text},"):
        depth += (sign in "([{") - (sign in ")]}")
        if depth == 0 and begin < 0 and text.startswith("=>", offset):
            begin = offset + 2
        value = text[begin:offset + 1].strip()
        if depth == 0 and begin >= 0 and (sign == "," or sign == "}" and value.startswith("{")):
            values.append(value.rstrip(","))
            begin = -1
    return values


def test_modules(files):
    """Returns the paths of the modules that are compiled only for tests, each with `::` at its end."""
    return tuple("::".join(filter(None, (module_of(path), item.name, ""))) for path, (_, source) in files.items()
                 for item in source.items if item.keyword == "mod" and "#[cfg(test)]" in item.comment)


def module_of(path):
    """Returns the module of a source file."""
    return re.sub(r"^src/|\.rt$", "", path).replace("/", "::").replace("lib", "", path == "src/lib.rt").replace(
        "main", "", path == "src/main.rt")


def result_of(header):
    """Returns the result type of a function."""
    return header.rpartition(") -> ")[2].partition(" where ")[0] if ") -> " in header else "()"


def success_of(kind):
    """Returns the type of the `Ok` value of a `Result` type, or an empty string for other types."""
    result = re.fullmatch(r"(?:std::result::|io::)?Result<(.+)>", kind)
    return in_parts(result[1])[0] if result else ""


class Generator:
    """Makes the mutants of one function."""

    def __init__(self, structs, path, item, is_unchanged, names=()):
        self.structs, self.path, self.item, self.is_unchanged = structs, path, item, is_unchanged
        self.reader, _ = structs.files[path]
        self.module, self.result = module_of(path), result_of(item.header)
        owner = structs.by_name.get(item.owner)
        home = owner[1] if item.owner and owner and owner[0] == structs.crate else self.module
        self.function = "::".join(filter(None, (home, item.owner, item.name)))
        if item.owner and (names and self.function not in names or item.trait):
            # In the prover's name of a method of a trait, the name of the trait follows that of the type, without a separator. The
            # name of a generic type may have arguments, each after a plus sign.
            pattern = rf"(?:\w+::)*{item.owner}[\w+]*{item.trait}\w*::{item.name}"
            self.function = next((name for name in names if re.fullmatch(pattern, name)), "" if item.trait else self.function)
        is_impl = lambda each: each.keyword == "impl" and each.begin <= item.begin and item.end <= each.end
        # The `impl` of a trait to which the function belongs.
        self.impl = next(filter(is_impl, structs.files[path][1].items), None) if item.trait else None
        self.is_copied = not item.trait or any(clause.kind == "ensures" for clause in item.clauses)
        # The prover's name of a copy, without its suffix.
        self.copied_as = "::".join(filter(None, (home, item.owner, item.name))) if item.trait else self.function
        # The clause about the state that the struct represents, if there is one.
        self.state_clause = state_clause(item)
        self.bare = self.reader.bare
        self.opened = {closed - 1: begin for begin, closed in self.reader.closed.items()}
        self.parameters = self.read_parameters()

    def read_parameters(self):
        """Returns the parameters as name and type, and sets the offset behind the last one."""
        offset, depth = self.item.name_end, 0
        while self.bare[offset] != "(" or depth:
            depth += (self.bare[offset] == "<") - (self.bare[offset] == ">" and self.bare[offset - 1] != "-")
            offset += 1
        self.after_parameters = self.reader.closed[offset] - 1
        parameters = []
        for parameter in in_parts(re.sub(r"\s+", " ", re.sub(r"//[^\n]*", "", self.reader.text[offset + 1:self.after_parameters]))):
            name, _, kind = parameter.partition(": ")
            is_self = re.fullmatch(r"(&(?:'\w+ )?)?(mut )?self", parameter)
            parameters.append(("self", f"{is_self[1] or ''}{is_self[2] or ''}{self.item.owner}") if is_self
                              else (name.removeprefix("mut "), kind))
        return parameters

    def in_impl(self, pieces):
        """Returns the pieces, which add a copy. The copy of a method of a trait is moved behind the `impl` of the trait, into an
        `impl` of the type."""
        if not self.impl:
            return pieces
        header = self.impl.header
        generics = header[:self.end_of_generics(header)]
        return [(self.impl.end, self.impl.end, f"\n\n{generics} {header[len(generics):].partition(' for ')[2]} {{{copy}\n}}")
                for _, _, copy in pieces]

    @staticmethod
    def end_of_generics(header):
        """Returns the offset at which the generic parameters of an `impl` end."""
        at, depth = len("impl"), 0
        while header[at] == "<" or depth:
            depth += (header[at] == "<") - (header[at] == ">" and header[at - 1] != "-")
            at += 1
        return at

    def would_have_mutants(self):
        """Returns true if the function would have mutants if the prover's name of it were known."""
        self.function = self.function or self.item.name
        return any(True for _ in self.all())

    def mutant(self, places, description, changes, field="", around="", resets=""):
        around = around if self.is_copied else ""
        return Mutant(self, places, description, field, around, self.call(), changes, self.outputs(), resets)

    def all(self):
        """Yields all mutants of the function."""
        is_promised = self.item.trait or any(clause.kind == "ensures" for clause in self.item.clauses)
        if not self.function or not is_promised:
            return
        for name, kind in self.parameters:
            borrowed = re.fullmatch(r"&(?:'\w+ )?mut (\w+)(?:<.*>)?", kind)
            kind = borrowed and (self.item.owner if borrowed[1] == "Self" else borrowed[1])
            for field, reset, type_ in self.structs.fields(kind, self.module) if kind else ():
                yield from self.resets(name, field, reset, type_)
        yield from self.successes()
        if self.returns_number():
            yield from self.zeros()

    def call(self):
        """Returns a call of the function with its own parameters."""
        arguments = ", ".join(name for name, _ in self.parameters if name != "self")
        before = "self." if self.parameters and self.parameters[0][0] == "self" else "Self::" if self.item.owner else ""
        return f"{before}{self.item.name}({arguments})"

    def outputs(self):
        """Returns the names of the function's outputs: those of the `&mut` parameters, and `result`."""
        names = [name for name, kind in self.parameters if re.match(r"&(?:'\w+ )?mut ", kind)]
        return frozenset([*names, *(["result"] if self.result != "()" else [])])

    def call_twice(self, fields):
        """Returns the text of a function that calls this one twice, the output that each of its clauses is about, and the
        requirement for each parameter that it passes a second time. `fields` are the outputs to compare, for example
        `self.mark`; without them, all outputs are compared."""
        item, words, equations, required, second_names = self.item, [], {}, [], {}
        for name, kind in self.parameters:
            second_names[name] = name if COPIED.match(kind) else f"{name}_again"
            if second_names[name] != name:
                kind = re.sub(rf"{self.item.owner}$", "Self", kind) if name == "self" else kind
                words.append(f"{second_names[name]}: {kind}")
                old = ".old" if kind.startswith("&") else ""
                equations[name] = f"same_{len(equations)}"
                required.append(f"requires {equations[name]} {{ {second_names[name]}{old} ≡ {name}{old} }}")
        call = self.call()
        second_call = re.sub(r"^self\b", second_names.get("self", "self"), call)
        arguments = ", ".join(second_names[name] for name, _ in self.parameters if name != "self")
        second_call = f"{second_call[:second_call.rindex('(')]}({arguments})"
        outputs_by_clause, clauses = {}, []
        for number, output in enumerate(sorted(fields or self.outputs())):
            name, dot, field = output.partition(".")
            if output == "result":
                sides = ("result.0", "result.1")
            else:
                sides = (f"{name}.new{dot}{field}", f"{second_names[name]}.new{dot}{field}")
            outputs_by_clause[f"determined_{number}"] = output
            same = self.state_clause.double_clause(output, *sides) if self.state_clause else " ≡ ".join(sides)
            clauses.append(f"ensures determined_{number} {{ {same} }}")
        # The prover names a clause only if there is another one.
        clauses.append(clauses[0].replace("determined_0", "determined_again"))
        outputs_by_clause["determined_again"] = outputs_by_clause["determined_0"]
        required = [
            f"requires {clause.name or 'given'} {{ {clause.text} }}"
            for clause in item.clauses
            if clause.kind == "requires"
        ] + required
        begin = self.reader.text.rindex("fn ", item.begin, item.name_end)
        declared = self.reader.text[item.name_end:self.after_parameters].rstrip()
        comma = "" if declared[-1] in "(," else ", "
        where = re.search(r" where (.*)$", item.header)
        result = f" -> ({self.result}, {self.result})" if self.result != "()" else ""
        calls = f"let one_call = {call}; let other_call = {second_call};"
        body = f"{calls} (one_call, other_call)" if result else calls
        head = (
            f"{self.reader.text[begin:item.name_end]}{SUFFIX}{declared}{comma}{', '.join(words)}){result}"
            f"{where[0] if where else ''}"
        )
        return "\n\n" + "\n    ".join([head, *required, *clauses]) + f"\n{{ {body} }}\n", outputs_by_clause, equations

    def resets(self, name, field, reset, kind):
        """Yields the mutants that reset one field."""
        body, end, statement = self.item.body + 1, self.item.end - 1, f"{name}{reset}"
        sets = "" if self.is_unchanged else f"{statement};"
        value = reset.rpartition(" = ")[2]
        in_clause = {"0": "0", "false": "false", "None": "None"}.get(value, "")
        if value.startswith("[0; "):
            in_clause = f"replicate {kind[1:-1].rpartition('; ')[2]} 0"
        is_clause = lambda when: f"{name}.{when}{field} ≡ {in_clause}" if in_clause else ""
        if not self.sets_first(name, field):
            around = f"{{ {sets} {self.call()} }}"
            yield self.mutant([(body, body, f" {sets}")], f"{statement} at entry", "", is_clause("old"), around, f"{name}{field}")
        if self.result == "()" and not self.bare[body:end].rstrip().endswith(f"{statement};"):
            last = self.bare[body:end].rstrip()[-1:]
            between = "" if last in ("", ";", "}", "{") else ";"
            around = f"{{ {self.call()}; {sets} }}"
            places = [(end, end, f"{between} {sets}")]
            yield self.mutant(places, f"{statement} at the end", f"{name}{field}", is_clause("new"), around, f"{name}{field}")
        elif self.result != "()" and not re.search(r"&(?!')|'_", self.result):
            for when, ending, clause in self.endings(sets):
                wrapped = [(body, body, f" let returned: {self.result} = {{"), (end, end, f"}}; {ending}")]
                around = f"{{ let returned: {self.result} = {self.call()}; {ending} }}"
                holds = is_clause("new")
                condition = holds and clause.format(holds)
                yield self.mutant(wrapped, f"{statement} at the end{when}", f"{name}{field}", condition, around, f"{name}{field}")
        for number, (begin, stop) in enumerate(self.returns(), 1):
            value = self.reader.text[begin + len("return"):stop].strip()
            early = (f"{{ let returned: {self.result} = {value}; {sets} return returned }}" if value else f"{{ {sets} return }}")
            description = f"{statement} before early return {number}"
            yield self.mutant([(begin, stop, early)], description, f"{name}{field}", is_clause("new"), "", f"{name}{field}")

    def endings(self, sets):
        """Yields the ways to reset a field at the end of a function that returns a value. Each is a description of
        when, the text that follows the returned value (which has the name `returned`), and a clause with a place for a
        condition. A contract promises different things after a success and after an error, so these are separate
        mutants."""
        last = self.bare[self.item.body + 1:self.item.end - 1]
        last = last[self.last_statement(last):].strip()
        if success_of(self.result):
            if not last.startswith("Err("):
                yield (
                    " after a success",
                    f"match returned {{ Ok(passed) => {{ {sets} Ok(passed) }}, Err(failed) => Err(failed) }}",
                    "OnOk result ({})",
                )
            if not last.startswith("Ok("):
                yield (" after an error", f"match returned {{ Ok(passed) => Ok(passed), Err(failed) => {{ {sets} Err(failed) }} }}",
                       "OnErr result ({})")
        elif self.returns_number():
            if not re.fullmatch(r"[\w:]+(?:\.number\(\))?", last) or last == "0":
                yield " after a success", f"if returned == 0 {{ {sets} }} returned", "result ≡ 0 → {}"
            if last != "0":
                yield " after an error", f"if returned != 0 {{ {sets} }} returned", "0 < result → {}"
        else:
            yield "", f"{sets} returned", "{}"

    def returns_number(self):
        """Returns true for an exported function for C that returns a number."""
        return 'extern "C"' in self.reader.text[self.item.begin:self.item.body] and bool(INTEGER.fullmatch(self.result))

    def sets_first(self, name, field):
        """Returns true if the function assigns this field, or a struct that contains it, before it uses the field, so that a
        reset at entry has no effect."""
        text = self.bare[self.item.body + 1:self.item.end - 1]
        for use in re.finditer(rf"(?<![\w.]){name}\b(?P<path>(?:\.\w+)*)(?P<call>\()?", text):
            path = use["path"].rpartition(".")[0] if use["call"] else use["path"]
            if not f"{field}.".startswith(f"{path}.") and not f"{path}.".startswith(f"{field}."):
                # This is another field.
                continue
            begin = use.start() - text[:use.start()].endswith("*")
            assigned = re.match(r"\*?[\w.]+ = ([^;]*);", text[begin:])
            # An assignment in a branch is not made on every path.
            is_on_every_path = "{" not in text[:begin]
            return bool(assigned) and is_on_every_path and f"{field}.".startswith(f"{path}.") and (
                not re.search(rf"(?<![\w.]){name}\b", assigned[1])
            )
        return False

    def returns(self):
        """Yields the offsets at which each early return begins and its expression ends."""
        for match in re.finditer(r"\breturn\b", self.bare[self.item.body:self.item.end]):
            begin = self.item.body + match.start()
            yield begin, self.reader.after(re.compile(r"[(\[{]|(?P<end>[;,})\]])"), begin)

    def successes(self):
        """Yields the mutants that return success instead of one error."""
        kind = success_of(self.result)
        if not kind:
            return
        value = self.structs.value(kind, self.module, ("alloc", "Global") in self.parameters)
        # The value can also be another parameter of the mutant.
        can_be_passed = self.is_copied and not UNNAMED.search(kind) and not self.is_generic(kind)
        by_caller = list(self.successes_with("by_caller", kind)) if can_be_passed else []
        mutants = list(self.successes_with(value, kind)) if value else by_caller
        for mutant, other in zip(mutants, by_caller if value else ()):
            mutant.with_other_value = other
        yield from mutants

    def is_generic(self, kind):
        """Returns true for a generic parameter of the function. A value of this type cannot be dropped."""
        generics = re.match(r".*\bfn \w+<([^(]*)>\(", self.item.header)
        return bool(generics) and kind in (part.partition(":")[0].strip() for part in in_parts(generics[1]))

    def successes_with(self, value, kind):
        """Yields the mutants that return a success with this value of this type instead of one error. The value
        `by_caller` is another parameter."""
        at, comma = self.after_parameters, "" if self.bare[:self.after_parameters].rstrip()[-1] in "(," else ", "
        more = [(at, at, f"{comma}by_caller: {kind}")] if value == "by_caller" else []
        body, end = self.item.body, self.item.end
        shown, changes = value if len(value) < 40 else "..", []
        for match in re.finditer(r"\bErr\(", self.bare[body:end]):
            begin, stop = body + match.start(), self.reader.closed[body + match.end() - 1]
            # Before `=`, `|` or `if`, `Err(..)` is a pattern and not a value.
            if not re.match(r"\s*(?:=|\||if\b)", self.bare[stop:stop + 80]):
                changes.append((begin, stop, "{}", f"Ok({value})", f"Err {len(changes) + 1}"))
        for number, match in enumerate(re.finditer(r"\?", self.bare[body:end]), 1):
            stop = body + match.start()
            begin = self.operand(stop)
            # The braces are doubled, because `format` puts the value of the last arm into this text.
            tried = self.reader.text[begin:stop].replace("{", "{{").replace("}", "}}")
            new = f"(match {tried} {{{{ Ok(passed) => passed, Err(_) => {{}} }}}})"
            changes.append((begin, stop + 1, new, f"return Ok({value})", f"the error of ? {number}"))
        for begin, stop, new, success, error in changes:
            text = self.reader.text[begin:stop] if self.is_unchanged else new.format(success)
            mutant = self.mutant([*more, (begin, stop, text)], f"Ok({shown}) instead of {error}", "result")
            mutant.unreachable = [(begin, stop, new.format(UNREACHABLE))]
            yield mutant
        last = self.bare[body + 1:end - 1]
        last = last[self.last_statement(last):].strip()
        if not re.match(r"Err\(|loop\b|'\w+: loop\b", last) and not self.is_success(last):
            wrapped = lambda arm: [(body + 1, body + 1, f" let returned: {self.result} = {{"),
                                   (end - 1, end - 1, f"}}; match returned {{ {arm}returned => returned }}")]
            places = [*more, *wrapped("" if self.is_unchanged else f"Err(_) => Ok({value}), ")]
            mutant = self.mutant(places, f"Ok({shown}) instead of an error at the end", "result")
            mutant.unreachable = wrapped(f"Err(_) => {UNREACHABLE}, ")
            yield mutant

    def zeros(self):
        """Yields the mutants of an exported function that return 0 instead of one error number."""
        changes = []
        for match in NUMBER.finditer(self.bare, self.item.body, self.item.end):
            begin, stop, new = match.start(), match.end(), "0"
            if match["constant"]:
                begin = match.start("constant")
            elif match[0].startswith("number_of"):
                stop = self.reader.closed[stop - 1]
                if match["macro"]:
                    new = f"(match {self.reader.text[match.end():stop - 1]} {{ Ok(()) => 0, Err(_) => 0 }})"
            else:
                begin = self.operand(begin)
            changes.append((begin, stop, new))
        for number, (begin, stop, new) in enumerate(changes, 1):
            new = self.reader.text[begin:stop] if self.is_unchanged else new
            mutant = self.mutant([(begin, stop, new)], f"0 instead of error number {number}", "result")
            mutant.unreachable = [(begin, stop, UNREACHABLE)]
            yield mutant

    def last_statement(self, text):
        """Returns the offset of what follows the last statement, which ends in a semicolon, or in a brace at the end of a line."""
        depth, last = 0, 0
        for offset, sign in enumerate(text):
            depth += (sign in "([{") - (sign in ")]}")
            is_block = sign == "}" and re.match(r" *\n\s*(?![.?)]|else\b|\s|\Z)", text[offset + 1:])
            if depth == 0 and (sign == ";" or is_block):
                last = offset + 1
        return last

    def is_success(self, expression):
        """Returns true if each branch of an expression is `Ok(..)`, or returns early."""
        if expression.startswith("{"):
            block = expression[1:-1]
            return self.is_success(block[self.last_statement(block):].strip())
        branches = branches_of(expression)
        return all(map(self.is_success, branches)) if branches else expression.startswith(("Ok(", "return "))

    def operand(self, stop):
        """Returns the offset at which the expression begins that ends at this offset: names, calls and indexes, joined by dots."""
        begin = stop
        while True:
            before = begin
            while self.bare[before - 1].isspace():
                before -= 1
            # A line may begin with the dot of the next call.
            if before < begin and self.bare[begin] != ".":
                return begin
            sign = self.bare[before - 1]
            if sign in ")]":
                begin = self.opened[before - 1]
            elif sign.isalnum() or sign in "_.:?" or sign == "!" and self.bare[begin] in "([{":
                # An exclamation mark belongs to a macro, or is a negation.
                begin = before - 1
            elif sign == ">" and "::<" in self.bare[self.item.body:before]:
                begin = self.bare.rindex("::<", 0, before)
            else:
                return begin

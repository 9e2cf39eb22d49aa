#!/usr/bin/env python3
"""Lists the processor time that the prover takes to reject each mutant of a crate, the longest first.

    bench/mutant_times.py CRATE[/NAME] ..

NAME selects a mutant of the crate. The mutants are tried as by `tests/proofs/wrong_bodies.py`, with one check of the prover at a
time. The prover saves each module when it is done with it. The time of a module is the processor time of the prover since the
previous module, so that of the first mutant includes the time for loading the libraries. Mutants that take long mostly cause a long
search without success. Then mutate a smaller function, or choose a mutation that contradicts the contract sooner.

Needs Python 3.9 or later, the Rattle kit, and Linux.
"""

import os
import sys
import tempfile

HERE = os.path.dirname(os.path.realpath(__file__))
sys.path += [HERE, *(os.path.join(HERE, "..", "tests", name) for name in ("proofs", "shared"))]

import proved
import wrong_bodies
from proofs import ProcessorTimes, costs, modules


class Trial(wrong_bodies.Trial):
    """A trial that records the processor seconds of a check: by function and part (`parts`), and in total (`total`)."""

    def check(self, directory, functions):
        options = [option for function in sorted(functions) for option in ("--only", function)]
        with tempfile.TemporaryDirectory(prefix="edits-") as results:
            with ProcessorTimes() as times:
                result = proved.rattle("check", self.crate, directory, *options, "--allow-holes", "--incremental", results)
            self.parts, self.total = costs(modules(results, times)), times.seconds[-1]
        return result.stdout


def show(trial, group):
    """Tries a group of mutants. Prints a line for each mutant, and one for everything else."""
    verdicts = {verdict.body.checked: verdict for verdict in trial.tried(group)}
    rows = sorted(((sum(parts.values()), name, parts) for name, parts in trial.parts.items() if name in verdicts), reverse=True)
    for seconds, name, parts in rows:
        longest = ", ".join(f"{part} {seconds:.1f}" for part, seconds in parts.most_common(3) if seconds >= 0.1)
        print(f"{seconds:7.1f}  {verdicts[name].body.label}, {verdicts[name].outcome}: {longest}")
    print(f"{trial.total - sum(seconds for seconds, *_ in rows):7.1f}  everything else of {trial.crate}", flush=True)


def main(names):
    os.chdir(proved.ROOT)
    crates = list(dict.fromkeys(name.partition("/")[0] for name in names))
    if not crates or not {*crates} <= {*proved.crates()}:
        print("usage: bench/mutant_times.py CRATE[/NAME] ..")
        return 2
    for crate in crates:
        bodies = [body for body in wrong_bodies.bodies_of(crate, False) if {crate, body.label} & {*names} and not body.edit_error]
        trial = Trial(crate)
        error = proved.build_libraries(proved.crates()[crate].dependencies) or trial.lacks_proof(bodies)
        if error:
            print(error)
            return 1
        for group in wrong_bodies.groups_of(bodies):
            show(trial, group)
    return 0


if __name__ == "__main__":
    sys.exit(main(sys.argv[1:]))

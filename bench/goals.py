#!/usr/bin/env python3
"""Lists what costs a crate's proof most: python3 bench/goals.py crates/NAME [STEPS]

Of the last `rt check` in that folder, each declaration of the crate's proofs that took STEPS steps of the prover or more, 300,000
where it isn't given, the dearest first: how many steps in millions, the function or the lemma file, and the goal or the lemma.
A million steps take about a second. Where the file is a function's `Proof`, nothing answers the goal, and what the kit tries one
after the other found it: one line in the function's `Answers.antt`, as `grind (arith, common_steps)`, often takes a tenth.
"""
import os
import re
import sys

DECLARED = re.compile(rb'"largest":\[.{0,400000}?"name":"([^"]*)".{0,3000000}?"steps":\[(\d+),', re.S)


def records(folder, name):
    """Yields the module and the text of each record that the crate's check kept."""
    for at, _, files in os.walk(f"{folder}/out/incremental"):
        for file in files if os.path.basename(at) == "records" else ():
            if file.startswith(f"Rattle-{name}-proofs.") and file.endswith(".decls.oantt"):
                with open(f"{at}/{file}", "rb") as it:
                    yield file[len(f"Rattle-{name}-proofs.") : -len(".decls.oantt")], it.read()


def main(folder, least="300000"):
    folder = folder.rstrip("/")
    found = [
        (int(steps), module, goal.decode())
        for module, text in records(folder, os.path.basename(folder))
        for goal, steps in DECLARED.findall(text)
        if int(steps) >= int(least)
    ]
    if not found:
        sys.exit(f"{folder}/out/incremental has no such record: run rt check in {folder} first")
    for steps, module, goal in sorted(found, reverse=True):
        print(f"{steps / 1e6:6.2f}  {module}  {goal}")
    print(f"{sum(it[0] for it in found) / 1e6:6.2f}  all {len(found)}")


if len(sys.argv) not in (2, 3):
    sys.exit(__doc__.splitlines()[0])
main(*sys.argv[1:])

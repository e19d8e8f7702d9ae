#!/usr/bin/env python3
"""Shows that the history theorem says something: it is false of a group with a fault.

    tools/refute.py            every fault, and the controls; under 3 minutes
    tools/refute.py NAME..     these faults alone, and the controls

Run it after `rt check` in crates/history, whose proofs of the crates below `history` it takes over. It works in a copy, and removes it.

Each fault is an edit of the definitions of a group (crates/history/specs). The book that a group is held against is never
edited. With the fault the checker proves, over a small kind and a small channel (tools/refute/example.txt), that a run is
reached after which a part of the promise fails, and so that the theorem is false. A part is `holds`, `knows`, `newest` or
`keeps`, as crates/history/specs/History.antt defines them. The runs (tools/refute/faults.py) are written by hand, state by state, and are not
trusted: the checker works each step out from the definitions, down to the bytes.

Controls, with nothing changed: the small kind and the small channel keep their laws, the theorem stands for them, and a run
is reached that brings a delta and its acknowledgement over; and each refutation is refused, at the call where its fault would
show.

What this does not show: that every fault is found, and anything about the code. The code is held to the same definitions by
its contracts.
"""

import re
import shutil
import subprocess
import sys
import tempfile
import time
from pathlib import Path

ROOT = Path(__file__).resolve().parent.parent
TEXTS = ROOT / "tools" / "refute"
HISTORY = ROOT / "crates" / "history"

sys.dont_write_bytecode = True  # nothing is left behind
sys.path.insert(0, str(TEXTS))
from faults import FAULTS, Run, honest  # noqa: E402

# THE COPY


def made_copy(work):
    """The crates that history rests on, with what `rt check` kept of them, so that only history is checked."""
    crates = {line.split(":")[0]: line for line in (ROOT / "crates.txt").read_text().splitlines()}
    below = crates["history"].split(":")[1].split()
    (work / "crates.txt").write_text("".join(line + "\n" for name, line in crates.items() if name in [*below, "history"]))
    for name in below:
        shutil.copytree(ROOT / "crates" / name, work / "crates" / name)


def write(path, text):
    path.parent.mkdir(parents=True, exist_ok=True)
    path.write_text(text)


def append(path, text):
    path.write_text(path.read_text() + text)


def with_example(crate):
    """The specs of history as they are, with the small kind and the small channel."""
    shutil.rmtree(crate, ignore_errors=True)
    shutil.copytree(HISTORY / "specs", crate / "specs")
    append(crate / "specs" / "Lib.antt", "pub mod Example\n")
    write(crate / "specs" / "Example.antt", (TEXTS / "example.txt").read_text())
    for types in ("answers.rt", "kept.rt"):
        write(crate / "src" / types, (HISTORY / "src" / types).read_text())


def edited(crate, fault):
    path = crate / "specs" / f"{fault.file}.antt"
    text = path.read_text()
    if text.count(fault.old) != 1:
        sys.exit(f"refute: {fault.name()}: its old text must stand once in {path.name}")
    path.write_text(text.replace(fault.old, fault.new))


def claim(crate, function, statement, used, module, answer):
    """A function whose contract is the statement, and the proof of it."""
    code = f"\npub fn {function}()\n    ensures {{ {statement} }}\n{{\n}}\n"
    append(crate / "src" / "lib.rt", code)
    needs = f"use Rattle.history.proofs.{module}.{{{used}}}\nuse Rattle.history.proofs.{function}.Goals as goal\n"
    write(crate / "proofs" / function / "Answers.antt", f"{needs}\npub returns : goal.returns\nreturns c = {answer}\n")


def refutations(crate, faults):
    """The crate's proofs and its code: for each fault that its parts fail, and that the theorem is false."""
    uses = "#![tactic(auto)]\n\nghost use Rattle.history.specs.Example.{Breaks, Refuted, holds, knows, newest, keeps};\n"
    write(crate / "src" / "lib.rt", uses + "pub mod answers;\npub mod kept;\n")
    write(crate / "proofs" / "Lib.antt", "".join(f"pub mod {fault.module()}\n" for fault in faults))
    for fault in faults:
        run = Run()
        fault.run(run)
        write(crate / "proofs" / f"{fault.module()}.antt", run.written())
        for part, function in zip(fault.parts, fault.functions()):
            names = f"breaks_{part}, refuted_{part}"
            claim(crate, function, f"(Breaks {part} × Refuted)", names, fault.module(), f"({names})")


def theorem(crate):
    """The crate as it is, with the theorem for the small kind and the small channel, and a run."""
    shutil.copytree(HISTORY / "src", crate / "src", dirs_exist_ok=True)
    shutil.copytree(HISTORY / "proofs", crate / "proofs")
    code = (crate / "src" / "lib.rt").read_text()
    write(crate / "src" / "lib.rt", code.replace("#![tactic(auto)]\n", "#![tactic(auto)]\n\nghost use Rattle.history.specs.Example.{Sound, Promised, Arrives};\n"))
    append(crate / "proofs" / "Lib.antt", "pub mod Small\npub mod Honest\n")
    write(crate / "proofs" / "Small.antt", (TEXTS / "laws.txt").read_text())
    run = Run()
    honest(run)
    run.arrives()
    write(crate / "proofs" / "Honest.antt", run.written())
    claim(crate, "promised", "(Sound × Promised)", "sound, promised", "Small", "(sound, promised)")
    claim(crate, "arrives", "Arrives", "arrives", "Honest", "arrives")


# THE VERDICTS


def checked(work):
    """How `rt check` ends, its verdict on each function, the declarations that it refuses (by module), and its errors."""
    # each fault is checked anew; what the check may still take over, from this or another copy, it finds by the
    # checksums of all that it read, so it is of the same text
    crate = work / "crates" / "history"
    shutil.rmtree(crate / "out", ignore_errors=True)
    ran = subprocess.run(["rt", "check"], cwd=crate, capture_output=True, text=True)
    said = ran.stdout + ran.stderr
    verdicts = dict(re.findall(r"^fn history::(\w+): (proved|not proved)$", said, re.M))
    refused = set(re.findall(r"/proofs/(\w+)\.antt:\d+:\d+: error: `([\w-]+)`:", said))
    errors = [line for line in said.splitlines() if "error" in line]
    return ran.returncode, verdicts, refused, errors


def told(passed, line, errors, start):
    print(f"{line} ({time.time() - start:.0f} s)", flush=True)
    for error in [] if passed else errors[:5]:
        print("    " + error[:300], flush=True)
    return passed


def fault_refuted(work, fault):
    start, crate = time.time(), work / "crates" / "history"
    with_example(crate)
    edited(crate, fault)
    refutations(crate, [fault])
    status, verdicts, _, errors = checked(work)
    passed = status == 0 and all(verdicts.get(function) == "proved" for function in fault.functions())
    parts = " and ".join(fault.parts)
    verdict = "PROVED: the theorem is false" if passed else "NOT PROVED"
    return told(passed, f"{fault.name()}: {fault.says}: breaks {parts}: {verdict}", errors, start)


def theorem_stands(work):
    start, crate = time.time(), work / "crates" / "history"
    with_example(crate)
    theorem(crate)
    status, verdicts, _, errors = checked(work)
    passed = status == 0 and verdicts.get("promised") == verdicts.get("arrives") == "proved"
    verdict = "PROVED" if passed else "NOT PROVED"
    line = f"control, nothing changed: the theorem stands for the small kind and channel, and a run is reached: {verdict}"
    return told(passed, line, errors, start)


def all_refused(work, faults):
    """With nothing changed each refutation is refused, and that at the call where its fault would show, and nowhere else."""
    start, crate = time.time(), work / "crates" / "history"
    with_example(crate)
    refutations(crate, faults)
    status, verdicts, refused, errors = checked(work)
    stopped = refused == {(fault.module(), f"r{fault.shows}") for fault in faults}
    proved = [name for fault in faults for name in fault.functions() if verdicts.get(name) != "not proved"]
    passed = status == 1 and stopped and not proved
    verdict = "REFUSED, each at the call where its fault would show" if passed else "NOT REFUSED as they must be"
    line = " ".join([f"control, nothing changed: {len(faults)} refutations: {verdict}", *proved])
    return told(passed, line, errors, start)


def main():
    names = sys.argv[1:]
    unknown = set(names) - {fault.name() for fault in FAULTS}
    if unknown:
        sys.exit(f"refute: no such fault: {' '.join(sorted(unknown))}")
    faults = [fault for fault in FAULTS if not names or fault.name() in names]
    with tempfile.TemporaryDirectory() as folder:
        work = Path(folder)
        made_copy(work)
        passed = [fault_refuted(work, fault) for fault in faults]
        passed += [theorem_stands(work), all_refused(work, faults)]
    print(f"refute: {sum(passed)} of {len(passed)} as they must be")
    sys.exit(0 if all(passed) else 1)


if __name__ == "__main__":
    main()

"""Tells which functions of a crate are dear to prove: checks the crate from nothing with one job, and prints the
seconds of each.

    tools/measure proof CRATE [COUNT]     the COUNT dearest functions and files of proofs (30), and the sums by kind

The crates below are to be proved already (`rt lib` in the crate's folder). The checker writes each module when it has
proved it, so the time of one is that since the one before it was written: on a busy machine all are too great, and only
the proportions count. The kilobytes of its steps, which stand beside, are the same on any machine. `Proof` is the proof
of a function, `Lts` its steps, `Tie` what the borrow checker leaves, `Answers` and `Invariants` what is written by
hand. The first module bears what the check takes before it.
"""
import collections
import os
import resource
import shutil
import subprocess
import sys
import tempfile

TOP = os.path.dirname(os.path.dirname(os.path.dirname(os.path.realpath(__file__))))
sys.path.insert(0, os.path.dirname(os.path.realpath(shutil.which("rt") or sys.exit("no rt on the path"))))
import rtlib  # noqa: E402 (the kit's own, beside rt)

KINDS = {"Answers", "Code", "Given", "Goals", "Invariants", "Key", "Kinds", "Layout", "Lts", "Met", "Mir", "Named",
         "Proof", "Reads",
         "Statement", "Symbol", "TheLink", "Tie", "View", "decls", "oantt"}


def checked(name, kept):
    """Checks the crate into an empty folder, and returns its status."""
    folder = f"{TOP}/crates/{name}"
    found = [crate for crate in rtlib.crates_below(TOP) if os.path.realpath(crate.folder) == folder]
    if not found:
        sys.exit(f"{name} is no crate of crates.txt")
    words = [rtlib.RATTLE, "check", *found[0].words(["--jobs", "1"], keeps=False), "--incremental", kept]
    ran = subprocess.run(words, cwd=folder, stdout=subprocess.PIPE, stderr=subprocess.STDOUT, text=True,
                         errors="replace")
    if ran.returncode:
        print(ran.stdout[-2000:])
    return ran.returncode


def modules(name, kept):
    """The modules that the check wrote, each with the seconds since the one before it, and its bytes."""
    found = ((os.stat(f"{at}/{file}"), file) for at, _, files in os.walk(kept)
             for file in files if file.endswith(".oantt") and file.startswith(f"Rattle-{name}"))
    written = sorted((of_file.st_mtime, of_file.st_size, file) for of_file, file in found)
    for (before, _, _), (then, size, file) in zip(written, written[1:]):
        yield file.removeprefix(f"Rattle-{name}")[1:].split("."), then - before, size


def told(words):
    """The function or file of a module, and its kind."""
    front, kinds = list(words), []
    while front and front[-1] in KINDS:
        kinds.append(front.pop())
    front = front[1:] if front[:1] in (["proofs"], ["specs"]) else front
    front = front[1:] if front[:1] == ["contracts"] else front
    return ".".join(front) or "the crate", next((kind for kind in reversed(kinds) if kind not in ("decls", "oantt")),
                                                "other")


def main():
    name, count = sys.argv[1], int(sys.argv[2]) if sys.argv[2:] else 30
    with tempfile.TemporaryDirectory() as kept:
        status = checked(name, kept)
        functions, kinds, steps = collections.Counter(), collections.Counter(), collections.Counter()
        for words, seconds, size in modules(name, kept):
            function, kind = told(words)
            functions[function] += seconds
            kinds[kind] += seconds
            steps[function] += size if kind == "Lts" else 0
    print(" seconds  kB of steps")
    for function, seconds in functions.most_common(count):
        print(f"{seconds:8.2f} {steps[function] / 1000:11.0f}  {function}")
    print("by kind: " + ", ".join(f"{kind} {seconds:.0f}" for kind, seconds in kinds.most_common(8)))
    used = resource.getrusage(resource.RUSAGE_CHILDREN)
    print(f"{used.ru_utime + used.ru_stime:.0f} s of processor time; the check ended with status {status}")
    return status


if __name__ == "__main__":
    sys.exit(main() if sys.argv[1:] else __doc__)

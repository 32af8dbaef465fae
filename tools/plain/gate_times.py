"""Tells what the gate costs: processor seconds of each crate's proof, tests, seeds and must-fail edits.

    tools/measure gate [COMMAND ..]       runs the command at the top of the repository (without one: rt ci), and then
                                          prints the table

A seed is the second proof of a crate over which its edits are tried, and what shows at the end that the seed is still
one. Some kits make no seed by itself: there a crate's first edit is tried from nothing, and its whole check is counted
as the seed. Nothing is asked of the command: the checker's processes that it began are looked at four times a second,
and what each has used is added to its crate. So a process that ends between two looks is counted up to the first of
them. The table ends with the sums and the lines of code, specs and proofs; behind it come the dearest edits, the time
on the clock, and what all processes of the command used, those of rt itself, of the linker and of the programs that are
run included. All is printed of a run that is interrupted too.
"""
import collections
import os
import resource
import subprocess
import sys
import time

TOP = os.path.dirname(os.path.dirname(os.path.dirname(os.path.realpath(__file__))))
TICK = os.sysconf("SC_CLK_TCK")
KINDS = ("proof", "tests", "seeds", "edits")


def read(path):
    try:
        with open(path, "rb") as file:
            return file.read()
    except OSError:
        return b""


def checker_of(pid):
    """The crate that a process checks, for what, and the edit that it tries as the kit numbers it; nothing where it
    is no checker."""
    words = read(f"/proc/{pid}/cmdline").split(b"\0")
    if not words or os.path.basename(words[0]) != b"rattle" or b"--crate-name" not in words:
        return None
    crate = words[words.index(b"--crate-name") + 1].decode()
    try:
        folder = os.path.basename(os.readlink(f"/proc/{pid}/cwd"))
    except OSError:
        return None
    if folder.startswith("rt-edit-"):
        over = os.path.basename(words[words.index(b"--incremental") + 1] if b"--incremental" in words else b"").decode()
        return (crate, "seeds", "") if over == "seed" else (crate, "edits", over)
    return crate, "tests" if b"--test" in words or b"_tests.o" in b" ".join(words) else "proof", ""


def with_edits_named(seen):
    """What was seen, each try with its edit's file: by the kit's number, or by when it was begun, since a crate's
    edits are tried in the order of their names, the first from nothing, and then the crate as it stands."""
    tries = collections.Counter()
    for (pid, began), ((crate, kind, number), seconds) in sorted(seen.items(), key=lambda it: int(it[0][1])):
        if kind == "edits":
            names = sorted(name for name in os.listdir(f"{TOP}/crates/{crate}/must-fail") if name.endswith(".edit"))
            at = int(number) if number.isdigit() else tries[crate]
            is_seed = not number.isdigit() and at in (0, len(names))
            tries[crate] += 1
            name = names[at] if at < len(names) else "tried from nothing"
            what = (crate, "seeds", "") if is_seed else (crate, "edits", name)
        else:
            what = crate, kind, ""
        yield (pid, began), (what, seconds)


def used_by(pid):
    """By which process a process was begun and when, and the processor seconds that it has used so far."""
    fields = read(f"/proc/{pid}/stat").rpartition(b")")[2].split()
    if len(fields) < 20:
        return None
    return fields[1].decode(), fields[19], (int(fields[11]) + int(fields[12])) / TICK


def is_under(pid, first, used):
    """Whether a process was begun by the first one, or by one that was."""
    while pid in used and pid != first:
        pid = used[pid][0]
    return pid == first


def look(seen, first):
    used = {pid: told for pid in os.listdir("/proc") if pid.isdigit() and (told := used_by(pid))}
    for pid, (_, began, seconds) in used.items():
        if (what := checker_of(pid)) and is_under(pid, first, used):
            seen[pid, began] = what, seconds


def watched(command):
    """Runs the command, and returns its status, its time, and what each checker used."""
    seen, began = {}, time.monotonic()
    with subprocess.Popen(command, cwd=TOP) as running:
        try:
            while running.poll() is None:
                look(seen, str(running.pid))
                time.sleep(0.25)
        except KeyboardInterrupt:
            running.wait()
    return running.returncode, time.monotonic() - began, seen


def lines_of(crate):
    count = 0
    for at, _, files in os.walk(f"{TOP}/crates/{crate}"):
        if f"/{crate}/out" not in at:
            count += sum(read(f"{at}/{name}").count(b"\n") for name in files if name.endswith((".rt", ".antt")))
    return count


def table(seen):
    sums = collections.defaultdict(lambda: dict.fromkeys(KINDS, 0.0))
    for (crate, kind, _), used in seen.values():
        sums[crate][kind] += used
    rows = sorted(sums.items(), key=lambda row: -sum(row[1].values()))
    rows.append(("all", {kind: sum(row[1][kind] for row in rows) for kind in KINDS}))
    print(f"{'crate':18}{'lines':>8}" + "".join(f"{kind:>8}" for kind in (*KINDS, "all")) + "   processor seconds")
    whole = sum(lines_of(crate) for crate in sums)
    for crate, used in rows:
        lines = whole if crate == "all" else lines_of(crate)
        print(f"{crate:18}{lines:8}" + "".join(f"{used[kind]:8.0f}" for kind in KINDS) + f"{sum(used.values()):8.0f}")


def dearest(seen, count=20):
    tries = sorted(((used, f"{crate}/{edit}") for (crate, _, edit), used in seen.values() if edit), reverse=True)
    print("\n".join(["the dearest edits:", *(f"{used:8.0f}  {edit}" for used, edit in tries[:count])]) if tries
          else "no edit was tried")


def main():
    status, took, seen = watched(sys.argv[1:] or ["rt", "ci"])
    seen = dict(with_edits_named(seen))
    table(seen)
    dearest(seen)
    used = resource.getrusage(resource.RUSAGE_CHILDREN)
    print(f"on the clock {took:.0f} s, {os.cpu_count()} processors; "
          f"all processes used {used.ru_utime + used.ru_stime:.0f} s of processor time;")
    print(f"the command ended with status {status}")
    return status


if __name__ == "__main__":
    sys.exit(main())

#!/usr/bin/env python3
"""Measures what the gate costs: measure_gate.py [WORDS OF rt ci]

Runs `rt ci` at the top of the checkout, looks twice a second at the processor time of each prover, compiler and run that it starts,
and prints a table of crates as docs/PERFORMANCE.md has it: functions, processor seconds of proofs, of tests with their proofs, of
must-fail edits, and of what compiles and runs a program; the sums, and how long the whole took. What the gate says goes to a file
`gate.log` in a new folder, whose name is printed. Times of less than a second can be missed. With `--anew` the gate proves all again; let nothing else run.
"""
import os
import re
import subprocess
import sys
import tempfile
import time

TOP = os.path.dirname(os.path.dirname(os.path.abspath(__file__)))
KINDS = ("proof", "tests", "edits", "program")
TICKS = os.sysconf("SC_CLK_TCK")


def read(path):
    try:
        with open(path, "rb") as it:
            return it.read()
    except OSError:
        return b""


def processes():
    """For each process its parent, its start, and its processor seconds with those of its children that ended."""
    found = {}
    for name in os.listdir("/proc"):
        fields = read(f"/proc/{name}/stat").rpartition(b")")[2].split() if name.isdigit() else []
        if len(fields) > 19:
            found[int(name)] = (int(fields[1]), int(fields[19]), sum(map(int, fields[11:15])) / TICKS)
    return found


def what(pid):
    """The crate and the kind of work that a process is there for, if it is one of the gate's."""
    words = [it.decode(errors="replace") for it in read(f"/proc/{pid}/cmdline").split(b"\0")]
    program = os.path.basename(words[0])
    if program == "rattle" and "--crate-name" in words[:-1]:
        crate = words[words.index("--crate-name") + 1]
        try:
            where = os.readlink(f"/proc/{pid}/cwd")
        except OSError:
            return None
        if "/rt-edit-" in where:
            return crate, "edits"
        if "--test" in words:
            return crate, "tests"
        return crate, "program" if "--crate-checked" in words else "proof"
    run = re.search(r"/out/(\w+?)(_tests)?(?:\.by-rattle)?\0", "\0".join([*words, ""]))
    if program == "rattle-test" and run:
        return run[1], "tests" if run[2] else "program"
    return None


def note(root, seen):
    """Notes the processor time so far of each piece of work below the gate's own process."""
    found = processes()
    children = {}
    for pid, (parent, _, _) in found.items():
        children.setdefault(parent, []).append(pid)

    def spent(pid):
        return found[pid][2] + sum(spent(it) for it in children.get(pid, []))

    left = [*children.get(root, [])]
    while left:
        pid = left.pop()
        about = what(pid)
        if about:
            key = (pid, found[pid][1])
            seen[key] = (about, max(spent(pid), seen.get(key, (about, 0.0))[1]))
        else:
            left += children.get(pid, [])


def functions(log):
    """How many functions of each crate were proved, as the log has it."""
    found, crate = {}, ""
    for line in log.splitlines():
        if line.startswith("== "):
            crate = line[3:]
        told = re.match(r"logic=proved .*?functions=(\d+)", line)
        if told:
            found.setdefault(crate, told[1])
    return found


def table(seen, counts):
    """The lines of the table, and the sums of its columns."""
    spent = {}
    for (crate, kind), seconds in seen.values():
        of = spent.setdefault(crate, dict.fromkeys(KINDS, 0.0))
        of[kind] += seconds
    with open(os.path.join(TOP, "crates.txt"), encoding="utf-8") as it:
        order = [line.partition(":")[0].split()[0] for line in it if line.strip() and not line.startswith("#")]
    lines = ["| Crate | Functions | Proof | Tests | Wrong callers | Program |", "|---|---|---|---|---|---|"]
    for crate in order:
        of = spent.get(crate, dict.fromkeys(KINDS, 0.0))
        cells = [f"{of[kind]:.0f} s" if of[kind] else "" for kind in KINDS]
        lines.append("| " + " | ".join([crate, counts.get(crate, ""), *cells]) + " |")
    return lines, {kind: sum(of[kind] for of in spent.values()) for kind in KINDS}


def main():
    place = os.path.join(tempfile.mkdtemp(prefix="gate-"), "gate.log")
    print(f"log: {place}", flush=True)
    seen, start = {}, time.monotonic()
    with open(place, "w", encoding="utf-8") as log:
        gate = subprocess.Popen(["rt", "ci", *sys.argv[1:]], cwd=TOP, stdin=subprocess.DEVNULL, stdout=log, stderr=subprocess.STDOUT)
        while True:
            ended, status, usage = os.wait4(gate.pid, os.WNOHANG)
            if ended:
                break
            note(gate.pid, seen)
            time.sleep(0.5)
    with open(place, encoding="utf-8", errors="replace") as log:
        said = log.read()
    lines, sums = table(seen, functions(said))
    print("\n".join(lines))
    print("minutes of a processor: " + ", ".join(f"{kind} {sums[kind] / 60:.1f}" for kind in KINDS))
    whole = (usage.ru_utime + usage.ru_stime) / 60
    print(f"the whole: {whole:.1f} minutes of a processor, {(time.monotonic() - start) / 60:.1f} minutes; {said.splitlines()[-1]}")
    sys.exit(os.waitstatus_to_exitcode(status))


if __name__ == "__main__":
    main()

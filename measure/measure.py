#!/usr/bin/env python3
"""Measures what docs/PERFORMANCE.md reports, and writes its tables: measure.py [--print] [SECTION ..]

The sections, all without a name:

links      plain links of large objects, and one of 256 objects with 1,000,000 symbols
levels     both levels beside each other, on programs of one shape each
listing    the listing of a large image
runs       a run of a loop, and what is read before its first step
sim        a run without addresses, and one of a program with the most data
reading    `read_object` on large files
names      `resolve` on long lists of objects
lifts      `lift_program` on large programs
solvers    facts, masks and uses on large graphs

Each is done three times. The least processor seconds count, of the program and the kernel together, and the greatest memory of
the process that is ever in use at once. With `--print` the tables go to the standard output, and the page stays as it is.

`om` is the program that the environment's OM names, or one that is proved and built first; `reading`, `names`, `lifts` and `solvers` build
programs of their own, in a copy of the repository that is proved from nothing. Needs the kit's `rt`, GNU time, rustc for
`runs`, and 4 GB of room; let nothing else run.
"""
import os
import re
import shutil
import subprocess
import sys
import tempfile
from typing import NamedTuple

HERE = os.path.dirname(os.path.abspath(__file__))
TOP = os.path.dirname(HERE)
PAGE = os.path.join(TOP, "docs/PERFORMANCE.md")
TURNS = 3


class Spent(NamedTuple):
    """What a process took: processor seconds, bytes of memory, and what it printed."""

    seconds: float
    memory: int
    out: bytes


def once(words, where, given=None, may=(0,)):
    """Runs a command once in a folder, with a file as its input."""
    with tempfile.NamedTemporaryFile("r", encoding="ascii") as room, open(given or os.devnull, "rb") as source, tempfile.TemporaryFile() as out:
        timed = ["/usr/bin/time", "-q", "-o", room.name, "-f", "%M", *words]
        process = subprocess.Popen(timed, cwd=where, stdin=source, stdout=out)
        _, status, usage = os.wait4(process.pid, 0)
        process.returncode = os.waitstatus_to_exitcode(status)
        if process.returncode not in may:
            raise SystemExit("%s: status %d" % (" ".join(words[:8]), process.returncode))
        out.seek(0)
        return Spent(usage.ru_utime + usage.ru_stime, int(room.read()) * 1024, out.read())


def least(words, where, given=None, may=(0,)):
    """The least of three runs."""
    turns = [once(words, where, given, may) for _ in range(TURNS)]
    return Spent(min(it.seconds for it in turns), max(it.memory for it in turns), turns[0].out)


def table(head, rows):
    """The lines of a table."""
    return ["| " + " | ".join(cells) + " |" for cells in [head, ["---"] * len(head), *rows]]


def mega(count):
    return "%.1f MB" % (count / 1e6)


def inputs(script, *words):
    """Has a script write its files."""
    subprocess.run([sys.executable, "-B", os.path.join(HERE, "inputs", script), *words], check=True)


def built_om():
    """The program that OM names, or else the one that is proved and built here."""
    if os.environ.get("OM"):
        return os.path.abspath(os.environ["OM"])
    folder = os.path.join(TOP, "crates/om_cli")
    said = subprocess.run(["rt", "run", "--"], cwd=folder, stdin=subprocess.DEVNULL, capture_output=True, check=False)
    if b"usage 1\n" not in said.stdout + said.stderr:
        raise SystemExit("om could not be proved and built")
    return os.path.join(folder, "out/om_cli")


def lines_of_crates():
    """The line of crates.txt of each crate, and the crates that it stands on."""
    with open(os.path.join(TOP, "crates.txt"), encoding="utf-8") as it:
        lines = [line.strip() for line in it if line.strip() and not line.startswith("#")]
    return {line.partition(":")[0]: line for line in lines}


def built_program(name, stands_on, folder):
    """Builds a program in a copy of what it stands on: one of `programs/`, or a crate of the repository where nothing else is said."""
    lines = lines_of_crates()
    work = os.path.join(folder, name)
    crates = os.path.join(work, "crates")
    os.makedirs(crates)
    shutil.copy(os.path.join(TOP, "HANDLES"), work)
    if stands_on is None:
        stands_on = lines[name].partition(":")[2].split()
        shutil.copytree(os.path.join(TOP, "crates", name), os.path.join(crates, name), ignore=shutil.ignore_patterns("out"))
    else:
        os.makedirs(os.path.join(crates, name, "src"))
        shutil.copy(os.path.join(HERE, "programs", name + ".rattle"), os.path.join(crates, name, "src/main.rt"))
    wanted, left = set(), [*stands_on]
    while left:
        crate = left.pop()
        if crate in lines and crate not in wanted:
            wanted.add(crate)
            left += lines[crate].partition(":")[2].split()
    with open(os.path.join(work, "crates.txt"), "w", encoding="utf-8") as out:
        for crate, line in lines.items():
            if crate in wanted:
                shutil.copytree(os.path.join(TOP, "crates", crate), os.path.join(crates, crate), ignore=shutil.ignore_patterns("out"))
                out.write(line + "\n")
        out.write("%s: %s\n" % (name, " ".join(stands_on)))
    subprocess.run(["git", "init", "-q"], cwd=work, check=True)
    where = os.path.join(crates, name)
    said = subprocess.run(["rt", "run"], cwd=where, stdin=subprocess.DEVNULL, capture_output=True, check=False)
    program = os.path.join(where, "out", name)
    if not os.path.exists(program):
        raise SystemExit("%s could not be proved and built:\n%s" % (name, said.stderr.decode(errors="replace")[-2000:]))
    return program


def objects(folder, kind, count):
    """The names of a kind's files, and their bytes in all."""
    names = ["%s%d.o" % (kind, k) for k in range(count)] if count else [kind + ".o"]
    return names, sum(os.path.getsize(os.path.join(folder, name)) for name in names)


def linked(om, folder, level, names):
    """A link three times: what it took, and the words of the objects."""
    took = least([om, "link", *level, "-o", "image", *names], folder)
    listed = once([om, "list", "image"], folder).out.rstrip().rpartition(b"\n")[2]
    return took, int(listed.split()[1])


def beside(took, size, words):
    return "%.0f" % ((took.memory - size) / words)


def links(folder):
    inputs("make_link.py", folder)
    om = built_om()
    rows = []
    for kind, count in ("text", 4), ("text", 8), ("text", 16), ("name", 256):
        names, size = objects(folder, kind, count)
        took, words = linked(om, folder, ["-O0"], names)
        image = os.path.getsize(os.path.join(folder, "image"))
        what = "%d with 1,000,000 symbols" % count if kind == "name" else "%d, %s words" % (count, format(words, ","))
        each = beside(took, size, words) if kind == "text" else ""
        rows.append([what, mega(size), mega(image), "%.2f s" % took.seconds, mega(took.memory), each])
    return table(["Objects", "Files", "Image", "Time", "Memory", "Bytes a word beside the files"], rows)


SHAPES = (
    ("block4_", 4, "blocks of 8 words, 2 loads of addresses each"),
    ("block8_", 8, "the same, twice as many"),
    ("block16_", 16, "the same, four times as many"),
    ("small4_", 4, "blocks of 2 words, a load in every second"),
    ("loads4_", 4, "a load in every fourth word, one block an object"),
    ("uses", 0, "a load with 1,000,000 uses"),
    ("conds", 0, "1,000,000 branches with conditions"),
    ("jumps", 0, "1,000,000 jumps by a register"),
    ("chain25000_", 2, "25,000 loads, each dead only when the next is"),
    ("chain50000_", 2, "50,000"),
    ("chain100000_", 2, "100,000"),
    ("loops25000_", 2, "25,000, a loop between each two"),
    ("loops50000_", 2, "50,000"),
    ("loops100000_", 2, "100,000"),
)


def levels(folder):
    inputs("make_full.py", folder)
    om = built_om()
    rows = []
    for kind, count, what in SHAPES:
        names, size = objects(folder, kind, count)
        plain, words = linked(om, folder, ["-O0"], names)
        full, _ = linked(om, folder, [], names)
        times = ["%.2f s" % plain.seconds, "%.2f s" % full.seconds, "%.1f" % (full.seconds / plain.seconds)]
        rows.append([what, format(words, ","), *times, beside(plain, size, words), beside(full, size, words)])
    return table(["Objects", "Words", "`link -O0`", "`link`", "times", "Bytes a word: `-O0`", "`link`"], rows)


def listing(folder):
    inputs("make_link.py", folder)
    om = built_om()
    names, _ = objects(folder, "text", 16)
    once([om, "link", "-O0", "-o", "image", *names], folder)
    took = least([om, "list", "image"], folder)
    row = [mega(len(took.out)), "%.2f s" % took.seconds, "%.0f MB/s" % (len(took.out) / 1e6 / took.seconds), mega(took.memory)]
    return table(["Listing", "Time, with the image read", "Speed", "Memory"], [row])


PLAIN_LOOP = """
use std::hint::black_box;

fn main() {
    let cell = black_box(0u64);
    let (mut count, mut sum) = (67_108_864u64, 0u64);
    loop {
        let loaded = unsafe { std::ptr::read_volatile(&cell) };
        sum = black_box(sum.wrapping_add(loaded));
        count -= 1;
        if count == 0 {
            break;
        }
    }
    std::process::exit((sum & 255) as i32);
}
"""


def runs(folder):
    om = built_om()
    inputs("make_loop.py", os.path.join(folder, "loop"))
    with open(os.path.join(folder, "plain.rs"), "w", encoding="ascii") as out:
        out.write(PLAIN_LOOP)
    subprocess.run(["rustc", "-O", "-o", "plain", "plain.rs"], cwd=folder, check=True)
    loop = least([om, "run", "loop"], folder, may=(0, 1))
    plain = least([os.path.join(folder, "plain")], folder, may=range(256))
    steps = 268435460
    speed = "%.0f million steps a second" % (steps / 1e6 / loop.seconds)
    rows = [
        ["`om run loop`, 268,435,460 steps", "%.2f s" % loop.seconds, speed, mega(loop.memory)],
        ["the loop as `rustc -O` makes it", "%.2f s" % plain.seconds, "%.0f times as fast" % (loop.seconds / plain.seconds), ""],
    ]
    return table(["What", "Time", "Speed", "Memory"], rows)


def sim(folder):
    om = built_om()
    inputs("make_sim.py", folder)
    loop = least([om, "sim", "-n", "300000000", "loop.o"], folder, may=(5,))
    large = least([om, "sim", "data.o"], folder, may=(0, 1))
    speed = "%.0f million steps a second" % (300 / loop.seconds)
    rows = [
        ["300,000,000 steps of load, add, store, subtract and branch", "%.2f s" % loop.seconds, speed, mega(loop.memory)],
        ["a program with 33,554,432 bytes of `.data`", "%.2f s" % large.seconds, "", mega(large.memory)],
    ]
    return table(["What", "Time", "Speed", "Memory"], rows)


def told(program, folder, given, pattern):
    """Least number of microseconds that a program of ours says it took, and its memory."""
    turns = [once([program], folder, given) for _ in range(TURNS)]
    micros = [int(re.search(pattern, it.out)[1]) for it in turns]
    return min(micros), max(it.memory for it in turns)


def reading(folder):
    reader = built_program("reader", ["om_object"], folder)
    inputs("make_large.py", folder)
    rows = []
    for name in sorted(it for it in os.listdir(folder) if it.endswith(".o")):
        file = os.path.join(folder, name)
        size = os.path.getsize(file)
        micros, memory = told(reader, folder, file, rb"in (\d+) us")
        rows.append(["`%s`" % name, format(size, ","), "%.1f ms" % (micros / 1000), "%.0f MB/s" % (size / micros), mega(memory)])
    return table(["File", "Bytes", "Time", "Speed", "Memory of the process"], rows)


def names(folder):
    resolver = built_program("resolver", ["om_object", "om_prog", "om_resolve"], folder)
    inputs("make_many.py", folder)
    rows = []
    for name in "few.objs", "many.objs", "text.objs":
        micros, memory = told(resolver, folder, os.path.join(folder, name), rb": (\d+) us")
        rows.append(["`%s`" % name, "%.2f s" % (micros / 1e6), mega(memory)])
    return table(["Objects", "Time", "Memory of the process"], rows)


def lifts(folder):
    lifter = built_program("lifter", ["om_lift", "om_graph", "om_prog", "om_value", "om_isa", "om_io"], folder)
    rows = []
    for count in 4, 8, 16:
        line = os.path.join(folder, "line")
        with open(line, "w", encoding="ascii") as out:
            out.write("%d\n" % count)
        alone = least([lifter], folder, line).memory
        with open(line, "w", encoding="ascii") as out:
            out.write("%d l\n" % count)
        micros, memory = told(lifter, folder, line, rb"in (\d+) us")
        words = 262144 * count
        rows.append([format(words, ","), "%.2f s" % (micros / 1e6), "%.0f ns" % (1000 * micros / words), "%.0f" % ((memory - alone) / words)])
    return table(["Words", "Time", "a word", "Bytes a word"], rows)


GRAPHS = (
    ("pairs", 1048576, "blocks of 2 words"),
    ("one", 1048576, "one block"),
    ("mixed", 2097152, "mixed blocks"),
    ("mixed", 4194304, "mixed blocks"),
    ("chain", 500000, "250,000 blocks against the order of labels"),
    ("chain", 1000000, "500,000 blocks against the order of labels"),
)


def solvers(folder):
    program = built_program("om_solvers", None, folder)
    line = os.path.join(folder, "line")

    def answer(solver, shape, words):
        with open(line, "w", encoding="ascii") as out:
            out.write("%s %s %d\n" % (solver, shape, words))
        return least([program], folder, line)

    rows = []
    for shape, words, what in GRAPHS:
        alone = answer("none", shape, words)
        cells = []
        for solver in "facts", "masks", "uses":
            took = answer(solver, shape, words)
            spent, room = took.seconds - alone.seconds, took.memory - alone.memory
            cells.append("%.0f ns, %.0f bytes" % (1e9 * spent / words, room / words))
        rows.append([what, format(words, ","), *cells])
    return table(["Graph", "Words", "Facts, a word", "Masks", "Uses"], rows)


SECTIONS = (links, levels, listing, runs, sim, reading, names, lifts, solvers)


def written(page, section, lines):
    """The page with the table of a section replaced."""
    begins, ends = "<!-- table of measure.py: %s -->\n" % section, "<!-- end of table -->"
    front, found, rest = page.partition(begins)
    _, closed, back = rest.partition(ends)
    if not found or not closed:
        raise SystemExit("docs/PERFORMANCE.md has no place for %s" % section)
    return front + begins + "\n".join(lines) + "\n" + ends + back


def main():
    words = sys.argv[1:]
    only_print = "--print" in words
    wanted = [it for it in words if it != "--print"] or [it.__name__ for it in SECTIONS]
    for name in wanted:
        section = next((it for it in SECTIONS if it.__name__ == name), None)
        if section is None:
            raise SystemExit("no section is named " + name)
        with tempfile.TemporaryDirectory() as folder:
            lines = section(folder)
        print("\n".join([name, *lines, ""]), flush=True)
        if not only_print:
            with open(PAGE, encoding="utf-8") as it:
                page = it.read()
            with open(PAGE, "w", encoding="utf-8") as out:
                out.write(written(page, name, lines))


if __name__ == "__main__":
    main()

#!/usr/bin/env python3
"""Refuses each request of om for memory in turn: refuse_memory.py [OM]

Links and runs at both levels three programs of the rows: three words that exit with 7, two objects that print a line, and two
objects with a call between them. Each call is made as often as it asks for memory, and once more; each time another request is
refused, by functions that stand in front of the C library's. A call has to answer as it does with ample memory, or with status
8 and `no memory`; and a link that is refused must not have saved anything. Needs gcc and om: the program named, or that which
the environment's OM names, or the one that the gate built.
"""
import os
import subprocess
import sys
import tempfile

TOP = os.path.dirname(os.path.dirname(os.path.abspath(__file__)))
sys.dont_write_bytecode = True
sys.path.insert(0, os.path.join(TOP, "crates/om_rows_commands/objects"))
from generate import FILES  # noqa: E402

SHIM = r"""
#define _GNU_SOURCE
#include <dlfcn.h>
#include <errno.h>
#include <stdio.h>
#include <stdlib.h>
static long asked, refused = -2;
static int refuse(void) {
    if (refused == -2) {
        const char *number = getenv("REFUSED");
        refused = number ? atol(number) : -1;
    }
    return asked++ == refused;
}
static void *from(const char *name) { return dlsym(RTLD_NEXT, name); }
void *malloc(size_t size) {
    static void *(*next)(size_t);
    if (!next) next = from("malloc");
    if (!refuse()) return next(size);
    errno = ENOMEM;
    return NULL;
}
void *realloc(void *old, size_t size) {
    static void *(*next)(void *, size_t);
    if (!next) next = from("realloc");
    if (!refuse()) return next(old, size);
    errno = ENOMEM;
    return NULL;
}
__attribute__((destructor)) static void tell(void) {
    const char *name = getenv("ASKED");
    FILE *out = name ? fopen(name, "w") : NULL;
    if (out) { fprintf(out, "%ld", asked); fclose(out); }
}
"""
NO_MEMORY = (8, b"", b"no memory\n", None)
PROGRAMS = [["EXITS_SEVEN"], ["PRINTS", "PUTS"], ["CALLS_ACROSS", "SETS_GP"]]


def call(om, folder, words, refused=None):
    """The status, both outputs, the bytes of `p`, and how often memory was asked for."""
    asked = os.path.join(folder, "asked")
    env = {**os.environ, "LD_PRELOAD": os.path.join(folder, "shim.so"), "ASKED": asked}
    if refused is not None:
        env["REFUSED"] = str(refused)
    made = os.path.join(folder, "p")
    if os.path.exists(made):
        os.remove(made)
    run = subprocess.run([om, *words], cwd=folder, env=env, stdin=subprocess.DEVNULL, capture_output=True)
    image = open(made, "rb").read() if os.path.exists(made) else None
    return (run.returncode, run.stdout, run.stderr, image), int(open(asked).read())


def refuse_each(om, folder, words):
    """How many of the refused calls answer otherwise than they may."""
    ample, asked = call(om, folder, words)
    wrong = wanting = 0
    if asked == 0:
        wrong = 1
        print("no request of this program was seen: it does not ask the C library")
    for k in range(asked + 1):
        got, _ = call(om, folder, words, k)
        wanting += got == NO_MEMORY
        if got not in (ample, NO_MEMORY):
            wrong += 1
            print("request %d of %s: %r" % (k, " ".join(words), got))
    print("%s: status %d, %d requests, %d times no memory" % (" ".join(words), ample[0], asked, wanting))
    return wrong


def main():
    built = os.environ.get("OM") or os.path.join(TOP, "crates/om_cli/out/om_cli")
    om = os.path.abspath(sys.argv[1] if len(sys.argv) > 1 else built)
    wrong = 0
    with tempfile.TemporaryDirectory() as folder:
        with open(os.path.join(folder, "shim.c"), "w", encoding="ascii") as out:
            out.write(SHIM)
        subprocess.run(["gcc", "-shared", "-fPIC", "-O1", "-o", "shim.so", "shim.c", "-ldl"], cwd=folder, check=True)
        for program in PROGRAMS:
            names = []
            for name, file in zip(program, ("a.o", "b.o")):
                with open(os.path.join(folder, file), "wb") as out:
                    out.write(FILES[name].bytes())
                names.append(file)
            for level in ["-O0"], []:
                wrong += refuse_each(om, folder, ["link", *level, "-o", "p", *names])
                wrong += refuse_each(om, folder, ["exec", *level, *names])
    print("wrong %d" % wrong)
    sys.exit(1 if wrong else 0)


if __name__ == "__main__":
    main()

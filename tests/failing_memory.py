#!/usr/bin/env python3
"""Lets each allocation of a run of a program fail, and checks that the program ends by itself as it should.

usage: tests/failing_memory.py PROGRAM [WORD..] < INPUT
       tests/failing_memory.py --scripts PROGRAM     with the program rtc_pair, over the stored scripts of a round, of crossed offers of
                                                     channels, and of messages over a channel

Each allocation fails in turn, first it alone, then it and all later ones. The program has to end by itself, with status 0 and
what it writes where memory suffices, or with status 6 and nothing, or with status 6 and the report up to its first step that
tells a want of memory. The allocator is replaced by a library that a C compiler of the machine builds for this run.
"""
import os
import subprocess
import sys
import tempfile

TOP = os.path.dirname(os.path.dirname(os.path.abspath(__file__)))
BY_HAND = "tests/data/scripts/by_hand"
SCRIPTS = (
    "examples/first.script",
    f"{BY_HAND}/each_side_takes_the_channel_line_of_the_other.script",
    f"{BY_HAND}/messages_over_a_channel.script",
)

SHIM = r"""
#define _GNU_SOURCE
#include <dlfcn.h>
#include <errno.h>
#include <stdio.h>
#include <stdlib.h>
#include <unistd.h>

static unsigned long calls, first, last;
static int ready;

static void begin(void) {
    const char *from = getenv("FAIL_FROM"), *to = getenv("FAIL_TO");
    ready = 1;
    first = from ? strtoul(from, 0, 10) : 0;
    last = to ? strtoul(to, 0, 10) : 0;
}

static int fails(void) {
    if (!ready) begin();
    calls++;
    if (calls < first || calls > last) return 0;
    errno = ENOMEM;
    return 1;
}

void *malloc(size_t size) {
    static void *(*real)(size_t);
    if (!real) real = dlsym(RTLD_NEXT, "malloc");
    return fails() ? 0 : real(size);
}

void *realloc(void *old, size_t size) {
    static void *(*real)(void *, size_t);
    if (!real) real = dlsym(RTLD_NEXT, "realloc");
    return fails() ? 0 : real(old, size);
}

int posix_memalign(void **out, size_t align, size_t size) {
    static int (*real)(void **, size_t, size_t);
    if (!real) real = dlsym(RTLD_NEXT, "posix_memalign");
    return fails() ? ENOMEM : real(out, align, size);
}

void *aligned_alloc(size_t align, size_t size) {
    static void *(*real)(size_t, size_t);
    if (!real) real = dlsym(RTLD_NEXT, "aligned_alloc");
    return fails() ? 0 : real(align, size);
}

__attribute__((destructor)) static void tell(void) {
    const char *to = getenv("COUNT_TO");
    if (to) {
        FILE *file = fopen(to, "w");
        if (file) {
            fprintf(file, "%lu\n", calls);
            fclose(file);
        }
    }
}
"""


def build(folder):
    source, library = os.path.join(folder, "shim.c"), os.path.join(folder, "shim.so")
    with open(source, "w", encoding="utf-8") as file:
        file.write(SHIM)
    for compiler in ("cc", "gcc", "clang"):
        try:
            subprocess.run([compiler, "-O1", "-fPIC", "-shared", "-o", library, source, "-ldl"], check=True)
            return library
        except FileNotFoundError:
            continue
    sys.exit("failing_memory: no C compiler was found")


def run(words, given, library, **settings):
    env = {"PATH": os.environ["PATH"], "LD_PRELOAD": library, **{name: str(value) for name, value in settings.items()}}
    done = subprocess.run(words, input=given, capture_output=True, env=env, timeout=60)
    return done.returncode, done.stdout


def is_right(status, written, whole):
    if status == 0:
        return written == whole
    if status != 6:
        return False
    if not written:
        return True
    lines = written.split(b"\n")
    lacking = next((n for n, line in enumerate(lines) if b"nomemory" in line), None)
    if lacking is None:
        return False
    # The lines of a step that polls stand between it and the line that tells the want of memory.
    step = next((n for n in range(lacking, -1, -1) if lines[n].startswith(b"step ")), lacking)
    return lines[:step] == whole.split(b"\n")[:step]


def check(words, given):
    """The number of runs that were made, and those that went wrong, each with its status."""
    with tempfile.TemporaryDirectory() as folder:
        library, count = build(folder), os.path.join(folder, "count")
        status, whole = run(words, given, library, COUNT_TO=count)
        if status != 0:
            sys.exit(f"failing_memory: {words[0]} ends with status {status} where memory suffices")
        with open(count, encoding="utf-8") as file:
            calls = int(file.read())
        wrong = []
        for n in range(1, calls + 1):
            for last in (n, 2**63):
                status, written = run(words, given, library, FAIL_FROM=n, FAIL_TO=last)
                if not is_right(status, written, whole):
                    wrong.append((n, last == n, status, written[:60]))
        return 2 * calls, wrong


def report(runs, wrong, what):
    for n, alone, status, written in wrong:
        print(f"WRONG allocation {n} failing {'alone' if alone else 'and all later ones'}: status {status}, wrote {written!r}")
    print(f"{runs - len(wrong)} of {runs} runs with failing allocations end as they should{what}", flush=True)
    return runs > 0 and not wrong


def check_scripts(program):
    right = True
    for path in SCRIPTS:
        with open(os.path.join(TOP, path), "rb") as script:
            runs, wrong = check([program, "run"], script.read())
        right = report(runs, wrong, f": {path}") and right
    return right


def main():
    if sys.argv[1:2] == ["--scripts"] and len(sys.argv) == 3:
        return 0 if check_scripts(os.path.abspath(sys.argv[2])) else 1
    if len(sys.argv) < 2 or sys.argv[1].startswith("--"):
        sys.exit(__doc__)
    runs, wrong = check([os.path.abspath(sys.argv[1]), *sys.argv[2:]], sys.stdin.buffer.read())
    return 0 if report(runs, wrong, "") else 1


if __name__ == "__main__":
    sys.exit(main())

"""The programs that tests/run tries: those that the gate proved and left in crates/*/out/, or unproved ones."""
import glob
import os
import subprocess
import tempfile
import time
from concurrent.futures import ThreadPoolExecutor

TOP = os.path.dirname(os.path.dirname(os.path.abspath(__file__)))
NAMES = ["rtc_pair", "rtc_room", "rtc_sdp_text", "rtc_gate", "rtc_files"]
CASES = 5

# The folder of programs that are compiled and not proved, if these are to be tried.
unproved = None


def program(name):
    return os.path.join(unproved, name) if unproved else os.path.join(TOP, "crates", name, "out", name)


# A program as LLVM builds it, and as Rattle's own compiler does if the gate left that.
def builds(name):
    path = program(name)
    return [path] + [path + ending for ending in (".by-rattle",) if os.path.isfile(path + ending)]


# `rt try` compiles a program and runs it in a folder of its own, below the one for temporary files, and removes it at the end. A link
# made meanwhile keeps it. Each of the cases has an empty input and no words: each program writes its usage and ends.
def build(name):
    scratch = os.path.join(unproved, f"{name}.scratch")
    cases = os.path.join(unproved, f"{name}.cases")
    os.mkdir(scratch)
    os.mkdir(cases)
    for case in range(CASES):
        open(os.path.join(cases, str(case)), "wb").close()
    words = ["rt", "try", "--steps", "1", "--cases", cases]
    where = {"cwd": os.path.join(TOP, "crates", name), "env": {**os.environ, "TMPDIR": scratch}}
    with open(os.path.join(unproved, f"{name}.log"), "wb") as log:
        trying = subprocess.Popen(words, stdin=subprocess.DEVNULL, stdout=log, stderr=log, **where)
        while trying.poll() is None:
            keep(scratch, program(name))
            time.sleep(0.01)
    return os.path.isfile(program(name))


def keep(scratch, path):
    for found in glob.glob(os.path.join(scratch, "*", "*", "program")):
        try:
            os.link(found, path)
        except (FileExistsError, FileNotFoundError):
            pass


# Compiles the programs, two at a time, into a folder that is removed with what is returned. Nothing is returned if one is not compiled.
def compile_unproved():
    global unproved
    folder = tempfile.TemporaryDirectory(prefix="unproved-")
    unproved = folder.name
    with ThreadPoolExecutor(2) as pool:
        built = dict(zip(NAMES, pool.map(build, NAMES)))
    for name in NAMES:
        if not built[name]:
            with open(os.path.join(unproved, f"{name}.log"), encoding="utf-8", errors="replace") as log:
                print(f"WRONG {name} is not compiled:\n{log.read()}")
    return folder if all(built.values()) else None

#!/usr/bin/env python3
"""Builds libgondyru, looks at the frames of its exports, and runs over it the programs of examples/c and examples/python, a whole session
with each allocation refused in turn, and every call of the Python package. What has no compiler, no objdump, no valgrind or no pip here is
left out, and a line says so.

usage: tests/c_programs.py
"""
import importlib.util
import os
import re
import shutil
import socket
import subprocess
import sys
import tempfile

TOP = os.path.dirname(os.path.dirname(os.path.abspath(__file__)))
ARCHIVE = os.path.join(TOP, "crates", "rtc_c", "out", "libgondyru.a")
SHARED = os.path.join(TOP, "crates", "rtc_c", "out", "libgondyru.so")
MEGABYTE = 1 << 20
SECONDS = 300
WRAPS = ["-Wl,--wrap=malloc", "-Wl,--wrap=realloc", "-Wl,--wrap=free"]
VALGRIND = ["valgrind", "-q", "--leak-check=full", "--errors-for-leak-kinds=all", "--error-exitcode=9"]


def skip(what):
    print(f"skipped: {what}")


def expect(what, is_right, written=""):
    if not is_right:
        print(f"WRONG {what}: {written}")
    return is_right


def run(*command, given=b"", seconds=SECONDS):
    return subprocess.run(command, input=given, stdout=subprocess.PIPE, stderr=subprocess.STDOUT, timeout=seconds, cwd=TOP)


def compile_c(path, program, *flags):
    words = ["cc", "-std=c11", "-O1", "-Wall", "-Wextra", "-Iinclude", path, ARCHIVE, *flags, "-o", program]
    done = run(*words)
    return expect(f"{path} is compiled", done.returncode == 0, done.stdout.decode())


def check_c(room):
    first, session = os.path.join(room, "first"), os.path.join(room, "session")
    if compile_c("examples/c/first.c", first):
        done = run(first)
        yield expect("examples/c/first.c", done.returncode == 0 and b"right: output 6 hello\n" in done.stdout, done.stdout.decode())
        if shutil.which("valgrind"):
            done = run(*VALGRIND, first)
            yield expect("examples/c/first.c under valgrind", done.returncode == 0, done.stdout.decode())
        else:
            skip("valgrind is not there")
    else:
        yield False
    if compile_c("tests/c/session.c", session, *WRAPS):
        done = run(session)
        print(done.stdout.decode(), end="")
        yield expect("tests/c/session.c", done.returncode == 0, done.stdout.decode())
    else:
        yield False


def free_port():
    with socket.create_server(("127.0.0.1", 0)) as server:
        return str(server.getsockname()[1])


def start(*words):
    how = {"stdin": subprocess.PIPE, "stdout": subprocess.PIPE, "stderr": subprocess.DEVNULL}
    return subprocess.Popen([sys.executable, *words], cwd=TOP, text=True, **how)


# Two people: each reads what the other one wrote, and one hangs up.
def check_chat():
    port = free_port()
    there, here = start("examples/python/chat.py", "listen", port), start("examples/python/chat.py", "call", port)
    try:
        right = here.stdout.readline() == "chat is open\n" and there.stdout.readline() == "chat is open\n"
        here.stdin.write("hello\nthere\n")
        here.stdin.flush()
        right = right and there.stdout.readline() == "> hello\n" and there.stdout.readline() == "> there\n"
        there.stdin.write("hello to you\n")
        there.stdin.flush()
        right = right and here.stdout.readline() == "> hello to you\n"
        here.stdin.close()
        right = right and there.stdout.readline() == "the other side hung up\n"
        return right and here.wait(SECONDS) == 0 and there.wait(SECONDS) == 0
    finally:
        here.kill()
        there.kill()


def check_file(room, size, *words, seconds):
    port, given, taken = free_port(), os.path.join(room, "given"), os.path.join(room, "taken")
    with open(given, "wb") as file:
        file.write(os.urandom(size))
    there = start("examples/python/send_file.py", "receive", taken, port, *words)
    here = start("examples/python/send_file.py", "send", given, port, *words)
    try:
        written = here.communicate(timeout=seconds)[0], there.communicate(timeout=seconds)[0]
    except subprocess.TimeoutExpired:
        return expect("a file is sent", False, f"it takes more than {seconds} seconds")
    finally:
        here.kill()
        there.kill()
    with open(given, "rb") as one, open(taken, "rb") as other:
        return expect("a file is sent", written == ("received\n", "the file is whole\n") and one.read() == other.read(), written)


def check_pip(room):
    if not importlib.util.find_spec("pip"):
        skip("pip is not there")
        return
    done = run(sys.executable, "-m", "pip", "install", "--no-index", "--no-deps", "--target", room, "./python")
    yield expect("pip install ./python", done.returncode == 0, done.stdout.decode())
    how = {"env": {"PYTHONPATH": room, "PATH": os.environ["PATH"]}, "cwd": room, "capture_output": True, "text": True}
    done = subprocess.run([sys.executable, "-c", "import gondyru; print(gondyru.__file__)"], **how)
    yield expect("the installed package", done.stdout.startswith(os.path.realpath(room)) or done.stdout.startswith(room), done.stderr)


# Functions in which the probe of a frame of more than a page, which uses r11, stands behind code that wrote r11.
def probed_late(listing):
    name, before = "", []
    for line in listing.splitlines():
        if line.endswith(">:"):
            name, before = line, []
        elif re.search(r"\bmov +%rsp,%r11$", line):
            if any(re.search(r",%r11[dwb]?$", it) and not re.search(r"\t(cmp|test)", it) for it in before):
                yield name
            before = []
        else:
            before.append(line)


def check_frames():
    if not shutil.which("objdump"):
        skip("objdump is not there")
        return
    done = run("objdump", "-d", "--no-show-raw-insn", SHARED)
    late = list(probed_late(done.stdout.decode(errors="replace")))
    yield expect("the frames of the exports", done.returncode == 0 and b"<gondyru_poll_output>:" in done.stdout and not late, late)


def results():
    if not shutil.which("cc") or not shutil.which("ar"):
        skip("no C compiler is there, so that libgondyru is not built")
        return
    done = run("tools/build-c", seconds=1800)
    yield expect("tools/build-c", done.returncode == 0, done.stdout.decode()[-2000:])
    if done.returncode:
        return
    yield from check_frames()
    with tempfile.TemporaryDirectory() as room:
        yield from check_c(room)
        yield expect("examples/python/chat.py", check_chat())
        yield check_file(room, 10 * MEGABYTE, seconds=SECONDS)
        yield check_file(room, MEGABYTE, "--drop", "100", seconds=60)
        done = run(sys.executable, "tests/python_peer.py")
        yield expect("tests/python_peer.py", done.returncode == 0, done.stdout.decode())
        yield from check_pip(os.path.join(room, "installed"))


def main():
    if sys.argv[1:]:
        sys.exit(__doc__)
    found = list(results())
    print(f"{found.count(True)} of {len(found)} checks of C and Python passed")
    return 0 if all(found) else 1


if __name__ == "__main__":
    sys.exit(main())

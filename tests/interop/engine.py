"""The engine: the program rtc_talk, driven by lines."""
import subprocess

from browsers import Refused


class Engine:
    def __init__(self, program):
        self.process = subprocess.Popen([program], stdin=subprocess.PIPE, stdout=subprocess.PIPE)

    # A reply is a line; one that begins a description or rows goes on to a line that is a dot.
    def ask(self, line):
        self.process.stdin.write(line.encode() + b"\n")
        self.process.stdin.flush()
        head = self.line()
        if head.split(" ")[0] not in ("offer", "answer", "rows"):
            return head, None
        lines = []
        while (line := self.line()) != ".":
            lines.append(line)
        return head, "\n".join(lines) + "\n"

    def line(self):
        data = self.process.stdout.readline()
        if not data:
            raise RuntimeError("rtc_talk has ended")
        return data.decode().rstrip("\n")

    def begin(self, settings):
        self.ask("peer " + settings)

    # The offer of changes; None if they change nothing, as a direction that a line has.
    def offer(self, changes):
        head, text = self.ask("offer " + " ".join(":".join(change) for change in changes))
        if text is None and not head.startswith("no offer"):
            raise Refused(head)
        return text

    def answer(self, text, call):
        head, answer = self.ask(f"{call} {text.encode().hex()}")
        if answer is None:
            raise Refused(head)
        return answer

    def take(self, text):
        head, _ = self.ask("take " + text.encode().hex())
        if head != "finished":
            raise Refused(head)

    # Mid, kind, direction and state of each media line.
    def rows(self):
        _, text = self.ask("rows")
        return [line.split() for line in text.splitlines() if line and not line.endswith(" application")]

    def end(self):
        self.process.stdin.close()
        self.process.wait()

"""Runs of the program, each of which must end quickly, within little memory, and with what a program may say."""

import os
import re
import resource
import signal

MB = 1 << 20
MOST_SECONDS = 2
MOST_MEMORY = 64 * MB
# A text of 2 KB that nests to the limit is laid out as 1 MB: what is written counts too.
MOST_MEMORY_FOR_EACH_BYTE_WRITTEN = 4
PATIENCE = 120

# The line of a fault: no control character of an input reaches a terminal by it. That of a command for files may be followed by the line of
# the input and a caret.
FAULT = re.compile(rb"(?:cbor-edn: [^\x00-\x1f\x7f]+\n|<stdin>[^\x00-\x1f\x7f]+\n(?:[^\x00-\x1f\x7f]*\n *\^\n)?)")
PLACE_OF_FILE = re.compile(rb"<stdin>:([0-9]+):([0-9]+): ([^\x00-\x1f\x7f]+)\n[^\n]*\n *\^\n")
PLACE = re.compile(rb"cbor-edn: Error parsing input data: (Invalid EDN|EDN nested too deeply) in line ([0-9]+) column ([0-9]+) \(byte ([0-9]+)\)\n")

program = ""
count = 0


class Run:
    def __init__(self, status, output, said):
        self.status = status
        self.output = output
        self.said = said

    def __eq__(self, other):
        return (self.status, self.output, self.said) == (other.status, other.output, other.said)

    def __str__(self):
        return f"status {self.status}, output {shown(self.output, 200)}, said {shown(self.said, 200)}"


class Problem(Exception):
    """A run broke a law."""


def shown(data, most=2000):
    """Bytes as a word of bash's printf, in printable characters."""
    text = "".join(chr(b) if 32 <= b < 127 and b not in b"\\'%" else f"\\x{b:02x}" for b in data[:most])
    return f"'{text}'" + ("" if len(data) <= most else f"... ({len(data)} bytes)")


def read_all(descriptor):
    parts = []
    while part := os.read(descriptor, 1 << 20):
        parts.append(part)
    os.close(descriptor)
    return b"".join(parts)


def run(words, data):
    """Runs the program on some input. The program reads all before it writes, so one pipe after the other is no deadlock."""
    global count
    count += 1
    source, give = os.pipe()
    take, sink = os.pipe()
    hear, errors = os.pipe()
    actions = [(os.POSIX_SPAWN_DUP2, source, 0), (os.POSIX_SPAWN_DUP2, sink, 1), (os.POSIX_SPAWN_DUP2, errors, 2)]
    process = os.posix_spawn(program, ["cbor-edn", *words], {}, file_actions=actions)
    for descriptor in (source, sink, errors):
        os.close(descriptor)
    signal.signal(signal.SIGALRM, lambda *_: os.kill(process, signal.SIGKILL))
    signal.alarm(PATIENCE)
    try:
        at = 0
        while at < len(data):
            at += os.write(give, data[at : at + MB])
    except BrokenPipeError:
        pass
    os.close(give)
    output, said = read_all(take), read_all(hear)
    _, status, usage = os.wait4(process, 0)
    signal.alarm(0)
    ended = Run(os.waitstatus_to_exitcode(status), output, said)
    seconds = usage.ru_utime + usage.ru_stime
    if seconds > MOST_SECONDS:
        raise Problem(f"it takes {seconds} seconds")
    # A peak begins with what this process has.
    own = resource.getrusage(resource.RUSAGE_SELF).ru_maxrss * 1024
    if usage.ru_maxrss * 1024 > max(own, MOST_MEMORY + MOST_MEMORY_FOR_EACH_BYTE_WRITTEN * len(output)):
        raise Problem(f"it takes {usage.ru_maxrss} KB of memory")
    fits = ended.said == b"" if ended.status == 0 else ended.output == b"" and FAULT.fullmatch(ended.said) is not None
    if ended.status not in (0, 1) or not fits:
        raise Problem(str(ended))
    return ended


def expect(wanted, ended):
    if ended != wanted:
        raise Problem(f"{ended}; and not {wanted}")


def written(output):
    return Run(0, output, b"")


def fault(words):
    return Run(1, b"", f"cbor-edn: {words}\n".encode())


def expect_place(ended, text, too_deep):
    """The run must have refused a text and name a place that is in it. `too_deep` says whether it must be for nesting, or None."""
    found = PLACE.fullmatch(ended.said)
    if ended.status != 1 or not found:
        raise Problem(f"the text is refused by the grammar, and not so: {ended}")
    words, line, column, offset = found.group(1), *map(int, found.groups()[1:])
    before = text.encode()[:offset]
    try:
        lines = before.decode().split("\n")
    except UnicodeDecodeError:
        lines = []
    if offset > len(text.encode()) or (line, column) != (len(lines), len(lines[-1]) + 1 if lines else 0):
        raise Problem(f"no such place: {ended}")
    if too_deep is not None and too_deep != (words != b"Invalid EDN"):
        raise Problem(f"the wrong reason: {ended}")


def expect_place_of_file(ended, text, words):
    """The same of a command for files: it tells one of these words, and a line and a column that are in the text."""
    found = PLACE_OF_FILE.fullmatch(ended.said)
    if ended.status != 1 or not found or found.group(3).decode() not in words:
        raise Problem(f"the text is refused, and not so ({words}): {ended}")
    lines = text.split("\n")
    line, column = int(found.group(1)), int(found.group(2))
    if not (1 <= line <= len(lines) and 1 <= column <= len(lines[line - 1]) + 1):
        raise Problem(f"no such place: {ended}")


def fault_of_bytes(words, offset):
    return Run(1, b"", f"<stdin>: {words} (byte {offset})\n".encode())

"""What the scripts of this folder share: how they begin and end, how they call the program, and what it printed."""
import argparse
import os
import re
import shutil
import subprocess
import sys
import tempfile
from dataclasses import dataclass, field

sys.dont_write_bytecode = True
NO_LEAF = 1000001  # the Bound of a cell on which no leaf holds
LAST_MOMENT = 1000000  # of a post
# A certificate's first line, and what the names of commands for it begin and end with.
VERSIONS = {"FZC 1": ("", ""), "FZC 2": ("", "16"), "FZC 3": ("t", ""), "FZC 4": ("t", "16")}


class Wrong(Exception):
    """The one line that a script says before it ends with 1."""


class Words(argparse.ArgumentParser):
    """The words of a script. `--help` prints the script's own text, and a word out of place is one line."""

    def __init__(self, text):
        super().__init__(add_help=False, allow_abbrev=False)
        self.text = text
        self.add_argument("--help", action="store_true")

    def read(self, words=None):
        words = sys.argv[1:] if words is None else words
        if "--help" in words:
            print(self.text.strip())
            sys.exit(0)
        return self.parse_args(words)

    def error(self, message):
        raise Wrong(f"{message}; see --help")


def start(main):
    """Runs a script: what is wrong is said in one line on standard error."""
    name = os.path.basename(sys.argv[0])
    sys.stdout.reconfigure(encoding="utf-8")
    try:
        status = main()
        sys.stdout.flush()
        sys.exit(status)
    except Wrong as wrong:
        said = str(wrong)
    except BrokenPipeError:  # as of `| head`
        os.dup2(os.open(os.devnull, os.O_WRONLY), sys.stdout.fileno())
        sys.exit(1)
    except OSError as fault:
        said = f"{fault.filename or 'output'}: {fault.strerror}"
    except RecursionError:
        said = "conditions nest too deep"
    print(f"{name}: {said}", file=sys.stderr)
    sys.exit(1)


def read(name):
    """A text. Comments may hold any bytes, and a byte order mark is no part of it."""
    with open(name, encoding="utf-8-sig", errors="replace", newline=None) as file:
        return file.read()


def write(name, text):
    with open(name, "w", encoding="utf-8", newline="\n") as file:
        file.write(text)


def tell(line):
    """Shows how far it is, on a line of a terminal that the next one takes the place of; an empty one clears it."""
    if sys.stderr.isatty():
        sys.stderr.write(f"\r\033[K{line}")
        sys.stderr.flush()


def stem(name):
    return os.path.splitext(os.path.basename(name))[0]


def whole_number(name, text, least, most):
    """The whole number that a word of a script is."""
    if not (text.isascii() and text.isdigit()) or not least <= int(text) <= most:
        raise Wrong(f"{name} {text}: a whole number from {least} to {most} is wanted")
    return int(text)


# ---------------------------------------------------------------------------------------------------------------------
# The program.


@dataclass
class Answer:
    status: int
    lines: list
    said: str  # its line on standard error


class Program:
    """The built program: the path that is given, `$FUZZ12`, the one that this clone built, or `fuzz12` of the PATH."""

    def __init__(self, path=None):
        built = os.path.join(os.path.dirname(__file__), "..", "crates", "fuzz12", "out", "fuzz12")
        found = [path or os.environ.get("FUZZ12"), built, shutil.which("fuzz12")]
        self.path = next((it for it in found if it and os.access(it, os.X_OK)), None)
        if self.path is None:
            raise Wrong("the program is not there: build it, or name it with --program")

    def call(self, *words, seconds=None):
        """The answer, or None where it takes longer than so many seconds."""
        if seconds is not None and seconds <= 0:
            return None
        try:
            done = subprocess.run([self.path, *map(str, words)], capture_output=True, check=False, timeout=seconds)
        except subprocess.TimeoutExpired:
            return None
        return Answer(done.returncode, done.stdout.decode("ascii").splitlines(), done.stderr.decode().strip())

    def ask(self, *words):
        """The lines of a call that is to succeed."""
        answer = self.call(*words)
        if answer.status != 0:
            raise Wrong(f"{words[0]}: {answer.said}")
        return answer.lines

    def image(self, command, *texts):
        """The image that a command compiles. A text that is not taken is wrong."""
        with tempfile.TemporaryDirectory() as folder:
            out = os.path.join(folder, "image.s19")
            self.ask(command, *texts, out)
            return read_records(read(out))


def with_program(words):
    words.add_argument("--program")
    return words


def with_kind(words):
    words.add_argument("--wide", action="store_true")
    words.add_argument("--tight", action="store_true")
    return words


def kind_given(given):
    """What the words say of certificates, as what the names of commands for them begin and end with."""
    return "t" if given.tight else "", "16" if given.wide else ""


def kind_of(version):
    """The same, as a certificate's first line says it."""
    return VERSIONS.get(version, ("", ""))


def command(kind, verb):
    """The name of a command, as `tcheck16` of ("t", "16") and `check`."""
    return verb.join(kind)


def numbers_behind(line, word):
    """The whole numbers that stand behind a word of a line."""
    behind = line.partition(f" {word} ")[2].split()
    found = []
    for it in behind:
        if not it.isdigit():
            break
        found.append(int(it))
    return found


@dataclass
class Row:
    """A line `sample`, `answer` or `fast`."""

    sample: int  # of the trace, from 1
    bytes: list
    answers: list
    steps: list
    end: list  # the boundary at which a turn ends
    fault: list
    instructions: list


@dataclass
class Frame:
    """A line `frame` or `inner`: an interrupt."""

    row: int  # the place of its row, from 0
    moment: int
    pc: int
    pushed: int


@dataclass
class Lines:
    """What a form of run printed, of one block."""

    errors: list = field(default_factory=list)  # of each output, in millionths of its range
    rows: list = field(default_factory=list)
    frames: list = field(default_factory=list)
    posted: bool = False  # whether interrupts post the samples, as in `mrun`


def row_of(line, sample):
    words = ("bytes", "answers", "steps", "at", "fault", "instructions")
    return Row(sample, *(numbers_behind(line, word) for word in words))


def read_lines(text, fast=False):
    """Reads the lines of any form of run. With fast they are those of the fast block of `lrun`."""
    lines, posted = Lines(), []
    try:
        for line in filter(None, text.splitlines()):
            words = line.split()
            kind = " ".join(words[:2]) if words[0] == "fast" and words[1] == "error" else words[0]
            if kind == ("fast error" if fast else "error"):
                lines.errors.append(int(words[-1]))
            elif kind == ("fast" if fast else "sample") and words[1].isdigit():
                lines.rows.append(row_of(line, int(words[1])))
            elif kind == "answer":
                lines.rows.append(row_of(line, int(words[3])))
            elif kind == "inner" and fast:
                lines.frames.append(Frame(len(lines.rows) - 1, int(words[1]), int(words[2], 16), int(words[4])))
            elif kind == "frame" and not fast and len(words) == 6:
                lines.frames.append(Frame(len(lines.rows) - 1, int(words[2]), int(words[3], 16), int(words[5])))
            elif kind == "frame" and not fast:
                posted.append(Frame(0, int(words[1]), int(words[2], 16), int(words[4])))
    except (ValueError, IndexError):
        raise Wrong("no lines of a run") from None
    return place_posted(lines, posted)


def place_posted(lines, posted):
    """Gives each interrupt of `mrun`, whose moments count over the whole run, to the turn in which it comes."""
    if posted and not all(row.end for row in lines.rows):
        raise Wrong("no lines of a run")
    lines.posted = any(row.end for row in lines.rows)
    ends = [row.end[0] for row in lines.rows if row.end]
    for frame in posted:
        row = next((k for k, end in enumerate(ends) if frame.moment < end), len(ends) - 1)
        begin = ends[row - 1] if row > 0 else 0
        lines.rows[row].steps = [ends[row] - begin]
        lines.frames.append(Frame(row, frame.moment - begin, frame.pc, frame.pushed))
    return lines


def posts_of(samples, every, offset):
    """Posts of so many samples, in their order, so many steps apart."""
    if offset + (samples - 1) * every > LAST_MOMENT:
        raise Wrong(f"{samples} samples that are {every} steps apart end after moment {LAST_MOMENT}: post fewer")
    return "".join(f"{offset + k * every},{k + 1}\n" for k in range(samples))


# ---------------------------------------------------------------------------------------------------------------------
# Images.


def read_records(text):
    """The bytes of S-records, by address."""
    image = {}
    for line in text.split():
        if line.startswith("S1"):
            try:
                record = bytes.fromhex(line[2:])
            except ValueError:
                raise Wrong("no S-records") from None
            begin = int.from_bytes(record[1:3], "big")
            image.update(zip(range(begin, 0x10000), record[3:-1]))
    if not image:
        raise Wrong("no S-records")
    return image


def word_at(image, address):
    return image.get(address, 0) << 8 | image.get(address + 1, 0)


# The instructions that a firmware has, by their opcodes: the name and how many bytes each has.
OPCODES = {
    0x01: ("MEM", 1), 0x05: ("JMP", 2), 0x06: ("JMP", 3), 0x0B: ("RTI", 1), 0x10: ("ANDCC", 2), 0x11: ("EDIV", 1),
    0x14: ("ORCC", 2), 0x16: ("JSR", 3), 0x20: ("BRA", 2), 0x26: ("BNE", 2), 0x27: ("BEQ", 2), 0x3D: ("RTS", 1),
    0x41: ("COMA", 1), 0x79: ("CLR", 3), 0x7A: ("STAA", 3), 0x7B: ("STAB", 3), 0x86: ("LDAA", 2), 0x8E: ("CPX", 3),
    0xB6: ("LDAA", 3), 0xB7: ("TFR", 2), 0xC6: ("LDAB", 2), 0xCB: ("ADDB", 2), 0xCD: ("LDY", 3), 0xCE: ("LDX", 3),
    0xCF: ("LDS", 3), 0xEB: ("ADDB", 2), 0xF6: ("LDAB", 3),
}
LONG = {0x3A: "REV", 0x3B: "REVW", 0x3C: "WAV", 0x0C: "MOVB", 0x11: "FDIV"}


def instruction_at(image, address):
    """The name and the length of the instruction at an address; WAV goes on at its second byte."""
    opcode = image.get(address)
    if opcode == 0x18:
        name = LONG.get(image.get(address + 1), "")
        return (name, 6 if name == "MOVB" else 2)
    return ("WAV", 1) if opcode == 0x3C else OPCODES.get(opcode, ("", 1))


def instructions_from(image, address):
    """The instructions that stand one behind the other, as triples of address, name and length."""
    while address in image:
        name, length = instruction_at(image, address)
        if not name:
            return
        yield address, name, length
        address += length


def is_name(text):
    return re.fullmatch(r"[A-Za-z_][A-Za-z0-9_]*", text, re.A) is not None

"""The instructions that generated code uses, done once more: it counts what a sample of each form of firmware does."""
from collections import Counter
from dataclasses import dataclass

from fuzz12 import Wrong, word_at

LONGEST = 100000  # more than the steps of any sample


@dataclass
class Form:
    """A form of the firmware: who compiles it, where a sample is put and asked for, and where its answers stand."""

    command: str
    inputs: int = 0x1001
    outputs: int = 0x1010
    ready: int = 0x1000
    parts: int = 1  # the bytes of an answer


FORMS = {
    "run": Form("compile"), "wide": Form("compile16", parts=2), "mailbox": Form("mcompile", 0x1020, ready=0x1028),
    "watched": Form("scompile"), "fast": Form("lcompile", 0x1401, 0x1410),
}
FAST, TABLES = 0x4000, 0xD000


class Machine:
    """Registers and memory, as docs/MACHINE.md has them; of the flags those that the code looks at.

    `done` has what was done, in pairs of a name and how often it was done in a row. An element of REV, REVW or WAV has
    a name of its own, behind that of its instruction.
    """

    def __init__(self, image):
        self.memory = bytearray(0x10000)
        for address, byte in image.items():
            self.memory[address] = byte
        self.a = self.b = self.x = self.y = self.sp = self.pc = 0
        self.zero = self.carry = False
        self.done, self.choices = [], None

    def byte(self):
        self.pc += 1
        return self.memory[self.pc - 1]

    def word(self):
        return self.byte() << 8 | self.byte()

    def word_in(self, address):
        return self.memory[address] << 8 | self.memory[address + 1]

    def step(self):
        opcode = self.byte()
        opcode = opcode << 8 | self.byte() if opcode in (0x18, 0xB7, 0xEB) else opcode
        if opcode not in INSTRUCTIONS:
            raise Wrong(f"the image has {opcode:02X} at {self.pc - 1:04X}, which no generated code has")
        name, do = INSTRUCTIONS[opcode]
        self.done.append((name, 1))
        do(self)

    # The instructions whose work is more than a line.

    def load(self, register, number):
        setattr(self, register, number)
        self.zero = number == 0

    def store(self, number):
        self.memory[self.word()] = number

    def compare(self):
        """CPX; where the paths are chosen, the branch behind it goes as the next choice says."""
        self.zero = self.x == self.word()
        if self.choices and self.memory[self.pc] == 0x27:
            self.zero = self.choices.pop()

    def branch(self, taken):
        offset = self.byte()
        if taken:
            self.pc += offset - 256 if offset > 127 else offset
            self.done[-1] = (self.done[-1][0] + " taken", 1)

    def call(self):
        target = self.word()
        self.sp -= 2
        self.memory[self.sp:self.sp + 2] = self.pc.to_bytes(2, "big")
        self.pc = target

    def come_back(self):
        self.pc, self.sp = self.word_in(self.sp), self.sp + 2

    def move(self):
        source = self.word()
        self.memory[self.word()] = self.memory[source]

    def flags(self, byte, setting):
        if setting:
            self.carry = self.carry or bool(byte & 1)
        else:
            self.carry = self.carry and bool(byte & 1)

    def add(self, byte):
        self.load("b", (self.b + byte) & 255)

    def add_next(self):
        self.add(self.memory[self.x])
        self.x += 1

    def transfer(self, word):
        self.a, self.b = word >> 8, word & 255

    def divide(self):
        number = self.y << 16 | self.a << 8 | self.b
        if self.x and number // self.x <= 0xFFFF:
            self.y = number // self.x
            self.transfer(number % self.x)

    def divide_fraction(self):
        number = self.a << 8 | self.b
        if number < self.x:
            self.transfer(number * 65536 % self.x)
            self.x = number * 65536 // self.x

    def grade(self):
        first, last, rise, fall = self.memory[self.x:self.x + 4]
        inside = first <= self.a <= last
        rising, falling = (self.a - first) * rise if rise else 255, (last - self.a) * fall if fall else 255
        self.memory[self.y] = min(255, rising, falling) if inside else 0
        self.x, self.y = self.x + 4, self.y + 1

    def rules(self, size):
        """REV, whose list has bytes, or REVW, whose list has words."""
        name, end = (("REV", 0xFF), ("REVW", 0xFFFF))[size - 1]
        concluding = False
        while True:
            element = int.from_bytes(self.memory[self.x:self.x + size], "big")
            self.x += size
            weighted = size == 2 and self.carry and element == end - 1
            self.done.append((f"{name} {'weighted mark' if weighted else 'element'}", 1))
            if element == end:
                return
            if element == end - 1:
                self.mark(weighted and not concluding, concluding)
                concluding = not concluding
            else:
                place = element if size == 2 else self.y + element
                if concluding:
                    self.memory[place] = max(self.memory[place], self.a)
                else:
                    self.a = min(self.a, self.memory[place])

    def mark(self, weighs, concluding):
        if weighs:
            self.a = self.a * (self.memory[self.y] + 1) >> 8
            self.y += 1
        elif concluding:
            self.a = 255

    def average(self):
        pairs = list(zip(self.memory[self.x:self.x + self.b], self.memory[self.y:self.y + self.b]))
        self.done.append(("WAV element", self.b))
        number = sum(a * b for a, b in pairs)
        self.y, self.x = number >> 16, sum(b for _, b in pairs)
        self.transfer(number & 0xFFFF)

    # A sample.

    def run_to(self, stop):
        """Does steps until PC is at a place, or behind RTI where that is None."""
        for _ in range(LONGEST):
            self.step()
            if self.pc == stop or stop is None and self.done[-1][0] == "RTI":
                return
        raise Wrong("the image comes to no end")


INSTRUCTIONS = {
    0x01: ("MEM", Machine.grade), 0x0B: ("RTI", lambda m: None), 0x11: ("EDIV", Machine.divide),
    0x10: ("ANDCC ii", lambda m: m.flags(m.byte(), False)), 0x14: ("ORCC ii", lambda m: m.flags(m.byte(), True)),
    0x16: ("JSR hhll", Machine.call), 0x3D: ("RTS", Machine.come_back),
    0x20: ("BRA", lambda m: m.branch(True)), 0x26: ("BNE", lambda m: m.branch(not m.zero)),
    0x27: ("BEQ", lambda m: m.branch(m.zero)),
    0x41: ("COMA", lambda m: m.load("a", 255 - m.a)), 0x79: ("CLR hhll", lambda m: m.store(0)),
    0x7A: ("STAA hhll", lambda m: m.store(m.a)), 0x7B: ("STAB hhll", lambda m: m.store(m.b)),
    0x86: ("LDAA ii", lambda m: m.load("a", m.byte())), 0xB6: ("LDAA hhll", lambda m: m.load("a", m.memory[m.word()])),
    0xC6: ("LDAB ii", lambda m: m.load("b", m.byte())), 0x8E: ("CPX hhll", Machine.compare),
    0xCB: ("ADDB ii", lambda m: m.add(m.byte())), 0xEB30: ("ADDB 1,X+", Machine.add_next),
    0xCD: ("LDY hhll", lambda m: m.load("y", m.word())), 0xCE: ("LDX hhll", lambda m: m.load("x", m.word())),
    0xCF: ("LDS hhll", lambda m: m.load("sp", m.word())), 0xB754: ("TFR", lambda m: m.transfer(m.x)),
    0xB764: ("TFR", lambda m: m.transfer(m.y)), 0x180C: ("MOVB hhll,hhll", Machine.move),
    0x1811: ("FDIV", Machine.divide_fraction), 0x183A: ("REV", lambda m: m.rules(1)),
    0x183B: ("REVW", lambda m: m.rules(2)), 0x183C: ("WAV", Machine.average),
}


# ---------------------------------------------------------------------------------------------------------------------
# Samples.


class Firmware:
    """An image of a form of firmware, where it waits for a sample."""

    def __init__(self, image, form):
        self.machine, self.form = Machine(image), FORMS[form]
        self.loop = None
        if form == "fast":
            self.entry = FAST
        else:
            self.machine.pc = word_at(image, 0xFFFE)
            for _ in range(3):
                self.machine.step()
            self.entry = self.loop = self.machine.pc

    def sample(self, bytes_, choices=None, changed=False):
        """What is done for a sample. With `choices` each output's branch goes as told; with `changed` a table's byte is
        another."""
        machine, form = self.machine, self.form
        machine.done, machine.choices, machine.pc = [], choices, self.entry
        machine.memory[form.inputs:form.inputs + len(bytes_)] = bytes(bytes_)
        machine.memory[form.ready] = 1
        machine.memory[TABLES] ^= changed
        machine.run_to(self.loop)
        machine.memory[TABLES] ^= changed
        return machine.done

    def answers(self, count):
        form, memory = self.form, self.machine.memory
        places = range(form.outputs, form.outputs + count * form.parts, form.parts)
        return [int.from_bytes(memory[it:it + form.parts], "big") for it in places]


def is_long(name):
    return name in ("REV", "REVW", "WAV")


def is_element(name):
    return name.partition(" ")[0] in ("REV", "REVW", "WAV") and " " in name


def instructions_of(done):
    return sum(times for name, times in done if not is_element(name))


def steps_of(done):
    """Each element is a step, and the instruction itself none."""
    return sum(times for name, times in done if not is_long(name))


def counted(done):
    found = Counter()
    for name, times in done:
        found[name] += times
    return found

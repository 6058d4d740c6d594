"""What the lines on traces, plans, posts, levels and upsets mean."""
import re
from fractions import Fraction

from fcl import spell
from places import MOST_SHOWN, Told, listed

MOST_ROWS = 10000
PLAN_FORMS = {
    "PLAN": "a sample from 1 on, a moment, and up to eight pairs of an address and a byte",
    "POSTS": "a moment up to 1000000, a sample of the trace or 0, and up to eight pairs of an address and a byte",
    "LEVELS": "a slow sample from 1 on, a moment, a fast sample or 0, and up to eight inner moments that do not fall",
    "UPSETS": "a sample from 1 on, an address and a byte",
}


# ---------------------------------------------------------------------------------------------------------------------
# Rows and fields.


def fields_of(line):
    """The fields of a line, each with the column at which it begins; quotes around one are no part of it."""
    fields, column = [], 0
    while column <= len(line):
        quoted = re.match(r'"((?:[^"]|"")*)"(?=,|$)', line[column:])
        part = quoted[0] if quoted else line[column:].partition(",")[0]
        fields.append((quoted[1].replace('""', '"'), column + 1) if quoted else (part, column))
        column += len(part) + 1
    return fields


def rows_of(file):
    """The numbers of the lines that are rows, and their texts; empty lines are none."""
    text = file.data.decode("utf-8-sig", "replace")
    lines = re.split(r"\r\n|\n|\r", text)
    return [(number, line) for number, line in enumerate(lines, start=1) if line]


def at_row(file, row, field=None):
    """The place of a row, from 1, and a mark below a field."""
    rows = rows_of(file)
    if not 1 <= row <= len(rows):
        return Told(file.name), ""
    number, line = rows[row - 1]
    told = file.line(number)
    told.shown = [f"    {line[:MOST_SHOWN]}"]
    if field is not None and field < len(fields_of(line)):
        text, column = fields_of(line)[field]
        if column < MOST_SHOWN:
            told.shown.append("    " + " " * column + "^" * max(1, min(len(text), MOST_SHOWN - column)))
    if number != row:
        told.place += f", which is row {row}"
    return told, line


def number_fault(text):
    """What is wrong with the text of a decimal, and what to write; None where it is one."""
    plain = text.strip()
    if text == "":
        return "an empty field", "write a number"
    if plain != text:
        return "a blank beside the number", f"write {plain}, with no blank behind the comma"
    power = re.fullmatch(r"([-+]?\d+(?:\.\d+)?)[eE]([-+]?\d{1,2})", plain)
    if power:
        value = Fraction(power[1]) * Fraction(10) ** int(power[2])
        return "a number with an exponent", f"write {spell(value)}"
    if re.fullmatch(r"[-+]?\d+(\.\d+)?", plain):
        places = plain.partition(".")[2].rstrip("0")
        if len(places) > 4:
            return "a number with more than four places", f"write {spell(Fraction(plain))}"
        return ("a number above 100000", "take another unit") if abs(Fraction(plain)) > 100000 else None
    return word_fault(plain)


def word_fault(text):
    """The same, of what is no number at all."""
    if ";" in text:
        return "a semicolon between numbers", "part the numbers with commas, and write decimal points: tr ',;' '.,'"
    if "\t" in text or " " in text:
        return "a blank between numbers", "part the numbers with commas"
    if re.fullmatch(r"[-+]?(\.\d+|\d+\.)", text):
        return "a point without a digit on each side", "write 0.5, or 5"
    if text.lower().lstrip("+-") in ("nan", "inf", "infinity"):
        return f"{text} is no number", "leave the row out, or write what the sensor's fault is to count as"
    if re.match(r"[-+]?\d", text):
        return f"{text} is no decimal", "write digits, a point and digits only, without a unit"
    return f"{text} is no number", "write digits, a point and digits only"


# ---------------------------------------------------------------------------------------------------------------------
# Traces.


def is_heading(row, fields):
    return row == 1 and any(re.search(r"[A-Za-z]", it) for it, _ in fields) and not any(
        re.fullmatch(r"[-+]?\d+(\.\d+)?([eE].*)?", it.strip()) for it, _ in fields)


def trace_row(file, row, inputs):
    """A row that has not one decimal for each input; inputs are their names, or None where they are not known."""
    row = int(row)
    told, line = at_row(file, row)
    fields = fields_of(line)
    if is_heading(row, fields):
        told.means = ["a heading; a trace has numbers only"]
        told.helps = [f"leave it out: tail -n +2 {file.name}"]
        return told
    return miscounted(file, row, inputs) or bad_field(file, row, number_fault) or told


def miscounted(file, row, inputs):
    """What a row with another number of fields than inputs has."""
    told, line = at_row(file, row)
    fields = fields_of(line)
    if inputs is None or len(fields) == len(inputs):
        return None
    if ";" in line:
        told.means = ["a semicolon between numbers"]
        told.helps = ["part the numbers with commas, and write decimal points: tr ',;' '.,'"]
    elif len(fields) == 2 * len(inputs) and all(re.fullmatch(r"[-+]?\d+", it) for it, _ in fields):
        told.means = ["decimal commas: the row has twice as many fields as inputs"]
        told.helps = ["write decimal points"]
    elif len(fields) == 1 and re.search(r"\S[ \t]+\S", line):
        told.means = ["a blank between numbers"]
        told.helps = ["part the numbers with commas"]
    else:
        last = ", the last of them empty" if fields[-1][0] == "" else ""
        told.means = [f"the row has {len(fields)} field{'s' * (len(fields) != 1)}{last}; "
                      f"the block has {len(inputs)} input{'s' * (len(inputs) != 1)}"]
        told.helps = [f"write a number for {listed(inputs, 'and')}, in this order"]
    return told


def bad_field(file, row, fault_of):
    """The first field with a fault."""
    _, line = at_row(file, row)
    for k, (text, _) in enumerate(fields_of(line)):
        fault = fault_of(text)
        if fault:
            told, _ = at_row(file, row, k)
            told.means, told.helps = [f"field {k + 1}: {fault[0]}"], [fault[1]]
            return told
    return None


def out_of_range(file, row, number, variable):
    """A value outside its input's range; variable has the name and the range, or is None."""
    told, line = at_row(file, int(row), int(number) - 1)
    fields = fields_of(line)
    value = fields[int(number) - 1][0] if len(fields) >= int(number) else "the value"
    if variable is None:
        told.means = [f"{value} is outside the range of input {number}"]
    else:
        low, high = variable.span
        told.means = [f"{value} is outside {variable.name}'s range, {spell(low)} .. {spell(high)}"]
    told.helps = ["cut it to the range, as a sensor's reading is on a chip; or widen RANGE in the text"]
    return told


def too_many(file):
    told, _ = at_row(file, MOST_ROWS + 1)
    told.means = [f"a file has at most {MOST_ROWS} rows"]
    told.helps = [f"run it in parts: split -l {MOST_ROWS} {file.name}"]
    return told


# ---------------------------------------------------------------------------------------------------------------------
# Plans, posts, levels and upsets.


def whole_fault(text, least=0, most=999999999):
    """What is wrong with the text of a whole number."""
    if re.fullmatch(r"\d{1,9}", text):
        if not least <= int(text) <= most:
            return f"{int(text)} is not from {least} to {most}", "numbers count from 1" if least else f"{most} at most"
        return None
    if re.fullmatch(r"\d{10,}", text):
        return "a number of more than nine digits", "write at most nine"
    if re.fullmatch(r"[-+]\d+", text):
        return "a sign", "whole numbers have none"
    if re.fullmatch(r"\d+\.\d+", text):
        return "a number with a point", "write a whole number"
    return number_fault(text) or (f"{text} is no whole number", "write decimal digits")


def hex_fault(text, digits):
    """What is wrong with the text of an address or a byte."""
    kind = "an address" if digits == 4 else "a byte"
    if re.fullmatch(rf"[0-9A-Fa-f]{{{digits}}}", text):
        return None
    plain = re.sub(r"^(\$|0[xX])|[hH]$", "", text.strip())
    if re.fullmatch(r"[0-9A-Fa-f]{1,4}", plain) and len(plain) <= digits:
        return f"{kind} has {digits} hexadecimal digits alone", f"write {plain.upper().rjust(digits, '0')}"
    return f"{text or 'nothing'} is not {kind} of {digits} hexadecimal digits", "write digits 0 to 9 and A to F"


def pair_faults(fields):
    """The faults of addresses and bytes, with the fields that have them."""
    for k, text in enumerate(fields):
        fault = hex_fault(text, 4 if k % 2 == 0 else 2)
        if fault:
            yield k, fault
    if len(fields) % 2:
        yield len(fields) - 1, ("an address without a byte", "write the byte behind it")
    if len(fields) > 16:
        yield 16, ("more than eight pairs", "write the others in a row of their own with the same moment")


def faults_of_row(kind, fields, samples):
    """The faults of a row, in order, with the fields that have them; samples is how many there are, or None."""
    many = 999999999 if samples is None else samples
    if kind == "UPSETS":
        if len(fields) != 3:
            yield 0, (f"the row has {len(fields)} fields", f"write {PLAN_FORMS[kind]}")
            return
        checks = [whole_fault(fields[0], 1), hex_fault(fields[1], 4), hex_fault(fields[2], 2)]
        yield from ((k, it) for k, it in enumerate(checks) if it)
        return
    wanted = 3 if kind == "LEVELS" else 2
    first = whole_fault(fields[0], 0, 1000000) if kind == "POSTS" else whole_fault(fields[0], 1)
    if first:
        yield 0, first
    if len(fields) < wanted:
        said = f"the row has {len(fields)} field{'s' * (len(fields) != 1)}"
        yield len(fields) - 1, (said, f"write {PLAN_FORMS[kind]}")
        return
    second = whole_fault(fields[1], 0, many if kind == "POSTS" else 999999999)
    if second:
        yield 1, second
    if kind == "LEVELS":
        yield from faults_of_level(fields, many)
    else:
        yield from ((k + 2, it) for k, it in pair_faults(fields[2:]))


def faults_of_level(fields, many):
    for k, text in enumerate(fields[2:], start=2):
        fault = whole_fault(text, 0, many if k == 2 else 999999999)
        if fault:
            yield k, fault
    if len(fields) > 11:
        yield 11, ("more than eight inner moments", "leave some out")
    inner = [int(it) for it in fields[3:] if it.isdigit()]
    if inner != sorted(inner):
        yield 3, ("inner moments that fall", "write them in ascending order")
    if inner and fields[2].strip("0") == "":
        yield 3, ("inner moments behind 0, which is no fast sample", "leave them out, or name a fast sample")


def plan_row(file, row, kind, samples):
    """A row of a plan, of posts, of levels or of upsets that is out of form."""
    row = int(row)
    told, line = at_row(file, row)
    fields = [it for it, _ in fields_of(line)]
    if is_heading(row, fields_of(line)) and not re.fullmatch(r"[0-9A-Fa-f,]*", line):
        told.means, told.helps = ["a heading; the file has rows only"], [f"leave it out: tail -n +2 {file.name}"]
        return told
    if ";" in line:
        told.means, told.helps = ["a semicolon between fields"], ["part the fields with commas"]
        return told
    k, (means, helps) = next(faults_of_row(kind, fields, samples), (None, ("the row is out of form", "")))
    told, _ = at_row(file, row, k)
    told.means = [means if k is None else f"field {k + 1}: {means}"] + [f"a row has {PLAN_FORMS[kind]}"]
    told.helps = [helps] if helps else []
    return told


def field_with(file, row, address):
    _, line = at_row(file, row)
    return next((k for k, (it, _) in enumerate(fields_of(line)) if it.upper() == address), None)


def not_free(file, row, address):
    told, _ = at_row(file, int(row), field_with(file, int(row), address))
    told.means = [f"an interrupt may write from 1800 to 1FDF only, and {address} is {region(int(address, 16))}"]
    told.helps = ["take an address from 1800 to 1FDF"]
    return told


def region(address):
    """What the firmware has at an address."""
    if address >= 0x2000:
        return "above the RAM" if address < 0x4000 else "in the image's part of memory"
    if address >= 0x1FE0:
        return "in the stack"
    return "in the firmware's RAM" if address >= 0x1000 else "below the RAM"


def not_table(file, row, address):
    told, _ = at_row(file, int(row), field_with(file, int(row), address))
    told.means = [f"the image has no byte of a table at {address}; tables are from D000 to FEFF"]
    told.helps = ["take an address that an S1 record of the image covers"]
    return told


def not_ascending(file, row, kind):
    row = int(row)
    told, line = at_row(file, row)
    before = at_row(file, row - 1)[1]
    key = {"PLAN": "by sample and moment", "POSTS": "by moment", "LEVELS": "by slow sample and moment",
           "UPSETS": "by sample, each above the one before"}[kind]
    told.means = [f"rows are ordered {key}, and before this row is {before}"]
    keys = "-k1,1n" if kind in ("POSTS", "UPSETS") else "-k1,1n -k2,2n"
    told.helps = [f"sort them: sort -t, {keys} {file.name}"] + ["leave one upset to a sample"] * (kind == "UPSETS")
    return told

"""What the lines `asm: ..` mean."""
import re
from difflib import get_close_matches

from places import listed

MNEMONICS = """LDAA LDAB LDX LDY LDS STAA STAB CLR COMA CPX BEQ BNE BCC BCS BRA JSR RTS ANDCC ORCC TFR EDIV FDIV RTI
    NOP INC DEC ADDA ADDB ADCA SUBA CMPA ANDA ORAA INX DEX INY DEY PSHA PULA MOVB MEM REV REVW WAV WAVR ORG FCB FDB
    EQU""".split()
# What other assemblers write, and what stands for it here.
ELSEWHERE = {
    "SEI": "ORCC #$10", "CLI": "ANDCC #$EF", "CLC": "ANDCC #$FE", "SEC": "ORCC #$01", "CLRA": "LDAA #0, which leaves C",
    "CLRB": "LDAB #0, which leaves C", "LDD": "LDAA and LDAB", "LBRA": "BRA where it reaches",
    "JMP": "BRA where it reaches", "END": "nothing: the last line ends a source",
    "RMB": "a name, and on the next line ORG name+length", "DS": "a name, and on the next line ORG name+length",
    "DC": "FCB or FDB", "DB": "FCB", "DW": "FDB", "FCC": "FCB with a number for each character", "SET": "EQU",
    "=": "EQU", "INCA": "ADDA #1", "DECA": "SUBA #1", "TAB": "STAA to a byte, and LDAB of it", "BHS": "BCC",
    "BLO": "BCS",
}
FORMS = [
    (r"\b0[xX][0-9A-Fa-f]", "a number is decimal, or $ and hexadecimal digits"),
    (r"\b[0-9][0-9A-Fa-f]*[hH]\b", "a number is decimal, or $ and hexadecimal digits"),
    (r"[%@][0-7]", "a number is decimal, or $ and hexadecimal digits"),
    (r"'", "write a character as its number"),
    (r"#-|[ ,]-\d", "no sign is taken: write #$FF for -1"),
    (r"[<>]", "leave < and > out: each address has two bytes"),
    (r"\[|,[XY](?!\+)|,SP|,PC", "of indexed operands only ADDB 1,X+ is taken"),
    (r"[*/]", "an expression has + and - only"),
    (r"[-+,] | [-+,]", "no blank is taken inside an operand"),
    (r" ", "a comment begins with ;"),
]


def parts_of(line):
    """A line's name, operation and operand, without its comment."""
    code = line.partition(";")[0].rstrip()
    named = re.match(r"\S*", code)[0]
    rest = code[len(named):].split(None, 1)
    return named, rest[0].upper() if rest else "", rest[1] if len(rest) > 1 else ""


def names_of(lines):
    """The names that lines define, in capitals, with the first line of each."""
    found = {}
    for number, line in enumerate(lines, start=1):
        name = parts_of(line)[0].upper()
        if re.fullmatch(r"[A-Z_]\w*", name, re.A):
            found.setdefault(name, number)
    return found


def bad_line(line):
    """Why a line has no form, and what to write."""
    name, operation, operand = parts_of(line)
    if name.startswith("*"):
        return "a comment with *", "begin comments with ;"
    if name.endswith(":"):
        return "a colon behind a name", f"write {name[:-1]}, in the first column"
    if name.upper() in MNEMONICS or name.upper() in ELSEWHERE:
        return f"{name} begins in the first column, where a name stands", "put a blank before an operation"
    if name and not re.fullmatch(r"[A-Za-z_]\w*", name, re.A):
        return f"{name} is no name", "a name has letters, digits and _"
    base = operation.partition(".")[0]
    if base in ELSEWHERE:
        return f"{operation} is a word of other assemblers", f"write {ELSEWHERE[base]}"
    if operation not in MNEMONICS:
        near = get_close_matches(operation, MNEMONICS, 3, 0.6)
        helps = f"near: {listed(near)}" if near else "docs/MACHINE.md lists those that are"
        return f"{operation or 'nothing'} is no operation", helps
    if operand.strip() in ("*", ".", "$"):
        return "no sign stands for the place of the line", f"put a name in the first column: L {operation} L"
    for form, helps in FORMS:
        if re.search(form, operand):
            return f"{operation} does not take {operand}", helps
    return (f"{operation} does not take {operand}" if operand else f"{operation} without an operand",
            "docs/ASSEMBLER.md has the forms; a comment begins with ;")


def asm_line(file, number, why):
    number = int(number)
    told = file.line(number)
    lines = file.lines
    line = lines[number - 1] if number <= len(lines) else ""
    name, operation, operand = parts_of(line)
    if why == "bad line":
        means, helps = bad_line(line)
        told.means, told.helps = [means], [helps]
    elif why == "twice":
        told.means = [f"{name} is defined in line {names_of(lines).get(name.upper(), '?')} already"]
        told.helps = ["take another name"]
    elif why == "unknown name":
        told.means, told.helps = unknown_name(lines, number, operation, operand)
    elif why == "range":
        told.means = ["a byte is from 0 to 255, and a word, an address or a value from 0 to 65535"]
        told.helps = ["write FDB for a word, FCB for a byte; there are no negative numbers: $FF stands for -1"]
    elif why == "branch far":
        told.means = ["a branch reaches 128 bytes back and 127 ahead"]
        told.helps = ["move the target nearer, or branch over a second BRA"]
    else:
        told.means = ["an earlier line gave a byte to an address of this one"]
        told.helps = ["look at the ORG before each of the two"]
    return told


def unknown_name(lines, number, operation, operand):
    """A name that no line defines, or none above, and those that are near."""
    known = names_of(lines)
    used = [it.upper() for it in re.findall(r"(?<![$\w])[A-Za-z_]\w*", operand, re.A)]
    wanted = [it for it in used if it not in known or (operation in ("ORG", "EQU") and known[it] >= number)]
    name = wanted[0] if wanted else operand
    if name in known:
        said = f"{name} is defined below, in line {known[name]}; ORG and EQU take names from above"
        return [said], ["move its line up"]
    near = get_close_matches(name, list(known), 3, 0.5)
    helps = [f"near: {listed(near)}"] if near else []
    return [f"no line defines {name}"], helps or ["define it with EQU, or as a label in the first column"]

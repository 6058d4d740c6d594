"""What the lines on images, certificates, handlers, scripts and runs of images mean."""
import re

from fcl import spell_rule
from fuzz12 import VERSIONS, Wrong, command, instruction_at, read_records
from places import Told, listed

# ---------------------------------------------------------------------------------------------------------------------
# Images.

RECORD = re.compile(r"[Ss]([0159])((?:[0-9A-Fa-f]{2})+)")


def at_line(file, number, means, helps=()):
    told = file.line(int(number))
    told.means, told.helps = list(means), list(helps)
    return told


def record_fault(line):
    """Why a line is no record."""
    if line == "":
        return "an empty line", "leave it out"
    if line.startswith(":"):
        return "a record of Intel HEX", "convert it: objcopy -I ihex -O srec, or srec_cat -intel -o out.s19 -motorola"
    if not line.isprintable():
        return "no text", "an image is written as S-records: objcopy -O srec"
    if line != line.strip():
        return "a blank beside the record", "leave it out"
    if not re.match(r"[Ss]\d", line):
        return "no record, which begins with S and a digit", "give the file that compile or asm wrote"
    found = RECORD.fullmatch(line)
    if not found:
        return "not S0, S1, S5 or S9 with pairs of hexadecimal digits", "write the line again as the tool wrote it"
    data = bytes.fromhex(found[2])
    if len(data) != data[0] + 1:
        return (f"a count of {data[0]} bytes before {len(data) - 1}", "the line was cut or joined: write it again")
    if found[1] in "59" and data[0] != 3:
        return f"data in S{found[1]}", "leave the data out"
    return "bytes past FFFF, or fields out of form", "an address has 16 bits"


def image_line(file, number):
    lines = file.lines
    fault, helps = record_fault(lines[int(number) - 1] if int(number) <= len(lines) else "")
    return at_line(file, number, [fault], [helps])


def image_sum(file, number, got, wanted):
    return at_line(file, number, [f"the checksum is {got}, and the bytes of the line give {wanted}: one was changed"],
                   ["make the image again; if you changed the byte on purpose, write the new checksum"])


def image_wide(file, number):
    return at_line(file, number, ["the address has more than 16 bits"],
                   ["write S1 and S9 records: objcopy -O srec makes them where all addresses are below 10000"])


def image_overlap(file, number):
    return at_line(file, number, ["an address of this line has a byte of an earlier one"], ["leave one of the two out"])


def image_after_end(file, number):
    return at_line(file, number, ["a line behind S9, which ends the image"], ["leave it out; join files before S9"])


def image_count(file, got, wanted):
    said = f"S5 counts {got} records of bytes, and {wanted} stand before it: a line was lost or added"
    return Told(file.name, [], [said], ["make the image again, or leave S5 out"])


def image_no_end(file):
    return Told(file.name, [], ["the file has no S9: its end was lost"], ["make the image again"])


def image_differs(file, here, makers):
    """An image of another block or form, or with more in it; makers has the commands that make it of the block, each
    with the address from which on it has more."""
    told = Told(file.name, [], [f"the image is of another text or form: {here}"])
    whole = [maker for maker, more in makers if more is None]
    if whole:
        told.means.append(f"it is the image that {listed(whole)} makes of this text")
        told.helps = [f"run it with {runner_of(maker)}" for maker in whole]
    elif makers:
        (maker, more), *_ = makers
        told.means = [f"a joint image: all bytes that {maker} makes of this text, and others, the first at {more:04X}"]
        told.helps = [f"run the image that {maker} makes, with {runner_of(maker)}"]
        told.helps += ["hrun runs it with a handler at 4000"] if maker == "compile" else []
    else:
        told.helps = ["compile the text again, with the command that belongs to the run: compile for run and trun, "
                      "compile16 for run16 and trun16, mcompile for mrun, scompile for srun, lcompile for lrun"]
    return told


def runner_of(maker):
    return {"compile": "run or trun", "compile16": "run16 or trun16", "mcompile": "mrun", "scompile": "srun"}[maker]


# ---------------------------------------------------------------------------------------------------------------------
# Certificates.

# What takes a certificate of a plain or tight kind: the command before it, without its t and 16.
TAKERS = {"": ("check", "run"), "m": ("mrun",), "h": ("hrun",), "l": ("lrun",), "s": ("srun",)}
LINE_FORMS = {
    "claim": r"claim( \d+)+", "split": r"split \d+ \d+", "leaf": r"leaf( \d+ \d+)*", "cells": r"cells",
}


def cert_line(file, number, given, known):
    """A line that may not be there. given is the command; known says whether the program has a command."""
    number, lines = int(number), file.text.split("\n")
    line = lines[number - 1] if number <= len(lines) else ""
    told = file.line(number)
    if line.endswith("\r"):
        told.means, told.helps = ["lines of a certificate end with LF, and this one with CR LF"], [
            f"take the CR away: tr -d '\\r' < {file.name}"]
    elif number == len(lines):
        told.means, told.helps = ["the last line has no end"], ["end it with LF"]
    elif number == 1:
        told.means, told.helps = other_kind(line, given, known)
    else:
        told.means, told.helps = form_fault(line, number, lines[0])
    return told


def other_kind(line, given, known):
    """What is said of a version line, FZC 1 to 4, that the command does not take."""
    if line not in VERSIONS:
        return ["a certificate begins with FZC 1, FZC 2, FZC 3 or FZC 4"], ["give the file that certify wrote"]
    kind = VERSIONS[line]
    said = (f"{line} is {'a tight' if kind[0] else 'a plain'} certificate for answers of "
            f"{'16 bits' if kind[1] else 'a byte'}")
    helps = []
    base = re.sub(r"^t|16$", "", given or "check")
    if given:
        taken = command(kind, base)
        if known(taken):
            helps.append(f"call {taken}")
        if kind[1] and not known(taken):
            helps.append(f"{base} answers bytes: make a certificate with {'t' * bool(kind[0])}certify")
        elif not known(taken):
            helps.append(f"this program has no {taken}: make a plain certificate with certify")
    else:
        takers = [command(kind, it) for it in ("check", "run", "mrun", "hrun", "lrun", "srun")]
        helps.append(f"it is taken by {listed([it for it in takers if known(it)], 'and')}")
    mine = next((version for version, it in VERSIONS.items() if given and command(it, base) == given), None)
    return [said] + ([f"{given} takes {mine}"] if mine else []), helps


def form_fault(line, number, version):
    """What is said of a line below the first."""
    word = line.split(" ")[0]
    tight = VERSIONS.get(version, ("", ""))[0]
    if number == 2 or word not in LINE_FORMS or (word == "claim" and number != 2):
        wanted = "claim, with a number for each output" if number == 2 else (
            "split INPUT BYTE, " + ("leaf, or cells" if tight else "or leaf and for each output a rule and its 255ths"))
        if number == 2 and re.fullmatch(r"claim( \d+)+", line):
            return ["a number above 1000000 or with a zero in front"], ["write it plainly"]
        return [f"a line is {wanted} here"], []
    if tight and word == "leaf" and line != "leaf":
        return ["a leaf of a tight certificate has no numbers"], ["write leaf alone; numbers belong to FZC 1 and FZC 2"]
    if not tight and word in ("cells", "leaf") and (word == "cells" or line == "leaf"):
        return ["a leaf of a plain certificate has a rule and its 255ths for each output"], [
            "leaves without numbers belong to FZC 3 and FZC 4"]
    if re.search(r"\b0\d", line):
        return ["a number has no zero in front"], ["leave it out"]
    return [f"the line is not of the form {word}" + {"split": " INPUT BYTE", "leaf": " RULE K .."}.get(word, "")], [
        "numbers have one blank before each, and nothing stands behind the last"]


def cert_late(file, number):
    return at_line(file, number, ["the tree ended above this line: each split has two parts, and both are there"],
                   ["leave the rest out"])


def cert_early(file):
    return Told(file.name, [], ["the file ends before its claims, or before each split has its two parts"],
                ["its end was lost: make the certificate again"])


def cert_leaves(file, number):
    return at_line(file, number, ["this is leaf 4097; a certificate has at most 4096"],
                   ["certify with a larger target, or tcertify"])


def cert_outputs(file, got, wanted):
    return at_line(file, 2, [f"it claims for {got} output{'s' * (got != '1')}, and the block has {wanted}"],
                   ["give the certificate of this text"])


def cert_cut(file, number, block):
    inputs = f"the block has {len(block.inputs)} inputs" if block else "the block may have fewer inputs"
    said = f"an input is cut that is not there, or not inside the box of this line; {inputs}, and a byte is 1 to 255"
    return at_line(file, number, [said], ["give the certificate of this text"])


def cert_rule(file, number):
    said = ("a rule is named that is not there, or that concludes no term of the output; rules count in the order of "
            "the text, whatever their labels")
    return at_line(file, number, [said], ["certify this text again"])


def rule_text(block, number):
    number = int(number)
    return f"rule {number}: {spell_rule(block.rules[number - 1])}" if block and number <= len(block.rules) else ""


def changed_text(*means):
    return list(filter(None, means)), ["the text was changed since: certify it again"]


def cert_weak(file, number, rule, k, low, block):
    strength = int(low) / 10**9
    return at_line(file, number, *changed_text(
        f"the leaf counts on rule {rule} for {k}/255 = {int(k) / 255:.4g}, and on its box the rule's strength goes "
        f"down to {strength:.4g}, which is {int(low) * 255 // 10**9}/255", rule_text(block, rule)))


def cert_still(file, number, rule, block):
    return at_line(file, number, *changed_text(
        f"the leaf counts on rule {rule}, and for some bytes of its box the firmware's strength of the rule is 0",
        rule_text(block, rule)))


def cert_silent(file, number, rule, high, block):
    return at_line(file, number, *changed_text(
        f"the leaf says that no rule fires on its box, and rule {rule} goes up to {int(high) / 10**9:.4g} there",
        rule_text(block, rule)))


def cert_loud(file, number, rule, byte, block):
    return at_line(file, number, *changed_text(
        f"the leaf says that no rule fires on its box, and over bytes rule {rule} goes up to {byte}/255 there",
        rule_text(block, rule)))


def cert_unsure(file, number, output):
    said = (f"on this leaf's box, or on one of its cells, no rule of output {output} fires surely, and not surely none "
            "does")
    return at_line(file, number, [said], ["cut the box, or let tcertify find the tree"])


def cert_cells(file, number):
    return at_line(file, number, ["cells is for a box of at most 64 cells"], ["split the box above this line"])


def cert_claims(file, output, claimed, computed):
    told = file.line(2)
    told.means = [f"output {output} claims {claimed} millionths, and its tree shows {computed}"]
    told.helps = [f"claim {computed}; tools/least finds the least that can be claimed"]
    return told


# ---------------------------------------------------------------------------------------------------------------------
# Handlers.

WHY_REFUSED = {
    "dead": ("no path from 4000 leads here", "leave it out; data cannot be in a handler"),
    "trap": ("no instruction of docs/MACHINE.md stands whole here", "write only instructions of its table"),
    "refused": ("this instruction is not allowed in a handler: none may set SP, open interrupts, change the X bit or "
                "lead elsewhere", "docs/HANDLERS.md lists those that are"),
    "backward": ("a branch back", "write each turn of a loop out, or count in a byte over several interrupts"),
    "height": ("what is pushed and pulled does not match: an instruction with two heights, PULA with nothing pushed, "
               "PSHA above 15, or RTI above 0", "pull on each path what was pushed on it"),
    "falls": ("the code ends without RTI or BRA", "end it with RTI"),
    "outside": ("a handler's bytes stand from 4000 on, without a gap, below 5000",
                "write ORG $4000 once, before the code"),
}


def handler_shown(file, address):
    """The bytes at an address, with the instruction's name where it is known."""
    try:
        image = read_records(file.text)
    except Wrong:
        return []
    name, length = instruction_at(image, address)
    data = " ".join(f"{image[address + k]:02X}" for k in range(max(length, 2)) if address + k in image)
    return [f"    {address:04X}  {data}  {name}".rstrip()]


def handler_empty(file):
    return Told(file.name, [], ["the image has no byte at 4000, where a handler begins"],
                ["write ORG $4000 before the code"])


def handler(file, address, why):
    means, helps = WHY_REFUSED[why]
    return Told(f"{file.name}, address {address}", handler_shown(file, int(address, 16)), [means], [helps])


def handler_not_free(file, address, to):
    return Told(f"{file.name}, address {address}", handler_shown(file, int(address, 16)),
                [f"it writes {to}; a handler may write from 1800 to 1FDF only"],
                ["keep what it counts there; docs/ON_A_CHIP.md has how a device's register or the mailbox is written"])


def handler_target(file, address, to):
    return Told(f"{file.name}, address {address}", handler_shown(file, int(address, 16)),
                [f"it branches to {to}, where no instruction begins"], ["branch to a label inside the handler"])


# ---------------------------------------------------------------------------------------------------------------------
# Scripts, and images that run.

ORDERS = {
    "break": (r"[0-9A-Fa-f]{4}", "break HHHH"), "unbreak": (r"[0-9A-Fa-f]{4}", "unbreak HHHH"),
    "watch": (r"[0-9A-Fa-f]{4}", "watch HHHH"), "unwatch": (r"[0-9A-Fa-f]{4}", "unwatch HHHH"),
    "step": (r"\d{1,9}", "step N, from 1 to 1000000"), "go": ("", "go"), "regs": ("", "regs"),
    "mem": (r"[0-9A-Fa-f]{4} \d{1,9}", "mem HHHH N, of 1 to 16 bytes"),
}


def script_line(file, number):
    number, lines = int(number), file.text.split("\n")
    line = lines[number - 1] if number <= len(lines) else ""
    word, _, rest = line.rstrip("\r").partition(" ")
    told = file.line(number)
    if line.endswith("\r"):
        told.means, told.helps = ["lines of a script end with LF, and this one with CR LF"], [
            f"take the CR away: tr -d '\\r' < {file.name}"]
    elif number == len(lines):
        told.means, told.helps = ["the last line has no end"], ["end it with LF"]
    elif line == "":
        told.means, told.helps = ["an empty line is no order"], ["leave it out"]
    elif word not in ORDERS:
        told.means = [f"{word or 'a blank'} is no order"]
        told.helps = ["write it in small letters"] if word.lower() in ORDERS else [
            "orders are " + listed([it for _, it in ORDERS.values()], "and")]
    elif re.search(r"\$|0x", rest):
        told.means, told.helps = ["an address has four hexadecimal digits alone"], [f"write {ORDERS[word][1]}"]
    else:
        told.means, told.helps = [f"{rest or 'nothing'} cannot be behind {word}"], [f"write {ORDERS[word][1]}"]
    return told


def trap(file, address, byte):
    told = Told(f"{file.name}, address {address}" if file else f"address {address}")
    told.means = [f"no instruction of docs/MACHINE.md stands at {address}: {byte} is in no table of it"]
    told.helps = ["an image ends its work at 20 FE, a branch to itself; a run that leads past the code meets 00"]
    return told


def budget(steps):
    return Told("", [], [f"{steps} steps were taken, and PC was at no branch to itself (20 FE)"],
                ["give more steps, up to 1000000; or end the code with L BRA L"])

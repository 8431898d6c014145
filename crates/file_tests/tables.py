#!/usr/bin/env python3
"""Writes src/tables.rt, which rt fmt then lays out: what small files are read as, by a second reader that is written apart from the first.

A file is told as a pair: (0, how many events) where it is read to its end, else (refusal, event).
"""
import re

CUT_OFF, BAD_BYTE, BAD_NUMBER, BAD_PAYLOAD, BAD_TIME = 2, 3, 4, 5, 6
LAST, FOREVER, TOP = 4_000_000_000, 4_294_967_295, 4095
SHAPES = {"I": "nnenn", "R": "nneenn", "C": "n"}
LETTERS = {1: "I", 2: "R", 3: "C"}


class Refused(Exception):
    pass


def text_fields(data, at):
    """One line by a list of expectations: a letter, then a space and a field each, then a line feed."""
    letter = chr(data[at])
    if letter not in SHAPES:
        raise Refused(BAD_BYTE)
    at += 1
    fields = []
    for want in SHAPES[letter] + "\n":
        separator = b"\n" if want == "\n" else b" "
        if at >= len(data):
            raise Refused(CUT_OFF)
        if data[at:at + 1] != separator:
            raise Refused(BAD_BYTE)
        at += 1
        if want == "\n":
            break
        if want == "e" and data[at:at + 1] == b"*":
            fields.append("*")
            at += 1
            continue
        digits = re.match(rb"[0-9]*", data[at:]).group()
        if not digits:
            raise Refused(CUT_OFF if at >= len(data) else BAD_BYTE)
        if str(int(digits)).encode() != digits or int(digits) > FOREVER:
            raise Refused(BAD_NUMBER)
        fields.append(int(digits))
        at += len(digits)
    return letter, fields, at


def binary_fields(data, at):
    """One event: the number's last byte is looked for first, then the groups are added up."""
    if data[at] not in LETTERS:
        raise Refused(BAD_BYTE)
    letter = LETTERS[data[at]]
    at += 1
    fields = []
    for want in SHAPES[letter]:
        groups = data[at:at + 5]
        ends = [i for i, group in enumerate(groups) if group < 128]
        if not ends:
            raise Refused(BAD_NUMBER if len(groups) == 5 else CUT_OFF)
        groups = groups[:ends[0] + 1]
        number = sum((group & 127) << (7 * i) for i, group in enumerate(groups))
        if number > FOREVER or (len(groups) > 1 and groups[-1] == 0):
            raise Refused(BAD_NUMBER)
        fields.append("*" if want == "e" and number == FOREVER else number)
        at += len(groups)
    return letter, fields, at


def judge(letter, fields):
    if letter == "C":
        if fields[0] > LAST:
            raise Refused(BAD_TIME)
        return
    key, value = fields[-2:]
    if key > 9999 or value > TOP:
        raise Refused(BAD_PAYLOAD)
    if any(time != "*" and time > LAST for time in fields[1:-2]):
        raise Refused(BAD_TIME)
    start, *ends = [FOREVER if time == "*" else time for time in fields[1:-2]]
    if start >= ends[0] or start == FOREVER:
        raise Refused(BAD_TIME)
    if letter == "R" and (ends[1] == ends[0] or ends[1] < start):
        raise Refused(BAD_TIME)


def told(fields_at, data):
    at, events = 0, 0
    while at < len(data):
        try:
            letter, fields, at = fields_at(data, at)
            judge(letter, fields)
        except Refused as why:
            return why.args[0], events + 1
        events += 1
    return 0, events


def groups(number):
    more, last = number >> 7, number & 127
    return bytes([last | 128]) + groups(more) if more else bytes([last])


def packed(text):
    out = b""
    for line in text.decode().splitlines():
        letter, *fields = line.split(" ")
        out += bytes([" IRC".index(letter)])
        out += b"".join(groups(FOREVER if field == "*" else int(field)) for field in fields)
    return out


def outcomes(rows):
    return "[" + ", ".join(f"Err(({why}, {number}))" if why else f"Ok({number})" for why, number in rows) + "]"


def table(name, fields_at, data, telling):
    print(f"pub const {name}: [u8; {len(data)}] = {list(data)};")
    print()
    print(f"pub const {name}_CUT: [Outcome; {len(data) + 1}] = {outcomes(told(fields_at, data[:n]) for n in range(len(data) + 1))};")
    print()
    print(f"pub const {name}_TELLING: [u8; {len(telling)}] = {list(telling)};")
    print()
    print(f"pub const {name}_REPLACED: [Outcome; {len(data) * len(telling)}] = [")
    for i in range(len(data)):
        print("    " + outcomes(told(fields_at, data[:i] + bytes([b]) + data[i + 1:]) for b in telling)[1:-1] + ",")
    print("];")


EXAMPLE = b"I 1 15 * 7 4095\nC 40\nR 1 15 * 90 7 4095\n"

if __name__ == "__main__":
    print("// Small files, and what they are read as once they are cut or one byte is replaced. Written by tables.py.")
    print("use crate::outcomes::Outcome;")
    print()
    table("TEXT", text_fields, EXAMPLE, b" \n*09Rx\x00\xff")
    print()
    table("BINARY", binary_fields, packed(EXAMPLE), bytes([0, 1, 2, 3, 4, 15, 16, 127, 128, 255]))

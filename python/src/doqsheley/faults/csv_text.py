"""The records of a CSV table, as the program's reader takes them, and where each field stands."""
import re

ENDS = re.compile(rb"[\r\n]+")
PLAIN = re.compile(rb"[^,\r\n]+")


class Field:
    """The bytes of a field, and where it stands in the table."""

    def __init__(self, data, start, end):
        self.data, self.start, self.end = data, start, end


def records(data):
    """Returns the records of the bytes: commas, double quotes doubled inside, an end of line LF, CR or both, no empty
    lines."""
    at = 3 if data.startswith(b"\xef\xbb\xbf") else 0
    found, record, field, start, state = [], [], bytearray(), at, "line"

    def end_field(end):
        record.append(Field(bytes(field), start, end))
        field.clear()

    while at < len(data):
        byte = data[at : at + 1]
        if state == "line":
            if byte in b"\r\n":
                at = ENDS.match(data, at).end()
                continue
            state, start = "field", at
        if state == "field" and byte == b'"':
            state = "quoted"
        elif state == "quoted":
            if byte == b'"':
                state = "mark"
            else:
                field += byte
        elif state == "mark" and byte == b'"':
            field += byte
            state = "quoted"
        elif byte == b",":
            end_field(at)
            state, start = "field", at + 1
        elif byte in b"\r\n":
            end_field(at)
            found.append(record)
            record, state = [], "line"
        else:
            run = PLAIN.match(data, at)
            field += run[0]
            at, state = run.end(), "inside"
            continue
        at += 1
    if state != "line":
        end_field(at)
        found.append(record)
    return found

#!/usr/bin/env python3
"""Usage: cut.py FILE

Writes the query and the sheet that FILE describes, as the program plan reads them, to standard output. FILE `-` is standard
input. A line describes one record: its kind, then words name=value in any order. Words in [] may be left out.

    query      root depth view zoom [hidden=LAYER/TYPE,LAYER/TYPE]
    batch      layer type elements box
    text       layer type at [value]
    node       layer type points
    reference  source=KIND:NUMBER at [columns rows dx dy] [reflect] [mag] [cos sin] [box]
    cell       [box] [units] [batches] [texts] [nodes] [references]

Items count from 0 within their kind, in the order of the lines. Boxes of references and cells are computed; box=none leaves
one out. A value with blanks stands in quotes. `#` at the start of a word starts a remark. docs/SHEETS.md explains each word.

A faulty description gives one message FILE:LINE: WHAT on standard error, nothing on standard output, and status 2.
"""
import os
import signal
import sys

from cutter.lines import Fault
from cutter.records import cut

STATUS_FAULT = 2


def put(stream, data):
    """Writes all of it, past Python's buffers, which would be written once more at the end and fail there."""
    while data:
        data = data[os.write(stream, data):]


def read(path):
    with open(0 if path == "-" else path, "rb") as file:
        return file.read()


def decoded(data):
    try:
        return data.decode().removeprefix("\ufeff")
    except UnicodeDecodeError as fault:
        raise Fault("no UTF-8", data.count(b"\n", 0, fault.start) + 1)


def run(path):
    """The bytes to write, or a message."""
    name = "standard input" if path == "-" else path
    try:
        return cut(decoded(read(path))), None
    except Fault as fault:
        return b"", "%s: %s" % (name if fault.line is None else "%s:%d" % (name, fault.line), fault)
    except OSError as fault:
        return b"", "%s: %s" % (name, fault.strerror)


def fail(message):
    try:
        put(2, (message + "\n").encode(errors="surrogateescape"))
    except OSError:
        pass  # the status is left to say it
    return STATUS_FAULT


def main(arguments):
    data, message = b"", None
    if arguments in (["--help"], ["-h"]):
        data = __doc__.encode()
    elif len(arguments) != 1 or arguments[0].startswith("-") and arguments[0] != "-":
        message = "usage: cut.py FILE (cut.py --help says more)"
    else:
        data, message = run(arguments[0])
    try:
        put(1, data)
    except OSError as fault:
        message = "standard output: %s" % fault.strerror
    return 0 if message is None else fail(message)


if __name__ == "__main__":
    signal.signal(signal.SIGINT, signal.SIG_DFL)
    sys.exit(main(sys.argv[1:]))

"""A description's lines: which kind of record a line describes, and its words, with quotes and remarks."""
import re

# A remark to the end, or a word `name=value`, its value in quotes or without blanks and quotes; then a blank or the end.
WORD = re.compile(r'(#.*)|([^\s="]+)(?:=("(?:[^"\\]|\\["\\])*"|[^\s"]*))?(?=\s|$)', re.ASCII)
QUOTES = 'a value with blanks stands in quotes, in which \\" is a quote and \\\\ a backslash'
BLANKS = re.compile(r"\s*", re.ASCII)


class Fault(Exception):
    """What is wrong with a description, and on which line; None where it is on none."""

    def __init__(self, what, line=None):
        super().__init__(what)
        self.line = line


def value(written):
    """A word's value without its quotes; within them \\" is a quote and \\\\ a backslash."""
    return re.sub(r"\\(.)", r"\1", written[1:-1]) if written.startswith('"') else written


def split(line):
    """A line's words in their order, each a name and a value, which is None where no `=` stands."""
    at = BLANKS.match(line).end()
    while at < len(line):
        word = WORD.match(line, at)
        if not word:
            raise Fault("cannot read %s: %s" % (line[at:].strip(), QUOTES))
        remark, name, written = word.groups()
        if remark:
            return
        yield name, None if written is None else value(written)
        at = BLANKS.match(line, word.end()).end()


def described(text):
    """The described records: the line's number, the kind, and the written words by name. Blank lines and remarks describe none."""
    for number, line in enumerate(text.split("\n"), 1):
        try:
            words = list(split(line))
            if words:
                yield number, kind(words[0]), named(words[1:])
        except Fault as fault:
            raise Fault(str(fault), number)


def kind(word):
    name, written = word
    if written is not None:
        raise Fault("a line starts with the kind of its record, not with a word %s=" % name)
    return name


def named(words):
    found = {}
    for name, written in words:
        if written is None:
            raise Fault('"%s" has no value: a word is name=value, and a value with blanks stands in quotes' % name)
        if name in found:
            raise Fault("%s stands twice" % name)
        found[name] = written
    return found

"""Reads the planner's Rattle code as Rust, with a switch at every limit test.

Rattle code without its contracts, ghost items and attributes is Rust code, so one file of Rust holds the crates as modules. A *place* is a
comparison, an integer `match`, the end of a range that a `for` goes over, or a number of the crates whose numbers are themselves limits. Each place has two changes by one; the switch
picks one change of one place, or none. For a test that is called from several places it picks one of these calls, or all, and for a test in a
function over the types of a trait one of these types, or all. A const parameter of the program `plan` is read as a plain one, so that a size
is changed at the call that gives it.
"""
import os, re

# The crates of the planner, of `check_sheet` and of the program `plan`, with the lowest first.
CRATES = """floats rounding fused fields geometry grid screen walk records check_record check_sheet check_sheet_c look_up finder
open_sheet plan_rules limits scratch check_query tape events pushes units visit_items enter_cell open_reference try_member visits
planner planner_c plan_query plan_text streams plan_answer plan""".split()
SYSTEM = ['io', 'stdio::HostRuntime']  # what they call of the kit and the system: system.rs has stand-ins, as of `std::io` and `std::num`
STOOD_IN = {('streams', 'reason')}  # a module that has one there too

# Where numbers outside of comparisons are changed too: exponents, shifts and masks, the places of the scratch, and what `plan` lends.
NUMBERS = {'floats', 'rounding', 'fused', 'scratch', 'plan'}
# Named numbers that are changed where they stand outside of comparisons: sizes in pixels, and of a type: a record's length, a float's format.
NAMED = {'MIN_FIXED_CONTENT_PX', 'REF_LOAD_MIN_AVG_INSTANCE_AREA_PX', 'MIN_AVERAGE_ELEMENT_AREA_PX', 'SIZE', 'PRECISION', 'ONES'}
# A named number that a loop counts down from.
STARTS = {'TRIES'}

# Functions with limit tests that are called from several places, with their crates: their tests are changed for one call at a time,
# too, since compiled code has a copy of the test at each.
CALLED = {'detail_budget_exhausted': 'limits', 'detail_cells_full': 'limits', 'add_load': 'events', 'add_load_if_boxed': 'events',
          'load': 'visit_items', 'overlaps': 'geometry', 'point_in_bbox': 'geometry', 'source_is_degenerate': 'geometry',
          'is_subpixel': 'screen', 'collapse_test': 'screen', 'all_below': 'check_sheet', 'zero_box': 'check_record',
          'count_for': 'look_up', 'start_for': 'look_up', 'look_up': 'look_up', 'is_below': 'floats', 'pack': 'rounding', 'pack_as': 'rounding',
          'Term::new': 'fused', 'read_at': 'records', 'set': 'scratch'}
# What a call of these reaches through another of them.
THROUGH = {'add_load_if_boxed': 'add_load', 'load': 'add_load', 'pack_as': 'pack'}
# Functions that one of these alone calls: their tests belong to it.
PARTS = {'look_in': 'look_up'}
# Traits, by their crates: a test in a function over the types of one, and a call of CALLED in it, is tried for one type at a time, too.
TYPES = {('tape', 'Record'), ('visit_items', 'Items')}

TOKEN = re.compile(r'''//[^\n]*|\s+|b?"(?:\\.|[^"\\])*"|b'(?:\\.|[^'\\])'|[A-Za-z_]\w*|\d[\w]*(?:\.\d+\w*)?
    |<<|>>|<=|>=|==|!=|&&|\|\||->|=>|\+=|-=|::|\.\.|.''', re.X | re.S)
COMPARISONS = {'<': 'less', '<=': 'at_most', '>': 'more', '>=': 'at_least', '==': 'same', '!=': 'other'}
# What the first change puts for a comparison, and what the second adds to its right side. `==` and `!=` add one, then take one.
OTHER_EDGE = {'<': '<=', '<=': '<', '>': '>=', '>=': '>'}
SECOND = {'<': -1, '<=': 1, '>': 1, '>=': -1}
STOPS = {'&&', '||', '=', '=>', ',', ';', 'if', 'while', 'return', 'match', 'else', '!', '+=', '-='}
OPEN, CLOSE = '([{', ')]}'


def count_of(again):
    return f' ({again + 1})' if again else ''


class Call:
    """A call of a function of CALLED: in which crate, file and function it stands, for which type of the function, if it has one."""
    def __init__(self, crate, file, function, callee, type_name, again):
        self.crate, self.file, self.function, self.callee, self.type, self.again = crate, file, function, callee, type_name, again

    def reaches(self, place):
        """Whether the tests of the place's function are changed."""
        function = PARTS.get(place.function, place.function)
        return any(function == callee.split('::')[-1] and place.crate == CALLED[callee]
                   for callee in {self.callee, THROUGH.get(self.callee, self.callee)})

    def name(self):
        type_name = f'::<{self.type}>' if self.type else ''
        return f'{self.callee} in {self.crate}/{self.file} {self.function}{type_name}{count_of(self.again)}'

    def where(self):
        return f', only by the call of {self.name()}'


class Type:
    """A type of a function over the types of a trait."""
    def __init__(self, crate, file, function, type_name):
        self.crate, self.file, self.function, self.type = crate, file, function, type_name

    def reaches(self, place):
        return (place.crate, place.file, place.function) == (self.crate, self.file, self.function)

    def name(self):
        return f'{self.crate}/{self.file} {self.function}::<{self.type}>'

    def where(self):
        return f', only for {self.type}'


class Place:
    """Where a change is made: crate, file, function, the text of the test, and what each of its two changes puts."""
    def __init__(self, crate, file, function, test, changes):
        self.crate, self.file, self.function, self.test, self.changes = crate, file, function, test, changes
        self.again = 0  # which of several places of one function with the same text

    def again_test(self):
        return self.test + count_of(self.again)

    def name(self):
        return f'{self.crate}/{self.file} {self.function}: {self.again_test()}'


def attribute(found):
    """What is left of an attribute: the derives that Rust has."""
    derives = [name for name in re.findall(r'\w+', found[1] or '') if name != 'Drop']
    return f"#[derive({', '.join(derives)})]" if derives else ''


def without_contracts(text):
    """Comments, ghost items, `requires` and `ensures` clauses and attributes left out."""
    text = re.sub(r'//[^\n]*|ghost use [^;]*;', '', text)
    text = re.sub(r'#!?\[(?:derive\(([^]]*)\)|[^]]*)\]', attribute, text)
    out, at = [], 0
    for clause in re.finditer(r'\b(?:(?:requires|ensures)(?:\s+\w+)?|ghost\s+\w+\s*[:=])\s*\{', text):
        if clause.start() < at:
            continue
        out.append(text[at:clause.start()])
        at, depth = clause.end(), 1
        while depth:
            depth += {'{': 1, '}': -1}.get(text[at], 0)
            at += 1
        at += clause[0].startswith('ghost') and text[at] in ';,'
    return ''.join(out) + text[at:]


SIZE = re.compile(r'const (\w+): usize\b(?!\s*=),?\s*')  # a const parameter, no constant


def with_plain_sizes(text):
    """Const parameters as a function's first parameters, their arrays as vectors, and a turbofish's numbers as first arguments."""
    def head(found):
        sizes = ''.join(f'{size}: usize, ' for size in SIZE.findall(found[1]))
        return f"{SIZE.sub('', found[1])}>({sizes}"

    def call(found):
        return '(' + ''.join(f'{size}, ' for size in re.findall(r'\b\d+\b', found[1]))

    for size in set(SIZE.findall(text)):
        text = re.sub(r'\[(0u\d+); %s\]' % size, r'vec![\1; %s]' % size, text)
    text = re.sub(r'(\bfn \w+<[^>]*)>\(', head, text)
    return re.sub(r'::<([^>]*)>\(\s*', call, text)


def is_blank(token):
    return token.isspace()


def beside(tokens, at, step):
    """The place of the next token that is not blank."""
    at += step
    while is_blank(tokens[at]):
        at += step
    return at


def partner(tokens, at, step):
    """The place of the bracket that belongs to the one at `at`."""
    depth = 0
    while True:
        depth += (tokens[at] in OPEN) - (tokens[at] in CLOSE)
        if depth == 0:
            return at
        at += step


def types_of(tokens):
    """The places of the brackets `<` and `>` of types: before such a `<` stands no blank."""
    found, open_at = set(), []
    for at, token in enumerate(tokens):
        if token == '<' and not is_blank(tokens[at - 1]):
            open_at.append(at)
        elif open_at and token in ('>', '>>'):
            found |= {open_at.pop() for _ in token if open_at} | {at}
        elif token in ';{':
            open_at = []
    return found


def closures_of(tokens):
    """The places of the bars that end a closure's parameters."""
    found, open_at = set(), None
    for at, token in enumerate(tokens):
        if token == '|' and open_at is not None:
            found.add(at)
            open_at = None
        elif token == '|' and tokens[beside(tokens, at, -1)] in ('(', ',', '=', '=>', 'move', 'return', '{', ';'):
            open_at = at
    return found


def stepped(text, by):
    """A number or an expression with one more or one less."""
    if re.fullmatch(r'\d+', text):
        return str(int(text) + by)
    return f"{text} {'+' if by > 0 else '-'} 1"


def changes_of(left, test, right):
    """The two changes of a comparison, as they are read. A limit on the left is stepped the other way."""
    def step(by):
        if re.fullmatch(r'[A-Z_:\d]+|[a-z]+::[A-Z_]+', left):
            return f'{stepped(left, -by)} {test} {right}'
        return f'{left} {test} {stepped(right, by)}'
    if test in OTHER_EDGE:
        return [f'{left} {OTHER_EDGE[test]} {right}', step(SECOND[test])]
    return [step(1), step(-1)]


def text_between(tokens, start, end):
    return re.sub(r'\s+', ' ', ''.join(tokens[start:end])).strip()


class File:
    """A file of a crate: its places, and its text with the switches in."""
    def __init__(self, crate, file, text, places, calls, types):
        self.crate, self.file, self.places, self.calls, self.types = crate, file, places, calls, types
        text = without_contracts(text)
        self.tokens = TOKEN.findall(with_plain_sizes(text) if crate == 'plan' else text)
        self.stops = closures_of(self.tokens)
        self.put = {}        # token index: text in its place
        self.before, self.after = {}, {}  # token index: text before it, and after it
        self.first_types = {}  # function over the types of a trait: the number of its first type
        self.compared = set()  # tokens of a comparison's operands
        self.patterns = set()  # tokens of a match's patterns
        self.scan()

    def wrap(self, first, last, before, after):
        """Text around some tokens, outside of what is around them already."""
        self.before[first] = before + self.before.get(first, '')
        self.after[last] = self.after.get(last, '') + after

    def place(self, test, changes):
        place = Place(self.crate, self.file, self.function, test, changes)
        place.again = sum((p.crate, p.file, p.function, p.test) == (self.crate, self.file, self.function, test) for p in self.places)
        self.places.append(place)
        return 2 * len(self.places) - 1

    def functions(self):
        """The name of the function in whose body each token stands, and of each function the parameter that is a type of TYPES."""
        names, parameters, name, body, depth, inner = [], {}, None, None, 0, 0
        for at, token in enumerate(self.tokens):
            if token == 'fn':
                name, body, inner = self.tokens[at + 2], None, 0
                if self.tokens[at + 3] == '<':
                    self.note_parameter(name, at + 4, parameters)
            depth += token == '{'
            if token == '{' and body is None:
                body = depth
            if body is None:
                inner += (token in '([') - (token in ')]')
                if token == ';' and inner == 0:
                    name = None  # a trait's function without a body
            names.append(name if body is not None else None)
            if token == '}' and depth == body:
                name, body = None, None
            depth -= token == '}'
        return names, parameters

    def note_parameter(self, function, at, parameters):
        """Notes the type parameter of a function, if the types of its trait are tried one at a time."""
        while self.tokens[at] not in '>(':
            if (self.crate, self.tokens[at + 3]) in TYPES and self.tokens[at + 1] == ':':
                parameters[function] = self.tokens[at], self.types[self.crate, self.tokens[at + 3]]
            at += 1

    def scan(self):
        names, self.parameters = self.functions()
        brackets = types_of(self.tokens)
        inside = [at for at, name in enumerate(names) if name and at not in brackets]
        for at in inside:
            if self.tokens[at] in COMPARISONS:
                self.compared.update(range(self.operand(at, -1) + 1, self.operand(at, 1)))
        for at in inside:
            token, self.function = self.tokens[at], names[at]
            if token in COMPARISONS:
                self.comparison(at)
            elif token == 'match':
                self.match(at)
            elif token == '..' and self.is_loop(at):
                self.end(at)
            elif self.callee(at) in CALLED and names[at] not in THROUGH and self.arguments(at):
                self.call(at)
            elif self.crate in NUMBERS and re.match(r'\d', token) or token in NAMED | STARTS:
                self.number(at)

    def operand(self, at, step):
        """The end of the operand that begins beside the comparison at `at`."""
        depth = 0
        while True:
            at += step
            token = self.tokens[at]
            if token in (OPEN if step > 0 else CLOSE):
                if step > 0 and token == '{' and depth == 0:
                    return at
                if step < 0 and token == '}' and depth == 0:
                    return at
                depth += 1
            elif token in (CLOSE if step > 0 else OPEN):
                if depth == 0:
                    return at
                depth -= 1
            elif depth == 0 and (token in STOPS or at in self.stops):
                return at

    def callee(self, at):
        """The name at `at` as it stands in CALLED: that of a type's function with the type."""
        if self.tokens[at - 1] == '::' and ''.join(self.tokens[at - 2:at + 1]) in CALLED:
            return ''.join(self.tokens[at - 2:at + 1])
        return self.tokens[at]

    def arguments(self, at):
        """The place of the bracket that opens the arguments of a call at `at`, if it is one."""
        if self.tokens[at + 1:at + 3] == ['::', '<']:
            at = next(i for i in range(at, len(self.tokens)) if self.tokens[i] == '>')
        return at + 1 if self.tokens[at + 1] == '(' else None

    def noted(self, first):
        """The start of a text during which the switch notes the way by which a test is reached: in a function over types, that of its type."""
        return f"crate::switch::from({first}{f' + {self.parameter()[0]}::TYPE' if self.parameter() else ''}, || "

    def parameter(self):
        """Of a function over the types of a trait the name of its type, and the types."""
        return self.parameters.get(self.function)

    def test(self, first, last, before):
        """Puts the switch around a test or a number. In a function over the types of a trait the type is noted."""
        if self.parameter():
            if self.function not in self.first_types:
                self.first_types[self.function] = len(self.calls) + 1
                self.calls.extend(Type(self.crate, self.file, self.function, name) for name in self.parameter()[1])
            self.wrap(first, last, self.noted(self.first_types[self.function]) + before, '))')
        else:
            self.wrap(first, last, before, ')')

    def comparison(self, at):
        tokens = self.tokens
        start, end = self.operand(at, -1) + 1, self.operand(at, 1)
        left, right = text_between(tokens, start, at), text_between(tokens, at + 1, end)
        if left == right or left.endswith('.negative'):
            return  # a test for NaN, or of two signs: no limit
        test = f'{left} {tokens[at]} {right}'
        number = self.place(test, changes_of(left, tokens[at], right))
        self.put[at] = ','
        self.test(beside(tokens, start - 1, 1), beside(tokens, end, -1), f'crate::switch::{COMPARISONS[tokens[at]]}({number}, ')

    def is_loop(self, at):
        """Whether the range at `at` is what a `for` goes over."""
        line_start = max(i for i in range(at) if self.tokens[i] in ';{}')
        return self.tokens[beside(self.tokens, line_start, 1)] == 'for'

    def end(self, at):
        """The end of a range."""
        tokens, end = self.tokens, self.operand(at, 1)
        last = text_between(tokens, at + 1, end)
        number = self.place(f'for ..{last}', [f'..{stepped(last, 1)}', f'..{stepped(last, -1)}'])
        self.test(beside(tokens, at, 1), beside(tokens, end, -1), f'crate::switch::end({number}, ')

    def call(self, at):
        """The call at `at`, with what leads to it: a path, or the receiver of a method."""
        tokens = self.tokens
        types = self.parameter()[1] if self.parameter() else [None]
        where = self.crate, self.file, self.function, self.callee(at)
        again = sum(isinstance(c, Call) and (c.crate, c.file, c.function, c.callee, c.type) == (*where, types[0]) for c in self.calls)
        first = at
        while tokens[beside(tokens, first, -1)] in ('::', '.'):
            first = beside(tokens, beside(tokens, first, -1), -1)
            while tokens[first] in (')', ']'):
                first = beside(tokens, partner(tokens, first, -1), -1)
        last = partner(tokens, self.arguments(at), 1)
        self.wrap(first, last, self.noted(len(self.calls) + 1), ')')
        self.calls.extend(Call(*where, name, again) for name in types)

    def match(self, at):
        tokens = self.tokens
        end = self.operand(at, 1)
        arm = beside(tokens, end, 1)
        if tokens[arm:arm + 2] == ['Ok', '('] and re.match(r'\d', tokens[arm + 2]):
            value, count = text_between(tokens, at + 1, end), tokens[arm + 2]
            number = self.place(f'match {value}: Ok({count})', [f'Ok({stepped(count, 1)})', f'Ok({stepped(count, -1)})'])
            self.put[arm + 2] = 'n'
            self.put[arm + 3] = f') if crate::switch::same({number}, n, {count})'
        if not re.fullmatch(r'\d.*|[A-Z][A-Z_]*', tokens[arm]):
            return
        value = text_between(tokens, at + 1, end)
        number = self.place(f'match {value}', [f'{value} + 1', f'{value} - 1'])
        self.wrap(beside(tokens, at, 1), beside(tokens, end, -1), f'crate::switch::number({number}, ', ')')
        self.patterns.update(i - 2 for i in range(end, len(tokens)) if tokens[i] == '=>')

    def number(self, at):
        tokens, first = self.tokens, at
        while tokens[first - 1] == '::':
            first -= 2  # the type whose number it is
        before = tokens[beside(tokens, first, -1)]
        if at in self.patterns or '.' in tokens[at] or re.fullmatch(r'0(u\d+)?', tokens[at]):
            return  # a pattern, a float or a zero: no limit
        if before in ('=', '+=', '-=') and first == at and tokens[at] not in STARTS or at in self.compared and before not in ('<<', '>>', '&'):
            return  # a start or a step of a loop, or changed with the comparison
        line_start = max(i for i in range(at) if tokens[i] in ';{}')
        line_end = next(i for i in range(at, len(tokens)) if tokens[i] in ';{}')
        line, name = text_between(tokens, line_start + 1, line_end), ''.join(tokens[first:at + 1])
        number = self.place(f'{name} in {line}', [stepped(name, 1), stepped(name, -1)])
        self.test(first, at, f'crate::switch::number({number}, ')

    def rust(self):
        text = ''.join(self.before.get(i, '') + self.put.get(i, t) + self.after.get(i, '') for i, t in enumerate(self.tokens))
        for crate, trait in TYPES:
            if crate == self.crate:
                text = self.with_types(text, trait)
        text = text.replace('crate::', f'crate::{self.crate}::').replace(f'crate::{self.crate}::switch', 'crate::switch')
        text = text.replace('fn main(', 'pub fn main(')
        text = text.replace('std::num::', 'crate::num::').replace('std::io::', 'crate::stdio::')
        return text.replace('extern "C" ', '')

    def with_types(self, text, trait):
        """A number for each type of the trait, by which the switch tells the types apart."""
        def made(found):
            return f'{found[0]} const TYPE: u32 = {self.types[self.crate, trait].index(found[1])};'
        text = re.sub(r'trait %s(: [^{]*)? \{' % trait, r'\g<0> const TYPE: u32;', text)
        return re.sub(r'impl %s for (\w+) \{' % trait, made, text)


def modules(crate, folder, name, places, calls, types):
    """The text of a module and of those that it names."""
    path = os.path.join(folder, name)
    with open(path) as file:
        text = File(crate, name, file.read(), places, calls, types).rust()

    def module(declared):
        name = declared.group(2)
        if (crate, name) in STOOD_IN:
            return 'pub use crate::%s;' % name
        return 'pub mod %s {%s\n%s}' % (name, IMPORTS, modules(crate, folder, name + '.rt', places, calls, types))
    return re.sub(r'(pub )?mod (\w+);', module, text)


IMPORTS = '#[allow(unused_imports)] use crate::{' + ', '.join(CRATES + SYSTEM) + '};'


def types_in(crates):
    """The types of each trait of TYPES, in the order of the files."""
    found = {}
    for crate, trait in TYPES:
        folder = os.path.join(crates, crate, 'src')
        found[crate, trait] = []
        for name in sorted(os.listdir(folder)):
            with open(os.path.join(folder, name)) as file:
                found[crate, trait] += re.findall(r'^impl %s for (\w+) \{' % trait, file.read(), re.M)
    return found


def read(crates):
    """The places and the calls in their order, and the Rust text of all crates."""
    places, calls, text, types = [], [], [], types_in(crates)
    for crate in CRATES:
        folder = os.path.join(crates, crate, 'src')
        root = 'main.rt' if os.path.exists(os.path.join(folder, 'main.rt')) else 'lib.rt'
        own = IMPORTS.replace(f'{crate}, ', '', 1) if crate != 'plan' else IMPORTS.replace(', plan,', ',')
        text.append('pub mod %s {%s\n%s}\n' % (crate, own, modules(crate, folder, root, places, calls, types)))
    return places, calls, ''.join(text)

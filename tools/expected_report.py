#!/usr/bin/env python3
"""Writes the report that the program plot should write for a job.

    python3 tools/expected_report.py < JOB

This is written from docs/FORMAT.md, docs/JOBS.md, docs/MEANING.md (what a value costs, and what formatters write) and the
definition of programs in crates/program/specs/Program.antt, and not from the program, to have
something to compare the program with.
"""

import sys
from collections.abc import Iterable, Iterator
from dataclasses import dataclass
from enum import IntEnum
from typing import NamedTuple

# WHAT IS REPORTED

NO_CALL = "it begins with no call that is known"
MISSING_WORD = "a word is missing"
NO_DIGIT = "a word is neither hexadecimal digits, -, nor text in double quotes"
ODD_DIGITS = "a word has an odd number of hexadecimal digits"
BAD_ESCAPE = "a backslash stands before a byte that it cannot stand before"
NO_CLOSING_QUOTE = "a text has no closing quote"
NOT_ONE_SPACE = "words are separated by one space"
MORE_WORDS = "there are more words than the call takes"
NOT_DECIMAL = "a number is not written in decimal digits"
TOO_LARGE = "a number is above 18446744073709551615"
NO_FORMATTER = "no formatter of that name is known"

BAD_SOURCE, MALFORMED, MISPLACED, TOO_DEEP, TOO_MANY_INSTRUCTIONS, STORE_FULL = 1, 2, 3, 4, 5, 25

CAUSES = {
    BAD_SOURCE: "the source is too long or is not well-formed text",
    MALFORMED: "the packed bytes are cut, over-long, left over or break the format",
    MISPLACED: "a span is reversed, past the source or inside a character",
    TOO_DEEP: "the nesting is too deep",
    TOO_MANY_INSTRUCTIONS: "the template has too many instructions",
    STORE_FULL: "the store is full",
}


class BadLine(Exception):
    """A line that is no call, with the words for it."""


class Refusal(Exception):
    def __init__(self, cause: int, detail: int = 0):
        super().__init__(cause, detail)
        self.cause, self.detail = cause, detail


# TEXT

ESCAPES = {b'"': b'"', b"\\": b"\\", b"n": b"\n", b"t": b"\t"}


def with_escapes(text: bytes) -> bytes:
    # backslashes first: the other escapes bring more of them
    for byte, escape in ((b"\\", b"\\\\"), (b'"', b'\\"'), (b"\n", b"\\n"), (b"\t", b"\\t")):
        text = text.replace(byte, escape)
    return text


def quoted(text: bytes) -> bytes:
    return b'"' + with_escapes(text) + b'"'


def is_text(row: bytes) -> bool:
    """Python's strict UTF-8 is that of RFC 3629."""
    try:
        row.decode("utf-8")
    except UnicodeDecodeError:
        return False
    return True


# LINES AND WORDS OF A JOB

HEX_DIGITS = b"0123456789abcdefABCDEF"
DECIMAL_DIGITS = b"0123456789"
LARGEST_NUMBER = 2**64 - 1


def job_lines(job: bytes) -> list[bytes]:
    *ended, rest = job.split(b"\n")
    return [line.removesuffix(b"\r") for line in ended] + ([rest] if rest else [])


@dataclass(frozen=True)
class Add:
    name: bytes
    source: bytes
    tree: bytes


class Charge(NamedTuple):
    """Cells and bytes of the store: what is supplied, or what a value costs."""

    cells: int
    bytes: int


@dataclass(frozen=True)
class Supply:
    given: Charge


@dataclass(frozen=True)
class Load:
    value: bytes


@dataclass(frozen=True)
class Format:
    formatter: str
    value: bytes


class Line:
    """A line of a job, and how far it is read."""

    def __init__(self, line: bytes):
        self.line, self.at = line, 0

    def ahead(self) -> bytes:
        """The next byte; empty at the end."""
        return self.line[self.at : self.at + 1]

    def next(self) -> bytes:
        byte = self.ahead()
        self.at += 1
        return byte

    def call(self) -> Add | Supply | Load | Format:
        calls = ((b"add ", self.add), (b"supply ", self.supply), (b"load ", self.load), (b"format ", self.format))
        for name, read in calls:
            if self.line.startswith(name):
                self.at = len(name)
                call = read()
                if self.ahead():
                    raise BadLine(MORE_WORDS)
                return call
        raise BadLine(NO_CALL)

    def add(self) -> Add:
        name = self.word()
        self.separator()
        source = self.word()
        self.separator()
        return Add(name, source, self.word())

    def supply(self) -> Supply:
        cells = self.number()
        self.separator()
        return Supply(Charge(cells, self.number()))

    def load(self) -> Load:
        return Load(self.word())

    def format(self) -> Format:
        formatter = self.one_of(FORMATTERS, NO_FORMATTER)
        self.separator()
        return Format(formatter, self.word())

    def one_of(self, names: "Iterable[str]", otherwise: str) -> str:
        """The one of these names that stands next."""
        for name in names:
            if self.line.startswith(name.encode(), self.at):
                self.at += len(name)
                return name
        raise BadLine(otherwise)

    def number(self) -> int:
        """Decimal digits, up to a space or the end."""
        if self.ahead() in (b"", b" "):
            raise BadLine(MISSING_WORD)
        number = 0
        while self.ahead() not in (b"", b" "):
            digit = self.next()
            if digit not in DECIMAL_DIGITS:
                raise BadLine(NOT_DECIMAL)
            number = number * 10 + int(digit)
            if number > LARGEST_NUMBER:
                raise BadLine(TOO_LARGE)
        return number

    def separator(self) -> None:
        byte = self.next()
        if not byte:
            raise BadLine(MISSING_WORD)
        if byte != b" ":
            raise BadLine(NOT_ONE_SPACE)

    def word(self) -> bytes:
        match self.ahead():
            case b"" | b" ":
                raise BadLine(MISSING_WORD)
            case b"-":
                self.next()
                return b""
            case b'"':
                self.next()
                return self.text()
        return self.digits()

    def digits(self) -> bytes:
        """Bytes in hexadecimal digits, up to a space or the end."""
        digits = b""
        while self.ahead() not in (b"", b" "):
            digits += self.digit()
            if self.ahead() in (b"", b" "):
                raise BadLine(ODD_DIGITS)
            digits += self.digit()
        return bytes.fromhex(digits.decode())

    def digit(self) -> bytes:
        byte = self.next()
        if byte not in HEX_DIGITS:
            raise BadLine(NO_DIGIT)
        return byte

    def text(self) -> bytes:
        """What stands behind an opening quote, without the closing one."""
        text = b""
        while (byte := self.next()) != b'"':
            if byte == b"\\":
                byte = self.escaped()
            elif not byte:
                raise BadLine(NO_CLOSING_QUOTE)
            text += byte
        return text

    def escaped(self) -> bytes:
        byte = self.next()
        if not byte:
            raise BadLine(NO_CLOSING_QUOTE)
        if byte not in ESCAPES:
            raise BadLine(BAD_ESCAPE)
        return ESCAPES[byte]


# NODES OF A TREE


class Span(NamedTuple):
    start: int
    end: int

    def of(self, source: bytes) -> bytes:
        """The source under the span."""
        return source[self.start : self.end]


class String(NamedTuple):
    span: Span
    text: bytes


@dataclass(frozen=True)
class Member:
    """By index, or by key: then the index is none, and the key is the source under `access`."""

    optional: bool
    index: int | None
    access: Span
    span: Span


@dataclass(frozen=True)
class Variable:
    members: list[Member]


@dataclass(frozen=True)
class Literal:
    """With the words for its value."""

    span: Span
    value: bytes


@dataclass(frozen=True)
class ListOf:
    span: Span
    items: "list[Expression]"


@dataclass(frozen=True)
class MapOf:
    span: Span
    pairs: "list[tuple[String, Expression]]"


@dataclass(frozen=True)
class Paren:
    span: Span
    inner: "Expression"


@dataclass(frozen=True)
class Call:
    """A call with its arguments, or a filter with its receiver and then the arguments."""

    is_filter: bool
    name: Span
    whole: Span
    values: "list[Expression]"


Expression = Variable | Literal | ListOf | MapOf | Paren | Call


@dataclass(frozen=True)
class Raw:
    span: Span


@dataclass(frozen=True)
class Inline:
    value: Expression


@dataclass(frozen=True)
class Include:
    """`value` is that of an include with."""

    name: String
    value: Expression | None


@dataclass(frozen=True)
class If:
    negated: bool
    condition: Expression
    then: "Block"
    otherwise: "Block | None"


@dataclass(frozen=True)
class For:
    """One name, or those of key and value."""

    names: list[Span]
    iterable: Expression
    body: "Block"


@dataclass(frozen=True)
class With:
    name: Span
    value: Expression
    body: "Block"


Statement = Raw | Inline | Include | If | For | With
Block = list[Statement]

# VALUES

# What may be used of a supply, of cells and of bytes.
MOST_USED = 65535


def usable(given: Charge) -> Charge:
    return Charge(*(min(count, MOST_USED) for count in given))


def total(costs: "Iterable[Charge]") -> Charge:
    cells = bytes_used = 0
    for cost in costs:
        cells += cost.cells
        bytes_used += cost.bytes
    return Charge(cells, bytes_used)


@dataclass(frozen=True)
class PlainValue:
    """A value without parts, by the words for it."""

    words: bytes
    cost: Charge
    content: None | bool | int | float | bytes = None


@dataclass(frozen=True)
class ListValue:
    parts: "list[Value]"

    @property
    def words(self) -> bytes:
        return b"list of %d parts" % len(self.parts)

    @property
    def cost(self) -> Charge:
        """A cell, and for each part one besides its own cost."""
        return total([Charge(1, 0), *(total([part.cost, Charge(1, 0)]) for part in self.parts)])


@dataclass(frozen=True)
class MapValue:
    entries: "list[tuple[bytes, Value]]"

    @property
    def words(self) -> bytes:
        return b"map of %d entries" % len(self.entries)

    @property
    def cost(self) -> Charge:
        """A cell, and for each entry one, and the bytes of its key, besides its value's cost."""
        puts = (total([value.cost, Charge(1, len(key))]) for key, value in self.entries)
        return total([Charge(1, 0), *puts])


Value = PlainValue | ListValue | MapValue

# FORMATTERS

LONGEST_TEXT = 4096

REASONS = {
    1: "the value is of the wrong kind",
    2: "the value is out of range",
    4: "floats are not written",
}


class Unwritten(Exception):
    """A reason for which a formatter refuses a value."""


def plain(value: Value) -> bytes:
    if not isinstance(value, PlainValue):
        raise Unwritten(1)
    match value.content:
        case None:
            return b""
        case bool(told):
            return b"true" if told else b"false"
        case float():
            raise Unwritten(4)
        case int(number):
            return b"%d" % number
        case bytes(text):
            return text


def position(value: Value, width: int, limit: int, sides: bytes) -> bytes:
    """Degrees, minutes and ten-thousandths of a minute, with the letter of the side."""
    number = value.content if isinstance(value, PlainValue) else None
    if not isinstance(number, int) or isinstance(number, bool):
        raise Unwritten(1)
    if abs(number) > limit:
        raise Unwritten(2)
    minutes, fraction = divmod(abs(number), 10000)
    degrees, minutes = divmod(minutes, 60)
    return b"%0*d-%02d.%04d %c" % (width, degrees, minutes, fraction, sides[number < 0])


FORMATTERS = {
    "plain": plain,
    "lat": lambda value: position(value, 2, 54_000_000, b"NS"),
    "lon": lambda value: position(value, 3, 108_000_000, b"EW"),
}

# COMMANDS OF A PACKED TREE OR VALUE

MOST_BYTES = 8192
DEEPEST_BLOCK = 14
DEEPEST_EXPRESSION = 16
DEEPEST_VALUE = 16


class Code(IntEnum):
    RAW, INLINE, INCLUDE, INCLUDE_WITH, IF, IF_ELSE, FOR_ONE, FOR_TWO, WITH, END = range(0x01, 0x0B)
    VARIABLE, LITERAL, LIST, MAP, PARENS, CALL, FILTER = range(0x10, 0x17)
    NONE, FALSE, TRUE, INTEGER, FLOAT, STRING, LIST_VALUE, MAP_VALUE = range(0x20, 0x28)


# what may stand in each place
STATEMENTS = range(Code.RAW, Code.END + 1)
EXPRESSIONS = range(Code.VARIABLE, Code.FILTER + 1)
PARTS = range(Code.VARIABLE, Code.CALL + 1)
LITERAL_VALUES = range(Code.NONE, Code.STRING + 1)
VALUES = range(Code.NONE, Code.MAP_VALUE + 1)


class Command:
    """A command that is being read: its fields, whose faults have its offset.

    Reading a field tests for cause 2 at once. The spans wait for `place`.
    """

    def __init__(self, tree: "Packed", known: range):
        self.tree, self.offset = tree, tree.at
        self.unplaced: list[Span] = []
        self.code = self.number(1)
        self.require(self.code in known)

    def require(self, good: bool, cause: int = MALFORMED) -> None:
        if not good:
            raise Refusal(cause, self.offset)

    def take(self, length: int) -> bytes:
        start, end = self.tree.at, self.tree.at + length
        self.require(end <= len(self.tree.packed))
        self.tree.at = end
        return self.tree.packed[start:end]

    def number(self, length: int, signed: bool = False) -> int:
        return int.from_bytes(self.take(length), "little", signed=signed)

    def flag(self) -> bool:
        return self.count(0, 1) == 1

    def count(self, least: int, most: int) -> int:
        count = self.number(1)
        self.require(least <= count <= most)
        return count

    def span(self) -> Span:
        span = Span(self.number(2), self.number(2))
        self.unplaced.append(span)
        return span

    def text(self) -> bytes:
        text = self.take(self.number(2))
        self.require(is_text(text))
        return text

    def string(self) -> String:
        return String(self.span(), self.text())

    def plain_value(self) -> PlainValue:
        """The rest of a value without parts."""
        match self.code:
            case Code.NONE:
                return PlainValue(b"none", Charge(0, 0))
            case Code.FALSE:
                return PlainValue(b"false", Charge(1, 0), False)
            case Code.TRUE:
                return PlainValue(b"true", Charge(1, 0), True)
            case Code.INTEGER:
                number = self.number(8, signed=True)
                return PlainValue(b"integer %d" % number, Charge(1, 0), number)
            case Code.FLOAT:
                return PlainValue(b"float of bits %d" % self.number(8), Charge(1, 0), 0.0)
        text = self.text()
        return PlainValue(b"string " + quoted(text), Charge(1, len(text)), text)

    def member(self) -> Member:
        optional, by_key = self.flag(), self.flag()
        index = None if by_key else self.number(4)
        return Member(optional, index, self.span(), self.span())

    def place(self) -> None:
        """Tests the spans that were read: cause 3."""
        for span in self.unplaced:
            self.require(self.tree.is_placed(span), MISPLACED)
        self.unplaced = []

    def place_at(self, depth: int, deepest: int) -> None:
        """Causes 3 and 4."""
        self.place()
        self.require(depth <= deepest, TOO_DEEP)


# PACKED BYTES


class Packed:
    """A packed tree over its source, or a packed value over none, and how far it is read."""

    def __init__(self, source: bytes, packed: bytes):
        self.source, self.packed, self.at = source, packed, 0

    def end(self) -> None:
        if self.at < len(self.packed):
            raise Refusal(MALFORMED, self.at)

    def is_placed(self, span: Span) -> bool:
        start, end = span
        return start <= end <= len(self.source) and not any(self.is_inside(i) for i in span)

    def is_inside(self, position: int) -> bool:
        """Whether a position is inside a character."""
        return position < len(self.source) and 0x80 <= self.source[position] <= 0xBF


class Loaded(Packed):
    """A packed value. `depth` is how deep a value in it is nested."""

    def whole(self) -> Value:
        value = self.value(1)
        self.end()
        return value

    def value(self, depth: int) -> Value:
        command = Command(self, VALUES)
        match command.code:
            case Code.LIST_VALUE:
                return self.list_of_parts(command, depth)
            case Code.MAP_VALUE:
                return self.map_of_entries(command, depth)
        value = command.plain_value()
        command.place_at(depth, DEEPEST_VALUE)
        return value

    def list_of_parts(self, command: Command, depth: int) -> ListValue:
        count = command.number(2)
        command.place_at(depth, DEEPEST_VALUE)
        return ListValue([self.value(depth + 1) for _ in range(count)])

    def map_of_entries(self, command: Command, depth: int) -> MapValue:
        """The first key is tested with the map, each other one behind the value before it."""
        count = command.number(2)
        key = command.text() if count else b""
        command.place_at(depth, DEEPEST_VALUE)
        entries: list[tuple[bytes, Value]] = []
        for i in range(count):
            if i > 0:
                before, key = key, command.text()
                command.require(before < key)
            entries.append((key, self.value(depth + 1)))
        return MapValue(entries)


class Tree(Packed):
    """A packed tree. `depth` is how deep a block or expression is nested."""

    def whole(self) -> Block:
        statements = self.statements(0)
        self.end()
        return statements

    # statements

    def statements(self, depth: int) -> Block:
        """Statements and their end, in `depth` blocks."""
        statements = []
        while (command := Command(self, STATEMENTS)).code != Code.END:
            statements.append(self.statement(command, depth))
        return statements

    def statement(self, command: Command, depth: int) -> Statement:
        match command.code:
            case Code.RAW:
                return self.raw(command)
            case Code.INLINE:
                return Inline(self.expression())
            case Code.INCLUDE | Code.INCLUDE_WITH:
                return self.include(command)
            case Code.IF | Code.IF_ELSE:
                return self.condition(command, depth + 1)
        return self.binding(command, depth + 1)

    def raw(self, command: Command) -> Raw:
        span = command.span()
        command.place()
        return Raw(span)

    def include(self, command: Command) -> Include:
        name = command.string()
        command.place()
        return Include(name, self.expression() if command.code == Code.INCLUDE_WITH else None)

    def condition(self, command: Command, depth: int) -> If:
        negated = command.flag()
        command.place_at(depth, DEEPEST_BLOCK)
        condition = self.expression()
        then = self.statements(depth)
        otherwise = self.statements(depth) if command.code == Code.IF_ELSE else None
        return If(negated, condition, then, otherwise)

    def binding(self, command: Command, depth: int) -> For | With:
        """A for or a with. The third span of two names is tested only."""
        spans = [command.span() for _ in range(3 if command.code == Code.FOR_TWO else 1)]
        command.place_at(depth, DEEPEST_BLOCK)
        value, body = self.expression(), self.statements(depth)
        if command.code == Code.WITH:
            return With(spans[0], value, body)
        return For(spans[:2], value, body)

    # expressions

    def expression(self, depth: int = 1, known: range = EXPRESSIONS) -> Expression:
        command = Command(self, known)
        match command.code:
            case Code.VARIABLE:
                return self.variable(command, depth)
            case Code.LITERAL:
                return self.literal(command, depth)
            case Code.LIST:
                return self.list_of_parts(command, depth)
            case Code.MAP:
                return self.map_of_parts(command, depth)
            case Code.PARENS:
                return self.parens(command, depth)
        return self.call(command, depth)

    def parts(self, count: int, depth: int) -> list[Expression]:
        return [self.expression(depth, PARTS) for _ in range(count)]

    def variable(self, command: Command, depth: int) -> Variable:
        members = [command.member() for _ in range(command.count(1, 8))]
        command.place_at(depth, DEEPEST_EXPRESSION)
        return Variable(members)

    def literal(self, command: Command, depth: int) -> Literal:
        span = command.span()
        command.place_at(depth, DEEPEST_EXPRESSION)
        return Literal(span, self.value())

    def value(self) -> bytes:
        """The words for a literal's value."""
        return Command(self, LITERAL_VALUES).plain_value().words

    def list_of_parts(self, command: Command, depth: int) -> ListOf:
        span, count = command.span(), command.count(0, 255)
        command.place_at(depth, DEEPEST_EXPRESSION)
        return ListOf(span, self.parts(count, depth + 1))

    def map_of_parts(self, command: Command, depth: int) -> MapOf:
        """The first key is tested with the map, each other one behind the value before it."""
        span, count = command.span(), command.count(0, 255)
        key = command.string() if count else None
        command.place_at(depth, DEEPEST_EXPRESSION)
        pairs = []
        for i in range(count):
            if i > 0:
                key = command.string()
                command.place()
            pairs.append((key, self.expression(depth + 1, PARTS)))
        return MapOf(span, pairs)

    def parens(self, command: Command, depth: int) -> Paren:
        span = command.span()
        command.place_at(depth, DEEPEST_EXPRESSION)
        return Paren(span, self.expression(depth + 1))

    def call(self, command: Command, depth: int) -> Call:
        """A call or a filter, which has its receiver before the arguments."""
        is_filter = command.code == Code.FILTER
        name, whole = command.span(), command.span()
        count = command.count(0, 7 if is_filter else 8)
        command.place_at(depth, DEEPEST_EXPRESSION)
        receiver = [self.expression(depth + 1)] if is_filter else []
        return Call(is_filter, name, whole, receiver + self.parts(count, depth + 1))


def unpacked(source: bytes, packed: bytes) -> Block:
    """The statements of a template; raises what it is refused for."""
    if len(source) > MOST_BYTES or not is_text(source):
        raise Refusal(BAD_SOURCE)
    if len(packed) > MOST_BYTES:
        raise Refusal(MALFORMED)
    return Tree(source, packed).whole()


# OUTLINE


class Outline:
    """The lines of an outline over its source. `level` is how far a line is indented."""

    def __init__(self, source: bytes):
        self.source = source
        self.lines: list[bytes] = []

    def write(self, level: int, label: bytes, *spans: Span) -> None:
        texts = (b" %d-%d %s" % (*span, quoted(span.of(self.source))) for span in spans)
        self.lines.append(b"  " * level + label + b"".join(texts))

    def statements(self, level: int, statements: Block) -> None:
        for statement in statements:
            self.statement(level, statement)

    def statement(self, level: int, statement: Statement) -> None:
        match statement:
            case Raw(span):
                self.write(level, b"raw", span)
            case Inline(value):
                self.write(level, b"inline")
                self.expression(level + 1, value)
            case Include(name, None):
                self.write(level, b"include " + quoted(name.text), name.span)
            case Include(name, value):
                self.write(level, b"include with " + quoted(name.text), name.span)
                self.expression(level + 1, value)
            case If():
                self.condition(level, statement)
            case For(names, iterable, body):
                self.write(level, b"for", *names)
                self.binding(level, iterable, body)
            case With(name, value, body):
                self.write(level, b"with", name)
                self.binding(level, value, body)

    def condition(self, level: int, statement: If) -> None:
        self.write(level, b"if not" if statement.negated else b"if")
        self.expression(level + 1, statement.condition)
        self.block(level, b"then", statement.then)
        if statement.otherwise is not None:
            self.block(level, b"else", statement.otherwise)

    def binding(self, level: int, value: Expression, body: Block) -> None:
        self.expression(level + 1, value)
        self.block(level, b"do", body)

    def block(self, level: int, label: bytes, statements: Block) -> None:
        self.write(level, label)
        self.statements(level + 1, statements)

    def expression(self, level: int, expression: Expression) -> None:
        match expression:
            case Variable(members):
                self.write(level, b"variable", *(member.span for member in members))
            case Literal(span, value):
                self.write(level, b"literal", span)
                self.write(level + 1, b"value " + value)
            case ListOf(span, items):
                self.write(level, b"list", span)
                self.expressions(level + 1, items)
            case MapOf(span, pairs):
                self.write(level, b"map", span)
                for key, value in pairs:
                    self.write(level + 1, b"key " + quoted(key.text), key.span)
                    self.expression(level + 2, value)
            case Paren(span, inner):
                self.write(level, b"paren", span)
                self.expression(level + 1, inner)
            case Call(is_filter, name, whole, values):
                self.write(level, b"filter" if is_filter else b"call", whole, name)
                self.expressions(level + 1, values)

    def expressions(self, level: int, expressions: list[Expression]) -> None:
        for expression in expressions:
            self.expression(level, expression)


def outline(source: bytes, statements: Block) -> list[bytes]:
    written = Outline(source)
    written.statements(1, statements)
    return written.lines


def value_outline(level: int, value: Value) -> Iterator[bytes]:
    indent = b"  " * level
    yield indent + value.words
    match value:
        case ListValue(parts):
            for part in parts:
                yield from value_outline(level + 1, part)
        case MapValue(entries):
            for key, part in entries:
                yield indent + b"  key " + quoted(key)
                yield from value_outline(level + 2, part)


# PROGRAMS

MOST_INSTRUCTIONS = 1024

# where a jump goes or how many values are taken, a name, or a part of the tree
Operand = int | Span | String | Raw | Variable | Literal


class Instruction:
    """With the operands that are listed. Those that only a fault needs are left out."""

    def __init__(self, name: str, *operands: Operand):
        self.name, self.operands = name, operands


Program = list[Instruction]


def of_expression(expression: Expression) -> Program:
    """Makes the value of an expression the current one."""
    match expression:
        case Variable():
            return [Instruction("ExprStartVar", expression)]
        case Literal():
            return [Instruction("ExprStartLiteral", expression)]
        case ListOf(_, items):
            pushed = ([*of_expression(item), Instruction("ExprListPush")] for item in items)
            return [Instruction("ExprStartList"), *joined(pushed)]
        case MapOf(_, pairs):
            put = ([*of_expression(part), Instruction("ExprMapInsert", key)] for key, part in pairs)
            return [Instruction("ExprStartMap"), *joined(put)]
        case Paren(_, inner):
            return of_expression(inner)
    return called("Apply", expression)


def called(instruction: str, call: Call) -> Program:
    """The values that a call or filter takes, and behind them the instruction that takes them."""
    values = joined(of_expression(value) for value in call.values)
    return [*values, Instruction(instruction, call.name, len(call.values))]


def joined(programs: Iterable[Program]) -> Program:
    return [instruction for program in programs for instruction in program]


def emitted(expression: Expression) -> Program:
    """Emits the value of an expression; a call or filter, parens taken off, as it is applied."""
    while isinstance(expression, Paren):
        expression = expression.inner
    if isinstance(expression, Call):
        return called("EmitWith", expression)
    return [*of_expression(expression), Instruction("Emit")]


def of_statement(statement: Statement, at: int) -> Program:
    """The instructions of a statement, the first of which has the number `at`."""
    match statement:
        case Raw():
            return [Instruction("EmitRaw", statement)]
        case Inline(value):
            return emitted(value)
        case Include(name, None):
            return [Instruction("Include", name)]
        case Include(name, value):
            return [*of_expression(value), Instruction("IncludeWith", name)]
        case If():
            return of_condition(statement, at)
        case For():
            return of_loop(statement, at)
    return of_with(statement, at)


def of_condition(statement: If, at: int) -> Program:
    condition = of_expression(statement.condition)
    jump = "JumpIfTrue" if statement.negated else "JumpIfFalse"
    body_at = at + len(condition) + 1
    body = of_block(statement.then, body_at)
    end = body_at + len(body)
    if statement.otherwise is None:
        return [*condition, Instruction(jump, end), *body]
    otherwise_at = end + 1
    otherwise = of_block(statement.otherwise, otherwise_at)
    leave = Instruction("Jump", otherwise_at + len(otherwise))
    return [*condition, Instruction(jump, otherwise_at), *body, leave, *otherwise]


def of_loop(statement: For, at: int) -> Program:
    iterable = of_expression(statement.iterable)
    next_at = at + len(iterable) + 1
    body = of_block(statement.body, next_at + 1)
    end = next_at + 1 + len(body) + 1
    start = Instruction("LoopStart", *statement.names)
    return [*iterable, start, Instruction("LoopNext", end), *body, Instruction("Jump", next_at)]


def of_with(statement: With, at: int) -> Program:
    value = of_expression(statement.value)
    body = of_block(statement.body, at + len(value) + 1)
    return [*value, Instruction("WithStart", statement.name), *body, Instruction("WithEnd")]


def of_block(statements: Block, at: int) -> Program:
    instructions: Program = []
    for statement in statements:
        instructions += of_statement(statement, at + len(instructions))
    return instructions


def compiled(statements: Block) -> Program:
    return of_block(statements, 0)


# LISTING


def listing(source: bytes, program: Program) -> list[bytes]:
    count = len(program)
    if count > MOST_INSTRUCTIONS:
        return [b"  " + too_many(count)]
    lines = [b"    %d %s" % (i, listed(source, program[i])) for i in range(count)]
    return [b"  program of %d instructions" % count, *lines]


def listed(source: bytes, instruction: Instruction) -> bytes:
    operands = (operand_words(source, operand) for operand in instruction.operands)
    return b" ".join([instruction.name.encode(), *operands])


def operand_words(source: bytes, operand: Operand) -> bytes:
    match operand:
        case Span():
            return with_escapes(operand.of(source))
        case String(_, text):
            return quoted(text)
        case Raw(span):
            return quoted(span.of(source))
        case Variable(members):
            return path(source, members)
        case Literal(_, value):
            return value
    return b"%d" % operand


def path(source: bytes, members: list[Member]) -> bytes:
    """The members of a variable in a row."""
    words = b""
    for i, member in enumerate(members):
        if member.optional:
            words += b"?."
        elif i > 0:
            words += b"."
        by_key = member.index is None
        words += with_escapes(member.access.of(source)) if by_key else b"%d" % member.index
    return words


# REPORT


def refused(refusal: Refusal) -> bytes:
    return f"refused by cause {refusal.cause}, {CAUSES[refusal.cause]}".encode()


def too_many(count: int) -> bytes:
    return refused(Refusal(TOO_MANY_INSTRUCTIONS)) + b": %d" % count


def refused_at(refusal: Refusal, packed: bytes) -> bytes:
    """With the offset, except that of the source."""
    words = refused(refusal)
    if refusal.cause != BAD_SOURCE:
        words += b", at byte %d of the %s" % (refusal.detail, packed)
    return words


class Report:
    """The lines of a report, the counts for the last one, and what the store may use."""

    def __init__(self) -> None:
        self.lines: list[bytes] = []
        self.taken = self.refused = self.bad = 0
        self.usable = usable(Charge(MOST_USED, MOST_USED))

    def line(self, number: int, line: bytes) -> None:
        if not line or line.startswith(b"#"):
            return
        begin = b"line %d: " % number
        try:
            call = Line(line).call()
        except BadLine as words:
            self.bad += 1
            self.lines.append(begin + f"bad line, {words}".encode())
            return
        match call:
            case Add():
                self.add(begin + b"add %s: " % quoted(call.name), call)
            case Supply():
                self.supply(begin + b"supply: ", call)
            case Load():
                self.load(begin + b"load: ", call)
            case Format():
                self.format(begin + f"format {call.formatter}: ".encode(), call)

    def add(self, begin: bytes, add: Add) -> None:
        try:
            statements = unpacked(add.source, add.tree)
        except Refusal as refusal:
            self.refuse(begin + refused_at(refusal, b"tree"))
            return
        sizes = (len(add.source), len(add.tree))
        self.take(begin + b"taken, source of %d bytes, tree of %d bytes" % sizes)
        self.lines += outline(add.source, statements)
        self.lines += listing(add.source, compiled(statements))

    def supply(self, begin: bytes, supply: Supply) -> None:
        self.usable = usable(supply.given)
        counts = (*supply.given, *self.usable)
        words = b"%d cells and %d bytes, of which %d cells and %d bytes are used at most"
        self.take(begin + words % counts)

    def unpacked(self, begin: bytes, packed: bytes) -> Value | None:
        """A value that the store holds, or none once it is refused."""
        try:
            value = Loaded(b"", packed).whole()
        except Refusal as refusal:
            self.refuse(begin + refused_at(refusal, b"value"))
            return None
        return value if self.holds(begin, value) else None

    def holds(self, begin: bytes, value: Value) -> bool:
        """Whether the store holds a value, which is refused otherwise."""
        if value.cost.cells <= self.usable.cells and value.cost.bytes <= self.usable.bytes:
            return True
        self.refuse(begin + refused(Refusal(STORE_FULL)) + self.cost_words(value))
        return False

    def cost_words(self, value: Value) -> bytes:
        costs = (value.cost.cells, self.usable.cells, value.cost.bytes, self.usable.bytes)
        return b", cost %d cells of %d and %d bytes of %d" % costs

    def load(self, begin: bytes, load: Load) -> None:
        value = self.unpacked(begin, load.value)
        if value is None:
            return
        self.take(begin + b"taken, value of %d bytes" % len(load.value) + self.cost_words(value))
        self.lines += value_outline(1, value)

    def format(self, begin: bytes, call: Format) -> None:
        value = self.unpacked(begin, call.value)
        if value is None:
            return
        try:
            text = FORMATTERS[call.formatter](value)
        except Unwritten as why:
            (reason,) = why.args
            self.refuse(begin + b"refused for reason %d, " % reason + REASONS[reason].encode())
            return
        if len(text) > LONGEST_TEXT:
            self.refuse(begin + b"refused, the text is longer than %d bytes" % LONGEST_TEXT)
            return
        self.take(begin + b"taken, text of %d bytes, " % len(text) + quoted(text))

    def take(self, line: bytes) -> None:
        self.taken += 1
        self.lines.append(line)

    def refuse(self, line: bytes) -> None:
        self.refused += 1
        self.lines.append(line)

    def end(self) -> None:
        counts = (self.taken, self.refused, self.bad)
        self.lines.append(b"%d taken, %d refused, %d bad lines" % counts)


def report(job: bytes) -> bytes:
    written = Report()
    for number, line in enumerate(job_lines(job), start=1):
        written.line(number, line)
    written.end()
    return b"".join(line + b"\n" for line in written.lines)


if __name__ == "__main__":
    sys.stdout.buffer.write(report(sys.stdin.buffer.read()))

#!/usr/bin/env python3
"""Packs a readable template: upon's syntax in, the source and its packed tree out.

    python3 tools/pack_template.py FILE

prints how many bytes both have, and the tree in hexadecimal digits. All positions in a tree are in
bytes of the UTF-8 source. What breaks a limit of the packed tree (too long, too many members or
arguments, nested too deep) is an error here, with its line. How many instructions a template
compiles to is not counted. Two braces that close nested maps need a space between them.
"""

import re
import struct
import sys
from dataclasses import dataclass
from itertools import accumulate
from pathlib import Path

# LIMITS

MOST_BYTES = 8192
MOST_MEMBERS = 8
MOST_ARGUMENTS = 8
MOST_FILTER_ARGUMENTS = 7
MOST_PARTS = 255
DEEPEST_BLOCK = 14
DEEPEST_EXPRESSION = 16

# COMMANDS

RAW, INLINE, INCLUDE, INCLUDE_WITH, IF, IF_ELSE, FOR_ITEM, FOR_PAIR, WITH, END = (
    bytes([code]) for code in range(0x01, 0x0B)
)
VARIABLE, LITERAL, LIST, MAP, PAREN, CALL, FILTER = (bytes([code]) for code in range(0x10, 0x17))
NONE, FALSE, TRUE, INTEGER, FLOAT, STRING = (bytes([code]) for code in range(0x20, 0x26))

CONSTANTS = {"none": NONE, "false": FALSE, "true": TRUE}


class TemplateError(Exception):
    """What is wrong with a template, and in which line."""

    def __init__(self, line: int, message: str):
        super().__init__(f"line {line}: {message}")


def check_limit(count: int, most: int, what: str, line: int) -> None:
    if count > most:
        raise TemplateError(line, f"{count} {what}, at most {most} are allowed")


# FIELDS


@dataclass(frozen=True)
class Span:
    start: int
    end: int

    def packed(self) -> bytes:
        return struct.pack("<HH", self.start, self.end)

    def to(self, last: "Span") -> "Span":
        return Span(self.start, last.end)


def packed_text(text: str) -> bytes:
    encoded = text.encode()
    return struct.pack("<H", len(encoded)) + encoded


# TOKENS

KEYWORDS = set("include if not else endif for in endfor with as endwith".split()) | set(CONSTANTS)

# what begins a tag; what ends one has no place in raw text
TAG = re.compile(r"(?P<open>\{\{|\{%|\{#)(?P<trim>-?)|\}\}|%\}|#\}")
COMMENT_END = re.compile(r"(?P<trim>-?)#\}")
TOKEN = re.compile(
    r"""
    (?P<space>  \s+ )
  | (?P<trim>   -? ) (?P<close> \}\} | %\} )
  | (?P<string> " (?: [^"\\] | \\. )* " )
  | (?P<number> [+-]? (?: 0x[0-9a-fA-F]+ | 0o[0-7]+ | 0b[01]+
                        | [0-9]+ (?: \.[0-9]+ )? (?: [eE][+-]?[0-9]+ )? ) (?!\w) )
  | (?P<name>   \w+ )
  | (?P<mark>   \?\. | [.,:|()\[\]{}] )
    """,
    re.VERBOSE,
)
# a number behind a dot: `a.0.1` has two of them
INDEX = re.compile(r"(?P<index>[0-9]+)(?!\w)")

# what trimming takes away: the characters with Unicode's property White_Space
WHITE = (
    "\t\n\v\f\r \x85\xa0\u1680\u2000\u2001\u2002\u2003\u2004\u2005\u2006\u2007\u2008\u2009\u200a"
    "\u2028\u2029\u202f\u205f\u3000"
)


@dataclass(frozen=True)
class Token:
    """`kind` is raw, open, close, keyword, name, index, number, string, mark or end."""

    kind: str
    text: str
    span: Span
    line: int

    def __str__(self) -> str:
        return f"`{self.text}`" if self.text else "the end"


class Lexer:
    def __init__(self, source: str):
        self.source = source
        # the byte at which each character begins, and the end
        self.offsets = list(accumulate((len(c.encode()) for c in source), initial=0))
        self.tokens: list[Token] = []

    def line(self, at: int) -> int:
        return self.source.count("\n", 0, at) + 1

    def add(self, kind: str, text: str, start: int, end: int) -> None:
        span = Span(self.offsets[start], self.offsets[end])
        self.tokens.append(Token(kind, text, span, self.line(start)))

    def run(self) -> list[Token]:
        at, trim_start = 0, False
        while tag := TAG.search(self.source, at):
            if not tag["open"]:
                raise TemplateError(self.line(tag.start()), f"`{tag[0]}` ends nothing")
            self.raw(at, tag.start(), trim_start, trim_end=bool(tag["trim"]))
            at, trim_start = self.comment(tag) if tag["open"] == "{#" else self.tag(tag)
        end = len(self.source)
        self.raw(at, end, trim_start, trim_end=False)
        self.add("end", "", end, end)
        return self.tokens

    def raw(self, start: int, end: int, trim_start: bool, trim_end: bool) -> None:
        while trim_start and start < end and self.source[start] in WHITE:
            start += 1
        while trim_end and start < end and self.source[end - 1] in WHITE:
            end -= 1
        if start < end:
            self.add("raw", "", start, end)

    def comment(self, tag: re.Match) -> tuple[int, bool]:
        end = COMMENT_END.search(self.source, tag.end())
        if not end:
            raise TemplateError(self.line(tag.start()), "the comment does not end")
        return end.end(), bool(end["trim"])

    def tag(self, tag: re.Match) -> tuple[int, bool]:
        """The tokens of a tag; where it ends, and whether the raw text behind it is trimmed."""
        self.add("open", tag["open"], tag.start(), tag.end())
        at = tag.end()
        while at < len(self.source):
            behind_dot = self.tokens[-1].text in (".", "?.")
            found = behind_dot and INDEX.match(self.source, at) or TOKEN.match(self.source, at)
            if not found:
                raise TemplateError(self.line(at), self.no_token(at))
            if found.lastgroup != "space":
                self.in_tag(found)
            at = found.end()
            if found.lastgroup == "close":
                return at, bool(found["trim"])
        raise TemplateError(self.line(tag.start()), f"`{tag['open']}` is not closed")

    def no_token(self, at: int) -> str:
        character = self.source[at]
        return "the string does not end" if character == '"' else f"`{character}` has no place in a tag"

    def in_tag(self, found: re.Match) -> None:
        kind = found.lastgroup
        text = found[kind]
        if kind == "name" and not text.isidentifier():
            raise TemplateError(self.line(found.start()), f"`{text}` is no name")
        if kind == "name" and text in KEYWORDS:
            kind = "keyword"
        self.add(kind, text, found.start(), found.end())


# LITERALS

ESCAPE = re.compile(r"\\(?:x([0-7][0-9a-fA-F])|u\{([0-9a-fA-F]{1,6})\}|(.))")
ESCAPED = {'"': '"', "'": "'", "\\": "\\", "n": "\n", "r": "\r", "t": "\t", "0": "\0"}


def text_of(string: Token) -> str:
    """What stands between the quotes, its escapes resolved."""

    def resolved(escape: re.Match) -> str:
        code = escape[1] or escape[2]
        if code and (int(code, 16) < 0xD800 or 0xDFFF < int(code, 16) < 0x110000):
            return chr(int(code, 16))
        if escape[3] in ESCAPED:
            return ESCAPED[escape[3]]
        raise TemplateError(string.line, f"unknown escape `{escape[0]}`")

    return ESCAPE.sub(resolved, string.text[1:-1])


def packed_number(number: Token) -> bytes:
    digits = number.text.lstrip("+-")
    base = {"0x": 16, "0o": 8, "0b": 2}.get(digits[:2], 10)
    if base == 10 and not digits.isdigit():
        return FLOAT + struct.pack("<d", float(number.text))
    value = int(number.text, base)
    if not -(2**63) <= value < 2**63:
        raise TemplateError(number.line, f"{number} does not fit 64 bits")
    return INTEGER + struct.pack("<q", value)


# EXPRESSIONS


@dataclass(frozen=True)
class Expr:
    """An expression's span, its bytes, and how deep it nests."""

    span: Span
    packed: bytes
    depth: int = 1


def joined(parts: list[Expr]) -> bytes:
    return b"".join(part.packed for part in parts)


def depth_around(parts: list[Expr]) -> int:
    return 1 + max((part.depth for part in parts), default=0)


def packed_access(access: Token) -> bytes:
    if access.kind != "index":
        return b"\x01" + access.span.packed()
    value = int(access.text)
    if value >= 2**32:
        raise TemplateError(access.line, f"{access} does not fit 32 bits")
    return b"\x00" + struct.pack("<I", value) + access.span.packed()


def packed_member(optional: bool, access: Token, span: Span) -> bytes:
    return bytes([optional]) + packed_access(access) + span.packed()


class Parser:
    """Recursive descent; every method begins at the token that is next and gives bytes."""

    def __init__(self, tokens: list[Token]):
        self.tokens = tokens
        self.at = 0

    def next(self) -> Token:
        token = self.tokens[self.at]
        self.at += 1
        return token

    def sees(self, *texts: str) -> bool:
        return self.tokens[self.at].text in texts

    def accept(self, text: str) -> bool:
        found = self.sees(text)
        self.at += found
        return found

    def expect(self, text: str) -> Token:
        token = self.next()
        if token.text != text:
            raise TemplateError(token.line, f"expected `{text}`, found {token}")
        return token

    def expect_kind(self, what: str, *kinds: str) -> Token:
        token = self.next()
        if token.kind not in kinds:
            raise TemplateError(token.line, f"expected {what}, found {token}")
        return token

    def name(self) -> Token:
        return self.expect_kind("a name", "name")

    def string(self) -> bytes:
        token = self.expect_kind("a string", "string")
        return token.span.packed() + packed_text(text_of(token))

    # expressions

    def whole_expr(self) -> Expr:
        """An expression in its statement."""
        line = self.tokens[self.at].line
        try:
            expr = self.expr()
        except RecursionError:
            raise TemplateError(line, "far too many levels of expressions") from None
        check_limit(expr.depth, DEEPEST_EXPRESSION, "levels of expressions", line)
        return expr

    def expr(self) -> Expr:
        expr = self.base()
        while self.accept("|"):
            expr = self.filter(expr)
        return expr

    def filter(self, receiver: Expr) -> Expr:
        name = self.name()
        args = self.several(self.base) if self.accept(":") else []
        check_limit(len(args), MOST_FILTER_ARGUMENTS, "arguments", name.line)
        whole = receiver.span.to(args[-1].span if args else name.span)
        head = FILTER + name.span.packed() + whole.packed() + bytes([len(args)])
        return Expr(whole, head + receiver.packed + joined(args), depth_around([receiver, *args]))

    def base(self) -> Expr:
        """An expression other than a filter."""
        token = self.next()
        if token.kind == "string":
            return self.literal(token, STRING + packed_text(text_of(token)))
        if token.kind == "number":
            return self.literal(token, packed_number(token))
        if token.text in CONSTANTS:
            return self.literal(token, CONSTANTS[token.text])
        if token.text == "[":
            return self.list_of(token)
        if token.text == "{":
            return self.map_of(token)
        if token.text == "(":
            return self.paren_of(token)
        if token.kind == "name":
            return self.call(token) if self.accept("(") else self.variable(token)
        raise TemplateError(token.line, f"expected an expression, found {token}")

    def literal(self, token: Token, value: bytes) -> Expr:
        return Expr(token.span, LITERAL + token.span.packed() + value)

    def variable(self, first: Token) -> Expr:
        members = [packed_member(False, first, first.span)]
        last = first
        while self.sees(".", "?."):
            dot = self.next()
            last = self.expect_kind("a member's name or index", "name", "index")
            members.append(packed_member(dot.text == "?.", last, dot.span.to(last.span)))
        check_limit(len(members), MOST_MEMBERS, "members", first.line)
        packed = VARIABLE + bytes([len(members)]) + b"".join(members)
        return Expr(first.span.to(last.span), packed)

    def list_of(self, opening: Token) -> Expr:
        items, closing = self.up_to("]", self.base)
        check_limit(len(items), MOST_PARTS, "items", opening.line)
        span = opening.span.to(closing.span)
        return Expr(span, LIST + span.packed() + bytes([len(items)]) + joined(items), depth_around(items))

    def map_of(self, opening: Token) -> Expr:
        pairs, closing = self.up_to("}", self.pair)
        check_limit(len(pairs), MOST_PARTS, "keys", opening.line)
        span = opening.span.to(closing.span)
        return Expr(span, MAP + span.packed() + bytes([len(pairs)]) + joined(pairs), depth_around(pairs))

    def pair(self) -> Expr:
        """A map's key and its value; the key's bytes stand before the value's."""
        key = self.string()
        self.expect(":")
        value = self.base()
        return Expr(value.span, key + value.packed, value.depth)

    def paren_of(self, opening: Token) -> Expr:
        inner = self.expr()
        span = opening.span.to(self.expect(")").span)
        return Expr(span, PAREN + span.packed() + inner.packed, depth_around([inner]))

    def call(self, name: Token) -> Expr:
        args, closing = self.up_to(")", self.base)
        check_limit(len(args), MOST_ARGUMENTS, "arguments", name.line)
        whole = name.span.to(closing.span)
        head = CALL + name.span.packed() + whole.packed() + bytes([len(args)])
        return Expr(whole, head + joined(args), depth_around(args))

    def several(self, part) -> list[Expr]:
        """One or more, with commas between."""
        parts = [part()]
        while self.accept(","):
            parts.append(part())
        return parts

    def up_to(self, closing: str, part) -> tuple[list[Expr], Token]:
        """None or more, and what closes them."""
        parts = [] if self.sees(closing) else self.several(part)
        return parts, self.expect(closing)

    # statements

    def template(self) -> bytes:
        return self.block(0, None, ())[0]

    def block(self, depth: int, opening: Token | None, ends: tuple[str, ...]) -> tuple[bytes, str]:
        """Statements up to a tag that begins with one of `ends`, and which one that is.

        `opening` is the keyword whose block this is, at the nesting `depth`.
        """
        packed = b""
        while True:
            token = self.next()
            if token.kind == "raw":
                packed += RAW + token.span.packed()
            elif token.text == "{{":
                packed += self.inline()
            elif token.text == "{%":
                keyword = self.next()
                if keyword.text in ends:
                    return packed + END, keyword.text
                packed += self.statement(keyword, depth + 1)
            elif opening:
                raise TemplateError(opening.line, f"{opening} has no `{ends[-1]}`")
            else:
                return packed + END, ""

    def statement(self, keyword: Token, depth: int) -> bytes:
        if keyword.text == "include":
            return self.include()
        kinds = {"if": self.if_else, "for": self.for_loop, "with": self.with_name}
        if keyword.text not in kinds:
            raise TemplateError(keyword.line, f"{keyword} begins no statement here")
        check_limit(depth, DEEPEST_BLOCK, "levels of if, for and with", keyword.line)
        return kinds[keyword.text](keyword, depth)

    def inline(self) -> bytes:
        expr = self.whole_expr()
        self.expect("}}")
        return INLINE + expr.packed

    def include(self) -> bytes:
        name = self.string()
        values = self.whole_expr() if self.accept("with") else None
        self.expect("%}")
        return INCLUDE_WITH + name + values.packed if values else INCLUDE + name

    def if_else(self, keyword: Token, depth: int) -> bytes:
        negated = bytes([self.accept("not")])
        condition = self.whole_expr()
        self.expect("%}")
        then, end = self.block(depth, keyword, ("else", "endif"))
        if end == "endif":
            self.expect("%}")
            return IF + negated + condition.packed + then
        return IF_ELSE + negated + condition.packed + then + self.otherwise(keyword, depth)

    def otherwise(self, keyword: Token, depth: int) -> bytes:
        """The else branch; one of `else if` has just that if in it, and both end at the same `endif`."""
        if self.sees("if"):
            return self.statement(self.next(), depth + 1) + END
        self.expect("%}")
        return self.body(keyword, depth, "endif")

    def for_loop(self, keyword: Token, depth: int) -> bytes:
        first = self.name().span
        head = FOR_ITEM + first.packed()
        if self.accept(","):
            second = self.name().span
            head = FOR_PAIR + first.packed() + second.packed() + first.to(second).packed()
        self.expect("in")
        iterable = self.whole_expr()
        self.expect("%}")
        return head + iterable.packed + self.body(keyword, depth, "endfor")

    def with_name(self, keyword: Token, depth: int) -> bytes:
        value = self.whole_expr()
        self.expect("as")
        name = self.name().span
        self.expect("%}")
        return WITH + name.packed() + value.packed + self.body(keyword, depth, "endwith")

    def body(self, keyword: Token, depth: int, end: str) -> bytes:
        packed, _ = self.block(depth, keyword, (end,))
        self.expect("%}")
        return packed


# THE WHOLE


def pack(source: bytes) -> bytes:
    """The packed tree of a source."""
    check_length(source, "source", source)
    try:
        text = source.decode()
    except UnicodeDecodeError as error:
        line = source.count(b"\n", 0, error.start) + 1
        raise TemplateError(line, "the source is not UTF-8") from error
    tree = Parser(Lexer(text).run()).template()
    check_length(tree, "tree", source)
    return tree


def check_length(part: bytes, what: str, source: bytes) -> None:
    check_limit(len(part), MOST_BYTES, f"bytes of {what}", source.count(b"\n") + 1)


def pack_file(path: str | Path) -> tuple[bytes, bytes]:
    """A template file's source and tree."""
    source = Path(path).read_bytes()
    return source, pack(source)


def main() -> int:
    if len(sys.argv) != 2:
        print("usage: pack_template.py FILE", file=sys.stderr)
        return 2
    try:
        source, tree = pack_file(sys.argv[1])
    except (OSError, TemplateError) as error:
        print(f"{sys.argv[1]}: {error}", file=sys.stderr)
        return 1
    print(f"source bytes {len(source)}")
    print(f"tree bytes {len(tree)}")
    print(tree.hex())
    return 0


if __name__ == "__main__":
    sys.exit(main())

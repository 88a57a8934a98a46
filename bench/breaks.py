"""Finds where the tokens of a definition, a proof or a clause break into lines of 100 columns.

`rt fmt` indents these texts: lines that go on by four columns, whatever brackets they are in, and
by two the cases of an `elim`, the fields of a record and the parts of a tuple, each on a line of
its own once the brackets around them hold a line break. So what is chosen here is line breaks
alone. Of all choices the best is taken, by the costs below: few lines, breaks as far out as
possible in the term. Used by `bench/lay_out.py`. Unproved.
"""
from __future__ import annotations

import functools
import re
from collections.abc import Callable, Iterator
from typing import NamedTuple

COLUMNS = 100
TOKEN = re.compile(r'--[^\n]*|"(?:\\.|[^"\\])*"|[(){},;]|[^\s(){},;"]+')
OPENERS = {"(": ")", "{": "}", "[": "]", "∥": "∥₁", "∣": "∣₁"}
# Operators, the loosest first; a chain of the first eight has an operand a line, or is one line.
OPERATORS = [["→"], ["↔"], ["⊎"], ["then", "else"], ["×"], ["∙"], ["||"], ["&&"], ["=="],
             ["≡", "≢", "<", "≤"], ["++", "∷"], ["+", "-"], ["*", "/", "%"], ["^"]]
CHAINS = 8
SEPARATORS = {"tuple": ",", "record": ";", "cases": "|"}
# What it costs to give the parts of a block a line each, and to leave many of them in one line.
SPREAD = {"tuple": 22, "record": 8, "cases": 6}
CROWDED = {"tuple": (9, 0), "record": (2, 20), "cases": (1, 30)}
LINE, LEVEL, FORCED = 10, 12, -1


class Token(NamedTuple):
    """A word, a bracket, a separator or a comment."""

    text: str
    space: bool
    line: int


class Lines(NamedTuple):
    """A layout, and how much is against it."""

    cost: int
    lines: tuple[str, ...]


def tokens_of(text: str) -> list[Token]:
    """Returns the tokens of a text, each with whether a space is before it, and its line."""
    found = []
    for number, line in enumerate(text.split("\n")):
        for match in TOKEN.finditer(line):
            at = match.start()
            found.append(Token(match.group().rstrip(), at == 0 or line[at - 1].isspace(), number))
    return found


def meaning(text: str) -> list[tuple[str, bool]]:
    """Returns what must stay: the tokens, and where spaces part them. Not compared are signs that
    `rt fmt` puts at the ends of a block, and spaces inside of brackets.

    >>> meaning("f (a, b)") == meaning("f (\\n  a,\\n  b,\\n)")
    True
    >>> meaning("f (a b)") == meaning("f (ab)"), meaning("r.0") == meaning("r .0")
    (False, False)
    """
    kept: list[tuple[str, bool]] = []
    for token in tokens_of(text):
        before = kept[-1][0] if kept else "("
        if token.text in ")}" and before in ",;":
            kept.pop()
        if not (token.text == "|" and before == "["):
            inner = before in "({[" or token.text in ")}"
            kept.append((token.text, token.space and not inner))
    return kept


class Part:
    """A declaration, a clause or the like, whose tokens are laid out."""

    def __init__(self, text: str) -> None:
        self.tokens = tokens_of(text)
        self.pairs: dict[int, int] = {}
        self.blocks: dict[int, str] = {}
        self.level: dict[int, int] = {}
        self.held: set[int] = set()
        self.line, self.begins = "", []
        for token in self.tokens:
            inner = token.text == ")" or self.line.endswith("(")
            self.line += " " * (token.space - inner + token.text.startswith("--"))
            self.begins.append(len(self.line))
            self.line += token.text
        self.show = functools.lru_cache(None)(self._show)
        open_now: list[int] = []
        for k, token in enumerate(self.tokens):
            if token.text in OPENERS:
                open_now.append(k)
            elif open_now and token.text == OPENERS[self.tokens[open_now[-1]].text]:
                start = open_now.pop()
                self.pairs[start] = k
                kind = self.kind(start)
                if kind:
                    self.blocks[start] = kind

    def hold(self, words: str, lead: str, tail: str) -> None:
        """Keeps words in one line, wherever they are in the text between `lead` and `tail`."""
        at = (lead + self.line + tail).find(words) - len(lead)
        if at + len(lead) < 0:
            return
        held = {k for k, begin in enumerate(self.begins) if at < begin < at + len(words)}
        self.held |= held
        self.blocks = {k: kind for k, kind in self.blocks.items()
                       if self.is_spread(k) or not held.intersection(range(k, self.pairs[k] + 1))}

    def word(self, k: int) -> str:
        """Returns the text of a token, or nothing past the end."""
        return self.tokens[k].text if 0 <= k < len(self.tokens) else ""

    def kind(self, start: int) -> str | None:
        """Returns the kind of block that a bracket opens, if it opens one."""
        sign = self.word(start)
        if sign == "[":
            return "cases"
        if sign == "{":
            back = next((a for a, b in self.pairs.items() if b == start - 1), start - 1)
            if "record" not in (self.word(start - 1), self.word(back - 1)):
                return None
            declared = self.word(start - 1) != "record" and back - 1 == (self.word(0) == "pub")
            return None if declared else "record"
        commas = any(self.word(k) == "," for k in self.tops(start + 1, self.pairs[start]))
        return "tuple" if sign == "(" and commas else None

    def tops(self, start: int, end: int) -> Iterator[int]:
        """Yields the tokens of a range that are in no bracket of it; of brackets, both ends."""
        k = start
        while k < end:
            yield k
            if k in self.pairs:
                k = self.pairs[k]
                yield k
            k += 1

    def parts(self, start: int) -> list[tuple[int, int]]:
        """Returns the ranges between the separators of a block."""
        sign, end = SEPARATORS[self.blocks[start]], self.pairs[start]
        cuts = [start, *(k for k in self.tops(start + 1, end) if self.word(k) == sign), end]
        return [(a + 1, b) for a, b in zip(cuts, cuts[1:]) if a + 1 < b]

    def is_spread(self, start: int) -> bool:
        """Tells whether a block has a part a line already."""
        return self.tokens[start].line < self.tokens[self.pairs[start]].line

    def is_bound(self, k: int, room: int) -> bool:
        """Tells whether a token is the bracket of a tuple that fits in no line: such a bracket ends
        the line before."""
        return self.blocks.get(k) == "tuple" and (
            self.is_spread(k) or len(self.flat(k, self.pairs[k] + 1)) > room)

    def is_new_line(self, k: int) -> bool:
        """Tells whether a token begins a line of the source."""
        return k > 0 and self.tokens[k - 1].line < self.tokens[k].line

    def flat(self, start: int, end: int) -> str:
        """Returns the tokens of a range in one line."""
        return self.line[self.begins[start]:self.begins[end - 1] + len(self.word(end - 1))]

    def _show(self, start: int, end: int, column: int, lead: str, tail: str) -> Lines:
        """Lays out a range that begins in this column, after `lead` and with `tail` behind it. Its
        statements that fit as they are stay so."""
        cost, lines, begin = 0, [], start
        room = COLUMNS - column - 4 - len(tail)
        for k in [*self.statements(start, end, room), end]:
            own, last = (lead if begin == start else ""), (tail if k == end else "")
            at = column if begin == start else column + 4
            flow = Flow(self, begin, k, column + 4, last)
            shown = flow.kept(at, own)
            if any(len(line) > COLUMNS for line in shown.lines):
                shown = flow.broken(at, own)
            cost, lines, begin = cost + shown.cost, [*lines, *shown.lines], k
        return Lines(cost, tuple(lines))

    def is_statement(self, k: int) -> bool:
        """Tells whether a token begins a line of the source after `in`, or a `let` begins it."""
        return self.is_new_line(k) and (self.word(k - 1) == "in" or self.word(k) == "let")

    def statements(self, start: int, end: int, room: int) -> list[int]:
        """Returns where a range is cut into statements."""
        return [k for k in self.tops(start, end)
                if k > start and self.is_statement(k) and not self.is_bound(k, room)]

    def spread(self, start: int, column: int) -> Lines:
        """Gives the parts of a block a line each."""
        kind, cost, lines = self.blocks[start], 0, []
        lead = "| " if kind == "cases" else ""
        for a, b in self.parts(start):
            tail = "" if kind == "cases" else SEPARATORS[kind]
            shown = self.show(a, b, column, lead, tail)
            cost, lines = cost + shown.cost, [*lines, *shown.lines]
        return Lines(cost, tuple(lines))


class Flow:
    """Tokens that go on from line to line, but for blocks whose parts have lines of their own.
    `breaks` says what a line break before a token costs, if there may be one."""

    def __init__(self, part: Part, start: int, end: int, further: int, tail: str) -> None:
        self.part, self.start, self.end = part, start, end
        self.further, self.tail = further, tail
        self.room = COLUMNS - further - len(tail)
        self.breaks: dict[int, int] = {}
        self.may_spread = False
        self.best = functools.lru_cache(None)(self._best)

    def kept(self, column: int, lead: str) -> Lines:
        """Lays out with the line breaks of the source."""
        inside: set[int] = set()
        for start in self.part.blocks:
            if self.start <= start < self.end and self.part.is_spread(start):
                inside.update(range(start + 1, self.part.pairs[start] + 1))
        self.breaks = {k: FORCED for k in range(self.start + 1, self.end)
                       if self.part.is_new_line(k) and k not in inside}
        return self.laid(column, lead)

    def broken(self, column: int, lead: str) -> Lines:
        """Lays out with the best line breaks."""
        self.breaks, self.may_spread = {}, True
        self.define(self.start, self.end, 0, top=True)
        for k in range(self.start + 1, self.end):
            if self.part.word(k).startswith("--"):
                self.breaks.pop(k, None)
            if self.part.is_new_line(k) and self.part.word(k).startswith("--"):
                self.breaks[k] = FORCED
            if self.part.is_statement(k):
                self.breaks[k] = FORCED
        self.breaks = {k: cost for k, cost in self.breaks.items()
                       if k not in self.part.held and not self.part.is_bound(k, self.room)}
        return self.laid(column, lead)

    def laid(self, column: int, lead: str) -> Lines:
        """Lays out by the breaks."""
        self.best.cache_clear()
        return self.best(self.start, column, lead)

    def _best(self, i: int, column: int, lead: str) -> Lines:
        """Lays out from token `i` on, which begins a line in this column."""
        part, found, crowd, opened, passed = self.part, [], 0, [], i
        for j in range(i + 1, self.end + 1):
            text = " " * column + lead + part.flat(i, j)
            if opened and part.pairs[opened[-1]] == j - 1:
                opened.pop()
            elif j - 1 in part.pairs and j - 1 > i:
                opened.append(j - 1)
            block = part.blocks.get(j - 1)
            if block and j > passed:
                passed = part.pairs[j - 1]
                if part.is_spread(j - 1) or self.may_spread and not (
                        block == "tuple" and j - 1 == i > self.start):
                    found.append(self.spread(j - 1, column, text, crowd))
                if part.is_spread(j - 1):
                    break
                most, much = CROWDED[block]
                crowd += much if len(part.parts(j - 1)) > most else 0
            if j == self.end:
                found.append(Lines(crowd + over(text + self.tail), (text + self.tail,)))
                break
            must = self.breaks.get(j) == FORCED or part.word(j - 1).startswith("--")
            if must or j in self.breaks:
                rest = self.best(j, self.further, "")
                cost = self.inner(opened, j) + (LINE if must else self.breaks[j])
                found.append(Lines(crowd + cost + over(text) + rest.cost, (text, *rest.lines)))
            if must or found and len(text) > COLUMNS:
                break
        return min(reversed(found), key=lambda lines: lines.cost)

    def spread(self, start: int, column: int, text: str, crowd: int) -> Lines:
        """Lays out from a line that ends with the bracket of a block on."""
        inner = self.part.spread(start, column + 2)
        rest = self.best(self.part.pairs[start], column, "")
        cost = SPREAD[self.part.blocks[start]] + 6 * self.part.level.get(start, 0)
        cost = 0 if self.part.is_spread(start) else cost
        return Lines(crowd + cost + over(text) + inner.cost + rest.cost,
                     (text, *inner.lines, *rest.lines))

    def inner(self, opened: list[int], j: int) -> int:
        """Returns what is against a break in brackets that open within the line: little where a
        `λ` begins its term, or in a `λ` or a chain of operands that is the last argument."""
        return sum(10 if self.part.word(j - 1).endswith(".") or self.is_last(k) and (
            self.part.word(k + 1) == "λ" or self.breaks.get(j) == FORCED) else 30 for k in opened)

    def is_last(self, start: int) -> bool:
        """Tells whether nothing follows a bracket but ends of others."""
        after = range(self.part.pairs[start] + 1, self.end)
        return all(self.part.word(k) in (")", "}", "in", ";") for k in after)

    # Where lines may break.

    def allow(self, k: int, level: int, more: int = 0) -> None:
        """Allows a break before a token."""
        self.breaks[k] = LINE + LEVEL * level + more

    def is_wide(self, start: int, end: int) -> bool:
        """Tells whether a range fits in no line."""
        return len(self.part.flat(start, end)) > self.room or any(
            start <= k < end and self.part.is_spread(k) for k in self.part.blocks)

    def first(self, start: int, end: int, wanted: Callable[[str], bool]) -> int:
        """Returns the first token of a range, in no bracket, that is wanted; else its end."""
        return next((k for k in self.part.tops(start, end) if wanted(self.part.word(k))), end)

    def define(self, start: int, end: int, level: int, top: bool = False) -> None:
        """Weighs breaks in `NAME : TYPE = VALUE`, of which parts may lack, or in a case."""
        stop = self.first(start, end, lambda word: word in ("λ", "let", "elim"))
        equals = self.first(start, stop, lambda word: word in ("=", "↦"))
        colon = self.first(start, min(equals, stop), lambda word: word == ":")
        has_value, has_type = equals < stop, colon < min(equals, stop)
        if not has_value and not has_type:
            self.weigh(start, end, level)
            return
        until = equals if has_value else end
        if has_type:
            self.weigh(start, colon, level)
            self.allow(colon + 1, level, 20)
            self.weigh(colon + 1, until, level + has_value, top and not has_value)
        else:
            self.weigh(start, until, level + 2)
        if has_value:
            self.allow(equals + 1, level)
            self.tail_of(equals + 1, end, level + 1)

    def tail_of(self, start: int, end: int, level: int) -> None:
        """Weighs breaks in what goes on to the end. A `let` that must break begins a line."""
        if self.part.word(start) == "let" and (end == self.end or self.is_wide(start, end)):
            self.breaks[start] = FORCED
        self.weigh(start, end, level)

    def weigh(self, start: int, end: int, level: int, top: bool = False) -> None:
        """Weighs breaks in a term."""
        head = self.part.word(start)
        if head == "let":
            self.weigh_let(start, end, level)
        elif head in ("λ", "unfold"):
            last = self.first(start, end, lambda word: word == "in" or word.endswith("."))
            self.weigh_call(start + 1, last, last, level + 2)
            if last + 1 < end:
                self.allow(last + 1, level, 2)
                self.tail_of(last + 1, end, level)
        else:
            stop = self.first(start, end, lambda word: word in ("λ", "let", "unfold"))
            for rank, signs in enumerate(OPERATORS):
                places = [k for k in self.part.tops(start, stop)
                          if k > start and self.part.word(k) in signs]
                if places:
                    self.weigh_chain([start, *places, end], rank, level, top)
                    return
            self.weigh_call(start, stop, end, level)

    def weigh_let(self, start: int, end: int, level: int) -> None:
        """Weighs breaks in `let A = B; C = D in E`."""
        depth, into = 0, start
        for k in self.part.tops(start, end):
            depth += {"let": 1, "unfold": 1, "in": -1}.get(self.part.word(k), 0)
            into = k
            if depth == 0:
                break
        cuts = [start, *(k for k in self.part.tops(start, into) if self.part.word(k) == ";"), into]
        for a, b in zip(cuts, cuts[1:]):
            if a > start:
                self.allow(a + 1, level)
            self.define(a + 1, b, level)
        if into + 1 < end:
            self.allow(into + 1, level)
            if end == self.end or self.is_wide(start, end):
                self.breaks[into + 1] = FORCED
            self.weigh(into + 1, end, level)

    def weigh_chain(self, cuts: list[int], rank: int, level: int, top: bool) -> None:
        """Weighs breaks between operands. Before what binders begin, only an operand may break."""
        wide = rank < CHAINS and (top and rank == 0 or self.is_wide(cuts[0], cuts[-1]))
        for place, (a, b) in enumerate(zip(cuts, cuts[1:])):
            begin = a if place == 0 else a + 1
            self.weigh(begin, b, level + 1)
            if place == 0:
                continue
            self.allow(a, level, rank // 4)
            before = cuts[place - 1] + (place > 1)
            if wide and not (self.is_binders(before, a) and (place > 1 or not top)):
                self.breaks[a] = FORCED

    def is_binders(self, start: int, end: int) -> bool:
        """Tells whether a range is binders alone."""
        k = start
        while k in self.part.pairs and k < end:
            inner = self.part.tops(k + 1, self.part.pairs[k])
            if not any(self.part.word(n) == ":" for n in inner):
                return False
            k = self.part.pairs[k] + 1
        return k == end

    def weigh_call(self, start: int, stop: int, end: int, level: int) -> None:
        """Weighs breaks before arguments, the last of which may be a `λ` or a `let`."""
        k, count = start, 0
        while k < stop:
            glued = not self.part.tokens[k].space or self.part.word(k) in ("[", "as", "in", "where")
            glued = glued or self.part.word(k - 1) in ("elim", "record", "as", "¬")
            glued = glued or count == 1 and self.part.blocks.get(k) == "tuple"
            if k > start and not glued and self.part.blocks.get(k) != "record":
                simple = 0 if k in self.part.pairs else 2
                self.allow(k, level, simple + (8 if count == 1 else 0))
            if k in self.part.pairs:
                self.part.level[k] = level
                if k not in self.part.blocks:
                    self.define(k + 1, self.part.pairs[k], level + 1)
                k = self.part.pairs[k]
            k, count = k + 1, count + 1
        if start < stop < end:
            self.allow(stop, level, 2)
        if stop < end:
            self.weigh(stop, end, level)


def over(line: str) -> int:
    """Returns what is against a line that is too wide."""
    return 1000 + 10 * (len(line) - COLUMNS) if len(line) > COLUMNS else 0

"""Finds the places in the crates' code at which one small edit can be made.

Code is what stands in the bodies of functions and in the values of constants. Tests, contracts, ghost lines,
attributes, comments, type declarations and `use` lines are no code.
"""

import os
import re
from dataclasses import dataclass

COMPARISON, CONSTANT, OPERATOR, STATEMENT, BRANCH, ARGUMENT = KINDS = (
    "comparison", "constant", "operator", "dropped statement", "swapped branch", "swapped argument")

TOKEN = re.compile(r"""
    (?P<comment> //[^\n]* | /\*.*?\*/ )
  | (?P<string> b?"(?:\\.|[^"\\])*" )
  | (?P<char> b?'(?:\\.|[^'\\])' )
  | (?P<lifetime> '[A-Za-z_]\w* )
  | (?P<number> (?:0x[0-9A-Fa-f_]+|\d[\d_]*)(?:[iu](?:8|16|32|64|128|size))? )
  | (?P<name> [^\W\d]\w* )
  | (?P<operator> \.\.=|\.\.|::|->|=>|==|!=|<=|>=|&&|\|\||\+=|-=|\*=|/=|%=|[-+*/%<>=!&|?.;,:\#\[\](){}] )
  | (?P<other> \S )
""", re.X | re.S)

COMPARISONS = {"<": "<=", "<=": "<", ">": ">=", ">=": ">", "==": "!=", "!=": "=="}
OPERATORS = {"+": "-", "-": "+", "*": "+", "/": "*", "%": "/", "+=": "-=", "-=": "+=", "&&": "||", "||": "&&"}
CLOSERS = {"(": ")", "[": "]", "{": "}"}
NOT_DROPPED = {"let", "if", "match", "for", "while", "loop", "else", "unsafe", "use", "const", "fn"}
NO_CALL = {"if", "match", "in", "for", "let", "return", "else"}
ARM = re.compile(r"[ ]*(\S.*?) => (\S.*),")


@dataclass(frozen=True)
class Token:
    kind: str
    text: str
    at: int
    end: int


@dataclass(frozen=True)
class Place:
    """An edit: in the file, `old` at the place `at` becomes `new`."""
    crate: str
    file: str
    owner: str
    line: int
    kind: str
    at: int
    old: str
    new: str
    was: str
    then: str

    def path(self):
        return f"crates/{self.crate}/src/{self.file}"


def tokens_of(text):
    found = [Token(m.lastgroup, m.group(), m.start(), m.end()) for m in TOKEN.finditer(text)]
    return [token for token in found if token.kind != "comment"]


def match(tokens, i):
    """Where the bracket at i closes."""
    depth = 0
    for j in range(i, len(tokens)):
        if tokens[j].text in CLOSERS:
            depth += 1
        elif tokens[j].text in CLOSERS.values():
            depth -= 1
            if depth == 0:
                return j
    raise ValueError(f"a bracket at {tokens[i].at} does not close")


def ahead(tokens, i, stops):
    """The first of the texts `stops` from i on that stands in no bracket opened since; the end if there is none."""
    while i < len(tokens) and tokens[i].text not in stops:
        i = match(tokens, i) + 1 if tokens[i].text in CLOSERS else i + 1
    return i


def after_clause(tokens, i):
    """Behind the clause `requires name { .. }` or `ensures name { .. }` at i."""
    i += 2 if tokens[i + 1].kind == "name" else 1
    return match(tokens, i) + 1


def body_of(tokens, i):
    """Where the body of the function at i opens, or None; and where what belongs to the function ends."""
    while tokens[i].text != ";":
        if tokens[i].text in ("requires", "ensures"):
            i = after_clause(tokens, i)
        elif tokens[i].text == "{" and tokens[i - 1].text not in (",", "<"):
            return i, match(tokens, i)
        else:
            i = match(tokens, i) + 1 if tokens[i].text in CLOSERS else i + 1
    return None, i


def types_in(tokens):
    """The types of the parameters that a function's head names."""
    words = " ".join(token.text for token in tokens)
    return dict(re.findall(r"[(,] (?:mut )?([a-z]\w*) : ([^,)]+)", words))


def regions(tokens):
    """What is code: the name of each function or constant, its parameters' types, and the tokens of its body or value."""
    i = 0
    while i < len(tokens):
        word = tokens[i].text
        if word == "#":
            i = match(tokens, ahead(tokens, i, "[")) + 1
        elif word in ("use", "mod", "type", "ghost"):
            i = ahead(tokens, i, ";") + 1
        elif word in ("struct", "enum", "trait"):
            i = ahead(tokens, i, "{;")
            i = (match(tokens, i) if tokens[i].text == "{" else i) + 1
        elif word == "impl":
            while tokens[i].text != "{" or tokens[i - 1].text in (",", "<"):
                i = match(tokens, i) + 1 if tokens[i].text in CLOSERS and i else i + 1
            i += 1
        elif word == "const" and tokens[i + 1].text != "fn":
            first = ahead(tokens, i, "=;")
            last = ahead(tokens, first, ";")
            yield tokens[i + 1].text, {}, code_of(tokens[first + 1:last])
            i = last + 1
        elif word == "fn":
            opens, last = body_of(tokens, i)
            if opens is not None:
                yield tokens[i + 1].text, types_in(tokens[i:opens]), code_of(tokens[opens + 1:last])
            i = last + 1
        else:
            i += 1


def code_of(tokens):
    """The tokens without attributes, contracts of closures, and what costs nothing when it runs."""
    kept, i = [], 0
    while i < len(tokens):
        word = tokens[i].text
        if word == "#":
            i = match(tokens, i + 1) + 1
        elif word in ("ghost", "use"):
            i = ahead(tokens, i, ";") + 1
        elif word == "prove" and tokens[i + 1].text == "!":
            i = match(tokens, i + 2) + 1
        elif word in ("requires", "ensures") and (tokens[i + 1].text == "{" or tokens[i + 2].text == "{"):
            i = after_clause(tokens, i)
        else:
            kept.append(tokens[i])
            i += 1
    return kept


def spaced(text, token):
    return text[token.at - 1] in " \n" and text[token.end] in " \n"


def comparisons(text, code, _types):
    for token in code:
        if token.text in COMPARISONS and spaced(text, token):
            yield token.at, token.text, COMPARISONS[token.text]
        elif token.text == "..=":
            yield token.at, "..=", ".."
        elif token.text == ".." and text[token.at - 1] not in " \n{(" and text[token.end] not in " ])}":
            yield token.at, "..", "..="


def next_number(word, by):
    """The number literal with `by` added, written as it is written."""
    digits, suffix = re.fullmatch(r"(0x[0-9A-Fa-f_]+|[\d_]+)(.*)", word).groups()
    if digits.startswith("0x"):
        return f"0x{int(digits, 16) + by:{'_' if '_' in digits else ''}X}{suffix}"
    return f"{int(digits) + by:{'_' if '_' in digits else ''}}{suffix}"


def constants(text, code, _types):
    before = ""
    for token in code:
        if token.kind == "number" and before != ".":
            yield token.at, token.text, next_number(token.text, 1)
            if int(re.match(r"0x[0-9A-Fa-f]+|\d+", token.text.replace("_", "")).group(), 0) > 0:
                yield token.at, token.text, next_number(token.text, -1)
        before = token.text


def operators(text, code, _types):
    for i, token in enumerate(code):
        if token.text in OPERATORS and spaced(text, token):
            yield token.at, token.text, OPERATORS[token.text]
        elif token.text == "!" and text[token.at - 1] in " (" and text[token.end] != " ":
            yield token.at, "!", ""
        elif token.text in ("min", "max") and code[i - 1].text == "." and code[i + 1].text == "(":
            yield token.at, token.text, {"min": "max", "max": "min"}[token.text]


def first_words(code):
    """Where something can begin that is a statement: in a block, at its start or behind another."""
    open_ones, before = [], ";"
    for i, token in enumerate(code):
        is_word = token.kind == "name" or token.text == "*"
        if is_word and before in ("{", "}", ";") and open_ones[-1:] in ([], ["{"]):
            yield i
        if token.text in CLOSERS:
            open_ones.append(token.text)
        elif token.text in CLOSERS.values():
            open_ones.pop()
        before = token.text


def statements(text, code, _types):
    for i in first_words(code):
        is_unnamed = [it.text for it in code[i:i + 3]] == ["let", "_", "="]
        if code[i].text in NOT_DROPPED and not is_unnamed:
            continue
        last = i
        while last < len(code) and code[last].text not in (";", ")", "]", "}"):
            last = (match(code, last) if code[last].text in CLOSERS else last) + 1
        if last < len(code) and code[last].text == ";":
            yield code[i].at, text[code[i].at:code[last].end], ""


def exchanged(text, first, second):
    """The edit by which two stretches of the text change places."""
    (a, b), (c, d) = first, second
    return a, text[a:d], text[c:d] + text[b:c] + text[a:b]


def branches(text, code, _types):
    for i, token in enumerate(code):
        if token.text != "if":
            continue
        opens = ahead(code, i, ("{", "=>"))
        if opens == len(code) or code[opens].text != "{":
            continue
        closes = match(code, opens)
        if [it.text for it in code[closes + 1:closes + 3]] == ["else", "{"]:
            other = match(code, closes + 2)
            yield exchanged(text, (code[opens].at, code[closes].end), (code[closes + 2].at, code[other].end))
    yield from arms(text, code)


def is_whole(words):
    """Whether no bracket opens in the words without closing there, or closes without having opened."""
    open_ones = []
    for token in tokens_of(words):
        if token.text in CLOSERS:
            open_ones.append(CLOSERS[token.text])
        elif token.text in CLOSERS.values() and (not open_ones or open_ones.pop() != token.text):
            return False
    return not open_ones


def lacking(arm, other):
    """The names that the right-hand side of the arm takes from its pattern, and that the other arm's pattern does not have."""
    pattern, side, elsewhere = ({it.text for it in tokens_of(words) if it.kind == "name" and it.text[0].islower()} for words in (arm[1], arm[2], other[1]))
    return pattern & side - elsewhere


def arms(text, code):
    """The right-hand sides of two match arms of one line each, one arm below the other."""
    starts = [text.rfind("\n", 0, token.at) + 1 for token in code if token.text == "=>"]
    found = {}
    for start in starts:
        arm = ARM.fullmatch(text, start, text.find("\n", start))
        if arm and is_whole(arm[1]) and is_whole(arm[2]):
            found[start] = arm
    for arm in found.values():
        below = found.get(arm.end() + 1)
        if below and below[2] != arm[2] and not lacking(arm, below) and not lacking(below, arm):
            yield exchanged(text, arm.span(2), below.span(2))


def look(words, types):
    """What an argument looks like: two of the same look may be of one type."""
    if words in types:
        return types[words]
    if re.fullmatch(r"[\d_]+|0x[0-9A-Fa-f_]+", words):
        return "number"
    if re.fullmatch(r"(?:[A-Z]\w*::)*[A-Z]\w*", words):
        return "constant"
    path = re.fullmatch(r"([&*]?(?:mut )?)[a-z_]\w*(?:\.\w+)*(\.into\(\))?", words)
    return path.groups() if path and words not in ("self", "alloc", "rt") else None


def parts(text, code, opens):
    """Where the parts between commas of the bracket at `opens` stand."""
    closes, start, found = match(code, opens), opens + 1, []
    while start < closes:
        comma = min(ahead(code, start, ","), closes)
        found.append((code[start].at, code[comma - 1].end))
        start = comma + 1
    return found


def arguments(text, code, types):
    for i, token in enumerate(code):
        is_call = token.text == "(" and i and code[i - 1].kind == "name" and code[i - 1].text not in NO_CALL
        if not is_call and not (token.text == "[" and text[token.at - 1] in " (\n&"):
            continue
        found = parts(text, code, i)
        for one, other in zip(found, found[1:]):
            a, b = text[slice(*one)], text[slice(*other)]
            if a != b and look(a, types) and look(a, types) == look(b, types):
                yield exchanged(text, one, other)


FINDERS = {COMPARISON: comparisons, CONSTANT: constants, OPERATOR: operators, STATEMENT: statements, BRANCH: branches, ARGUMENT: arguments}


def squeezed(words):
    """The words in one line, without comments, and of a long string only its beginning."""
    words = re.sub(r"//[^\n]*", "", words)
    return re.sub(r'"([^"]{14})[^"]{6,}"', r'"\1…"', " ".join(words.split()))


def shown(text, at, old, new):
    """The edit in a few words: what stands there, and what stands there after it."""
    first = text.rfind("\n", 0, at) + 1
    last = text.find("\n", at + len(old))
    before, after = text[first:at].lstrip(), text[at + len(old):last]
    room = max(28, 40 - len(squeezed(old)))
    before = before if len(before) <= room else "…" + before[3 - room:]
    after = after if len(after) <= room else after[:room - 3] + "…"
    was, then = squeezed(before + old + after), squeezed(before + new + after)
    return was, then if new else "(nothing)" if not (before + after).strip() else then


def places_in(crate, file, text):
    for owner, types, code in regions(tokens_of(text)):
        for kind in KINDS:
            for at, old, new in FINDERS[kind](text, code, types):
                line = text.count("\n", 0, at) + 1
                yield Place(crate, file, owner, line, kind, at, old, new, *shown(text, at, old, new))


def lines_of_code(text):
    """How many lines have code on them."""
    return len({text.count("\n", 0, token.at) for _, _, code in regions(tokens_of(text)) for token in code})


def sources(root, crate):
    folder = f"{root}/crates/{crate}/src"
    for name in sorted(os.listdir(folder)):
        if name.endswith(".rt") and name != "tests.rt":
            with open(f"{folder}/{name}", encoding="utf-8") as file:
                yield name, file.read()


def places_of(root, crate):
    """All places of a crate, and how many lines of code it has."""
    found, lines = [], 0
    for name, text in sources(root, crate):
        found += places_in(crate, name, text)
        lines += lines_of_code(text)
    return found, lines

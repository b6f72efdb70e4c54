"""The rules by which errors are made: a number one off, a comparison turned, an argument swapped with its neighbour, a
statement left out, a text of another case, a default changed, a return too early."""
import re
from typing import NamedTuple

from mutating.tokens import closing, parts, spaced, tokens_of

TURNED = {
    "<": "<=", "<=": "<", ">": ">=", ">=": ">", "==": "!=", "!=": "==", "&&": "||", "||": "&&",
}
# Words before a bracket that is not one of arguments.
NOT_CALLED = "if while for match in return let else mut ref move as fn impl dyn where loop switch sizeof".split()
OF_OWN_TYPE = re.compile(r"f|alloc|self\.alloc|rt|self\.rt|rt\.alloc\(\)|self\.rt\.alloc\(\)|matches|args")
# What a function can return too early, by the beginning of the type of its result.
VALUES = {
    r"\(\)": ["()"], r"bool\b": ["false", "true"], r"[iu](?:8|16|32|64|128|size)\b": ["0"], "Option<": ["None"],
    r"&('\w+ )?str\b": ['""'],
}
FORMAT = re.compile(OF_OWN_TYPE.pattern + r'|"(?:\\.|[^"\\])*"', re.S)
# What stays as it is in a text: escapes, and what a value replaces.
FIXED = re.compile(r'\\(?:x..|u\{.*?\}|.)|\{\{|\}\}|\{[^}]*\}|\bb(?=")', re.S)
BLOCKS = ("if", "for", "while", "loop", "match", "unsafe", "switch", "do")


class Error(NamedTuple):
    """An error: a part of a file and the text that replaces it. `before` and `after` are the lines that contain it."""

    path: str
    rule: str
    start: int
    end: int
    new: str
    line: int
    before: str
    after: str

    def planted_in(self, text):
        return text[:self.start] + self.new + text[self.end:]

    def __str__(self):
        return "%s:%d: %s: %s -> %s" % (self.path, self.line, self.rule, *differing(self.before, self.after))


def differing(before, after, most=100):
    """Both texts, without what is far from the difference."""
    if len(before) <= most and len(after) <= most:
        return before or "nothing", after or "nothing"
    same = next((at for at, pair in enumerate(zip(before, after)) if pair[0] != pair[1]), min(len(before), len(after)))
    start = max(0, same - most // 3)
    return tuple(
        ".. " * (start > 0) + it[start:start + most] + " .." * (start + most < len(it)) for it in (before, after)
    )


class Rules:
    """Makes the errors of a part of a file. `random` chooses among the letters of a text."""

    def __init__(self, path, text, random):
        self.path, self.text, self.random, self.found = path, text, random, []

    def add(self, rule, start, end, new):
        text, old = self.text, self.text[start:end]
        first, last = text.rfind("\n", 0, start) + 1, text.find("\n", end)
        before, after = (" ".join(it.split()) for it in (text[first:last], text[first:start] + new + text[end:last]))
        if new != old:
            self.found.append(Error(self.path, rule, start, end, new, text.count("\n", 0, start) + 1, before, after))

    def numbers(self, tokens):
        for before, token in zip([None, *tokens], tokens):
            if token.kind != "number" or before and before.text == "." and before.end == token.start:
                continue
            is_pattern = self.text[token.end:token.end + 4] in (" => ", " | 0")
            for changed in off_by_one(token.text):
                if is_pattern and re.search(r"\b%s (=>|\|) " % changed, self.text):
                    continue
                self.add("a number one off", token.start, token.end, changed)

    def comparisons(self, tokens):
        for before, token in zip([None, *tokens], tokens):
            if token.kind == "mark" and token.text in TURNED and spaced(self.text, token):
                self.add("a comparison turned", token.start, token.end, TURNED[token.text])
            elif token.text == "!" and not (before and before.kind == "word" and before.end == token.start):
                self.add("a comparison turned", token.start, token.end, "")

    def arguments(self, tokens):
        for at in range(1, len(tokens)):
            before = tokens[at - 1]
            is_name = before.kind == "word" and before.text not in NOT_CALLED or before.text in ("!", ">")
            is_definition = tokens[max(0, at - 2)].text == "fn"
            if tokens[at].text != "(" or not is_name or is_definition or before.end != tokens[at].start:
                continue
            given = parts(parts(tokens[at + 1:closing(tokens, at)], ";")[-1], ",")
            given = [(it[0].start, it[-1].end) for it in given if it]
            for (start, middle), (second, end) in zip(given, given[1:]):
                # What has a type of its own can't be swapped, nor can the format of a macro.
                of_own_type = FORMAT if before.text == "!" else OF_OWN_TYPE
                if any(of_own_type.fullmatch(self.text, *it) for it in ((start, middle), (second, end))):
                    continue
                swapped = self.text[second:end] + self.text[middle:second] + self.text[start:middle]
                self.add("an argument swapped with its neighbour", start, end, swapped)

    def texts(self, tokens):
        for token in tokens:
            if token.kind == "text":
                self.text_at(token)

    def text_at(self, token):
        """A letter of another case, and each number one more."""
        fixed = [it.span() for it in FIXED.finditer(token.text)]
        free = [at for at in range(len(token.text)) if not any(start <= at < end for start, end in fixed)]
        letters = [at for at in free if token.text[at].isalpha() and token.text[at].isascii()]
        if letters:
            at = token.start + self.random.choice(letters)
            self.add("a text of another case", at, at + 1, self.text[at].swapcase())
        for number in re.finditer(r"(?<![\w.])[0-9]+(?![\w])", token.text):
            if number.start() in free:
                start, end = token.start + number.start(), token.start + number.end()
                self.add("a default changed", start, end, "%0*d" % (len(number[0]), int(number[0]) + 1))

    def defaults(self, tokens):
        for token in tokens:
            if token.text in ("true", "false"):
                self.add("a default changed", token.start, token.end, "false" if token.text == "true" else "true")

    def statements(self, tokens, returned):
        """A statement left out, and a return before each statement."""
        for block in [tokens, *blocks(tokens)]:
            for statement, is_last in statements_of(block):
                start, end, first = statement[0].start, statement[-1].end, statement[0].text
                for value in returned:
                    early = ("return %s; " % value).replace(" ;", ";")
                    if not self.text.startswith(early.strip(), start):
                        self.add("a return too early", start, start, early)
                if self.can_be_left_out(statement, is_last):
                    self.add("a statement left out", start, end, "\n" * self.text.count("\n", start, end))

    def can_be_left_out(self, statement, is_last):
        first, last = statement[0].text, statement[-1].text
        if first in ("use", "const", "fn", "static", "ghost", "case", "default"):
            return False
        if first == "let":
            return statement[1].text == "_"
        return last == ";" or not is_last or first in ("if", "for", "while")


def off_by_one(text):
    """The numbers next to a literal, in its form."""
    found = re.fullmatch(r"(0x|0o|0b)?([0-9a-fA-F_]+?)((?:[iu](?:8|16|32|64|128|size))|[uUlL]*)", text)
    if not found:
        return
    base = {"0x": 16, "0o": 8, "0b": 2}.get(found[1], 10)
    try:
        number, digits = int(found[2].replace("_", ""), base), len(found[2])
    except ValueError:
        return
    for changed in (number + 1, number - 1):
        if changed >= 0:
            form = {16: "0x%0*x", 8: "0o%0*o", 10: "%0*d"}.get(base, "%0*d")
            yield form % (1 if base == 10 else digits, changed) + found[3] if base != 2 else bin(changed)


def blocks(tokens):
    """The tokens of each block of statements inside a body."""
    for at, token in enumerate(tokens):
        if token.text == "{" and token.kind == "mark":
            inner = tokens[at + 1:closing(tokens, at)]
            is_code = len(parts(inner, ";")) > 1 or at and tokens[at - 1].text in ("=>", "else")
            if inner and is_code:
                yield inner


def statements_of(block):
    """The statements of a block, each with whether it is the last."""
    found, at = [], 0
    while at < len(block):
        end = at
        is_block = block[at].text in BLOCKS
        while end < len(block):
            if block[end].text in ("(", "[", "{") and block[end].kind == "mark":
                is_brace = block[end].text == "{"
                end = closing(block, end)
                after = block[end + 1].text if end + 1 < len(block) else ""
                if is_brace and is_block and after not in ("else", ".", "?", "{", "while"):
                    break
            elif block[end].text == ";":
                break
            end += 1
        found.append(block[at:end + 1])
        at = end + 1
    return [(it, it is found[-1]) for it in found]


def returned_by(result):
    """Values that a function of this result can return too early."""
    inner = re.match(r"(?:io::|fmt::)?Result(?:<(.*))?", result)
    if result == "":
        return [""]
    if inner:
        return ["Ok(%s)" % it for it in returned_by(inner[1] or "()")]
    for form, values in VALUES.items():
        if re.match(form, result):
            return values
    return []


def errors_in(path, text, start, end, returned, random):
    """The errors of a body."""
    rules, tokens = Rules(path, text, random), tokens_of(text, start, end)
    rules.numbers(tokens)
    rules.comparisons(tokens)
    rules.arguments(tokens)
    rules.texts(tokens)
    rules.defaults(tokens)
    rules.statements(tokens, returned)
    return rules.found


def errors_in_value(path, text, start, end, random):
    """The errors of the value of a constant, or of a text."""
    rules, tokens = Rules(path, text, random), tokens_of(text, start, end)
    rules.numbers(tokens)
    rules.texts(tokens)
    rules.defaults(tokens)
    return rules.found

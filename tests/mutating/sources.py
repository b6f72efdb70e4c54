"""What no clause tells: the functions, constants and texts of the product's crates in which an error can be planted.

A function is told if a clause `ensures` says something of its result or of what it changes, or if the trait that it
implements is of this repository and says so. A constant is told if a told function names it.
"""
import re
from functools import cached_property
from pathlib import Path

from mutating.tokens import closing, tokens_of

TOP = Path(__file__).resolve().parent.parent.parent
# The program. The crates that it depends on are the product, too. (The crate enip_c can't be built unproved.)
PRODUCTS = ("enip_cmd",)


def listed_crates(top=TOP):
    """The crates of crates.txt in their order, each with the libraries that it depends on, lowest first."""
    found = {}
    for line in (top / "crates.txt").read_text().splitlines():
        name, colon, libraries = line.partition(":")
        if not colon or line.startswith("#"):
            continue
        below = (it for library in libraries.split() for it in (*found.get(library, ()), library))
        found[name.split()[0]] = list(dict.fromkeys(below))
    return found


def libraries_of(crate, top=TOP):
    """The libraries that a crate depends on."""
    return listed_crates(top)[crate]


def product_crates(top=TOP):
    """The crates of the product, in the order of crates.txt."""
    listed = listed_crates(top)
    wanted = {it for name in PRODUCTS for it in (name, *listed[name])}
    return [name for name in listed if name in wanted]


class Function:
    """A function: where its body is in its file, its clauses, and the type of its result."""

    def __init__(self, source, name, owner, start):
        self.source, self.name, self.owner, self.start = source, name, owner, start
        self.clauses, self.result, self.body = [], "", None
        self.is_const = self.is_test = False

    @property
    def is_told(self):
        own = any("result" in it or ".new" in it or it.startswith("ensures*") for it in self.clauses)
        return own or (self.owner.partition(" for ")[0].split("<")[0].split("::")[-1], self.name) in self.source.told

    def contains(self, offset):
        return self.body is not None and self.body[0] <= offset < self.body[1]


class Source:
    """A source file of a crate."""

    def __init__(self, crate, path, told):
        self.crate, self.path, self.told = crate, path, told
        self.text = (TOP / path).read_text()

    @cached_property
    def tokens(self):
        return tokens_of(self.text)

    @cached_property
    def functions(self):
        """The functions that are not inside another one, in order."""
        found, owners, at, depth = [], [], 0, 0
        while at < len(self.tokens):
            token = self.tokens[at]
            if token.kind == "word" and token.text in ("impl", "trait", "macro_rules", "macro"):
                head = next(it for it in range(at, len(self.tokens)) if self.tokens[it].text in "{;")
                owners.append((closing(self.tokens, head), self.text[token.start:self.tokens[head].start].strip()))
                at = head
            elif token.text == "fn" and self.tokens[at + 1].kind == "word":
                owner = next((it for end, it in reversed(owners) if end > at), "")
                function, at = self.function_at(at, re.sub(r"^(impl|trait)(<[^>]*>)? *", "", owner))
                if function.body and not owner.startswith("macro") and not function.is_test:
                    found.append(function)
            at += 1
        return found

    def function_at(self, at, owner):
        """The function whose `fn` is at an index, and the index of its last token."""
        tokens, function = self.tokens, Function(self, self.tokens[at + 1].text, owner, self.tokens[at].start)
        before = [it.text for it in tokens[max(0, at - 8):at]]
        function.is_const = "const" in before[-3:]
        function.is_test = "test" in before and "#" in before
        while tokens[at].text != "(":
            at += 1
        at = closing(tokens, at) + 1
        begin = at
        result = None
        while tokens[at].text not in ("{", ";"):
            if tokens[at].text in ("requires", "ensures"):
                result, first = result or at, at
                while tokens[at].text != "{":
                    at += 1
                at = closing(tokens, at)
                if tokens[first].text == "ensures":
                    function.clauses.append(self.text[tokens[first].start:tokens[at].end])
            at += 1
        result = self.text[tokens[begin].start:tokens[result or at].start]
        function.result = " ".join(result.partition("where")[0].removeprefix("->").split())
        if tokens[at].text == "{":
            end = closing(tokens, at)
            function.body = (tokens[at].end, tokens[end].start)
            at = end
        return function, at

    @cached_property
    def constants(self):
        """The constants and statics outside of functions: name, the offsets of the item, and of the value."""
        found = []
        heads = re.finditer(r"^(?:pub(?:\(\w+\))? )?(const|static) \w+:", self.text, re.M)
        starts = {it.start(1) for it in heads}
        for at, token in enumerate(self.tokens):
            if token.start not in starts:
                continue
            equals = next(it for it in range(at, len(self.tokens)) if self.tokens[it].text == "=")
            end = equals
            while self.tokens[end].text != ";":
                end = closing(self.tokens, end) + 1 if self.tokens[end].text in "([{" else end + 1
            value = (self.tokens[equals + 1].start, self.tokens[end].start)
            found.append((self.tokens[at + 1].text, token.start, self.tokens[end].end, value))
        return found

    @cached_property
    def shown_texts(self):
        """The texts of the attributes `#[error(..)]`, which a derive turns into what is printed."""
        starts = {it.end() for it in re.finditer(r'#\[error\((?=")', self.text)}
        return [it for it in self.tokens if it.start in starts]


class Sources:
    """The source files of the product's crates."""

    def __init__(self):
        told = set()
        self.files = [
            Source(crate, str(path.relative_to(TOP)), told)
            for crate in product_crates() for path in sorted((TOP / "crates" / crate / "src").rglob("*.rt"))
        ]
        for source in self.files:
            for trait in re.finditer(r"^(?:pub )?trait (\w+)[^{]*\{\n(.*?)^\}", source.text, re.M | re.S):
                for method in re.finditer(r"\bfn (\w+)(?:(?!\bfn\b).)*?\bensures\b", trait[2], re.S):
                    told.add((trait[1], method[1]))

    @cached_property
    def mentions(self):
        """Where each constant is named: the source, and the token."""
        names, found = {name for source in self.files for name, *_ in source.constants}, {}
        for source in self.files:
            for token in source.tokens:
                if token.kind == "word" and token.text in names:
                    found.setdefault(token.text, []).append((source, token))
        return found

    def reach(self, source, constant):
        """A constant and those that are made of it, each with its source, and the functions that name one of them.
        None in place of these if something else does, or another crate."""
        constants, functions = [(source, constant)], []
        for here, (name, *_) in constants:
            for other, token in self.mentions.get(name, []):
                if other.crate != source.crate:
                    if re.search(r"\b%s::" % source.crate, other.text):
                        return None, functions
                    continue
                function = next((it for it in other.functions if it.contains(token.start)), None)
                user = next((it for it in other.constants if it[1] <= token.start < it[2]), None)
                if function and function not in functions:
                    functions.append(function)
                elif user and (other, user) not in constants:
                    constants.append((other, user))
                elif not function and not user and not is_import(other.text, token.start):
                    return None, functions
        return constants, functions


def is_import(text, at):
    """Whether a mention is in an import."""
    item = re.split(r"[;}]\s*\n", text[:at])[-1]
    return re.search(r"^\s*(?:pub(?:\(\w+\))? )?(?:ghost )?use ", item, re.M) is not None

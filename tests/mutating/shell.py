"""Errors in the scripts, by the same rules."""
import re
import subprocess

from mutating.rules import Rules
from mutating.sources import TOP
from mutating.tokens import Token

SCRIPTS = ("enip", "enip-prove", "prove", "install-library", "package", "check")
TURNED = {
    "=": "!=", "!=": "=", "==": "!=", "-z": "-n", "-n": "-z", "-eq": "-ne", "-ne": "-eq", "-lt": "-le", "-le": "-lt",
    "-gt": "-ge", "-ge": "-gt", "&&": "||", "||": "&&", "-e": "! -e", "-x": "! -x", "-f": "! -f", "-d": "! -d", "!": "",
}
TESTS = ("[", "[[", "if", "while", "until", "&&", "||", "!", "elif")
KEYWORDS = ("in", "]", "]]", "=~", "return", "exit", "local", "then")
# Lines that are no command of their own.
NO_COMMAND = re.compile(
    r"(if|then|else|elif|fi|for|while|until|do|done|case|esac|\{|\}|\)|\(|set|local|;;|#|[^ ]+\)|[\w-]+\(\))( |$)"
)
WORD = re.compile(
    r"""(?:\\.|"(?:\\.|[^"\\])*"|'[^']*'|\$\([^()]*(?:\([^()]*\)[^()]*)*\)|\$\{[^}]*\}|[^\s"'\\;|&<>()])+"""
)


def lines_of(text):
    """The lines of a script with their offsets, without comments, documents and empty lines."""
    at, document = 0, None
    for line in text.split("\n"):
        if document:
            document = None if line.strip() == document else document
        else:
            found = re.search(r"<<-?\s*'?(\w+)'?", line)
            if line.strip() and not line.lstrip().startswith("#"):
                yield at, line
            document = found[1] if found and "<<<" not in line else None
        at += len(line) + 1


def is_command(line, before):
    """Whether a line is one whole command."""
    text = line.strip()
    begins = not before.rstrip().endswith(("\\", "|", "&&", "||", "(", "=("))
    ends = not text.endswith(("\\", "|", "&&", "||", "{", "(", "then", "do", "$("))
    quotes = len(re.findall(r'(?<!\\)"', re.sub(r"'[^']*'", "", text))) % 2 == 0 and text.count("'") % 2 == 0
    balanced = text.count("(") == text.count(")") and text.count("{") == text.count("}")
    return begins and ends and quotes and balanced and not NO_COMMAND.match(text)


def errors_of_scripts(random):
    found = []
    for path in SCRIPTS:
        text = (TOP / path).read_text()
        rules, before, depth = Rules(path, text, random), "", ""
        for at, line in lines_of(text):
            words(rules, at, line)
            if is_command(line, before):
                start, end = at + len(line) - len(line.lstrip()), at + len(line)
                rules.add("a statement left out", start, end, ":")
                rules.add("a return too early", start, start, "return 0; " if depth else "exit 0; ")
            if re.match(r"[\w-]+\(\) \{", line):
                depth = "function"
            elif line == "}":
                depth = ""
            before = line
        found += rules.found
    return found


def words(rules, at, line):
    """The errors of the words of a line."""
    code = re.sub(r"(^|\s)#.*", lambda it: " " * len(it[0]), line)
    found = [(it.start(), it.end(), it[0]) for it in WORD.finditer(code)]
    for start, end, word in found:
        if word[0] in "\"'" and len(word) > 2:
            quoted(rules, at + start, word)
        elif re.fullmatch(r"\d+", word) and code[end:end + 1] not in ("<", ">"):
            for changed in {int(word) + 1, abs(int(word) - 1)}:
                rules.add("a number one off", at + start, at + end, str(changed))
        elif word in TURNED and any(it in code[:start].split() for it in TESTS):
            rules.add("a comparison turned", at + start, at + end, TURNED[word])
        for default in re.finditer(r"\$\{\w+:?-([^}]*)\}", word):
            value = default[1].swapcase() if re.search("[a-z]", default[1]) else default[1] + "1"
            rules.add("a default changed", at + start + default.start(1), at + start + default.end(1), value)
    for operator in re.finditer(r" (&&|\|\|) ", code):
        rules.add("a comparison turned", at + operator.start(1), at + operator.end(1), TURNED[operator[1]])
    for (start, middle, first), (second, end, last) in zip(found[1:], found[2:]):
        is_apart = code[middle:second] == " " and code[end:end + 1] not in ("<", ">")
        if is_apart and is_argument(first) and is_argument(last):
            rules.add("an argument swapped with its neighbour", at + start, at + end, last + " " + first)


def is_argument(word):
    return not word.startswith("-") and word not in (*TURNED, *TESTS, *KEYWORDS)


def quoted(rules, start, word):
    """A letter of another case in a text, and each number one more, outside of variables."""
    if " " not in word and not re.search(r"[a-z]{4}", word):
        return
    plain = re.sub(r"\$\([^)]*\)|\$\{[^}]*\}|\$\w+|\\.|\[[^]]*\]", lambda it: '"' * len(it[0]), word)
    rules.text_at(Token("text", plain, start, start + len(word)))


def can_be_read(error):
    """Whether the shell can read a script with an error."""
    text = error.planted_in((TOP / error.path).read_text())
    return subprocess.run(["bash", "-n"], input=text, text=True, capture_output=True).returncode == 0

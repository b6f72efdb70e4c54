"""What `enip serve --keep` says of a start that takes longer than a second, as one does on a busy machine."""
import re

SLOW = re.compile(rb"enip: [^\n]*: (?:made|\d+ entr(?:y|ies) read|the state written) in \d+\.\d s\n")


def is_slow(line):
    """Whether a line of standard error, text or bytes, says no more than how long a part of the start took."""
    return SLOW.fullmatch(line if isinstance(line, bytes) else line.encode()) is not None


def without_slow(output):
    """Bytes without such lines."""
    return SLOW.sub(b"", output)


def next_line(stream):
    """The next line of a stream that is none of these."""
    line = stream.readline()
    while is_slow(line):
        line = stream.readline()
    return line

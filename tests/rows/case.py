"""What a row is, and short ways to write one."""
import dataclasses


@dataclasses.dataclass(frozen=True)
class Case:
    """The words after the program's name, and what it is to answer. A stream is a pipe, a path, 'closed', or
    a pipe with 'no reader'."""

    name: str
    stdin: bytes = b""
    stdout: bytes = b""
    status: int = 0
    words: tuple = ("run",)
    source: str = "pipe"
    sink: str = "pipe"


def dialog(name, pairs, **others):
    """A row of lines, each with its answer: the text after 'N: ', and further lines of the answer after that."""
    lines, answers = [], []
    for number, (line, answer) in enumerate(pairs, 1):
        lines.append(line + "\n")
        answers.append("%d: %s\n" % (number, answer))
    return Case(name, "".join(lines).encode(), "".join(answers).encode(), **others)


def done(*lines):
    """These lines, each of which is answered 'done'."""
    return [(line, "done") for line in lines]


def listed(first, *further):
    """An answer of more than one line."""
    return "\n  ".join((first, *further))

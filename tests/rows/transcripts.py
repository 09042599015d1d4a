"""Rows from the pages: every transcript in README and docs/, and the scripts of examples/.

A transcript is an indented block that begins with '$ netd_run WORDS', or goes on with the one before it. A line of the script has '> '
before it; the lines after it are what the program answers.
"""
import pathlib
import shlex

from case import Case

ROOT = pathlib.Path(__file__).parents[2]
INDENT = "    "


def transcript_cases():
    for page in [ROOT / "README.md", *sorted((ROOT / "docs").glob("*.md"))]:
        for number, (words, script, answers) in enumerate(sessions(page.read_text()), 1):
            yield Case("%s-%d" % (page.stem, number), script.encode(), answers.encode(), words=tuple(words))
    for folder in sorted((ROOT / "examples").glob("*/")):
        yield example(folder)


def blocks(text):
    """The indented blocks of a page that are transcripts, each as its lines without the indent."""
    block = []
    for line in text.split("\n") + [""]:
        if line.startswith(INDENT):
            block.append(line[len(INDENT):])
            continue
        if block and (block[0].startswith("$ netd_run ") or block[0].startswith("> ")):
            yield block
        block = []


def sessions(text):
    """Words, script and answers of each session of a page."""
    found = []
    for block in blocks(text):
        if block[0].startswith("$ "):
            found.append((shlex.split(block.pop(0))[2:], [], []))
        for line in block:
            script, answers = found[-1][1:]
            if line.startswith("> "):
                script.append(line[2:])
            else:
                answers.append(line)
    for words, script, answers in found:
        yield words, joined(script), joined(answers)


def joined(lines):
    return "".join(line + "\n" for line in lines)


def example(folder):
    words = folder / "words"
    return Case(
        "example-" + folder.name,
        (folder / "script").read_bytes(),
        (folder / "output").read_bytes(),
        words=tuple(words.read_text().split()) if words.exists() else ("run",),
        status=int((folder / "status").read_text()) if (folder / "status").exists() else 0,
    )

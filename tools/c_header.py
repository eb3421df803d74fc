# include/lurmenize.h as it reads: its sections, and in each the comments with what they are about. What is made from the header is made from
# this: the man pages, the C programs of tests/c and the calls of the fuzzer.

import re
from collections import namedtuple
from pathlib import Path

HEADER = Path(__file__).resolve().parent.parent / "include" / "lurmenize.h"

# A section's title may go on in sentences, `words`. A block is what stands between blank lines: a comment, or none, and the code that it is about.
Section = namedtuple("Section", "title words blocks")
Block = namedtuple("Block", "comment code")
Define = namedtuple("Define", "name value comment")
Struct = namedtuple("Struct", "name fields code")
Field = namedtuple("Field", "type name count")
Function = namedtuple("Function", "name result parameters must_use inline")
Parameter = namedtuple("Parameter", "type name")

DEFINE = re.compile(r"^#define (\w+)[ ]*(.*?)[ ]*(?:/\* (.*?) \*/)?$", re.MULTILINE)
STRUCT = re.compile(r"^typedef struct (\w+) \{\n(.*?)^\} \1;$", re.MULTILINE | re.DOTALL)
FIELD = re.compile(r"^ *(\w+) (\w+)(?:\[(\w+)\])?;$", re.MULTILINE)
FUNCTION = re.compile(r"^(LURM_MUST_USE )?(static inline )?((?:const )?\w+ \*?)(lurm_\w+)\(([^)]*)\)(?:;|\n\{)", re.MULTILINE)
SECTION = re.compile(r"/\* ---- (.*?) ---- \*/")


def without_marks(comment):
    """The lines of a comment without what makes them one."""
    inside = re.sub(r"^/\*|\*/$", "", comment.strip())
    return "\n".join(re.sub(r"^ \* ?", "", line).rstrip() for line in inside.strip("\n").split("\n")).strip()


def block_of(text):
    """A comment at the head of a block is about the rest of it."""
    commented = re.match(r"/\*.*?\*/", text, re.DOTALL)
    if not commented:
        return Block("", text)
    return Block(without_marks(commented.group()), text[commented.end():].strip("\n"))


def blocks(source):
    return [part.strip("\n") for part in re.split(r"\n[ ]*\n", source) if part.strip()]


def top_comment(source):
    """What the header says before its first line of code."""
    return without_marks(source[:source.index("*/") + 2])


def sections(source):
    """The sections in the order of the header; what stands before the first belongs to none."""
    found = []
    for text in blocks(source):
        title = SECTION.fullmatch(text)
        if title:
            name, _, words = title.group(1).partition(". ")
            found.append(Section(name.rstrip("."), words, []))
        elif found:
            found[-1].blocks.append(block_of(text))
    return found


def defines(code):
    return [Define(name, value, comment or "") for name, value, comment in DEFINE.findall(code)]


def structs(code):
    return [Struct(found.group(1), [Field(*field) for field in FIELD.findall(found.group(2))], found.group()) for found in STRUCT.finditer(code)]


def parameters(text):
    """`void` is none. A star belongs to the type."""
    parts = [" ".join(part.split()) for part in text.split(",")]
    return [Parameter(*re.fullmatch(r"(.*?)(\w+)", part).groups()) for part in parts if part != "void"]


def functions(code):
    return [Function(name, result.rstrip(" "), [Parameter(kind.rstrip(" "), word) for kind, word in parameters(taken)], bool(must_use), bool(inline))
            for must_use, inline, result, name, taken in FUNCTION.findall(code)]


def everything(source, kind):
    """All that the header has of a kind: `kind` is one of the three functions above."""
    return [one for section in sections(source) for block in section.blocks for one in kind(block.code)]


def exported(source):
    """The functions that the library has; the others are written out in the header."""
    return [function for function in everything(source, functions) if not function.inline]


def version(source):
    return re.search(r'^#define LURM_VERSION_STRING "(.*)"$', source, re.MULTILINE).group(1)

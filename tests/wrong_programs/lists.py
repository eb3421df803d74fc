"""The lists of wrong programs: CRATE.txt beside this file."""
import os
import re
from collections import namedtuple

HERE = os.path.dirname(os.path.abspath(__file__))
ROOT = os.path.dirname(os.path.dirname(HERE))
# crate and name; why the contract rules it out; the edit as rt takes it; of that the file, each text that goes with the one that comes, and the lines
# that rt would not read, since a text is one line
Wrong = namedtuple("Wrong", "crate name why edit file changes unread")


def crates():
    """The crates that have a list."""
    return sorted(f[:-4] for f in os.listdir(HERE) if f.endswith(".txt"))


def wrong_programs(crate):
    """The wrong programs of a crate, in the order of its list."""
    with open(os.path.join(HERE, crate + ".txt"), encoding="utf-8") as f:
        parts = re.split(r"^== (\w+)\n", f.read(), flags=re.M)
    for name, text in zip(parts[1::2], parts[2::2]):
        reason = re.match(r"why: (.*)\n", text)
        edit = text[reason.end():] if reason else text
        file = re.match(r"file: (\S+)\n", edit)
        changes = re.findall(r"^old: (.+)\nnew:(?: (.*))?$", edit, flags=re.M)
        unread = re.sub(r"\Afile: \S+\n|^old: .+\nnew:.*$", "", edit, flags=re.M).split("\n")
        yield Wrong(crate, name, reason[1] if reason else "", edit, file[1] if file else "", changes, [line for line in unread if line.strip()])

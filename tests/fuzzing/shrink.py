# Smaller cases that still show a difference. `differs` says whether one does; it is asked only so long.

import time

TIME_LIMIT = 15  # seconds


class Patience:
    """A test that says no when the time is over, so that what was found by then stays."""

    def __init__(self, differs):
        self.differs, self.end = differs, time.monotonic() + TIME_LIMIT

    def __call__(self, case):
        return time.monotonic() < self.end and self.differs(case)


def fewer(parts, differs):
    """The sequence with as many of its parts left out as can be, by halves, quarters and so on."""
    size = len(parts) // 2
    while size:
        at = 0
        while at < len(parts):
            shorter = parts[:at] + parts[at + size:]
            if differs(shorter):
                parts = shorter
            else:
                at += size
        size //= 2
    return parts


def smaller_input(data, differs):
    """Fewer lines of a program's input, then, if what is left is short, fewer bytes."""
    differs = Patience(differs)
    lines = fewer(data.splitlines(keepends=True), lambda lines: differs(b"".join(lines)))
    data = b"".join(lines)
    return fewer(data, differs) if len(data) < 2000 else data


def zeroed(numbers, differs):
    """A struct's numbers with zeros in the place of as many as can be."""
    for at, number in enumerate(numbers):
        changed = numbers[:at] + (0,) + numbers[at + 1:]
        if number and differs(changed):
            numbers = changed
    return numbers


def smaller_argument(given, differs):
    if isinstance(given, tuple):
        return zeroed(given, differs)
    if isinstance(given, bytes):
        lines = fewer(given.splitlines(keepends=True), lambda lines: differs(b"".join(lines)))
        return fewer(b"".join(lines), differs)
    return next((number for number in (0, 1, 8, 64) if number < given and differs(number)), given)


def smaller_arguments(arguments, differs):
    """Each argument made smaller in turn."""
    differs, arguments = Patience(differs), list(arguments)
    for at in range(len(arguments)):
        arguments[at] = smaller_argument(
            arguments[at], lambda given: differs([*arguments[:at], given, *arguments[at + 1:]]))
    return arguments

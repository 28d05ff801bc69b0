"""What scripts make-rows share: a case is written into the folder that the script is given."""

import pathlib
import sys


def write_case(name, words, given, printed, status=0):
    """Writes a case: the command as one text, the input, and what is printed (None: `check` is to agree)."""
    case = pathlib.Path(sys.argv[1]) / name
    case.mkdir()
    (case / "args").write_text("".join(f"{it}\n" for it in words.split()))
    (case / "in").write_text(given)
    if printed is not None:
        (case / "out").write_text(printed)
    if status:
        (case / "status").write_text(f"{status}\n")

#!/usr/bin/env python3
"""edits_apply.py: tests that each must-fail edit of edits/ and crates/*/must-fail names a file of its crate, and that each line that it replaces is there exactly once.
It proves nothing: `make edits` tries the edits."""
import pathlib
import sys

root = pathlib.Path(__file__).resolve().parents[2]


def fault(edit, crate):
    """Returns why an edit can't be tried, or nothing if it can."""
    text = old = None
    for line in edit.read_text().splitlines():
        word, _, rest = line.partition(": ")
        if line.startswith("# "):
            # (a comment, such as which clause refuses it)
            continue
        if word == "file":
            path = root / "crates" / crate / rest
            if not path.is_file():
                return f"no file {rest}"
            text = path.read_text()
        elif word == "old":
            old = rest
            if text is None or text.count(old) != 1:
                return f"a line that doesn't stand there once: {old.strip()}"
        elif word == "new" and old is not None:
            text, old = text.replace(old, rest), None
        else:
            return f"not a line of an edit: {line}"
    return None


edits = [(edit, edit.parent.name) for edit in root.glob("edits/*/*.edit")]
edits += [(edit, edit.parent.parent.name) for edit in root.glob("crates/*/must-fail/*.edit")]
faults = [(edit, why) for edit, crate in sorted(edits) if (why := fault(edit, crate))]
for edit, why in faults:
    print(f"{edit.relative_to(root)}: {why}")
print(f"{len(edits) - len(faults)} passed, {len(faults)} failed")
sys.exit(1 if faults or not edits else 0)

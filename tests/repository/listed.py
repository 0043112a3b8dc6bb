#!/usr/bin/env python3
"""listed.py: crates.txt and the pages say what is so. Each crate names every crate that crates.txt lists for it, in specs and proofs alone exactly if its line says so (laws name
all of theirs there); the kit's crates that are listed are those that docs/PROMISES.md says are trusted; each crate, file and name of the code that a page cites is there; each rule of docs/PROFILE.md
is named by a definition, and no other."""
import pathlib
import re

ROOT = pathlib.Path(__file__).resolve().parents[2]
CRATES = ROOT / "crates"
PARTS = ("src", "specs", "proofs")
PAGES = [ROOT / "README.md", *sorted((ROOT / "docs").glob("*.md"))]
# The pages on which each name with a capital or an underscore is one of the code.
CODE_PAGES = ("ARCHITECTURE", "CHANGING", "NAMES", "PROMISES")
WHERE = {"code": "in code", "alone": "in specs and proofs alone", "nowhere": "nowhere"}


def files(folder):
    return [it for it in folder.rglob("*") if it.suffix in (".rt", ".antt") and "out" not in it.parts]


def told_crates():
    """Yields each crate of crates.txt with the crates of its line, and those that it names in specs and proofs alone."""
    for line in (ROOT / "crates.txt").read_text().splitlines():
        listed, _, note = line.partition("#")
        crate, _, below = listed.partition(":")
        if crate.strip():
            yield crate, below.split(), note.partition("in specs and proofs alone:")[2].split()


def dependencies():
    """Yields whether each crate names the crates of its line as the line says, and what is wrong if it doesn't."""
    for crate, below, alone in told_crates():
        texts = {part: "\n".join(it.read_text() for it in files(CRATES / crate / part)) for part in PARTS}
        code = re.sub(r"//.*|ghost use[^;]*;", "", texts["src"])
        for name in below:
            word = re.compile(rf"\b{name}\b")
            found = "code" if word.search(code) else "alone" if any(map(word.search, texts.values())) else "nowhere"
            wanted = "alone" if name in alone else "code"
            yield found == wanted or found == "alone" and crate.endswith("_laws"), f"{crate}: {name} is named {WHERE[found]}"


def trusted_crates():
    """Yields whether each crate of the kit stands both in crates.txt and among those that docs/PROMISES.md says are trusted."""
    own = {crate for crate, _, _ in told_crates()}
    listed = {"std", *(name for _, below, _ in told_crates() for name in below)} - own
    told = re.search(r"the statements of the ported crates (.*?);", (ROOT / "docs/PROMISES.md").read_text())
    trusted = set(re.findall(r"`(\w+)`", told[1])) if told else set()
    for name in sorted(listed | trusted):
        yield name in listed & trusted, f"docs/PROMISES.md: {name} is {'listed in crates.txt and not told' if name in listed else 'told and not listed in crates.txt'}"


def is_there(path):
    return path.exists() or path.with_suffix(".antt").exists()


def cited_files(page):
    """Yields whether each crate and file that the page cites is there. A file without its crate is one of the crate that its line named last."""
    for number, line in enumerate(page.read_text().splitlines(), 1):
        crate = None
        for token in re.findall(r"`([^`]+)`", line):
            full = re.fullmatch(r"(ll_\w+|llhls)(?:/(\S+))?(?:::.*)?", token)
            if full:
                crate = full[1]
                yield is_there(CRATES / crate / (full[2] or "")), f"{page.name}:{number}: {token}"
            elif crate and re.fullmatch(r"src/\w+\.rt|specs/\w+|\w+\.rt", token):
                yield is_there(CRATES / crate / ("" if "/" in token else "src") / token), f"{page.name}:{number}: {token} of {crate}"


def cited_names(page, words):
    """Yields whether each name of the code that a page cites is one."""
    for number, line in enumerate(page.read_text().splitlines(), 1):
        for token in re.findall(r"`(\w+(?:::\w+)?)`", line):
            for name in token.split("::"):
                if re.search("[A-Z_]", name) and len(name) > 2:
                    yield name in words, f"{page.name}:{number}: {name}"


def cited():
    words = {"HANDLES", *(it.stem for folder in (ROOT / "edits", CRATES) for it in folder.rglob("*.edit"))}
    for path in files(CRATES):
        words.update(re.findall(r"\w+", path.read_text()), path.parts, [path.stem])
    for page in PAGES:
        yield from cited_files(page)
        if page.stem in CODE_PAGES:
            yield from cited_names(page, words)


def rules():
    """Yields whether each rule of docs/PROFILE.md is named by a definition, and whether each rule that one names is there."""
    told = set(re.findall(r"^(\d+)\. ", (ROOT / "docs/PROFILE.md").read_text(), re.M))
    named = {number for crate in CRATES.iterdir() for it in files(crate / "specs") for group in re.findall(r"\(rules? ([\d, and]+)\)", it.read_text()) for number in re.findall(r"\d+", group)}
    for number in sorted(told | named, key=int):
        yield number in told & named, f"docs/PROFILE.md: rule {number} is {'named by no definition' if number in told else 'named and not there'}"


def version():
    """Yields whether `llhls version` says the version of the file VERSION, and the kit that README.md names."""
    source, definition = (ROOT / "crates/ll_command" / part for part in ("src/version.rt", "specs/Version.antt"))
    kit = re.search(r"`(rattle-kit-\w+ logic \w+)`", (ROOT / "README.md").read_text())
    wanted = f'"llhls {(ROOT / "VERSION").read_text().strip()}\\nproved with {kit[1]},' if kit else None
    for path in (source, definition):
        yield wanted is not None and wanted in path.read_text(), f"{path.name}: the version isn't that of VERSION and README.md"


passed = failed = 0
for check in (dependencies, trusted_crates, cited, rules, version):
    for is_so, wrong in check():
        passed += is_so
        failed += not is_so
        if not is_so:
            print(f"FAILED {wrong}")
print(f"{passed} passed, {failed} failed")
raise SystemExit(failed > 0)

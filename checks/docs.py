"""Checks the documents against the repository, and puts a line for each statement that doesn't hold."""

import re
import sys
from pathlib import Path

PAGES = [Path("README.md"), *sorted(Path("docs").glob("*.md")), *sorted(Path().glob("*/**/README.md"))]
SOURCES = [
    path
    for kind in ("rt", "antt", "sh", "mjs", "py")
    for path in sorted(Path().glob(f"**/*.{kind}"))
    if "out" not in path.parts
]
CRATES = {
    line.split(":")[0].split()[0]
    for line in Path("crates.txt").read_text().splitlines()
    if line.strip() and not line.startswith("#")
}
FOLDERS = {path.name for path in Path().iterdir() if path.is_dir()}
FENCE = re.compile(r"^```(\S*) ?(\S*)\n(.*?)^```$", re.M | re.S)
faults = []


def fault(page, text):
    faults.append(f"{page}: {text}")


def prose(page):
    """The page without its fenced blocks."""
    return FENCE.sub("", page.read_text())


def slug(heading):
    """The anchor of a heading: lower case, spaces as dashes, other signs left out."""
    return re.sub(r"[^\w\- ]", "", heading.lower()).replace(" ", "-")


def headings(page):
    return [line.lstrip("#").strip() for line in prose(page).splitlines() if line.startswith("#")]


def check_links(page):
    for target in re.findall(r"\]\(([^)\s]+)\)", prose(page)):
        if "://" in target:
            continue
        name, _, anchor = target.partition("#")
        file = page.parent / name if name else page
        if not file.exists():
            fault(page, f"the link {target} leads nowhere")
        elif anchor and anchor not in map(slug, headings(file)):
            fault(page, f"the link {target} leads to no heading")


def files_of(name):
    """The files that a path in a document names: from the top, or from crates/, with or without its suffix."""
    bases = [Path(name), Path("crates") / name]
    paths = [Path(f"{base}{suffix}") for base in bases for suffix in ("", ".antt", ".rt")]
    return [path for path in paths if path.exists()]


def check_names(page):
    for name in re.findall(r"`([^`\s]+)`", prose(page)):
        first = name.split("/")[0]
        if "/" in name and (first in CRATES or first in FOLDERS):
            if not re.search(r"[*<]", name) and not files_of(name):
                fault(page, f"there is no {name}")
        elif re.fullmatch(r"[\w-]+\.(rt|antt|sh|py)", name):
            if not any(path.name == name for path in SOURCES):
                fault(page, f"there is no file {name}")
        elif call := re.fullmatch(r"(\w+)::(\w+)", name):
            if call[1] in CRATES and not is_in(call[2], [Path("crates", call[1], "src")]):
                fault(page, f"{call[1]} has no {call[2]}")


def check_words(page):
    """Each word that the page on proofs quotes stands in a source."""
    known = set(re.findall(r"[\w-]+", "\n".join(path.read_text() for path in SOURCES)))
    known |= CRATES | FOLDERS | {path.name for path in SOURCES} | {part for path in SOURCES for part in path.parts}
    for word in re.findall(r"`(\w+)`", prose(page)):
        if word not in known:
            fault(page, f"no source has {word}")


def check_places(page):
    """`X` in `crate/specs/F`, or of it: F has X."""
    for name, path in re.findall(r"`(\w+)`\s(?:in|of)\s`(\w+/[\w/]+)`", prose(page)):
        places = files_of(path)
        if places and not is_in(name, places):
            fault(page, f"{name} isn't in {path}")


def is_in(word, places):
    files = [file for place in places for file in ([place] if place.is_file() else place.glob("**/*.*"))]
    return any(re.search(rf"(?<![\w-]){re.escape(word)}(?![\w-])", file.read_text()) for file in files)


def check_examples(page):
    for _, name, text in FENCE.findall(page.read_text()):
        if name and (not Path(name).exists() or text not in Path(name).read_text()):
            fault(page, f"the example from {name} isn't in that file: {text.splitlines()[0]}")


def check_definitions(page):
    """A row of a table whose second cell names files lists definitions of these files in its first."""
    for row in re.findall(r"^\| (`[^|]*) \| (`[^|]*) \|", prose(page), re.M):
        names, paths = (re.findall(r"`([^`]+)`", cell) for cell in row)
        folder = ""
        places = []
        for path in paths:
            # `a/specs/B`, `C` names C beside B
            found = files_of(path) or files_of(f"{folder}/{path}")
            folder = path.rpartition("/")[0] or folder
            places += found
        if places and all("/" in path or folder for path in paths):
            for name in names:
                if re.fullmatch(r"\w+", name) and name not in CRATES and not is_in(name, places):
                    fault(page, f"{name} isn't in {', '.join(paths)}")


def check_citations():
    """No crate cites another's proofs, but for those that the map offers."""
    page = Path("docs/ARCHITECTURE.md")
    section = re.search(r"^## What a crate offers\n(.*?)^## ", page.read_text(), re.M | re.S)
    offered = [f"Rattle.{name.replace('/', '.')}." for name in re.findall(r"`(\w+/proofs[\w/]*)`", section[1])]
    for file in SOURCES:
        for cited, crate in re.findall(r"^(?:ghost )?use ((?:Rattle)\.(\w+)\.proofs\.\S*)", file.read_text(), re.M):
            if crate in CRATES and crate != file.parts[1] and not f"{cited}.".startswith(tuple(offered)):
                fault(file, f"{cited} is the inside of {crate}: {page} doesn't offer it")


def check_headings(page):
    text = re.sub(r"\n\s*(?://[/!]?|--|#|\|)? ?", " ", page.read_text(errors="replace"))
    for name, title in re.findall(r"docs/(\w+\.md)[,:] \"([^\"]+)\"", text):
        file = Path("docs") / name
        if not file.exists():
            fault(page, f"there is no {file}")
        elif title not in headings(file):
            fault(page, f"{file} has no heading \"{title}\"")
    for name in re.findall(r"docs/(\w+\.md)", text):
        if not (Path("docs") / name).exists():
            fault(page, f"there is no docs/{name}")


for each in PAGES:
    check_links(each)
    check_names(each)
    check_places(each)
    check_examples(each)
    check_definitions(each)
for each in PAGES + SOURCES:
    if each.name != "docs.py":
        check_headings(each)
check_words(Path("docs/PROOFS.md"))
check_citations()
for crate in sorted(CRATES):
    for each in ("README.md", "docs/ARCHITECTURE.md"):
        if f"`{crate}`" not in Path(each).read_text():
            fault(each, f"{crate} isn't named")
for each in faults:
    print(each)
sys.exit(1 if faults else 0)

"""Compares what the documents say of the repository with the repository: each file that they name
is there, each name of the code stands in some source, each link leads somewhere, each line of a
caller that a crate's page shows stands in the file that the page names, and each file of settings
that a page shows is the same."""

import re
import sys
from pathlib import Path

from harness.words import given_words

ROOT = Path(__file__).resolve().parent.parent
# A file in backticks: of the repository, or of a crate, as `rs_store/src/tree.rt`.
FILE = re.compile(r"`((?:[\w.-]+/)+[\w-]+(?:\.\w+)?)`")
# A file in backticks of a crate that is named beside it, as `src/tree.rt`.
CRATE_FILE = re.compile(r"`((?:src|specs|proofs|must-fail(?:-outside)?)/[\w./-]+)`")
CRATE = re.compile(r"`(rs_\w+|rstored)[/`]")
# A name in backticks, alone or with what it is of, as `Catalogue::apply`.
NAME = re.compile(r"`([A-Za-z_]\w+(?:::\w+)*)`")
WORD = re.compile(r"\w+")
COMMENT = {".rt": re.compile("//.*"), ".antt": re.compile("--.*")}
# A file of the repository, without its folder.
ALONE = re.compile(r"`([\w-]+\.(?:rt|antt|py))`")
# Names of other programs and of std, parts of names, and bytes.
ELSEWHERE = {
    *("AF_NETLINK", "AF_UNIX", "stunnel4", "UnixListener", "bind", "put_", "A2", "B0", "E0")
}
SOURCES = (
    *(f"crates/*/{folder}/**/*" for folder in ("src", "specs", "proofs", "must-fail*", "data")),
    *("checks/*", "bench/*", "contrib/*", "harness/*", ".ci/*", "crates.txt", "HANDLES"),
)
LINK = re.compile(r"\]\(([^)#\s]+)(?:#([^)\s]*))?\)")
CODE = re.compile(r"^```rust\n(.*?)^```$", re.DOTALL | re.MULTILINE)
# A file of settings that a page shows.
SETTINGS = re.compile(r"^```ini\n(.*?)^```$", re.DOTALL | re.MULTILINE)
TITLE = re.compile(r"^#+ (.*)$", re.MULTILINE)
# Folders of the repository, by which a word with a slash is known to be a file.
FOLDERS = (
    "crates/",
    "docs/",
    "checks/",
    "bench/",
    "contrib/",
    "harness/",
    ".ci/",
    "rs_",
    "rstored/",
)
LEFT_OUT = "// .."


def documents():
    tops = sorted(ROOT.glob("*.md"))
    return tops + sorted(ROOT.glob("docs/*.md")) + sorted(ROOT.glob("crates/*/README.md"))


def named(path):
    """The file of the repository that a document names."""
    at = ROOT / path
    return at if at.exists() else ROOT / "crates" / path


def anchors(text):
    """The anchors of a page's titles, as Markdown makes them."""
    titles = (re.sub(r"[^\w\- ]", "", title.lower()) for title in TITLE.findall(text))
    return {title.replace(" ", "-") for title in titles}


def files(page, text):
    """Each file that the page names is there. A name may have `*` or `NAME` for any."""
    for path in FILE.findall(text):
        is_file = path.startswith(FOLDERS) and "NAME" not in path and "/out" not in path
        if is_file and not named(path).exists():
            yield f"{page} names {path}, which is not there"


def crate_files(page, text):
    """Each file of a crate is there, in one of the crates that its section names up to its line, or
    in any if it names none."""
    own = set(Path(page).parts[1:2]) if page.startswith("crates/") else set()
    crates = set()
    for line in text.splitlines():
        crates = (own if line.startswith("#") else crates) | set(CRATE.findall(line))
        for path in CRATE_FILE.findall(line):
            if not any(list((ROOT / "crates").glob(f"{name}/{path}")) for name in crates or "*"):
                yield f"{page} names {path}, which no crate has that is named there"


def known_words():
    """The words of each source but for its comments, with the name of its file."""
    for path in {path for pattern in SOURCES for path in ROOT.glob(pattern)}:
        if path.is_file() and path.suffix != ".pyc" and path != Path(__file__).resolve():
            text = path.read_text(errors="replace")
            code = COMMENT[path.suffix].sub("", text) if path.suffix in COMMENT else text
            yield {path.stem, *WORD.findall(code)}


def names(page, text, known=(ELSEWHERE, *known_words())):
    """Each name stands in some source, with what it is of."""
    for name in NAME.findall(text):
        if not any(words.issuperset(name.split("::")) for words in known):
            yield f"{page} names {name}, which stands in no source"


def alone(page, text, there=frozenset(path.name for path in ROOT.rglob("*.*"))):
    """Each file that the page names without its folder is somewhere."""
    for name in ALONE.findall(text):
        if name not in there:
            yield f"{page} names {name}, and there is no such file"


def links(page, text):
    """Each link leads to a file, and to one of its titles if it names one."""
    for path, anchor in LINK.findall(text):
        if path.startswith("http"):
            continue
        to = (ROOT / page).parent / path
        if not to.exists():
            yield f"{page} links {path}, which is not there"
        elif anchor and anchor not in anchors(to.read_text()):
            yield f"{page} links {path}#{anchor}, and there is no such title"


def plain(line):
    """A line without what follows it as a comment, and without spaces."""
    return "".join(line.split("    //")[0].split())


def callers(page, text):
    """Each line of Rust that a page shows stands in a file that the text above it names."""
    before = 0
    for code in CODE.finditer(text):
        above, before = text[before : code.start()], code.end()
        sources = [named(path) for path in FILE.findall(above) if path.endswith(".rt")]
        lines = [line for it in sources if it.exists() for line in it.read_text().splitlines()]
        have = {plain(line) for line in lines}
        for line in code[1].splitlines():
            if line.strip() not in ("", LEFT_OUT) and plain(line) not in have:
                yield f"{page} shows a line that no file has which it names: {line.strip()}"


def settings(page, text):
    """Each block of settings is the whole file that the text above it names last."""
    for block in SETTINGS.finditer(text):
        path = FILE.findall(text[: block.start()])[-1]
        if not named(path).exists() or named(path).read_text() != block[1]:
            yield f"{page} shows {path} as it is not"


def main():
    given_words()
    pages = {str(path.relative_to(ROOT)): path.read_text() for path in documents()}
    kinds = (files, crate_files, names, alone, links, callers, settings)
    wrong = [it for page, text in pages.items() for kind in kinds for it in kind(page, text)]
    for told in wrong:
        print(f"pages: {told}", file=sys.stderr)
    if wrong:
        sys.exit(1)
    shown = sum(len(CODE.findall(text)) for text in pages.values())
    print(f"pages: {len(pages)} documents name only what is there; {shown} show code as it stands")


if __name__ == "__main__":
    main()

#!/usr/bin/env python3
"""Whether the pages are true where a script can tell: `pages.py`

Of README.md, docs/ and the pages of examples/: each link and each path that they name is there; each certificate that they
show is one of examples/, each network that they show is one, and each line on a certificate is that of the second
checker; docs/ARCHITECTURE.md has a row for each crate; and each
command that begins with ./pool or tools/ in a line of its own runs as written, in a folder where the repository's own
files are linked, with the status that stands behind it as `# ends with N`, else 0. Where the program isn't built, the first
of these commands builds it, which takes a while.

Of tools/help.txt: its commands, options and choices are those of docs/FORMATS.md.
Of the pages of the crates (the lines `//!` of src/lib.rt): each file of lemmas of a crate that another crate cites is
named by its own crate's page.
"""

import re
import subprocess
import sys
import tempfile
from importlib.machinery import SourceFileLoader
from pathlib import Path

sys.dont_write_bytecode = True
TOP = Path(__file__).resolve().parent.parent
checker = SourceFileLoader("second_checker", str(TOP / "tools" / "second_checker.py")).load_module()
PAGES = [TOP / "README.md", *sorted((TOP / "examples").glob("*.md")), *sorted((TOP / "docs").rglob("*.md"))]
LINK = re.compile(r"\]\(([^)\s]+)\)")
CRATES = TOP / "crates"
CITED = re.compile(r"\buse Rattle\.(\w+)\.proofs\.(\w+)")
PATH = re.compile(r"(?<![\w./*-])((?:docs|examples|tests|tools|crates|\.ci)/[\w./-]*[\w/])(?![\w*])")


def headings(page):
    """The names under which the headings of a page can be linked."""
    lines = [line.lstrip("#").strip() for line in page.read_text().splitlines() if line.startswith("#")]
    return {re.sub(r"[^\w -]", "", line.lower()).replace(" ", "-") for line in lines}


def dead_links(page):
    for link in LINK.findall(page.read_text()):
        if re.match(r"https?:", link):
            continue
        name, _, heading = link.partition("#")
        target = (page.parent / name) if name else page
        if not target.exists() or (heading and heading not in headings(target)):
            yield f"the link {link} leads nowhere"


def missing_paths(page):
    """Paths that aren't there. What a build makes (`out/`) needn't be there yet."""
    for path in sorted(set(PATH.findall(page.read_text()))):
        if "out" not in Path(path).parts and not (TOP / path).exists():
            yield f"there is no {path}"


def shown_files(page):
    """Certificates that a page shows and that are no example, and networks that are none."""
    examples = {cert.read_text() for cert in (TOP / "examples").glob("*.cert")}
    for block in re.findall(r"(?ms)^```\w*\n(.*?)^```$", page.read_text()):
        if block.startswith("poolcert") and block not in examples:
            yield "a certificate is none of the examples"
        if block.startswith("{"):
            try:
                checker.judge_rows(checker.walk(checker.parse_json(block.encode())))
            except checker.Refused as cause:
                yield f"a network is refused: {cause}"


def other_lines(page):
    """Rows of a table of a network, a certificate and a line, where the second checker says another line."""
    for net, cert, line in re.findall(r"(?m)^\| `(\S+\.json)` \| `(\S+\.cert)` \| `(.+)` \|$", page.read_text()):
        said = checker.run([str(page.parent / net), str(page.parent / cert)])[1]
        if said != line:
            yield f"of {cert} for {net} it is said: {said}"


def crates_left_out(page):
    """Crates that the tables of a page lack."""
    crates = {path.name for path in CRATES.iterdir() if (path / "src").is_dir()}
    named = set(re.findall(r"`(\w+)`", " ".join(re.findall(r"(?m)^\| ((?:`\w+`(?:, )?)+) \|", page.read_text()))))
    yield from (f"the crate {name} has no row" for name in sorted(crates - named))


def pieces(root):
    """The paragraphs and the bullets of the page of a crate, by its root file."""
    lines = [line[3:].strip() for line in root.read_text().splitlines() if line.startswith("//!")]
    return re.split(r"\n\n|\n(?=- )", "\n".join(lines))


def named_lemmas(crate):
    """The files of lemmas that the page of a crate names: as `proofs/FILE.antt`, or as `FILE` where it speaks of `proofs/`."""
    root = crate / "src" / "lib.rt"
    told = [piece for piece in pieces(root) if "`proofs/" in piece] if root.exists() else []
    return {name for piece in told for name in re.findall(r"`(?:proofs/)?(\w+)(?:\.antt)?`", piece)}


def cited_lemmas(crate):
    """The files of lemmas of other crates that a crate cites: the name of the other crate, and that of the file."""
    texts = [path for part in ("src", "specs", "proofs") for path in (crate / part).rglob("*") if path.suffix in (".rt", ".antt")]
    cited = {found for path in texts for found in CITED.findall(path.read_text())}
    return {(other, file) for other, file in cited if other != crate.name and (CRATES / other / "proofs" / f"{file}.antt").exists()}


def lemmas_elsewhere():
    """The files of lemmas that docs/ARCHITECTURE.md names for the page of their crate: the crate, and the file."""
    return {(crate, file) for file, crate in re.findall(r"(?m)^- `proofs/(\w+)\.antt` of `(\w+)`:", (TOP / "docs" / "ARCHITECTURE.md").read_text())}


def unnamed_lemmas():
    """Files of lemmas that a crate cites and that neither their own crate's page nor docs/ARCHITECTURE.md names, or both, and what no crate cites."""
    crates = [path for path in sorted(CRATES.iterdir()) if (path / "src").is_dir()]
    citing = {}
    for crate in crates:
        for lemmas in cited_lemmas(crate):
            citing.setdefault(lemmas, []).append(crate.name)
    elsewhere = lemmas_elsewhere()
    for other, file in sorted(citing):
        if (file in named_lemmas(CRATES / other)) == ((other, file) in elsewhere):
            yield f"crates/{other}/src/lib.rt: proofs/{file}.antt is not named once, by the page or by docs/ARCHITECTURE.md; it is cited in {', '.join(citing[other, file])}"
    yield from (f"docs/ARCHITECTURE.md: no crate cites proofs/{file}.antt of {other}" for other, file in sorted(elsewhere - set(citing)))


def help_apart():
    """Lines of tools/help.txt that are not the commands of docs/FORMATS.md with their positionals, options and choices, or lack one.

    A line that begins with an option goes on with the command above it.
    """
    rows = re.findall(r"(?m)^\|\s*(?:`(\w+)`)?\s*\|\s*([A-Z. ]*?)\s*\|\s*(`--.*?|)\s*\|[^|]*\|$", (TOP / "docs" / "FORMATS.md").read_text())
    wanted = []
    for command, positionals, option in rows:
        if command:
            wanted.append(f"{command} {positionals.strip()}")
        named = re.match(r"`(--\w+)` (.*?): (has to stand)?", option)
        if named and wanted:
            option = f"{named[1]} {'|'.join(re.findall(r'`([a-z]+)`', named[2])) or named[2]}"
            wanted[-1] += f" {option}" if named[3] else f" [{option}]"
    told = re.sub(r"\n +(?=\[--)", " ", (TOP / "tools" / "help.txt").read_text())
    shown = re.findall(r"(?m)^  ((?:[a-z]+) [A-Z][^\n]*?)(?: {3,}.*)?$", told)
    if not wanted or shown != wanted:
        yield f"tools/help.txt has {shown}, and docs/FORMATS.md {wanted}"


def commands(page):
    """The commands of a page, as written in lines of their own, each with the status that it ends with."""
    for line in page.read_text().splitlines():
        found = re.fullmatch(r"    ((?:\./pool|tools/)[^#]*?)(?:\s+# ends with (\d+).*|\s+#.*)?", line)
        if found:
            yield found.group(1), int(found.group(2) or 0)


def failed_commands(page):
    with tempfile.TemporaryDirectory() as folder:
        for name in ("pool", "tools", "tests", "examples", "docs", "crates"):
            (Path(folder) / name).symlink_to(TOP / name)
        for command, status in commands(page):
            run = subprocess.run(["bash", "-c", command], cwd=folder, capture_output=True, text=True)
            if run.returncode != status:
                yield f"`{command}` ends with {run.returncode}, and not with {status}: {run.stderr.strip()}"


def main():
    found, tried = [], 0
    for page in PAGES:
        judges = [dead_links, missing_paths, shown_files, other_lines, failed_commands]
        if page.name == "ARCHITECTURE.md":
            judges.append(crates_left_out)
        tried += len(list(commands(page)))
        found += [f"{page.relative_to(TOP)}: {fault}" for judge in judges for fault in judge(page)]
    found += [*unnamed_lemmas(), *help_apart()]
    print(*found, sep="\n", end="\n" if found else "")
    print(f"{len(PAGES)} pages, {tried} commands of theirs, {len(found)} faults")
    return 1 if found else 0


if __name__ == "__main__":
    sys.exit(main())

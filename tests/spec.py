#!/usr/bin/env python3
"""docs/SPEC.md is what the definitions say, and docs/ARCHITECTURE.md tells which says what.

    tests/spec.py            every paragraph that is cited exists, every paragraph that states something is cited, the index is the citations'
    tests/spec.py --write    writes the index and the counts of lines again

A paragraph of docs/SPEC.md begins `**4.3**`, one that only explains `**4.3 note**`. A definition in crates/*/specs and an item of crates/*/src cite
paragraphs in the comment above them: `SPEC 4.3`, or `SPEC 4.3, 4.4`. docs/TRUST.md's table of modules has their counts of lines. The pages' links
lead somewhere, their first example is examples/first.game, and their lines have at most 120 characters.
"""
import re
import sys
from pathlib import Path

ROOT = Path(__file__).resolve().parent.parent
SPEC = ROOT / "docs/SPEC.md"
ARCHITECTURE = ROOT / "docs/ARCHITECTURE.md"
TRUST = ROOT / "docs/TRUST.md"
PARAGRAPH = re.compile(r"^\*\*(\d+\.\d+)( note)?\*\* ", re.M)
CITATION = re.compile(r"SPEC (\d+\.\d+(?:, \d+\.\d+)*)")
HEADING = "## The specification by paragraph\n"
WIDTH = 120


def paragraphs(text):
    """number -> (states something, its first words)"""
    out = {}
    for match in PARAGRAPH.finditer(text):
        words = " ".join(text[match.end():].split("\n\n")[0].split())
        if match.group(1) in out:
            sys.exit(f"docs/SPEC.md has paragraph {match.group(1)} twice")
        out[match.group(1)] = (not match.group(2), first_words(words))
    return out


def first_words(text, most=100):
    sentence = re.split(r"(?<=[.:]) (?=[A-Z*`(])", text.replace("|", "/"))[0]
    if len(sentence) <= most:
        return sentence
    cut = sentence[:most].rsplit(" ", 1)[0]
    return (cut if cut.count("`") % 2 == 0 else cut.rsplit("`", 1)[0].rstrip(" ,")) + " .."


DECLARED = re.compile(r"\s*(?:(?:unfoldable |abbrev )?pub (?:record |data |struct |enum )?|pub (?:extern \"C\" )?fn )([^\s:(<{;]+)")


def citations():
    """(paragraph, file, definition), in the order of the files"""
    out = []
    for path in sorted(ROOT.glob("crates/*/specs/*.antt")) + sorted(ROOT.glob("crates/*/src/*.rt")):
        lines = path.read_text().split("\n")
        outer = None
        for n, line in enumerate(lines):
            kind = re.match(r"\s*pub (?:record|data) (\S+)", line)
            outer = kind.group(1) if kind else outer
            if line.lstrip().startswith(("--", "//")):
                for cited in CITATION.findall(line):
                    name = declared_after(lines, n, outer)
                    out += [(number, path.relative_to(ROOT / "crates").as_posix(), name) for number in cited.split(", ")]
    return out


def declared_after(lines, n, outer):
    """what the comment at line n stands beside"""
    for line in lines[n + 1:]:
        if not line.strip() or line.lstrip().startswith(("--", "//", "#[")):
            continue
        match = re.match(r"\s*pub (?:extern \"C\" )?fn ([^\s(<]+)", line) or DECLARED.match(line)
        if not match:
            break
        is_field = line.startswith("  ") and re.match(r"\s*pub [^\s:]+ :", line)
        return f"{outer}.{match.group(1)}" if is_field else match.group(1)
    return None


def faults(known, cited):
    out = [f"{path} cites SPEC {number}, which docs/SPEC.md does not have" for number, path, _ in cited if number not in known]
    out += [f"{path} cites SPEC {number} beside no definition" for number, path, name in cited if name is None]
    met = {number for number, _, _ in cited}
    out += [f"SPEC {number} states something, and nothing cites it" for number, (states, _) in known.items() if states and number not in met]
    return out


def index(known, cited):
    """the table of the index"""
    out = ["| Paragraph | Begins | Definitions and entries |", "|---|---|---|"]
    for number, (states, begins) in known.items():
        if not states:
            continue
        files = {}
        for cite, path, name in cited:
            if cite == number and name not in files.setdefault(path, []):
                files[path].append(name)
        where = "; ".join(", ".join(f"`{name}`" for name in names) + f" ({path})" for path, names in files.items())
        out.append(f"| {number} | {begins} | {where} |")
    return "\n".join(out) + "\n"


def with_index(text, table):
    before, rest = text.split(HEADING)
    intro, old = rest.split("\n| Paragraph ", 1)
    tail = old.split("\n\n", 1)[1] if "\n\n" in old else ""
    return before + HEADING + intro + "\n" + table + ("\n" + tail if tail else "")


def with_counts(text):
    """a row of a table that begins with a module's path and a count of lines has the module's count"""

    def counted(match):
        lines = len((ROOT / "crates" / match.group(1)).read_text().splitlines())
        return f"| `{match.group(1)}` | {lines} |"

    return re.sub(r"^\| `([\w/]+\.(?:antt|rt))` \| \d+ \|", counted, text, flags=re.M)


def pages():
    return [ROOT / "README.md", ROOT / "CONTRIBUTING.md"] + sorted((ROOT / "docs").glob("*.md"))


def anchors(path):
    """the names of a page's headings, as links write them"""
    headings = re.findall(r"^#+ (.*)$", path.read_text(), re.M)
    return {re.sub(r"[^\w\- ]", "", heading.lower()).replace(" ", "-") for heading in headings}


def broken_links():
    out = []
    for path in pages() + [ROOT / "examples/README.md"]:
        for link in re.findall(r"\]\(([^)\s]+)\)", path.read_text()):
            name, _, anchor = link.partition("#")
            target = (path.parent / name).resolve() if name else path
            if "://" not in link and (not target.exists() or anchor and anchor not in anchors(target)):
                out.append(f"{path.relative_to(ROOT)} links to {link}, which is not there")
    return out


def blocks(text):
    """the indented blocks of a page, without what is said beside a line"""
    found = re.findall(r"(?:^    .*\n)+", text, re.M)
    return ["".join(re.split(r"\s{2,}", line.strip())[0] + "\n" for line in block.splitlines()) for block in found]


def other_examples():
    """README.md and SPEC.md show the first example and its print"""
    out = []
    for path in [ROOT / "README.md", SPEC]:
        shown = blocks(path.read_text())
        for name in ["first.game", "first.print"]:
            if (ROOT / "examples" / name).read_text() not in shown:
                out.append(f"{path.relative_to(ROOT)} does not show examples/{name}")
    return out


def lost_modules():
    """what TRUST.md and CONTRIBUTING.md name below crates/ is there"""
    out = []
    for path in [TRUST, ROOT / "CONTRIBUTING.md"]:
        for name in re.findall(r"`(?:crates/)?([a-z]\w*/(?:specs|src|proofs|must-fail)/[\w/]+\.(?:antt|rt|edit))`", path.read_text()):
            if not (ROOT / "crates" / name).exists():
                out.append(f"{path.relative_to(ROOT)} names {name}, which is not there")
    return out


def long_lines():
    out = []
    for path in pages():
        for n, line in enumerate(path.read_text().split("\n"), 1):
            if len(line) > WIDTH and not line.lstrip().startswith("|"):
                out.append(f"{path.relative_to(ROOT)}:{n} has {len(line)} characters")
    return out


def main():
    known, cited = paragraphs(SPEC.read_text()), citations()
    architecture, trust = ARCHITECTURE.read_text(), TRUST.read_text()
    if sys.argv[1:] == ["--write"]:
        ARCHITECTURE.write_text(with_index(architecture, index(known, cited)))
        TRUST.write_text(with_counts(trust))
        return
    found = faults(known, cited)
    if with_index(architecture, index(known, cited)) != architecture:
        found.append("docs/ARCHITECTURE.md: the index is not the citations'; tests/spec.py --write makes it")
    if with_counts(trust) != trust:
        found.append("docs/TRUST.md: a count of lines is not the module's; tests/spec.py --write makes it")
    found += broken_links() + lost_modules() + other_examples() + long_lines()
    # the test itself: a paragraph that nothing cites, and a citation of none
    spare, nowhere = "99.1", "99.2"
    if faults({**known, spare: (True, "")}, cited) == faults(known, cited) or faults(known, cited + [(nowhere, "a file", "a name")]) == faults(known, cited):
        found.append("tests/spec.py does not see a paragraph that nothing cites, or a citation of none")
    for fault in found:
        print(fault)
    states = sum(1 for states, _ in known.values() if states)
    print(f"{states} paragraphs that state something, {len(cited)} citations, {len(found)} faults")
    sys.exit(1 if found else 0)


main()

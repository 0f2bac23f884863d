#!/usr/bin/env python3
"""The words for the numbers stand in one list, include/nanpuwiq_words.h; docs/API.md repeats them, and what C and Rust answer comes from the list.

    tests/words.py [NANPUWIQ]

Also: one version in the header, both crates, the changelog and the man pages, every entry of docs/API.md in the table of subcommands of the
man page, and every option of the command in that page where the command is given."""

import pathlib
import re
import subprocess
import sys
import tempfile

ROOT = pathlib.Path(__file__).resolve().parent.parent
LINE = re.compile(r'^NANPUWIQ_WORDS\((\d+), "([^"\\]*)"\)$', re.M)


def listed():
    text = (ROOT / "include/nanpuwiq_words.h").read_text()
    found = [(int(number), words) for number, words in LINE.findall(text)]
    assert len(found) == len(re.findall(r"^NANPUWIQ_WORDS", text, re.M)), "a line of another form"
    assert [n for n, _ in found] == sorted({n for n, _ in found}), "numbers that do not rise"
    return found


def in_api():
    section = (ROOT / "docs/API.md").read_text().split("\n## Numbers\n")[1].split("\n## ")[0]
    return [(int(number), words) for number, words in re.findall(r"^\| (\d+) \| (.*?) \|", section, re.M)]


def from_c():
    """What the C function answers for every byte."""
    program = '#include "nanpuwiq.h"\n#include <stdio.h>\nint main(void) { for (int n = 0; n < 256; n++) puts(nanpuwiq_words((uint8_t)n)); }\n'
    with tempfile.TemporaryDirectory() as where:
        source, binary = pathlib.Path(where, "words.c"), pathlib.Path(where, "words")
        source.write_text(program)
        subprocess.run(["gcc", "-std=c11", "-Wall", "-Wextra", "-Werror", "-I", ROOT / "include", source, "-o", binary], check=True)
        return subprocess.run([binary], capture_output=True, text=True, check=True).stdout.splitlines()


def versions():
    header = re.search(r'NANPUWIQ_VERSION "(.*?)"', (ROOT / "include/nanpuwiq.h").read_text())[1]
    yield "header", header
    for crate in ("bindings/rust", "tools/nanpuwiq"):
        yield crate, re.search(r'^version = "(.*)"$', (ROOT / crate / "Cargo.toml").read_text(), re.M)[1]
    yield "changelog", re.search(r"^## (\S+)", (ROOT / "CHANGELOG.md").read_text(), re.M)[1]
    for page in sorted((ROOT / "man").glob("*.[15]")):
        yield page.name, re.search(r'^\.TH .*"Nanpuwiq (\S+)"', page.read_text(), re.M)[1]


def options_missing(command):
    """Options that --help tells of and the man page does not."""
    page = (ROOT / "man/nanpuwiq.1").read_text().replace("\\-", "-")
    said = subprocess.run([command, "--help"], capture_output=True, text=True, check=True).stdout
    names = re.findall(r"^  nanpuwiq (\w+)", said, re.M)
    assert len(names) > 4, said
    for name in names:
        said += subprocess.run([command, name, "--help"], capture_output=True, text=True, check=True).stdout
        if ".B nanpuwiq %s" % name not in page:
            yield name
    for option in sorted(set(re.findall(r"--[a-z]+", said))):
        if option not in page:
            yield option


def entries_missing():
    """Entries of docs/API.md that the man page's table of subcommands has not, and names there that are none."""
    section = (ROOT / "docs/API.md").read_text().split("\n## From C and from Rust\n")[1].split("\n## ")[0]
    entries = {name for row in re.findall(r"^\| (`.*?`) \|", section, re.M) for name in re.findall(r"`nanpuwiq_(\w+)`", row)}
    table = (ROOT / "man/nanpuwiq.1").read_text().split(".SH ENTRIES\n")[1].split(".TS\n")[1].split(".TE\n")[0]
    named = {name for line in table.splitlines()[3:] for name in line.split("\t")[0].split(", ")}
    return entries ^ (named - {"words"})


def main():
    words = listed()
    expected = {0: "not refused", **dict(words)}
    checks = [("docs/API.md", in_api() == words), ("nanpuwiq_words", from_c() == [expected.get(n, "no number of a refusal") for n in range(256)])]
    found = dict(versions())
    checks.append(("versions %s" % found, len(set(found.values())) == 1))
    checks.append(("the man page's table of entries: %s" % entries_missing(), not entries_missing()))
    if len(sys.argv) > 1:
        missing = list(options_missing(sys.argv[1]))
        checks.append(("man page without %s" % missing, not missing))
    for name, good in checks:
        if not good:
            print("FAILED:", name)
    failed = sum(not good for _, good in checks)
    print("words: %d passed, %d failed" % (len(checks) - failed, failed))
    sys.exit(failed != 0)


if __name__ == "__main__":
    main()

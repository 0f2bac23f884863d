#!/usr/bin/env python3
"""Installs into a folder, and builds and runs against what was installed, as an integrator does.

    tests/install.py TARGET LIBRARY

TARGET is the folder with the proved programs (bin), LIBRARY the one with libnanpuwiq.a; neither is changed, and nothing is proved. The example of the README is
compiled by the flags that pkg-config gives, the archive of `make dist` is unpacked elsewhere and used there, and the packages of `make deb` are put into a fresh
root. The last line says how many passed and how many failed."""

import os
import pathlib
import re
import shutil
import subprocess
import sys
import tempfile

from checks import Checks
from program import ROOT

WARNINGS = ["-Wall", "-Wextra", "-Werror"]


def run(*words, **how):
    return subprocess.run(list(map(str, words)), capture_output=True, text=True, timeout=600, **how)


def make(*words):
    got = run("make", "-C", ROOT, "RT=:", *words)
    if got.returncode:
        print(got.stdout, got.stderr)
    return got.returncode


def flags(folder):
    """What pkg-config says of the library in this folder, which is not where it will be in the end."""
    search = dict(os.environ, PKG_CONFIG_PATH=str(folder / "lib/pkgconfig"))
    return run("pkg-config", "--define-variable=prefix=%s" % folder, "--cflags", "--libs", "nanpuwiq", env=search).stdout.split()


# The story of examples/README.md: the game, the barred pairs, status and print.
INTERLOCKS = [
    ("service.game", "", 0, "an adapter exists\n0: 0 1 2\n1: 0 1 2\n2: 0 1 2\n"),
    ("service.game", "2 0 2 1", 0, "an adapter exists\n0: 0 1 2\n1: 1 2\n2: 2\n"),
    ("service_unannounced.game", "", 0, "an adapter exists\n0: 0 1 2\n1: 0 1 2\n"),
    ("service_unannounced.game", "1 0 1 1", 1, "no adapter exists\n0:\n1:\n"),
    ("service.game", "3 0", 2, ""),
    ("too_early.game", "0 0", 2, ""),
]


def integrate(check, folder, where):
    """The example of the README, with nothing but what was installed."""
    examples = folder / "share/doc/nanpuwiq/examples"
    adapter = where / "adapter"
    built = run("gcc", *WARNINGS, examples / "adapter.c", *flags(folder), "-o", adapter)
    check.same("the example compiles", (built.returncode, built.stderr), (0, ""))
    got = run(adapter, examples / "flush.game", input="0 1 0 0\n")
    check.same("the example answers", (got.returncode, got.stdout), (0, "old 0, new 0\nold 1, new 2\nold 0, new 0\nold 0, new 2\n"))
    got = run(adapter, examples / "flush.game", input="0 1 1\n")
    check.holds("a pick that is not allowed", got.returncode == 2 and "refused 14: a state that cannot be picked now" in got.stderr, got)
    got = run(adapter, examples / "flush.game", input="0 1 flush\n")
    said = (2, "old 0, new 0\nold 1, new 2\n", "adapter: input: a word that is no number\n")
    check.same("a word that is no number", (got.returncode, got.stdout, got.stderr), said)
    check.same("no adapter", run(adapter, examples / "too_early.game", input="").returncode, 1)
    check.same("no file", run(adapter, where / "missing", input="").returncode, 3)
    check.same("bytes that are no game", run(adapter, examples / "pumps.kit", input="").returncode, 2)
    interlock = where / "interlock"
    built = run("gcc", *WARNINGS, examples / "interlock.c", *flags(folder), "-o", interlock)
    check.same("the example with bars compiles", (built.returncode, built.stderr), (0, ""))
    for name, words, status, said in INTERLOCKS:
        got = run(interlock, examples / name, *words.split())
        check.same("bars %s beside %s" % (words, name), (got.returncode, got.stdout), (status, said))
    with open(examples / "first.game", "rb") as game:
        got = subprocess.run([folder / "bin/nanpuwiq-solve"], stdin=game, capture_output=True)
    check.same("solve", got.stdout, (examples / "first.print").read_bytes())
    check.same("nanpuwiq", run(folder / "bin/nanpuwiq", "solve", examples / "flush.game").stdout, (examples / "flush.print").read_text())
    version = run("pkg-config", "--modversion", "nanpuwiq", env=dict(os.environ, PKG_CONFIG_PATH=str(folder / "lib/pkgconfig"))).stdout
    check.same("versions", run(folder / "bin/nanpuwiq", "--version").stdout, "nanpuwiq " + version)


def pages(check, folder):
    for page in sorted((ROOT / "man").iterdir()):
        installed = folder / ("share/man/man%s" % page.name[-1]) / page.name
        check.holds("man page " + page.name, installed.is_file())
        if shutil.which("groff"):
            got = run("groff", "-man", "-t", "-Tutf8", "-ww", "-z", installed)
            check.same("man page %s has no faults" % page.name, (got.returncode, got.stderr), (0, ""))


def completions(check, folder):
    """The scripts for the shells are those that the installed command prints."""
    places = {"bash": "bash-completion/completions/nanpuwiq", "zsh": "zsh/site-functions/_nanpuwiq", "fish": "fish/vendor_completions.d/nanpuwiq.fish"}
    for shell, place in places.items():
        said = run(folder / "bin/nanpuwiq", "completion", shell).stdout
        check.same("completion for " + shell, (folder / "share" / place).read_text(), said)


def catalogue(check, folder):
    """The catalogue of the examples, from where they are installed."""
    drives = folder / "share/doc/nanpuwiq/examples/drives"
    words = ["--old", *sorted(drives.glob("old_*")), "--new", *sorted(drives.glob("new_*")), "--require", drives / "asked.require"]
    got = run(folder / "bin/nanpuwiq", "catalogue", "--totals", *words)
    check.holds("the examples' catalogue", got.returncode == 0 and got.stdout.startswith("(system 4)\n(environment 2)\n"), got)


def uninstalled(check, root, words):
    """Nothing of what install laid out is left, and what others have put there is."""
    foreign = root / "opt/adapters/bin/of_others"
    foreign.write_text("")
    check.same("make uninstall", make(*words, "uninstall"), 0)
    left = [str(path.relative_to(root)) for path in root.rglob("*") if not path.is_dir()]
    check.same("what is left", left, ["opt/adapters/bin/of_others"])


def packed(check, where, target):
    """The archive of make dist, unpacked where nothing else is."""
    check.same("make dist", make("TARGET=%s" % target, "dist"), 0)
    archive = next((target / "dist").glob("*.tar.gz"))
    check.same("its checksum", run("sha256sum", "--check", "--quiet", archive.name + ".sha256", cwd=archive.parent).returncode, 0)
    check.same("unpacking", run("tar", "-xzf", archive, "-C", where).returncode, 0)
    folder = where / archive.name[: -len(".tar.gz")]
    check.same("checksums", run("sha256sum", "--check", "--quiet", "SHA256SUMS", cwd=folder).returncode, 0)
    listed = {line.split("  ")[1] for line in (folder / "SHA256SUMS").read_text().splitlines()}
    there = {"./" + str(p.relative_to(folder)) for p in folder.rglob("*") if p.is_file()} - {"./SHA256SUMS"}
    check.same("every file has a checksum", listed, there)
    played = {page.stem for page in (folder / "share/doc/nanpuwiq/pages").glob("*.html")}
    check.same("a page for each example, and an index", played, {game.stem for game in (ROOT / "examples").glob("*.game")} | {"index"})
    search = dict(os.environ, PKG_CONFIG_PATH=str(folder / "lib/pkgconfig"))
    found = run("pkg-config", "--cflags", "--libs", "nanpuwiq", env=search).stdout.split()
    built = run("gcc", *WARNINGS, folder / "share/doc/nanpuwiq/examples/adapter.c", *found, "-o", where / "unpacked")
    check.same("a build against the archive", (built.returncode, built.stderr), (0, ""))
    integrate(check, folder, where)
    runs_on(check, folder)
    links(check, folder)
    bindings(check, folder, where)


def runs_on(check, folder):
    """The archive's name and INSTALL name the oldest glibc that its programs ask for."""
    named = re.search(r"-glibc([\d.]+)$", folder.name)[1]
    check.holds("INSTALL names the glibc", "glibc %s or later" % named in (folder / "INSTALL").read_text())
    asked, needed = set(), set()
    for binary in [*(folder / "bin").iterdir(), *folder.rglob("*.so")]:
        told = run("objdump", "-p", binary).stdout
        asked |= {tuple(map(int, version.split("."))) for version in re.findall(r"GLIBC_([\d.]+)", told)}
        needed |= set(re.findall(r"NEEDED +(\S+)", told))
    check.same("the newest glibc that is asked for", ".".join(map(str, max(asked))), named)
    check.holds("libraries", needed <= {"libc.so.6", "libm.so.6", "libgcc_s.so.1", "ld-linux-x86-64.so.2"}, needed)


def links(check, folder):
    """Every link of every page leads to a file that is there, and to a heading of it."""
    count = 0
    for page in folder.rglob("*.md"):
        for target in re.findall(r"\]\(([^)\s]+)\)", page.read_text()):
            if re.match(r"[a-z]+:", target):
                continue
            file, _, heading = target.partition("#")
            to = (page.parent / file).resolve() if file else page
            check.holds("link %s of %s" % (target, page.name), to.exists() and folder in [to, *to.parents])
            if heading and to.is_file():
                lines = re.findall(r"^#+ (.*)$", to.read_text(), re.M)
                known = {re.sub(r"[^\w\- ]", "", line.lower()).replace(" ", "-") for line in lines}
                check.holds("heading %s of %s" % (target, page.name), heading in known, known)
            count += 1
    check.holds("links were found", count > 20, count)


def bindings(check, folder, where):
    """Python and Rust from the archive alone."""
    asked = "import nanpuwiq; print(nanpuwiq.Game.read(open(%r, 'rb').read()).solve().winner.value)" % str(folder / "share/doc/nanpuwiq/examples/flush.game")
    home = {name: value for name, value in os.environ.items() if name != "NANPUWIQ_LIB"}
    got = run("python3", "-c", asked, cwd=where, env=dict(home, PYTHONPATH=str(folder / "lib/nanpuwiq/python"), PYTHONDONTWRITEBYTECODE="1"))
    check.same("Python from the archive", (got.stdout, got.stderr), ("system\n", ""))
    crate = folder / "share/doc/nanpuwiq/bindings/rust/Cargo.toml"
    words = ["cargo", "run", "--quiet", "--offline", "--manifest-path", crate, "--target-dir", where / "rust", "--example", "kit"]
    got = run(*words, env=dict(os.environ, NANPUWIQ_LIB=str(folder / "lib")))
    check.holds("Rust from the archive", got.returncode == 0 and "stop" in got.stdout, got.stderr)


def debian(check, where, target):
    """The packages of make deb: looked at by lintian, put into a fresh root, used there, and taken away again."""
    if not shutil.which("dpkg-deb"):
        print("install: no dpkg-deb, so no packages for Debian were made")
        return
    check.same("make deb", make("TARGET=%s" % target, "deb"), 0)
    packages = sorted((target / "deb").glob("*.deb"))
    check.same("packages", [p.name.split("_")[0] for p in packages], ["libnanpuwiq-dev", "nanpuwiq"])
    if shutil.which("lintian"):
        got = run("lintian", "--allow-root", "--fail-on", "error", *packages)
        check.holds("lintian", got.returncode == 0 and "E: " not in got.stdout, got.stdout)
    else:
        print("install: no lintian, so the packages were not looked at by it")
    root = where / "fresh"
    for folder in ("info", "updates", "triggers"):
        (root / "var/lib/dpkg" / folder).mkdir(parents=True)
    for file in ("status", "available"):
        (root / "var/lib/dpkg" / file).write_text("")
    dpkg = ["dpkg", "--root=%s" % root, "--force-depends", "--force-not-root", "--force-bad-path", "--log=%s" % (where / "dpkg.log")]
    got = run(*dpkg, "--install", *packages)
    check.holds("installed in a fresh root", got.returncode == 0, got.stderr)
    game = root / "usr/share/doc/nanpuwiq/examples/flush.game"
    check.same("nanpuwiq in it", run(root / "usr/bin/nanpuwiq", "solve", game).stdout, game.with_suffix(".print").read_text())
    with open(game, "rb") as given:
        got = subprocess.run([root / "usr/bin/nanpuwiq-solve"], stdin=given, capture_output=True)
    check.same("nanpuwiq-solve in it", got.stdout, game.with_suffix(".print").read_bytes())
    search = dict(os.environ, PKG_CONFIG_PATH=str(root / "usr/lib/x86_64-linux-gnu/pkgconfig"))
    found = run("pkg-config", "--define-variable=prefix=%s/usr" % root, "--cflags", "--libs", "nanpuwiq", env=search).stdout.split()
    built = run("gcc", *WARNINGS, game.parent / "adapter.c", *found, "-o", where / "from_package")
    check.same("a build against libnanpuwiq-dev", (built.returncode, built.stderr), (0, ""))
    got = run(*dpkg, "--purge", "nanpuwiq", "libnanpuwiq-dev")
    left = [str(path.relative_to(root)) for path in root.rglob("*") if not str(path.relative_to(root)).startswith("var")]
    check.same("taken away again", (got.returncode, [path for path in left if path != "usr"]), (0, []))


def library_missing(check, where):
    """The Rust crate says which command makes the library that it misses."""
    build = ["cargo", "build", "--quiet", "--offline", "--manifest-path", ROOT / "bindings/rust/Cargo.toml", "--target-dir", where / "cargo"]
    got = run(*build, env=dict(os.environ, NANPUWIQ_LIB=str(where / "nowhere")))
    check.holds("no library", got.returncode != 0 and "nowhere/libnanpuwiq.a is missing. `tools/prove nanpuwiq`" in got.stderr, got.stderr)


def toolchain_missing(check):
    """Without rt make says what is missing and what can be had without it."""
    got = run("make", "-C", ROOT, "RT=no-such-rt")
    check.holds("no rt", got.returncode != 0 and "no-such-rt is not here" in got.stderr and re.search(r"-x86_64-linux-glibc[\d.]+\.tar\.gz has programs", got.stderr), got)
    check.holds("nothing is tried", "No such file" not in got.stderr and "no-such-rt: not found" not in got.stderr, got)


def main():
    if len(sys.argv) != 3:
        sys.exit("usage: tests/install.py TARGET LIBRARY")
    built, library = (pathlib.Path(word).resolve() for word in sys.argv[1:])
    check = Checks("install")
    with tempfile.TemporaryDirectory() as name:
        where = pathlib.Path(name)
        target, root = where / "target", where / "root"
        shutil.copytree(built / "bin", target / "bin")
        shutil.copytree(library, target / "staticlib")
        words = ["TARGET=%s" % target, "DESTDIR=%s" % root, "PREFIX=/opt/adapters"]
        check.same("make install", make(*words, "install"), 0)
        integrate(check, root / "opt/adapters", where)
        pages(check, root / "opt/adapters")
        completions(check, root / "opt/adapters")
        catalogue(check, root / "opt/adapters")
        uninstalled(check, root, words)
        packed(check, where, target)
        debian(check, where, target)
        library_missing(check, where)
        toolchain_missing(check)
    check.end()


if __name__ == "__main__":
    main()

#!/usr/bin/python3
"""Plays on the pages that `nanpuwiq page` writes, in a real browser: Debian's Chromium, without a window.

    tests/page.py NANPUWIQ [SEED]

On the page of each example, of each game of tests/prints and of 20 random games random picks are made, and the same picks are piped to `nanpuwiq play`: every
line, every why, every hint and the words for every pair of states are compared. Then come the keyboard alone, undo, the address, the saved walk, printing,
what is there without a script, names and file names that try to break out, contrast, narrow windows, and the limits for the largest games. No page may ask
for anything but itself, nor leave a message in the console.

The browser, its driver and Python's bindings for it are Debian's packages chromium, chromium-driver and python3-selenium. Where they are missing they are
installed; where no package can be had the test says so and is skipped. The last line says how many passed and how many failed."""

import base64
import json
import os
import pathlib
import random
import re
import subprocess
import sys
import tempfile
import time

from checks import Checks
from program import ROOT, game, prints

LIMIT = 60  # seconds
PACKAGES = ["chromium", "chromium-driver", "python3-selenium"]
EXAMPLES = sorted((ROOT / "examples").glob("*.game"))
WORDS = {"why", "hint"}


def browser_there():
    """Whether there is a browser; its packages are installed where they are missing."""
    if not all(pathlib.Path(path).exists() for path in ("/usr/bin/chromium", "/usr/bin/chromedriver", "/usr/lib/python3/dist-packages/selenium")):
        quiet = {"stdout": subprocess.DEVNULL, "stderr": subprocess.DEVNULL, "env": dict(os.environ, DEBIAN_FRONTEND="noninteractive")}
        for words in (["apt-get", "-q", "update"], ["apt-get", "-qy", "--no-install-recommends", "install", *PACKAGES]):
            try:
                subprocess.run(words, timeout=600, check=False, **quiet)
            except (OSError, subprocess.TimeoutExpired):
                return False
    return pathlib.Path("/usr/bin/chromium").exists() and pathlib.Path("/usr/bin/chromedriver").exists()


class Browser:
    """Chromium without a window. It writes down what a page asks for, and what it says in the console."""

    def __init__(self, folder):
        from selenium import webdriver
        from selenium.webdriver.chrome.options import Options
        from selenium.webdriver.chrome.service import Service

        options = Options()
        options.binary_location = "/usr/bin/chromium"
        for word in ("--headless=new", "--no-sandbox", "--disable-gpu", "--disable-dev-shm-usage", "--hide-scrollbars", "--user-data-dir=%s/profile" % folder):
            options.add_argument(word)
        options.set_capability("goog:loggingPrefs", {"browser": "ALL", "performance": "ALL"})
        # a person is asked once whether a page may save two files
        options.add_experimental_option("prefs", {"download.default_directory": str(folder), "profile.default_content_setting_values.automatic_downloads": 1})
        self.driver = webdriver.Chrome(service=Service("/usr/bin/chromedriver"), options=options)
        self.driver.set_page_load_timeout(LIMIT)
        self.driver.set_script_timeout(LIMIT)
        self.asked, self.said = [], []
        self.driver.get("about:blank")
        self.gather()
        # what the browser's own first page asked for is not the pages'
        self.asked, self.said = [], []

    def open(self, path, fragment=""):
        # a page that differs in its fragment alone would not be loaded again
        self.driver.get("about:blank")
        self.driver.get(path.as_uri() + fragment)

    def run(self, script, *arguments):
        return self.driver.execute_script(script, *arguments)

    def cdp(self, name, **parameters):
        return self.driver.execute_cdp_cmd(name, parameters)

    def key(self, *keys):
        from selenium.webdriver.common.action_chains import ActionChains

        for one in keys:
            ActionChains(self.driver, duration=0).send_keys(one).perform()

    def window(self, width, scheme="light"):
        self.cdp("Emulation.setDeviceMetricsOverride", width=width, height=900, deviceScaleFactor=1, mobile=False)
        self.cdp("Emulation.setEmulatedMedia", features=[{"name": "prefers-color-scheme", "value": scheme}])

    def work(self, done):
        """What the page's own thread works while something is done, in milliseconds."""
        self.driver.get("about:blank")
        self.cdp("Performance.enable", timeDomain="threadTicks")
        spent = lambda: {one["name"]: one["value"] for one in self.cdp("Performance.getMetrics")["metrics"]}["TaskDuration"] * 1000
        before = spent()
        done()
        work = spent() - before
        self.cdp("Performance.disable")
        return work

    def slowness(self):
        """How many times as long as the limits are for a fixed piece of work takes here, 1 at least."""
        return max(1, min(self.work(lambda: self.run(YARDSTICK)) for _ in range(5)) / YARDSTICK_MS)

    def timed(self, page):
        """How long a page takes to open: the work of the page's own thread, and by the clock, in milliseconds."""
        work = self.work(lambda: self.driver.get(page.as_uri()))
        clock = self.run("const t = performance.getEntriesByType('navigation')[0]; return t.domContentLoadedEventEnd - t.responseStart")
        return work, clock

    def gather(self):
        """Keeps what was asked for and said since the last time."""
        self.said += [line["message"] for line in self.driver.get_log("browser")]
        for line in self.driver.get_log("performance"):
            message = json.loads(line["message"])["message"]
            if message["method"] == "Network.requestWillBeSent":
                self.asked.append(message["params"]["request"]["url"])


LINES = """
const lines = id => document.getElementById(id).hidden ? [] : [...document.querySelectorAll("#" + id + " p")].map(p => p.textContent);
return { said: lines("said"), round: lines("round"), told: lines("told"), picks: [...document.querySelectorAll("#moves button")].map(b => Number(b.dataset.pick)) };
"""


class Command:
    def __init__(self, command, folder):
        self.command, self.folder = command, folder

    def page(self, path, name=None):
        """The page of a game's file, written to a file."""
        got = subprocess.run([self.command, "page", str(path)], capture_output=True, timeout=LIMIT)
        assert got.returncode == 0 and not got.stderr, (path, got.stderr)
        page = self.folder / (name or pathlib.Path(path).stem + ".html")
        page.write_bytes(got.stdout)
        return page

    def play(self, path, lines):
        """What play says: first of all, then after each line."""
        text = "".join("%s\n" % line for line in lines).encode()
        said = subprocess.run([self.command, "play", str(path)], input=text, capture_output=True, timeout=LIMIT).stdout.decode()
        parts = re.split(r"^> .*$", said, flags=re.M)
        # what can be typed, and how a stuck play is left, is for the terminal alone
        plain = lambda line: line.strip().replace(" Undo or quit.", "")
        return [[plain(line) for line in part.splitlines() if line.strip() and not line.startswith("Type the number")] for part in parts]


def beside(check, browser, command, path, rng, turns):
    """The same picks on the page and at `play`."""
    browser.open(command.page(path))
    name, typed, shown = pathlib.Path(path).name, [], []
    opening = browser.run("return [document.querySelector('.verdict').textContent, ...[...document.querySelectorAll('.requirements span')].map(e => e.textContent)]")
    first = browser.run(LINES)
    shown.append(first["said"])
    now, walked = first, 0
    for _ in range(turns):
        for word in sorted(WORDS):
            if rng.random() < 0.6:
                browser.run("document.getElementById(arguments[0]).click()", word)
                typed.append(word)
                shown.append(browser.run(LINES)["told"])
        if not now["picks"]:
            break
        if walked and rng.random() < 0.12:
            walked -= 1
            browser.run("document.getElementById('undo').click()")
            typed.append("undo")
            now = browser.run(LINES)
            # after undo play shows the position; the page its round too, where there is one
            shown.append(now["said"])
            continue
        walked += 1
        pick = rng.choice(now["picks"])
        browser.run("document.querySelector('[data-pick=\"' + arguments[0] + '\"]').click()", pick)
        typed.append(pick)
        now = browser.run(LINES)
        shown.append(now["round"] + now["said"])
    said = command.play(path, typed)
    check.same("opening, " + name, [line for line in said[0] if line.startswith("Requirement") or "adapter exists" in line], opening)
    said[0] = said[0][-len(shown[0]):]
    while said and len(said) > len(shown):
        said.pop()
    for turn, (page, terminal) in enumerate(zip(shown, said)):
        check.same("%s, after %r" % (name, typed[:turn]), page, terminal)
    check.same("turns, " + name, len(shown), len(said))


def every_pair(check, browser, command, path):
    """The words for each pair of states, and the won map, are those of the other subcommands."""
    browser.open(command.page(path))
    pairs = browser.run("""
const found = [], choose = (id, n) => { const box = document.getElementById(id); box.value = n; box.dispatchEvent(new Event("change")); };
for (let i = 0; i < document.getElementById("pair-old").length; i++)
  for (let o = 0; o < document.getElementById("pair-new").length; o++) {
    choose("pair-old", i); choose("pair-new", o);
    found.push(document.getElementById("because").textContent);
  }
return found;""")
    won = subprocess.run([command.command, "map", "--names", "/dev/null", str(path)], capture_output=True, timeout=LIMIT).stdout.decode()
    rows = [set(re.findall(r"\d+", line.split("new")[1])) for line in won.splitlines()]
    outputs = len(pairs) // len(rows)
    for n, words in enumerate(pairs):
        wanted = "won" if str(n % outputs) in rows[n // outputs] else "lost"
        check.holds("pair %d, %s" % (n, path), re.match(r"old %d\b.*, new %d\b.*?, %s: " % (n // outputs, n % outputs, wanted), words), words)


def random_game(rng):
    """Two graphs of a few states with a few moves each; some states have none."""
    def graph():
        states = rng.randint(2, 9)
        row = lambda s: sorted(rng.sample(range(states), min(states, rng.choice((0, 1, 2, 2, 3)))))
        return [(int(s == 0 or rng.random() < 0.2), row(s)) for s in range(states)]

    def sets(states):
        return " ".join("(%s)" % " ".join(map(str, sorted(rng.sample(range(states), rng.randint(1, min(3, states)))))) for _ in range(rng.randint(1, 2)))

    inputs, outputs = graph(), graph()
    return game(inputs, outputs, [(sets(len(inputs)), sets(len(outputs))) for _ in range(rng.randint(0, 3))])


def keyboard(check, browser, command):
    """Case 6 with keys alone: digits, arrows and Enter, undo, why, help, the other answer."""
    from selenium.webdriver.common.keys import Keys

    browser.open(command.page(ROOT / "examples/too_early.game"))
    told = lambda: browser.run(LINES)
    browser.key("0")
    check.same("a digit picks", told()["said"][0], "Old drive: 0 standby. New drive: 0 standby.")
    check.same("the panel's move is drawn before the answer", browser.run(
        "return [document.querySelector('#old .state.next').dataset.state, document.querySelectorAll('#new .state.may').length, "
        "document.querySelector('#old .move.next').dataset.to]"), ["1", 2, "1"])
    browser.key(Keys.ARROW_RIGHT, Keys.ARROW_RIGHT, Keys.ENTER)
    check.same("arrows and Enter pick", told()["said"][0], "Old drive: 1 prime. New drive: 2 supply.")
    browser.key("w")
    check.holds("w says why", told()["told"][0].startswith("Why: lost: the panel can go to 2 drain"), told())
    browser.key("2", "2", "2")
    check.holds("a round is closed", "You have lost: the new drive breaks requirement 0." in told()["round"], told())
    check.same("the round is lit in both graphs", browser.run("return ['old', 'new'].map(id => [...document.querySelectorAll('#' + id + ' .state.round')].map(e => e.dataset.state).join())"), ["2", "2"])
    check.same("who has lost is the heading", browser.run("return document.getElementById('play-head').textContent"), "You have lost")
    browser.key("u")
    check.same("u takes it back", told()["round"], [])
    browser.key("o")
    check.same("o goes back to the choice", told()["picks"], [1, 2])
    check.same("what was tried is told", browser.run("return document.querySelector('[data-pick=\"2\"]').textContent"), "2 supply tried")
    browser.key("?")
    check.same("? opens the keys", browser.run("return document.getElementById('keys').open"), True)
    browser.key(Keys.ESCAPE)
    check.same("Escape closes them", browser.run("return document.getElementById('keys').open"), False)
    browser.key("h")
    check.same("h hints", told()["told"][1], "1 drain: gives up requirement 1, for supply cannot recur.")
    browser.key("u", "u", "u")
    check.same("nothing to undo", told()["told"], ["There is nothing to take back."])
    browser.open(command.page(ROOT / "examples/station.game"), "#0.1")
    browser.key("3")
    check.holds("the station by a digit", told()["said"][0].startswith("Old drive: 3 a_on_b_on."), told())
    lines = ["(game 1 13 1)", "(in 0 1 (0))"] + ["(out %d %d (%s))" % (s, s == 0, "1 12" if s == 0 else s) for s in range(13)] + ["(if ((0)) ((0)))"]
    path = command.folder / "digits.game"
    path.write_text("\n".join(lines) + "\n")
    browser.open(command.page(path), "#0")
    browser.key("1")
    check.same("a number that can go on waits", told()["picks"], [1, 12])
    browser.key("2")
    check.holds("two digits", "New drive: 12." in told()["said"][0], told())
    browser.open(command.page(path), "#0")
    browser.key("1", Keys.ENTER)
    check.holds("a digit and Enter", "New drive: 1." in told()["said"][0], told())


def address(check, browser, command):
    """The fragment holds the walk; what is no walk is left out."""
    page = command.page(ROOT / "examples/too_early.game")
    browser.open(page)
    for pick in (0, 1, 1):
        browser.run("document.querySelector('[data-pick=\"' + arguments[0] + '\"]').click()", pick)
    check.same("the fragment", browser.run("return location.hash"), "#0.1.1")
    there = browser.run(LINES)
    browser.open(page, "#0.1.1")
    check.same("the same position from its address", browser.run(LINES), there)
    for wrong in ("#7", "#0.0", "#x", "#0.1.2.1", "#%3Cscript%3E"):
        browser.open(page, wrong)
        check.holds("an address that is no walk, " + wrong, len(browser.run(LINES)["said"]) >= 2, browser.run(LINES))
    check.same("undo by the button", (browser.open(page, "#0.1"), browser.run("document.getElementById('undo').click(); return location.hash"))[1], "#0")


def saved(check, browser, command):
    """The two recordings: a name a line."""
    browser.open(command.page(ROOT / "examples/flush.game"), "#0.1.0")
    browser.run("document.getElementById('save').click()")
    files = [command.folder / ("flush." + end) for end in ("inputs", "outputs")]
    until = time.monotonic() + 20
    while time.monotonic() < until and not all(one.exists() for one in files):
        time.sleep(0.1)
    names = [[line for line in one.read_text().splitlines() if not line.startswith("#")] if one.exists() else None for one in files]
    check.same("the saved walk", names, [["pump", "flush", "pump"], ["pump", "flush", "pump"]])


def pointed(check, browser, command):
    """Clicks on states and on the map."""
    from selenium.webdriver.common.action_chains import ActionChains
    from selenium.webdriver.common.by import By

    browser.open(command.page(ROOT / "examples/too_early.game"), "#0")
    find = lambda selector: browser.driver.find_element(By.CSS_SELECTOR, selector)
    find("#new .state[data-state='1'] rect").click()
    check.same("a click on a state picks", browser.run("return location.hash"), "#0.1")
    find("#old .state[data-state='3'] rect").click()
    because = lambda: browser.run("return document.getElementById('because').textContent")
    check.holds("a click on another state asks", because().startswith("old 3 supply, new 1 drain, lost: "), because())
    grid = find("#grid")
    browser.run("arguments[0].scrollIntoView({block: 'center'})", grid)
    place = browser.run("const g = arguments[0], b = g.getBoundingClientRect(), k = b.width / g.viewBox.baseVal.width, c = Number(g.dataset.cell);"
                        "return [(Number(g.dataset.left) + c * 1.5) * k - b.width / 2, (Number(g.dataset.top) + c * 2.5) * k - b.height / 2];", grid)
    ActionChains(browser.driver).move_to_element_with_offset(grid, *map(int, place)).click().perform()
    check.holds("a click on the map asks", because().startswith("old 2 drain, new 1 drain, won: "), because())
    shown = "return getComputedStyle(document.querySelector('#grid .won')).visibility"
    check.same("what is won is hidden", browser.run(shown), "hidden")
    browser.key("m")
    check.same("and shown", browser.run(shown), "visible")


def printed(check, browser, command):
    """A PDF with both graphs, the requirements, the table and the walk."""
    for example, wanted in (("too_early", ["prime", "Requirement 1", "if 0", "then 1", "old 1 prime, new 2 supply", "3 supply · 0", "BROKEN"]),
                            ("station", ["Requirement 2", "76 ", "old 0 a_off_b_off", "61 a_flush_b_fill"])):
        browser.open(command.page(ROOT / ("examples/%s.game" % example)), "#0.2.2.2.2" if example == "too_early" else "#0.1")
        pdf = base64.b64decode(browser.cdp("Page.printToPDF", printBackground=False)["data"])
        check.holds("a PDF", pdf.startswith(b"%PDF") and len(pdf) > 10000, len(pdf))
        path = command.folder / "page.pdf"
        path.write_bytes(pdf)
        try:
            text = subprocess.run(["pdftotext", "-layout", str(path), "-"], capture_output=True, timeout=LIMIT).stdout.decode()
        except OSError:
            # without pdftotext what the printed page shows is read from the page itself
            browser.cdp("Emulation.setEmulatedMedia", media="print")
            text = browser.run("return document.body.innerText + [...document.querySelectorAll('svg text')].map(e => e.textContent).join(' ')")
            browser.cdp("Emulation.setEmulatedMedia", media="")
        text = re.sub(r"\s+", " ", text)
        for words in wanted:
            check.holds("on paper, %s, %s" % (example, words), words in text, text[:3000])


def without_script(check, browser, command):
    browser.cdp("Emulation.setScriptExecutionDisabled", value=True)
    browser.open(command.page(ROOT / "examples/too_early.game"))
    browser.cdp("Emulation.setScriptExecutionDisabled", value=False)
    text = browser.run("return document.body.innerText")
    for words in ("No adapter exists", "Requirement 1: if supply recurs", "3 supply · 0", "Without a script"):
        check.holds("without a script, " + words, words in text, text)
    check.same("both drawings, without a script", browser.run("return document.querySelectorAll('figure svg .state').length"), 7)
    check.holds("nothing that needs a script", "Your turn" not in text, text)


def breaking_out(check, browser, command):
    """A file's name with everything that HTML and scripts care for, and all letters that a name may have."""
    folder = command.folder / "names"
    folder.mkdir()
    evil = """</script><script>document.title='broken'<!-- " ' & {title} ]]> ` $& \u2028 é 日本.game""".replace("/", "\u2215")
    text = (ROOT / "examples/too_early.game").read_bytes()
    (folder / evil).write_bytes(text)
    letters = ["AZaz09", "constructor", "z" * 32, "__proto__"[2:7]]
    (folder / (evil[:-5] + ".names")).write_text("".join("(in %d %s)\n" % (s, name) for s, name in enumerate(letters)) + "(out 0 then_0)\n(out 1 script)\n(out 2 hasOwnProperty)\n")
    page = command.page(folder / evil, "evil.html")
    browser.open(page, "#0")
    check.same("the title is the file's name", browser.run("return document.querySelector('h1').textContent"), evil[:-5])
    check.holds("the page plays", browser.run(LINES)["said"][0] == "Old drive: 0 AZaz09. New drive: 0 then_0.", browser.run(LINES))
    check.same("three scripts of its own", browser.run("return document.scripts.length"), 2)
    page_text = page.read_text()
    policy = re.search(r'http-equiv="Content-Security-Policy" content="([^"]*)"', page_text).group(1)
    check.holds("the policy", policy.startswith("default-src 'none'; script-src 'sha256-"), policy)
    check.same("no address in the page", re.findall(r"""(?:src|href)\s*=\s*["'][^"']*|url\((?!#)[^)]*|@import""", page_text), [])
    check.same("the same page again", command.page(folder / evil, "again.html").read_bytes(), page.read_bytes())
    # letters of any language, where names may have them
    (folder / "letters.game").write_bytes(text)
    (folder / "letters.names").write_text("(in 0 Prüfung)\n(in 1 насос)\n(in 2 排水)\n(in 3 供給)\n", encoding="utf-8")
    if subprocess.run([command.command, "explain", str(folder / "letters.game")], capture_output=True).returncode == 1:
        browser.open(command.page(folder / "letters.game"), "#0.1")
        check.holds("letters of any language", browser.run(LINES)["said"][0].startswith("Old drive: 1 насос."), browser.run(LINES))


CONTRAST = """
const rgb = c => c.match(/[\\d.]+/g).slice(0, 3).map(Number), bright = c => { const [r, g, b] = rgb(c).map(v => v / 255).map(v => v <= .03928 ? v / 12.92 : ((v + .055) / 1.055) ** 2.4); return .2126 * r + .7152 * g + .0722 * b; };
const behind = e => { for (; e; e = e.parentElement) { const c = getComputedStyle(e).backgroundColor; if (!/, 0\\)$/.test(c) && c !== "transparent") return c; } return "rgb(255, 255, 255)"; };
const low = [];
for (const e of document.querySelectorAll("body *")) {
  const own = [...e.childNodes].some(n => n.nodeType === 3 && n.textContent.trim());
  if (!own || !e.getClientRects().length || e.closest("svg") || e.matches(":disabled, :disabled *, script, style, option")) continue;
  const [a, b] = [bright(getComputedStyle(e).color), bright(behind(e))], ratio = (Math.max(a, b) + .05) / (Math.min(a, b) + .05);
  if (ratio < 4.5) low.push(e.tagName + " " + e.className + " " + ratio.toFixed(2) + " " + e.textContent.slice(0, 30));
}
for (const e of document.querySelectorAll("svg text")) {
  const box = e.closest(".state"), rect = box && box.querySelector("rect");
  const [a, b] = [bright(getComputedStyle(e).fill), bright(rect ? getComputedStyle(rect).fill : behind(e.closest("section") || document.body))], ratio = (Math.max(a, b) + .05) / (Math.min(a, b) + .05);
  if (ratio < 4.5) low.push("svg " + e.textContent + " " + ratio.toFixed(2));
}
return low;
"""


def seen(check, browser, command):
    """Contrast by WCAG AA in light and dark, and nothing wider than the window at 360 pixels."""
    for example, walk in (("too_early", "#0.2.2.2.2"), ("flush", "#0.1"), ("station", "#0.1")):
        page = command.page(ROOT / ("examples/%s.game" % example))
        for scheme in ("light", "dark"):
            for width in (1200, 360):
                browser.window(width, scheme)
                browser.open(page, walk)
                browser.run("document.getElementById('why').click()")
                where = "%s, %s, %d" % (example, scheme, width)
                check.same("contrast, " + where, browser.run(CONTRAST), [])
                check.same("width, " + where, browser.run("return document.documentElement.scrollWidth"), width)
    browser.window(1200)


# Work like a page's: text is read, tables are gone through, and a list is laid out.
YARDSTICK = """
const rows = JSON.parse("[" + Array.from({ length: 100000 }, (_, n) => n % 997).join() + "]");
let sum = 0;
for (let n = 0; n < 3000000; n++) sum = (31 * sum + rows[n % rows.length]) | 0;
const box = document.createElement("div");
for (let n = 0; n < 3000; n++) box.append(document.createElement("span"), String((sum + n) % 1000), " ");
document.body.append(box);
box.getBoundingClientRect();
box.remove();"""
# What the limits are for. It was not measured where they were set, but reckoned: there the slowest page took 91 ms of
# work; a machine on which it takes 227 to 241 takes 75 to 110 for this. It is a little lower than these make it.
YARDSTICK_MS = 25

CLICKS = """
const times = [];
for (let n = 0; n < 12; n++) {
  const buttons = document.querySelectorAll("#moves button");
  if (!buttons.length) break;
  const from = performance.now();
  buttons[n % buttons.length].click();
  document.body.getBoundingClientRect();
  times.push(performance.now() - from);
}
return times;"""


def largest(check, browser, command):
    """The longest tables, 128 by 128 with 32 sets on each side: 2 MB at most, opened and answering a click in 100 ms."""
    rng = random.Random(7)
    full = [(1, sorted(rng.sample(range(128), 3) + [s])) for s in range(128)]
    full = [(1, sorted(set(row))) for _, row in full]
    apart = [(1, [s]) for s in range(128)]
    stepping = [(int(s == 0), sorted({s, min(s + 1, 127)})) for s in range(128)]
    sets = lambda: " ".join("(%s)" % " ".join(map(str, sorted(rng.sample(range(128), 6)))) for _ in range(4))
    lone = lambda: " ".join("(%d)" % rng.randrange(128) for _ in range(4))
    wide = lambda: " ".join("(%s)" % " ".join(map(str, sorted(rng.sample(range(128), 127)))) for _ in range(4))
    games = [("mixed", game(full, full, [(sets(), sets()) for _ in range(8)])),
             ("wide", game(full, full, [(wide(), wide()) for _ in range(8)])),
             ("apart", game(apart, full, [(lone(), sets()) for _ in range(8)])),
             ("stepping", game(stepping, full, [(sets(), sets()) for _ in range(8)]))]
    slowness = browser.slowness()
    print("a fixed piece of work takes %.1f times as long as the limits are for" % slowness)
    for name, text in games:
        path = command.folder / (name + ".game")
        path.write_bytes(text)
        (command.folder / (name + ".names")).write_text("".join("(%s %d a_mode_of_the_%s_drive_it_%03d)\n" % (side, s, (side + "t")[:3], s) for side in ("in", "out") for s in range(128)))
        page = command.page(path)
        size = page.stat().st_size
        work, opened = min(browser.timed(page) for _ in range(3))
        clicks = [browser.run(CLICKS) for _ in range(3)]
        entries = browser.run("const t = JSON.parse(document.getElementById('data').textContent).table;"
                              "return atob(t.starts).length / 2 + atob(t.blockOf).length / 2 * t.width")
        # the middle one of a dozen clicks, in the quietest of three times
        click = min(sorted(times)[len(times) // 2] for times in clicks if times)
        print("page of %s: %d bytes, opened in %.0f ms (%.0f ms of work), a click answered in %.0f ms" % (name, size, opened, work, click))
        check.holds("2 MB, " + name, size <= 2_000_000, size)
        check.holds("the longest table, " + name, entries in (524_416, 524_289), entries)
        # the work is held to the limit, for the rest is waiting for a core; where more runs than there are cores, as in the gate, the work itself takes longer
        limit = 200 if os.getloadavg()[0] > (os.cpu_count() or 1) else 100
        check.holds("opened in %d ms, %s" % (limit, name), work < limit * slowness, (work, slowness))
        check.holds("a click in 100 ms, " + name, click < 100, clicks)


def course(check, command):
    """The lesson of docs/COURSE.md uses pages that there are, and quotes what they say."""
    lesson = re.sub(r"\s+", " ", (ROOT / "docs/COURSE.md").read_text())
    for name in sorted(set(re.findall(r"`(\w+)\.html`", lesson))):
        check.holds("a page of the course, " + name, (ROOT / ("examples/%s.game" % name)).exists())
    said = " ".join(command.play(ROOT / "examples/too_early.game", ["0", "why"])[2])
    quoted = re.search(r'Then `w`: "(.*?)"', lesson).group(1)
    check.holds("what the lesson quotes", quoted in said, said)
    won = subprocess.run([command.command, "map", str(ROOT / "examples/flush_too_late.game")], capture_output=True).stdout.decode()
    check.holds("every pair with economy is lost", "economy" not in won and "pump" in won, won)
    won = subprocess.run([command.command, "map", str(ROOT / "examples/too_early.game")], capture_output=True).stdout.decode()
    check.holds("standby with drain is won", "old drain: won with new standby drain" in won, won)


def statuses(check, command):
    """0 where the page was written, also where no adapter exists; refused games as everywhere."""
    run = lambda *words, **how: subprocess.run([command.command, "page", *words], capture_output=True, timeout=LIMIT, cwd=ROOT, **how)
    check.same("status", run("examples/latch.game").returncode, 0)
    check.same("status, from a pipe", run("-", input=(ROOT / "examples/latch.game").read_bytes()).returncode, 0)
    got = run("-", input=b"(game 1 1 0)\n")
    check.same("refused", (got.returncode, got.stdout, b"refused 11" in got.stderr), (2, b"", True))
    check.same("no file", (run("nothing.game").returncode, run().returncode, run("--names").returncode), (3, 2, 2))
    with open("/dev/full", "wb") as full:
        check.same("a full disk", subprocess.run([command.command, "page", "examples/latch.game"], stdout=full, stderr=subprocess.PIPE, cwd=ROOT).returncode, 3)


def main():
    if len(sys.argv) not in (2, 3):
        sys.exit("usage: tests/page.py NANPUWIQ [SEED]")
    check, rng = Checks("page"), random.Random(int(sys.argv[2]) if len(sys.argv) == 3 else 1)
    if not browser_there():
        print("page: skipped, for no package of a browser can be had")
        return
    with tempfile.TemporaryDirectory() as folder:
        command, browser = Command(str(pathlib.Path(sys.argv[1]).resolve()), pathlib.Path(folder)), None
        try:
            browser = Browser(command.folder)
            browser.window(1200)
            statuses(check, command)
            course(check, command)
            for path in EXAMPLES:
                beside(check, browser, command, path, rng, 14)
                browser.gather()
            for name, text, _ in prints():
                path = ROOT / name
                if "examples" not in path.parts:
                    beside(check, browser, command, path, rng, 6)
            for number in range(20):
                path = command.folder / ("random_%d.game" % number)
                path.write_bytes(random_game(rng))
                beside(check, browser, command, path, rng, 10)
                browser.gather()
            for path in EXAMPLES:
                every_pair(check, browser, command, path)
            for test in (keyboard, address, saved, pointed, printed, without_script, breaking_out, seen, largest):
                test(check, browser, command)
                browser.gather()
        finally:
            if browser:
                browser.driver.quit()
        check.same("the console", browser.said, [])
        other = [url for url in browser.asked if not url.startswith(("file://%s/" % folder, "blob:", "about:", "data:,"))]
        check.same("nothing is asked for", other, [])
        check.holds("what was asked for was seen", len(browser.asked) > 50, len(browser.asked))
    check.end()


if __name__ == "__main__":
    main()

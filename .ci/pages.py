#!/usr/bin/env python3
"""Loads the page of each trace in a browser: pages.py PROGRAM TRACE.., with the path of the built program.

Read back is what a reader sees. The page opens at the worst moment: its heading, its line and its numbers there have to
be those of the program, which answers `val`, `snap` and a report of totals for the trace up to that line. Where nothing
is off it opens at the first answer, and shows them all. So have all plain values and snapshots of the page's tables,
against `val` and `snap` lines that tools/probe.py puts into the trace, and what the trace's own lines answer. The lanes
have the focus, lines that race are said to be in the order of the file, and of other counters the charts are open that
are off by a tenth of the furthest or more, six at most. At 400 pixels no text is lower than 11 pixels, none lies on
another one, nothing lies over a chart, and the page is no wider. Of the first trace, keys, pointer and taps have to
choose the lines that they are for, and texts have to stand out in light and in dark colours. Whatever a page says to
the console fails. Where no Chromium is installed, the pages are made and not loaded."""
import html
import json
import os
import pathlib
import re
import shutil
import subprocess
import sys
import tempfile

TOOLS = pathlib.Path(__file__).resolve().parent.parent / "tools"
sys.path.insert(0, str(TOOLS))
import page  # noqa: E402
import vmtrace  # noqa: E402

BROWSERS = ("chromium", "chromium-browser", "google-chrome")
NARROW, WINDOW, LIGHT, DARK = 400, "1200,900", "1", "0"
# The pages ask nothing of other machines, and the browser is to ask nothing for itself.
OFFLINE = ("--disable-background-networking", "--disable-component-update", "--disable-sync", "--no-first-run",
           "--no-default-browser-check", "--host-resolver-rules=MAP * ~NOTFOUND")
# As root Chromium refuses to start with its sandbox, so root alone goes without.
SANDBOX = () if os.geteuid() else ("--no-sandbox",)
# A browser's own window is wider than a phone, so a narrow page stands in a frame, out of which its trial is copied.
FRAME = """<!DOCTYPE html><iframe style="width: {width}px; height: 880px; border: 0" srcdoc="{page}"></iframe>
<pre id="read"></pre><script>onload = () => {{
  const inside = document.querySelector("iframe").contentDocument;
  document.getElementById("read").textContent = inside.getElementById("tried").textContent; }};</script>"""
READING = re.compile(r"line (\d+): (value|snapshot) (\d+)$")
ANSWER = re.compile(r"line (\d+): (?!report |refused: )(.*)$")
MOST_OPEN = 6
ANSWERED = {"val": ("plain value", "value"), "snap": ("snapshot", "snapshot"), "rough": ("count", "count"),
            "sum": ("true total", "sum"), "evsum": ("sum over the online CPUs", "events")}
# What stands below a page that is tried. It writes what the page shows when it opens, its tables, what is wrong with
# texts and charts, which lines keys, pointer and taps chose, and the colours of texts and of what is behind them.
KEYS = ("Home", "ArrowRight", "ArrowDown", "End", "ArrowLeft", "ArrowUp", "Home", "PageDown", "PageUp", "a")
TRIAL = """<pre id="tried"></pre><script>{
const seen = (name) => document.querySelector(name).textContent;
const slider = document.getElementById("picture"), told = () => Number(slider.getAttribute("aria-valuenow"));
const terms = [...document.querySelectorAll("dt")].map((term) => [term.textContent, term.nextSibling.textContent]);
const cells = (rows) => [...rows].map((row) => [...row.children].map((cell) => cell.textContent));
const opened = { heading: seen("h1"), line: told(), terms, focus: document.activeElement.id,
  text: document.body.innerText, answers: cells(document.querySelectorAll("#answers tbody tr")),
  shown: [...document.querySelectorAll("#others .numbers")].map((numbers) => numbers.dataset.name) };

for (const folded of document.querySelectorAll(".counter")) {
  folded.open = true;
  folded.dispatchEvent(new Event("toggle")); }
const tables = [...document.querySelectorAll(".numbers")].map((details) => {
  details.open = true;
  details.dispatchEvent(new Event("toggle"));
  return [details.dataset.name, cells(details.querySelectorAll("tr"))]; });

const faults = [], texts = [...document.body.querySelectorAll("*")].filter((element) => element.id !== "tried"
  && !element.matches("script, style")
  && [...element.childNodes].some((node) => node.nodeType === 3 && node.data.trim()));
for (const element of texts) {
  const high = parseFloat(getComputedStyle(element).fontSize) * (element.getScreenCTM?.().a ?? 1);
  if (high < 11) faults.push(`${element.textContent} is ${high} pixels high`); }
const charts = [...document.querySelectorAll("main svg")].filter((drawn) => !drawn.closest(".legend"));
for (const drawn of charts) {
  for (let n = 0; n < 200; n++) {
    if (n % 100 === 0) drawn.scrollIntoView({ block: n ? "end" : "start" });
    const box = drawn.getBoundingClientRect();
    const x = box.x + box.width * (n % 10 + 0.5) / 10, y = box.y + box.height * (Math.floor(n % 100 / 10) + 0.5) / 10;
    const isSeen = y > 0 && y < innerHeight;
    if (isSeen && !drawn.contains(document.elementFromPoint(x, y))) faults.push(`a chart is covered at ${x}, ${y}`); }
  const box = drawn.getBoundingClientRect();
  const labels = [...drawn.querySelectorAll("text")].map((label) => [label.textContent, label.getBoundingClientRect()]);
  labels.forEach(([one, at], n) => labels.slice(n + 1).forEach(([other, to]) => {
    if (at.left < to.right - 1 && to.left < at.right - 1 && at.top < to.bottom - 3 && to.top < at.bottom - 3) {
      faults.push(`'${one}' lies on '${other}'`); }
    if (at.left < box.left - 1 || at.right > box.right + 1) faults.push(`'${one}' is cut`); })); }
if (document.documentElement.scrollWidth > innerWidth) faults.push("the page is wider than its window");

const pressed = KEYS.map((key) => {
  slider.dispatchEvent(new KeyboardEvent("keydown", { key, bubbles: true, cancelable: true })); return told(); });
slider.dispatchEvent(new KeyboardEvent("keydown", { key: "Escape" }));
pressed.push(told());
const lanes = slider.querySelector("svg"), marks = [...lanes.querySelectorAll(".at")];
const sent = (type, mark) => {
  const at = mark.getBoundingClientRect(), clientX = at.x + at.width / 2;
  lanes.dispatchEvent(type === "click" ? new MouseEvent(type, { clientX })
    : new PointerEvent(type, { clientX, pointerType: "mouse" })); return told(); };
const pointed = marks.map((mark) => sent("pointermove", mark));
const tapped = [["click", 1], ["pointermove", 0], ["click", 2], ["click", 2], ["pointermove", 0]].map(
  ([type, n]) => sent(type, marks[n % marks.length]));

const colours = [["body", "body"], [".quiet", "body"], [".legend li", "body"], ["#chosen code", "#told"],
  ["#chosen .quiet", "#told"], ["dd", "#told"], ["#back", "#back"]].map(([text, behind]) =>
  [getComputedStyle(document.querySelector(text)).color,
    getComputedStyle(document.querySelector(behind)).backgroundColor]);
colours.push([getComputedStyle(document.querySelector("main svg text")).fill, colours[0][1]]);
document.getElementById("tried").textContent = JSON.stringify(
  { opened, tables, faults, width: innerWidth, pressed, pointed, tapped, colours });
}</script>""".replace("KEYS", json.dumps(KEYS))


def run(*command, text=None):
    ended = subprocess.run(command, input=text, capture_output=True, text=True, timeout=120, check=False)
    return ended.returncode, ended.stdout, ended.stderr


def narrow_of(file):
    return file.with_stem(file.stem + "-narrow")


def made(program, trace, to):
    """The page of the trace, and what it has for its script."""
    status, text, errors = run(sys.executable, "-B", str(TOOLS / "page.py"), "--program", program, trace)
    if status:
        raise SystemExit(f"{trace}: {errors}")
    text = text.replace("</body>", TRIAL + "</body>")
    to.write_text(text, encoding="ascii")
    narrow_of(to).write_text(FRAME.format(width=NARROW, page=html.escape(text)), encoding="ascii")
    return json.loads(re.search(r'id="data">(.*?)</script>', text, re.S)[1])


def loaded(browser, file, scheme, anchor=""):
    """What is tried on the page, once it is loaded, where light or where dark colours are preferred.

    The browser has a profile of its own.
    """
    home = tempfile.mkdtemp(prefix="profile", dir=file.parent)
    status, dom, errors = run(browser, "--headless=new", "--disable-gpu", *OFFLINE, *SANDBOX,
                              f"--user-data-dir={home}", "--enable-logging=stderr", f"--window-size={WINDOW}",
                              f"--blink-settings=preferredColorScheme={scheme}", "--dump-dom", file.as_uri() + anchor)
    said = [line for line in errors.splitlines() if "CONSOLE" in line]
    found = re.search(r'<pre id="(?:tried|read)">({.+?})</pre>', dom, re.S)
    if status or said or not found:
        raise SystemExit(f"{file.name}: status {status}: {said or errors}")
    return json.loads(html.unescape(found[1]))


def number(text):
    """The number with which a text of the page begins."""
    return int(re.match(r"[+\u00b1]?(\u2212?[\d,]+)", text)[1].replace(",", "").replace("\u2212", "-"))


def expect(what, found, wanted):
    if found != wanted:
        raise SystemExit(f"{what}: {found}, and not {wanted}")


def answered(program, trace, counter):
    """What the program answers to `val` and `snap` of the counter below each line of the trace, by line."""
    _, probed, _ = run(sys.executable, "-B", str(TOOLS / "probe.py"), trace, counter, "1")
    _, output, _ = run(program, "replay", text=probed)
    read = {int(found[1]): int(found[3]) for line in output.splitlines() if (found := READING.match(line))}
    answers, below, added = {}, 0, {f"k val {counter}", f"k snap {counter}"}
    own = vmtrace.lines_of(trace)
    for at, line in enumerate(probed.splitlines(), 1):
        if below < len(own) and line == own[below] and line not in added:
            below += 1
        elif at in read:
            answers.setdefault(below, []).append(read[at])
    return {line: tuple(pair) for line, pair in answers.items() if len(pair) == 2}


def told_below(program, trace, line, counter):
    """The plain value and the true total of a counter of pages below a line, as the program answers them."""
    text = "\n".join([*vmtrace.lines_of(trace)[:line], f"k val {counter}", "report totals", ""])
    _, output, _ = run(program, "replay", text=text)
    value = re.search(rf"^line {line + 1}: value (\d+)$", output, re.M)[1]
    return int(value), int(re.search(rf"^{counter} (-?\d+)$", output, re.M)[1])


def rows_of(table):
    """The rows of one of the page's tables, by line: texts by the names of their columns."""
    heads, *rows = table
    return {number(row[0]): dict(zip(heads, row)) for row in rows}


def row_at(rows, line):
    return rows[max(begin for begin in rows if begin <= line)]


def check_worst(program, trace, figure, rows, opened):
    """The page opens at the worst moment of its first counter, which its table and the program tell too."""
    offs = {line: number(row["off by"]) for line, row in rows.items()}
    most = max(map(abs, offs.values()))
    terms, line = dict(opened["terms"]), opened["line"]
    for name in ("true total", "off by", "proved bound"):
        expect(f"{trace}: {name} of line {line}", terms[name].lstrip("\u00b1").split(", ")[0], row_at(rows, line)[name])
    if not most:
        expect(f"{trace}: heading", opened["heading"][:9], "Never off")
        check_answers(program, trace, opened)
        return
    expect(f"{trace}: the first line", line, min(at for at, off in offs.items() if abs(off) == most))
    says = re.match(r"Off by ([\d,]+).*? at lines? (\d+)", opened["heading"])
    expect(f"{trace}: heading {opened['heading']}", (number(says[1]), int(says[2])), (most, line))
    if figure["law"] == "pages":
        value, total = told_below(program, trace, line, figure["name"])
        shown = number(terms["plain value"]), number(terms["true total"])
        expect(f"{trace}: plain value and true total of line {line}", shown, (value, total))


def check_answers(program, trace, opened):
    """A page of a trace in which nothing is off opens at the first answer of the program, and shows them all."""
    _, output, _ = run(program, "replay", text="\n".join([*vmtrace.lines_of(trace), ""]))
    found = [ANSWER.match(line) for line in output.splitlines()]
    answers = [[f"{int(one[1]):,}", one[2]] for one in found if one]
    expect(f"{trace}: answers", [[row[0], row[2]] for row in opened["answers"]], answers)
    if answers:
        expect(f"{trace}: the first line", f"{opened['line']:,}", answers[0][0])


def check_order(trace, data, opened):
    """Where lines of several lanes stand in a phase, the page says in which order they come; else it doesn't."""
    racing, lanes = False, {}
    for line, row, _, answer in data["lines"]:
        if row == page.BETWEEN and not answer.startswith("refused"):
            lanes = {}
        elif not answer.startswith("refused"):
            lanes[row] = line
            racing |= len(lanes) > 1
    expect(f"{trace}: the order is told", "in the order of the file" in opened["text"], racing)


def check_shown(trace, figures, opened):
    """Which charts of other counters are open at first."""
    furthest = {}
    for figure in figures:
        furthest[figure["law"]] = max(furthest.get(figure["law"], 0), abs(figure["worst"]["off"]))
    large = [figure["name"] for figure in figures[1:]
             if abs(figure["worst"]["off"]) > max(1, furthest[figure["law"]] / 10)]
    expect(f"{trace}: open charts", opened["shown"], large[:MOST_OPEN])


def check_numbers(program, trace, figures, tables, lines):
    """The tables have what the program answers; gives back how many numbers were compared."""
    compared = 0
    for figure, rows in zip(figures, tables):
        answers = answered(program, trace, figure["name"]) if figure["law"] == "pages" else {}
        for line, pair in answers.items():
            row = row_at(rows, line)
            expect(f"{trace}:{line}: {figure['name']}", (number(row["plain value"]), number(row["snapshot"])), pair)
            compared += 1
        name = figure["name"].removeprefix("counter ").removeprefix("event ")
        for line, _, text, answer in lines:
            words = text.split()
            column, said = ANSWERED.get(" ".join(words[1:2]), ("", ""))
            if " ".join(words[2:]) == name and answer.startswith(f"{said} ") and column in row_at(rows, line):
                expect(f"{trace}:{line}: {figure['name']}", number(row_at(rows, line)[column]), int(answer.split()[1]))
                compared += 1
    return compared


def chosen_by_keys(shown, first):
    """The lines that the keys choose one after another, from the first view on, to which Escape leads back."""
    at = start = next(n for n, line in enumerate(shown) if line[0] == first)
    for key in KEYS:
        same = [n for n, line in enumerate(shown) if line[1] == shown[at][1]]
        beside = {"ArrowUp": [n for n in same if n < at][-1:],
                  "ArrowDown": [n for n in same if n > at][:1]}.get(key) or [at]
        steps = {"Home": 0, "End": len(shown) - 1, "ArrowLeft": at - 1, "ArrowRight": at + 1, "PageUp": at - 10,
                 "PageDown": at + 10}
        at = min(max(steps.get(key, beside[0]), 0), len(shown) - 1)
        yield shown[at][0]
    yield shown[start][0]


def contrast(*colours):
    """How much two colours differ in light, from 1 to 21, by the guidelines for content of the web (WCAG 2)."""
    lights = []
    for colour in colours:
        parts = [int(part) / 255 for part in re.findall(r"\d+", colour)[:3]]
        parts = [part / 12.92 if part <= 0.04045 else ((part + 0.055) / 1.055) ** 2.4 for part in parts]
        lights.append(0.05 + 0.2126 * parts[0] + 0.7152 * parts[1] + 0.0722 * parts[2])
    return max(lights) / min(lights)


def try_page(browser, file, data, narrow):
    """Keys, pointer and taps, and colours where light and where dark ones are preferred."""
    worst, shown = data["opens"], data["lines"]
    by_row = [line[0] for row in data["rows"] for line in shown if line[1] == row]
    wide = loaded(browser, file, DARK, f"#line={by_row[-1]}")
    expect(f"{file.name}: the line that the address names", wide["opened"]["line"], by_row[-1])
    for tried in (narrow, wide):
        expect(f"{file.name}: faults", tried["faults"], [])
        expect(f"{file.name}: pointed", tried["pointed"], by_row)
        expect(f"{file.name}: tapped", tried["tapped"], [by_row[1], by_row[1], by_row[2], worst, by_row[0]])
        faint = [pair for pair in tried["colours"] if contrast(*pair) < 4.5]
        expect(f"{file.name}: texts that don't stand out", faint, [])
    expect(f"{file.name}: pressed", narrow["pressed"], [*chosen_by_keys(shown, worst)])
    if narrow["colours"][0] == wide["colours"][0]:
        raise SystemExit(f"{file.name}: light and dark have the same colours, {wide['colours'][0]}")


def check(browser, program, trace, folder, is_first):
    file = folder / f"{pathlib.Path(trace).stem}.html"
    data = made(program, trace, file)
    if browser is None:
        return
    tried = loaded(browser, narrow_of(file), LIGHT)
    expect(f"{trace}: width and faults", (tried["width"], tried["faults"]), (NARROW, []))
    expect(f"{trace}: the focus", tried["opened"]["focus"], "picture")
    check_order(trace, data, tried["opened"])
    check_shown(trace, data["figures"], tried["opened"])
    tables = {name: rows_of(table) for name, table in tried["tables"]}
    expect(f"{trace}: counters", sorted(tables), sorted(figure["name"] for figure in data["figures"]))
    tables = [tables[figure["name"]] for figure in data["figures"]]
    check_worst(program, trace, data["figures"][0], tables[0], tried["opened"])
    compared = check_numbers(program, trace, data["figures"], tables, data["lines"])
    if not compared:
        raise SystemExit(f"{trace}: no number of the page was compared")
    if is_first:
        try_page(browser, file, data, tried)
    print(f"{trace}: {tried['opened']['heading']}; {compared} readings agree")


def main(program, *traces):
    browser = next(filter(None, map(shutil.which, BROWSERS)), None)
    if browser is None:
        print("skipped: no Chromium is installed, so the pages are made and not loaded")
    with tempfile.TemporaryDirectory() as folder:
        for place, trace in enumerate(traces):
            check(browser, program, trace, pathlib.Path(folder), place == 0)


if __name__ == "__main__":
    main(*sys.argv[1:])

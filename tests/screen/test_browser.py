"""The page in Chromium, as a person uses it: by keys and by mouse, narrow and wide, light and dark, on paper, with and without a server.

One browser serves all tests. Nothing may stand in its console but that a request was refused (422). With SCREEN_PICTURES=FOLDER the
pictures of the guides are written there.
"""

from __future__ import annotations

import base64
import contextlib
import io
import json
import os
import re
import signal
import time
from pathlib import Path

import pytest
from conftest import ROOT, SECONDS
from selenium import webdriver
from selenium.webdriver.chrome.options import Options
from selenium.webdriver.chrome.service import Service
from shahfureel import commands

VIEWS = ("dispatch", "refine", "plan", "run", "hand", "floors", "day")
FULL = {  # a view with all that it can show
    "dispatch": "",
    "refine": "&budget=100",
    "plan": "&plan=1",
    "run": "&step=5",
    "hand": "&outputs=10_8.6_0_5",
    "floors": "",
    "day": "&slots=dispatched",
}
SAID = {  # by what one sees that it is shown
    "dispatch": "document.getElementById('dispatch-words').children.length > 0",
    "refine": "document.querySelector('#refine-table tbody').children.length == 3",
    "plan": "document.querySelector('#plan-table tbody').children.length > 5",
    "run": "document.querySelector('#run-table tbody').children.length > 0",
    "hand": "['yes', 'no'].includes(document.getElementById('hand-words').dataset.verdict)",
    "floors": "document.querySelector('#floors-table tbody').children.length == 9",
    "day": "document.querySelector('#day-table tbody').children.length == 24",
}


IDLE = "document.getElementById('main').getAttribute('aria-busy') == 'false'"
KEYS = {"Tab": 9, "Enter": 13, "Space": 32, "PageDown": 34, "End": 35, "Home": 36, "ArrowUp": 38, "ArrowRight": 39, "ArrowDown": 40}
CELLS = "return [...document.querySelectorAll('#%s tbody tr')].map(r => [...r.children].map(c => c.textContent.trim()))"


def printed_by(name, *words):
    """The lines that a command prints of the harbour."""
    with contextlib.redirect_stdout(io.StringIO()) as sink:
        commands.main([name, str(ROOT / "examples/harbour.csv"), *words])
    return sink.getvalue().splitlines()


class Browser:
    """Chromium, and what a person sees in it."""

    def __init__(self):
        options = Options()
        options.binary_location = "/usr/bin/chromium"
        for word in ("--headless=new", "--no-sandbox", "--disable-gpu", "--hide-scrollbars", "--force-device-scale-factor=1"):
            options.add_argument(word)
        options.set_capability("goog:loggingPrefs", {"browser": "ALL"})
        self.driver = webdriver.Chrome(options=options, service=Service("/usr/bin/chromedriver"))
        self.driver.set_script_timeout(SECONDS)
        self.loads = 0

    def run(self, script, *given):
        return self.driver.execute_script(script, *given)

    def devtools(self, name, **given):
        return self.driver.execute_cdp_cmd(name, given)

    def wait(self, condition, what=""):
        """Waits until a condition in the page is true."""
        script = f"const done = arguments[1], until = Date.now() + 1000 * arguments[0];" \
            f" const look = () => ({condition}) ? done(true) : Date.now() > until ? done(false) : setTimeout(look, 10); look();"
        assert self.driver.execute_async_script(script, SECONDS - 1), (what or condition, self.run("return document.body.innerText"))

    def wait_text(self, name, part):
        self.wait(f"document.getElementById({json.dumps(name)}).textContent.includes({json.dumps(part)})", f"{name}: {part}")

    def text(self, name):
        return self.run("return document.getElementById(arguments[0]).textContent", name)

    def shown(self, name):
        return self.run("return document.getElementById(arguments[0]).checkVisibility()", name)

    def open(self, url, view=None):
        """Loads a page anew; with a view, until that shows its answer. The server ignores the query, and the browser does not."""
        self.loads += 1
        self.driver.get(url.replace("/#", "/?#").replace("/?", f"/?{self.loads}") if "#" in url else f"{url}?{self.loads}")
        if view:
            self.see(view)

    def see(self, view):
        self.wait(f"document.getElementById('tab-{view}').getAttribute('aria-selected') == 'true' && {IDLE} && {SAID[view]}", view)

    def go(self, view, more=""):
        """Follows a link within the page."""
        self.run("location.hash = arguments[0]", f"demand=23.5&view={view}{FULL[view]}{more}")
        self.see(view)

    def press(self, *names):
        """Presses keys, wherever the focus is."""
        for name in names:
            key = {"key": " " if name == "Space" else name, "code": name, "windowsVirtualKeyCode": KEYS[name]}
            text = {"Enter": {"text": "\r"}, "Space": {"text": " "}}.get(name, {})
            self.devtools("Input.dispatchKeyEvent", type="keyDown" if text else "rawKeyDown", **key, **text)
            if name != "Tab":  # which acts when it goes down
                self.devtools("Input.dispatchKeyEvent", type="keyUp", **key)

    def write(self, text):
        """Types a text instead of the one in the field that has the focus."""
        self.run("document.activeElement.select()")
        self.devtools("Input.insertText", text=text)

    def focus(self):
        return self.run("return document.activeElement.id")

    def tab_to(self, name):
        """Presses the tab key until it is there."""
        for _ in range(60):
            if self.focus() == name:
                return
            self.press("Tab")
        raise AssertionError(f"the tab key does not lead to {name}")

    def click(self, name):
        """Clicks what can be seen and clicked."""
        can = "const one = document.getElementById(arguments[0]); return one.checkVisibility() && !one.disabled && (one.click(), true)"
        assert self.run(can, name), name

    def rows(self, table):
        return self.run(CELLS % table)

    def key_in(self, name, text):
        self.run("document.getElementById(arguments[0]).focus()", name)
        self.write(text)

    def ask_for(self, demand):
        self.key_in("demand", demand)
        self.press("Enter")

    def metrics(self, width=1280, height=900):
        self.devtools("Emulation.setDeviceMetricsOverride", width=width, height=height, deviceScaleFactor=1, mobile=False)

    def scheme(self, name):
        self.devtools("Emulation.setEmulatedMedia", features=[{"name": "prefers-color-scheme", "value": name}])

    def picture(self, path, whole=False):
        if whole:
            width, height = self.run("return [innerWidth, document.documentElement.scrollHeight]")
            self.metrics(width, height)
        path.write_bytes(base64.b64decode(self.devtools("Page.captureScreenshot", format="png")["data"]))
        assert path.read_bytes()[:4] == b"\x89PNG" and path.stat().st_size > 20_000

    def pages(self):
        """How many pages it is on paper."""
        self.devtools("Emulation.clearDeviceMetricsOverride")
        data = base64.b64decode(self.devtools("Page.printToPDF", preferCSSPageSize=True)["data"])
        return len(re.findall(rb"/Type\s*/Page\b(?!s)", data))

    def slow(self, name, milliseconds):
        """Has one call's answers come later, as those of a large site do."""
        self.run(
            """const real = window.fetch, [name, wait] = arguments;
            window.fetch = async (url, options) => {
              if (String(url).endsWith(name)) await new Promise((done, gone) => {
                setTimeout(done, wait);
                if (options.signal) options.signal.addEventListener("abort", () => gone(new DOMException("", "AbortError")));
              });
              return real(url, options);
            };""",
            name,
            milliseconds,
        )

    def console(self):
        """What stands in the console, but refusals."""
        lines = [entry["message"] for entry in self.driver.get_log("browser")]
        return [line for line in lines if "status of 422" not in line]


@pytest.fixture(scope="module")
def only():
    browser = Browser()
    yield browser
    browser.driver.quit()


@pytest.fixture
def page(only):
    """The browser at 1280 pixels in light; behind each test its console must be clean."""
    only.metrics()
    only.scheme("light")
    only.console()
    yield only
    assert only.console() == []


@pytest.fixture
def harbour_page(page, harbour):
    page.open(harbour.url, "dispatch")
    return page


@pytest.fixture
def own(start, page):
    """start(FILE, WORD...), with a page that goes before its server does."""
    yield start
    assert page.console() == []
    page.driver.get("about:blank")


# ---- a dispatch


def test_dispatch_shows_what_the_command_prints(harbour_page):
    page, printed = harbour_page, printed_by("dispatch", "23.5")
    parts = "return [...document.querySelectorAll('.set .%s')].map(part => part.textContent)"
    names, outputs = page.run(parts % "name"), page.run(parts % "value")
    assert [f"{name} {mw if mw == 'stands' else f'gives {mw}'}" for name, mw in zip(names, outputs)] == printed[:4]
    assert f"cost an hour: {page.text('cost')}" == printed[4]
    assert f"gap: at most so much above the best: {page.text('gap')}, {page.text('gap-percent')} of the cost" == printed[5]
    assert f"nobody covers this demand for less than {page.text('bound')}" == printed[6]
    assert f"surplus: {page.text('surplus')} MW" == printed[7]
    assert page.text("covers") == "24.4" and page.text("shown-demand") == "23.5"
    assert "great: up to 5.11 % of the cost could be saved" in page.text("gap-words")
    assert "the surplus is above 2 % of the demand" in page.text("warnings")
    assert page.text("site-name") == "harbour.csv" and "4 sets" in page.text("site-words")
    assert page.run("return document.querySelectorAll('.bar .zone').length") == 4
    assert page.run("return document.querySelectorAll('.bar .previous').length") == 4
    # diesel 2 gives 9.5 of 10.0
    assert page.run("return document.querySelectorAll('.set')[1].querySelector('.output').getAttribute('width')") == "95%"


def test_steps_of_the_demand_dispatch(harbour_page):
    page = harbour_page
    page.run("document.getElementById('demand').focus()")
    page.press("ArrowUp")
    page.wait_text("shown-title", "Dispatch of 23.6 MW")
    page.press("PageDown", "ArrowDown")
    page.wait_text("shown-title", "Dispatch of 22.5 MW")


def test_refused_demand_keeps_the_old_dispatch(harbour_page):
    page = harbour_page
    page.ask_for("30.8")
    page.wait_text("refusal", "cannot cover 30.8 MW; the most that they can cover now, after losses, is 30.4 MW")
    assert page.text("cost") == "1497.171250" and page.text("shown-demand") == "23.5"
    assert re.search(r"^Old Dispatch of 23\.5 MW, of \d\d:\d\d:\d\d\. 30\.8 MW was refused\.$", page.text("shown-old"))
    assert page.shown("shown-old") and page.run("return document.getElementById('summary').classList.contains('old')")
    assert re.search(r"What is shown below is old: Dispatch of 23\.5 MW, of \d\d:\d\d:\d\d\.", page.text("refusal"))
    page.ask_for("a lot")
    page.wait_text("refusal", "a lot")
    page.ask_for("24")
    page.wait_text("shown-title", "Dispatch of 24.0 MW")
    assert not page.shown("refusal") and not page.shown("shown-old")


# ---- by hand


def test_outputs_by_hand(harbour_page):
    page = harbour_page
    page.click("tab-hand")
    page.wait_text("hand-words", "as much as dispatch")  # filled with what was shown
    for index, mw in enumerate(("10", "8.6", "0", "5")):
        page.key_in(f"output-{index}", mw)
    page.wait_text("hand-words", "Accepted. They cost 1438.636600 an hour, 58.534650 less than dispatch.")
    assert (page.text("cost"), page.text("gap"), page.text("gap-percent")) == ("1438.636600", "17.828210", "1.24 %")
    page.key_in("output-1", "7.2")
    page.wait_text("hand-words", "Not accepted.")
    assert page.text("hand-reasons") == "diesel 2 may not give 7.2 MW; it may stand or give 5.5 to 7.0 or 7.4 to 9.5 MW"
    assert page.run("return document.querySelectorAll('.set.bad').length") == 1
    assert page.text("cost") == "1497.171250"  # dispatch's, as the words say
    page.key_in("output-1", "8.5")
    page.wait_text("hand-reasons", "0.007312000 MW too little")
    page.key_in("output-1", "much")
    page.wait_text("hand-reasons", "much")
    page.click("fill")
    page.wait_text("hand-words", "as much as dispatch")
    page.click("tab-plan")
    page.click("plan-start")
    page.wait(SAID["plan"])
    page.click("tab-hand")
    page.wait_text("fill", "Fill in the plan’s outputs")
    page.click("fill")
    page.wait_text("hand-words", "58.534650 less than dispatch")


def test_late_judgements_are_dropped(harbour_page):
    page = harbour_page
    page.go("hand")
    page.run(
        """const real = window.fetch; let first = true;
        window.fetch = async (url, options) => {
          const answer = await real(url, options);
          if (String(url).endsWith("judge") && first) {
            first = false;
            await new Promise((done) => setTimeout(done, 500));
            window.late = true;
          }
          return answer;
        };"""
    )
    page.key_in("output-1", "7.2")
    time.sleep(0.25)
    page.key_in("output-1", "9.0")
    page.wait_text("hand-words", "Accepted.")
    page.wait("window.late")
    time.sleep(0.05)
    assert "Accepted." in page.text("hand-words") and page.text("shown-title") == "By hand: 23.5 MW"


# ---- refine, plan, run


def test_refine_row_by_row_with_a_stop(harbour_page):
    page = harbour_page
    page.slow("refine", 250)
    page.click("tab-refine")
    page.click("refine-start")
    page.wait("document.querySelector('#refine-table tbody').children.length == 1")
    page.click("refine-stop")
    page.wait_text("refine-words", "Stopped behind budget 10")
    assert [row[:3] for row in page.rows("refine-table")] == [["1", "1", "1497.171250"], ["10", "10", "1438.636600"]]
    assert "budget=10" in page.driver.current_url and page.text("shown-title") == "Refined with budget 10: 23.5 MW"
    page.click("refine-start")
    page.wait_text("refine-words", "The search has ended: a larger budget changes nothing.")
    printed = [line.split() for line in printed_by("refine", "23.5")[1:4]]
    assert [[b, n, c, g, p] for b, n, c, g, p, _ in page.rows("refine-table")] == printed
    assert page.text("gap-words").split() == "▪ small: at most 0.42 % of the cost could be saved".split()


def test_plan_and_abort(harbour_page):
    page = harbour_page
    page.slow("plan", 300)
    page.click("tab-plan")
    page.click("plan-start")
    page.wait_text("plan-words", "Planning")
    page.click("plan-stop")
    page.wait_text("plan-words", "Aborted")
    assert page.text("cost") == "1497.171250"
    page.click("plan-start")
    page.wait_text("plan-words", "Nothing is cheaper.")
    assert (page.text("cost"), page.text("bound"), page.text("gap")) == ("1438.636600", "1438.636600", "0.000000")
    assert "1432.616384 by refining, 1438.636600 by refining 2 parts" in page.text("plan-bounds")
    assert "none: nobody covers this demand for less" in page.text("gap-words")
    assert page.run("return document.querySelectorAll('.bar .own').length") == 1  # dispatch's output of diesel 2 beside the plan's


def test_run_step_by_step(harbour_page):
    page = harbour_page
    steps = [line.split() for line in (ROOT / "examples/harbour-run.txt").read_text().splitlines()[1:]]
    page.click("tab-run")
    for number, cost, floor, _ in steps[:6]:
        page.wait_text("run-words", f"{number} of 18 evaluations: cost {cost}, floor {floor}")
        page.click("run-next")
    assert page.text("shown-title") == "Run of 23.5 MW, 6 evaluations"
    page.click("run-back")
    page.wait_text("run-words", "5 of 18")
    page.run("document.getElementById('run-all').focus()")
    page.press("Enter")
    _, cost, floor, gap = steps[-1]
    page.wait_text("run-words", f"18 of 18 evaluations: cost {cost}, floor {floor}, gap {gap}. The run has finished")
    assert page.run("return document.getElementById('run-next').disabled") and page.focus() == "run-back"


# ---- other demands, and the day


def test_floors(harbour_page):
    page = harbour_page
    page.click("tab-floors")
    page.see("floors")
    rows = page.rows("floors-table")
    printed = [line.split() for line in printed_by("floors", "23.5")[1:]]
    assert [[part.split()[0], "%", demand, cost] for part, demand, cost, _ in rows] == printed
    assert rows[3][3] == "1497.171250" and rows[5][3] == "2018.331250"
    page.run("document.querySelectorAll('#floors-table a')[3].click()")
    page.wait_text("shown-title", "Dispatch of 22.3 MW")


def test_day(harbour_page):
    page = harbour_page
    page.click("tab-day")
    page.see("day")
    printed = [line.split() for line in printed_by("day", str(ROOT / "examples/harbour-day.csv"))[1:25]]
    rows = page.rows("day-table")
    for row, line in zip(rows, printed):
        if line[2] == "refused:":
            assert row[:2] == line[:2] and row[2] == " ".join(line[2:])
        else:
            assert [*row[:3], row[5], *(mw.replace("stands", "0.0") for mw in row[7:])] == line
    assert "30909.040150" in page.text("day-words") and "20:00, 31.0 MW, refused: from their outputs before" in page.text("day-notes")
    assert page.run("return [...document.querySelectorAll('#day-charts text')].filter(t => t.textContent == 'refused').length") == 2
    assert page.run("return document.querySelectorAll('#day-outputs .stack').length") == 4
    # a slot alone, from the outputs before it
    page.run("[...document.querySelectorAll('#day-table a')].find(a => a.textContent == '07:00').click()")
    page.wait_text("shown-title", "Dispatch of 14.6 MW")
    assert page.text("cost") == "1459.678900" and "previous=6.9_0.0_0.0_5.0" in page.driver.current_url


def test_day_keyed_in_picked_and_refused(harbour_page, tmp_path):
    page = harbour_page
    page.click("tab-day")
    page.see("day")
    page.run("document.getElementById('day-text').value = 'first,12.5\\nsecond,14.6\\n'")
    page.click("day-plan")
    page.wait_text("day-words", "Planned")
    assert "slots=planned" in page.driver.current_url and "first%2C12.5" in page.driver.current_url
    (tmp_path / "day.csv").write_text("time,MW\n1,12.6\n2,14.6\n")
    page.driver.find_element("id", "day-file").send_keys(str(tmp_path / "day.csv"))
    page.wait_text("day-words", "1367.104200")
    page.run("document.getElementById('day-text').value = 'first,12.55\\n'")
    page.click("day-dispatch")
    page.wait_text("day-words", "12.55 is not a whole number of 0.1 MW")
    assert not page.shown("day-charts")
    page.click("day-reset")
    page.wait_text("day-words", "30909.040150")


def test_outputs_taken_as_previous(harbour_page):
    page = harbour_page
    page.click("take")
    page.wait_text("previous-words", "taken as previous")
    page.wait_text("sets", "gave 9.5")
    page.wait("location.hash.includes('previous=10.0_9.5_0.0_5.0')")
    page.wait("document.getElementById('site-words').textContent.includes('30.9 MW')")
    page.ask_for("30.8")
    page.wait_text("shown-title", "Dispatch of 30.8 MW")  # which the file's previous outputs do not permit
    page.click("untake")
    page.wait_text("refusal", "cannot cover 30.8 MW")
    assert "the file" in page.text("previous-words") and not page.shown("untake")


# ---- the address


def seen(page):
    """What a person sees, without the time of day and without what the fields by hand could be filled from, which is the view before."""
    fields = "[...document.querySelectorAll('input:not([type=file]), textarea')].map(field => field.value)"
    text = page.run(f"return document.body.innerText + {fields}")
    return re.sub(r"\d\d:\d\d:\d\d|Fill in .*", "", text)


def test_a_reload_shows_the_same(harbour_page):
    page = harbour_page
    for view in VIEWS:
        more = {"day": "&day=a%2C12.5%0Ab%2C14.6&slots=planned", "dispatch": "&previous=10_9.5_0_5", "hand": "&outputs=10_7.2__5"}
        shows = IDLE + " && " + (SAID[view].replace("24", "2") if view == "day" else SAID[view])
        shows += f" && document.getElementById('previous-words').textContent.includes('{'taken' if view == 'dispatch' else 'file’s'}')"
        page.run("location.hash = arguments[0]", f"demand=23.5&view={view}{more.get(view, FULL[view])}")
        page.wait(f"document.getElementById('tab-{view}').getAttribute('aria-selected') == 'true' && {shows}")
        first, url = seen(page), page.driver.current_url
        page.driver.refresh()
        page.wait(shows)
        assert seen(page) == first and page.driver.current_url == url, view


def test_a_link_shows_what_was_keyed_in(harbour_page):
    page = harbour_page
    page.ask_for("24")
    page.wait_text("shown-title", "Dispatch of 24.0 MW")
    page.click("take")
    page.wait_text("previous-words", "taken as previous")
    page.click("tab-hand")
    page.wait_text("hand-words", "ccepted.")
    page.key_in("output-0", "9.9")
    page.wait(f"location.hash.includes('outputs=9.9_') && {SAID['hand']}")
    first, link = seen(page), page.driver.current_url
    page.open(re.sub(r"\?[0-9]+", "", link))
    page.wait(SAID["hand"])
    assert seen(page) == first


def test_back_and_forward(harbour_page):
    page = harbour_page
    page.ask_for("24")
    page.wait_text("shown-title", "Dispatch of 24.0 MW")
    page.click("tab-floors")
    page.see("floors")
    page.driver.back()
    page.see("dispatch")
    assert page.text("shown-title") == "Dispatch of 24.0 MW"
    page.driver.back()
    page.wait_text("shown-title", "Dispatch of 23.5 MW")
    assert page.run("return document.getElementById('demand').value") == "23.5"
    page.driver.forward()
    page.wait_text("shown-title", "Dispatch of 24.0 MW")
    page.driver.forward()
    page.see("floors")
    assert page.text("shown-title") == "Dispatch of 24.0 MW"


# ---- by keys alone


def test_every_view_by_keys_alone(page, harbour):
    page.open(harbour.url, "dispatch")
    page.press("Tab")
    assert page.focus() == "skip"
    page.press("Enter")
    assert page.focus() == "demand"
    page.write("22.3")
    page.press("Enter")
    page.wait_text("shown-title", "Dispatch of 22.3 MW")
    page.tab_to("tab-dispatch")

    def choose(view, key):
        """From the tab that is chosen to another one; the tab key has gone around, or nowhere."""
        page.tab_to(page.run("return document.querySelector('[role=tab][aria-selected=true]').id"))
        page.press(key, "Enter")
        page.wait(f"document.querySelector('[role=tab][aria-selected=true]').id == 'tab-{view}'")
        assert page.focus() == f"tab-{view}"

    choose("refine", "ArrowRight")
    page.tab_to("refine-start")
    page.press("Enter")
    page.wait_text("refine-words", "The search has ended")
    assert page.focus() == "tab-refine"  # the button is disabled, and the keyboard keeps a place
    choose("plan", "ArrowRight")
    page.tab_to("plan-start")
    page.press("Space")
    page.wait(SAID["plan"])
    assert page.focus() == "tab-plan"
    choose("run", "ArrowRight")
    page.tab_to("run-next")
    page.press("Enter")
    page.wait_text("run-words", "1 of ")
    choose("hand", "ArrowRight")
    page.wait(SAID["hand"])
    page.tab_to("output-0")
    page.write("9.9")
    page.press("Tab", "ArrowDown")
    page.wait(f"location.hash.includes('outputs=9.9_') && {SAID['hand']}")
    choose("floors", "ArrowRight")
    page.see("floors")
    choose("day", "End")
    page.see("day")
    choose("dispatch", "Home")
    page.see("dispatch")


def test_what_has_the_focus_is_seen(harbour_page):
    page = harbour_page
    for name in ("demand", "tab-dispatch", "take", "to-refine"):
        page.tab_to(name)
        outline = page.run("const s = getComputedStyle(document.activeElement); return [s.outlineStyle, s.outlineWidth]")
        assert outline == ["solid", "3px"], name


# ---- widths, light and dark, paper


@pytest.mark.parametrize("width", [640, 360])
def test_nothing_is_wider_than_the_window(page, harbour, width):
    page.metrics(width, 800)
    page.open(f"{harbour.url}#demand=23.5", "dispatch")
    for view in VIEWS:
        page.go(view)
        assert page.run("return document.documentElement.scrollWidth") <= width, view
        assert page.run(
            """return [...document.querySelectorAll('main *')].filter((one) => one.checkVisibility()
              && !one.closest('.scroller, svg, .unseen') && one.getBoundingClientRect().right > innerWidth + 1)
              .map((one) => one.outerHTML.slice(0, 90))"""
        ) == [], view


CONTRAST = """
const part = (c) => { c /= 255; return c <= 0.03928 ? c / 12.92 : ((c + 0.055) / 1.055) ** 2.4; };
const light = ([r, g, b]) => 0.2126 * part(r) + 0.7152 * part(g) + 0.0722 * part(b);
const read = (text) => text.match(/[0-9.]+/g).map(Number);
const ratio = (a, b) => { const [x, y] = [light(a), light(b)].sort((p, q) => q - p); return (x + 0.05) / (y + 0.05); };
const behind = (node) => {
  for (let one = node; one; one = one.parentElement) {
    const c = read(getComputedStyle(one).backgroundColor);
    if (c.length < 4 || c[3] === 1) return c;
  }
};
const poor = [];
for (const node of document.querySelectorAll('body *')) {
  if (node.closest('.unseen, .skip, .paper') || !node.checkVisibility()) continue;
  const own = [...node.childNodes].some((one) => one.nodeType === 3 && one.textContent.trim());
  const style = getComputedStyle(node), drawn = node.ownerSVGElement;
  const box = drawn ? drawn.closest('div, li') : node;
  if (own && (!drawn || node.tagName === 'text') && !node.classList.contains('inside')) {
    const found = ratio(read(drawn ? style.fill : style.color), behind(box));
    if (found < 4.5) poor.push([node.tagName, node.textContent, found]);
  }
  const lines = '.old .output, .window, .least, .output-end, .line, .mark, .own, .cross';
  if (drawn && node.matches(`.output, .previous, .size-small, .size-middle, .size-great, ${lines}`)) {
    const color = node.matches(lines) ? style.stroke : style.fill;
    const found = ratio(read(color), behind(box));
    if (found < 3) poor.push([node.tagName, node.getAttribute('class'), found]);
  }
}
return poor;
"""


@pytest.mark.parametrize("scheme", ["light", "dark"])
def test_contrast(page, harbour, scheme):
    page.scheme(scheme)
    page.open(f"{harbour.url}#demand=23.5", "dispatch")
    light = page.run("return getComputedStyle(document.body).backgroundColor.match(/[0-9]+/g).every((c) => c > 128)")
    assert light == (scheme == "light")
    for view in VIEWS:
        page.go(view)
        assert page.run(CONTRAST) == [], view
    page.ask_for("40")
    page.wait("document.getElementById('summary').classList.contains('old')")
    assert page.run(CONTRAST) == []


def test_each_view_is_one_page_of_paper(harbour_page):
    page = harbour_page
    for view in ("dispatch", "run", "day"):  # the longest are run and day
        page.go(view)
        assert page.pages() == 1, view


# ---- many sets, names


@pytest.fixture
def many(tmp_path):
    """A site of 32 sets, with long names, names in other scripts, and one that would be markup elsewhere."""
    names = ["<img src=x onerror=alert(1)>", "Gasturbine Süd, Block A, Reserve für die Trockenzeit", "محطة الميناء", "水力"]
    names += ["W" * 60]
    lines = ["name;A;B;C;L;least;greatest;previous;up;down;must run;zones"]
    for i in range(32):
        name = names[i] if i < len(names) else f"set {i + 1}"
        ramp = 5 if i % 2 else ""
        lines.append(f"{name};{20 + i};{50 + i};0.05;0.00002;{3 + i % 5};{20 + i};{(i % 3) * 9};{ramp};{ramp};no;9.5-11")
    path = tmp_path / "many.csv"
    path.write_text("\n".join(lines), encoding="utf-8")
    return path


def test_many_sets_and_names_of_any_kind(page, own, many):
    slots = "".join(f"{k},{300 + k % 50}\n" for k in range(48))
    (many.parent / "day.csv").write_text(slots)
    screen = own(str(many), "400", "--day", str(many.parent / "day.csv"))
    page.open(screen.url, "dispatch")
    assert page.run("return document.querySelectorAll('.set').length") == 32
    assert page.run("return document.querySelector('.set .name').textContent") == "<img src=x onerror=alert(1)>"
    assert page.run("return document.querySelectorAll('img').length") == 0
    assert page.pages() == 1
    for width in (1280, 360):
        page.metrics(width, 800)
        assert page.run("return document.documentElement.scrollWidth") <= width
    page.click("tab-day")
    page.wait("document.querySelector('#day-table tbody').children.length == 48")
    assert page.run("return document.documentElement.scrollWidth") <= 360


# ---- when something changes or goes


def test_a_changed_site_file(page, own):
    screen = own("harbour.csv", "23.5")
    page.open(screen.url, "dispatch")
    screen.path.write_text(screen.path.read_text().replace("hydro,    2,   3,", "river,    2,   4,"))
    page.click("tab-floors")
    page.wait_text("refusal", "The site file has changed, and was read again.")
    assert page.text("cost") == "1497.171250" and "The site file has changed since." in page.text("shown-old")
    assert "river" in page.text("bars")
    page.run("document.getElementById('demand').focus()")
    page.press("Enter")
    page.wait_text("cost", "1502.171250")
    assert not page.shown("refusal") and not page.shown("shown-old")


def test_a_server_that_is_gone(only, start):
    page = only
    page.metrics()
    screen = start("harbour.csv", "23.5")
    page.open(screen.url, "dispatch")
    assert screen.end(signal.SIGTERM) == (0, "")
    page.ask_for("24")
    page.wait_text("refusal", "The server cannot be reached: start it again")
    assert page.text("link") == "server cannot be reached" and page.text("cost") == "1497.171250"
    assert re.search(r"^Old Dispatch of 23\.5 MW, of \d\d:\d\d:\d\d\. The server cannot be reached\.$", page.text("shown-old"))
    assert all("ERR_CONNECTION_REFUSED" in line for line in page.console())
    page.driver.get("about:blank")


# ---- pictures of the guides


def test_pictures(page, harbour, tmp_path):
    folder = Path(os.environ.get("SCREEN_PICTURES") or tmp_path)
    folder.mkdir(parents=True, exist_ok=True)
    page.metrics(1280, 900)
    page.open(f"{harbour.url}#demand=23.5", "dispatch")
    page.picture(folder / "screen.png", whole=True)
    for view, name in (("hand", "screen-by-hand.png"), ("day", "screen-day.png")):
        page.metrics(1280, 900)
        page.open(f"{harbour.url}#demand=23.5&view={view}{FULL[view]}", view)
        page.picture(folder / name, whole=True)
    page.scheme("dark")
    page.metrics(800, 1000)
    page.open(f"{harbour.url}#demand=23.5&view=refine&budget=100", "refine")
    page.picture(folder / "screen-dark-tablet.png", whole=True)

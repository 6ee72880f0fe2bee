#!/usr/bin/env python3
"""Looks at pages of reports in a real browser: checks.py CHROMIUM WAREHOUSE HOSTILE TIMED [FOLDER ..]. Each folder has graph.json, report, page.html, and in
`paths` the paths that its page was made with, each between two NULs. WAREHOUSE and HOSTILE are those of samples.py, over 90 days and over 2; TIMED has a journal
beside its report. What differs is told; the last line says how many rows held and how many didn't.
"""
import datetime
import html.parser
import json
import os
import pathlib
import re
import sys
import tempfile
import time

sys.path.insert(0, str(pathlib.Path(__file__).resolve().parents[2] / "oracles"))
import chromium
import explaining
import showing
import timing

TEXTS = ["graph-path", "report-path", "zone-path", "cells", "graph", "report", "times"]
FORBIDDEN = {"img", "iframe", "object", "embed", "link", "base", "form"}
# What would move a terminal's text or turn it, or isn't seen, stands escaped.
MOVES = re.compile("[" + "".join(f"{chr(first)}-{chr(last)}" for first, last in explaining.UNSEEN) + "]")
# A text of the details this long is cut.
SHORT = 4000
# Whether each place of a large page is looked at, and not each tenth.
WHOLE = os.environ.get("TEST_SEEDS") == "whole"
rows = differing = 0

DETAILS = """(async () => {
  const found = [];
  for (const place of PLACES) {
    await new Promise(done => { addEventListener('hashchange', done, {once: true}); location.hash = '#' + place; });
    const aside = document.getElementById('details'), parts = {};
    let title = '';
    for (const e of aside.children) {
      if (e.tagName === 'H3') {
        title = e.firstChild.textContent + (e.querySelector('a') ? e.querySelector('a').textContent : '');
        parts[title] = [];
      } else if (title && (e.tagName === 'P' || e.tagName === 'PRE')) parts[title].push(e.textContent);
    }
    found.push({place, head: aside.querySelector('h2').textContent, state: (aside.querySelector('.state') || aside).textContent, parts});
  }
  return found;
})()"""
BOXES = """[...document.querySelectorAll('#scroll a')].map(a => {
  const all = a.querySelectorAll('.box'), last = all[all.length - 1];
  return ['x', 'y', 'width', 'height'].map(name => Number(last.getAttribute(name)));
})"""
ACTIVE = """(() => {
  const id = document.getElementById('grid').getAttribute('aria-activedescendant'), e = id && document.getElementById(id);
  return e && [e.getAttribute('role'), e.getAttribute('aria-label') || e.textContent];
})()"""
NAMES = "[...document.querySelectorAll('.row:not([hidden]) .id')].map(e => e.textContent)"
CHIPS = """Object.fromEntries([...document.querySelectorAll('.chip')].map(
  c => [c.childNodes[1].textContent, Number(c.querySelector('b').textContent.replace(/,/g, ''))]))"""
TRIES = """(async () => {
  const found = [];
  for (const place of PLACES) {
    await new Promise(done => { addEventListener('hashchange', done, {once: true}); location.hash = '#' + place; });
    const heading = [...document.querySelectorAll('aside h3')].find(h => h.textContent === 'Tries');
    found.push(heading ? [...heading.nextElementSibling.children].map(li => li.textContent) : []);
  }
  return found;
})()"""
BARS = """[...document.querySelectorAll('#bars .row:not([hidden])')].map(row => {
  const bar = row.querySelector('.q'), track = row.querySelector('.track').clientWidth;
  return [row.querySelector('.id').textContent, row.querySelector('.took').textContent, row.querySelector('.track').getAttribute('aria-label'),
          bar.className.split(' ')[1], parseFloat(bar.style.left) / track, parseFloat(bar.style.width) / track];
})"""
COLOURS = """(() => {
  const style = getComputedStyle(document.documentElement);
  return Object.fromEntries(NAMES.map(name => [name, style.getPropertyValue('--' + name).trim()]));
})()"""


def is_so(name, holds, what=""):
    global rows, differing
    rows += 1
    if not holds:
        differing += 1
        print(f"differs: {name}: {str(what)[:600]}")


def is_same(name, wanted, found):
    is_so(name, wanted == found, f"{found!r}, not {wanted!r}")


def waits_for(browser, script, holds):
    """What a script gives, from a moment later on, as soon as that holds, or after five seconds."""
    for _ in range(25):
        time.sleep(0.2)
        found = browser.script(script, True)
        if holds(found):
            break
    return found


def leads_to(browser, what, place):
    is_same(what, place, waits_for(browser, "location.hash", lambda found: found == place))


class Texts(html.parser.HTMLParser):
    """The texts of a page as another reader of HTML finds them."""

    def __init__(self):
        super().__init__(convert_charrefs=False)
        self.texts, self.inside, self.tags = {}, None, []

    def handle_starttag(self, tag, attributes):
        self.tags.append(tag)
        if tag == "script" and dict(attributes).get("type") == "text/plain":
            self.inside = dict(attributes)["id"]
            self.texts[self.inside] = ""

    def handle_endtag(self, tag):
        if tag == "script":
            self.inside = None

    def handle_data(self, data):
        if self.inside:
            self.texts[self.inside] += data


def plain(text):
    """What the page's escapes stand for."""
    return re.sub("%([0-9A-F]{2})", lambda m: chr(int(m[1], 16)), text)


def shown(value):
    """A value as the page shows it."""
    return MOVES.sub(lambda m: explaining.escape(m[0]), value)


def lasted(ms):
    """So many milliseconds, in words; those that are cut off aren't rounded."""
    if ms < 1000:
        return f"{ms} ms"
    assert ms < 60000
    return f"{ms // 100 / 10:g} s"


class Try:
    """A line of the times."""

    def __init__(self, run, task, *numbers):
        self.run, self.task = run, task
        self.index, self.number, self.start, self.end, self.code = map(int, numbers)

    def place(self):
        return f"{self.run}/{self.task}" + (f"/{self.index}" if self.index >= 0 else "")

    def began(self):
        moment = datetime.datetime.fromtimestamp(self.start // 1000, datetime.timezone.utc)
        return f"{moment:%Y-%m-%dT%H:%M:%S}.{self.start % 1000:03d}Z"

    def length(self):
        return lasted(self.end - self.start)

    def ended(self):
        return "not started" if self.code == -1 else f"code {self.code}"

    def name(self):
        return self.task + (f" [{self.index}]" if self.index >= 0 else "") + f" try {self.number}"


class Sample:
    def __init__(self, folder):
        self.folder = pathlib.Path(folder)
        self.page = self.folder / "page.html"
        self.address = f"file://{self.page}"
        self.graph_text, self.report_text = ((self.folder / name).read_bytes().decode() for name in ("graph.json", "report"))
        self.graph = showing.Graph(self.graph_text)
        self.report = showing.Report(self.report_text, self.graph)
        cells = showing.cells_text(self.graph, self.report, len(self.report_text.encode()))
        paths = (self.folder / "paths").read_bytes().decode().split("\0")
        journal = self.folder / "journal"
        times = timing.times_text(self.graph_text, self.report_text, journal.read_bytes()) if journal.exists() else ""
        self.tries = [Try(*line.split(" ")) for line in times.splitlines()[1:]]
        self.texts = [*paths[:3], cells, self.graph_text, self.report_text, times]
        self.explaining = explaining.Explaining(*paths[:2], self.graph_text, self.report_text)

    def addresses(self):
        """Each task of each run and each of its instances: what comes behind # in its address, the instance if it is one, and run, task and index."""
        for at, run in enumerate(self.report.runs):
            for task, instances in enumerate(run.tasks):
                place = f"{run.start}/{self.graph.id(task)}"
                yield place, instances[0] if instances[0].index < 0 else None, (at, task, None)
                for instance in instances:
                    if instance.index >= 0:
                        yield f"{place}/{instance.index}", instance, (at, task, instance.index)

    def places(self):
        """The addresses that are looked at, all of a small page, with why each is so."""
        addresses = list(self.addresses())
        step = 1 if WHOLE or len(addresses) < 100 else 10
        for place, instance, where in addresses[::step]:
            yield place, instance, list(self.explaining.why(*where)), self.lines_of(instance, *where)

    def lines_of(self, instance, at, task, index):
        """The lines to copy: those that clear something, and the one that runs the instance by hand, below their headings. None where a zone
        file is named, whose path the second reading isn't told."""
        if self.texts[2]:
            return None
        lines = {}
        for heading, [line] in self.explaining.clears(at, task, index):
            name, _, follows = heading.partition(", with ")
            lines["C" + name[1:]] = [line, "with " + follows]
        if instance and instance.tries:
            lines |= {"By hand": [line] for line in self.explaining.by_hand(at, task, instance)}
        return {heading: texts for heading, texts in lines.items() if len(texts[0]) < SHORT}


def details_of(instance):
    """The parts of the details that a report has of an instance."""
    parts = {}
    if instance.value != "-":
        parts["Pushed"] = [shown(instance.value)]
    if instance.item is not None:
        parts["Item"] = [shown(instance.item)]
    for name, value in instance.pulls:
        parts[f"Pulled from {name}"] = ["nothing" if value == "-" else shown(value)]
    return {name: text for name, text in parts.items() if len(text[0]) < SHORT}


def looks_at_texts(browser, sample):
    """The texts are the files', read by two readers of HTML, and nothing else is a script."""
    name = sample.folder.name
    reader = Texts()
    reader.feed(sample.page.read_bytes().decode())
    is_same(f"{name}: the texts by html.parser", sample.texts, [plain(reader.texts[text]) for text in TEXTS])
    is_same(f"{name}: the scripts", 8, reader.tags.count("script"))
    is_same(f"{name}: elements that fetch or send", set(), FORBIDDEN & set(reader.tags))
    browser.open(sample.address)
    found = browser.script(f"{json.dumps(TEXTS)}.map(id => decodeURIComponent(document.getElementById(id).textContent))")
    is_same(f"{name}: the texts in the browser", sample.texts, found)


def looks_at_details(browser, sample):
    """The details of each task of each run and of each instance have what the report has of it."""
    name, places = sample.folder.name, list(sample.places())
    found = browser.script(DETAILS.replace("PLACES", json.dumps([place for place, *_ in places])), True) if places else []
    is_same(f"{name}: how many details", len(places), len(found))
    for (place, instance, why, lines), details in zip(places, found):
        is_same(f"{name}: why {place} is so", why, details["parts"].get("Why"))
        if lines is not None:
            shown_lines = {part: texts for part, texts in details["parts"].items() if part == "By hand" or part.startswith("Clear")}
            is_same(f"{name}: the lines of {place}", lines, {part: texts for part, texts in shown_lines.items() if len(texts[0]) < SHORT})
        if instance is None:
            continue
        wanted = details_of(instance)
        is_same(f"{name}: {place}", wanted, {part: details["parts"].get(part) for part in wanted})
        is_so(f"{name}: the state of {place}", details["state"].startswith(showing.STATES[instance.state]), details["state"])
    is_same(f"{name}: what the browser told", [], browser.problems())


def looks_at_graph(browser, sample):
    """A node for each task, none over another, and each edge to the right."""
    graph, name = sample.graph, sample.folder.name
    if not graph.tasks:
        return
    browser.open(sample.address + "#graph/")
    browser.script("document.getElementById('tab-graph').click()")
    boxes = browser.script(BOXES)
    is_same(f"{name}: the nodes", len(graph.tasks), len(boxes))
    over = [
        (graph.id(one), graph.id(other)) for one, (x, y, width, height) in enumerate(boxes) for other, (x2, y2, width2, height2) in enumerate(boxes[:one])
        if x < x2 + width2 and x2 < x + width and y < y2 + height2 and y2 < y + height
    ]
    is_same(f"{name}: nodes over others", [], over)
    left = [(graph.id(u), graph.id(t)) for t, ups in enumerate(graph.up) for u in ups if boxes[u][0] + boxes[u][2] >= boxes[t][0]]
    is_same(f"{name}: edges that don't go to the right", [], left)
    is_same(f"{name}: what the browser told of the graph", [], browser.problems())


def looks_at_tries(browser, sample):
    """The details of each instance have its tries, which took at least as long as they slept; the Gantt of a run has a bar for each."""
    instances = [(place, instance) for place, instance, *_ in sample.places() if instance]
    browser.open(sample.address)
    found = browser.script(TRIES.replace("PLACES", json.dumps([place for place, _ in instances])), True)
    for (place, instance), lines in zip(instances, found):
        own = [it for it in sample.tries if it.place() == place]
        is_same(f"tries: how many of {place}", instance.tries, len(own))
        is_same(f"tries: {place}", [f"try {it.number}{it.began()}{it.length()}, {it.ended()}" for it in own], lines)
    least = {"first": 200, "slow": 1000, "each": 100}
    short = [it.name() for it in sample.tries if it.end - it.start < least.get(it.task, 0)]
    is_same("tries: shorter than they slept", [], short)
    codes = {(it.run, it.task, it.index, it.number): it.code for it in sample.tries}
    day = "2024-01-02T00:00:00Z"
    wanted = [("first", -1, 1, 0), ("each", 0, 1, 7), ("each", 0, 2, 0), ("each", 1, 1, 0), ("slow", -1, 1, 137), ("absent", -1, 1, -1), ("last", -1, 1, 99)]
    is_same("tries: the codes", [code for *_, code in wanted], [codes.get((day, *name)) for *name, _ in wanted])
    looks_at_gantt(browser, sample, [it for it in sample.tries if it.run == day], day)
    browser.open(f"{sample.address.replace('timed', 'failed_day')}#gantt/")
    is_same("Gantt: none without a journal", [False, True], browser.script("['grid-view', 'tab-gantt'].map(id => document.getElementById(id).hidden)"))


def bars_of(tries, states):
    """What is drawn of each try: its name, how long it took, its words, its state, and where its bar begins and how long it is, of all."""
    first, last = min(it.start for it in tries), max(it.end for it in tries)
    bars = []
    for it in tries:
        state = states[it.name()]
        words = f"{showing.STATES[state]}, {it.length()} from {it.began()}, {it.ended()}"
        bars.append([it.name(), it.length(), words, f"s{state}", (it.start - first) / (last - first), (it.end - it.start) / (last - first)])
    return bars


def looks_at_gantt(browser, sample, tries, day):
    def is_drawn(what, tries):
        wanted, found = bars_of(tries, states), browser.script(BARS)
        is_same(f"Gantt: {what}", [bar[:4] for bar in wanted], [bar[:4] for bar in found])
        far = [(a[0], a[4:], b[4:]) for a, b in zip(wanted, found) if abs(a[4] - b[4]) > 0.002 or abs(a[5] - b[5]) > 0.002]
        is_same(f"Gantt: bars elsewhere, {what}", [], far)

    states = {it.name(): showing.FAILED for it in tries}
    states |= {"first try 1": showing.SUCCESS, "each [0] try 2": showing.SUCCESS, "each [1] try 1": showing.SUCCESS, "last try 1": showing.SKIPPED}
    # (the rows of the grid: each, slow and absent behind first, and last behind each)
    order = ["first", "each", "last", "slow", "absent"]

    def by_task(it):
        return order.index(it.task), it.index, it.number

    browser.open(f"{sample.address}#gantt/{day}")
    is_drawn("by start", sorted(tries, key=lambda it: (it.start, by_task(it))))
    sorts = "[...document.querySelectorAll('#axis [role=columnheader]')].map(e => [e.textContent, e.getAttribute('aria-sort')])"
    is_same("Gantt: what it is sorted by", [["task", None], ["start", "ascending"], ["duration", None]], browser.script(sorts))
    browser.script("document.querySelectorAll('#axis button')[2].click()")
    longest = sorted(tries, key=lambda it: (it.start - it.end, by_task(it)))
    is_same("Gantt: the longest", "slow try 1", longest[0].name())
    is_drawn("by duration", longest)
    is_same("Gantt: what it is sorted by then", ["duration", "descending"], browser.script(sorts)[2])
    browser.script("document.querySelectorAll('#axis button')[0].click()")
    is_drawn("by task", sorted(tries, key=by_task))
    told = f"run 2024-01-02, failed, 7 tries in {lasted(max(it.end for it in tries) - min(it.start for it in tries))}"
    is_same("Gantt: what is told", told, browser.script("document.getElementById('shown').textContent"))
    browser.script("document.getElementById('gantt').focus()")
    for key, place in [("l", f"{day}/slow"), ("Home", f"{day}/first"), ("ArrowDown", f"{day}/each/0"), ("ArrowDown", f"{day}/each/0"),
                       ("ArrowDown", f"{day}/each/1"), ("End", f"{day}/absent"), ("ArrowLeft", "2024-01-01T00:00:00Z/absent"), ("ArrowRight", f"{day}/absent")]:
        browser.key(key)
        leads_to(browser, f"Gantt: {key}", f"#gantt/{place}")
    active = "document.getElementById(document.getElementById('gantt').getAttribute('aria-activedescendant')).getAttribute('aria-label')"
    absent = next(it for it in tries if it.task == "absent")
    is_same("Gantt: the name of the active row", f"absent try 1, failed, {absent.length()} from {absent.began()}, not started", browser.script(active))
    browser.key("Enter")
    is_same("Gantt: Enter, to the details", "details", browser.script("document.activeElement.id"))
    browser.key("Escape")
    is_same("Gantt: Escape, back", "gantt", browser.script("document.activeElement.id"))
    browser.key("Escape")
    leads_to(browser, "Gantt: Escape chooses the run", f"#gantt/{day}")
    browser.script("document.getElementById('find').value = 'EACH'; document.getElementById('find').oninput()")
    is_same("Gantt: by a name", 3, len(browser.script(BARS)))
    browser.script("document.getElementById('find').value = ''; document.getElementById('find').oninput()")
    browser.script("[...document.querySelectorAll('.chip')].find(c => c.textContent.startsWith('skipped')).click()")
    is_same("Gantt: by a state", ["last try 1"], [bar[0] for bar in browser.script(BARS)])
    browser.script("document.getElementById('tab-gantt').focus()")
    browser.key("ArrowRight")
    is_same("Gantt: to the next tab", "tab-grid", browser.script("document.activeElement.id"))
    browser.key("ArrowLeft")
    is_same("Gantt: and back", ["tab-gantt", False], browser.script("[document.activeElement.id, document.getElementById('gantt-view').hidden]"))
    is_same("Gantt: what the browser told", [], browser.problems())
    browser.ask("Accessibility.enable")
    nodes = [node for node in browser.ask("Accessibility.getFullAXTree")["nodes"] if not node.get("ignored")]
    roles = {"button", "tab", "grid", "tabpanel", "rowheader", "columnheader", "gridcell"}
    nameless = [node["role"]["value"] for node in nodes if node["role"].get("value") in roles and not node.get("name", {}).get("value")]
    is_same("Gantt: roles without a name", [], nameless)
    browser.ask("Accessibility.disable")
    browser.has_size(390, 800, 2)
    browser.open(f"{sample.address}#gantt/{day}/each/0")
    width = browser.script("document.documentElement.scrollWidth")
    is_so("Gantt: nothing is wider than a narrow screen", width <= 390, width)
    browser.has_size(1440, 900)
    is_so("Gantt: it is printed", browser.ask("Page.printToPDF", landscape=True)["data"])


def looks_at_keys(browser, sample):
    """Where each key leads: the address, and the role and the name of what is active there."""

    def press(*keys):
        for key in keys:
            browser.key(key)

    browser.open(sample.address)
    browser.script("document.getElementById('grid').focus()")
    press("ArrowDown")
    leads_to(browser, "keys: into the grid", "#2024-01-01T00:00:00Z/open_window")
    is_same("keys: a cell", ["gridcell", "open_window, 2024-01-01, success"], browser.script(ACTIVE))
    press("ArrowRight", "ArrowDown")
    leads_to(browser, "keys: right and down", "#2024-01-02T00:00:00Z/extract.orders")
    press("ArrowLeft", "ArrowLeft")
    leads_to(browser, "keys: to the name of a task", "#/extract.orders")
    is_same("keys: a name", "rowheader", browser.script(ACTIVE)[0])
    press("ArrowRight", "ArrowUp", "ArrowUp")
    leads_to(browser, "keys: to a run", "#2024-01-01T00:00:00Z")
    is_same("keys: a run", ["columnheader", "run 2024-01-01, success"], browser.script(ACTIVE))
    press("ArrowDown", "End")
    leads_to(browser, "keys: End", "#2024-03-30T00:00:00Z/open_window")
    press("Home", "PageDown")

    def is_down(place):
        return place.startswith("#2024-01-01T00:00:00Z/") and "open_window" not in place

    place = waits_for(browser, "location.hash", is_down)
    is_so("keys: Home, PageDown", is_down(place), place)
    browser.key("End", modifiers=2)
    leads_to(browser, "keys: Ctrl+End", "#2024-03-30T00:00:00Z/cleanup")
    browser.key("Home", modifiers=2)
    press("f")
    leads_to(browser, "keys: f, the next failure", "#2024-01-06T00:00:00Z/extract.events")
    press("f")
    leads_to(browser, "keys: f again", "#2024-01-16T00:00:00Z/clean.events")
    browser.key("F", modifiers=8)
    leads_to(browser, "keys: F, the failure before", "#2024-01-06T00:00:00Z/extract.events")
    press("Enter")
    is_same("keys: Enter, to the details", "details", browser.script("document.activeElement.id"))
    press("Escape")
    is_same("keys: Escape, back", "grid", browser.script("document.activeElement.id"))
    browser.script("location.hash = '#2024-01-25T00:00:00Z/load_shop'")
    time.sleep(0.1)
    press(" ")
    is_same("keys: Space opens", 8, sum(name.startswith("[") for name in browser.script(NAMES)))
    press("ArrowDown", "ArrowDown")
    leads_to(browser, "keys: into the instances", "#2024-01-25T00:00:00Z/load_shop/1")
    press(" ")
    leads_to(browser, "keys: Space closes", "#2024-01-25T00:00:00Z/load_shop")
    is_same("keys: none is open", 0, sum(name.startswith("[") for name in browser.script(NAMES)))
    press("Escape")
    is_so("keys: Escape chooses nothing", waits_for(browser, "location.hash", lambda found: found in ("", "#")) in ("", "#"))
    browser.script("document.activeElement.blur(); window.getSelection().removeAllRanges()")
    met = set()
    for _ in range(20):
        press("Tab")
        met.add(browser.script("(e => e.id || e.className || e.textContent.slice(0, 20))(document.activeElement)"))
    is_same("keys: controls that Tab doesn't meet", set(), {"skip", "tab-grid", "find", "next-failed", "grid", "chip"} - met)
    is_same("keys: what the browser told", [], browser.problems())


def looks_at_filters(browser, sample):
    def press(name):
        browser.script(f"[...document.querySelectorAll('.chip')].find(c => c.textContent.startsWith('{name}')).click()")

    def finds(text):
        browser.script(f"document.getElementById('find').value = '{text}'; document.getElementById('find').oninput()")

    browser.open(sample.address)
    counts = showing.collections.Counter(
        showing.STATES[instance.state] for run in sample.report.runs for instances in run.tasks for instance in instances)
    is_same("filter: the sums are the report's", dict(counts), browser.script(CHIPS))
    told = "document.getElementById('shown').textContent"
    press("failed")
    is_same("filter: failed", "4 of 20 tasks, 10 of 90 runs", browser.script(told))
    is_same("filter: what failed", ["incremental", "extract.events", "clean.events", "load_shop"], browser.script(NAMES))
    press("failed")
    press("no_status")
    is_same("filter: no_status", "6 of 20 tasks, 11 of 90 runs", browser.script(told))
    press("no_status")
    finds("SHOP")
    is_same("filter: by a name", ["list_shops", "load_shop", "check_shop", "shop_totals"], browser.script(NAMES))
    finds("nobody")
    is_same("filter: by a name that is none", [], browser.script(NAMES))
    is_same("filter: what the browser told", [], browser.problems())


def looks_at_addresses(browser, sample):
    run = "2024-01-25T00:00:00Z"
    for place, head in [
        (f"#{run}/load_shop/1", "load_shop [1]"), (f"#{run}/load_shop", "load_shop"), (f"#{run}", "Run 2024-01-25"), ("#/load_shop", "load_shop"),
        (f"#graph/{run}/load_shop", "load_shop"), (f"#{run}/load_shop/99", "load_shop"), ("#nonsense", "22 of 90 runs failed"),
        ("#%", "22 of 90 runs failed"), (f"#{run}/%3Cimg%20src=x%20onerror=alert(1)%3E", "Run 2024-01-25"), ("", "22 of 90 runs failed"),
    ]:
        browser.open(sample.address + place)
        is_same(f"the head at {place}", head, browser.script("document.querySelector('aside h2').textContent"))
        is_same(f"what the browser told at {place}", [], browser.problems())


def contrast(one, other):
    """The contrast of two colours, as WCAG 2 says it."""

    def luminance(colour):
        parts = colour[1:] if len(colour) == 7 else "".join(c * 2 for c in colour[1:])
        channels = [int(parts[k:k + 2], 16) / 255 for k in (0, 2, 4)]
        red, green, blue = (c / 12.92 if c <= 0.04045 else ((c + 0.055) / 1.055) ** 2.4 for c in channels)
        return 0.2126 * red + 0.7152 * green + 0.0722 * blue

    low, high = sorted(map(luminance, (one, other)))
    return (high + 0.05) / (low + 0.05)


def looks_at_colours(browser, sample):
    """Squares and marks have 3:1 on every ground, texts 4.5:1."""
    squares, texts, grounds = [f"s{k}" for k in range(5)], ["fg", "muted", "accent"], ["bg", "panel", "row"]
    for theme in ("light", "dark"):
        browser.has_media(prefers_color_scheme=theme)
        browser.open(sample.address)
        found = browser.script(COLOURS.replace("NAMES", json.dumps([*squares, *texts, *grounds, "mark"])))
        pairs = [(a, b, 3) for a in squares for b in grounds] + [(a, "mark", 3) for a in squares[:4]]
        pairs += [(a, b, 4.5) for a in texts for b in grounds] + [("s1", b, 4.5) for b in ("bg", "row")]
        low = [(a, b, round(contrast(found[a], found[b]), 2)) for a, b, least in pairs if contrast(found[a], found[b]) < least]
        is_same(f"low contrasts, {theme}", [], low)
    browser.has_media()


def looks_at_names(browser, sample):
    """What a reader of screens is told."""
    browser.open(f"{sample.address}#2024-01-25T00:00:00Z/load_shop")
    browser.ask("Accessibility.enable")
    nodes = [node for node in browser.ask("Accessibility.getFullAXTree")["nodes"] if not node.get("ignored")]
    names = {}
    for node in nodes:
        names.setdefault(node.get("role", {}).get("value"), []).append(node.get("name", {}).get("value", ""))
    roles = ["button", "link", "gridcell", "columnheader", "rowheader", "tab", "searchbox", "grid", "complementary", "tabpanel"]
    is_same("roles without a name", [], [role for role in roles if not all(names.get(role, [""]))])
    is_same("the grid", ["Tasks by runs"], names["grid"])
    is_same("the rows of the grid", 21, len(names["row"]))
    grid = next(node for node in nodes if node["role"].get("value") == "grid")
    is_so("an active descendant", any(it["name"] == "activedescendant" for it in grid["properties"]), grid["properties"])
    browser.ask("Accessibility.disable")


def looks_at_copies(browser, samples):
    """The line of a clear is copied whole, and the report is saved as it is."""
    warehouse = samples[0]
    browser.call("Browser.grantPermissions", permissions=["clipboardReadWrite", "clipboardSanitizedWrite"])
    browser.open(f"{warehouse.address}#2024-01-25T00:00:00Z/load_shop/1")
    browser.script("[...document.querySelectorAll('aside h3')].find(h => h.textContent.startsWith('Clear')).querySelector('button').click()")
    wanted = ("backfill clear --from 2024-01-01 --to 2024-03-30 --task load_shop --run 2024-01-25 --index 1 warehouse/graph.json warehouse/report"
              " > warehouse/report.new")
    is_same("the line that is copied", wanted, waits_for(browser, "navigator.clipboard.readText()", lambda found: found == wanted))
    with tempfile.TemporaryDirectory() as folder:
        browser.call("Browser.setDownloadBehavior", behavior="allow", downloadPath=folder)
        for sample in samples:
            browser.open(sample.address)
            browser.script("[...document.querySelectorAll('aside button')].pop().click()")
            saved = []
            for _ in range(100):
                time.sleep(0.1)
                saved = [file for file in pathlib.Path(folder).iterdir() if file.suffix != ".crdownload"]
                if saved:
                    break
            is_same(f"the report that is saved of {sample.folder.name}", [sample.report_text.encode()], [file.read_bytes() for file in saved])
            for file in saved:
                file.unlink()
    is_same("what the browser told of copies", [], browser.problems())


def looks_at_screens(browser, sample):
    """Narrow, printed, with forced colours, and without JavaScript."""
    browser.has_size(390, 800, 2)
    browser.open(f"{sample.address}#2024-01-25T00:00:00Z/load_shop/1")
    width = browser.script("document.documentElement.scrollWidth")
    is_so("nothing is wider than a narrow screen", width <= 390, width)
    browser.has_size(1440, 900)
    is_so("it is printed", browser.ask("Page.printToPDF", landscape=True)["data"])
    browser.has_media(forced_colors="active")
    browser.open(sample.address)
    is_same("what the browser told of forced colours", [], browser.problems())
    browser.has_media()
    browser.ask("Emulation.setScriptExecutionDisabled", value=True)
    browser.open(sample.address)
    # (a script of the debugger runs all the same)
    said = browser.script("[...document.querySelectorAll('noscript')].map(e => e.textContent).join(' ')")
    browser.ask("Emulation.setScriptExecutionDisabled", value=False)
    is_so("a page without JavaScript says so", "JavaScript" in said, said)


def looks_at_policy(browser, sample):
    """A changed script isn't run, and nothing is fetched."""
    text = sample.page.read_bytes().decode()
    changed = sample.folder / "changed.html"
    changed.write_bytes(text.replace("const NODE = 30;", "const NODE = 31;").encode())
    is_so("the script was changed", changed.read_bytes() != text.encode())
    browser.open(f"file://{changed}")
    is_same("policy: the title of a page whose script was changed", "backfill", browser.script("document.title"))
    is_so("policy: the browser says why", any("Content Security Policy" in said for said in browser.problems()), browser.problems())
    browser.open(sample.address)
    title = browser.script("document.title")
    refused = {
        "a fetch": "fetch('https://example.org/').then(() => 'taken', e => 'refused')",
        "an image from elsewhere": "new Promise(done => { const i = new Image(); i.onload = () => done('taken'); i.onerror = () => done('refused');"
                                   " i.src = 'https://example.org/x.png'; })",
    }
    for what, script in refused.items():
        is_same(f"policy: {what}", "refused", browser.script(script, True))
    browser.script("document.body.insertAdjacentHTML('beforeend', '<b id=evil onclick=\"document.title=1\">x</b>'); document.getElementById('evil').click()")
    is_same("policy: a handler in an attribute", title, browser.script("document.title"))


def main(program, *folders):
    samples = [Sample(folder) for folder in folders]
    warehouse, hostile, timed = samples[:3]
    browser = chromium.Browser(program)
    try:
        for look in (looks_at_keys, looks_at_filters, looks_at_addresses, looks_at_colours, looks_at_names, looks_at_screens, looks_at_policy):
            look(browser, warehouse)
        looks_at_copies(browser, [warehouse, hostile])
        looks_at_tries(browser, timed)
        for sample in samples:
            looks_at_texts(browser, sample)
            looks_at_details(browser, sample)
            looks_at_graph(browser, sample)
    finally:
        browser.close()
    print(f"{rows - differing} {differing}")


if __name__ == "__main__":
    main(*sys.argv[1:])

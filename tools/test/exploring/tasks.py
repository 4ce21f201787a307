"""Twelve tasks of an auditor in the browser, by keyboard alone, at two widths, light and dark."""

import http.client
import os
import subprocess

from adsd_tools.report.state import State

from . import corp, seen, tabs
from .driver import Broken, Browser
from .web import Served

SIZES = [(1280, 900, False), (1280, 900, True), (390, 844, False), (390, 844, True)]
NAME = """
const one = document.activeElement;
const label = one.labels && one.labels.length ? one.labels[0].textContent : "";
return (one.getAttribute("aria-label") || label || one.textContent || "").trim();
"""
CHOSEN = "const one = document.activeElement; return one.options[one.selectedIndex].text"
HAS = "return document.getElementById('main').innerText.replace(/\\s+/g, ' ').includes(arguments[0])"
MOST_TABS = 400
# Each chain that is drawn, as its nodes and edges.
DRAWN = """
return [...document.querySelectorAll(".drawn")].map(
  (list) => [...list.querySelectorAll(".node, .edge > span:first-child")].map((one) => one.textContent));
"""
SETTLED = "return document.title.includes(arguments[0])"


class Stuck(Exception):
    """A task that can't go on."""


class Auditor:
    """Somebody who has a keyboard, and reads."""

    def __init__(self, tries, browser, served, where, narrow):
        self.tries, self.browser, self.served, self.where, self.narrow = tries, browser, served, where, narrow
        self.task = ""

    def check(self, good, what):
        self.tries.check(good, f"{self.where}: {self.task}: {what}")
        return good

    def begin(self, task):
        self.task = task
        if self.browser.script("return location.href").startswith(self.served.address):
            self.browser.script("history.replaceState(null, '', '#/')")
            self.browser.of_session("POST", "/refresh", {})
        else:
            self.browser.go(self.served.address)
        self.check(self.browser.until("return document.querySelector('main h1') && document.querySelector('[role=treeitem]')"),
                   "the page doesn't come")

    def does(self, task):
        """Does a task, from the page's beginning."""
        self.begin(task.__name__)
        try:
            task(self)
        except Stuck:
            pass

    def reads(self, text):
        """Waits until a text stands on the page."""
        good = self.browser.until(HAS, text)
        if not good:
            there = self.browser.script("return document.getElementById('main').innerText.slice(0, 1500)")
            self.check(False, f"{text!r} isn't read: {there}")
            raise Stuck
        self.tries.count += 1

    def looks(self):
        """What is seen now can be read and used by everybody."""
        seen.check(self.tries, self.browser, f"{self.where}: {self.task}", self.narrow)

    def reach(self, name, role=None):
        """Goes by Tab to what has a name that begins so."""
        for _ in range(MOST_TABS):
            self.browser.press("Tab")
            if self.browser.script(NAME).startswith(name):
                found = self.browser.named()
                if found[1].startswith(name) and role in (None, found[0]):
                    self.tries.count += 1
                    return
        self.check(False, f"nothing called {name!r} is reached by Tab")
        raise Stuck

    def push(self, name, role=None):
        self.reach(name, role)
        self.browser.press("Enter")

    def choose(self, label, text):
        """Types into a field with a list, and takes what is found first."""
        self.reach(label)
        self.browser.press(text)
        self.check(self.browser.until("const list = document.activeElement.parentElement.querySelector('[role=listbox]');"
                                      "return list && !list.hidden && list.children.length && "
                                      "list.children[0].textContent.toLowerCase().includes(arguments[0].toLowerCase())",
                                      text), f"{text} finds nothing")
        self.browser.press("Enter")

    def select(self, label, text):
        """Takes of a list of choices the first one that begins so."""
        self.reach(label)
        self.browser.press("Home")
        for _ in range(MOST_TABS):
            if self.browser.script(CHOSEN).startswith(text):
                return
            self.browser.press("Down")
        self.check(False, f"{label} has no {text!r}")
        raise Stuck

    def find(self, name):
        self.choose("Find an object", name)
        self.check(self.browser.until(SETTLED, name), f"{name} isn't opened: {self.browser.script('return document.title')}")


def reset(one):
    """Who can reset the administrator's password, and by which groups."""
    one.looks()
    one.find("Administrator")
    one.looks()
    one.select("what is done", "resets")
    one.push("Who can?")
    one.reads("4 accounts, by 2 ways")
    text = one.browser.script("return document.getElementById('main').textContent")
    one.check("old-support: control access on extended right User-Force-Change-Password" in text, "the entry isn't told")
    chain = [row.split(" \u25b8 ") for row in one.browser.script(
        "return [...document.querySelectorAll('.accounts li')].map((li) => [...li.querySelectorAll('a')].map((a) => a.textContent).join(' \u25b8 '))")]
    one.check(["frank", "contractors", "old-support"] in chain, f"the chain of groups: {chain}")
    one.looks()


def unfold(one):
    """Reads a list by the tree, and where an entry comes from."""
    if one.narrow:
        one.push("Tree")
    one.reach("DC=corp,DC=example, domainDNS", "treeitem")
    one.browser.press("Down", "Down", "Down", "Down")
    one.check(one.browser.named()[1].startswith("OU=staff"), f"the tree: {one.browser.named()}")
    one.browser.press("Right")
    one.browser.until("return document.activeElement.querySelector('ul')")
    one.browser.press("Right", "Right")
    one.browser.until("return document.activeElement.querySelector('ul')")
    one.browser.press("Down", "Enter")
    one.reads("bob user")
    one.looks()
    one.reads("its own")
    one.reads("inherited from staff")
    one.push("staff", "link")
    one.check(one.browser.until(SETTLED, "staff"), "the object isn't opened where the entry stands")


def may(one):
    """What an account may do and where, the worst first."""
    one.find("dave")
    one.push("What dave may do, and where")
    one.reads("The worst, on 5 objects of 31: it writes the DACL (WD).")
    one.push("11 resets the password")
    one.reads("bob, carol, erin, frank, grace")
    one.looks()
    one.push("all rights on pc1")
    one.reads("All that is granted, and what decides")
    one.looks()


def chains(one):
    """Who comes to control the administrator, by which chain and which right; and what somebody comes to control."""
    one.find("Administrator")
    one.reads("that are no administrators come to control it")
    ways = one.browser.script(DRAWN)
    one.check(["old-support", "resets the password of", "Administrator"] in ways, f"the chains: {ways}")
    one.looks()
    one.push("User-Force-Change-Password", "link")
    one.reads("4 accounts, by 2 ways")
    one.find("frank")
    one.push("What frank may do, and where")
    one.reads("protected, the worst first")
    ways = one.browser.script(DRAWN)
    good = any(way[0] == "frank" and way[-1] == "Administrator" for way in ways)
    one.check(good, f"what frank comes to control: {ways}")
    one.looks()


def members(one):
    """Who writes the members of the domain's administrators."""
    one.push("Who can ..", "link")
    one.choose("to which object", "Domain Admins")
    one.select("what is done", "writes members")
    one.push("Who can?")
    one.reads("2 accounts:")
    one.reads("alice")
    one.looks()


def take_away(one):
    """Takes a right away, and sees who still has it by a group."""
    one.find("Administrator")
    one.push("Try without it (the entry for old-support)")
    one.reads("remove an entry")
    one.reads("loses 1")
    one.looks()
    one.choose("to which object", "Administrator")
    one.select("what is done", "resets")
    one.push("Who can, then?")
    one.reads("in the store: 4 accounts")
    one.reads("at the end: 2 accounts")
    one.looks()


def add(one):
    """Adds an entry by the form, and steps through what follows."""
    one.push("What if ..", "link")
    one.choose("at the object", "staff")
    one.choose("who", "contractors")
    one.select("what", "write the list")
    one.select("on", "this object and all")
    one.browser.press("Tab")
    value = one.browser.script("return document.activeElement.value")
    one.check(value == f"(A;CI;WD;;;{corp.CONTRACTORS})", f"the text of the entry: {value}")
    one.push("Try this entry")
    one.reads("step 1 of ")
    one.push("one step on")
    one.reads("step 2 of ")
    signs = one.browser.script("return [...document.querySelectorAll('svg.picture[role=img] path, svg.picture[role=img] circle')].map((s) => s.getAttribute('class'))")
    one.check("q" in signs and "s" in signs and "d" in signs, f"the picture: {signs}")
    one.reads("not yet")
    one.looks()
    one.push("to the end")
    one.reads("0 objects pending, 0 stale")
    one.reads("gains")


def by_text(one):
    """An entry as text: the fault is named by its place, and then it is mended."""
    one.find("sales")
    one.push("Try another entry here")
    one.reach("the entry as SDDL")
    one.browser.press("(A;;XX;;;AU)", "Enter")
    one.reads("at character 5: neither a right nor the end of the rights")
    one.looks()
    one.push("Leave out")
    one.find("sales")
    one.push("Try another entry here")
    one.reach("the entry as SDDL")
    one.browser.press("(A;;WD;;;AU)", "Enter")
    one.reads("gains 1")


def protect(one):
    """What a protection run does."""
    one.push("What if ..", "link")
    one.push("Add a protection run")
    one.reads("4 of 4 protected objects changed")
    one.reads("loses 1")
    one.choose("for whom", "frank")
    one.reads("User-Force-Change-Password")
    one.looks()


def frames(one):
    """The frames that make it so."""
    one.find("staff")
    one.push("Try without it (the entry for helpdesk)")
    one.reads("The requests that make these changes")
    lines = one.browser.script("return [...document.querySelectorAll('pre')].map((one) => one.textContent)")
    one.check(lines and lines[0].startswith("token 0 user=S-1-5-18 ") and "modify 0 dn=OU=staff,DC=corp,DC=example sd=dacl" in lines[0], lines)
    address = one.browser.script("return document.querySelector('a[download=\"adsd.txt\"]').href")
    _, headers, data = one.served.ask(address[address.index("/", 8) :])
    one.check(data.decode() == lines[0] + "\n" and "adsd.txt" in headers["Content-Disposition"], "the lines aren't saved as they are read")
    one.check("The store itself is left as it is" in one.browser.script("return document.getElementById('main').textContent"),
              "it isn't said that nothing is written")
    one.check(not one.browser.script("return [...document.querySelectorAll('button')].some((one) => one.textContent.startsWith('Write'))"),
              "there is a button that writes, without --write")


def write(one):
    """Writes to the store itself, by the button that names what it will do."""
    one.find("staff")
    one.push("Try without it (the entry for helpdesk)")
    one.reads("Write it to the store itself")
    one.looks()
    one.push(f"Write to {os.path.basename(one.store)}: OU=staff: remove an entry; and propagate it all")
    one.reads("Written to")
    found = State(one.store)
    number = found.found(corp.STAFF)
    one.check(len(found.descriptor(number).dacl.entries) == 7 and not found.queue and not found.stale, "the store isn't as it was said")


def odd(one):
    """Names that are hostile to pages are letters."""
    one.find("odd")
    number = int(one.browser.script("return location.hash").rpartition("/")[2])
    below = one.served.get("children", n=number)[1]["below"]
    one.check(len(below) == len(corp.HOSTILE), f"{len(below)} hostile names")
    for child in below:
        one.browser.go(f"{one.served.address}#/object/{child['n']}")
        came = one.browser.until("return location.hash.endsWith('/' + arguments[0]) && document.querySelector('main h1') && "
                                 "document.querySelector('[aria-current][data-n=\"' + arguments[0] + '\"]') && "
                                 "document.title.length > 15", str(child["n"]))
        one.check(came, f"{child['name'][:40]} isn't shown")
        found = one.browser.script("return document.querySelectorAll('main img, main script, main b b').length")
        one.check(found == 0, f"{child['name'][:40]} is markup")
        one.looks()
    one.check("alert(1)" in one.browser.script("return document.body.textContent"), "a name isn't whole")


def report(tries, browser, where, narrow):
    """The page of rights, with moments: its result stands first, and all of it can be read and used by everybody."""
    browser.go("file://" + tries.path("report.html"))
    browser.until("return document.querySelector('h1')")
    seen.check(tries, browser, f"{where}: report", narrow, seen.OF_REPORT)
    browser.script("document.querySelectorAll('details').forEach((one) => { one.open = true; })")
    seen.check(tries, browser, f"{where}: report, unfolded", narrow, seen.OF_REPORT)
    first = browser.script("return document.querySelector('main h2').textContent")
    tries.check(first == "What is dangerous", f"{where}: report: {first} stands first")
    for _ in range(12):
        browser.press("Tab")
        name = browser.script("const one = document.activeElement; return one.tagName + ' ' + getComputedStyle(one).outlineStyle")
        tries.check("none" not in name, f"{where}: report: the focus isn't seen on {name}")


def reported(tries):
    """Makes the page of rights of the helpdesk's dave, with a change of a list that is passed down."""
    with open(tries.path("report.txt"), "w", encoding="utf-8") as opened:
        opened.write(f"token 1 user=S-1-5-32-544 privileges=security,restore\nmodify 1 dn='{corp.STAFF}' sd=dacl "
                     "replace:nTSecurityDescriptor='sddl:D:(A;;GA;;;SY)(A;CI;WPWD;;;AU)'\n")
    words = [os.path.join(corp.TOP, "tools", "adsd-report"), tries.path("corp"), "--user", "dave", "--group", "*",
             "--frames", tries.path("report.txt"), "--steps", "8"]
    with open(tries.path("report.html"), "wb") as opened:
        tries.check(subprocess.run(words, stdout=opened).returncode == 0, "the page of rights")


TASKS = [reset, tabs.tabs, unfold, may, chains, members, take_away, add, by_text, protect, frames]


def all_of(tries, served, odd_one, size):
    wide, high, dark = size
    where, narrow = f"{wide} pixels, {'dark' if dark else 'light'}", wide < 800
    browser = Browser(wide, high, dark)
    try:
        one = Auditor(tries, browser, served, where, narrow)
        for task in TASKS:
            one.does(task)
        store = tries.path(f"write-{tries.count}")
        corp.load(store)
        writing = Served(store, "--write")
        try:
            one = Auditor(tries, browser, writing, where, narrow)
            one.store = store
            one.does(write)
        finally:
            writing.end()
        one = Auditor(tries, browser, odd_one, where, narrow)
        one.does(odd)
        report(tries, browser, where, narrow)
    finally:
        browser.end()


def in_a_window(tries, served, odd_one, size):
    """All tasks in one window; once more in another one where the browser itself broke."""
    for again in (True, False):
        before = len(tries.wrong)
        try:
            all_of(tries, served, odd_one, size)
            return
        except (Broken, OSError, ValueError, http.client.HTTPException) as fault:
            del tries.wrong[before:]
            if not again:
                tries.check(False, f"{size}: the browser broke: {fault}")


def run(tries):
    """All tasks in all windows."""
    reported(tries)
    served, odd_one = Served(tries.path("corp")), Served(tries.path("odd"))
    try:
        for size in SIZES:
            in_a_window(tries, served, odd_one, size)
    finally:
        served.end()
        odd_one.end()

"""A page that is measured by the rules of WCAG 2.2 that a script can judge; measures.js does the measuring. Numbers are those
of the success criteria."""

from pathlib import Path
from typing import Any

from acceptance.front.browser import Page
from acceptance.front.page_states import DESK
from acceptance.front.waits import until

MEASURES = (Path(__file__).parent / "measures.js").read_text("utf-8")
ZOOMED = (320, 256)  # a window of 1280 x 1024 at 400 %
WIDTHS = (1280, 640, 320)
# Roles of what can have the focus, as the browser tells them to a screen reader.
ROLES = {"link", "button", "textbox", "searchbox", "checkbox", "radio", "combobox", "option", "Date", "spinbutton",
         "DisclosureTriangle", "heading", "group", "region", "RootWebArea", "dialog", "status"}
STRUCTURE = {"language": "en", "title": True, "zoom": True, "lacking": [], "mains": 1, "h1": 1, "headings": True, "ids": [],
             "order": [], "silent": [], "unlabelled": [], "loose": [], "groups": [], "tables": [], "pictures": [], "names": [],
             "fixed": [], "directions": []}
GROUNDS = {"light": "rgb(246, 242, 234)", "dark": "rgb(26, 25, 22)"}  # of the readers' pages


class Measured:
    """A page that is measured: `broken` has what breaks a rule, by the rule."""

    def __init__(self, page: Page) -> None:
        self.page = page
        self.broken: dict[str, Any] = {}

    def note(self, rule: str, found: Any) -> None:
        """Keeps what was found against a rule, if anything was."""
        if found:
            self.broken[rule] = found

    def run(self, measure: str) -> Any:
        """What a measure of measures.js finds on the page."""
        return self.page.js(f"(window.measures ??= {MEASURES}).{measure}()")

    def measure(self, rule: str, measure: str) -> None:
        """Keeps what a measure finds against a rule."""
        self.note(rule, self.run(measure))

    def structure(self) -> None:
        """The parts of a page: language, title, headings, labels, tables and the like; and what can have the focus has a role
        and a name for a screen reader."""
        odd = {name: found for name, found in self.run("structure").items() if found != STRUCTURE[name]}
        self.note("1.3.1, 2.4.2, 3.1.1, 4.1.3 parts of a page", odd)
        self.page.call("Accessibility.enable")
        told = until(lambda: len(found := focusable_nodes(self.page)) > 3 and found or [], "what can have the focus is told")
        self.note("4.1.2 roles", {role for role, _ in told} - ROLES)
        self.note("4.1.2 names", [role for role, name in told if not name])
        self.page.call("Accessibility.disable")

    def sizes(self, *narrow: tuple[str, str]) -> None:
        """Nothing runs over, and targets are large enough, at each width; `narrow`: what is measured on the last."""
        for width in WIDTHS:
            self.page.size(width, 800, 1, width == 320)
            self.page.wait(f"innerWidth === {width}")
            self.note(f"1.4.10 pixels that run over at {width}", max(0, self.run("over")))
            self.measure(f"2.5.8 targets at {width}", "targets")
        for rule, measure in narrow:
            self.measure(rule, measure)
        self.page.size(*DESK)

    def colours(self, site: str) -> None:
        """Contrast in light, dark and forced colours."""
        for scheme in ("light", "dark"):
            self.page.call("Emulation.setEmulatedMedia", features=[{"name": "prefers-color-scheme", "value": scheme}])
            ground = self.page.js("getComputedStyle(document.body).backgroundColor")
            self.note(f"the {scheme} ground", site == "readers" and ground != GROUNDS[scheme] and ground)
            self.measure(f"1.4.3 contrast in {scheme}", "contrast")
            self.measure(f"1.4.11 contrast of edges in {scheme}", "edges")
        self.page.call("Emulation.setEmulatedMedia", features=[{"name": "forced-colors", "value": "active"}])
        self.measure("edges in forced colours", "forced")

    def paper(self) -> None:
        """What is printed, also where a system is dark; what is folded is printed too."""
        dark = {"name": "prefers-color-scheme", "value": "dark"}
        self.page.call("Emulation.setEmulatedMedia", media="print", features=[dark])
        self.measure("what is printed", "printed")
        self.page.js("document.querySelectorAll('details.above').forEach((one) => { one.open = false; })")
        self.page.js("window.dispatchEvent(new Event('beforeprint'))")
        self.note("what stays folded on paper", self.page.js("document.querySelectorAll('details.above:not([open])').length"))

    def walk(self, at: str) -> None:
        """Tab comes to all that can be used, each with a ring that is seen, and nothing lies over it."""
        wanted = self.run("stops")
        met: list[dict[str, Any]] = []
        self.page.js("document.activeElement.blur(), scrollTo(0, 0)")
        for _ in range(len(wanted) + 12):  # a date has several stops
            self.page.key("Tab")
            now = self.run("focus")
            if met and now["key"] == met[0]["key"]:
                break
            if not now["isBody"] and (not met or met[-1]["key"] != now["key"]):
                met.append(now)
        self.note(f"2.1.1 what Tab does not come to, {at}", set(wanted) - {one["key"] for one in met})
        self.note(f"2.4.7 what does not show that it has the focus, {at}", [one["key"] for one in met if not one["hasRing"]])
        self.note(f"2.4.11 what is covered while it has the focus, {at}", [one["key"] for one in met if not one["isFree"]])


def focusable_nodes(page: Page) -> list[tuple[str, str]]:
    """Role and name of what can have the focus, from the browser's tree for screen readers."""
    nodes = [node for node in page.call("Accessibility.getFullAXTree")["nodes"] if not node.get("ignored")]
    return [(node["role"]["value"], node.get("name", {}).get("value", "").strip()) for node in nodes
            if any(one["name"] == "focusable" and one["value"].get("value") for one in node.get("properties", []))]

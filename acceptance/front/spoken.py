"""Both sites in another language: a tab whose words are given in English and looked for in that language."""

import json
import re
from typing import Any

from acceptance.front.browser import Page
from acceptance.front.office import Office

BRACKETS = "he"  # of which each text is the English one in brackets
# What page_states.py waits for: the text of which it is a part, and which of its forms.
PARTS = {
    "No container is chosen.": ("No container is chosen. Choose at least one.", None),
    "Ready at the desk": ("Ready at the desk: {containers}.", None),
    "2 readers with": ("{number} reader with “{who}”.", "other"),
    "2 orders wait.": ("{number} order waits.", "other"),
    "1 permit.": ("{number} permit.", "one"),
    "1 difference:": ("{number} difference:", "one"),
    "Orders that wait long: 1": ("Orders that wait long", None),
    "for good?": ("Remove unit {unit} for good?", None),
    "digits alone": ("A ticket’s number has digits alone. Its code has the letter T before them.", None),
    "will be emptied": ("These fields of every unit in the file will be emptied, because the file does not have their "
                        "columns:", None),
}


class Texts:
    """The texts of a language, as the service has written them for the desk."""

    def __init__(self, office: Office, code: str) -> None:
        self.code, self.texts = code, json.loads((office.folder / "texts" / f"{code}.json").read_text("utf-8"))["texts"]

    def say(self, english: str) -> str:
        """A text in this language; what is no text of the pages stays as it is."""
        return self.texts.get(english, english)

    def part(self, words: str) -> str:
        """The longest part without values of a text, or of the text in which these words stand."""
        english, form = PARTS.get(words, (words, None))
        text = self.texts.get(english, words)
        return max(re.split(r"\{\w+\}|%\(\w+\)s", text[form] if form and text is not words else text), key=len).strip()


class Spoken:
    """A tab of the browser in a language, which it chooses first."""

    def __init__(self, page: Page, texts: Texts) -> None:
        self.page, self.texts = page, texts
        page.visit(f"/?lang={texts.code}")

    def at(self, hash_: str) -> "Spoken":
        self.page.at(hash_)
        return self

    def __getattr__(self, name: str) -> Any:
        """A method of the tab. Those that take the words of something, and of the card that it is in, are given them in the
        language."""
        own = getattr(self.page, name)
        if name == "see":
            return lambda words, selector="main": own(self.texts.part(words), selector)
        if name in ("press", "choose", "fill", "press_starting"):
            return lambda *words: own(*(self.texts.say(one) for one in words))
        return own

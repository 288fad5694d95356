"""The languages of the pages: one catalog of texts (po/LANGUAGE.po) each, read at the start; English is in the code, and
en.po translates none of it. The archive's own texts are in no catalog and stay as they are."""

import gettext
import io
import json
import pathlib
import re
from datetime import date

from babel import Locale
from babel.dates import format_date
from babel.messages.mofile import write_mo
from babel.messages.pofile import read_po
from babel.numbers import format_decimal

HERE = pathlib.Path(__file__).resolve().parent
LONG = {"en": "d MMMM y"}  # where the locale's own long form is another country's
FIRST = {"fr": "d'er' MMMM y"}  # where the first day of a month is written otherwise
UNBROKEN = {"fr": re.compile("(?<=«) | (?=[:;?!»…])|(?<=[0-9]) (?=[0-9])")}  # the spaces at which no line ends


class Language:
    """code: as in `lang`; name: in itself; direction: of its writing; catalog: its texts as they were read; texts: the same,
    to be asked."""

    def __init__(self, code, catalog):
        self.code, self.catalog, self.texts, self.locale = code, catalog, compiled(catalog), Locale(code)
        self.name, self.direction = self.locale.get_language_name(code).capitalize(), self.locale.text_direction

    def say(self, text):
        """A text of the pages in this language."""
        return self.texts.gettext(text) if text else ""

    def day(self, text):
        """2040-01-01 as people write it. What is no day stays as it is."""
        try:
            day = date.fromisoformat(text)
        except ValueError:
            return text
        form = (FIRST if day.day == 1 else {}).get(self.code) or LONG.get(self.code, "long")
        return format_date(day, form, self.locale)

    def number(self, number):
        """1234 as people write it."""
        return format_decimal(number, locale=self.locale)

    def for_scripts(self):
        """The texts by their keys, as shared/language.js reads them; one with forms has them by the kinds of numbers."""
        kinds = {self.locale.plural_form(number): self.texts.plural(number) for number in range(200)}
        found = {}
        for one in self.catalog:
            key = f"{one.context}\4{one.id}" if one.context else one.id
            if isinstance(key, tuple):
                if all(one.string):
                    found[key[0]] = {kind: one.string[form] for kind, form in kinds.items()}
            elif key and one.string:
                found[key] = one.string
        return found


def compiled(catalog):
    """A catalog as gettext asks it."""
    file = io.BytesIO()
    write_mo(file, catalog)
    file.seek(0)
    return gettext.GNUTranslations(file)


def read(path):
    """The catalog of a language. Where a mark has a space beside it, that is one at which no line ends."""
    catalog = read_po(io.BytesIO(path.read_bytes()), path.stem)
    spaces = UNBROKEN.get(path.stem)
    for one in catalog if spaces else ():
        texts = one.string if one.pluralizable else [one.string]
        kept = tuple(spaces.sub("\N{NO-BREAK SPACE}", text) for text in texts)
        one.string = kept if one.pluralizable else kept[0]
    return catalog


def load(folder=HERE / "po"):
    """All languages by their codes, English first. nginx takes no other code for one; `my` is My orders."""
    paths = sorted((path for path in folder.glob("*.po") if re.fullmatch("(?!my$)[a-z]{2,3}", path.stem)),
                   key=lambda path: (path.stem != "en", path.stem))
    return {path.stem: Language(path.stem, read(path)) for path in paths}


def write(languages, folder):
    """Writes a file of each language for the scripts of the desk, which nginx sends."""
    folder.mkdir(exist_ok=True)
    folder.chmod(0o755)
    names = {one.code: one.name for one in languages.values()}
    for one in languages.values():
        new = folder / f"{one.code}.new"
        told = {"code": one.code, "direction": one.direction, "languages": names, "texts": one.for_scripts()}
        new.write_text(json.dumps(told, ensure_ascii=False), "utf-8")
        new.chmod(0o644)
        new.rename(folder / f"{one.code}.json")


def choose(languages, header, otherwise="en"):
    """The language that a reader prefers by an Accept-Language, else the office's."""
    wished = []
    for place, wish in enumerate(header.split(",")[:20]):
        code, _, quality = wish.partition(";q=")
        try:
            weight = float(quality or 1)
        except ValueError:
            continue
        wished.append((-weight, place, code.strip().lower().split("-")[0]))
    return next((languages[code] for weight, _, code in sorted(wished) if weight and code in languages), languages[otherwise])

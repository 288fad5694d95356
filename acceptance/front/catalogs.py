"""Compares the catalogs of texts (front/readers/po) with the texts of the pages:

    ./run acceptance.front.catalogs [--write]

prints for each language which texts its catalog lacks, has for nothing, or has with other places for values than
the pages; exit status 1 if there is one. With --write the catalogs first get what is new, without a translation, and
lose what is gone. en.po has all texts untranslated: it is what a new language begins as."""

import argparse
import io
import json
import os
import pathlib
import re
import sys

from babel.messages.catalog import Catalog
from babel.messages.extract import extract
from babel.messages.jslexer import tokenize, unquote_string
from babel.messages.pofile import read_po, write_po

FRONT = pathlib.Path(os.environ.get("FRONT_FILES") or pathlib.Path(__file__).resolve().parents[2] / "front")
HTML_PAGE = FRONT / "desk/index.html"
RULES = FRONT / "look/rules.json"
REFUSALS = FRONT / "shared/refusals.json"
# The calls that give texts: which of their values are texts, and which a context.
IN_SCRIPTS = {"text": (0,), "phrase": (0,), "counted": (1, 2), "textAs": (1,)}
IN_LOOKS = {"text": None, "counted": (2, 3)}
IN_TEMPLATES = {"_": None, "gettext": None, "ngettext": (1, 2), "pgettext": ((1, "c"), 2)}
JINJA = {"newstyle_gettext": "true", "trimmed": "true", "silent": "false"}
MARKED = re.compile('aria-label="([^"]*)" data-label|data-text>([^<]*)')  # the labels and texts of the desk's frame
PLACES = re.compile(r"%\(\w+\)s|\{\w+\}")


def values_of_call(tokens, place):
    """The values of the call that begins here: each a text, in one piece or several, or None."""
    values, depth, known = [""], 0, True
    for token in tokens[place:]:
        depth += (token.value in "([{") - (token.value in ")]}") if token.type == "operator" else 0
        if depth < 0:
            break
        if token.value == "," and not depth:
            values, known = [*values, ""], True
        elif token.type == "string" and not depth and known:
            values[-1] += unquote_string(token.value)
        elif token.value != "+":
            values[-1], known = None, False
    return values


def codes_in(literal):
    for piece in literal.split("${")[1:]:
        depth = 1
        for end, letter in enumerate(piece):
            depth += (letter == "{") - (letter == "}")
            if not depth:
                yield piece[:end]
                break


def texts_of_script(code):
    """The texts of a script, with their contexts: Babel's own reader passes over calls that stand in others."""
    tokens = list(tokenize(code, jsx=False))
    for place, token in enumerate(tokens[:-1]):
        if token.type == "template_string":
            for inner in codes_in(token.value):
                yield from texts_of_script(inner)
        elif token.value in IN_SCRIPTS and tokens[place + 1].value == "(" and tokens[place - 1].value != "function":
            values = values_of_call(tokens, place + 2)
            texts = [values[at] for at in IN_SCRIPTS[token.value] if values[at]]
            if texts:
                yield tuple(texts) if len(texts) > 1 else texts[0], values[0] if token.value == "textAs" else None


def texts_of_rules():
    """The texts of what is said about a file before its import."""
    rules = json.loads(RULES.read_text("utf-8"))
    texts = [*rules["elements"].values(), *rules["separators"].values(), *rules["exports"]]
    for one in rules["advice"].values():
        texts.extend(text for text in one[1:] if text and text != "{todo}")
    return texts


def texts_in(table):
    """All texts of a table of tables and lists."""
    if isinstance(table, str):
        yield table
    else:
        for one in table.values() if isinstance(table, dict) else table:
            yield from texts_in(one)


def texts_of_pages():
    """All texts of the pages: a catalog without translations."""
    found = Catalog(charset="utf-8")
    for path in sorted([*FRONT.glob("readers/*.py"), *FRONT.glob("my/*.py")]):
        texts = extract("python", io.BytesIO(path.read_bytes()), {"N_": None})
        add(found, path, ((text, None) for _, text, _, _ in texts))
    for path in sorted((FRONT / "readers/templates").iterdir()):
        texts = extract("jinja2.ext:babel_extract", io.BytesIO(path.read_bytes()), IN_TEMPLATES, options=JINJA)
        add(found, path, ((text, context) for _, text, _, context in texts))
    shared = sorted([*FRONT.glob("shared/*.js"), REFUSALS], key=lambda path: (path.stem, path.suffix == ".js"))
    for path in [*shared, *sorted(FRONT.glob("desk/**/*.js"))]:
        text = path.read_text("utf-8")
        add(found, path, ((one, None) for one in texts_in(json.loads(text))) if path == REFUSALS else texts_of_script(text))
    add(found, HTML_PAGE, ((text or label, None) for label, text in MARKED.findall(HTML_PAGE.read_text("utf-8"))))
    for path in sorted((FRONT / "look").glob("*.py")):
        texts = extract("python", io.BytesIO(path.read_bytes()), IN_LOOKS)
        add(found, path, ((text, None) for _, text, _, _ in texts))
    add(found, RULES, ((text, None) for text in texts_of_rules()))
    return found


def add(catalog, path, texts):
    """Adds the texts of a file, with their contexts."""
    for text, context in texts:
        catalog.add(text, locations=[(str(path.relative_to(FRONT)), 0)], context=context)


def catalogs(folder):
    return {path.stem: read_po(io.BytesIO(path.read_bytes()), path.stem) for path in sorted(folder.glob("*.po"))}


def forms(text):
    return list(text) if isinstance(text, (tuple, list)) else [text]


def faults(code, catalog, wanted):
    key = lambda one: (one.id if isinstance(one.id, str) else one.id[0], one.context)  # noqa: E731
    has, wants = ({key(one): one for one in some if one.id} for some in (catalog, wanted))
    told = [f"{code}: lacks {text}" for text, _ in wants if (text, _) not in has]
    told += [f"{code}: no page has {text}" for text, _ in has if (text, _) not in wants]
    for one in (has[name] for name in has if name in wants and code != "en"):
        told += [f"{code}: {problem}: {key(one)[0]}" for problem in problems(one, catalog)]
    return told


def problems(message, catalog):
    translated = forms(message.string)
    many = catalog.num_plurals if isinstance(message.id, (tuple, list)) else 1
    if message.fuzzy:
        yield "is uncertain"
    if len(translated) != many or not all(translated):
        yield "has no translation"
        return
    places = [sorted(set(PLACES.findall(text))) for text in forms(message.id)]
    for text in translated:
        if sorted(set(PLACES.findall(text))) not in places:
            yield "has other places for values"
        if ends(text) != ends(forms(message.id)[0]):
            yield "has other spaces at its ends"


def ends(text):
    """Whether a text begins, and whether it ends, with a space."""
    return text[:1].isspace(), text[-1:].isspace()


def write(path, catalog, wanted):
    """Brings a catalog up to the pages."""
    catalog.update(wanted, no_fuzzy_matching=True)
    catalog.obsolete.clear()
    for one in catalog:
        one.flags.discard("python-format")
        one.locations = sorted(set(one.locations))[:3]
    data = io.BytesIO()
    write_po(data, catalog, width=120, omit_header=True, include_lineno=False)
    head = path.read_text("utf-8").split("\n\n", 1)[0]
    path.write_text(f"{head}\n\n{data.getvalue().decode().strip()}\n", "utf-8")


def write_brackets(path, wanted):
    """Writes a catalog that has each text in brackets."""
    catalog = Catalog(path.stem, charset="utf-8", fuzzy=False)
    for one in wanted:
        if one.id:
            bracketed = tuple(f"⟦{text}⟧" for text in forms(one.id))
            catalog.add(one.id, bracketed if len(bracketed) > 1 else bracketed[0], context=one.context)
    data = io.BytesIO()
    write_po(data, catalog)
    path.write_bytes(data.getvalue())


def main():
    """Compares, and writes if that is wanted; returns the exit status."""
    words = argparse.ArgumentParser(description=__doc__, formatter_class=argparse.RawDescriptionHelpFormatter)
    words.add_argument("--write", action="store_true", help="bring the catalogs up to the pages first")
    given, folder, wanted = words.parse_args(), FRONT / "readers/po", texts_of_pages()
    if given.write:
        for code, catalog in catalogs(folder).items():
            write(folder / f"{code}.po", catalog, wanted)
    told = [line for code, catalog in catalogs(folder).items() for line in faults(code, catalog, wanted)]
    print("\n".join(told) or f"{len(wanted)} texts, in {', '.join(catalogs(folder))}")
    return 1 if told else 0


if __name__ == "__main__":
    sys.exit(main())

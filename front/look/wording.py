"""What is told of a file: texts in English, which the desk's page puts into the language of who reads it.

A text is a str or a number, as it is, or the dict of one of these functions, of which some are named as those of
front/shared/language.js. The catalogs have what they are given in English."""

import json
import pathlib
import re

HERE = pathlib.Path(__file__).resolve().parent
# What the causes of a refusal mean, which pages say too: beside this folder, or where the package has it
REFUSALS = (HERE.parent / "shared/refusals.json", HERE.parent / "front/shared/refusals.json")
WHOLE = ("emptied", "unread")  # these lists are told whole


def read_rules():
    """The rules, with the causes."""
    rules = json.loads((HERE / "rules.json").read_text("utf-8"))
    refusals = next(path for path in REFUSALS if path.exists())
    return {**rules, "causes": json.loads(refusals.read_text("utf-8"))["causes"]}


def text(english, **values):
    """A text of the catalogs, whose places in braces have these values."""
    return {"text": english, "values": values}


def counted(number, one, other):
    """A text by how many there are: `{number}` stands for them."""
    return {"number": number, "one": one, "other": other}


def quoted(words):
    """Words between quotation marks."""
    return text("“{words}”", words=words)


def joined(*parts, mark=""):
    """Texts one after the other, with a mark between them."""
    return {"parts": [one for part in parts for one in (mark, part)][1:]}


def listed(some, most):
    """The first of some texts, and how many more there are; most: None for all."""
    shown = some if most is None else some[:most]
    return {"list": shown, "more": len(some) - len(shown)}


def advice(rules, name, values):
    """An advice as its level, what it says, and what to do (nothing, or a text)."""
    level, says, todo = rules["advice"][name]
    most = None if name in WHOLE else rules["limits"]["shown"]

    def shown(place, value):
        """A value as it is told at this place."""
        if place == "rows":
            return counted(value, "{number} row", "{number} rows")
        if place == "lines":
            return counted(value, "{number} line", "{number} lines")
        return listed(value, most) if isinstance(value, list) else value

    found = {place: shown(place, value) for place, value in values.items() if f"{{{place}}}" in says + todo}
    return level, text(says, **found), text(todo, **found) if todo else ""


def in_english(told):
    """A text as a str."""
    if not isinstance(told, dict):
        return str(told)
    if "parts" in told:
        return "".join(map(in_english, told["parts"]))
    if "list" in told:
        some, more = ", ".join(map(in_english, told["list"])), f"{told['more']:,}"
        return in_english(text("{list} and {number} more", list=some, number=more)) if told["more"] else some
    if "number" in told:
        english, values = told["one" if told["number"] == 1 else "other"], {"number": f"{told['number']:,}"}
    else:
        english, values = told["text"], told["values"]
    return re.sub(r"\{(\w+)\}", lambda found: in_english(values[found[1]]), english)

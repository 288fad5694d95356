"""What is odd in the values of rows, one by one: letters, what a spreadsheet has changed, and events."""

import re

from csv_records import entries
from look_at_units import AT_END

GARBLED = re.compile("[\u00c2\u00c3][\u0080-\u00bf]|\u00e2\u20ac|\ufffd")
CONTROL = re.compile("[\x00-\x08\x0b\x0c\x0e-\x1f\x7f-\x9f]")
MONTH = ("(?i:jan|feb|mar|apr|may|jun|jul|aug|sep|oct|nov|dec|mrz|mär|mai|okt|dez|janv|févr|mars|avr|juin|juil|août|sept|déc"
         "|ene|abr|ago|dic|ιαν|φεβ|μαρ|απρ|μα[ιϊ]|ιουν|ιουλ|αυγ|σεπ|οκτ|νοε|δεκ)[.]?")
# As spreadsheets in English, German, French, Spanish and Greek write what was typed otherwise
RESHAPED = re.compile(rf"[0-9]{{1,2}}/[0-9]{{1,2}}/[0-9]{{2}}|[0-9]{{1,2}}(-|[.] ){MONTH}(-[0-9]{{2}})?|{MONTH}[- ][0-9]{{2}}"
                      r"|[0-9]+([.,][0-9]+)?[Ee]\+[0-9]+|#[¡¿]?[A-ZÄÖÜΆ-Ω/0]+[!?]|#N/[AD]|#NV|#Δ/Υ|Err:5[0-9]{2}|#{3,}"
                      "|TRUE|FALSE|WAHR|FALSCH|VRAI|FAUX|VERDADERO|FALSO|ΑΛΗΘΗΣ|ΑΛΗΘΕΣ|ΨΕΥΔΗΣ|ΨΕΥΔΕΣ")
# What is so in one column alone: a whole day in a code, the number of a day since 1900 among dates
RESHAPED_IN = {"identifier": re.compile(r"[0-9]{1,2}([/.-])[0-9]{1,2}\1[0-9]{4}"),
               "eventDates": re.compile("[1-9][0-9]{4}([.,][0-9]+)?")}
TWO_WAYS = re.compile(r"(0?[1-9]|1[0-2])([/-])(?!\1\2)(0?[1-9]|1[0-2])\2[0-9]{4}")
NOTHING = {"\\N", "nan", "NaN", "NAN", "NULL", "null", "(null)", "<NA>", "undefined"}
SPLIT = ("event", "physicalObject", "language")  # columns in which NULL is a blank entry begin so
MARKUP = re.compile("</?(a|b|br|div|em|h[1-6]|i|li|ol|p|span|strong|su[bp]|table|t[dhr]|u|ul)( [^<>]*)?/?>"
                    "|&(#x?[0-9a-f]+|nbsp|amp|lt|gt|quot|apos|[a-z](acute|grave|circ|uml|tilde|cedil)|[lr][sd]quo"
                    "|[mn]dash|hellip);", re.I)
CELL = 32767  # the most letters that Excel keeps in a cell; blanks at their end are not counted
COMPARED = ("legacyId", "culture", "publicationStatus", "levelOfDescription")  # to the letter, or but for case
NUMBERS = ("legacyId", "parentId")


def look_at_values(rows, reader, seen):
    """Says which rows have values that probably nobody meant."""
    places = [(name, reader.place[name]) for name in reader.header if name in reader.place]
    for advice, finds in ODD.items():
        found = [(row, *what) for row in rows if (what := first_in(row, places, finds))]
        if found:
            row, column, value = found[0]
            seen.say(advice, rows=len(found), row=row.number, sheet=row.sheet, column=column, found=value)
    look_at_events(rows, reader, seen)


def first_in(row, places, finds):
    """The first column of a row in which something is found, and that; None if nothing is."""
    return next(((name, found) for name, place in places if place < len(row.fields) and row.fields[place]
                 and (found := finds(name, row.fields[place])) is not None), None)


def garbled(_, text):
    """The first word that has garbled letters."""
    words = re.split("[ \t\r\n]+", text) if GARBLED.search(text) else []
    return next((word[:40] for word in words if GARBLED.search(word)), None)


def control(_, text):
    """The first control character, as a number."""
    found = CONTROL.search(text)
    return found and f"U+{ord(found[0]):04X}"


def reshaped(name, text):
    """The first entry that looks as a spreadsheet makes it."""
    kinds = () if name in NUMBERS else (RESHAPED, RESHAPED_IN.get(name, RESHAPED))
    return next((one for one in entries(text) if any(kind.fullmatch(one) for kind in kinds)), None)


def two_ways(name, text):
    """The first day whose month may be either number."""
    return next((one for one in entries(text) if TWO_WAYS.fullmatch(one)), None) if name == "eventDates" else None


def cut(_, text):
    """The end of a text that fills a cell."""
    letters = len(text.encode("utf-16-le")) // 2 if len(text) > CELL // 2 else 0
    return text[-40:] if CELL - 8 < letters <= CELL else None


def nothing(name, text):
    """A word that databases and programs write for nothing."""
    return text if text in NOTHING and not (text == "NULL" and name.startswith(SPLIT)) else None


def markup(_, text):
    """The first tag or entity of HTML."""
    found = MARKUP.search(text)
    return found and found[0][:40]


def hidden(name, text):
    """A value that is compared, if something that nobody sees stands beside it."""
    return AT_END.sub("", text) if name in COMPARED and AT_END.search(text) else None


ODD = {"garbled": garbled, "controls": control, "reshaped": reshaped, "two_ways": two_ways, "cut": cut, "nothing": nothing,
       "markup": markup, "hidden_spaces": hidden}


def look_at_events(rows, reader, seen):
    """Says which rows have events other than creation, whose actors and dates the office takes for those of
    creation."""
    if "eventTypes" not in reader.header:
        return
    place = reader.header.index("eventTypes")
    found = [(row, kind) for row in rows if place < len(row.fields) and (kind := other_event(row, place, reader))]
    if found:
        row, kind = found[0]
        seen.say("other_events", rows=len(found), row=row.number, sheet=row.sheet, found=kind)


def other_event(row, place, reader):
    """The first kind of event of a row that is no creation and has an actor or a date; None if there is none."""
    columns = [entries(reader.value(row, name)) for name in ("eventActors", "eventDates")]
    for number, kind in enumerate(entries(row.fields[place])):
        if kind and kind.lower() != "creation" and any(number < len(one) and one[number] for one in columns):
            return kind
    return None

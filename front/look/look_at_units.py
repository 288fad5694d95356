"""What the units of a file look like together: their parents, numbers, codes, languages and containers."""

import re

from wording import joined, quoted, text

ROUNDED = re.compile(r"[0-9]+([.,][0-9]+)?[Ee]\+[0-9]+")
DECIMALS = re.compile(r"([0-9]+)[.,]0+")
LONGEST_CIRCLE = 200
UNSEEN = "\u00a0\u00ad\u034f\u061c\u1680\u180e\u2000-\u200f\u2028-\u202f\u205f-\u2064\u3000\ufeff"
AT_END = re.compile(f"^[{UNSEEN}]+|[{UNSEEN}]+$")
WHOLE_CODE = re.compile("[A-Z]{2}[ -][0-9A-Za-z]{1,16}[ /-].+")  # country, repository, and more
SEVERAL = re.compile(r"[0-9][ ]*(?:[;,&+]|\b(?:a|and|bis|et|to|und|y|à|έως|και)\b)[^0-9]{0,12}[0-9]")
RANGE = re.compile(r"(?<![0-9])([0-9]{1,4})[ ]*[-–][ ]*([0-9]{1,4})$")
CULTURE = re.compile("[a-z]{2,3}([_@-][0-9A-Za-z_@-]+)?")


def look_at_units(reader, has_status, depth, seen):
    """Says what is odd in the units of a file."""
    units = reader.units
    if has_status and units and all(unit.is_draft for unit in units.values()):
        seen.say("all_drafts")
    odd = dict.fromkeys(unit.status for unit in units.values() if unit.status.lower() not in ("published", "draft", ""))
    if odd:
        seen.say("odd_status", words=[quoted(one) for one in odd])
    look_at_parents(units, seen)
    look_at_depths(units, depth, seen)
    look_at_numbers(units, seen)
    look_at_zeros(units, seen)
    look_at_codes(units, seen)
    look_at_notes(reader, seen)
    look_at_lengths(units, reader.limits["code"], seen)
    look_at_cultures(reader, seen)
    look_at_boxes(units, seen)


# Parents


def look_at_parents(units, seen):
    """Says which units do not find their parents above them, by what is probably wrong."""
    kinds = Parents(units)
    found = {}
    for unit in units.values():
        parent = units.get(unit.parent)
        if unit.parent and not (parent and parent.row.number < unit.row.number):
            found.setdefault(kinds.of(unit), []).append(unit)
    for name in Parents.NAMES:
        if some := found.get(name):
            seen.say(name, **first_of(some), parent=some[0].parent, about=kinds.about(name, some[0]))


class Parents:
    """Tells what is probably wrong with a parentId."""

    NAMES = ("parents_own", "parents_circle", "parents_below", "parents_zeros", "parents_decimals", "parents_hidden",
             "parents_identifiers", "parents_elsewhere")

    def __init__(self, units):
        self.units = units
        self.bare = {drop_zeros(legacy) for legacy in units}
        self.whole = {drop_decimals(legacy) for legacy in units}
        self.shown = {AT_END.sub("", legacy) for legacy in units}
        self.by_identifier = {}
        for unit in units.values():
            self.by_identifier.setdefault(unit.identifier, unit)

    def of(self, unit):
        """The name of the advice for a unit that does not find its parent above it."""
        if unit.parent == unit.legacy:
            return "parents_own"
        if unit.parent in self.units:
            return "parents_circle" if self.circle(unit) else "parents_below"
        for name, change, known in (("parents_zeros", drop_zeros, self.bare),
                                    ("parents_decimals", drop_decimals, self.whole),
                                    ("parents_hidden", lambda parent: AT_END.sub("", parent), self.shown)):
            if change(unit.parent) in known:
                return name
        return "parents_identifiers" if unit.parent in self.by_identifier else "parents_elsewhere"

    def circle(self, unit):
        """The legacyIds from a unit up to itself; empty if its way up does not come back to it in a few steps."""
        way, one = [unit.legacy], self.units.get(unit.parent)
        while one and one is not unit and len(way) < LONGEST_CIRCLE:
            way.append(one.legacy)
            one = self.units.get(one.parent)
        return way if one is unit else []

    def about(self, name, unit):
        """More of the first unit of an advice."""
        if name == "parents_circle":
            return joined(*self.circle(unit)[:8], unit.legacy, mark=joined(" ", text("below"), " "))
        if name == "parents_identifiers":
            other = self.by_identifier[unit.parent]
            return text("row {row}, whose legacyId is {legacy}", row=other.row.number, legacy=other.legacy)
        return ""


def look_at_depths(units, most, seen):
    """Says which unit lies too deep."""
    depths = {}
    for unit in units.values():
        depths[unit.legacy] = depths.get(unit.parent, 0) + 1
    deep = next((unit for unit in units.values() if depths[unit.legacy] > most), None)
    if deep:
        seen.say("deep", row=deep.row.number, sheet=deep.row.sheet)


# Numbers and codes


def look_at_numbers(units, seen):
    """Says which legacyIds differ only in zeros, and which a spreadsheet has rounded or given decimals."""
    groups = {}
    for legacy in units:
        groups.setdefault(drop_zeros(legacy), []).append(legacy)
    pairs = [text("{one} and {other}", one=group[0], other=group[1]) for group in groups.values() if len(group) > 1]
    if pairs:
        seen.say("zeros", pairs=pairs)
    rounded = [unit for unit in units.values() if ROUNDED.fullmatch(unit.legacy) or ROUNDED.fullmatch(unit.parent)]
    if rounded:
        one = rounded[0]
        seen.say("rounded", **first_of(rounded), found=one.legacy if ROUNDED.fullmatch(one.legacy) else one.parent)
    decimals = [unit for unit in units.values() if DECIMALS.fullmatch(unit.legacy)]
    if decimals:
        seen.say("decimals", **first_of(decimals), found=decimals[0].legacy)


def look_at_zeros(units, seen):
    """Says which identifiers have lost the zeros that others below the same unit have at their beginning."""
    groups = {}
    for unit in units.values():
        if unit.identifier.isascii() and unit.identifier.isdigit():
            groups.setdefault(unit.parent, []).append(unit)
    lost = []
    for group in groups.values():
        width = max((len(unit.identifier) for unit in group if unit.identifier.startswith("0")), default=0)
        lost += [unit for unit in group if len(unit.identifier) < width]
    if lost:
        lost.sort(key=lambda unit: unit.row.number)
        seen.say("lost_zeros", **first_of(lost), found=lost[0].identifier)


def look_at_codes(units, seen):
    """Says which identifiers repeat that of the unit above."""
    again = [
        unit for unit in units.values() if unit.parent in units
        and repeats(unit.identifier, units[unit.parent].identifier)
    ]
    if again:
        seen.say("full_codes", **first_of(again), code=f"{units[again[0].parent].identifier}/{again[0].identifier}")
    if whole := [unit for unit in units.values() if WHOLE_CODE.fullmatch(unit.identifier)]:
        seen.say("whole_codes", **first_of(whole), found=whole[0].identifier)


def look_at_notes(reader, seen):
    """Says which rows are no units: without a title, and with a word where others have numbers, or with nothing else."""
    units = list(reader.units.values())
    has_numbers = 2 * sum(unit.legacy.isdecimal() for unit in units) >= len(units)
    notes = [unit for unit in units if unit.title in ("", unit.legacy) and not unit.legacy.isdecimal()
             and (has_numbers or sum(map(bool, unit.row.fields)) == 1)]
    if notes and "title" in reader.place:
        seen.say("notes", **first_of(notes), found=notes[0].legacy[:40])


def look_at_lengths(units, most, seen):
    """Says which units would have a long reference code: the identifiers from the top down."""
    lengths = {}
    for unit in units.values():
        lengths[unit.legacy] = lengths.get(unit.parent, 0) + len(unit.identifier) + bool(unit.identifier)
    long = [unit for unit in units.values() if lengths[unit.legacy] > most]
    if long:
        seen.say("long_codes", **first_of(long), most=most)


def repeats(identifier, above):
    """Whether an identifier begins with that of the unit above, and goes on after a mark such as `/`."""
    rest = identifier.removeprefix(above)
    return bool(above) and identifier != rest and re.match("[^0-9A-Za-z]", rest) is not None


def look_at_cultures(reader, seen):
    """Says which languages are not written as AtoM does, and whether all rows are in another one than English."""
    odd = [one for one in reader.cultures if one and not CULTURE.fullmatch(one)]
    if odd:
        seen.say("odd_culture", words=[quoted(one) for one in odd])
    cultures = {unit.culture for unit in reader.units.values()}
    if len(cultures) == 1 and reader.translations == 0 and not {one.lower() for one in cultures} & {"", "en"}:
        seen.say("one_language", culture=cultures.pop())


# Containers


def look_at_boxes(units, seen):
    """Says which containers are written in two ways, or shared by archives."""
    archives, alike = {}, {}
    tops = {}
    for unit in units.values():
        tops[unit.legacy] = tops.get(unit.parent, unit.legacy if not unit.parent else "")
        for box in unit.boxes:
            archives.setdefault(box, set()).add(tops[unit.legacy])
            alike.setdefault(tuple(drop_case(part) for part in box), {})[box] = True
    groups = [joined(*(quoted(box_words(box)) for box in group), mark=" / ") for group in alike.values() if len(group) > 1]
    if groups:
        seen.say("boxes_alike", boxes=groups)
    shared = [box_words(box) for box, some in archives.items() if len(some) > 1]
    if shared:
        seen.say("boxes_shared", boxes=shared)
    several = [box_words(box) for box in archives if has_several(box[0])]
    if several:
        seen.say("boxes_several", boxes=several)
    partly = [unit for unit in units.values() if len({bool(box[1]) for box in unit.boxes}) == 2]
    if partly:
        seen.say("boxes_unplaced", **first_of(partly), found=next(box[0] for box in partly[0].boxes if not box[1]))


def has_several(name):
    """Whether a container's name seems to be that of several."""
    found = RANGE.search(name)
    return SEVERAL.search(name) is not None or (found is not None and int(found[1]) < int(found[2]))


def box_words(box):
    """A container's name, location and kind, as far as it has them."""
    return ", ".join(part for part in box if part)


def drop_case(words):
    """Words without case, and with one space for several."""
    return " ".join(part for part in re.split("[ \t\r\n\u00a0]+", words.lower()) if part)


def drop_zeros(number):
    """A number without the zeros at its beginning; another text as it is."""
    return number.lstrip("0") if number.isascii() and number.isdigit() else number


def drop_decimals(number):
    """A number without `.0` at its end; another text as it is."""
    found = DECIMALS.fullmatch(number)
    return found[1] if found else number


def first_of(units):
    """How many units these are, and the row of the first."""
    return {"rows": len(units), "row": units[0].row.number, "sheet": units[0].row.sheet}

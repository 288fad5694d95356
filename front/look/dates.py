"""Dates of AtoM's eventStartDates and eventEndDates where eventDates is blank, which is all that an office reads."""

from csv_records import entries

DATES, START, END = "eventDates", "eventStartDates", "eventEndDates"
YEAR = 4  # letters


def dates_of(row, header):
    """What eventDates would be by the other two columns; nothing if it is filled, or if they are blank, too."""
    dates, starts, ends = (entries(row.fields[header.index(name)]) if name in header and header.index(name) < len(row.fields)
                           else [""] for name in (DATES, START, END))
    if any(dates):
        return ""
    count = max(len(starts), len(ends))
    starts, ends = (some + [""] * (count - len(some)) for some in (starts, ends))
    found = [span(start, end) for start, end in zip(starts, ends)]
    return "|".join(found) if any(found) else ""


def span(start, end):
    """Two days as one reads them: years alone if they are whole, one day if both are the same, and no end if there is none."""
    if start[YEAR:] in ("", "-00-00", "-01-01") and end[YEAR:] in ("", "-00-00", "-12-31"):
        start, end = start[:YEAR], end[:YEAR]
    start, end = (day.removesuffix("-00").removesuffix("-00") for day in (start, end))
    mark = "-" if max(len(start), len(end)) <= YEAR else " - "
    return f"{start}{mark}{end}".rstrip() if start and start != end else end


def fill(rows):
    """Fills eventDates in the rows below a header, where it can be."""
    header, width = rows[0].fields, len(rows[0].fields)
    if DATES not in header:
        header.append(DATES)
    place = header.index(DATES)
    for row in rows[1:]:
        if len(row.fields) == width:
            row.fields[place:place + 1] = [dates_of(row, header) or "".join(row.fields[place:place + 1])]

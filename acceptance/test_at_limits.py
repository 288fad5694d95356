"""What an office, a file and a connection take at most, and one more: permits of a ticket, settings, rows of a file, bytes of
a field, fields and bytes of a head, messages of a connection. Such scenarios are too long to be written down."""

from pathlib import Path

import pytest

from acceptance import client
from acceptance.reference_model.limits import (
    HIGHEST, LAST_ROW as ROWS, LONGEST_HEAD as HEAD, MOST_ANSWERS as MESSAGES, MOST_BYTES as BYTES, MOST_FIELDS as FIELDS,
    MOST_PERMITS as PERMITS,
)
from acceptance.scenarios import Scenario

SEATS, DAILY, RUN = HIGHEST["seats"], HIGHEST["daily"], HIGHEST["run"]
LIMIT, FULL = "refused 7", "refused 23"
EVER = "9999-12-31"
ASKED = ["> GET /desk/issued HTTP/1.1", "> Host: x"]
REFUSED = '400 close {"error":"bad request"}'


def head_of(fields):
    """A question with this many fields; the first is Host."""
    return [*ASKED, *(f"> X-{n}: {n}" for n in range(1, fields)), ">"]


def head_as_long(size):
    """A question with a head of this many bytes, filled by a long field; `> ` counts for the CR LF of a line."""
    rest = sum(map(len, ASKED)) + len("X: \r\n\r\n")
    return [*ASKED, "> X: " + "x" * (size - rest), ">"]


def with_answer(question):
    """A question about what is out, with the answer that nothing is."""
    return [*question, "200 []"]


def permits():
    """Permits for as many units as a ticket may have them for, and one more; a later day for one of them; a permit that
    is revoked makes room."""
    lines = ["POST /desk/import/a", "| legacyId,identifier,title,publicationStatus"]
    lines += [f"| {n},A{n},Plans,Published" for n in range(1, PERMITS + 2)]
    remarks = ",".join(f'{{"kind":2,"row":{n + 1}}}' for n in range(1, PERMITS + 2))
    lines.append(f'200 {{"changed":0,"new":{PERMITS + 1},"remarks":[{remarks}],"same":0,"translations":0}}')
    lines += [f'POST /desk/register {{"name":"Ann","until":"{EVER}"}}', '200 {"ticket":1}']

    def permit(unit, until, answer=None):
        lines.append(f'POST /desk/permit {{"ticket":1,"unit":{unit},"until":"{until}"}}')
        lines.append(answer or f'200 {{"ticket":1,"unit":{unit},"until":"{until}"}}')

    for unit in range(1, PERMITS + 1):
        permit(unit, "2024-03-31")
    permit(PERMITS + 1, "2024-03-31", FULL)
    permit(PERMITS + 2, "2024-03-31", "refused 1")
    permit(1, "2024-04-01")
    lines += ['POST /desk/revoke {"ticket":1,"unit":50}', '200 {"unit":50}']
    permit(PERMITS + 1, "2024-03-31")
    permit(50, "2024-03-31", FULL)
    return lines


def boxes(number):
    """A unit in this many boxes, and three readers."""
    names = "|".join(f"B{n}" for n in range(1, number + 1))
    lines = ["POST /desk/import/a", "| legacyId,title,publicationStatus,physicalObjectName"]
    lines.append(f"| 1,Plans,Published,{names}")
    lines.append('200 {"changed":0,"new":1,"remarks":[{"kind":2,"row":2}],"same":0,"translations":0}')
    for ticket in (1, 2, 3):
        lines += [f'POST /desk/register {{"name":"Ann","until":"{EVER}"}}', f'200 {{"ticket":{ticket}}}']
    return lines


def order(ticket, container, answer):
    return [f'POST /public/orders {{"ticket":{ticket},"container":{container}}}', answer]


def seats():
    """Readers take all seats, from the first on; one more gets none until one leaves."""
    lines = [f"with seats {SEATS} daily 1 hands 1 run 1"]
    for ticket in range(1, SEATS + 2):
        lines += [f'POST /desk/register {{"name":"Ann","until":"{EVER}"}}', f'200 {{"ticket":{ticket}}}']
    for ticket in range(1, SEATS + 1):
        lines += [f'POST /desk/seat {{"ticket":{ticket}}}', f'200 {{"seat":{ticket}}}']
    last = f'POST /desk/seat {{"ticket":{SEATS + 1}}}'
    lines += [last, "refused 8", 'POST /desk/leave {"ticket":77}', '200 {"seat":77}']
    return [*lines, last, '200 {"seat":77}', f"GET /desk/readers/{SEATS}", reader_in(SEATS)]


def reader_in(seat):
    """The answer to a question for the reader on this seat, who has the ticket of the same number."""
    return f'200 {{"name":"Ann","orders":[],"seat":{seat},"ticket":{seat},"until":"{EVER}"}}'


def orders():
    """All orders of a ticket in a day; cancelled ones count; other tickets and days have as many of their own."""
    lines = [f"with seats 1 daily {DAILY} hands 1 run 1", *boxes(DAILY + 1)]
    for container in range(1, DAILY + 1):
        lines += order(1, container, f'200 {{"order":{container}}}')
    lines += [*order(1, DAILY + 1, LIMIT), 'POST /desk/cancel {"order":7}', '200 {"order":7}', *order(1, 7, LIMIT)]
    lines += order(2, DAILY + 1, f'200 {{"order":{DAILY + 1}}}')
    lines += ['POST /desk/day {"day":"2024-03-02"}', '200 {"day":"2024-03-02"}']
    return [*lines, *order(1, DAILY + 1, f'200 {{"order":{DAILY + 2}}}')]


def a_run():
    """A run takes all boxes but one, those of the earliest orders, and the next run takes the rest."""
    lines, past = [f"with seats 1 daily {DAILY} hands 1 run {RUN}", *boxes(RUN + 1)], RUN + 2

    def ticket(number):
        return (number + DAILY - 1) // DAILY

    for number in range(1, RUN + 2):
        lines += order(ticket(number), past - number, f'200 {{"order":{number}}}')
    lines += ["POST /desk/run", f'200 {{"run":1,"taken":{RUN}}}', "GET /desk/runs/1", "200", "| Run 1  2024-03-01"]
    names = sorted((f"B{container}", container) for container in range(2, RUN + 2))
    lines += [f"| {'':<20} {name:<16} {it:>6} {past - it:>8} {ticket(past - it):>7}" for name, it in names]
    lines += ["POST /desk/run", '200 {"run":2,"taken":1}']
    return [*lines, "POST /desk/run", "refused 24"]


def bad_row(row, cause):
    """The answer to a file that is refused for a fault in this row."""
    return f"refused 22 row {row} cause {cause}"


def rows():
    """The last row that a file may have, and one more, of each kind; another fault of that row is reported first."""
    blank = ["| ,,,"] * (ROWS - 3)
    first = ["POST /desk/import/a", "| legacyId,culture,title,qubitParentSlug", "| 1,en,Minutes,", *blank]
    remarks = f'[{{"kind":2,"row":2}},{{"kind":2,"row":{ROWS}}}]'
    lines = [*first, "| 2,en,Maps,", f'200 {{"changed":0,"new":2,"remarks":{remarks},"same":0,"translations":0}}']
    more = ["| ,,,", "| 1,fr,Registres,", "| 3,en,Deeds,", "| 3,en,Deeds,slug", "| ,en,Deeds,", "| 1,en,Minutes,"]
    for row, cause in zip([*more, "| 3", f"| 3,en,{'x' * (BYTES + 1)},"], [9, 9, 9, 8, 6, 7, 5, 9]):
        lines += [*first, "| 4,en,Plans,", row, bad_row(ROWS + 1, cause)]
    last = "| 1,fr,Registres,"
    told = '200 {"changed":0,"new":0,"remarks":[{"kind":2,"row":2}],"same":1,"translations":1}'
    return [*lines, *first, last, told, *first, "| ,,,", told.replace('translations":1', 'translations":0')]


def fields():
    """The most bytes that a field may have if it is read, and one more. Fields that are not read may have more."""
    lines, head = [], ["POST /desk/import/a", "| legacyId,culture,title,eventDates,qubitParentSlug,other"]
    most = "é" * (BYTES // 2) + "x"
    same = '200 {"changed":1,"new":0,"remarks":[{"kind":2,"row":2}],"same":0,"translations":0}'
    new = '200 {"changed":0,"new":1,"remarks":[{"kind":2,"row":2}],"same":0,"translations":0}'
    lines += [*head, f"| 1,, {most} ,,,{most}x", new, *head, f"| 1,,Plans,{most},,", same]
    too_long = [f"| 1,,{most}x,,,", f"| 1,,,{most}x,,", f"| 1,{most}x,,,,", f"| 1{most},,,,,"]
    for row in (*too_long, f"| 1,,,{'|' * (BYTES + 1)},,"):
        lines += [*head, row, bad_row(2, 10)]
    for row, cause in ((f"| 1,,{most}x", 5), (f"| ,,{most}x,,,", 6), (f"| 1,,{most}x,,s,", 8)):
        lines += [*head, row, bad_row(2, cause)]
    translated = same.replace('translations":0', 'translations":1')
    lines += [*head, "| 1,en,Plans,,,", f"| 1,fr,{most}x,,,", translated]
    return [*lines, *head, "| 1,en,Plans,,,", f"| 1,en,{most}x,,,", bad_row(3, 7)]


def messages():
    """The last answer of a connection says that it closes; what was sent after the last request is not read."""
    lines = with_answer(head_of(1)) * (MESSAGES - 1)
    return [*lines, *head_of(1), "200 close []", *head_of(1)]


SCENARIOS = {
    "most_permits": permits,
    "most_fields": lambda: with_answer(head_of(FIELDS)),
    "a_field_more": lambda: [*head_of(FIELDS + 1), REFUSED],
    "longest_head": lambda: with_answer(head_as_long(HEAD)),
    "a_byte_more": lambda: [*head_as_long(HEAD + 1), REFUSED],
    "no_end_of_a_head": lambda: [ASKED[0].replace(">", ">|") + "x" * (HEAD - len(ASKED[0]) + 2), REFUSED],
    "most_messages": messages,
    "most_seats": seats,
    "most_daily": orders,
    "largest_run": a_run,
    "most_rows": rows,
    "longest_field": fields,
}


@pytest.mark.parametrize("name", SCENARIOS)
def test_limit(name: str, program: client.Program, room: Path) -> None:
    Scenario(name, SCENARIOS[name]()).play(program, room / "office.db", by_bytes=False)

-- The lists for the staff. record-office-lists runs each SELECT over a copy of the office, and makes a page and a CSV file.
--
-- Before a SELECT stand its name, its title, what is said above it, and for which part of the staff it is, as in nginx's
-- desk-parts.conf (for who has all parts, unless it is told). What is drawn of it, for each year of its first column: the columns
-- of labels, and those of numbers. Its columns are named as the page shows them. Names of readers stand only in lists that are for
-- finding a reader. To change a list, or to add one, change a copy of this file.
--
-- The tables of the office are: unit (draft is 0 or 1; it is closed while `until` is after today), element (k is 1 for the
-- identifier and 2 for the title), container, housing (which unit names which container), reader, permit, orders (state is 1:
-- waits, 2: out, 3: done, 4: cancelled), run, run_line, and office (its day). Days count from 1970-01-01.
--
-- record-office-lists adds two tables: place has, for each unit, its `number` in the order of the catalogue, its `archive` (the
-- unit at the top), its reference `code`, whether it or a unit above it is a draft, until when it or a unit above it is closed
-- (0: open), and its `home`, the unit whose containers it lies in; above has each unit with itself and all units above it.
-- `place.parent` is the unit right above. last_row has the first row of each unit in the last file of its source (draft and
-- parent are NULL if the file has no such column), and event what the desk's log has of seats, issues, returns, days and what was
-- cancelled: `what`, when (`time`, and `at` in seconds), by whom of the `staff`, and whether it was surely done (is_sure). refused
-- has how `many` orders were refused on a day, for which container and why, by the name in docs/RULES.md.
-- The function day() writes a day as a date, title() finds the title of a unit, and reason() has a refusal in words.

-- list: drafts
-- title: Drafts
-- part: archivist
-- about: Units that the public does not see. What is below a draft is not shown either, and is not in this list unless it
--     is a draft itself.
SELECT unit.id AS "Unit", unit.source AS "Source", unit.legacy AS "legacyId", place.code AS "Code", unit.level AS "Level",
    title(unit.id) AS "Title", title(place.archive) AS "Archive"
FROM unit JOIN place ON place.unit = unit.id
WHERE unit.draft = 1
ORDER BY place.number;

-- list: closures
-- title: Closures that end soon
-- part: archivist
-- about: Units that open by themselves within 90 days after the office's day. A unit stays closed while one above it is
--     closed.
SELECT day(unit.until) AS "Opens on", unit.id AS "Unit", place.code AS "Code", unit.level AS "Level", title(unit.id) AS "Title",
    CASE WHEN place.closed > unit.until THEN day(place.closed) ELSE '' END AS "One above is closed until",
    title(place.archive) AS "Archive"
FROM unit JOIN place ON place.unit = unit.id, office
WHERE unit.until > office.day AND unit.until <= office.day + 90
ORDER BY unit.until, place.number;

-- list: permits
-- title: Permits that end soon, with readers' names
-- part: archivist
-- about: Permits whose last day is within 30 days from the office's day, for units that are closed or have a closed one below.
WITH below AS (
    SELECT above.higher AS unit, max(unit.until) AS closed FROM unit JOIN above ON above.unit = unit.id, office
    WHERE unit.until > office.day GROUP BY above.higher
)
SELECT day(permit.until) AS "Last day", permit.ticket AS "Ticket", reader.name AS "Reader", permit.unit AS "Unit",
    place.code AS "Code", title(permit.unit) AS "Title", day(max(place.closed, coalesce(below.closed, 0))) AS "Closed until"
FROM permit JOIN reader USING (ticket) JOIN place USING (unit) LEFT JOIN below USING (unit), office
WHERE permit.until BETWEEN office.day AND office.day + 30 AND max(place.closed, coalesce(below.closed, 0)) > office.day
ORDER BY permit.until, permit.ticket, place.number;

-- list: waiting
-- title: Orders that no run can fetch, with readers' names
-- part: counter
-- about: They wait until the reason ends. If the location of a box was changed by a file, the box has a new number: cancel
--     the order, and place it again.
WITH waiting AS (SELECT * FROM orders WHERE state = 1),
contents AS (
    SELECT waiting.id AS order_id, waiting.ticket, place.unit, place.draft, place.closed
    FROM waiting JOIN housing USING (container) JOIN place ON place.home = housing.unit
),
reason AS (
    SELECT id AS order_id, 0 AS rank, 'no unit names this container any more' AS text FROM waiting
    WHERE NOT EXISTS (SELECT 1 FROM housing WHERE housing.container = waiting.container)
    UNION ALL
    SELECT order_id, 1, 'unit ' || unit || ' in it is a draft, or below one' FROM contents WHERE draft
    UNION ALL
    SELECT order_id, 2, 'unit ' || unit || ' in it is closed until ' || day(closed) || ', and the reader has no permit'
    FROM contents, office
    WHERE closed > day AND NOT EXISTS (
        SELECT 1 FROM above JOIN permit ON permit.unit = above.higher
        WHERE above.unit = contents.unit AND permit.ticket = contents.ticket AND permit.until >= day)
),
not_open AS (SELECT order_id, min(rank), text FROM reason GROUP BY order_id),
behind AS (
    SELECT later.id AS order_id, 'order ' || waiting.id || ' is before it and cannot be fetched' AS text
    FROM waiting JOIN not_open ON order_id = waiting.id
    JOIN waiting AS later ON later.container = waiting.container AND later.id > waiting.id
    WHERE later.id NOT IN (SELECT order_id FROM not_open)
    GROUP BY later.id
)
SELECT waiting.id AS "Order", day(waiting.day) AS "Ordered on", waiting.ticket AS "Ticket", reader.name AS "Reader",
    container.id AS "Container", container.name AS "Name", container.location AS "Location", found.text AS "Why",
    (SELECT group_concat(id) FROM (SELECT other.id FROM container AS other
        WHERE other.name = container.name AND other.id <> container.id
        AND EXISTS (SELECT 1 FROM housing WHERE housing.container = other.id) ORDER BY other.id)) AS "Containers of the same name"
FROM waiting
JOIN (SELECT order_id, text FROM not_open UNION ALL SELECT order_id, text FROM behind) AS found ON order_id = waiting.id
JOIN reader USING (ticket) JOIN container ON container.id = waiting.container
ORDER BY waiting.id;

-- list: shared
-- title: Boxes that several archives share
-- part: archivist
-- about: A container is known by its name, location and kind. If units of two archives name the same ones, it is one
--     container: closing a unit of one archive withholds it from readers of the other.
WITH named AS (SELECT DISTINCT housing.container, place.archive FROM housing JOIN place USING (unit))
SELECT container.id AS "Container", container.name AS "Name", container.location AS "Location", container.kind AS "Kind",
    place.code AS "Archive", title(named.archive) AS "Title", named.archive AS "Unit"
FROM container JOIN named ON named.container = container.id JOIN place ON place.unit = named.archive
WHERE (SELECT count(*) FROM named AS other WHERE other.container = container.id) > 1
ORDER BY container.id, place.number;

-- list: unnamed
-- title: Boxes that no unit names
-- part: archivist
-- about: A file named each of them at this place once. If the box has moved, its units name another number. Numbers are never
--     used again; record-office-relocate, before an import, lets a box that moves keep its own.
SELECT id AS "Container", name AS "Name", location AS "Location", kind AS "Kind",
    (SELECT count(*) FROM orders WHERE orders.container = container.id) AS "Orders"
FROM container
WHERE NOT EXISTS (SELECT 1 FROM housing WHERE housing.container = container.id)
ORDER BY id;

-- list: readers
-- title: Who had a box, with readers' names
-- about: Each order whose container was given out, the newest first. The page shows 1,000; the CSV file has all.
SELECT container.id AS "Container", container.name AS "Name", container.location AS "Location", orders.id AS "Order",
    day(orders.day) AS "Ordered on", orders.ticket AS "Ticket", reader.name AS "Reader",
    CASE orders.state WHEN 2 THEN 'out' ELSE 'returned' END AS "State"
FROM orders JOIN container ON container.id = orders.container JOIN reader USING (ticket)
WHERE orders.state IN (2, 3)
ORDER BY orders.id DESC;

-- list: months
-- title: Figures by month
-- part: counter
-- about: Tickets that ordered, orders that were placed (and of these, how many were cancelled), and productions: containers
--     that runs fetched, in the month of the run.
WITH placed AS (
    SELECT substr(day(day), 1, 7) AS month, count(DISTINCT ticket) AS tickets, count(*) AS many, sum(state = 4) AS cancelled
    FROM orders GROUP BY month
),
fetched AS (
    SELECT substr(day(run.day), 1, 7) AS month, count(*) AS many FROM run_line JOIN run ON run.id = run_line.run GROUP BY month
)
SELECT month AS "Month", coalesce(tickets, 0) AS "Tickets", coalesce(placed.many, 0) AS "Orders",
    coalesce(cancelled, 0) AS "Cancelled", coalesce(fetched.many, 0) AS "Productions"
FROM (SELECT month FROM placed UNION SELECT month FROM fetched) LEFT JOIN placed USING (month) LEFT JOIN fetched USING (month)
ORDER BY month DESC;

-- list: archives
-- title: Figures by month and archive
-- part: counter
-- about: As in the figures by month. A container counts for each archive whose units name it now, so the sum may be
--     greater; containers that no unit names any more stand without an archive.
WITH archives AS (
    SELECT DISTINCT container.id AS container, place.archive
    FROM container LEFT JOIN housing ON housing.container = container.id LEFT JOIN place USING (unit)
),
event AS (
    SELECT substr(day(day), 1, 7) AS month, container, ticket, 1 AS placed, state = 4 AS cancelled, 0 AS fetched FROM orders
    UNION ALL
    SELECT substr(day(run.day), 1, 7), container, NULL, 0, 0, 1 FROM run_line JOIN run ON run.id = run_line.run
)
SELECT month AS "Month", coalesce(place.code, '') AS "Archive", coalesce(title(archives.archive), '') AS "Title",
    count(DISTINCT ticket) AS "Tickets", sum(placed) AS "Orders", sum(cancelled) AS "Cancelled", sum(fetched) AS "Productions"
FROM event JOIN archives USING (container) LEFT JOIN place ON place.unit = archives.archive
GROUP BY month, archives.archive
ORDER BY month DESC, place.number;

-- list: long-waiting
-- title: Orders that wait long, with readers' names
-- part: counter
-- about: Orders that have waited for a week or more. The desk's page of old orders cancels those that are ticked there.
SELECT orders.id AS "Order", day(orders.day) AS "Ordered on", office.day - orders.day AS "Days", orders.ticket AS "Ticket",
    reader.name AS "Reader", orders.container AS "Container", container.name AS "Name", container.location AS "Location",
    CASE coalesce(holding.place, 0) WHEN 0 THEN 'on its shelf' WHEN 1 THEN 'at the desk' ELSE 'out' END AS "Where"
FROM orders JOIN reader USING (ticket) JOIN container ON container.id = orders.container
LEFT JOIN holding ON holding.container = orders.container, office
WHERE orders.state = 1 AND office.day - orders.day >= 7
ORDER BY orders.id;

-- list: idle
-- title: Boxes at the desk that nobody has asked for lately
-- part: counter
-- about: Boxes that stand at the desk, and for which the newest order is a week old or older. Orders that still wait for one
--     keep it there: the desk's page of old orders cancels them and takes the box back to its shelf.
SELECT container.id AS "Container", container.name AS "Name", container.location AS "Location", day(max(orders.day)) AS "Last ordered on",
    office.day - max(orders.day) AS "Days", sum(orders.state = 1) AS "Orders that wait",
    max(orders.id) AS "Newest order"
FROM holding JOIN container ON container.id = holding.container JOIN orders ON orders.container = container.id, office
WHERE holding.place = 1
GROUP BY container.id HAVING office.day - max(orders.day) >= 7
ORDER BY container.id;

-- list: visits
-- title: Who was here, with readers' names
-- about: Each seat that was taken and left, the newest first, by the clock of the front. A new day frees all seats. What the
--     desk was not answered, and may not have been done, has a question mark.
WITH seat AS (
    SELECT event.*, (SELECT min(at) FROM event AS later WHERE later.at > event.at
        AND ((later.what = 'leave' AND later.ticket = event.ticket) OR later.what = 'day')) AS until
    FROM event WHERE what = 'seat'
)
SELECT substr(seat.time, 1, 10) AS "Day", seat.ticket AS "Ticket", reader.name AS "Reader",
    substr(seat.time, 12, 5) || CASE seat.is_sure WHEN 1 THEN '' ELSE '?' END AS "Came", seat.staff AS "Seat given by",
    substr(gone.time, 12, 5) || CASE gone.is_sure WHEN 1 THEN '' ELSE '?' END AS "Left", gone.staff AS "Seat freed by"
FROM seat LEFT JOIN reader USING (ticket) LEFT JOIN event AS gone ON gone.at = seat.until
ORDER BY seat.at DESC;

-- list: handed
-- title: Who gave what to whom, with readers' names
-- about: Each issue and its return, the newest first, with the time by the clock of the front and the member of staff.
WITH issue AS (
    SELECT event.*, (SELECT min(at) FROM event AS later
        WHERE later.at > event.at AND later.what = 'return' AND later.container = event.container) AS until
    FROM event WHERE what = 'issue'
)
SELECT substr(issue.time, 1, 10) AS "Day", issue.container AS "Container", container.name AS "Name", issue.ticket AS "Ticket",
    reader.name AS "Reader", substr(issue.time, 12, 5) || CASE issue.is_sure WHEN 1 THEN '' ELSE '?' END AS "Issued",
    issue.staff AS "Issued by", substr(back.time, 1, 10) AS "Returned on",
    substr(back.time, 12, 5) || CASE back.is_sure WHEN 1 THEN '' ELSE '?' END AS "Returned", back.staff AS "Taken back by"
FROM issue LEFT JOIN reader USING (ticket) LEFT JOIN container ON container.id = issue.container
LEFT JOIN event AS back ON back.at = issue.until
ORDER BY issue.at DESC;

-- list: cancelled
-- title: Who cancelled an order, with readers' names
-- about: Each order that was cancelled at the desk, or by its reader (My orders), the newest first, by the clock of the front. What
--     was not answered, and may not have been done, has a question mark.
SELECT substr(event.time, 1, 10) AS "Day", substr(event.time, 12, 5) || CASE event.is_sure WHEN 1 THEN '' ELSE '?' END AS "Cancelled",
    event.ticket AS "Ticket", reader.name AS "Reader", event.container AS "Container", container.name AS "Name", event.staff AS "By"
FROM event LEFT JOIN reader USING (ticket) LEFT JOIN container ON container.id = event.container
WHERE event.what = 'cancel'
ORDER BY event.at DESC;

-- list: visit-months
-- title: Visits by month
-- part: counter
-- about: Seats that were taken, different tickets, and containers that were issued.
SELECT substr(time, 1, 7) AS "Month", sum(what = 'seat') AS "Visits",
    count(DISTINCT CASE what WHEN 'seat' THEN ticket END) AS "Tickets", sum(what = 'issue') AS "Issues"
FROM event WHERE is_sure AND what IN ('seat', 'issue')
GROUP BY substr(time, 1, 7)
ORDER BY 1 DESC;

-- list: year-months
-- title: A year by month
-- part: counter
-- draw: Month | Visits, Orders, Issues
-- about: Seats that were taken and containers that were issued, by the clock of the front, and orders that were placed, by the
--     office's day.
WITH month (number, name) AS (
    VALUES ('01', 'January'), ('02', 'February'), ('03', 'March'), ('04', 'April'), ('05', 'May'), ('06', 'June'), ('07', 'July'),
        ('08', 'August'), ('09', 'September'), ('10', 'October'), ('11', 'November'), ('12', 'December')
),
found AS (
    SELECT substr(time, 1, 7) AS month, what, count(*) AS many FROM event WHERE is_sure AND what IN ('seat', 'issue') GROUP BY 1, 2
    UNION ALL
    SELECT substr(day(day), 1, 7), 'order', count(*) FROM orders GROUP BY orders.day
),
counted AS (
    SELECT substr(month, 1, 4) AS year, substr(month, 6) AS number, sum(many * (what = 'seat')) AS visits,
        sum(many * (what = 'order')) AS placed, sum(many * (what = 'issue')) AS issues
    FROM found GROUP BY month
)
SELECT year AS "Year", name AS "Month", coalesce(visits, 0) AS "Visits", coalesce(placed, 0) AS "Orders",
    coalesce(issues, 0) AS "Issues"
FROM (SELECT DISTINCT year FROM counted) CROSS JOIN month LEFT JOIN counted USING (year, number)
ORDER BY year DESC, number;

-- list: year-weekdays
-- title: A year by weekday
-- part: counter
-- draw: Weekday | Visits, Orders, Issues
-- about: As by month.
WITH weekday (number, name) AS (
    VALUES (1, 'Monday'), (2, 'Tuesday'), (3, 'Wednesday'), (4, 'Thursday'), (5, 'Friday'), (6, 'Saturday'), (7, 'Sunday')
),
found AS (
    SELECT substr(time, 1, 10) AS day, what, count(*) AS many FROM event WHERE is_sure AND what IN ('seat', 'issue') GROUP BY 1, 2
    UNION ALL
    SELECT day(day), 'order', count(*) FROM orders GROUP BY orders.day
),
counted AS (
    SELECT substr(day, 1, 4) AS year, (strftime('%w', day) + 6) % 7 + 1 AS number, sum(many * (what = 'seat')) AS visits,
        sum(many * (what = 'order')) AS placed, sum(many * (what = 'issue')) AS issues
    FROM found GROUP BY 1, 2
)
SELECT year AS "Year", name AS "Weekday", coalesce(visits, 0) AS "Visits", coalesce(placed, 0) AS "Orders",
    coalesce(issues, 0) AS "Issues"
FROM (SELECT DISTINCT year FROM counted) CROSS JOIN weekday LEFT JOIN counted USING (year, number)
ORDER BY year DESC, number;

-- list: year-waiting
-- title: How long readers wait for a container
-- part: counter
-- draw: Waited | Orders
-- about: Orders whose container was issued, by the year of the order: the days from the office's day of the order to the first
--     issue to that ticket from then on, by the clock of the front. What was issued without the front's register is not known.
WITH waited AS (
    SELECT substr(day(orders.day), 1, 4) AS year, julianday((
        SELECT min(substr(time, 1, 10)) FROM event WHERE what = 'issue' AND is_sure AND event.ticket = orders.ticket
        AND event.container = orders.container AND substr(time, 1, 10) >= day(orders.day))) - julianday(day(orders.day)) AS days
    FROM orders WHERE state IN (2, 3)
),
span (number, name, least, most) AS (
    VALUES (1, 'issued on the same day', 0, 0), (2, 'on the next day', 1, 1), (3, '2 to 3 days later', 2, 3),
        (4, '4 to 7 days later', 4, 7), (5, 'later', 8, 1e9), (6, 'not known', NULL, NULL)
)
SELECT year AS "Year", name AS "Waited", sum(coalesce(days BETWEEN least AND most, days IS least)) AS "Orders"
FROM waited CROSS JOIN span
GROUP BY year, number
ORDER BY year DESC, number;

-- list: year-boxes
-- title: The boxes most asked for
-- part: counter
-- draw: Name | Orders, Cancelled
-- about: The twenty containers of each year that were ordered most often, and how many of these orders were cancelled.
WITH counted AS (
    SELECT substr(day(day), 1, 4) AS year, container, count(*) AS many, sum(state = 4) AS cancelled FROM orders GROUP BY year, container
),
ranked AS (SELECT *, row_number() OVER (PARTITION BY year ORDER BY many DESC, container) AS rank FROM counted)
SELECT year AS "Year", ranked.container AS "Container", container.name AS "Name", container.location AS "Location",
    many AS "Orders", cancelled AS "Cancelled"
FROM ranked JOIN container ON container.id = ranked.container
WHERE rank <= 20
ORDER BY year DESC, rank;

-- list: year-refused
-- title: Orders that were refused, and why
-- part: counter
-- draw: Why | Orders
-- about: Of the readers' pages and the desk's, by the clock of the front; one that was sent again counts again. Orders of other
--     programs are not known, nor are those from before the desk's service has kept them.
SELECT substr(day, 1, 4) AS "Year", reason(why) AS "Why", sum(many) AS "Orders"
FROM refused
GROUP BY 1, why
ORDER BY 1 DESC, 3 DESC, 2;

-- list: year-refusals
-- title: Orders that were refused, by archive
-- part: counter
-- draw: Why, Title | Orders
-- about: As for the whole office. A container counts for each archive whose units name it now, so the sum may be greater; containers that no unit
--     names stand without an archive.
WITH archives AS (
    SELECT DISTINCT housing.container, place.archive FROM housing JOIN place USING (unit)
)
SELECT substr(day, 1, 4) AS "Year", reason(why) AS "Why", coalesce(place.code, '') AS "Archive",
    coalesce(title(archives.archive), place.code, 'without an archive') AS "Title", sum(many) AS "Orders"
FROM refused LEFT JOIN archives USING (container) LEFT JOIN place ON place.unit = archives.archive
GROUP BY 1, why, archives.archive
ORDER BY 1 DESC, 2, place.number IS NULL, place.number;

-- list: year-archives
-- title: A year by archive
-- part: counter
-- draw: Title | Orders, Issues, Cancelled, Refused
-- about: A container counts for each archive whose units name it now, so the sum may be greater; containers that no unit names
--     any more stand without an archive. Orders and those that were cancelled are by the office's day, issues and what was refused
--     by the clock of the front.
WITH archives AS (
    SELECT DISTINCT housing.container, place.archive FROM housing JOIN place USING (unit)
),
found AS (
    SELECT substr(day(day), 1, 4) AS year, container, 1 AS placed, 0 AS issued, state = 4 AS cancelled, 0 AS refused FROM orders
    UNION ALL
    SELECT substr(time, 1, 4), container, 0, 1, 0, 0 FROM event WHERE is_sure AND what = 'issue'
    UNION ALL
    SELECT substr(day, 1, 4), container, 0, 0, 0, many FROM refused
)
SELECT year AS "Year", coalesce(place.code, '') AS "Archive", coalesce(title(archives.archive), place.code, 'without an archive') AS "Title",
    sum(placed) AS "Orders", sum(issued) AS "Issues", sum(cancelled) AS "Cancelled", sum(refused) AS "Refused"
FROM found LEFT JOIN archives USING (container) LEFT JOIN place ON place.unit = archives.archive
GROUP BY year, archives.archive
ORDER BY year DESC, place.number IS NULL, place.number;

-- list: differs
-- title: Status or place differs from the last file
-- part: archivist
-- about: Units whose status or place is another than in the file that was imported last from their source on the desk's page. An
--     import changes neither of a unit that it knows: change it at the desk, or in the catalogue.
WITH parent AS (
    SELECT place.unit, unit.source, unit.legacy FROM place LEFT JOIN unit ON unit.id = place.parent
),
known AS (
    SELECT unit.id, unit.source, unit.legacy, unit.draft, last_row.draft AS draft_of_file, last_row.parent AS parent_of_file,
        CASE WHEN parent.legacy IS NULL OR parent.source = unit.source THEN coalesce(parent.legacy, '')
            ELSE parent.legacy || ' of ' || parent.source END AS above
    FROM unit JOIN last_row USING (source, legacy) JOIN parent ON parent.unit = unit.id
),
found AS (
    SELECT id, 'status' AS what, iif(draft, 'draft', 'published') AS office, iif(draft_of_file, 'draft', 'published') AS file
    FROM known WHERE draft <> draft_of_file
    UNION ALL
    SELECT id, 'parentId', above, parent_of_file FROM known WHERE above <> parent_of_file
)
SELECT unit.source AS "Source", unit.legacy AS "legacyId", unit.id AS "Unit", place.code AS "Code", title(unit.id) AS "Title",
    found.what AS "What", found.office AS "In the office", found.file AS "In the file"
FROM found JOIN unit USING (id) JOIN place ON place.unit = unit.id
ORDER BY place.number, found.what;

-- The lists from here on need a file of a source: record-office-lists --source SOURCE --file FILE. The tables row_of_file
-- (legacy) and box_of_file (name, location, kind) have what the file names, and source has the name of the source.

-- list: units-without-row
-- title: Units of a source that its file does not name
-- part: archivist
-- about: An import removes nothing. Remove these units at the desk if they are no longer held.
-- needs: file
SELECT unit.id AS "Unit", unit.legacy AS "legacyId", place.code AS "Code", unit.level AS "Level", title(unit.id) AS "Title",
    CASE unit.draft WHEN 1 THEN 'draft' ELSE 'published' END AS "Status"
FROM unit JOIN place ON place.unit = unit.id, source
WHERE unit.source = source.name AND unit.legacy NOT IN (SELECT legacy FROM row_of_file)
ORDER BY place.number;

-- list: boxes-without-row
-- title: Boxes of a source that its file does not name
-- part: archivist
-- about: Containers that units of this source name in the office, and that no row of the file names.
-- needs: file
SELECT container.id AS "Container", container.name AS "Name", container.location AS "Location", container.kind AS "Kind",
    group_concat(unit.id, ' ') AS "Units"
FROM container JOIN housing ON housing.container = container.id JOIN unit ON unit.id = housing.unit, source
WHERE unit.source = source.name
    AND NOT EXISTS (SELECT 1 FROM box_of_file AS box
        WHERE box.name = container.name AND box.location = container.location AND box.kind = container.kind)
GROUP BY container.id
ORDER BY container.id;

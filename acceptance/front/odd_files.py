"""Files as people might save them, made by rule: each way of saving, each column, each kind of fault, and what lies just
within and just beyond each limit. GROUPS has for each group the names of its files, with their bytes. What the look at a
file says of each stands in approved/look."""

import codecs
import itertools
import json
from collections.abc import Callable, Iterable

from acceptance.front.files import COLUMNS, GOOD, SHORT, TWO, csv_text, unit, zipped
from acceptance.front.office import FRONT

Named = Iterable[tuple[str, bytes]]
RULES = json.loads((FRONT / "look/rules.json").read_text("utf-8"))
ENDS = {"CRLF": "\r\n", "LF": "\n", "CR": "\r"}
MARKS = {"commas": ",", "semicolons": ";", "tabs": "\t", "bars": "|", "colons": ":"}
CODECS: dict[str, tuple[bytes, str]] = {
    "UTF-8": (b"", "utf-8"), "UTF-8 with a mark": (codecs.BOM_UTF8, "utf-8"),
    "UTF-16": (codecs.BOM_UTF16_LE, "utf-16-le"), "UTF-16, the other end first": (codecs.BOM_UTF16_BE, "utf-16-be"),
    "UTF-16 without a mark": (b"", "utf-16-le"), "the same, the other end first": (b"", "utf-16-be"),
    "UTF-32": (codecs.BOM_UTF32_LE, "utf-32-le"), "UTF-32, the other end first": (codecs.BOM_UTF32_BE, "utf-32-be"),
    "UTF-8 with two marks": (codecs.BOM_UTF8 * 2, "utf-8"), "UTF-16 with two marks": (codecs.BOM_UTF16_LE * 2, "utf-16-le"),
    "Windows-1252": (b"", "cp1252"), "an old Mac's letters": (b"", "mac-roman")}
FEW = ("legacyId", "parentId", "identifier", "title", "publicationStatus", "culture", "eventDates", "physicalObjectName")
ASTRAL = "\U0001d538"
UNSEEN = "\u00a0\u00ad\u034f\u061c\u1680\u180e\u2000\u200a\u200f\u2028\u202f\u205f\u2064\u3000\ufeff"
SEEN = "\u00a1\u00ac\u034e\u167f\u1fff\u2010\u2027\u2030\u205e\u2065\u3001"  # each beside one of those


def few(*rows, columns=FEW, **how):
    return csv_text(*rows, columns=columns, **how)


def bare(*lines, header="legacyId,parentId,title,publicationStatus"):
    return "".join(f"{line}\r\n" for line in (header, *lines))


# How it was saved

def ways() -> Named:
    """Each encoding with each separator; each line end with each kind of quotation marks."""
    rows = [unit("1", title="Docks, “quays”; é|", identifier="HUL"), "\r\n", unit("2", "1", "A \"B\"\nC", identifier="1")]
    for (name, (mark, codec)), (how, separator) in itertools.product(CODECS.items(), MARKS.items()):
        text = few(*rows, delimiter=separator)
        yield f"{name}, {how}", mark + text.encode(codec, "replace")
    for (name, end), quoting, has_mark in itertools.product(ENDS.items(), (0, 1, 2), (False, True)):
        text = few(*TWO, quoting=quoting, lineterminator=end)
        yield f"{name}, quoting {quoting}{', a mark' * has_mark}", codecs.BOM_UTF8 * has_mark + text.encode()
    for name, end in ENDS.items():
        yield f"{name}, empty lines", GOOD.replace("\r\n", end * 3).encode()
        yield f"{name}, no last one", few(*TWO, lineterminator=end).rstrip("\r\n").encode()
        yield f"{name}, blanks in lines", SHORT.replace("\r\n", f" \t{end} {end}").encode()


def zips() -> Named:
    """ZIPs with one CSV file, in several encodings and folders; with none and several, with a password, damaged, too large;
    and workbooks."""
    good, large = GOOD.encode(), 32 << 20
    files: tuple[dict[str, bytes], ...] = (
        {"a.csv": good}, {"of/A.CSV": good, "of/": b"", "read.txt": b"x"}, {"é.csv": GOOD.encode("utf-16")},
        {"a.csv": GOOD.replace(",", ";").encode("cp1252"), "__MACOSX/._a.csv": b"\0"}, {"a.csv": good, "b.csv": b"x"}, {},
        {"a.txt": good}, {"a.csv": b""}, {"a.csv": zipped({"a.csv": good})}, {"a.csv": b"\0" * large},
        {"a.csv": b"x" * (large + 1)}, {"a.csv": good, "[Content_Types].xml": b"x"}, {"a.csv": good, "mimetype": b"x"})
    for one in files:
        yield f"{', '.join(one) or 'nothing'}, {len(next(iter(one.values()), b'')):,} bytes", zipped(one)
    whole = zipped({"a.csv": good})
    entry = whole.index(b"PK\1\2")
    for what, place, byte in (("with a password", entry + 8, 1), ("an unknown kind", entry + 10, 99), ("no entry", entry, 0),
                              ("another sum", entry + 16, 0), ("less than there is", entry + 24, 9), ("changed", 45, 0)):
        yield what, whole[:place] + bytes([byte]) + whole[place + 1:]
    yield "cut", whole[:-9]


# By encoding, a title as archives have it
TITLES = {"cp1250": ("Spisy města Třebíče, šťastný rok", "Księgi miejskie Łodzi, żołnierze", "Győri levéltár, őrök könyve"),
          "cp1251": ("Дело о народном просвещении", "Указы, 1799 г."),
          "cp1253": ("Αρχείο του Δήμου Αθηναίων", "«ΑΘΗΝΑ», έγγραφα"),
          "cp1254": ("Köy işleri, ağaç ve çiftlik", "Mülkiye dergisi, sayı 3"),
          "cp1252": ("Procès-verbaux à l’Écluse, où l’été", "Größe und Maß", "Ação, São João, opções", "Úthlíð, ævi", "Señor")}


def encodings() -> Named:
    """Files in encodings of Windows, with few letters beyond ASCII and with many; dates that stand in other columns."""
    for codec, titles in TITLES.items():
        for title in titles:
            yield f"{title} in {codec}", few(unit("1", title=title)).encode(codec)
    columns = ("legacyId", "title", "eventStartDates", "eventEndDates")
    spans = (("1774-01-01", "1893-12-31"), ("1774", "1893"), ("1774-03-01", "1774-03-01"), ("1774-03-00", "1775-00-00"),
             ("1774-01-01", ""), ("", "1893"), ("1774-03-01|1780", "1775-01-01|"), ("NULL|1780", "|1781"), ("", ""))
    for start, end in spans:
        for has in (("eventDates", ""), ("eventDates", "1800"), ("other", "x")):
            row = {"eventStartDates": start, "eventEndDates": end, has[0]: has[1]}
            yield f"{start!r} to {end!r}, {has}", csv_text(unit("1", **row), unit("2"), columns=(*columns, has[0])).encode()


def beginnings() -> Named:
    """Signatures, whole and cut, at the beginning and after blanks; NUL and bytes that are not UTF-8 at many places."""
    signs = (b"PK\x03\x04", b"\xd0\xcf\x11\xe0", b"\xff\xfe", b"\xfe\xff", b"%PDF", b"{\\rtf", b"<ead>", codecs.BOM_UTF8)
    for sign in signs:
        yield f"{sign!r} before a file", sign + SHORT.encode()
        yield f"{sign!r} after a line", b"\r\n " + sign + b"x"
    for sign in signs:
        for what, data in (("alone", sign), ("cut", sign[:-1])):
            yield f"{sign!r} {what}", data
    for place in (0, 1, 2, 3, len(SHORT) - 1):
        yield f"NUL at {place}", SHORT.encode()[:place] + b"\0" + SHORT.encode()[place:]
    for data in (b"", b"\0", b"\0\0", b"a", b"a\0", b"\0a", b"\n", b"\xff", b"\xfe", b"\xff\xfe\0", b",", b'"', b'""', b'"a'):
        yield f"the bytes {data!r}", data
    for end in ENDS.values():
        lines = SHORT.replace("\r\n", end).encode() + f"3,2,Plans and papers of the dock company{end}4".encode()
        for place in (5, len(lines) - 25, len(lines) - 3, len(lines)):
            yield f"no UTF-8 at {place}, {end!r}", lines[:place] + b"\xe9" + lines[place:]
    for letter in ("é", "€", ASTRAL):
        for many in range(1, len(letter.encode())):
            yield f"{letter!r} cut after {many}", SHORT.encode() + b"3,1,Caf" + letter.encode()[:many]
            yield f"{letter!r} cut after {many}, and on", SHORT.encode() + b"3,1," + letter.encode()[:many] + b",x"
    for data in (b"\xc0\xaf", b"\xed\xa0\x80", b"\xf4\x90\x80\x80", b"\x80", b"\xc3\xa9\xc3", b"\x81", b"\x8d", b"\x90 \x9d",
                 b"\xc3\xa9 \xe9", b"\xe9\r\xe9", b"\xe2\x82\xac\xe9"):
        yield f"a title {data!r}", b"legacyId,title\r\n1,Docks\r\n2," + data + b"\r\n"
    yield "a long line before it", b"legacyId,title\r\n1," + b"x" * 30 + b"\xe9" + b"y" * 30 + b"\r\n"
    for end in ENDS.values():
        yield f"empty lines before it, {end!r}", f"legacyId,title{end * 3}1,x{end * 2}".encode() + b"2,\xe9"


# The header

def exports() -> Named:
    """What AtoM exports besides archival descriptions, with and without legacyId; and columns that are there twice."""
    for name in (*COLUMNS[::9], "own"):
        yield f"{name} twice", csv_text(*TWO, columns=(*(one for one in COLUMNS if one != name), name, name)).encode()
    for kind, needed in RULES["exports"].items():
        for header in (needed, needed[:-1], [*needed, "legacyId"], ["legacyId", *needed[1:]]):
            yield f"{kind}: {', '.join(header)}", (",".join(header) + "\r\n" + "1," * len(header) + "\r\n").encode()


def headers() -> Named:
    """Where the header stands, what stands above it, how legacyId is written, and columns that are not read."""
    for above in (1, 19, 20):
        for mark in (",", ";", "\t", "|"):
            lines = "".join(f"Line {line}{mark}\r\n" for line in range(above))
            yield f"{above} lines above it, {mark!r}", (lines + SHORT.replace(",", mark)).encode()
        yield f"{above} empty lines above it", ("\r\n" * above + SHORT).encode()
    for written in ("legacyid", "LEGACYID", "Legacy-ID", "legacy_id", "legacyId.", "\u00a0legacyId", "“legacyId”", "legacyIds",
                    "legacy", "'legacyId'", "id"):
        yield f"{written!r}", SHORT.replace("legacyId", written).encode()
        yield f"{written!r} and semicolons", SHORT.replace("legacyId", written).replace(",", ";").encode()
    for line in ("sep=,", "sep=;", "SEP=;", "Sep=\t", "sep=|", "sep=", "sep=x", "sep=;;", "sep =;", " sep=;", "xsep=;"):
        for mark, end in ((",", "\r\n"), (";", "\n")):
            yield f"{line!r} {mark!r} {end!r}", (line + "\r\n" + SHORT.replace(",", mark)).replace("\r\n", end).encode()
        yield f"{line!r} alone", line.encode()
    for header in ("", "legacyId", "legacyId,", ",legacyId", "legacyId,,", "a,b,c,d,e,f,g", "x", "legacyId,legacyId",
                   "legacyId,a,a,b", "title,legacyId,Title,TITLE", "legacyId,titles,title", "legacyId,__proto__,constructor",
                   "legacyId,Identifiers,code,unitid", "legacyId,box,boxes,location", '"legacyId","a,b"', "legacyId;title"):
        for below in ("1,2,3,4", ",,\r\n1"):
            yield f"{header!r}, {below!r}", bare(below, header=header).encode()
    own = [f"own{number}" for number in range(9)]
    for filled in (0, 1, 5, 6, 7):
        values = {name: "x" for name in own[:filled]}
        yield f"{filled} columns with values", few(unit("1", **values), unit("2"), columns=(*FEW, *own)).encode()
    yield "a value in one of two columns of a name", bare("1,,x", header="legacyId,own,own").encode()
    yield "a value that has no column", bare("1,x", "2,x,y", header="legacyId,own").encode()


# The rows

def rows() -> Named:
    """Fields too many and too few, blank numbers, slugs, rows of the same number, and what is refused first of several."""
    faults = {"few": "5,", "many": "5,,a,Published,x", "blank": ",,a,", "again": "1,,a,Published", "equal":
              "1,,Docks,Published", "right": "5,,a,Published", "commas": ",,,", "blanks": " ,\t, ,",
              "header": "legacyId,parentId,title,publicationStatus", "one": '""', "title": "6,,\"" + "x" * 61 + "\",Published"}
    for one, other in itertools.product(faults, faults):
        if one < other:
            yield f"{one}, {other}", bare("1,,Docks,Published", faults[one], faults[other]).encode()
    for one in faults:
        yield f"{one} alone", bare(faults[one]).encode()
        yield f"{one} three times", bare("1,,Docks,Published", *[faults[one]] * 3).encode()
    for slug, parent in itertools.product(("", "docks"), ("", "1", " ")):
        data = bare("1,,,A", f"2,{parent},{slug},B", header="legacyId,parentId,qubitParentSlug,title").encode()
        yield f"slug {slug!r}, parent {parent!r}", data
    for cultures in itertools.product(("", "en", "fr", "EN"), repeat=2):
        lines = [f"1,{culture},A{place}" for place, culture in enumerate(cultures)]
        yield f"cultures {cultures}", bare(*lines, header="legacyId,culture,title").encode()
    for title in ("x" * 60, "x" * 61, "é" * 61, ASTRAL * 61, "a\u0301" * 40, " ", "“x”"):
        yield f"a title of {len(title)}: {title[0]!r}", bare(f"1,,{title}", header="legacyId,parentId,title,x").encode()
    yield "all of it three times", (SHORT * 3).encode()
    yield "all of it twice, the second longer", (SHORT + SHORT + "9,,Nine,Published\r\n").encode()


def limits() -> Named:
    """What lies just within and just beyond each limit."""
    for text in ("x" * 65535, "x" * 65536, "é" * 32767, "é" * 32768, "€" * 21845, "€" * 21846, ASTRAL * 16383, ASTRAL * 16384):
        data = bare(f"1,{text}", header="legacyId,title").encode()
        yield f"a field of {len(text)} letters {text[0]!r}", data
        yield f"the same in a column that is not read: {len(text)} {text[0]!r}", data.replace(b"title", b"other")
    for many in (0, 1):
        yield f"8 MiB and {many} bytes", bare("1,A," + "x" * ((8 << 20) - 28 + many), header="legacyId,title,other").encode()
    two = bare("1,en,A", f"1,fr,{'x' * 65536}", header="legacyId,culture,title")
    yield "a long field of a translation", two.encode()
    yield "a long field of two, and both too long", bare(f"1,{'y' * 65536},{'x' * 65536}", header="legacyId,x,title").encode()
    for many, last in ((20_000, ""), (20_001, ""), (20_000, ",")):  # the first lacks a parent: so many take long to import
        rows_ = (f"{n},{'' if n > 1 else '77'}" for n in range(1, many + 1))
        yield f"{many} rows and {last!r}", bare(*rows_, last, header="legacyId,parentId").encode()
    for many in (1, 2, 63, 64, 65, 66):
        yield f"{many} levels", few(*chain(many)).encode()
    for many in (299, 300, 301):
        lines = (unit("1", identifier="H" * (many - 101)), unit("2", "1", identifier="1" * 99), unit("3", "2", identifier="2"),
                 unit("4", "2"), unit("5", "1", identifier="H" * 99 + "/"))
        yield f"a code of {many} letters and more", few(*lines).encode()
    for many in (1, 2, 8, 9, 10, 198, 199, 200, 201):
        circle = [unit(str(one), str(one % many + 1)) for one in range(1, many + 1)]
        yield f"a circle of {many}", few(*circle).encode()
        yield f"a circle of {many} below another unit", few(unit("0", "1"), *circle).encode()


def chain(many):
    """Units of which each lies below the one before it."""
    return [unit(str(level), str(level - 1) if level > 1 else "", identifier=str(level % 10)) for level in range(1, many + 1)]


# What the units are together

def parents() -> Named:
    """Each way in which a parent is not found, alone, and twice beside others."""
    odd = {"own": "2", "below": "3", "none": "77", "zeros": "001", "decimals": "1.0", "comma": "1,00", "hidden": "1\u200b",
           "identifier": "HUL", "found": "1", "top": "", "case": "a1", "spaces": "1 1", "rounded": "1.2E+05", "half": "1.5"}
    for name, parent in odd.items():
        one = [unit("1", identifier="HUL"), unit("2", parent), unit("3", "1"), unit("A1", "3")]
        yield f"{name}", few(*one).encode()
        yield f"{name} of two", few(*one, unit("5", parent), unit("6", parent, identifier="77")).encode()
    for legacy, parent in itertools.permutations(("7", "007", "7.0", "07.0", "7,0", "\u0667", "7\u00a0"), 2):
        yield f"legacyId {legacy!r}, parentId {parent!r}", few(unit(legacy), unit("9", parent)).encode()
    yield "two identifiers alike", few(unit("1", identifier="X"), unit("2", identifier="X"), unit("3", "X")).encode()
    yield "an identifier further down", few(unit("3", "X"), unit("2", identifier="X")).encode()
    yield "a circle that another hangs on", few(unit("1", "2"), unit("2", "3"), unit("3", "2"), unit("4", "1")).encode()


def numbers() -> Named:
    """Numbers as spreadsheets spoil them, codes that repeat those above, and identifiers that lost their zeros."""
    groups = [("007", "7", "07"), ("0", "00", "000"), ("01", "1", "02", "2"), ("1.0", "2,00", "3.5"), ("1E+5", "1.2e+10"),
              ("1,2E+05", "1E5", "E+5"), ("1.0.0", "1."), ("a1", "0a1"), ("\u0661", "1"), ("10.0", "10"), ("1.50", "1,0")]
    for group in groups:
        yield f"legacyIds {group}", few(*map(unit, group)).encode()
        yield f"below them: {group}", few(unit("9"), *(unit(str(place), one) for place, one in enumerate(group, 10))).encode()
    for group in (("001", "2"), ("001", "002"), ("01", "001", "1"), ("1", "2"), ("001", "a"), ("001", ""), ("001", "\u0661"),
                  ("10", "9", "08"), ("0", "1"), ("00", "1"), ("10", "9")):
        lines = [unit(str(place), "1" if place > 1 else "", identifier=one) for place, one in enumerate(("", *group), 1)]
        yield f"identifiers {group}", few(*lines).encode()
        lines = [unit(str(place), identifier=one) for place, one in enumerate(group, 1)]
        yield f"identifiers {group} at the top", few(*lines).encode()
    for above, code in (("HUL", "HUL/1"), ("HUL", "HUL1"), ("HUL", "HUL"), ("HUL", "HUL-"), ("HUL", "hul/1"), ("", "/1"),
                        ("HUL", "HUL é"), ("HUL", "HULé"), ("1", "1/2"), ("1", "1.2"), ("1", "12"), ("HUL", "X/HUL"),
                        ("HUL", "")):
        yield f"{code!r} below {above!r}", few(unit("1", identifier=above), unit("2", "1", identifier=code)).encode()
    for code in ("GB 0999 HUL", "GB-0999-HUL/1", "GB 0999", "GB 0999 HUL/1", "FR AD75 1 J", "MS 12", "ms 1 2", "DE0999 1"):
        yield f"a whole code {code!r}", few(unit("1", identifier="H"), unit("2", "1", identifier=code)).encode()
    for line in ("Note: exported by Ann,,", "Total,,,,7", "Total,,Total,", "12,,", "Total", ",,Total", "x,,,Published"):
        line += "," * (4 - line.count(","))
        header = "legacyId,parentId,title,publicationStatus,extentAndMedium"
        yield f"a row that is no unit {line!r}", bare("1,,Docks,Published,", line, header=header).encode()
    yield "a note alone", few("Note,,,,,,,\r\n").encode()
    yield "three such", few(unit("1", identifier="H"), *(unit(str(n), "1", identifier=f"H/{n}") for n in (2, 3, 4))).encode()


def words() -> Named:
    """Statuses, languages and containers, and lists of each that are longer than what is shown."""
    for status in ("Published", "published", "PUBLISHED", "Draft", "draft", "", "yes", "Publi\u00e9", "Published.", "Dra ft"):
        for other in ("Published", "no"):
            lines = unit("1", publicationStatus=status), unit("2", publicationStatus=other)
            yield f"statuses {status!r}, {other!r}", few(*lines).encode()
    cultures = ("en", "EN", "En", "fr", "fra", "f", "fran", "pt_BR", "zh-Hant-TW", "sr@latin", "en_", "e1", "English", "",
                "en GB")
    for culture in cultures:
        yield f"culture {culture!r}", few(unit("1", culture=culture), unit("2", culture=culture)).encode()
        yield f"culture {culture!r} as a translation", few(unit("1", culture="de"), unit("1", culture=culture)).encode()
    for many in (2, 5, 6, 1006):
        yield f"{many} odd cultures", few(*(unit(str(n), culture=f"L{n}") for n in range(many))).encode()
        yield f"{many} odd statuses", few(*(unit(str(n), publicationStatus=f"S{n}") for n in range(many))).encode()
        pairs = (one for n in range(1, many + 1) for one in (unit(str(n)), unit(f"0{n}")))
        yield f"{many} pairs of numbers", few(*pairs).encode()
        boxes = (unit(str(n), physicalObjectName=f"Box {n}|box  {n}") for n in range(many))
        yield f"{many} boxes alike", few(*boxes).encode()
        boxes = (unit(str(n), physicalObjectName=f"Box {n // 2}") for n in range(2 * many))
        yield f"{many} boxes shared", few(*boxes).encode()


BOX_COLUMNS = ("legacyId", "parentId", "title", "physicalObjectName", "physicalObjectLocation", "physicalObjectType")


def boxes() -> Named:
    """Containers with more or fewer places and kinds than names, blank, twice, alike, and shared."""
    entries = ("", "A", "A|B", "A|A", "NULL|A", "|A", "A|NULL|B", " A | B ", "a|A", "A\u00a0|A", "A  x|A x", "null|A",
               "A\nx|A x", "A B|AB")
    for name in entries:
        for location, kind in (("", ""), ("R|S", ""), ("R", "T|U|V"), ("NULL|S", "|U")):
            values = {"physicalObjectName": name, "physicalObjectLocation": location, "physicalObjectType": kind}
            yield f"{name!r}, {location!r}, {kind!r}", few(unit("1", **values), columns=BOX_COLUMNS).encode()
    for name in ("Box 1; Box 2", "Boxes 1-4", "1, 2", "Box 1 & 2", "Boîtes 1 à 3", "Box 1974-3", "Box 1/2", "Plan 1, a"):
        yield f"several {name!r}", few(unit("1", physicalObjectName=name), columns=BOX_COLUMNS).encode()
    for places in itertools.product(("", "1", "2", "9"), repeat=2):
        lines = (unit("1", physicalObjectName="A"), unit("2", places[0], physicalObjectName="A|B"),
                 unit("3", places[1], physicalObjectName="B"))
        yield f"parents {places}", few(*lines, columns=BOX_COLUMNS).encode()


# Values

def values() -> Named:
    """Letters that were garbled, control characters, what a spreadsheet has reshaped, and characters that nobody sees."""
    for text in ("Ã©", "Â ", "Ã", "Ã x", "â€", "â€™s", "â", "\ufffd", "Ä", "é", "Â\u00bf", "Â\u00c0", "x " + "y" * 45 + "Ã©"):
        yield f"garbled {text!r}", few(unit("1", title=f"a {text} b"), unit("2", title=text)).encode()
    for code in (0, 1, 8, 9, 10, 11, 12, 13, 14, 31, 0x7e, 0x7f, 0x80, 0x85, 0x9f, 0xa0, 0xad, 0x200b):
        yield f"control {code:04x}", few(unit("1", title=f"a{chr(code)}b"), unit("2", title=f"c{chr(code)}")).encode()
    for text in ("3/1/74", "13/12/1774", "3/1/7", "123/1/74", "3-Jan", "03-Jan", "3-Jan-74", "3-Jan-1774", "Jan-74", "Jan-7",
                 "jan-74", "3-Feb", "Mar-1774", "May-12", "12-Sep", "Dec-99", "1E+5", "1.2E+05", "1,2e+10", "1E5", "1.E+5",
                 "#NAME?", "#REF!", "#VALUE!", "#N/A", "#DIV/0!", "#NUM!", "#NULL!", "##", "###", "####x", "x 3/1/74",
                 "3/1/74 x", "1774|3/1/74", "NULL|Jan-74", "1774|1775", " 3/1/74 ", "3/1/74|4-Mar",
                 "3/1/1974", "01.03.1974", "01-03-1974", "3/3/1974", "13/3/1974", "1-mars", "01. Mrz", "Mrz 74", "1-Μαρ",
                 "μαρ-74", "1 mars 1974", "27089", "27089,5", "1974", "270890", "#¿NOMBRE?", "#WERT!", "#VALEUR!", "#ΤΙΜΗ!",
                 "#NV", "#N/D", "#Δ/Υ", "Err:502", "#1", "#tag!", "TRUE", "True", "WAHR", "FAUX", "ΨΕΥΔΗΣ", "\\N", "nan",
                 "Nan", "NULL", "<NA>"):
        yield f"reshaped {text!r}", few(unit("1", eventDates=text), unit("2", identifier=text, title=text)).encode()
    for text in ("<p>Docks</p>", "a<br/>b", "&nbsp;", "&eacute;", "&#8217;", "a < b > c", "<Box 1>", "R&D; x", "<a href='x'>"):
        yield f"marks {text!r}", few(unit("1"), unit("2", title=text)).encode()
    for many in (32760, 32761, 32768, 32769):
        yield f"{many} letters", few(unit("1", title="é" * (many - 9) + "the end, ")).encode()
        yield f"{many} letters, of two each", few(unit("1", title=ASTRAL * (many // 2) + "x" * (many % 2))).encode()
    yield "reshaped numbers alone", few(unit("3-Jan"), unit("4-Jan", "3-Jan")).encode()
    for letter in UNSEEN + SEEN:
        yield f"hidden {ord(letter):04x} after", few(unit(f"1{letter}"), unit("2", "1", culture=f"en{letter}")).encode()
    for letter in UNSEEN[::4] + SEEN[::4]:
        name = f"{ord(letter):04x}"
        lines = unit("1", f"{letter}1", publicationStatus=f"{letter}Draft"), unit(f"1{letter}1", title=f"a{letter}")
        yield f"hidden {name} before, and within", few(*lines).encode()
    yield "hidden in a level", csv_text(unit("1", levelOfDescription="Fonds\u00a0"), unit("2", title="x\u00a0")).encode()
    lines = unit("\u00a01\u200b"), unit("2", "\u200b1\u00a0\u00a0", publicationStatus="\u00a0Draft\u00a0")
    yield "hidden at both ends", few(*lines).encode()
    yield "a short row", bare("1,,\ufffd", "2,,Docks,Published").encode()
    yield "no column of it", bare("1,\ufffd", "2,\x01", "3,Jan-74", header="legacyId,other").encode()


def events() -> Named:
    """Kinds of events, with and without actors and dates at their places."""
    for kinds in ("", "Creation", "creation|CREATION", "Accumulation", "Creation|Accumulation", "NULL|Accumulation", "|x",
                  "x|y", " Creation ", "Creation|x|y"):
        for actors, dates in (("", ""), ("Ann", ""), ("", "1774|1775"), ("NULL|Ann", "NULL"), ("|", "|1775")):
            columns = ("legacyId", "eventTypes", "eventActors", "eventDates")
            text = csv_text({"legacyId": "1", "eventTypes": kinds, "eventActors": actors, "eventDates": dates},
                            {"legacyId": "2", "eventTypes": "Other", "eventActors": actors}, columns=columns)
            yield f"{kinds!r}, {actors!r}, {dates!r}", text.encode()
    yield "without actors and dates", bare("1,Other", "2,Creation", header="legacyId,eventTypes").encode()
    yield "a row without it", bare("1", "2,Other,Ann", header="legacyId,eventTypes,eventActors").encode()


# Quotation marks, and what a conversion makes of a file

def quotes() -> Named:
    """Quotation marks that are open, single, doubled, and beside blanks, with each separator."""
    fields = ('"a"', '"a', 'a"', '"a"b', '"a" ', '"a" b', '"a""b"', '"a""', '""', '"', '"""', '""""', '"a"b"c"', '"a\r\nb"',
              '"a\nb"c', '"a" "b"', 'a"b"c', '"a"b\tc', '"' + "x" * 50 + '"y', '"12"" plan" x', ' "a"')
    for mark, what, field in ((*one, field) for one in ((",", 1), (",", 2), (";", 1)) for field in fields):
        line = mark.join(("1", field, "Published"))
        header = mark.join(("legacyId", "title", "publicationStatus"))
        lines = [line, f"2{mark}b{mark}"][::3 - 2 * what]
        yield f"{field[:12]!r} {'first' if what == 1 else 'last'}, {mark!r}", bare(*lines, header=header).encode()
    yield "after empty lines", bare("", "1,a,x", "", "", '2,"b"c,x', header="legacyId,title,y").encode()
    yield "two of them", bare('1,"b"c', '2,"d"e', header="legacyId,title").encode()
    yield "in the header", bare("1,a", header='legacyId,"ti"tle').encode()
    yield "in a line that is empty but for it", bare('"a"b', "", '"', header="legacyId").encode()
    yield "after lines within a field", bare('1,"a\r\nb\r\nc"', '2,"d"e', header="legacyId,title").encode()


def converted() -> Named:
    """Files with semicolons that are converted: first values, words that show the encoding, and lines that stay."""
    words_ = ["é", "à", "ü", "ß", "ñ", "ø", "é"]
    for many in (0, 1, 4, 5, 6):
        header = ";".join(["legacyId", *(f"c{n}" for n in range(many))])
        line = ";".join(["1", *(f"v{n}" for n in range(many))])
        yield f"{many + 1} values", bare(line, header=header).encode()
        yield f"{many} words", bare(*(f"{n};{one}" for n, one in enumerate(words_[:many])), header="legacyId;title").encode()
    for text in ("x" * 52, "x" * 53, "é" * 60, ASTRAL * 60, "é" * 39, "é" * 41, "xé|yé", "“x” é,ä", "a\"é\"b", "é\tü"):
        yield f"{len(text)} letters {text[:3]!r}", bare(f"1;{text}", header="legacyId;title").encode()
        yield f"the same in UTF-16: {len(text)} {text[:3]!r}", bare(f"1,{text}", header="legacyId,title").encode("utf-16")
    for lines in (("1;", "", "2;a"), ("", "", "1;a"), ("1;a;b;c", "2"), ('""', "1;a"), (";", "1;"), ('1;"a;b"',),
                  ('1;"a""b"',), ('1;"a\r\nb"',), ("1;a,b",), ('1;"a\rb"', ""), ("1; a ",), ('"1";"x"',),
                  ("1;a\x0bb",), ("1;\ufeff",)):
        yield f"lines {lines}", codecs.BOM_UTF8 * (len(lines) - 1) + bare(*lines, header="legacyId;title").encode()
    for codec in ("cp1252", "utf-8", "utf-16-be"):
        for text in ("", "<a>", " \r\n<a>", "{\\rtf1", "%PDF", "PK\x03\x04", "x", "legacyId", "legacyId\r\n1\r\n",
                     "sep=;\r\nlegacyId", "sep=x\r\nlegacyId", "é", "legacyId;é\r\n1;Ã©", "legacyId;é\r\n1;€ü",
                     "legacyId|x;y|z\r\n1|é"):
            yield f"{text!r} in {codec}", text.encode(codec)


GROUPS: dict[str, Callable[[], Named]] = {group.__name__: group for group in (
    ways, zips, encodings, beginnings, exports, headers, rows, limits, parents, numbers, words, boxes, values, events,
    quotes, converted)}

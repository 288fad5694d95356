"""Years as archives and readers write them, in five languages: `1893-96`, `1774/5`, `MDCCCXCIII`, `1890er`, `late 19th
century`, `Anfang 16. Jh.`, `vers 1850`, `siglo XIX`, `19ος αιώνας`, `after 1945`; and as archives of others do: `XIX в.`,
`18. stol.`, `明治20年`, `1300 هـ`, `תר״ן`.

The words of all languages count in each, since a catalogue may have others than its reader. What is not exact is taken
widely: what may be of a year should be found by it."""

import functools
import re
import unicodedata
from typing import NamedTuple

LOOKS = 80  # letters before a year in which more is said of it
LONGEST = 4000  # letters of dates that are read
NEAR = 5  # years before and after one that is only about right
AFTER, EVER = 20, 9999  # years after `after 1945` in dates; the last of what has no end
PARTS = {"early": (0, .4), "mid": (.3, .7), "late": (.6, 1)}
ORDINALS = ("", "1st 1re 1ere 1a 1 first erste? ersten erstes premiere? primera? primer πρωτοσ? πρωτη α'? перв(?:ая|ои)",
            "2nd 2eme 2e 2a 2 second zweite[ns]? deuxieme seconde segund[ao] δευτεροσ? δευτερη β'? втор(?:ая|ои)",
            "3rd 3eme 3e 3 third dritte[ns]? troisieme tercer[ao]? τριτοσ? γ'?",
            "4th 4eme 4e 4 fourth vierte[ns]? quatrieme cuart[ao] τεταρτοσ? δ'?")
LAST = "last|letzte[ns]?|derniere?|ultim[ao]|τελευταιοσ?"
PIECES = {2: "half halfte moitie mitad μισο ημισυ половина пол poł pol polovina", 3: "third drittel tiers tercio τριτο",
          4: "quarter viertel quart cuarto τεταρτο"}
CENTURIES = {word: number for number, words in {
    12: "twelfth zwolfte[ns]? douzieme doce", 13: "thirteenth dreizehnte[ns]? treizieme trece",
    14: "fourteenth vierzehnte[ns]? quatorzieme catorce", 15: "fifteenth funfzehnte[ns]? quinzieme quince ιε",
    16: "sixteenth sechzehnte[ns]? seizieme dieciseis ιστ", 17: "seventeenth siebzehnte[ns]? dix-septieme diecisiete ιζ",
    18: "eighteenth achtzehnte[ns]? dix-huitieme dieciocho ιη", 19: "nineteenth neunzehnte[ns]? dix-neuvieme diecinueve ιθ",
    20: "twentieth zwanzigste[ns]? vingtieme veinte", 21: "twenty-first einundzwanzigste[ns]? veintiuno"}.items()
    for word in words.split()}
TO = (r"(?:\s{0,3}[-\u2010-\u2015/]\s{0,3}|,?\s{1,3}(?:to|till|until|and|or|bis|und|oder|et|ou|au?|jusqu'en|"
      r"y|al?|hasta|e|και|η|εωσ|ωσ|μεχρι)"
      r"(?:\s{1,3}(?:the|das|dem|zum|le|el|la|los|το|τη|τον))?\s{1,3})")
OF = r"(?:\s{0,3}(?:of|the|in|des|der|den|dem|die|das|im|du|de|del|la|los|les|le|του|τησ|των|τα)\b){0,3}[\s-]{0,3}"
WORDS = {
    "early": r"early|beginning|anfang|fruhe[sn]?|beginn|debut|principios|comienzos|inicios|αρχεσ|αρχη|in\.|начал[оа]|poczatek|"
             r"zacatek|pocatek|inizio|begin",
    "mid": r"mid|middle|mitte|milieu|mediados|μεσα",
    "late": r"late|end|ende|spate[sn]?|ausgehende[sn]?|fin|finales|fines|τελη|τελοσ|ultimos|кон(?:ец|ца)|koniec|konec|fine"}
PART_WORDS = "|".join(WORDS.values())
FIRST = r"(?:first|1st|erste[nrs]?|1\.|premiere|1ere|1re|primera|1a|πρωτο[συ]|α'?)"
SECOND = r"(?:second|2nd|zweite[nrs]?|2\.|seconde|deuxieme|2e|2eme|segunda|2a|δευτερο[συ]|β'?)"
OF_WORLD = r"(?:world war|weltkriege?s?|wk|guerre mondiale|guerra mundial|παγκοσμι\w+ πολεμ\w+)"
WARS = {  # by which readers name years
    rf"{FIRST} {OF_WORLD}|world war (?:i|1|one)|ww ?[1i]|great war|grande guerre|guerre (?:de )?14-18": (1914, 1918),
    rf"{SECOND} {OF_WORLD}|world war (?:ii|2|two)|ww ?(?:2|ii)|guerre (?:de )?39-45": (1939, 1945),
    r"thirty years['’]? war|(?:drei(?:ss|ß)ig|30-?)jahrige[nrs]? krieg(?:e?s)?|guerre de trente ans|"
    r"guerra de los treinta anos": (1618, 1648),
    r"seven years['’]? war|siebenjahrige[nrs]? krieg(?:e?s)?|guerre de sept ans|guerra de los siete anos": (1756, 1763),
    r"napoleonic wars?|napoleonische[nr]? kriege?n?|befreiungskriege?n?|guerres napoleoniennes": (1803, 1815),
    r"franco-prussian war|deutsch-franzosische[nrs]? krieg(?:e?s)?|guerre franco-(?:prussienne|allemande)": (1870, 1871),
    r"guerra civil(?: espanola)?|spanish civil war": (1936, 1939), r"guerra de (?:la )?independencia": (1808, 1814)}
NUMBER = rf"(?:[0-9]{{1,2}}|[ivx]+|{'|'.join(CENTURIES)})"
NTH = r"(?:\s?(?:st|nd|rd|th|eme|ere?|er|e|de|[oº]|οσ|ου|ο|ων|ουσ)\b|\.?º)?\.?"
CENTURY = (r"(?:centur(?:y|ies)\b|cents?\b\.?|jahrhundert(?:e[ns]?|s)?\b|jhd?ts?\b\.?|jhs?\b\.?|jahrh\b\.?|siecles?\b|"
           r"siglos?\b|αιωνα[σ]?\b|αιωνοσ\b|αιωνεσ\b|αιωνων\b|αι\b\.?|век(?:а|ов|е)?\b|wiek(?:u|ow)?\b|stol(?:eti)?\b\.?|"
           r"eeuw\b|secol[oi]\b|seculos?\b)")
REIGNS = {  # the year before the first one of those by which Japan and China count
    "明治": 1867, "大正": 1911, "昭和": 1925, "平成": 1988, "慶応": 1864, "民[国國]": 1911, "宣[统統]": 1908, "光[绪緒]": 1874, "同治": 1861,
    "咸[丰豐]": 1850, "道光": 1820, "嘉[庆慶]": 1795, "乾隆": 1735, "雍正": 1722, "康熙": 1661}
HAN = "元一二三四五六七八九"
HEBREW = dict(zip("אבגדהוזחטיכלמנסעפצקרשתךםןףץ", (*range(1, 10), *range(10, 100, 10), 100, 200, 300, 400, 20, 40, 50, 80, 90)))
ITEM = re.compile(
    rf"(?<![\w.])(?P<lead>{NUMBER}){NTH}(?={TO}(?:(?:{PART_WORDS}){OF})?{NUMBER}{NTH}[\s-]{{0,3}}(?:{CENTURY}|[cs]\b))"
    rf"|(?<![\w.])(?P<one>{NUMBER}){NTH}(?:{TO}(?P<other>{NUMBER}){NTH})?[\s-]{{0,3}}{CENTURY}"
    rf"|(?<![\w.])(?P<short>{NUMBER})(?:th|e|eme)\s{{1,3}}[cs]\b\.?"
    rf"|(?<!\w)(?:siglos?|ss?\.|saec\b\.?|αιωνασ|αι\.)\s{{0,3}}(?P<after>{NUMBER})(?:{TO}(?P<last>{NUMBER}))?(?:{NTH})(?!\w)"
    r"|(?<![0-9])(?P<decade>[0-9]{3}0)(?:\s?['’]?s\b|\s?-?(?:er[ns]?|ern|ies|е|х)\b(?:\s+jahren?\b)?)"
    r"|(?:annees|decennies?|decadas? de(?: los)?(?: anos)?|(?:los )?anos|δεκαετια[σ]?(?: του)?|δεκ\.(?: του)?|"
    r"decade of(?: the)?)\s{1,3}(?P<ten>[0-9]{3}0)(?![0-9])"
    r"|(?<![0-9])(?P<some>[0-9]{2}(?:[0-9x_?-][x_?-](?![0-9x])|\.\.|[0-9]\.(?=\s?(?:[\])]|$))))"
    r"|(?<!\w)c(?P<era>[0-9]{2})(?:st|th)?(?!\w)|(?<!\w)(?P<age>[0-9]{2})c(?!\w)"
    r"|(?P<turn>jahrhundertwende|turn of the century|fin de siecle|tournant du siecle|cambio de siglo)"
    r"|(?<![0-9])(?P<day>[0-9]{4})-[0-9]{2}-[0-9]{2}(?![0-9])"
    r"|(?<![0-9])(?P<begin>[0-9]{4})\s?[-\u2010-\u2015/]\s?(?P<end>[0-9]{1,2})(?![0-9.]*[0-9])"
    rf"|(?P<reign>{'|'.join(REIGNS)})(?P<regnal>[0-9]{{1,2}}|[{HAN}十]{{1,3}})"
    r"|(?<![0-9])(?P<hijri>1?[0-9]{3})\s?(?:هـ|ه\b|هجري|a\. ?h\.)"
    r"|(?<!\w)ה?(?P<hebrew>ת[קרש]?[א-ת]{0,2}[\"״”][א-ת])(?!\w)"
    r"|(?<![\w.])(?P<roman_age>[ivx]{2,5})(?:\s?[-\u2013]\s?(?P<until>[ivx]{2,5}))?\s?(?:ww?|вв?|ст|sec)\b\.?"
    r"|(?<![0-9])(?P<year>[0-9]{4})(?![0-9])"
    r"|(?<!\w)(?P<roman>m[mdclxvi]{3,})(?!\w)"
    r"|(?<!\w)an (?P<republic>[ivx]+)(?!\w)"
    rf"|(?<!\w)(?P<war>{'|'.join(WARS)})(?!\w)")
CENTURY_GROUPS = ("lead", "one", "short", "after", "era", "age", "roman_age")
ONLY_IN_DATES = ("some", "era", "age")
PART = re.compile(rf"(?<!\w)(?:(?P<part>{PART_WORDS})"
                  rf"|(?P<nth>{'|'.join('|'.join(words.split()) for words in ORDINALS[1:])}|{LAST})\.?\s{{0,3}}"
                  rf"(?P<piece>{'|'.join('|'.join(words.split()) for words in PIECES.values())})\.?){OF}\Z")
ABOUT = re.compile(r"(?:(?<!\w)(?:ca?\.?|cca\.?|circa|um|etwa|ungefahr|gegen|wohl|vermutlich|vers|env\.?|environ|autour de|"
                   r"hacia|h\.|alrededor de|aprox\.?|aproximadamente|sobre|περιπου|γυρω στ[οα]|π\.|about|around|approx\.?|"
                   r"approximately|probably|possibly)|~)(?:\s{1,3}(?:the|das|le|el|το))?\s{0,3}\Z")
BETWEEN = re.compile(r"(?<!\w)(?:between|zwischen|entre|μεταξυ|from|von|vom|de|depuis|desde|απο)"
                     r"(?:\s{1,3}(?:the|den|los|les|το))?\s{0,3}\Z")
EARLIER = re.compile(r"(?<!\w)(?:before|prior to|pre-?|ante|not after|until|up to|vor(?: dem)?|bis|avant|jusqu'[ae]n?|"
                     r"antes del?|hasta|πριν(?: απο)?(?: το)?|εωσ(?: το)?|μεχρι(?: το)?)\s{0,3}\Z")
LATER = re.compile(r"(?<!\w)(?:after|post-?|not before|since|nach|seit|ab|apres|depuis|despues del?|desde|"
                   r"μετα(?: το)?)\s{0,3}\Z")
NOW = "present|today|date|heute|aujourd'hui|(?:la )?actualidad|σημερα"
ON = re.compile(rf"\s?(?:[-\u2010-\u2015]\s?(?:(?:to )?(?:{NOW})|(?=\s?(?:[\];,.)]|$)))"
                rf"|(?:to|bis|a|hasta|εωσ)(?: the)? (?:{NOW})|onwards?\b|ff\b\.?|\s?κ\.\s?ε\.)")
DOUBT = re.compile(r"\s?(?:\?|\[\?\]|\(\?\)|ca?\b\.?)")
EARLY_AGE = re.compile(r"\s*(?:b\.? ?c\.?(?:e\.?)?\b|v\. ?chr|av\. ?j|a\. ?c\.|π\. ?χ)")
SIMPLE = re.compile("([0-9]{4})(?:[-\u2013]([0-9]{4}))?")  # as most dates are
IN_BRACKETS = re.compile(r"\[([0-9]{1,3})\](?=[0-9])|(?<=[0-9])\[([0-9]{1,2})\]")  # [18]97, 18[97]
CENTURY_ALONE = re.compile(r"(?<!\w)(?:[XVI]{2,5}(?:e|ème)?|[12][0-9](?:th|e|ème))\.?\Z")
VALUES = {"i": 1, "v": 5, "x": 10, "l": 50, "c": 100, "d": 500, "m": 1000}
ROMAN = re.compile(r"m*(?:cm|cd|d?c{0,4})(?:xc|xl|l?x{0,4})(?:ix|iv|v?i{0,4})")


class Span(NamedTuple):
    """Some years, and where they stand in a text: with all that is said of them, and `core`, without."""

    first: int
    last: int
    begin: int
    end: int
    core: tuple


def spans(text, is_typed=False):
    """The years of a text, in order. What was typed has no years by a sign (`189-`), and `after 1945` has no end there."""
    plain, found, bounds = plain_of(text[:LONGEST]), [], []
    for item in ITEM.finditer(plain):
        years = None if is_typed and item.lastgroup in ONLY_IN_DATES else years_of_item(item)
        if not years or EARLY_AGE.match(plain, item.end()):
            continue
        at = max(found[-1].end if found else 0, item.start() - LOOKS)
        begin, years = with_part(plain, at, item.start(), years)
        about = ABOUT.search(plain, at, begin)
        doubt = DOUBT.match(plain, item.end())
        begin, end = about.start() if about else begin, doubt.end() if doubt else item.end()
        near = NEAR * bool(about or doubt)
        span = Span(years[0] - near, years[1] + near, begin, end, item.span())
        if found and re.fullmatch(TO, plain[at:begin]):
            before = found[-1]
            found[-1] = Span(min(before.first, span.first), max(before.last, span.last), before.begin, end,
                             (before.core[0], item.end()))
            bounds[-1] = None
        else:
            found.append(span)
            bounds.append(at)
    return [opened(plain, span, at, EVER if is_typed else AFTER) for span, at in zip(found, bounds)]


def opened(plain, span, at, many):
    """With the years before or after, if the text says so, up to so many. A range, without `at`, has words of its own."""
    if at is None:
        between = BETWEEN.search(plain, max(0, span.begin - LOOKS), span.begin)
        return span._replace(begin=between.start()) if between else span
    earlier, later = EARLIER.search(plain, at, span.begin), LATER.search(plain, at, span.begin)
    if earlier:
        return span._replace(first=max(0, span.first - many), begin=earlier.start())
    if later:
        return span._replace(last=min(EVER, span.last + many), begin=later.start())
    on = ON.match(plain, span.end)
    return span._replace(last=EVER, end=on.end()) if on else span


def plain_of(text):
    """A text in lower case, without marks, letter by letter."""
    letters = (unicodedata.normalize("NFKD", letter)[:1].lower() for letter in unicodedata.normalize("NFC", text))
    return "".join("σ" if letter == "ς" else str(unicodedata.decimal(letter)) if letter.isdecimal() else letter[:1] or " "
                   for letter in letters)


def years_of_item(item):
    """The first and the last year of what was found, or None."""
    named = {name: value for name, value in item.groupdict().items() if value}
    name, text = next(iter(named.items()))
    if name in CENTURY_GROUPS:
        numbers = [number_of(value) for value in named.values()]
        return (min(numbers) * 100 - 99, max(numbers) * 100) if all(0 < number < 22 for number in numbers) else None
    if name in ("decade", "ten"):
        return int(text), int(text) + 9
    if name == "some":
        least = re.sub("[^0-9]", "0", text)
        return int(least), int(re.sub("[^0-9]", "9", text))
    if name == "begin":
        end = int(text[:-len(named["end"])] + named["end"])
        return int(text), max(int(text), end)
    if name == "turn":
        return 1890, 1910
    if name == "war":
        return next(years for words, years in WARS.items() if re.fullmatch(words, text))
    if name == "reign":
        before = next(year for words, year in REIGNS.items() if re.fullmatch(words, text))
        return (before + regnal(named["regnal"]),) * 2
    if name in ("hijri", "hebrew"):  # each begins within one of ours
        year = int(int(text) * .970224 + 621.57) if name == "hijri" else sum(HEBREW.get(letter, 0) for letter in text) + 1239
        return year, year + 1
    if name == "republic":
        number = number_of(text)
        return (1791 + number, 1792 + number) if 0 < number < 15 else None
    year = number_of(text)
    return (year, year) if year else None


def number_of(text):
    """The number that digits, Roman ones or a word mean; 0 if none."""
    if text.isdecimal():
        return int(text)
    if not ROMAN.fullmatch(text):
        return next((number for word, number in CENTURIES.items() if re.fullmatch(word, text)), 0)
    values = [VALUES[letter] for letter in text]
    return sum(-value if value < after else value for value, after in zip(values, [*values[1:], 0]))


def regnal(text):
    """The number of a year of a reign, also in Chinese digits."""
    if text.isdecimal():
        return int(text)
    tens, is_ten, ones = text.rpartition("十")
    return bool(is_ten) * 10 * max(1, HAN.find(tens)) + bool(ones) * max(1, HAN.find(ones))


def with_part(plain, at, begin, years):
    """Where what is said of some years begins, and that part of them."""
    found = PART.search(plain, at, begin)
    if not found:
        return begin, years
    first, many = years[0], years[1] - years[0] + 1
    if found["part"]:
        name = next(name for name, words in WORDS.items() if re.fullmatch(words, found["part"]))
        share = PARTS[name]
    else:
        pieces = next(many for many, words in PIECES.items() if found["piece"] in words.split())
        names = ["|".join(words.split()) for words in ORDINALS]
        nth = next((nth for nth, words in enumerate(names) if re.fullmatch(words, found["nth"])), pieces)  # else the last
        share = ((nth - 1) / pieces, nth / pieces)
    return found.start(), (first + round(many * share[0]), max(first, first + round(many * share[1]) - 1))


@functools.lru_cache(20_000)
def bounds_of(text, is_typed=False):
    """The least and the greatest year of a text, or a pair of None. Dates may be a century's number alone."""
    simple = SIMPLE.fullmatch(text)
    if simple:
        return int(simple[1]), max(int(simple[1]), int(simple[2] or 0))
    text = IN_BRACKETS.sub(r"\1\2", text)
    found = spans(text, is_typed)
    if not found and CENTURY_ALONE.search(text):
        found = spans(f"{text} siecle")
    return (min(span.first for span in found), max(span.last for span in found)) if found else (None, None)

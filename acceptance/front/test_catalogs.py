"""The catalogs of texts have what the pages say, in each language, and nothing else."""

import re

import pytest

from acceptance.front import catalogs

WANTED = catalogs.texts_of_pages()
FOUND = catalogs.catalogs(catalogs.FRONT / "readers/po")
OTHERS = sorted(FOUND.keys() - {"en"})
OPPOSITES = [("Previous", "Next"), ("Previous 100", "Next 100"), ("Draft", "Published"), ("waiting", "out"),
             ("Issue", "Take back"), ("Seat", "Ticket"), ("Title", "Date")]
NO = re.compile(r"\b(?:not|no|nothing|nobody|never|none|cannot|without|neither)\b|n’t\b", re.I)
DENIES = {"de": "nicht|kein|nie|nirgends|ohne|weder", "es": "no|ni|sin|ningún|ningun|nadie|nada|nunca|tampoco",
          "fr": "ne|n’|pas|sans|aucun|personne|rien|jamais|ni|non|introuvable|vide|illisible|manqué|absente",
          "el": "δεν|δε|μη|χωρίς|κανέν|κανεί|καμία|ποτέ|τίποτ|όχι|ούτε|άδειο|λείπουν"}  # how words begin

# What these words are in German, Greek, Spanish and French, or how they begin: who reads another one does what nobody meant.
WORDS = [
    (r"(?<!“)\bpublish(?:ed)?\b", "veröffentlich", "δημοσ[ιί]", "publi|publíq", "publi"),
    (r"\bdrafts?\b", "entw[uü]rf", "πρόχειρ", "borrador", "brouillon"),
    (r"\bclosed (?:until|units?)\b", "gesperrt", "κλειστ", "restringid", "non communicable|n’est pas communicable|fermé"),
    (r"\b(?:opens|is open)\b", "öffne|offen|zugänglich", "ανοί|ανοι", "abre|abiert|libre", "ouvr|ouvert|communicable"),
    (r"\bissued?\b", "geben|ausge", "δανεισ|δό|δώσ|δοσμ", "pr[eé]st", "communiqu|sort"),
    (r"^take back$|\btaken back\b", "zurück", "παραλ|παρέλ|ανακ", "recog|deshacer", "repr|annul"),
    (r"\bcancel", "storn", "ακ[υύ]ρ", "cancel", "annul"), (r"\brenew", "verläng", "αναν[εέ]", "ren[ou]+[eé]?v", "renouv"),
    (r"\bremove", "entfern", "διαγρ|αφαιρ", "elimin|quit", "supprim|retir"),
    (r"\bfrom year\b", "ab", "από", "desde", "de"), (r"\bto year\b", "bis", "έως", "hasta", "à"),
    (r"\blast day\b", "letzte", "τελευτ", "últim", "dernier"), (r"\bexpired?\b", "lauf|läuf", "λ[ήη][ξγ]", "caduc", "expir"),
    (r"\border waits\b|\bwho waits\b|\bis waiting\b|^waiting$", "wart|reihe", "περιμέν|αναμ", "espera", "atten"),
    (r"^previous", "vorig|zurück", "προηγ", "anterior", "précéd"), (r"^next", "nächst|weiter", "επόμ", "siguiente", "suivant")]


@pytest.mark.parametrize("code", FOUND)
def test_a_catalog_has_each_text_with_the_places_of_its_values(code: str) -> None:
    assert list(catalogs.faults(code, FOUND[code], WANTED)) == []


@pytest.mark.parametrize("code", OTHERS)
def test_nobody_reads_that_something_was_done_which_was_not(code: str) -> None:
    denies = re.compile(rf"\b(?:{DENIES[code]})", re.I)
    texts = {one.id: one.string for one in FOUND[code] if isinstance(one.id, str)}
    assert {text: told for text, told in texts.items() if NO.search(text) and not denies.search(told)} == {}


@pytest.mark.parametrize("code", OTHERS)
@pytest.mark.parametrize("one, other", OPPOSITES, ids=lambda text: text)
def test_nobody_reads_the_same_word_for_two_things(code: str, one: str, other: str) -> None:
    texts = {message.id: message.string for message in FOUND[code]}
    assert texts[one] != texts[other]


@pytest.mark.parametrize("code", OTHERS)
@pytest.mark.parametrize("words", WORDS, ids=lambda words: words[0])
def test_a_word_means_the_same_on_each_page(code: str, words: tuple[str, ...]) -> None:
    """`Draft` for `Published`, or `from` for `to`, is a text of the right form, which only its words show to be another's."""
    english, meant = re.compile(words[0], re.I), re.compile(words[1 + OTHERS.index(code)], re.I)
    pairs = [pair for one in FOUND[code] if one.id for pair in zip(*(
        (one.id, one.string) if one.pluralizable else ([one.id], [one.string])))]
    assert [f"{text} -> {told}" for text, told in pairs if english.search(text) and not meant.search(told)] == []

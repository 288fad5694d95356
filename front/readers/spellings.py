"""Words that are written in several ways in the catalogues of a language, folded: names and their short forms, titles,
ordinals, months in several languages. Who types one finds the others. front/shared/words.json has the months, and how letters
of other scripts are written in Latin ones, roughly, by people who have no such keys."""

from texts import read_shared

TABLES = read_shared("words.json")
WAYS = {
    "en": "saint st ste; street st; william wm; thomas thos; charles chas; james jas; john jno; robert robt; george geo;"
          "joseph jos; samuel saml; edward edwd; richard richd; daniel danl; benjamin benj; alexander alexr; frederick fredk;"
          "elizabeth eliz elisabeth; margaret margt; catherine catharine katherine katharine kathryn; ann anne; sarah sara;"
          "stephen steven; philip phillip; geoffrey jeffrey; company co; county co; brothers bros; road rd; number no;"
          "doctor dr; reverend rev revd; captain capt; lieutenant lieut lt; sergeant sgt serjeant; general gen; colonel col;"
          "professor prof; mount mt; volume vol; department dept; association assoc assn; society soc;"
          "committee cttee; government govt; harbour harbor; labour labor; neighbour neighbor; parlour parlor; centre center;"
          "theatre theater; defence defense; gaol jail; plough plow; enclosure inclosure; enclosed inclosed;"
          "photographs photos photographies; photograph photo; catalogue catalog",
    "de": "sankt st; strasse str; nummer nr; doktor dr; professor prof; gebruder gebr; band bd; jahrhundert jh jhd jahrh;"
          "bezirk bez; abteilung abt; gesellschaft ges; friedrich fr friedr; johann joh johannes;"
          "wilhelm wilh; heinrich heinr; witwe wwe;"
          "fotografien fotos photographien photos; fotografie foto photographie photo",
    "fr": "saint st; sainte ste; compagnie cie; numero no; madame mme; mademoiselle mlle; docteur dr; freres frs;"
          "boulevard bd bvd; avenue av; departement dep dept; notre_dame nd; proces_verbal proces_verbaux pv;"
          "photographies photos; photographie photo",
    "es": "santo sto; santa sta; francisco fco franco; antonio anto; numero num no; senor sr; senora sra; compania cia;"
          "hermanos hnos; general gral; avenida avda; doctor dr; capitan cap; excelentisimo excmo; nuestra ntra; nuestro ntro;"
          "fotografias fotos; fotografia foto",
    "el": "αγιοσ αγ; αγια αγ; αριθμοσ αρ; οδοσ οδ; αιωνασ αι; γεωργιοσ γεωρ; ιωαννησ ιω ιωαν; κωνσταντινοσ κων κωνστ;"
          "δημητριοσ δημ; νικολαοσ νικ; εταιρεια ετ; αδελφοι αφοι; λεωφοροσ λεωφ;"
          "φωτογραφια φωτογραφιεσ φωτογραφιων φωτο"}
STREET = ("strasse", "str")  # which in German ends the name of one
ORDINALS = ("first second third fourth fifth sixth seventh eighth ninth tenth eleventh twelfth thirteenth fourteenth "
            "fifteenth sixteenth seventeenth eighteenth nineteenth twentieth").split()


def _table():
    """For each language and way, the others: lists of words."""
    groups = [(language, [tuple(word.split("_")) for word in group.split()])
              for language, text in WAYS.items() for group in text.split(";")]
    groups += [("en", [(word,), (str(number), {1: "st", 2: "nd", 3: "rd"}.get(number, "th"))])
               for number, word in enumerate(ORDINALS, 1)]
    groups += [(language, [(word,) for word in group.split()]) for language in WAYS for group in TABLES["months"]]
    table = {}
    for language, group in groups:
        for one in group:
            table.setdefault((language, one), []).extend(other for other in group if other != one)
    return table


_OTHERS = _table()


def others(words, language):
    """The other ways in which words are written: all of them, or one of several."""
    found = [*_OTHERS.get((language, words), ())]
    if len(words) > 1:
        found += [(*words[:at], *other, *words[at + 1:])
                  for at, word in enumerate(words) for other in others((word,), language)]
    elif language == "de":
        found += [(words[0].removesuffix(end) + other,) for end, other in (STREET, STREET[::-1])
                  if words[0].endswith(end) and words[0] != end]
    return found


LATIN = {ord(letter): latin for latin, letters in TABLES["latin"].items() for letter in letters}
SOUNDS = (("sch", "s"), ("ch", "k"), ("ck", "k"), ("ph", "f"), ("th", "t"), ("qu", "k"), ("x", "ks"), ("c", "k"), ("q", "k"),
          ("z", "s"), ("w", "v"))
SILENT = frozenset("aeiouyhj")


def sound(word):
    """What words that sound alike have in common in any script, roughly: their consonants. Nothing if there are fewer than
    two."""
    word = word.translate(LATIN)
    for letters, one in SOUNDS:
        word = word.replace(letters, one)
    heard = ""
    for letter in word:
        heard += "" if letter in SILENT or heard[-1:] == letter else letter
    return heard if len(heard) > 1 else ""

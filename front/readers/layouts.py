"""How pages are laid out: Jinja2 templates, one environment a language, in which all that they are given is escaped."""

import contextlib
import json
from datetime import date
from typing import NamedTuple
from urllib.parse import quote

import jinja2
from markupsafe import Markup, escape

from aids import mark
from asking import Asking
from languages import HERE, Language, choose
from texts import AREAS, DATES, ELEMENTS, EXTENT, N_, read_head, value_of

SHORT = 48  # characters of a title where it only says where something stands
WORDS = {"name": N_("Record office"), "address": "", "hours": "", "site": "",
         "ordered": N_("Ask for it at the desk in the reading room.")}  # what an office says that says nothing itself


class Request(NamedTuple):
    """method, path and args of what came; at: `/de` if the address began with a language, which path does not; language; site:
    the address of the readers' site as it was asked for; named: the same as nginx has it in its configuration, or nothing;
    address: of the reader; ask: asks the office; form: what was sent, in pairs; ticket: with which this browser orders; by:
    `card` if orders need that; secret: what My orders is shown by."""

    method: str
    at: str
    path: str
    args: dict
    language: Language
    site: str
    named: str
    address: str
    ask: Asking
    form: list
    ticket: str = ""
    by: str = ""
    secret: str = ""


class Answer(NamedTuple):
    """status; body: a text, or pieces of one; kind of text; size: how many bytes, where the pieces are not counted; allow:
    which methods a page has; cookie: what a browser is to keep."""

    status: int
    body: object
    kind: str = "text/html"
    size: int | None = None
    allow: str = ""
    cookie: str = ""


class Layouts:
    """words: the file of the office's own words, which is read for each page."""

    def __init__(self, languages, words):
        self.words, self.languages = words, languages
        compiled = Compiled()
        self.env = {code: environment(one, languages, compiled) for code, one in languages.items()}

    def prepare(self):
        """Reads all templates, before processes share them."""
        for env in self.env.values():
            for name in env.list_templates():
                env.get_template(name)

    def choose(self, path, header):
        """The language of an address or that which a reader wishes; and the two parts of the address."""
        code, _, rest = path[1:].partition("/")
        if code in self.languages and not rest.startswith("public/"):  # which are no pages
            return self.languages[code], f"/{code}", f"/{rest}"
        own = self.own().get("language")
        return choose(self.languages, header, own if own in self.languages else "en"), "", path

    def template(self, request, name):
        """A template, and what each page has."""
        template = self.env[request.language.code].get_template(name)
        return template, {"request": request, "at": request.at, "office": self.office(request)}

    def render(self, request, name, status=200, kind="text/html", **values):
        """A page."""
        template, given = self.template(request, name)
        return Answer(status, template.render(**given, **values), kind)

    def stream(self, request, name, **values):
        """A page in pieces."""
        template, given = self.template(request, name)
        stream = template.stream(**given, **values)
        stream.enable_buffering(400)
        return stream

    def office(self, request):
        """The office's own words, with the address of its site: its own, else nginx's, else nothing."""
        own = self.own_words(request.language)
        return own | {"site": own["site"].rstrip("/") or request.named}

    def own(self):
        """What the office says of itself."""
        with contextlib.suppress(OSError, ValueError, TypeError):
            return dict(json.loads(self.words.read_text("utf-8")))
        return {}

    def old_addresses(self):
        """The reference codes that addresses of an earlier catalogue lead to: lines of an address and a code."""
        with contextlib.suppress(OSError, ValueError):
            lines = self.words.with_name("old-addresses.csv").read_text("utf-8").splitlines()
            return {path.strip(): code.strip(' "') for path, cut, code in (line.partition(",") for line in lines)
                    if path.startswith("/") and ref(code.strip(' "'))}
        return {}

    def own_words(self, language):
        """The office's own words: each is a text, or texts by language."""
        own = self.own()
        plain = {name: language.say(text) for name, text in WORDS.items()}
        chosen = {name: (text.get(language.code) or next(iter(text.values()), "")) if isinstance(text, dict) else text
                  for name, text in own.items()}
        return {**plain, **{name: text for name, text in chosen.items() if isinstance(text, str)}}


class Compiled(jinja2.BytecodeCache):
    """Templates that one language has compiled, for the others."""

    def __init__(self):
        self.known = {}

    def load_bytecode(self, bucket):
        if bucket.key in self.known:
            bucket.bytecode_from_string(self.known[bucket.key])

    def dump_bytecode(self, bucket):
        self.known[bucket.key] = bucket.bytecode_to_string()


def environment(language, languages, compiled):
    """The templates in a language."""
    env = jinja2.Environment(loader=jinja2.FileSystemLoader(HERE / "templates"), autoescape=True, trim_blocks=True,
                             lstrip_blocks=True, undefined=jinja2.StrictUndefined, extensions=["jinja2.ext.i18n"],
                             bytecode_cache=compiled, auto_reload=False)
    env.install_gettext_translations(language.texts, newstyle=True)
    env.globals.update(say=language.say, day=language.day, number_of=language.number, language=language,
                       languages=languages.values(), AREAS=AREAS, ELEMENTS=ELEMENTS, mark=mark, read_head=read_head,
                       ref=ref, today=today)
    env.filters.update(heads(language), words=words, facts=facts, filled=filled, short=short)
    return env


def words(text, tag="span", kind=""):
    """A text of the archive as an element: it has its own direction, and a language that nobody knows."""
    return Markup(f'<{tag} class="words{kind and f" {kind}"}" dir="auto" lang="">{escape(text)}</{tag}>')


def facts(node):
    """Dates and extent of a unit in a finding aid, as an element."""
    found = " · ".join(words(value_of(line)) for line in node.lines if line.startswith((DATES, EXTENT)))
    return Markup(f'<p class="facts">{found}</p>' if found else "")


def heads(language):
    """How templates write heads in a language. A page has hundreds, for which macros would take most of its time."""
    def dated(day):
        """A day."""
        return Markup(f'<time datetime="{escape(day)}">{escape(language.day(day))}</time>')

    def titled(head):
        """The title, or until when there is none."""
        closed = Markup(language.say(N_("closed until %(day)s")))
        return closed % {"day": dated(head.until)} if head.until else Markup(f'<span lang="">{escape(head.title)}</span>')

    def headed(head, tag="span"):
        """The parts of a head line, or the line if they are not known."""
        return Markup(f'<{tag} class="head words"><span class="code" dir="auto" lang="">{escape(head.code)}</span>'
                      f'<span class="level" lang=""> [<bdi>{escape(head.level)}</bdi>] </span>'
                      f'<span class="title" dir="auto">{titled(head)}</span></{tag}>'
                      ) if head.code else words(head.text, tag, "head")
    return {"dated": dated, "titled": titled, "headed": headed}


def today():
    """The day on which a page is made."""
    return date.today().isoformat()


def ref(code):
    """The address that a reference code has, or nothing if it has not the parts of one."""
    parts = code.split(" ")
    return f"/ref/{parts[0]}/{parts[1]}/{quote(parts[2])}" if len(parts) == 3 else ""


def filled(members):
    """The members that have something."""
    return {name: value for name, value in members.items() if value}


def short(text):
    """The beginning of a text."""
    return text if len(text) <= SHORT else text[:SHORT - 1].rstrip() + "…"


def pieces_of_head(pieces):
    """A head line with its marks: its parts, or itself, in pieces of which every second is marked."""
    head = read_head("".join(pieces))
    if not head.code:
        return head, [pieces]
    level = len(head.code) + 2
    title = level + len(head.level) + 2
    return head, [between(pieces, *cut) for cut in ((0, level - 2), (level, title - 2), (title, None))]


def between(pieces, begin, end):
    """A part of a text in pieces, in as many pieces."""
    found, at = [], 0
    for piece in pieces:
        found.append(piece[max(begin - at, 0):None if end is None else max(end - at, 0)])
        at += len(piece)
    return found

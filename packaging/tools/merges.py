#!/usr/bin/python3 -B
"""What an operator still has to merge after an upgrade: of each a sentence that names the file and the line."""

import re

from offices import SETTINGS, SITES, Office, Trouble, added

DESK = re.compile(r"^[^#\n]*include /etc/record-office/(?:\w+/)?desk\.conf;", re.M)


def desk_in_site(office):
    """Where the open site of the readers has the desk, as before the desk had an nginx of its own."""
    named = f"record-office-{office.name}" if office.name else "record-office"
    site = SITES.with_name("sites-enabled") / named
    text = site.read_text(encoding="utf-8") if site.exists() else ""
    for found in DESK.finditer(text):
        line = text.count("\n", 0, found.start()) + 1
        unit = office.unit_of("desk")
        yield (f"{site.resolve()}, line {line}, has the desk, so that {unit} is not started: give its names, ports "
               f"and certificates to {office.settings / 'desk-nginx.conf'}, take its servers out of the site, and "
               f"call `nginx -t && systemctl reload nginx && systemctl restart {unit}`")


def edited(office):
    """What the operator had changed in a file that is the package's now."""
    for mine in sorted(office.settings.glob("*.dpkg-bak")):
        change = mine.with_name(f"{mine.name}.diff")
        told = change.read_text(encoding="utf-8", errors="replace") if change.exists() else ""
        line = re.search(r"^@@ .*\+(\d+)", told, re.M)
        yield (f"{mine}, line {line[1] if line else 1}, begins a change of yours ({change.name}) that is not in force: "
               f"make it in a copy of {SETTINGS / mine.stem}, let your site include that, and remove {mine.name}")


def merges(office):
    """What is to be merged of an office."""
    return [*desk_in_site(office), *edited(office)]


def main():
    """Prints what is to be merged of each office of this machine."""
    for name in (None, *added()):
        try:
            for line in merges(Office(name)):
                print(f"record-office: {line}")
        except Trouble:
            continue  # it has no folder any more


if __name__ == "__main__":
    main()

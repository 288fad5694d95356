"""Tests of records.py and trials.py: what is read wrongly there would try no mistake, or another one."""

from pathlib import Path

import pytest

from mutation import records, trials

RULES = """# a comment
file: specs/State.antt

rule: two lines, one of them long
old:     unless (int_lt s.day day) DayNotLater
   |     ∷ when$
   >  (list_any (is_out s))
new:     when $
   > (list_any (is_out s))
refused by: office_core::worked::worked_rows

fault: a line is left out
old: x = 1
   |
noticed by: queue:order
"""
EDIT = "noticed by: the compiler\nfile: a.rt\nold: one\nnew: two\nold: three\nnew:\nfile: b.rt\nold: four\nnew: five\n"


def written(path: Path, text: str) -> Path:
    path.parent.mkdir(exist_ok=True)
    path.write_text(text, "utf-8")
    return path


def test_a_file_holds_for_the_records_that_follow_and_texts_go_on(tmp_path: Path) -> None:
    written(tmp_path / "desk/state.rules", RULES)
    first, second = records.read(tmp_path)
    assert (first.name, first.folder, first.file) == ("two lines, one of them long", "desk", "specs/State.antt")
    assert first.old == "    unless (int_lt s.day day) DayNotLater\n    ∷ when (list_any (is_out s))"
    assert first.new == "    when (list_any (is_out s))"
    assert (first.refused_by, first.noticed_by) == ("office_core::worked::worked_rows", "")
    assert (second.file, second.old, second.new, second.noticed_by) == (first.file, "x = 1\n", "", "queue:order")


def test_an_edit_has_the_name_of_its_file_and_changes_of_more_files(tmp_path: Path) -> None:
    record = records.of_edit(written(tmp_path / "office/nothing_is_done.edit", EDIT))
    changes = [("a.rt", "one", "two"), ("a.rt", "three", ""), ("b.rt", "four", "five")]
    assert record.changes == tuple(records.Change(*it) for it in changes)
    assert (record.name, record.folder, record.noticed_by) == ("nothing_is_done", "office", "the compiler")


@pytest.mark.parametrize("files, why", [
    ({}, ""), ({"b.rt": "four four"}, "an old text stands 2 times in b.rt"),
    ({"a.rt": "one"}, "an old text stands 0 times in a.rt"), ({"b.rt": ""}, "an old text stands 0 times in b.rt"),
    ({"a.rt": None}, "there is no file a.rt")])
def test_a_change_is_made_once_in_the_text_with_those_before(files: dict[str, str | None], why: str, tmp_path: Path) -> None:
    for name, text in ({"a.rt": "one three", "b.rt": "four"} | files).items():
        if text is not None:
            written(tmp_path / name, text)
    told = records.of_edit(written(tmp_path / "x.edit", EDIT)).why_not(tmp_path)
    assert told.startswith(why) and bool(told) == bool(why)


def test_verdicts() -> None:
    verdicts = trials.Verdicts("refused")
    assert (verdicts.line(), verdicts.status()) == ("0 refused", 1), "one must be tried"
    verdicts.add("refused")
    assert (verdicts.line(), verdicts.status()) == ("1 refused", 0)
    verdicts.add("PROVED")
    assert (verdicts.line(), verdicts.status()) == ("1 refused, 1 PROVED", 1), "each must be noticed"

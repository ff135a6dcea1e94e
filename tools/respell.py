#!/usr/bin/env python3
"""Spells this repository's own definitions, lemmas, fields, constructors and variables in snake case, as `isBallot` to `is_ballot`
and `step-keeps-other` to `step_keeps_other`. Names that begin with a capital, as types and modules do, stay.

usage: python3 tools/respell.py [--check]      at the top of the repository, once, right after the toolchain's port.py

It turns whole words: in .antt files all but quoted text, in .rt files all but quoted text, in must-fail edits the lines
`old:` and `new:`, and in pages (.md) code spans. A name of a function's goal, in a Proof.antt, stays: the toolchain makes it.
OTHERS has the names that would fall together with another one, and those that name what has another name by now.
With --check nothing is written. A line `meets:` names a file in which a new spelling stood before.
"""

import os
import re
import sys

OTHERS = {
    "all-boxes": "all_below",
    "all-saved-kept": "all_saved_kept_if_each",
    "event-ok": "good_event",
    "getD-numbersFrom": "get_or_numbers_from",
    "getD-replicate-default": "get_or_replicate_default",
    "longest-record": "no_record_is_longer",
    "may-make": "made_call_is_allowed",
    "next-ballot": "its_next_ballot",
    "no_number": "bad_number",
    "next-x": "x_of_next_ballot",
    "no-message": "without_message",
    "own-ballot": "own_is_ballot",
    "own_value": "own_value_is",
    "passBelow": "all_pass_below",
    "phase-kept": "phase_is_kept",
    "round-kept": "round_is_kept",
    "same-event": "same_event_is_equal",
    "saved-kept": "saved_is_kept",
    "table-ok": "good_table",
    # "It breaks the promises" of each impostor, beside the impostor itself.
    "agrees-at-propose": "agrees_at_propose_fails",
    "answers-above": "answers_above_fails",
    "counts-twice": "counts_twice_fails",
    "invents-count": "invents_count_fails",
    "keeps-own-value": "keeps_own_value_fails",
    "leaves_table": "leaves_table_fails",
    "next-from-own": "next_from_own_fails",
    "promises-at-begin": "promises_at_begin_fails",
    "promises-at-restart": "promises_at_restart_fails",
    "refuses-all": "refuses_all_fails",
    "sends-always": "sends_always_fails",
    "takes-most-sent": "takes_most_sent_fails",
    "tells-largest": "tells_largest_fails",
}
WORD = re.compile(r"[^\s(){}\[\].;,@\"«»`]+")
QUOTED = re.compile(r'"(?:[^"\\\n]|\\.)*"')
DECLARED = re.compile(r"(?m)^ *(?:(?:pub|abbrev|unfoldable|record|data|opaque|ruleset) )*([^\s(){}\[\].;,@\"«»:]+)(?: [\[({][^\n]*?[\])}])* :(?= |$)")
OF_A_GOAL = re.compile(r"(?m)^(?:abbrev )?(\S+) : (?:tie|goal)\.")
COMPOUND = re.compile(r"[a-z][\w']*(-[\w']+)+|[a-z][a-z0-9]*[A-Z][\w']*")


def files(*endings):
    for top in ("crates", "docs"):
        for folder, dirs, names in os.walk(top):
            dirs[:] = sorted(d for d in dirs if d != "out")
            for name in sorted(names):
                if name.endswith(endings):
                    yield os.path.join(folder, name)
    yield from (name for name in sorted(os.listdir(".")) if name.endswith(endings))


def text_of(path):
    with open(path, encoding="utf-8") as f:
        return f.read()


def snake(name):
    if name in OTHERS:
        return OTHERS[name]
    parts = re.sub(r"(?<=[a-z0-9])([A-Z])", lambda m: "_" + m[1].lower(), name)
    return parts.replace("-", "_")


def bound(text):
    """The compound names of a lemma file that it neither declares nor imports: its variables."""
    lines = [line.split("--")[0] for line in text.split("\n")]
    imported = {word for line in lines if line.startswith("use ") for word in WORD.findall(line)}
    words = {word for line in lines if not line.startswith("use ") for word in WORD.findall(line)}
    return {word for word in words - imported if COMPOUND.fullmatch(word)}


def declared():
    """The names that the repository's antt files declare, each with its new spelling, where that is another one."""
    names = set()
    for path in files(".antt"):
        text = text_of(path)
        made = set(OF_A_GOAL.findall(text))
        names |= {name for name in DECLARED.findall(text) if name not in made}
        if not path.endswith("/Proof.antt"):
            names |= bound(text)
    names = {name for name in names if name[0] not in "+μ" and not name[0].isupper()}
    rows = {name: snake(name) for name in names}
    mixed = {name.strip("◌"): new.strip("◌") for name, new in rows.items() if "◌" in name.strip("◌") or name.startswith("◌")}
    rows.update({name: new for name, new in mixed.items() if name not in rows})
    return {name: new for name, new in rows.items() if name != new}, set(rows.values())


class Elsewhere(dict):
    """For edits and pages: the rows, and each word whose new spelling is declared; the toolchain's script turned those in the code."""

    def __init__(self, rows, news):
        super().__init__(rows)
        self.news = news

    def get(self, word, otherwise):
        return super().get(word) or (snake(word) if snake(word) in self.news else otherwise)


def turned(text, rows):
    """The text with each word of it that is a row in its new spelling; quoted text stays."""
    parts, at = [], 0
    for quoted in QUOTED.finditer(text):
        parts += [WORD.sub(lambda m: rows.get(m[0], m[0]), text[at : quoted.start()]), quoted[0]]
        at = quoted.end()
    return "".join(parts) + WORD.sub(lambda m: rows.get(m[0], m[0]), text[at:])


def turned_goals(text, rows):
    """A Proof.antt: the names of its goals stay."""
    stay = set(OF_A_GOAL.findall(text))
    return turned(text, {name: new for name, new in rows.items() if name not in stay})


def turned_lines(text, rows):
    """An edit: its lines `old:` and `new:`."""
    return re.sub(r"(?m)^((?:old|new): )(.*)$", lambda m: m[1] + turned(m[2], rows), text)


def turned_spans(text, rows):
    """A page: its code spans."""
    return re.sub(r"`[^`\n]+`", lambda m: turned(m[0], rows), text)


WAYS = {".antt": turned_goals, ".rt": turned, ".edit": turned_lines, ".md": turned_spans}


def meets(path, text, rows):
    """Where a new spelling stands already in a file that has the old one."""
    words = set(WORD.findall(QUOTED.sub("", text)))
    news = {}
    for name in sorted(words & set(rows)):
        if rows[name] in words:
            print(f"meets: {path}: {name} and {rows[name]}")
        news.setdefault(rows[name], []).append(name)
    for new, olds in news.items():
        if len(olds) > 1:
            print(f"meets: {path}: {' and '.join(olds)} as {new}")


def main():
    check = "--check" in sys.argv[1:]
    rows, news = declared()
    elsewhere = Elsewhere(rows, news)
    for path in files(*WAYS):
        text = text_of(path)
        if path.endswith((".antt", ".rt")):
            meets(path, text, rows)
        new = WAYS[os.path.splitext(path)[1]](text, rows if path.endswith((".antt", ".rt")) else elsewhere)
        if new != text and not check:
            with open(path, "w", encoding="utf-8") as f:
                f.write(new)
    print(f"{len(rows)} names")


main()

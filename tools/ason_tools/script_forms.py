"""The forms of a script line, and which is nearest to a line that has none."""

import re
from difflib import SequenceMatcher

FORMS = (
    "setup NAME FROM TO unprotected via L,..",
    "setup NAME FROM TO unprotected",
    "setup NAME FROM TO via L,.. backup L,..",
    "setup NAME FROM TO via L,..",
    "setup NAME FROM TO",
    "setup NAME FROM TO unprotected both via L,..",
    "setup NAME FROM TO unprotected both",
    "setup NAME FROM TO both via L,.. backup L,..",
    "setup NAME FROM TO both via L,..",
    "setup NAME FROM TO both",
    "release NAME",
    "protect NAME",
    "retry NAME",
    "revert NAME",
    "fail link N",
    "fail srlg N",
    "repair link N",
    "repair srlg N",
    "lose A B K",
    "repeat A B K",
    "hold A B K",
    "noise A B HEX",
    "settle R",
    "wait N",
    "show",
)
"""The forms. Words in small letters are as they are; the others stand for names and numbers."""

_NUMBER = re.compile(r"[-+]\d+|0\d+")


def nearest(words: list[str]) -> str:
    """What is wrong with a line that has none of the forms, and the form that is nearest."""
    if not words:
        return "the line is empty"
    form = max(FORMS, key=lambda form: _likeness(words, form.split()))
    numbers = [] if form.startswith("noise") else [word for word in words[1:] for word in word.split(",")]
    odd = next((number for number in numbers if _NUMBER.fullmatch(number)), None)
    why = f"; a number has no sign and no leading zero, as {odd} has" if odd else ""
    return f"the line has none of the forms of a script line, of which the nearest is {form!r}{why}"


def _likeness(words: list[str], form: list[str]) -> float:
    """How like the words are to the form: most by the first word, then by the other fixed words and their number."""
    first = SequenceMatcher(None, words[0].lower(), form[0]).ratio()
    fixed = [word for word in form[1:] if word.islower()]
    rest = [word.lower() for word in words[1:]]
    there = sum(max((SequenceMatcher(None, word, it).ratio() for it in rest), default=0.0) for word in fixed)
    return 10 * first + there - len(fixed) / 2 - abs(len(words) - len(form)) / 2

"""The command `explain`: a refusal's cause and cure, by its number in either writing, or by its name."""

import re
import textwrap

from people import keys
from people.answers import ANSWERS, BAD_FORM
from people.faults import Fault

WIDTH = 100


def explain(words):
    if not words.numbers:
        for answer in ANSWERS.values():
            print(f"{_numbers(answer):<12} {answer.name}")
    for text in words.numbers:
        _explain(text)


def _explain(text):
    answer = _found(text)
    print(f"{_numbers(answer)}  {answer.name}")
    for head, said in (("Cause", answer.cause), ("Cure", answer.cure)):
        print(textwrap.fill(f"{head}: {said}", WIDTH, subsequent_indent="       "))
    if re.fullmatch(r"1[0-9]", text) and int(text, 16) in ANSWERS:
        print(f"(A sheet has it as {answer.number:02X}; {text} in hexadecimal is {int(text, 16)}.)")


def _numbers(answer):
    return "FE" if answer.number == BAD_FORM else f"{answer.number} ({answer.number:02X})"


def _found(text):
    """10, 0A, 0x0A and OFF_SCREEN alike: digits alone are decimal, as the documents have them."""
    known = {answer.name: answer for answer in ANSWERS.values()}
    name = text.upper().removeprefix("SPOONWING_")
    if name in known:
        return known[name]
    if re.fullmatch(r"[0-9]+", text):
        number = int(text)
    elif re.fullmatch(r"(0[xX])?[0-9A-Fa-f]{1,2}", text):
        number = int(text, 16)
    else:
        what = f"neither a number nor a name; {keys.nearest(name, list(known))}, or a number as 10 or 0A"
        raise Fault(f"explain: {text}", what)
    if number not in ANSWERS:
        raise Fault(f"explain: {text}", "no call answers this number; write 0 to 18, 23 or FE")
    return ANSWERS[number]

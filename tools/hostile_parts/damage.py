"""Texts made from the examples by cutting, doubling and replacing parts of them."""
import random
import subprocess

from program import SECONDS, run

MUTATED_TEXTS = 1000


def mutated(source, texts):
    """A text of these with parts cut out, doubled, or replaced by a part of another."""
    text = bytearray(source.choice(texts))
    for _ in range(source.randint(1, 4)):
        start = source.randint(0, len(text))
        end = min(len(text), start + source.choice([0, 1, 1, 2, 5, 20, 200]))
        change = source.choice(["cut", "double", "replace", "byte"])
        if change == "cut":
            del text[start:end]
        elif change == "double":
            text[start:start] = text[start:end]
        elif change == "replace":
            other = source.choice(texts)
            place = source.randint(0, len(other))
            text[start:end] = other[place:place + (end - start)]
        else:
            text[start:end] = bytes([source.randint(0, 255)])
    return bytes(text)


def try_mutated_texts(examples, tally):
    source = random.Random(1)
    texts = [example.given for example in examples]
    for number in range(MUTATED_TEXTS):
        given = mutated(source, texts)
        words = source.choice([["play"], ["play", "--workers", "3"], ["show"], ["audit"], ["check"], ["draw"]])
        try:
            ran = run(words, given)
        except subprocess.TimeoutExpired:
            tally.note(False, f"text {number} for {words[0]} took {SECONDS} seconds: {given!r:.400}")
            continue
        is_fault = ran.status == 2 and ran.text == "" and ran.fault.startswith("fault: ") and ran.fault.count("\n") == 1
        found_unsafe = words == ["check"] and ran.status == 1 and ran.text.startswith("unsafe ") and ran.fault == ""
        well = is_fault or found_unsafe or (ran.status == 0 and ran.fault == "")
        tally.note(well, f"text {number} for {words[0]}, {given!r:.400}: {ran}")

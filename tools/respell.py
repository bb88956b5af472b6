#!/usr/bin/env python3
"""Brings the repository's own definitions and lemmas to the toolchain's spelling: words in snake case, facts like types.

usage: tools/respell.py, at the top of a repository that the toolchain's own port script has turned, once.
A dash stays where it joins two names, as in squares-append. Only names are turned: in code, clauses and proofs where no string
or comment is, in comments and documents between backticks. Names of functions of src/ and of goals are left alone.
"""
import pathlib
import re

# these get an underscore for each dash
PLAIN = """
a-number admits-taken after-block after-feed after-items after-last after-offer after-offers all-anchored
all-behind all-logged all-more all-unexpired answer-to answered-ok answered-written apart-behind
as-heard as-many asked-ok at-last at-most batch-never-wants batch-takes behind-expiry behind-in behind-key
behind-ok below-fall below-nought below-top below-top-of block-answer block-knows bounded-from breaks-off
by-half by-length by-letter by-loss by-steps ceiling-smooth count-le count-left counts-within covers-first
covers-unexpired cut-fits decimal-spelled digit-alone digit-behind digits-own distinct-notes earlier-still
either-first empty-is-nought empty-slot ends-before ends-here energy-laws energy-of enough-for event-of
event-true fall-lowers fall-mono fed-at fed-knows fed-one feed-answer few-of first-by first-grown first-left
first-line first-push first-then first-thins found-is fresh-less from-parts from-to front-from front-front
front-of-line front-ok front-past front-prints front-within given-ok goes-on has-note has-push heard-from
hit-behind hit-bound hit-from hit-of hit-only hit-own hit-parts hit-text how-many in-one-pass in-take
in-window is-hit is-loss is-near is-number is-refused is-sample is-taken items-after items-answer items-in
items-never-want just-made keep-loss kept-from kept-in-front kept-more kept-of kind-is kind-prints l-high l-is
l-low last-behind last-by last-map last-of last-push last-thins leading-zero leads-here leads-on leads-one-on
line-pushed lines-end lines-step lines-true linked-behind linked-left linked-map linked-more linked-push
linked-thins logged-all logged-more logged-on loss-fits loss-is loss-kept loudest-laws mark-in mark-words
marks-are-words marks-of marks-push more-from most-kept moved-up named-ok named-so named-word near-by
near-close near-follows near-it near-slots near-values never-wants new-known newest-admitted
newest-in-never-lowers newest-left next-line next-of next-of-both no-comma no-nearer no-number no-want
none-left none-passed not-digit not-found not-moved not-near notes-laws number-from number-line number-of
number-small of-block of-items older-admitted oldest-out-never-raises one-free one-gone one-left one-line
one-line-decimal one-line-digits one-more one-passed one-refused one-step one-taken onto-onto or-else or-false
or-swap passed-found passed-more peak-laws placed-front preset-in promised-to put-back read-all read-behind
read-from read-front read-is read-more read-ok read-room read-stops read-text read-writes-back read-written
reading-of reading-of-take reading-serves reading-text reads-back refusal-text refusals-of refused-as
refused-leaves room-is run-knows run-true runs-more runs-on same-answer same-answers same-rest same-start
sample-bound sample-of sample-only sample-own slows-smooth so-far some-left sound-fed sound-from sound-next
sound-of sparse-behind sparse-left sparse-of sparse-thins spelled-decimal spelled-small stands-fed
stands-grown stands-of start-of starts-there stays-close stays-near steps-count steps-fall steps-mono
steps-mono-within steps-within still-follows take-min take-prints taken-leaves takes-accepted takes-items
takes-on text-is text-of-line text-plays then-ok thins-from three-at-all three-at-kind three-at-loss
three-at-window three-lines three-ok three-written times-d to-start to-stop told-falls told-last total-more
total-none total-same total-split true-answer true-as turned-down u-is value-of value-ok value-written
verdict-text verdict-word w-high w-is w-low wants-not whole-ok window-is window-start with-a-free-slot
with-fed with-item with-later with-some within-steps within-window word-lt word-mark word-one-line word-ones
word-or word-short words-push writes-back written-behind written-in-pieces written-short
"""
# these are facts, or join two names
OTHER = {
    'Seven-digits': 'SevenDigits',
    'Three-digits': 'ThreeDigits',
    'admitted-append': 'Admitted-append',
    'admitted-drop': 'Admitted-drop',
    'front-trusted': 'FrontTrusted',
    'kind-trusted': 'KindTrusted',
    'length-number-line': 'length-number_line',
    'length-reading-text': 'length-reading_text',
    'length-refusal-text': 'length-refusal_text',
    'take-trusted': 'TakeTrusted',
    'trusted-from': 'TrustedFrom',
}

NEW = {name: name.replace("-", "_") for name in PLAIN.split()} | OTHER
NAME = re.compile(r"(?<![\w'\"-])(?:" + "|".join(sorted(map(re.escape, NEW), key=len, reverse=True)) + r")(?![\w'\"-])")
TICKED = re.compile(r"`[^`\n]*`")
STRING = re.compile(r'b?"(?:[^"\\]|\\.)*"')


def turned(text):
    """The text with each name in its new spelling, but for what lies in strings."""
    out, at = [], 0
    for s in STRING.finditer(text):
        out += [NAME.sub(lambda m: NEW[m[0]], text[at : s.start()]), s[0]]
        at = s.end()
    return "".join(out) + NAME.sub(lambda m: NEW[m[0]], text[at:])


def in_ticks(text):
    return TICKED.sub(lambda m: NAME.sub(lambda n: NEW[n[0]], m[0]), text)


def line_turned(line, mark):
    at = line.find(mark)
    return turned(line) if at < 0 else turned(line[:at]) + in_ticks(line[at:])


def main():
    for p in sorted(pathlib.Path(".").rglob("*")):
        if not p.is_file() or {"out", ".git", "target", "tools"} & set(p.parts):
            continue
        mark = {".antt": "--", ".rt": "//", ".edit": "\0"}.get(p.suffix)
        if mark is None and p.suffix != ".md":
            continue
        text = p.read_text(encoding="utf-8")
        if p.suffix == ".md":
            new = in_ticks(text)
        else:
            new = "".join(line_turned(line, mark) for line in text.splitlines(keepends=True))
        if new != text:
            p.write_text(new, encoding="utf-8")


main()

"""Respells this repository's own definitions, fields and lemmas to the present style: words in snake case.

    python3 spell.py        once, after the port of the toolchain's spelling

A dash stays only where a lemma joins two names, as in length-records_of. Names that Rattle makes, and names of its
library, are not in the table. The texts of .rt, .antt and .md files are turned, word by word; code has no such words.
"""
import pathlib
import re

SNAKE = """
account-in account-of after-put after-take at-rank bare-code best-more best-skip bytes-of-first bytes-of-number
bytes-of-records cap-wins count-read-back count-refusal counts-line cut-first differs-from-none encoding-passes
enough-places facts-line far-left far-out far-rank far-right fault-code fault-here fault-seen fault-told
faulty-record few-places few-stations field-bytes field-code field-of-file field-of-record fields-again fields-of
file-holds file-is-encoding file-of file-records first-fault first-fields first-of-bytes first-outside head-line
header-bytes holds-here in-range inside-here join-associative join-goes-above join-keeps-below join-keeps-left
join-keeps-right join-rank joins-from keeps-order keeps-strict laid-from-none left-to-costs left-to-records
link-line link-of links-counted links-in-front links-of longest-plan lowest-from-best map-counting-up mark-0 mark-1
mark-2 mark-found meets-overlong most-bytes-enough most-places most-stations most-taken no-fault-here nobody-from-best
none-from-differs none-from-laid none-from-sound none-of-both none-of-mapped none-outside not-below not-refused
not-too-many number-below number-of-bytes number-of-low ok-from-told one-F only-stations-wait or-right-true
other-pair outside-here passes-from-none past-none pasted-more plan-text rank-fits rank-of-formed reading-refusal
reads-back record-here record-of-file records-of records-of-bytes records-read-back records-rest refl-rank
refused-alike refused-if refused-line refused-or same-account same-fields same-pair same-refusal shelf-meaning
shelf-rank small-drop some-places some-station some-stations sound-from-none sound-low split-cost split-format
split-formed split-kind split-laws split-rank split-strict station-of station-refusal stations-of
stations-read-back sum-cost sum-format sum-formed sum-kind take-spelled taken-stops tells-of unset-from-replicate
worked-numbers worked-ranks writing-refusal wrong-length zero-is-not-far zero-out
"""
JOINED = {
    "length-encoding": "length-encoding",
    "length-records": "length-records",
    "length-records-of": "length-records_of",
    "repeats-push": "repeats-push",
    "replicate-unset": "replicate-unset",
}
# What the library's spelling has turned already; only the pages have them left.
TURNED = "code-of counts-of count-of field-told most-bytes number-at or-else lower-of"


def table():
    names = {word: word.replace("-", "_") for word in (SNAKE + TURNED).split()}
    names.update(JOINED)
    return names


def main():
    top = pathlib.Path(__file__).resolve().parent.parent.parent
    names = table()
    word = re.compile(r"(?<![\w'·-])[A-Za-z][\w']*(?:-[\w']+)+(?![\w'-])")
    used = set()

    def turn(found):
        new = names.get(found[0])
        if new is None:
            return found[0]
        used.add(found[0])
        return new

    paths = [p for kind in ("rt", "antt") for p in (top / "crates").rglob("*." + kind) if "out" not in p.parts]
    for path in sorted(paths) + [top / "docs/PROOF.md"]:
        text = path.read_text()
        new = word.sub(turn, text)
        if new != text:
            path.write_text(new)
    for name in sorted(set(names) - used):
        print("not met:", name)
    new = sorted(set(names.values()))
    if len(new) != len(names):
        print("two names fall together")


main()

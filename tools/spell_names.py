#!/usr/bin/env python3
"""Brings the repository's own names in specs/, proofs/ and clauses to the library's spelling.

usage: tools/spell_names.py [FOLDER]      FOLDER holds crates/ (this folder if none is named)

Run once, right after /opt/rattle/port/port.py. A word of a name is in snake case, a label of a record in specs/ has no dash. A lemma whose
name would become that of a definition in the same file ends in _lem. Names of src/, strings and what programs print stay.
"""

import glob
import os
import re
import sys

# Two definitions have another name, since the library has that word.
WORDS = {"countBy": "written_count_by"}

# Lemmas that port.py gave the name which a definition of the same file gets here: the name, and the crates whose proofs/ cite it.
LEMMAS = {
    "body_clean": ["message"],
    "given_back": ["header"],
    "header_of": ["message"],
    "header_read": ["header", "message"],
    "scalar_size": ["image"],
    "shown_by": ["room"],
}

# Labels of records in specs/ that are no name of a definition without their dashes.
LABELS = set(
    """
    add-answers after-adding all-bits answer-counts answered-back any-calls any-cut any-encoding any-rests any-version are-bytes arm-added
    arm-after arm-damaged arm-down arm-early arm-early-link arm-empty arm-green arm-grey arm-no-call arm-not-there arm-p12 arm-second
    arm-shown arm-twice arm-unknown as-given as-reader as-received at-index before-adding bind-first body-fits body-old both-down
    both-faults both-faults-turned both-linked both-marks both-older both-oldest call-answers check-value children-faults clean-fields
    clean-same cleaned-bytes cleaned-clean cleaned-count cleaned-deep cleaned-read cleaned-well content-fills count-read counted-long-ago
    counted-older counts-down crc-fits crc-left-out crc-unread cursor-at-wide cursor-bytes-wide cursor-of-few cursor-unmarked data-read
    deep-marks default-fault default-mark default-part down-twice early-call early-clock early-part eight-first empty-named empty-type
    encoding-fits even-tables every-refusal extended-out far-outside faulty-count faulty-named fed-more fed-none fed-nothing fed-part
    fed-refused fed-unwritten field-empty field-full field-high field-resumed finds-none five-is-look found-or-none found-second found-value
    four-links four-words further-bytes further-field further-fits green-after-down green-after-old green-again green-kept header-back
    hold-times huge-value id-fits image-first in-front index-field index-or-none index-sizes index-within is-arm is-transform key-some
    key-text largest-ends largest-extended last-added last-linked last-twice late-clock layout-first layout-read left-refused length-fits
    length-kept lent-bind lent-mark level-4 level-4-layout level-5 level-5-any-bytes level-5-first level-5-second link-same-clock
    lists-first long-entry long-index long-parts long-position long-section long-sizes longest-further longest-old look-answers loose-cable
    many-children many-entries many-links many-marks mark-count mark-named mark-numbers marks-count message-more metadata-field
    metadata-fits most-entries name-bytes name-clean name-fills name-fits name-lengths name-of-more name-text name-zeros named-down
    named-faults named-first named-last named-or-none nanoseconds-read nested-first nested-second new-as-new new-as-old no-calls
    no-components no-entries no-further no-id no-mark no-metadata no-pixels no-section no-sizes no-sooner no-texts no-type no-types
    none-added none-sent not-clean not-counting not-text nothing-handed number-past-end number-written numbers-read old-as-new old-as-old
    on-books one-text opaque-marks other-clock other-crc other-data other-kinds other-message other-more other-named other-probe other-types
    p10-bytes p11-before p11-bytes p11-earlier p11-earlier-bytes p12-bytes p5-bytes p6-bytes p8-a p8-ab p8-length p8-longer p8-longer-length
    p9-inside p9-outside parts-counted parts-not-counted pixels-back pixels-read point-value pose-first position-12 position-13 position-24
    position-28 position-counted position-lengths position-no-room position-values push-codes refused-count refused-inside refused-link
    refused-message refused-named refused-walk rest-written rests-read rounded-down same-clock same-message same-room scalar-bytes
    second-clock second-counted second-linked second-message second-older second-read seconds-read sent-taken short-hold-time short-position
    short-transform short-value sibling-marks site-fault site-mark site-part size-read sizes-fit some-component some-pixels some-sent
    stamp-fits stays-ended stays-refused stopped-first stops-long table-lengths table-read text-12 text-20 text-alone text-cut text-full
    text-padded text-read texts-by-length texts-named texts-read too-large-extended tracker-green transform-lengths two-at-three two-way
    type-added type-clean type-fills type-fits type-lengths type-read type-texts type-zeros types-changed types-of-1 types-of-2 types-of-4
    types-of-8 unclean-fields uncleared-cleaned uncleared-layout uncleared-read uncleared-types uncleared-written under-58 untouched-short
    value-fits version-crc version-fits well-accepted wide-clocks wide-hold-times wide-sizes write-three written-1 written-again
    written-past-end
""".split()
)

TOKEN = re.compile(r"[^\s(){}\[\],.;:@|«»λ→≡×◌]+")


def snake(word):
    return re.sub(r"(?<=[a-z0-9])([A-Z])", lambda m: "_" + m.group(1).lower(), word)


def turned(name):
    if name in LABELS:
        return name.replace("-", "_")
    parts = name.split("-")
    return "-".join(WORDS.get(it) or (snake(it) if re.match("[a-z]", it) else it) for it in parts)


def lemmas(text, path):
    crate, part = path.split("crates/")[1].split("/")[:2]
    if part != "proofs":
        return text
    for name, crates in LEMMAS.items():
        if crate in crates:
            # A module's name stands before or behind a dot, and a label before an equals sign or behind a dot.
            text = re.sub(r"(?<![.\w'-])%s(?![.\w'-])(?! = )" % re.escape(name), name + "_lem", text)
    return text


def antt(text):
    return TOKEN.sub(lambda m: turned(m.group(0)), text)


def rust(text):
    """Turns all but strings and characters."""
    pieces = re.split(r"(\"(?:[^\"\\]|\\.)*\")", text)
    return "".join(it if it.startswith('"') else re.sub(r"(?<![A-Za-z0-9_])[a-z][A-Za-z0-9_]*[A-Z][A-Za-z0-9_]*", lambda m: turned(m.group(0)), it) for it in pieces)


def main(top):
    for path in sorted(glob.glob(top + "/crates/*/*/**/*", recursive=True)):
        if not os.path.isfile(path) or not path.endswith((".antt", ".rt")) or "/out/" in path:
            continue
        with open(path, encoding="utf-8") as f:
            text = f.read()
        new = rust(text) if path.endswith(".rt") else antt(lemmas(text, path))
        if new != text:
            with open(path, "w", encoding="utf-8") as f:
                f.write(new)


main(sys.argv[1] if len(sys.argv) > 1 else ".")

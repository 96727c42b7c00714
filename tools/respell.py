#!/usr/bin/env python3
"""Brings the repository's own definitions and lemmas to today's spelling, once, after the kit's port.py.

usage: python3 tools/respell.py [FOLDER]

Words get underscores, types and propositions camel case. Names of the library and of goals, and what stands in
strings, stay. Files of specs/, proofs/ and src/ are rewritten in place; then each crate is laid out by `rt fmt`.
"""
import os
import re
import subprocess
import sys

# The names as they were declared.
NAMES = """
    All-again Entered-fits Entered-took Fits-if-any Fits-slot Four-words Frame-fits Frame-took Head-took Held-key
    If-written Joined-laws Layouts-exact One-took Packed-laws Past-the-end Read-laid Reading-fits Reads-back
    Records-took Replies-back Room-fits Same-frame Seal-laws Shut-out Slot-laws Stands-alone Used-laws Value-took
    Worked-requests Worked-status Worthless-shut-out Writes-back above-none after-head after-length after-second
    again-of again-one all-missed alone-small alone-took answer-after answer-in answer-of answers-more as-done
    as-entered as-given as-key as-unread at-the-end bad-word big-1 big-2 big-4 big-half big-word bit-odd bit-small
    book-layer brought-took by-alone by-reading by-status by-verdict byte-back byte-bytes byte-field byte-took
    bytes-parts bytes-told called-back called-number called-small called-took calls-whom channel-number channel-of
    closed-told cond-took consed-over consed-took copied-answer copied-row count-given degree-number degree-of
    did-entry did-fits drop-later empty-slot end-at end-checks end-took enter-answer enter-at enter-checks enter-row
    entered-append entered-back entered-fields entered-later entered-reply entered-so-far entered-told entered-took
    entries-are entries-more expected-words fault-consed fault-layer fault-more fault-number fault-of fault-stops
    fault-then fault-took fields-of fits-at fits-row folded-append four-alike four-bits four-fit four-of frame-bytes
    frame-in frame-of frame-told frame-took frame-value frame-whole framed-took frames-all frames-at frames-back
    frames-count frames-end frames-fault frames-length frames-next frames-none frames-of frames-one frames-over
    frames-words from-mark from-none from-position from-time front-is gap-told gap-words getD-pieces getD-used
    given-again gone-after gone-left gone-less gone-more half-bytes half-field half-took held-count held-frames
    held-left if-intact if-took ignores-release in-times intact-of intact-took inv-did inv-same is-entry is-in-list
    is-refusal is-sealed joined-laws joined-limit joined-rest joined-take key-checks keyed-after keyed-answer
    keyed-checks keyed-state laid-told laid-took last-time law-here layouts-exact left-held left-to length-again
    length-frames length-joined length-pieces length-used length-written limit-check list-checks listed-words
    listen-at listen-checks look-answer look-first look-inside look-other look-past look-same look-second
    makes-up-missed map-append map-four mark-before mark-in measured-means measured-of measured-reads measured-writes
    message-means message-of message-reads message-writes method-at minus-not-digits mode-checks more-took named-at
    never-gone never-looks new-list newest-since next-back next-call next-frame next-frame-took next-ok next-took
    no-look no-loss no-release no-tray none-brought none-follows none-on none-wanted not-both not-gone not-held
    nothing-held number-front number-range of-bicycles of-process oldest-answer oldest-gives one-given one-took
    orderly-did orderly-left orderly-on packed-laws packed-limit packed-over packed-row padded-not-plain parse-field
    parse-rest parsed-head part-packed part-written part-wrote party-is party-listens piece-fits piece-told
    pieces-apart pieces-written plain-read put-alike put-answer put-bytes put-inside put-left put-past put-then-cut
    put-wrote quiet-count quiet-fits quiet-listen quiet-no quiet-release quiet-since quiet-start range-fault
    read-checks read-fields read-form read-gives read-oldest read-reply read-since read-span read-took read-youngest
    reading-at reading-of reading-took reads-answer reads-one records-at records-back records-took refusal-range
    refusal-words release-at release-checks replies-back reply-at reply-of reply-told request-of rest-first
    rest-second rising-append rising-lower room-check row-after row-took same-slot scanned-all scanned-full
    seal-bytes seal-laws second-only sign-free signed-not-plain since-answer since-checks since-gave since-gives
    sized-cut sized-frame sized-frame-took sized-long sized-ok sized-took sized-whole sized-words slot-back
    slot-bytes slot-in some-wanted span-answer span-at span-checks span-gives start-checks started-again status-back
    status-end status-fields status-number status-of status-reply status-small status-told status-words step-answer
    step-state step-told step-took stop-checks store-more store-stops store-whole stored-over stored-whole sums-of
    take-answers take-checks tells-all-missed tells-time temperature-in temperature-of tenths-word then-answers
    then-on then-took till-at till-last till-mark till-none till-position till-time time-falls time-in to-zero
    top-append top-number unknown-marks unused-set used-inside used-laws used-limit used-look used-set uses-no-tray
    value-at value-back value-took wanted-none wanted-past wanted-this whole-fits whom-is with-activity with-frames
    with-gone with-key with-listeners with-since with-took word-field word-took words-at words-took writes-zeros
    written-length wrote-closed youngest-answer youngest-gives
    started-list released-to youngest-given oldest-given span-given stopped-list keeps-party sets-party gone-step
    still-four new-time look-alike first-set reads-back was-refused none-run one-run in-second gives-next held-second
    since-known orderly-put inv-put entered-list tray-number record-number one-or-none fit-taken fit-refusal
    fit-modal fit-handed fit-entry done-so book-number k-in k-le i-le at-start all-given message-kind measured-kind
""".split()

# Where a function of the program has the respelled name already.
OTHER = {
    "status-of": "status_of_read",
    "till-mark": "till_mark_of",
    "is-refusal": "is_refusal_number",
    "next-frame": "next_frame_of",
}

WORD = re.compile(r"[^\W\d][\w']*(?:-[\w']+)*")
STRING = re.compile(r'"(?:\\.|[^"\\])*"')


def respelled(name):
    if name in OTHER:
        return OTHER[name]
    words = name.replace("getD", "get_or").split("-")
    if name[0].isupper():
        return "".join(w[0].upper() + w[1:] for w in words)
    return "_".join(words)


TABLE = {name: respelled(name) for name in NAMES}


def turn(text):
    return WORD.sub(lambda m: TABLE.get(m.group(), m.group()), text)


def turn_source(text):
    parts, at = [], 0
    for m in STRING.finditer(text):
        parts += [turn(text[at : m.start()]), m.group()]
        at = m.end()
    return "".join(parts) + turn(text[at:])


def main(top):
    assert len(set(TABLE.values())) == len(TABLE)
    for folder, dirs, files in os.walk(os.path.join(top, "crates")):
        dirs[:] = [d for d in dirs if d != "out"]
        for name in files:
            if not name.endswith((".antt", ".rt")):
                continue
            path = os.path.join(folder, name)
            with open(path, encoding="utf-8") as f:
                old = f.read()
            new = turn_source(old) if name.endswith(".rt") else turn(old)
            if new != old:
                with open(path, "w", encoding="utf-8") as f:
                    f.write(new)
    for crate in sorted(os.listdir(os.path.join(top, "crates"))):
        subprocess.run(["rt", "fmt"], cwd=os.path.join(top, "crates", crate), check=False)


if __name__ == "__main__":
    main(sys.argv[1] if len(sys.argv) > 1 else ".")

#!/usr/bin/env python3
"""Brings the definitions and lemmas of this repository to snake case, and its theorems to upper camel case.

usage: python3 tools/respell.py      at the top, once, after port.py of the toolchain's upgrade

Functions of src/, exported names, strings, inputs and outputs keep their names: a name below never stands in Rust's own text.
A dash stays where it joins two names, as in 'length-pair_frame', and becomes '_' elsewhere.
"""

import os
import re
import sys

# The theorems, which are types.
TYPES = """
Cofactors-right CofactorsAreRight
Divisor-greatest DivisorIsGreatest
Fraction-reduced FractionIsReduced
Frame-cut-off FrameIsCutOff
Frame-unique FrameIsUnique
Frames-cut-back FramesAreCutBack
Halvings-exact HalvingsAreExact
Hex-read-back HexIsReadBack
Marked-pairs MarkedPairs
Need-bounded NeedIsBounded
Need-unique NeedIsUnique
Number-read-back NumberIsReadBack
Pair-read-back PairIsReadBack
Pieces-of-input PiecesOfInput
Pieces-whole PiecesAreWhole
Run-narrow RunIsNarrow
Whole-lawful WholeIsLawful
"""

# Functions and lemmas in camel case.
CAMEL = """
aOf afterWord begunTable byteThen cOf callText callTexts callsIn clearAnswer cofactorAccepts cofactorFirst cofactorStart cofactorTable
cofactorTurns cofactorsAt columnDoubled columnsCombined columnsExchanged commandBy decimalValue deltaOf denominatorOf differenceIn
firstRows firstTables fractionAccepts fractionFirst fractionStart fractionTable fractionTurns halvedPair halvedRow headObjection
heldAfter heldIn heldMeaning hexByte hexDigit hexReading hexText isFar isIdle isLess isNegative length-pairFrame length-resultFrame
length-signedBytes loadObjection loadText loadedTo lowByte moreCalls moreEntries negatedBy nextTables numeratorOf orderObjection
pairFrame pairObjection pairPlaced pieceLength readOut readSigned resultFrame resultPlaced rowAfter rowFits rowsAfter rowsTake rowsTurn
signBy signByte signedBytes signedFrom signedFrom-push signedValue signedValue-first signedValue-push stateAt stintAfter stintAnswer
stintIn stintedTo sumIn tooShort twoBytes twosOf uOf upTo-cut upTo-solid vOf wordMeaning workAnswer workedMore workedTo
"""

# Lemmas and fields whose parts a dash joins; those of KEPT join two names.
DASHED = """
abs-mul add-by adds-at adds-call adds-fault adds-nothing along-finished along-more along-start along-takes answer-is answered-so-far
appended-high appended-low appended-rest as-marked at-end bare-reads bare-returned bare-same bare-stripped begun-none below-a below-b
bezout-there bit-most burns-by bytes-from bytes-of-value cancel-scale cases-le checked-unique clear-happened clear-taken cleared-to
cofactor-follows cofactor-start cofactor-table cofactors-are cofactors-fit cofactors-right cofactors-there collect-happened
collect-left collect-over collects-from corrected-even corrected-size count-after count-obeyed count-stands counted-load counted-work
difference-same digit-ascii digit-back divides-bare divides-both divides-double divides-half divides-joined divides-most divides-other
divides-scaled divides-size divides-x divides-y divisor-below divisor-fits divisor-greatest divisor-is divisor-some divisor-there
ends-at ends-later ends-within entries-are err-same even-e even-f even-product exact-by exactly-combined exactly-doubled
exactly-exchanged exist-within factor-most fit-denominator fit-numerator fit-u fit-v fits-fitting fitting-fits fitting-there
follows-beside four-no four-yes fraction-follows fraction-reduced fraction-start frame-cut-off frame-length frame-reduced frame-unique
frames-cut-back from-solid fuel-after given-pieces going-first greatest-most greatest-there half-below half-double half-scaled
half-size halvings-exact head-filled held-narrow hex-read-back in-range is-d is-e joined-below joined-even joined-room kept-start
left-of left-some lines-apart load-happened loaded-to low-sign mag-small map-reverse-more marked-hold marked-pairs modulus-many
moved-near mul-by mul-even mul-odd narrow-by narrow-exchanged narrow-more narrow-prop narrow-there narrow-word need-above need-bounded
need-more need-none need-there need-unique need-within neg-by neg-neg negated-above negated-crossed negated-divides not-fresh
not-silent number-from-converted number-from-parse number-read-back obeyed-next odd-add odd-double odd-more odd-mul odd-neg odd-no
odd-yes of-a of-answer of-answers of-b of-call of-result ok-err only-early operand-bytes operands-admit or-none order-admits over-along
over-budget over-then over-there pair-placed pair-read-back pending-load pending-more performed-more performed-none piece-fits
piece-some pieces-of-input placed-two pow-next pow-some pushed-two put-more ratio-by ratio-right ratio-there reached-narrow
reached-next reached-start reading-all reading-headed reading-more reading-no-digit reading-odd reading-refused reads-admitted
reads-reduced reduces-cleared reduces-refused residue-same rest-range rest-shorter result-of result-placed result-right right-some
room-a room-b room-start row-signed row-two run-get run-narrow running-head running-narrow running-next running-short running-tail
same-mul same-neg same-pieces same-trans scale-suc scaled-is scaled-sum separates-found separates-high separates-low separates-scalar
seven-more-fit shares-after shares-both shares-by shares-next shares-pair shares-start sign-large size-c size-d size-divided size-e
size-f size-some size-x size-y skipped-one skipped-peeled skipped-stops skipped-trimmed small-u small-v solid-rest solid-without
some-bit some-none some-odd some-x some-y stint-happened summed-size table-at table-reduced takes-next text-all text-more texts-added
texts-append texts-in-turn texts-noted told-finished told-get told-take track-accepts track-next track-none track-reduced track-related
track-start tracks-both tracks-by tracks-next tracks-related turned-beside turned-next u-small underway-more underway-narrow
underway-room underway-start unit-one unit-two unless-none v-bound v-fits v-small v-small-far v-small-near value-even values-combined
values-corrected values-halved values-swapped whole-lawful within-buffer within-combined within-halved-pair within-settled
within-swapped word-found word-unfound work-happened work-taken worked-is worked-to works-never works-on works-refused zero-yes
"""

KEPT = """
abs-mul neg-neg count-after count-obeyed obeyed-next told-take told-get run-get map-reverse-more texts-append scale-suc
same-mul same-neg same-trans length-pairFrame length-resultFrame length-signedBytes signedFrom-push signedValue-first signedValue-push
"""

# Lemmas whose name in snake case is that of the function that they speak of.
LEMMAS = """
ends-at ends_at_lem
in-range in_range_lem
table-at rows_table_at
cofactor-start cofactor_start_lem
cofactor-table cofactor_table_lem
fraction-start fraction_start_lem
loaded-to loaded_to_lem
pair-placed pair_placed_lem
result-placed result_placed_lem
worked-to worked_to_lem
"""

# Names that port.py turned because the library spells them so; pages name them still in the old way.
TURNED = """
abs-neg after-more after-push answerOf begun-more below-more below-none callOf calls-are cases-lt count-fits count-next countOf
ended-some ends-now endsAt firstWord frameOf from-cut goes-by high-value is-c is-f is-x is-y isOver isZero joined-small kept-at low-of
low-value near-by negated-size odd-factor of-calls of-pair ok-same only-one orElse orderOf pieces-whole plus-comm put-all range-size
read-back read-is readOn rest-of room-after row-fits row-moved row-one rows-more rowsAt rowsOf run-take running-more same-add same-refl
sign-low sign-small some-left some-same startOf stateOf sum-same sumOf table-more tableAt tableOf tablesOf takes-all told-more
turned-more turns-more upTo widthOf
"""


def snake(name):
    return re.sub(r"(?<=[a-z0-9])([A-Z])", lambda m: "_" + m.group(1).lower(), name)


def table():
    to = dict(line.split() for line in (TYPES + LEMMAS).split("\n") if line)
    for n in CAMEL.split() + DASHED.split():
        s = snake(n)
        if n not in KEPT.split():
            s = s.replace("-", "_")
        elif n == "map-reverse-more":
            s = "map-reverse_more"
        to.setdefault(n, s)
    return {a: b for a, b in to.items() if a != b}


def lemma(p, text):
    """The lemma row_fits gives its name to the function rowFits, of which it speaks."""
    if not p.endswith("crates/follower/specs/Rows.antt"):
        return text
    return re.sub(r"(?<![\w'.-])row_fits(?![\w'-])", "row_fits_lem", text)


def main():
    to = table()
    word = re.compile(r"(?<![\w'-])(" + "|".join(sorted(map(re.escape, to), key=len, reverse=True)) + r")(?![\w'-])")
    pages = {**to, **{n: n.replace("-", "_") if "-" in n else snake(n) for n in TURNED.split()}}
    span = re.compile(r"(?<![\w'-])(" + "|".join(sorted(map(re.escape, pages), key=len, reverse=True)) + r")(?![\w'-])")
    if len(set(to.values())) != len(to):
        sys.exit("respell: two names fall together")
    for folder, dirs, files in os.walk("."):
        dirs[:] = sorted(d for d in dirs if d not in ("out", ".git", "target"))
        for f in sorted(files):
            p = os.path.join(folder, f)
            if not f.endswith((".rt", ".antt", ".md")):
                continue
            with open(p, encoding="utf-8") as it:
                old = it.read()
            if f.endswith(".md"):
                new = re.sub(r"`[^`\n]*`", lambda m: span.sub(lambda w: pages[w.group(1)], m.group(0)), old)
            else:
                new = word.sub(lambda w: to[w.group(1)], lemma(p, old))
            if new != old:
                with open(p, "w", encoding="utf-8") as it:
                    it.write(new)


if __name__ == "__main__":
    main()

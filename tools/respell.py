#!/usr/bin/env python3
"""Brings the repository's own definitions and lemmas to Rattle's spelling: words in snake case, types in camel case.

usage: python3 tools/respell.py        at the top, once, right behind the kit's port.py

It goes by whole names, all at once, in the proof files and in clauses; functions of src/ keep their names.
"""

import os
import re
import sys

# old and new, in definitions, lemmas and clauses
NAMES = """
Cuts-do-not-matter CutsDoNotMatter
Line-by-line LineByLine
Reads-back ReadsBack
Writes-back WritesBack
absorbed-fits absorbed_fits
absorbed-more absorbed_more
absorbedWords absorbed_words
absorbedWords-++ absorbed_words-++
absorbedWords-last absorbed_words-last
absorbedWords-more absorbed_words_more
add-fits add_fits
add-noughts add_noughts
add-padding add_padding
addConstant add_constant
addConstant-fits add_constant_fits
addKeyHigh add_key_high
addKeyLow add_key_low
addKeyLow-fits add_key_low_fits
addWord add_word
admits-alike admits_alike
admits-held admits_held
after-invariant after_invariant
after-key-string after_key_string
after-mark-string after_mark_string
afterCiphertext after_ciphertext
afterCiphertext-more after_ciphertext_more
afterText after_text
afterText-more after_text_more
answerNumber answer_number
answerValue answer_value
answered-when answered_when
at-below at_below
at-getD at_get_or
back-ciphertext back_ciphertext
back-front back_front
back-text back_text
base-public base_public
begun-fits begun_fits
behind-written behind_written
blankBox blank_box
blob-either blob_either
blob-in-role blob_in_role
blob-issued blob_issued
blob-key blob_key
blob-made blob_made
blobAnswer blob_answer
blocks-determine blocks_determine
boxAt box_at
boxAt-alike box_at_alike
boxes-after boxes_after_lem
boxesAfter boxes_after
bytes-discrete bytes_discrete
causes-bytes causes_bytes
causes-terms causes_terms
chi-fits chi_fits
chiWord chi_word
chiWord-lt chi_word-lt
ciphertext-back ciphertext_back
code-tag code_tag_lem
codeTag code_tag
commandOf command_of
cond-alike cond_alike
counted-alike counted_alike
cut-16 cut_16
cxof-customized cxof_customized
cxofWords cxof_words
dec-map dec_map
decimal-all decimal_all
decimal-bad decimal_bad
decimal-more decimal_more
decimalDigit decimal_digit
decoded-bad decoded_bad
decoded-end decoded_end
decoded-pair decoded_pair
decrypt-none decrypt_none
decrypt-step decrypt_step
decrypted-more decrypted_more
derive-thrice derive_thrice
deriveThrice derive_thrice_commands
derived-apart derived_apart
derived-places derived_places
derivedSlot derived_slot
diffuse-fits diffuse_fits
digit-below digit_below
does-alike does_alike
doneAnswer done_answer
drawn-injective drawn_injective
drawn-once drawn_once
drawnSlot drawn_slot
drew-alike drew_alike
eight-at eight_at
eightBytes eight_bytes
either-on either_on
empties-more empties_more
empty-full empty_full
empty-more empty_more
encoded-none encoded_none
encoded-push encoded_push
encrypt-none encrypt_none
encrypt-step encrypt_step
encrypted-more encrypted_more
ends-in ends_in_lem
endsIn ends_in
fill-and-refill fill_and_refill
fillAndRefill fill_and_refill_commands
first-empty first_empty_lem
first-empty-full first_empty_full
first-empty-here first_empty_here
first-empty-none first_empty_none
first-same first_same
firstEmpty first_empty
firstPlaces first_places
following-none following_none
following-push following_push
forged-leaves forged_leaves
forged-stays forged_stays
fourBytes four_bytes
fresh-numbers fresh_numbers
full-held full_held
full-same full_same
generatedBy generated_by
generates-by generates_by
generates-drawn generates_drawn
generates-none generates_none
getD-noughts get_or_noughts
getD-pad get_or-pad
get_d_at get_or_at
gives-alike gives_alike
gives-public gives_public
hasRoom has_room
heardIn heard_in
hears-by hears_by
held-added held_added
held-derived held_derived
held-drawn held_drawn
houseKey house_key
houseSlot house_slot
in-role in_role_lem
inRole in_role
inRole-alike in_role_alike
initialized-fits initialized_fits
issuedBy issued_by
issues-alike issues_alike
issues-made issues_made
issues-none issues_none
issues-public issues_public
keeps-admitted keeps_admitted
keeps-answered keeps_answered
keeps-either keeps_either
keeps-issued keeps_issued
keeps-key keeps_key
keeps-opened keeps_opened
keeps-put keeps_put
keeps-refused keeps_refused
keeps-role keeps_role
keptIn kept_in
keyAnswer key_answer
keyNumbering key_numbering
knows-public knows_public
last-eight last_eight
last-make last_make
last-seal last_seal
last-wrap last_wrap
lastReply last_reply
lasts-bytes lasts_bytes
lasts-terms lasts_terms
leaves-under leaves_under
ledger-none ledger_none
ledger-step ledger_step
left-last left_last
left-length left_length
left-more left_more
length-is length_is
length-written length_written
lentText lent_text
lies-held lies_held
lies-stays lies_stays
line-by-line line_by_line
lines-first lines_first
looked-up looked_up
mark-with-marker mark_with_marker
mark-with-sealer mark_with_sealer
mem-getD mem-get_or
mem-set-same mem_set_same
messageOf message_of
mixIn mix_in
mixIn-fits mix_in_fits
mixOut mix_out
mixOut-fits mix_out_fits
never-twice never_twice
next-alike next_alike
nextStamp next_stamp
no-calls no_calls
no-data no_data
no-make-more no_make_more
no-room-before-used-up no_room_before_used_up
no-seal-more no_seal_more
no-wrap-more no_wrap_more
noBox no_box
not-shut not_shut
not-under-loaded not_under_loaded
not-under-shown not_under_shown
numbersOf numbers_of
on-key on_key
onFull on_full
onFull-alike on_full_alike
onSlot on_slot
one-role one_role
one-world one_world
open-under-another open_under_another
open-without-key open_without_key
opened-as opened_as
opened-by opened_by
openedCode opened_code
openedText opened_text
opens-alike opens_alike
opens-public opens_public
or-nought or_nought
output-more output_more
outputLength output_length
outputOf output_of
p12-fits p12_fits
p8-fits p8_fits
pad-apart pad_apart
pad-behind pad_behind
pad-determines pad_determines
pad-front pad_front
pad-mark pad_mark
padded-more padded_more
padded-none padded_none
padded-whole padded_whole
pairwise-empties pairwise_empties
pairwise-firstEmpty pairwise_first_empty
pairwise-getD pairwise_get_or
pairwise-length pairwise_length
pairwise-set pairwise_set
placeAnswer place_answer
placedIn placed_in
placesFrom places_from
playAlone play_alone
playAsks play_asks
power-more power_more
public-added public_added
public-on public_on
put-alike put_alike
put-padded put_padded
put-state put_state
putIn-alike put_in_alike
reachable-after reachable_after
read-place read_place
readTag read_tag
reads-back reads_back
reads-tag reads_tag
refilled-place refilled_place
refusal-back refusal_back
refusal-nonzero refusal_nonzero
refusal-numbers refusal_numbers
refusal-same refusal_same
refusalNumber refusal_number
refusalOf refusal_of
refused-alike refused_alike
refused-same-bytes refused_same_bytes
refused-same-terms refused_same_terms
refused-when refused_when
reply-is reply_is
role-discrete role_discrete
role-is role_is
role-number role_number_lem
roleFor role_for
roleOf role_of
roleTag role_tag
room-alike room_alike
round-fits round_fits
rounds-fits rounds_fits
same-is same_is
same-machine same_machine
same-x1 same_x1
sameRole same_role
seal-and-open seal_and_open
seal-public seal_public
sealed-issued sealed_issued
sealedText sealed_text
show-that-stays show_that_stays
slotFor slot_for
slots-empties slots_empties
slots-in slots_in_lem
slotsIn slots_in
some-data some_data
some-value some_value
spaced-none spaced_none
spaced-some spaced_some
squeeze-last squeeze_last
squeeze-more squeeze_more
stamp-discrete stamp_discrete
stampBytes stamp_bytes
stampFor stamp_for
stampNumbering stamp_numbering
stampOf stamp_of
stampsOf stamps_of
start-invariant start_invariant
stays-alike stays_alike
stays-before-used-up stays_before_used_up
stays-once stays_once
stays-so stays_so
stringOf string_of
tag-discrete tag_discrete
tagBytes tag_bytes
tagCode tag_code
tagFor tag_for
text-back text_back
two-halves two_halves
unsealed-is unsealed_is
unsealed-public unsealed_public
unsealed-some unsealed_some
unwrap-in-another unwrap_in_another
unwrap-under-another unwrap_under_another
unwrapped-as-it-was unwrapped_as_it_was
unwrapped-from-itself unwrapped_from_itself
unwrapped-held unwrapped_held
unwrapped-in-another unwrapped_in_another
unwrapped-is unwrapped_is
unwrapped-public unwrapped_public
unwrappedCode unwrapped_code
unwrappedKey unwrapped_key
usedWithLoaded used_with_loaded
whole-more whole_more
whole-none whole_none
withData with_data
withData-fits with_data_fits
withKey with_key
withKey-alike with_key_alike
word-determines word_determines
word-high word_high
word-noughts word_noughts
word-rate-high word_rate_high
words-determine words_determine
words-key words_key
words-some words_some
words-split words_split
worldAfter world_after
wrap-and-unwrap wrap_and_unwrap
wrap-in-itself wrap_in_itself
wrap-public wrap_public
wrap-under-house wrap_under_house
wrapAndUnwrap wrap_and_unwrap_commands
wrapInItself wrap_in_itself_commands
wrapped-issued wrapped_issued
wrappedInItself wrapped_in_itself
wrappedSealer wrapped_sealer
wrappedUnderHouse wrapped_under_house
write-pair write_pair
writes-back writes_back
xor-nought xor_nought
yes-holds yes_holds
"""

# names that are only given in clauses' imports, behind an 'as'
IN_CLAUSES = """
chiApplied chi_applied
chiOf chi_of
constantAdded constant_added
cxofOf cxof_of
emptyPlace empty_place
fullPlace full_place
hashOf hash_of
initialOf initial_of
keyAddedHigh key_added_high
keyAddedLow key_added_low
mixedIn mixed_in
mixedOut mixed_out
plainAlgebra plain_algebra
rateOf rate_of
roundsOf rounds_of
toDerive to_derive
toForget to_forget
toLoad to_load
toMake to_make
toMark to_mark
toOpen to_open
toSeal to_seal
toShow to_show
toUnwrap to_unwrap
toWrap to_wrap
wordAdded word_added
"""

# names that would fall together with others, in the files below this folder
IN_FOLDER = {
    "crates/ascon_cli/proofs": {"decimal_digit": "decimal_digit_lem"},
    "crates/ascon_cli/specs": {"result": "result_of"},
}

WORD_IN_PROOFS = re.compile(r"[^\s(){}\[\],;.]+")
WORD_IN_SOURCE = re.compile(r"(?<![\w'.])[A-Za-z][\w']*(?:-[a-z]+)*(?![\w'])")


def table(text):
    return dict(line.split() for line in text.strip().splitlines())


def in_proofs(text, names):
    """Names outside comments."""
    def line(l):
        code, dash, comment = re.match(r"((?:(?!--(?:\s|$)).)*)(.*)()", l, re.S).groups()
        return WORD_IN_PROOFS.sub(lambda m: names.get(m.group(), m.group()), code) + dash
    return "".join(map(line, text.splitlines(keepends=True)))


def in_source(text, names):
    """Names in imports and clauses; Rust's own are in snake case or are types, so none of them stands in the table."""
    return WORD_IN_SOURCE.sub(lambda m: names.get(m.group(), m.group()), text)


def main(argv):
    if argv:
        print(__doc__, file=sys.stderr if argv != ["--help"] else sys.stdout)
        return argv != ["--help"]
    names = table(NAMES)
    for folder, dirs, files in os.walk("crates"):
        dirs[:] = sorted(d for d in dirs if d != "out")
        here = dict(names)
        for top, more in IN_FOLDER.items():
            if folder == top or folder.startswith(top + "/"):
                here.update(more)
        for f in sorted(files):
            path = os.path.join(folder, f)
            if f.endswith(".antt"):
                turn = lambda t: in_proofs(t, here)
            elif f.endswith(".rt"):
                turn = lambda t: in_source(t, {**{k: v for k, v in names.items() if re.search("[A-Z]", k)}, **table(IN_CLAUSES)})
            else:
                continue
            with open(path, encoding="utf-8") as it:
                old = it.read()
            new = turn(old)
            if new != old:
                with open(path, "w", encoding="utf-8") as it:
                    it.write(new)
    return 0


if __name__ == "__main__":
    sys.exit(main(sys.argv[1:]))

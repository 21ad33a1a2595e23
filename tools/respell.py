#!/usr/bin/env python3
# SPDX-License-Identifier: Apache-2.0 AND BSD-3-Clause
"""Brings the repository's own definitions and lemmas to the kit's spelling: words in snake case, a dash only between two names.

usage: tools/respell.py [FOLDER]    once, right after the kit's port/port.py, at the top of the repository (or in FOLDER)

Each name of the table is turned, as a whole word, in crates/*/src, specs, proofs, must-fail and wrong. Names of functions, fields and exports of the
source keep their spelling, and so do the names that Rattle makes. It stops, and changes nothing, where two names of one file would fall together.
"""

import glob
import os
import re
import sys

TABLE = """
added-apart=added_apart added-free=added_free added-single=added_single addingCode=adding_code addingOf=adding_of after-agree=after_agree
after-done=after_done after-elsewhere=after_elsewhere after-hash=after_hash after-off=after_off after-refused=after_refused
after-unmapped=after_unmapped afterGuest=after_guest all-covered=all_covered all-off=all_off all-readable=all_readable allDigits=all_digits
and-false=and_false answered-fault=answered_fault answered-value=answered_value answeredOn=answered_on apart-free=apart_free apart-good=apart_good
apart-high=apart_high apart-row=apart_row apart-shares=apart_shares apart-single=apart_single apart-sym=apart_sym append-none=append_none
ask-agree=ask_agree ask-clashes=ask_clashes ask-elim=ask_elim ask-elsewhere=ask_elsewhere ask-entry=ask_entry ask-fault=ask_fault ask-heard=ask_heard
ask-idx=ask_idx ask-inside=ask_inside ask-length=ask_length ask-same=ask_same ask-unmapped=ask_unmapped ask-unwritten=ask_unwritten askAddr=ask_addr
askField=ask_field askMem=ask_mem askMem-agree=ask_mem_agree askMem-same=ask_mem_same askOf=ask_of askOff=ask_off askValue=ask_value askWord=ask_word
asked-told=asked_told askedAfter=asked_after at-end=at_end at-index=at_index avail-always=avail_always avail-step=avail_step availAt=avail_at
availEntryAddr=avail_entry_addr availEventAddr=avail_event_addr availIdxAddr=avail_idx_addr availRingSize=avail_ring_size availSet=avail_set
back-proper=back_proper backOf=back_of begin-agree=begin_agree begin-elim=begin_elim begin-far=begin_far begin-fault=begin_fault begin-full=begin_full
begin-index=begin_index begin-left=begin_left begin-no-ring=begin_no_ring begin-not-ready=begin_not_ready begin-on=begin_on begin-pass=begin_pass
begin-read=begin_read begin-same=begin_same begin-wraps=begin_wraps beginOf=begin_of begun-far=begun_far begun-fault=begun_fault begun-pass=begun_pass
begunOn=begun_on behind-less=behind_less behind-ration=behind_ration below-no=below_no below-yes=below_yes bitOut=bit_out bitOut-high=bit_out_high
bitsOut=bits_out bitsOut-high=bits_out_high bitsOut-low=bits_out_low blanks-first=blanks_first both-done=both_done both-no-first=both_no_first
both-no-second=both_no_second by-device=by_device by-guest=by_guest by-table=by_table byPut=by_put byQuestion=by_question byTake=by_take
byteTable=byte_table byteTable-length=byte_table-length bytes-agree=bytes_agree bytes-are=bytes_are bytes-back-run=bytes_back_run
bytes_drop=bytes-drop bytes_take=bytes-take call-rest=call_rest call-setting=call_setting can-no=can_no can-true=can_true can-yes=can_yes
canStore=can_store chain-sequence=chain_sequence chain-unfit=chain_unfit chainAt=chain_at chainIn=chain_in chainWords=chain_words
check-value=check_value code-steps=code_steps commandIn=command_in commandOf=command_of commandOf-nothing=command_of_nothing
commandOf-place=command_of_place commandsOf=commands_of commandsOf-past=commands_of_past counted-addrs=counted_addrs counted-flags=counted_flags
counted-lens=counted_lens counted-many=counted_many covered-all=covered_all covered-is=covered_is covered-run=covered_run covered-top=covered_top
crcByte=crc_byte crcEnd=crc_end crcOf=crc_of crcOf-steps=crc_of_steps crcOn=crc_on crcOn-append=crc_on-append crcOn-end=crc_on_end
crcOn-next=crc_on_next crcStart=crc_start cut-first=cut_first cut-indirect=cut_indirect cut-none=cut_none cut-past=cut_past desc-agree=desc_agree
desc-apart=desc_apart desc-back=desc_back desc-fields=desc_fields desc-is=desc_is descAddr=desc_addr descAt=desc_at descBytes=desc_bytes
descBytes-descOf=desc_bytes-desc_of descOf=desc_of descOf-descBytes=desc_of-desc_bytes descSet=desc_set descTableSize=desc_table_size
differ-assoc=differ_assoc differ-lt=differ_lt differs-no=differs_no differs-yes=differs_yes digit-first=digit_first digitOf=digit_of
digitOf-decimal=digit_of_decimal digitOf-lower=digit_of_lower digitOf-none=digit_of_none digitOf-upper=digit_of_upper direct-no=direct_no
direct-yes=direct_yes done-idx=done_idx done-mem=done_mem done-new=done_new done-old=done_old down-up=down_up driver-leaves=driver_leaves
each-new=each_new each-old=each_old either-case=either_case endBy=end_by ends-here=ends_here ends-later=ends_later ends-nothing=ends_nothing
entries-apart=entries_apart entry-index=entry_index entry-of=entry_of_lem entry-out=entry_out entry-stays=entry_stays entryAddr=entry_addr
entryRead=entry_read errorCode=error_code even-half=even_half event-there=event_there every-all=every_all every-begin=every_begin every-end=every_end
every-no=every_no every-on=every_on extent-high=extent_high extent-is=extent_is extent-low=extent_low fair-of=fair_of fault-empty=fault_empty
fault-none=fault_none fault-overlap=fault_overlap fault-slice=fault_slice fault-top=fault_top faultOf=fault_of fetch-agree=fetch_agree
fetch-back=fetch_back fetch-off=fetch_off fetch-run=fetch_run fetch-same=fetch_same fetch-single=fetch_single fetch-snoc=fetch_snoc
fetched-all=fetched_all fetched-next=fetched_next few-question=few_question few-steps=few_steps few-stop=few_stop fieldAddr=field_addr
fieldBytes=field_bytes fieldSize=field_size fields-part=fields_part filtered-agree=filtered_agree filtered-apart=filtered_apart
filtered-end=filtered_end filtered-falls=filtered_falls filtered-found=filtered_found filtered-on=filtered_on filtered-skip=filtered_skip
filtered-yields=filtered_yields filtered-yields-to=filtered_yields_to filteredOf=filtered_of first-added=first_added first-here=first_here
first-later=first_later first-name=first_name firstWord-at=first_word_at firstWord-past=first_word_past fits-flags=fits_flags fitsChain=fits_chain
fitsIn=fits_in fitting-large=fitting_large fitting-not=fitting_not fitting-small=fitting_small fitting-value=fitting_value flags-fit=flags_fit
flags-keep=flags_keep flags-last=flags_last flags-more=flags_more flags-next=flags_next flagsAddr=flags_addr fourth-head=fourth_head
free-fits=free_fits free-here=free_here free-next=free_next free-nil=free_nil freeIn=free_in freeOf=free_of fresh-is=fresh_is
fresh-proper=fresh_proper getD-inside=get_or_inside getD-sets-behind=get_or-sets_behind get_d_part=get_or-part get_d_sets_before=get_or-sets_before
goesOn=goes_on goesOn-digit=goes_on_digit goesOn-end=goes_on_end goesOn-large=goes_on_large goesOn-none=goes_on_none goesOn-value=goes_on_value
going-full=going_full good-is=good_is good-one=good_one good-other=good_other good-power=good_power goodSize=good_size grew-is=grew_is
grown-added=grown_added grown-full=grown_full grown-idx=grown_idx grown-is=grown_is grown-refused=grown_refused guest-clash=guest_clash
half-power=half_power hasIn=has_in hasIn'=has_in' hasNext=has_next hash-first=hash_first hash-in-word=hash_in_word haveIn=have_in
head-agree=head_agree head-elim=head_elim head-end=head_end head-no-place=head_no_place head-on=head_on head-proper=head_proper head-same=head_same
heads-left=heads_left heard-fault=heard_fault heard-value=heard_value heardOn=heard_on held-chain=held_chain held-short=held_short
held-unfit=held_unfit hidden-from=hidden_from holds-room=holds_room holds-top=holds_top idxAddr=idx_addr idxRead=idx_read ifAdded=if_added
in-new=in_new in-old=in_old in-word=in_word inFree=in_free inImage=in_image is-good=is_good is-modulo=is_modulo is-sub16=is_sub16 isDone=is_done
isIndirect=is_indirect isPower=is_power isPower-iff=is_power_iff isPower-power=is_power_power isWriteOnly=is_write_only keptChain=kept_chain
kindOf-blank=kind_of_blank kindOf-comment=kind_of_comment kindOf-letter=kind_of_letter lastKnown=last_known lastSince=last_since
lawful-begins=lawful_begins lawful-device=lawful_device lawful-filtered=lawful_filtered lawful-guest=lawful_guest lawful-reached=lawful_reached
lawful-walk=lawful_walk lawful-yields=lawful_yields lay-count=lay_count lay-counted=lay_counted lay-indirect=lay_indirect lay-long=lay_long
lay-place=lay_place lay-refused=lay_refused lay-same=lay_same lay-unmapped=lay_unmapped layOf=lay_of left-all=left_all left-enough=left_enough
left-next=left_next left-no-steps=left_no_steps left-none=left_none left-nothing=left_nothing left-short=left_short left-start=left_start
left-top=left_top length-always=length_always length-bytesAt=length-bytes_at length_part=length-part link-last=link_last link-len=link_len
link-more=link_more link-next=link_next link-place=link_place linkFlags=link_flags links-chain=links_chain linksFrom=links_from load-good=load_good
load-short=load_short load-unfit=load_unfit longer-word=longer_word looked-short=looked_short lookedOf=looked_of looks-short=looks_short
made-ask=made_ask made-back=made_back made-begin=made_begin made-head=made_head made-next-avail=made_next_avail made-next-used=made_next_used
made-pop=made_pop made-put=made_put made-question=made_question made-reset=made_reset made-set=made_set made-stop=made_stop made-valid=made_valid
madeOn=made_on mapped-all=mapped_all mapped-apart=mapped_apart mapped-distinct=mapped_distinct mapped-off=mapped_off maps-room=maps_room
maps-spot=maps_spot maps-top=maps_top mapsIn=maps_in mapsIn'=maps_in' mark-alone=mark_alone marked-not=marked_not marked-short=marked_short
mask-power=mask_power maxQueueSize=max_queue_size modulo-lt=modulo_lt moreIn=more_in moved-entry=moved_entry namesIn=names_in
namesIn-first=names_in_first new-elim=new_elim new-made=new_made new-proper=new_proper new-refused=new_refused new-rows=new_rows new-takes=new_takes
newOf=new_of next-apart=next_apart next-available=next_available next-is=next_is next-reached=next_reached next-used=next_used_lem
next-used-run=next_used_run nextEntry=next_entry nextPut=next_put nextTake=next_take no-fifth-head=no_fifth_head no-idx'=no_idx'
none-covered=none_covered noneIn=none_in not-empty=not_empty not-letter=not_letter noteAvail=note_avail noteQuery=note_query noteUsed=note_used
nothing-else=nothing_else notification-off=notification_off notification-wraps=notification_wraps number-two=number_two
numberOf-decimal=number_of_decimal numberOf-hexadecimal=number_of_hexadecimal numberOf-nothing=number_of_nothing number_append=number-append
numbered-proper=numbered_proper numeral-none=numeral_none numeral-some=numeral_some odd-half=odd_half of-answered=of_answered of-asked=of_asked
of-begun=of_begun of-configured=of_configured of-placed=of_placed of-stopped=of_stopped of-taken=of_taken on-ask=on_ask on-field=on_field
on-put=on_put on-question=on_question on-stop=on_stop on-took=on_took onAnswered=on_answered onAsked=on_asked onBegun=on_begun
onConfigured=on_configured onFields=on_fields onFound=on_found onFree=on_free onHeld=on_held onLoaded=on_loaded onPlaced=on_placed onStep=on_step
onStopped=on_stopped onTaken=on_taken onTaking=on_taking one-back=one_back one-good=one_good one-taken=one_taken oneIn=one_in onePlace=one_place
other-off=other_off outside-agrees=outside_agrees outside-next=outside_next pairBytes=pair_bytes pairs-put=pairs_put part-all=part_all
part-sets-apart=part-sets_apart part-sets-in=part-sets_in pass-ends=pass_ends passed-all=passed_all passed-le=passed_le passed-mono=passed_mono
passed-more=passed_more passedIn=passed_in past-covered=past_covered pick-agree=pick_agree pick-elim=pick_elim place-later=place_later
place-lost=place_lost place-mask=place_mask place-past=place_past place-power=place_power place-some=place_some place-zero=place_zero
placeOf-here=place_of_here placeOf-later=place_of_later placed-done=placed_done placed-refused=placed_refused pop-agree=pop_agree pop-begun=pop_begun
pop-elim=pop_elim pop-proper=pop_proper pop-refused=pop_refused pop-same=pop_same popOn=pop_on popped-elim=popped_elim positionSet=position_set
pow-split=pow_split power-isPower=power_is_power power-mask=power_mask power-some=power_some power-test=power_test powerTo=power_to
powerTo-is=power_to_is powerTo-of=power_to_of proper-always=proper_always put-agree=put_agree put-beyond=put_beyond put-clashes=put_clashes
put-done=put_done put-elim=put_elim put-elsewhere=put_elsewhere put-entry=put_entry put-fault=put_fault put-idx=put_idx
put-idx-refused=put_idx_refused put-inside=put_inside put-others=put_others put-proper=put_proper put-stands=put_stands put-unmapped=put_unmapped
putAsked=put_asked putMem=put_mem putMem-agree=put_mem_agree putMem-same=put_mem_same putThenAnswered=put_then_answered queries-always=queries_always
query-step=query_step question-agree=question_agree question-elim=question_elim question-iff=question_iff question-is=question_is
question-keeps=question_keeps question-off=question_off question-off-yes=question_off_yes question-on=question_on question-proper=question_proper
question-read=question_read question-same=question_same question-seven=question_seven question-six=question_six question-wraps=question_wraps
questionOf=question_of queueIn=queue_in queueOf=queue_of reached-proper=reached_proper reached-run=reached_run read-there=read_there
read16-agree=read16_agree read16-is=read16_is read16-refused=read16_refused read16-run=read16_run read16-slow=read16_slow read16Of=read16_of
read2-agree=read2_agree read2-is=read2_is read2-refused=read2_refused read2-run=read2_run read2-same=read2_same read2-slow=read2_slow read2Of=read2_of
readable-all=readable_all readable-is=readable_is readable-past=readable_past readable-run=readable_run readable-top=readable_top
reads-index=reads_index reads-ration=reads_ration refused-same=refused_same region-good=region_good reset-is=reset_is reset-proper=reset_proper
resetOf=reset_of ring-rest=ring_rest ring-step=ring_step ring-zero=ring_zero ringCallOf=ring_call_of room-both=room_both room-is=room_is
room-no-entry=room_no_entry room-no-idx=room_no_idx room-there=room_there roomIn=room_in run-from=run_from run-known=run_known run-reached=run_reached
same-answers=same_answers same-idx=same_idx same-world=same_world sameBytes=same_bytes sameBytes-equal=same_bytes_equal sameBytes-no=same_bytes_no
sameBytes-self=same_bytes_self sameBytes-yes=same_bytes_yes seated-run=seated_run seek-agree=seek_agree seek-apart=seek_apart seek-enough=seek_enough
seek-falls=seek_falls seek-none=seek_none sequence-found=sequence_found sequence-none=sequence_none set-agree=set_agree set-of=set_of_lem
set-position-none=set_position_none set-position-told=set_position_told set-proper=set_proper setAvailRing-elim=set_avail_ring_elim
setAvailRing-keeps=set_avail_ring_keeps setAvailRing-proper=set_avail_ring_proper setAvailRing-refused=set_avail_ring_refused
setAvailRing-set=set_avail_ring_set setAvailRingOf=set_avail_ring_of setDescTable-elim=set_desc_table_elim setDescTable-keeps=set_desc_table_keeps
setDescTable-proper=set_desc_table_proper setDescTable-refused=set_desc_table_refused setDescTable-set=set_desc_table_set
setDescTableOf=set_desc_table_of setEventIdx-proper=set_event_idx_proper setNextAvail-proper=set_next_avail_proper
setNextUsed-proper=set_next_used_proper setOf=set_of setReady-proper=set_ready_proper setSize-elim=set_size_elim setSize-keeps=set_size_keeps
setSize-proper=set_size_proper setSize-refused=set_size_refused setSize-set=set_size_set setSize-takes=set_size_takes setSizeOf=set_size_of
setUsedRing-elim=set_used_ring_elim setUsedRing-keeps=set_used_ring_keeps setUsedRing-proper=set_used_ring_proper
setUsedRing-refused=set_used_ring_refused setUsedRing-set=set_used_ring_set setUsedRingOf=set_used_ring_of sets-comm=sets_comm sets-fields=sets_fields
setting-rest=setting_rest settled-now=settled_now settled-short=settled_short shares-all=shares_all shares-high=shares_high shares-low=shares_low
shares-nil=shares_nil shares-row=shares_row sharesIn=shares_in sharesR=shares_r sided-all=sided_all sided-away=sided_away sided-split=sided_split
sinceNumber=since_number single-one=single_one skipped-here=skipped_here skipped-next=skipped_next skipped-start=skipped_start slice-clash=slice_clash
sought-end=sought_end sought-found=sought_found sought-on=sought_on spared-first=spared_first spared-further=spared_further
spared-reached=spared_reached spared-rest=spared_rest spot-below=spot_below spot-found=spot_found spot-maps=spot_maps spot-room=spot_room
spot-top=spot_top spots-mapped=spots_mapped spots-none=spots_none spots-run=spots_run spots-snoc=spots_snoc start-proper=start_proper startOn=start_on
stays-large=stays_large step-agree=step_agree step-apart=step_apart step-found=step_found step-index=step_index step-proper=step_proper
step-ration=step_ration step-read=step_read step-took=step_took step-writes=step_writes stepArray=step_array stepMem=step_mem stepped-is=stepped_is
stop-agree=stop_agree stop-elim=stop_elim stop-elsewhere=stop_elsewhere stop-entry=stop_entry stop-fault=stop_fault stop-idx=stop_idx
stop-inside=stop_inside stop-length=stop_length stop-on=stop_on stop-refused=stop_refused stop-same=stop_same stop-unmapped=stop_unmapped
stop-written=stop_written stopMem=stop_mem stopMem'=stop_mem' stopMem-agree=stop_mem_agree stopMem-same=stop_mem_same stopOf=stop_of
store-agree=store_agree store-off=store_off store-run=store_run store-snoc=store_snoc stored-all=stored_all stored-apart=stored_apart
stored-begin=stored_begin stored-end=stored_end stretch-all=stretch_all stretch-maps=stretch_maps stretch-nil=stretch_nil stretch-row=stretch_row
stretchIn=stretch_in stretchOf=stretch_of stretchR=stretch_r stretchR-above=stretch_r_above stretchR-below=stretch_r_below stretchR-in=stretch_r_in
stretchR-inv=stretch_r_inv stretchR-out=stretch_r_out sub16-lt=sub16_lt sum-links=sum_links sumFits=sum_fits sumMax=sum_max sums-begin=sums_begin
sums-end=sums_end sums-past=sums_past table-spared=table_spared tableWith=table_with tabled-at=tabled_at take-elim=take_elim take-no-room=take_no_room
takeOn=take_on take_on=take_on_lem taken-head=taken_head_lem taken-in-order=taken_in_order taken-indirect=taken_indirect taken-last=taken_last
taken-on=taken_on_lem taken-past=taken_past takenHead=taken_head takenOn=taken_on takenReply=taken_reply tells-iff=tells_iff tells-wraps=tells_wraps
textBytes=text_bytes third-head=third_head tick-le=tick_le tick-mono=tick_mono took-step=took_step triples-more=triples_more twoPuts=two_puts
up-all=up_all up-sum=up_sum upper-case-mark=upper_case_mark used-always=used_always usedAt=used_at usedBytes=used_bytes usedEntryAddr=used_entry_addr
usedEventAddr=used_event_addr usedEventRead=used_event_read usedFlagsAddr=used_flags_addr usedIdxAddr=used_idx_addr usedRingSize=used_ring_size
usedSet=used_set valid-agree=valid_agree valid-iff=valid_iff valid-no-avail=valid_no_avail valid-no-table=valid_no_table
valid-not-ready=valid_not_ready valid-used=valid_used walk-agree=walk_agree walk-agree-to=walk_agree_to walk-apart=walk_apart
walk-apart-to=walk_apart_to walk-cut=walk_cut walk-cut-to=walk_cut_to walk-enough=walk_enough walk-full=walk_full walk-next=walk_next
walk-over=walk_over walk-short=walk_short walk-yields=walk_yields walk-yields-to=walk_yields_to walkArray=walk_array walkOf-short=walk_of_short
wentCode=went_code wentStep=went_step wentWalk=went_walk whole-name=whole_name withAdded=with_added withAvailRing=with_avail_ring
withDescTable=with_desc_table withEntry=with_entry withEventIdx=with_event_idx withFields=with_fields withIdx=with_idx withNextAvail=with_next_avail
withNextUsed=with_next_used withReady=with_ready withSize=with_size withUsedRing=with_used_ring word-entry=word_entry word-idx=word_idx
wordBytes-empty=word_bytes_empty wordBytes-part=word_bytes-part wordBytes-past=word_bytes_past wordEnd=word_end wordEnd-at=word_end_at
wordEnd-past=word_end_past wordFrom=word_from wordFrom-none=word_from_none wordFrom-word=word_from_word worked-full=worked_full
worked-itself=worked_itself worked-past=worked_past worked-written=worked_written wraps-at=wraps_at wraps-reached=wraps_reached
writable-all=writable_all writable-is=writable_is writable-past=writable_past writable-run=writable_run writable-top=writable_top
writes-always=writes_always wrote-length=wrote_length wrote-refused=wrote_refused wrote-run=wrote_run wrote-slow=wrote_slow xor-half=xor_half
xor-left-comm=xor_left_comm xor-odd=xor_odd yesNo=yes_no yields-one=yields_one yields-reads=yields_reads yields-same=yields_same
"""

WORD = re.compile(r"(?<![A-Za-z0-9_'·-])[A-Za-z_][A-Za-z0-9_]*'*(?:-[A-Za-z0-9_]+'*)*(?![A-Za-z0-9_'·])")
# a clause, an import or a ghost item of a source file; the rest is code, which keeps its names
GHOST = re.compile(r"^\s*(ghost |requires|ensures)")


def files(top):
    for part in ("src/**/*.rt", "specs/**/*.antt", "proofs/**/*.antt", "must-fail/*.edit", "wrong/*.edit"):
        yield from sorted(glob.glob(os.path.join(top, "crates/*", part), recursive=True))


def turned(path, text, names):
    def word(found):
        return names.get(found.group(0), found.group(0))

    if path.endswith(".antt"):
        return WORD.sub(word, text)
    lines = []
    clause = False
    for line in text.split("\n"):
        if path.endswith(".rt"):
            clause = bool(GHOST.match(line)) or clause and line.strip() != "{" and not line.startswith(("pub fn", "fn"))
            lines.append(WORD.sub(word, line) if clause else line)
            if line.startswith("ghost use") and line.rstrip().endswith(";"):
                clause = False
        else:
            lines.append(WORD.sub(word, line) if "specs/" in text else line)
    return "\n".join(lines)


def main():
    top = sys.argv[1] if len(sys.argv) > 1 else "."
    names = dict(row.split("=") for row in TABLE.split())
    done, together = {}, []
    for path in files(top):
        with open(path, encoding="utf-8") as f:
            text = f.read()
        new = turned(path, text, names)
        # functions of the source and what mirrors them may share a name: they are never spelled in one place
        if path.endswith(".antt"):
            before = set(WORD.findall(re.sub(r"--.*|(?<=\.)[\w'-]+(?=\.)", "", text)))
            same = sorted(b for b in before if names.get(b) in before and names[b] not in names)
            if same:
                together.append("%s: %s" % (path, same))
        if new != text:
            done[path] = new
    if together:
        sys.exit("respell: names fall together:\n" + "\n".join(together))
    for path, new in done.items():
        with open(path, "w", encoding="utf-8") as f:
            f.write(new)
    print("respell: %d names, %d files" % (len(names), len(done)))


main()

#!/usr/bin/env python3
"""Brings the repository's own definitions and lemmas to the spelling of the installed Rattle: words in snake case, types and facts in camel case.

usage: python3 tools/respell.py [FOLDER]     once, after the kit's port.py

It goes by whole names, from the table below. A name that a function, field or variable of src/ already has gets the ending _lem.
Strings stay as they are, and so does prose: in comments and pages only names that no prose has are turned.
"""

import os
import re
import sys

TABLE = """
A-trade-moves ATradeMoves
Account-known AccountKnown
Account-shown AccountShown
Accounts-come-out AccountsComeOut
Accounts-stay-within AccountsStayWithin
Always-sound AlwaysSound
Always-within AlwaysWithin
Answers-tell AnswersTell
Average-laws AverageLaws
Bad-line BadLine
Bid-law BidLaw
Bids-are-right BidsAreRight
Bids-refused-by BidsRefusedBy
Block-refused BlockRefused
Calls-keep-sound CallsKeepSound
Cancels-take-own CancelsTakeOwn
Comes-out ComesOut
Corporate-law CorporateLaw
Deposits-add DepositsAdd
Each-covered EachCovered
Ends-release-all EndsReleaseAll
Entire-is-whole EntireIsWhole
Entire-or-none EntireOrNone
Events-agree EventsAgree
Every-call-is-decided EveryCallIsDecided
Every-run EveryRun
Every-script-agrees EveryScriptAgrees
Fair-opening FairOpening
Figures-hold FiguresHold
Floors-give-all-back FloorsGiveAllBack
Given-back GivenBack
Goes_on GoesOn
Going-on GoingOn
Government-law GovernmentLaw
In-order InOrder
Law-of LawOf
Lines-are-read-back LinesAreReadBack
Looks-are-right LooksAreRight
Made-floors-are-sound MadeFloorsAreSound
Matching-is-right MatchingIsRight
Meets-sells MeetsSells
Moved-by-trades MovedByTrades
Movements-are-granted MovementsAreGranted
Movements-name-accounts MovementsNameAccounts
Nothing-blocked-after-an-end NothingBlockedAfterAnEnd
Nothing-stands NothingStands
Numbers-apart NumbersApart
Numbers-in-order NumbersInOrder
Numbers-rise NumbersRise
Obligation-law ObligationLaw
Of-accounts OfAccounts
Only-trades-move OnlyTradesMove
Opened-all OpenedAll
Opened-fairly OpenedFairly
Opened-well OpenedWell
Opening-clears OpeningClears
Opening-price-is-best OpeningPriceIsBest
Others-refused OthersRefused
Price-then-time PriceThenTime
Queues-stay-ranked QueuesStayRanked
Ranked-queues RankedQueues
Rankings-are-lawful RankingsAreLawful
Reading-shows ReadingShows
Ready-to-open ReadyToOpen
Refusals-alter-nothing RefusalsAlterNothing
Refusals-are-true RefusalsAreTrue
Refused-changes-nothing RefusedChangesNothing
Rounded-down RoundedDown
Sound-floor SoundFloor
Stays-ranked StaysRanked
Strips-suffice StripsSuffice
Sums-fit SumsFit
Sums-held SumsHeld
Sums-within SumsWithin
Taken-out TakenOut
Tickers-rise TickersRise
Totals-bounded TotalsAreBounded
Totals-change-by-deposits-and-withdrawals TotalsChangeByDepositsAndWithdrawals
Totals-kept TotalsKept
Withdrawals-take WithdrawalsTake
Within-limits WithinLimits
accountBefore account_before
accountIn account_in
accountOf account_of
accountText account_text
accountsText accounts_text
afterCommand after_command
afterLine after_line
afterMove after_move
afterParsed after_parsed
afterTrade after_trade
all-else all_else
all-from-insertRanked all-from-insert_ranked
all-given all_given
all-insertRanked all-insert_ranked
all-keptAs all-kept_as
all-stands all_stands
allFreed all_freed
allOwing all_owing
allowedIn allowed_in
amountAfter amount_after
answerLine answer_line_lem
answers-behind answers_behind
answersOf answers_of
asLent as_lent
asStanding as_standing
assetBy asset_by
assetKnown asset_known
assetOf asset_of_lem
averageLine average_line_lem
averageOf average_of
averageOfBoth average_of_both
averagePrice average_price_lem
averageText average_text
bad-form bad_form
bad-lots bad_lots
bad-price bad_price
balanceAt balance_at
balanceIn balance_in
balanceOf balance_of
bestAmong best_among_lem
bestFrom best_from
bestOf best_of
bestPrice best_price_lem
bestTold best_told
betterOf better_of_lem
betterThan better_than
beyondLimits beyond_limits_lem
bidMoves bid_moves
bidNumbers bid_numbers
bidOf bid_of
bidRoom bid_room
bidSheet bid_sheet
bidTrades bid_trades
blankSheet blank_sheet
blockFault block_fault
blockedBy blocked_by
bookAfter book_after
bringsOrTakes brings_or_takes
buys-conserved buys_conserved
buys-few buys_few
buys-lots buys_lots
buys-order buys_order
buys-ranked buys_ranked
buys-served buys_served
buys-whole buys_whole
buysFrom buys_from
buysOf buys_of
by-lower by_lower
by-upper by_upper
byNumber by_number
byPrice by_price
byRegister by_register
byRule by_rule
bySession by_session
callCount call_count
callLine call_line_lem
callText call_text_lem
cancelMoves cancel_moves
cancelOf cancel_of
cancelSheet cancel_sheet
cancelledLots cancelled_lots
candidateAt candidate_at
capFor cap_for
cashOf cash_of
causeNumber cause_number
causeOf cause_of
causeText cause_text_lem
commandIn command_in
commandOf command_of
commandText command_text
commandWords command_words
completeDue complete_due
costOf cost_of
dayCall day_call_lem
dayVerb day_verb_lem
dealMoves deal_moves
dealOf deal_of
dealWith deal_with
dealsOf deals_of
doneText done_text_lem
emptyBook empty_book
encounterBy encounter_by
endedBy ended_by
enteredSheet entered_sheet
enteringMoves entering_moves
entireBuy entire_buy
entireOf entire_of
entryLine entry_line_lem
entryNamed entry_named
errorLine error_line_lem
eventOf event_of
exchangeBy exchange_by
faultLine fault_line_lem
faultOf fault_of_lem
faultText fault_text_lem
fillWord fill_word
firstDeal first_deal
firstEntry first_entry
firstEntry-at first_entry-at
firstEntry-insert-new first_entry-insert-new
firstEntry-insert-other first_entry-insert-other
firstEntry-none first_entry-none
firstEntry-once first_entry-once
firstEntry-removed-once first_entry-removed-once
firstEntry-removed-other first_entry-removed-other
firstEntry-set-once first_entry-set-once
firstEntry-set-other first_entry-set-other
firstFailing first_failing
firstPlace first_place
floorNumber floor_number
floorText floor_text_lem
foreseenOn foreseen_on
formChecks form_checks
formTaken form_taken
freedFrom freed_from
freeingBy freeing_by
fullDay full_day
handedBack handed_back
hasAverage has_average_lem
hasHolder has_holder_lem
hasPlace has_place_lem
heldIn held_in
heldTo held_to
hit-new hit_new
holder-ticker holder_ticker
holderCall holder_call_lem
holderIn holder_in
holderKnown holder_known_lem
holderText holder_text
holderVerb holder_verb_lem
in-queue in_queue
inClass in_class
inFront in_front
insertRanked insert_ranked
insertRanked-last insert_ranked-last
insertRanked-perm insert_ranked-perm
insertRanked-ranked insert_ranked-ranked
insertRanked-tested insert_ranked-tested
is-paid is_paid
isBid is_bid_lem
isClosed is_closed
isFilled is_filled
isKnown is_known_lem
isLots is_lots_lem
isPostTrading is_post_trading
isPreTrading is_pre_trading
isPrice is_price_lem
isPriceOrNone is_price_or_none_lem
isQuestion is_question_lem
isRanked is_ranked
isStanding is_standing
isTrading is_trading
isTransfer is_transfer
keepOf keep_of
keptAs kept_as
lawfulAmount lawful_amount
leadsTo leads_to
left-steps left_steps
length-insertRanked length-insert_ranked
lentFrom lent_from
lessNamed less_named
limit-price limit_price
limitOf limit_of
lineAnswered line_answered
lineText line_text_lem
listBook list_book
listedText listed_text
lookAccount look_account
lookAverage look_average
lookQueue look_queue
lookVerb look_verb_lem
lotAt lot_at
lotsEach lots_each
lotsOf lots_of
lotsTaken lots_taken
lotsWhere lots_where
lowerTag lower_tag
marketFigures market_figures
metBy met_by
mineOf mine_of
mixedTens mixed_tens
moneyOf money_of
mostAmount most_amount
mostLots most_lots
mostNumbers most_numbers
mostPrice most_price
movedAll moved_all
movementOf movement_of
movesAt moves_at
movesMade moves_made
namedTimes named_times
nearBest near_best_lem
newDay new_day
newcomerOf newcomer_of
nextDeal next_deal
nextNumber next_number
no-account no_account
no-average no_average
no-currency no_currency
no-queue no_queue
no-settlement no_settlement
noColon no_colon
noEntry no_entry
noHash no_hash
noListing no_listing
noOptions no_options_lem
noQuote no_quote
not-admitted not_admitted
not-blocked not_blocked
not-closed not_closed
not-deposited not_deposited
not-post-trading not_post_trading
not-pre-trading not_pre_trading
not-standing not_standing
not-that-pass not_that_pass
not-trading not_trading
not-whole not_whole
not-withdrawn not_withdrawn
nothingBlocked nothing_blocked
numbersIn numbers_in
numbersOf numbers_of
obligationNumber obligation_number
obligationOf obligation_of
of-buys of_buys
of-sells of_sells
ofTicker of_ticker
off-best off_best
off-settlement off_settlement
onBid on_bid
onlyAs only_as
openMoves open_moves
openSheet open_sheet
openTrades open_trades
openedAt opened_at
openedBelow opened_below
openedWith opened_with
openingAt opening_at
openingAtPrice opening_at_price
openingOf opening_of
openingPrice opening_price_lem
openingRoom opening_room
openingWorld opening_world
optionOf option_of
orNext or_next
orSell or_sell
other-side other_side
other-tickers other_tickers
over-lower over_lower
over-neither over_neither
over-upper over_upper
owedBy owed_by
owedIn owed_in
pairDeal pair_deal
pairwise-insertRanked pairwise-insert_ranked
parsedText parsed_text
part-sumTo part-sum_to
passWord pass_word
permSymm perm_symm
placeNamed place_named_lem
placeText place_text_lem
post-trading post_trading
pre-trading pre_trading
priceIn price_in
priceOf price_of_lem
priceWord price_word
pricesOf prices_of
questionOf question_of
queueAfter queue_after
queueOf queue_of
queuePlaces queue_places
queueText queue_text
quoteOf quote_of
quoteWord quote_word
rankedIn ranked_in
reachesAt reaches_at
readText read_text
receiptLine receipt_line_lem
recordOf record_of
reducedBy reduced_by
refusalNumber refusal_number
registerOf register_of_lem
registerText register_text_lem
replyText reply_text
restWord rest_word
room-enough room_enough
roomOf room_of_lem
ruleOf rule_of_lem
ruleText rule_text_lem
runsIn runs_in
sameSide same_side
sameWord same_word
secondDay second_day
sells-conserved sells_conserved
sells-few sells_few
sells-lots sells_lots
sells-order sells_order
sells-ranked sells_ranked
sells-served sells_served
sells-whole sells_whole
sessionLine session_line_lem
sessionOf session_of
sessionText session_text_lem
settlementOf settlement_of
sheet-is sheet_is
sheetBy sheet_by
sheetFreed sheet_freed
sheetLess sheet_less
sheetNamed sheet_named
sheetOf sheet_of
sheetOwing sheet_owing
sheetWith sheet_with
sheetsOf sheets_of
shellFigures shell_figures
short-strip short_strip
shorter-strip shorter_strip
sideWord side_word
slipFor slip_for
spentOn spent_on
standingLine standing_line_lem
standingLots standing_lots
standingOf standing_of
standingPrices standing_prices
standsAs stands_as
sumBy-insertRanked sum_by-insert_ranked
sumBy-perm sum_by-perm
sumBy-removed sum_by-removed
sumTo-at sum_to-at
sumTo-balance sum_to-balance
sumTo-more sum_to-more
sumTo-none sum_to-none
sumTo-one sum_to-one
sumTo-same sum_to-same
sumTo-within sum_to-within
sumsIn sums_in
sumsOfTrades sums_of_trades
tableBook table_book
takeAccount take_account_lem
takeForm take_form_lem
takeNumber take_number_lem
takePlace take_place_lem
takeQuotes take_quotes_lem
takeTerms take_terms_lem
takenApart taken_apart
tallyIn tally_in
tape-behind tape_behind
theirsOf theirs_of
tickerKnown ticker_known
tickerOf ticker_of
tiePlace tie_place
timesIn times_in
timesOn times_on
toBlock to_block
toldEach told_each
tradeIn trade_in
tradeLine trade_line_lem
tradeOf trade_of
tradedBy traded_by
tradedBy-append traded_by-append
tradedBy-one traded_by-one
tradedOn traded_on
tradesAt trades_at
tradesIn trades_in
tradesMade trades_made
tradesOf trades_of
unknown-there unknown_there
unlessBuy unless_buy
upperTag upper_tag
usedBy used_by
usedOf used_of
validListing valid_listing
validQuote valid_quote
verbOf verb_of_lem
verdictNumber verdict_number
voidMoves void_moves
voidSheet void_sheet
volumeOf volume_of
wholeOrNone whole_or_none
why-so why_so
withBalance with_balance
withBook with_book
withDue with_due
withLots with_lots
withSheet with_sheet
withWord with_word_lem
withinLimits within_limits
worldOf world_of
wrong-pass wrong_pass
"""

# what port.py wrote for the library's two relations on lists
EXACT = [("Memᴰ as List-as-Memᴰ", "Memᴰ"), ("Permᴰ as List-as-Permᴰ", "Permᴰ"), ("List-as-Memᴰ", "Memᴰ"), ("List-as-Permᴰ", "Permᴰ")]

NAMES = dict(line.split() for line in TABLE.split("\n") if line)
# names with a dash between small letters can be prose
SAFE = {a: b for a, b in NAMES.items() if re.search(r"[A-Z]", a)}
WORD = re.compile(r"[^\s(){}\[\];.,:«»\"`λ@|⊢]+")


def turned(text, names):
    return WORD.sub(lambda m: names.get(m.group(), m.group()), text)


def code_of_antt(line):
    at = re.search(r"(?:^|\s)--(?:\s|$)", line)
    cut = at.start() if at else len(line)
    parts = re.split(r'("[^"]*")', line[:cut])
    return "".join(it if it.startswith('"') else turned(it, NAMES) for it in parts) + turned(line[cut:], SAFE)


RUST = re.compile(r"(?P<comment>//.*)|(?P<text>b?\"(?:[^\"\\\n]|\\.)*\")|(?P<char>b?'(?:[^'\\\n]|\\.)')")


def code_of_rust(line):
    out, at = "", 0
    for m in RUST.finditer(line):
        out += turned(line[at : m.start()], NAMES)
        out += turned(m.group(), SAFE) if m.group("comment") else m.group()
        at = m.end()
    return out + turned(line[at:], NAMES)


def page(line):
    return re.sub(r"`[^`]*`", lambda m: turned(m.group(), NAMES), line)


def exact(text):
    for a, b in EXACT:
        text = text.replace(a, b)
    return text


def kinds(path):
    if path.endswith(".antt"):
        return code_of_antt
    if path.endswith((".rt", ".edit")):
        return code_of_rust
    if path.endswith(".md"):
        return page
    if os.path.basename(path) == "mutate.py":
        return lambda line: turned(line, SAFE)
    return None


def main(root):
    for top in ("crates", "docs", "tests", "README.md"):
        start = os.path.join(root, top)
        paths = [start] if os.path.isfile(start) else [os.path.join(d, f) for d, _, fs in os.walk(start) if "out" not in d.split(os.sep) for f in fs]
        for path in sorted(paths):
            turn = kinds(path)
            if not turn:
                continue
            with open(path, encoding="utf-8") as f:
                before = f.read()
            after = exact("".join(turn(line) for line in before.splitlines(keepends=True)))
            if after != before:
                with open(path, "w", encoding="utf-8") as f:
                    f.write(after)


if __name__ == "__main__":
    main(sys.argv[1] if len(sys.argv) > 1 else ".")

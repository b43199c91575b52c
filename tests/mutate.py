#!/usr/bin/env python3
"""Turns the meaning of one definition of the market at a time, in a copy of the repository, and shows which law, figure or script falls.

    tests/mutate.py [--scripts] [LABEL..]

Not a part of the gate. Each line says what first refused the change, a proof or a computed script by its file and name, or NOTHING; and
which functions, whose contracts are the laws, lost their proof. With --scripts the laws are left out, so that the computed scripts alone
judge. Where MUTANT_LOGS names a folder, the whole output of each goes there.
"""
import os, re, shutil, subprocess, sys, tempfile, time

ROOT = os.path.dirname(os.path.dirname(os.path.abspath(__file__)))
SPECS = "crates/model/specs/"

M = [  # label, file, old, new
    ("buys-by-lower-price", "Queues", "by_price Buy x y = ltb y.price x.price", "by_price Buy x y = ltb x.price y.price"),
    ("later-number-first", "Queues", "by_number x y = ltb x.number y.number", "by_number x y = ltb y.number x.number"),
    ("post-trading-by-price", "Queues", "(by_price side) by_number session", "(by_price side) (by_price side) session"),
    ("anyone-may-cancel", "Queues", "eqb x.holder holder && eqb x.number number", "eqb x.number number && eqb x.number number"),
    ("average-to-even", "Average", "average_price_lem worth lots = worth / lots", "average_price_lem worth lots = worth / lots / 2 * 2"),
    ("average-of-nothing", "Average", "cond (eqb lots 0) None", "cond (eqb lots 1) None"),
    ("buy-crosses-below-only", "Matching", "crosses Buy (Some limit) price = leb price limit", "crosses Buy (Some limit) price = ltb price limit"),
    ("sell-crosses-above-only", "Matching", "crosses Sell (Some limit) price = leb limit price", "crosses Sell (Some limit) price = ltb limit price"),
    ("at-the-newcomers-price", "Matching", "buy = number; sell = x.number; price = x.price", "buy = number; sell = x.number; price = or_else limit x.price"),
    ("buyer-held-the-price", "Matching", "held = or_else limit x.price", "held = x.price"),
    ("numbers-swapped", "Matching", "buy = x.number; sell = number", "buy = number; sell = x.number"),
    ("lots-not-used-up", "Matching", "let r = meet test deal (n - x.lots) xs in", "let r = meet test deal n xs in"),
    ("wrong-part-left", "Matching", "queue = with_lots x (x.lots - n) ∷ xs", "queue = with_lots x n ∷ xs"),
    ("price-not-tested", "Matching", "(ltb 0 n && test x.price)", "(ltb 0 n)"),
    ("entire-may-miss-a-lot", "Matching", "b.entire && ltb 0 m.left", "b.entire && ltb 1 m.left"),
    ("withdrawn-rest-stands", "Matching", "is_some limit && not b.entire && b.keep", "is_some limit && not b.entire"),
    ("unpriced-rest-stands", "Matching", "is_some limit && not b.entire && b.keep", "not b.entire && b.keep"),
    ("entire-rest-stands", "Matching", "is_some limit && not b.entire && b.keep", "is_some limit && b.keep"),
    ("unpriced-blocks-nothing", "Matching", "to_block Buy None lots trades = cost_of trades", "to_block Buy None lots trades = 0"),
    ("pre-trading-trades", "Matching", "by_session none none met met session", "by_session none met met met session"),
    ("post-trading-does-not", "Matching", "by_session none none met met session", "by_session none none met none session"),
    ("demand-above-only", "Opening", "lots_where (λ p. leb price p) buys", "lots_where (λ p. ltb price p) buys"),
    ("supply-below-only", "Opening", "lots_where (λ p. leb p price) sells", "lots_where (λ p. ltb p price) sells"),
    ("greatest-gap", "Opening", "(ltb (gap buys sells p) (gap buys sells q)", "(ltb (gap buys sells q) (gap buys sells p)"),
    ("highest-price", "Opening", "(gap buys sells q) && ltb p q)", "(gap buys sells q) && ltb q p)"),
    ("buy-prices-only", "Opening", "prices_of buys ++ prices_of sells", "prices_of buys ++ prices_of buys"),
    ("opened-at-the-buys-price", "Opening", "sell = s.number; price = price; lots = n", "sell = s.number; price = b.price; lots = n"),
    ("opening-held-the-price", "Opening", "held = b.price", "held = price"),
    ("buy-at-the-price-left-out", "Opening", "(leb price b.price)", "(ltb price b.price)"),
    ("last-lot-lost", "Opening", "only (ltb 0 m.left)", "only (ltb 1 m.left)"),
    ("wrong-line", "Listings", "get_or listing.quotes (t - 4) no_quote", "get_or listing.quotes (t - 3) no_quote"),
    ("buy-paid-in-tickers", "Listings", "asset_of_lem listing t Buy = (quote_of listing t).currency", "asset_of_lem listing t Buy = t"),
    ("settlement-0-counts", "Listings", "cond (eqb (quote_of listing t).settlement 0) None", "cond (eqb (quote_of listing t).settlement 1) None"),
    ("average-not-the-limit", "Bidding", "cond (is_post_trading w.session) (average_of (w.sheets b.ticker)) b.price", "cond (is_post_trading w.session) b.price b.price"),
    ("bests-told-after", "Bidding", "cond (is_post_trading w.session) None (best_price_lem", "cond (is_post_trading w.session) (best_price_lem (queue w b.ticker side)) (best_price_lem"),
    ("opposite-is-own-side", "Bidding", "(queue w b.ticker (other b.side));\n}", "(queue w b.ticker b.side);\n}"),
    ("number-not-next", "Bidding", "next_number w = suc w.given", "next_number w = suc (suc w.given)"),
    ("strip-before-session", "Checks", "    must (serves shown w.session) WrongSession\n    ∷ must (leb bid_room room) ShortStrip", "    must (leb bid_room room) ShortStrip\n    ∷ must (serves shown w.session) WrongSession"),
    ("rule-before-numbers", "Checks", "    ∷ must (ltb w.given most_numbers) NumbersSpent\n    ∷ by_rule (r.on_bid (question w b))", "    ∷ by_rule (r.on_bid (question w b))\n    ∷ must (ltb w.given most_numbers) NumbersSpent"),
    ("funds-before-place", "Checks", "    ∷ must (has_place_lem w b) QueueFull\n    ∷ funds w b", "    ∷ funds w b\n    ∷ must (has_place_lem w b) QueueFull"),
    ("blocked-before-listing", "Checks", "    ∷ must (valid_listing listing) BadListing\n    ∷ must (nothing_blocked w.book) SomethingBlocked", "    ∷ must (nothing_blocked w.book) SomethingBlocked\n    ∷ must (valid_listing listing) BadListing"),
    ("a-place-too-many", "Checks", "ltb (length (queue w b.ticker b.side)) queue_places", "leb (length (queue w b.ticker b.side)) queue_places"),
    ("refused-with-no-rest", "Checks", "eqb (rest w b) 0 || ltb (length", "eqb b.lots 0 || ltb (length"),
    ("a-number-too-many", "Checks", "must (ltb w.given most_numbers)", "must (leb w.given most_numbers)"),
    ("block-of-0-refused", "Checks", "cond (eqb (owed w b) 0) None", "cond (eqb (owed w b) 1) None"),
    ("fifth-currency", "Checks", "leb q.currency 3", "leb q.currency 4"),
    ("entire-after-trading", "Checks", "(not (is_some b.price) && not b.entire) session", "(not (is_some b.price)) session"),
    ("withdraw-before-trading", "Checks", "(is_some b.price && not b.entire && b.keep) true", "(is_some b.price && not b.entire) true"),
    ("no-average-needed", "Checks", "not (is_post_trading w.session) || is_some", "not (is_trading w.session) || is_some"),
    ("one-holder-overlooked", "Checks", "sum_to 16 (λ h. sum_to 12", "sum_to 1 (λ h. sum_to 12"),
    ("price-not-tested-6", "Checks", "[ Some p ↦ is_price_lem p | None ↦ true ]", "[ Some p ↦ true | None ↦ true ]"),
    ("only-buys-cancelled", "Checks", "(queue w t Buy ++ queue w t Sell)", "(queue w t Buy ++ queue w t Buy)"),
    ("fewer-numbers", "Market", "most_numbers = 100000", "most_numbers = 99999"),
    ("fewer-places", "Market", "queue_places = 64", "queue_places = 63"),
    ("refused-by-another-number", "Numbers", "floor_number NoSuchBid = 11", "floor_number NoSuchBid = 10"),
    ("shorter-strip", "Market", "bid_room = 64", "bid_room = 63"),
    ("shorter-opening-strip", "Market", "opening_room = 1024", "opening_room = 1023"),
    ("no-ticker-11", "Market", "∷ 10 ∷ 11 ∷ []", "∷ 10 ∷ []"),
    ("tickers-in-falling-order", "Market", "tickers = 4 ∷ 5 ∷ 6 ∷", "tickers = 6 ∷ 5 ∷ 4 ∷"),
    ("closed-pass", "Market", "serves Closed = λ session. false", "serves Closed = λ session. true"),
    ("goods-to-the-seller", "Movements", "move.Pay x.seller x.ticker x.lots x.buyer", "move.Pay x.seller x.ticker x.lots x.seller"),
    ("money-by-lots", "Movements", "move.Pay x.buyer currency (x.price * x.lots) x.seller", "move.Pay x.buyer currency x.lots x.seller"),
    ("nothing-freed", "Movements", "(d.held * x.lots - x.price * x.lots)", "0"),
    ("rest-not-released", "Movements", "++ only (eqb (rest w b) 0) (move.Release", "++ only (eqb (rest w b) 1) (move.Release"),
    ("buy-freed-by-lots", "Movements", "(obligation_of side (Some x.price) x.lots)", "(obligation_of Sell (Some x.price) x.lots)"),
    ("sells-not-voided", "Movements", "++ map (freeing w.listing t Sell) (queue w t Sell)) tickers", "++ map (freeing w.listing t Sell) []) tickers"),
    ("apart-with-blocks", "Movements", "taken_apart w = moved_all (void_moves w) w.book", "taken_apart w = w.book"),
    ("a-number-at-the-making", "World", "listing = no_listing; given = 0;", "listing = no_listing; given = 1;"),
    ("log-of-the-first-world", "Runs", "entry_of r w c ∷ log r (after r w c) cs", "entry_of r w c ∷ log r w cs"),
    ("every-account-shown", "Looks", "need (known holder asset) (fault", "need (known holder 0) (fault"),
    ("another-account-shown", "Looks", "(account_of w.book holder asset)", "(account_of w.book asset holder)"),
    ("no-ticker-in-a-looks-fault", "Looks", "(must (ticker_known t) NoHolderOrTicker) t (queue", "(must (ticker_known t) NoHolderOrTicker) 0 (queue"),
    ("cancelled-counts-bids", "Calls", "sum_of (λ x. x.lots) (cancelled w holder t number Buy ++", "length (cancelled w holder t number Buy ++"),
    ("opened-answers-nothing", "Calls", "Opened (length (trades_made w (Open room)))", "Opened 0"),
    ("end-by-another-name", "Calls", "kind_of EndPostTrading = kind.EndPostTrading", "kind_of EndPostTrading = kind.EndTrading"),
    ("all-left-is-standing", "Calls", "standing = rest w b; count", "standing = (met w b).left; count"),
    ("traded-is-all", "Calls", "traded = lots_of (bid_trades w b)", "traded = b.lots"),
    ("count-is-lots", "Calls", "count = length (bid_trades w b)", "count = lots_of (bid_trades w b)"),
    ("no-ticker-in-a-cancellations-fault", "Calls", "ticker_of (Cancel shown holder t number) = t", "ticker_of (Cancel shown holder t number) = 0"),
    ("average-of-yesterday", "Calls", "new_day s = record { buys = s.buys; sells = s.sells; worth = 0; traded = 0 }", "new_day s = s"),
    ("post-trades-count", "Calls", "counted session n = cond (is_trading session) n 0", "counted session n = n"),
    ("trades-do-not-count", "Calls", "counted session n = cond (is_trading session) n 0", "counted session n = 0"),
    ("numbers-go-on", "Calls", "becomes w [] PreTrading listing 0", "becomes w [] PreTrading listing w.given"),
    ("sells-not-taken-out", "Calls", "sells = without holder number s.sells", "sells = s.sells"),
    ("opening-not-counted", "Calls", "worth = s.worth + cost_of xs; traded", "worth = s.worth; traded"),
    ("queues-outlive-trading", "Calls", "next w EndTrading = becomes w (moves_made w EndTrading) PostTrading w.listing w.given (λ t. void_sheet (w.sheets t))", "next w EndTrading = becomes w (moves_made w EndTrading) PostTrading w.listing w.given w.sheets"),
    ("refused-calls-count", "Calls", "decided (why r w c) (next w c) (λ e. w)", "decided (why r w c) (next w c) (λ e. next w c)"),
    ("tally-price-alone", "Tally", "(minus goods x.buyer money (x.price * x.lots))", "(minus goods x.buyer money x.price)"),
    ("tally-buys-alone", "Tally", "eqb k.number x.buy || eqb k.number x.sell", "eqb k.number x.buy || eqb k.number x.buy"),
    ("tally-keeps-the-empty", "Tally", "only (ltb x.lots k.lots)", "only true"),
    ("tally-enters-nothing", "Tally", "only (ltb 0 r.standing) (record", "only true (record"),
    ("tally-counts-post-trades", "Tally", "cond y.running xs []", "xs"),
    ("tally-counts-no-trades", "Tally", "cond y.running xs []", "[]"),
    ("tally-withdraws-nothing", "Tally", "minus y.sums h s n", "y.sums"),
    ("tally-cancels-all", "Tally", "kept (λ x. not (eqb x.number k)) y.standing", "[]"),
    ("tally-trades-go-on", "Tally", "fed (Start l) a xs y = record { sums = y.sums; listing = l; trades = [];", "fed (Start l) a xs y = record { sums = y.sums; listing = l; trades = y.trades;"),
    ("tally-never-stops", "Tally", "trades = y.trades; standing = []; running = false }", "trades = y.trades; standing = []; running = y.running }"),
    ("tally-post-bids-go-on", "Tally", "fed EndPostTrading a xs y = record { sums = y.sums; listing = y.listing; trades = y.trades; standing = [];", "fed EndPostTrading a xs y = record { sums = y.sums; listing = y.listing; trades = y.trades; standing = y.standing;"),
    ("tally-trading-bids-go-on", "Tally", "fed EndTrading a xs y = record { sums = y.sums; listing = y.listing; trades = y.trades; standing = [];", "fed EndTrading a xs y = record { sums = y.sums; listing = y.listing; trades = y.trades; standing = y.standing;"),
    ("tally-refusals-count", "Tally", "is_refused (Refused f) = true", "is_refused (Refused f) = false"),
    ("tally-held-to-nothing", "Tally", "None ↦ average (cost_of xs) (lots_of xs)", "None ↦ None"),
    ("tally-opening-uncounted", "Tally", "trades = y.trades ++ xs;", "trades = y.trades;"),
]


def without_laws(model):
    """Leaves of a copy of the crate its words and definitions alone."""
    shutil.rmtree(os.path.join(model, "proofs"))
    os.mkdir(os.path.join(model, "proofs"))
    open(os.path.join(model, "proofs", "Lib.antt"), "w").close()
    lib = os.path.join(model, "src", "lib.rt")
    text = open(lib).read()
    for name in ("averages", "invariant", "laws"):
        os.remove(os.path.join(model, "src", name + ".rt"))
        text = text.replace(f"pub mod {name};\n", "")
    open(lib, "w").write(text)


def main():
    wanted = [a for a in sys.argv[1:] if a != "--scripts"]
    top = tempfile.mkdtemp(prefix="mutants-")
    work = os.path.join(top, "repo")
    shutil.copytree(ROOT, work, ignore=shutil.ignore_patterns(".git"))
    if "--scripts" in sys.argv: without_laws(os.path.join(work, "crates", "model"))
    logs = os.environ.get("MUTANT_LOGS")
    survived = []
    try:
        for label, name, old, new in M:
            if wanted and label not in wanted: continue
            path = os.path.join(work, SPECS, name + ".antt")
            text = open(path).read()
            assert text.count(old) == 1, (label, text.count(old))
            open(path, "w").write(text.replace(old, new))
            t = time.time()
            out, errors = "", []
            for crate in ("model", "runs"):
                said = subprocess.run(["rt", "check"], cwd=os.path.join(work, "crates", crate), capture_output=True, text=True)
                said = said.stdout + said.stderr
                out += said
                found = re.findall(r"(?m)^\./(\w+)/(\S+?\.\w+):\d+:\d+: error: (?:`([^`]+)`)?(.*)", said)
                errors += [(crate, *it) for it in found]
                if "logic=proved" not in said:
                    break
            open(path, "w").write(text)
            if logs: open(os.path.join(logs, label), "w").write(out)
            real = [e for e in errors if "that depends on" not in e[4] and "which was not admitted" not in e[4]]
            laws = dict.fromkeys(re.findall(r"(?m)^\./proofs/(?:laws|invariant|averages)/(?:\w+/)*(\w+)/Answers", out))
            laws.update(dict.fromkeys(re.findall(r"(?m)^fn model::(?:[a-z_]+::)*((?:[A-Z]\w*::)?\w+): (?:no proof|not proved)", out)))
            if "logic=not-proved" not in out and not errors and out.count("logic=proved"):
                verdict = "NOTHING"; survived.append(label)
            elif real:
                verdict = "; ".join(dict.fromkeys(f"{c}/{d}/{f} {n}".strip() for c, d, f, n, _ in real[:3])) + "  [" + real[0][4].strip(": ")[:90] + "]"
                if laws: verdict += "; laws: " + ", ".join(laws)
            else:
                verdict = "refused: " + (out.strip().splitlines() or ["?"])[-1][:120]
            print(f"{label}: {verdict} ({time.time() - t:.0f} s)", flush=True)
    finally:
        shutil.rmtree(top)
    print("seen by nothing:", survived or "none")


main()

"""Runs the scripts through floor.py and writes them, with what it worked out, as the crate `runs`'s specs. `rt fmt` and `rt tidy` then lay them out."""
import collections, os, sys
from floor import FLOOR, RULE, REG, Floor, Tally, run
import floor as F
from scripts import SCRIPTS, edge_floor

OUT = sys.argv[1] if len(sys.argv) > 1 else "../../crates/runs/specs"
lst = lambda xs, sep=" ∷ ": sep.join(xs + ["[]"]) if xs else "[]"
opt = lambda p: "None" if p is None else f"(Some {p})"
boo = lambda b: "true" if b else "false"


def show_call(c):
    k = c[0]
    if k == "Start": return "Start (listing (" + lst([f"quote {a} {b}" for a, b in c[1]]) + "))"
    if k in ("Deposit", "Withdraw"): return f"{k} {c[1]} {c[2]} {c[3]}"
    if k == "Place":
        h, t, s, p, n, e, kp = c[2]
        return f"Place {c[1]} (bid {h} {t} {s} {opt(p)} {n} {'entire' if e else 'partial'} {'keep' if kp else 'withdraw'}) {c[3]}"
    if k == "Cancel": return f"Cancel {c[1]} {c[2]} {c[3]} {c[4]}"
    if k == "Open": return f"Open {c[1]}"
    return k


def show_answer(a):
    if a[0] == "Done": return "Done"
    if a[0] == "Placed": return f"placed {a[1]} {a[2]} {a[3]} {a[4]}"
    if a[0] in ("Cancelled", "Opened"): return f"{a[0]} {a[1]}"
    _, n, detail, kind, ticker = a
    if n in FLOOR: return f"refused (ByFloor {FLOOR[n]}) kind.{kind} {ticker}"
    if n in RULE: return f"refused (ByRule {RULE[n]}) kind.{kind} {ticker}"
    return f"refused (ByRegister (fault {REG[n]} {detail[0]} {detail[1]} {detail[2]})) kind.{kind} {ticker}"


def entry(e):
    c, a, ts = e
    call = show_call(c); call = f"({call})" if " " in call else call
    ans = show_answer(a); ans = f"({ans})" if " " in ans else ans
    trades = lst([f"trade {' '.join(map(str, t))}" for t in ts])
    return f"on {call} {ans} {'[]' if not ts else '(' + trades + ')'}"


def main():
    seen, forms, calls, trades = collections.Counter(), set(), 0, 0
    names = []
    for name, text, rule, reg, cs, special in SCRIPTS:
        free0 = dict(reg.free)
        if special:
            fl = Floor(reg, rule); special(fl); tally = Tally(reg); out = []
            for c in cs:
                try: a, ts = fl.call(c)
                except F.Refused as e:
                    a, ts = ("Refused", e.number, e.detail, {"Place": "Bid"}.get(c[0], c[0]), c[2][1] if c[0] == "Place" else c[3] if c[0] == "Cancel" else 0), []
                out.append((c, a, ts)); tally.feed(c, a, ts)
        else:
            fl, tally, out, _ = run(reg, rule, cs)
        for c, a, ts in out:
            if a[0] == "Refused": seen[a[1]] += 1
            if c[0] == "Place": forms.add((c[1], c[2][2], c[2][3] is not None, c[2][5], c[2][6]))
            trades += len(ts)
        calls += len(out)
        each = 100_000
        rows = []
        quiet = tally is not None and not name == "Blocked"
        for h in range(5):
            for a in range(12):
                f, b = reg.f(h, a), reg.b(h, a)
                s = tally.sums.get((h, a), 0) if tally else 0
                o = sum(n for i, j, n in map(tally.obliges, tally.standing) if (i, j) == (h, a)) if tally else 0
                if (h, a) in reg.free or (h, a) in reg.blocked:
                    if f != free0.get((h, a), 0) or b or o: rows.append((h, a, f, b, s if tally else f, o))
        queues = [(t, s, q) for (t, s), q in sorted(fl.q.items()) if q]
        shown = [(t, s, [(b.number, b.holder, b.price, b.lots) for b in q]) for t, s, q in queues]
        sums = []
        for t in range(4, 12):
            own = [(p, n) for u, p, n in tally.trades if u == t]
            row = (t, sum(p * n for p, n in fl.day[t]), sum(n for _, n in fl.day[t]), sum(p * n for p, n in own), sum(n for _, n in own))
            sums.append(row)
        fl.void()
        rows = [r + (reg.f(r[0], r[1]),) for r in rows]
        stand = [(k["number"], k["lots"]) for k in tally.standing] if tally else []
        start = f"edge" if special else f"made ({reg.spec})"
        body = [f"-- {text}",
                "use Rattle.std.specs.Prelude.{◌∷◌}",
                "use Rattle.runs.specs.Words.{ℕ, true, false, List, [], Some, None, Buy, Sell, Closed, PreTrading, Trading, PostTrading, ByFloor, ByRule, ByRegister}",
                "use Rattle.runs.specs.Words.{BadListing, SomethingBlocked, WrongSession, ShortStrip, NoHolderOrTicker, BeyondLimits, FormNotTaken, NoAverage, NumbersSpent, QueueFull, NoSuchBid}",
                "use Rattle.runs.specs.Words.{NotWholeSteps, OffBest, OffSettlement, OppositeBid, NoAccount, BadAmount, OverTotal, TooLittleFree, OverCap}",
                "use Rattle.runs.specs.Words.{Start, Deposit, Withdraw, Place, Cancel, Open, EndTrading, EndPostTrading, Done, Cancelled, Opened}",
                "use Rattle.model.specs.declared.faults.CallKind.TheVariants as kind",
                "use Rattle.model.specs.Tally.{Entry}",
                "use Rattle.model.specs.World.{made}",
                "use Rattle.register.specs.Books.{most_amount}",
                "use Rattle.register.specs.Moves.{fault}",
                "use Rattle.rules.specs.Rules.{corporate, government}",
                "use Rattle.runs.specs.Scripts.{Script, Account, Queue, plenty, edge, quote, listing, bid, partial, entire, keep, withdraw, on, placed, refused, trade, account, queue, stands, Sums, sums, Left, left}",
                "", "abbrev entries : List Entry", "entries ="]
        es = [entry(e) for e in out]
        body += ["    " + es[0]] + ["    ∷ " + e for e in es[1:]] + ["    ∷ []"]
        body += ["", "-- holder, asset, free, blocked, the tally's sum, what the standing bids oblige to by the tally, and free after taking apart", "abbrev accounts : List Account", "accounts ="]
        body += ["    " + lst([f"account {' '.join(map(str, r))}" for r in rows], "\n    ∷ ")]
        body += ["", "abbrev queues : List Queue", "queues ="]
        body += ["    " + lst([f"queue {t} {s} (" + lst([f"stands {b[0]} {b[1]} {b[2]} {b[3]}" for b in q]) + ")" for t, s, q in shown], "\n    ∷ ")] if len(queues) and not special else ["    []"]
        body += ["", "-- ticker, what its trades cost and their lots, on the floor and by the tally", "abbrev sums_of_trades : List Sums", "sums_of_trades = " + lst([f"sums {' '.join(map(str, r))}" for r in sums])]
        body += ["", "-- the standing bids by the tally: number and lots left", "abbrev standing : List Left", "standing = " + lst([f"left {a} {b}" for a, b in stand])]
        body += ["", "abbrev pub script : Script",
                 f"script = record {{ rule = {rule.__name__}; start = {start}; entries = entries; accounts = accounts; queues = queues; sums = sums_of_trades; standing = standing; running = {boo(tally.running if tally else False)} }}"]
        path = os.path.join(OUT, name + ".antt")
        open(path, "w").write("\n".join(body) + "\n")
        names.append(name)
        print(name, len(out), "calls", sum(len(t) for _, _, t in out), "trades")
    print("calls", calls, "trades", trades, "refusals", dict(sorted(seen.items())), "missing", [n for n in list(range(1, 12)) + [21, 22, 23, 24, 31, 32, 33, 34, 35] if n not in seen])
    allf = {(ss, sd, p, e, k) for ss in ("PreTrading", "Trading", "PostTrading") for sd in ("Buy", "Sell") for p in (True, False) for e in (True, False) for k in (True, False)}
    print("forms missing", allf - forms)


main()

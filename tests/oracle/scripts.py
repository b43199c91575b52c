"""The scripts: calls only. Answers, trades and ends are worked out by floor.py."""
import random
from floor import MAXA, MAXP, Register, Bid, corporate, government

B, S = "Buy", "Sell"
PRE, TRA, POST, CLO = "PreTrading", "Trading", "PostTrading", "Closed"
LIST = [(0, 100), (1, 0), (0, 100), (2, 0), (3, 1000), (0, 0), (1, 100), (0, 0)]
PLAIN = [(0, 0)] * 8


def bid(h, t, side, price, lots, entire=False, keep=True): return (h, t, side, price, lots, entire, keep)
def place(shown, *a, room=64, **k): return ("Place", shown, bid(*a, **k), room)


def plenty(blocked=0, cap=None, tag=0, each=100_000):
    r = Register({(h, a): each for h in range(4) for a in range(12)}, {(1, 5): blocked} if blocked else {},
                 (lambda h, a: cap if cap is not None and a == 2 else MAXA), (lambda h, a, n: tag))
    r.spec = f"plenty {each} {blocked} {cap if cap is not None else 'most_amount'} {tag}"
    return r


def forms(session, h, t, lots, price):
    """every form of bid, on both sides"""
    out = []
    for side in (B, S):
        for p in (price, None):
            for entire in (False, True):
                for keep in (True, False):
                    out.append(place(session, h, t, side, p, lots, entire=entire, keep=keep))
    return out


def day():
    c = [place(TRA, 0, 4, B, 100, 1), ("Open", 1024), ("EndTrading",), ("EndPostTrading",), ("Cancel", TRA, 0, 4, 1)]
    c += [("Start", [(4, 0)] + PLAIN[1:]), ("Start", PLAIN[1:] + [(3, MAXP + 1)]), ("Start", LIST[:6] + [(3, MAXP), (0, 0)]), ("Start", LIST)]
    c += [place(TRA, 0, 4, B, 100, 1), place(CLO, 0, 4, B, 100, 1), place(PRE, 0, 4, B, 100, 1, room=63), place(PRE, 16, 4, B, 100, 1)]
    c += [place(PRE, 0, 3, B, 100, 1), place(PRE, 0, 12, B, 100, 1), place(PRE, 0, 4, B, 0, 1), place(PRE, 0, 4, B, MAXP + 1, 1)]
    c += [place(PRE, 0, 4, B, 100, 0), place(PRE, 0, 4, B, 100, 1_000_001)]
    c += forms(PRE, 1, 9, 5, 50)
    c += [place(PRE, 0, 9, B, 55, 3), place(PRE, 2, 9, B, 56, 2), place(PRE, 2, 9, S, 48, 4)]
    return c


def full_day():
    c = [("Deposit", 4, 0, 500), ("Deposit", 16, 0, 5), ("Deposit", 0, 12, 5), ("Deposit", 0, 0, 0), ("Deposit", 0, 0, MAXA + 1), ("Deposit", 0, 0, MAXA)]
    c += [("Withdraw", 4, 0, 501), ("Withdraw", 4, 0, 100), ("Withdraw", 16, 12, 0), ("Withdraw", 0, 0, 0)]
    c += day()
    c += [("Cancel", PRE, 1, 9, 1), ("Cancel", PRE, 1, 9, 1), ("Cancel", PRE, 2, 9, 2), ("Cancel", PRE, 16, 9, 2), ("Cancel", PRE, 1, 3, 2), ("Cancel", TRA, 1, 9, 2)]
    c += [place(PRE, 4, 9, B, 60, 7), place(PRE, 4, 9, B, 57, 7), place(PRE, 4, 9, S, 57, 1), ("Open", 1023), ("Open", 1024), ("Open", 1024)]
    c += forms(TRA, 1, 9, 5, 52) + forms(TRA, 3, 9, 30, 50)
    c += [place(TRA, 0, 9, S, None, 1, keep=False), place(TRA, 0, 4, B, 200, 1), place(TRA, 0, 4, B, 115, 2), place(TRA, 0, 4, B, 116, 2), place(TRA, 0, 4, B, 84, 2)]
    c += [("Withdraw", 0, 0, 99_999), place(TRA, 2, 9, B, 52, 9), place(TRA, 3, 9, S, 50, 3), ("EndPostTrading",), ("EndTrading",)]
    c += [place(POST, 0, 5, B, None, 5)] + forms(POST, 1, 9, 5, 50) + [place(POST, 0, 9, B, None, 4), place(POST, 2, 9, S, None, 30), place(POST, 3, 9, B, None, 7)]
    c += [place(POST, 3, 9, B, None, 7, keep=False), ("Cancel", POST, 2, 9, 40)]
    return c


def second_day():
    c = [("Start", PLAIN), place(PRE, 0, 4, B, 102, 10), place(PRE, 1, 4, S, 100, 10), place(PRE, 0, 5, B, 105, 10), place(PRE, 1, 5, B, 103, 20), place(PRE, 2, 5, B, 100, 10)]
    c += [place(PRE, 3, 5, S, 101, 15), place(PRE, 2, 5, S, 103, 10), place(PRE, 1, 5, S, 106, 20), place(PRE, 0, 11, B, 90, 5), place(PRE, 1, 11, S, 91, 5)]
    c += [place(PRE, 0, 6, B, 102, 10), place(PRE, 1, 6, B, 100, 5), place(PRE, 2, 6, S, 100, 10), place(PRE, 3, 6, S, 102, 5), place(PRE, 3, 7, B, 7, 1), ("Open", 1024)]
    c += [("Cancel", TRA, 0, 5, 8), ("Cancel", TRA, 1, 4, 8), ("Cancel", TRA, 1, 5, 8), place(TRA, 3, 5, S, 100, 50), place(TRA, 0, 8, S, 101, 5), place(TRA, 1, 8, S, 102, 5), place(TRA, 2, 8, B, 102, 11, entire=True), place(TRA, 2, 8, B, 102, 8)]
    c += [place(TRA, 1, 8, B, 101, 1), place(TRA, 0, 8, S, 101, 1), place(TRA, 0, 8, S, 100, 2), place(TRA, 0, 8, S, 100, 2), place(TRA, 2, 8, B, 100, 3), ("EndTrading",)]
    c += [place(POST, 0, 8, B, None, 4), place(POST, 1, 8, B, None, 4), place(POST, 2, 8, S, None, 6), place(POST, 1, 8, S, None, 9), ("EndPostTrading",)]
    c += [("Start", LIST), place(PRE, 2, 5, B, 33, 3), ("Cancel", PRE, 2, 5, 1), place(PRE, 2, 5, S, 33, 3), ("Open", 2000), ("EndTrading",), place(POST, 2, 5, S, None, 3), place(POST, 2, 8, S, None, 3)]
    return c


def governed():
    c = [("Start", LIST), place(PRE, 0, 4, B, 100, 15), place(PRE, 0, 4, B, 100, 20), place(PRE, 0, 4, S, 100, 20), place(PRE, 1, 4, B, 94, 10), place(PRE, 1, 4, B, 95, 10)]
    c += [place(PRE, 1, 4, S, 99, 10), place(PRE, 2, 4, S, 100, 10), place(PRE, 2, 4, S, 106, 10), place(PRE, 2, 4, S, 105, 10), place(PRE, 3, 4, S, 99, 10), ("Open", 1024)]
    c += [place(TRA, 3, 4, B, 96, 30), place(TRA, 0, 4, S, 95, 10), place(TRA, 3, 4, S, 95, 10), place(TRA, 2, 4, S, None, 40), place(TRA, 2, 4, B, None, 10), ("EndTrading",)]
    c += [place(POST, 0, 4, B, None, 15), place(POST, 0, 4, B, None, 20), place(POST, 0, 4, S, None, 10), place(POST, 1, 4, S, None, 10), ("Cancel", POST, 0, 4, 9), place(POST, 3, 4, S, None, 20), ("EndPostTrading",)]
    return c


def edges():
    """a floor in trading with one number left and a full queue of buys"""
    return [place(TRA, 1, 4, B, 90, 1), place(TRA, 1, 4, B, 200, 1, keep=False), place(TRA, 1, 4, B, 90, 1, room=0), place(TRA, 1, 4, S, 90, 1), place(TRA, 1, 4, S, 100, 1)]


def blocked():
    return [("Start", [(4, 0)] * 8), ("Start", PLAIN), ("Deposit", 1, 5, 3), ("Open", 1024)]


def capped():
    money = [(2, 0)] * 8
    return [("Start", money), place(PRE, 0, 4, B, 100, 11), place(PRE, 0, 4, B, 100, 10), place(PRE, 0, 4, B, 1, 1), place(PRE, 0, 5, B, 10000, 11),
            place(PRE, 1, 4, S, 90, 4), ("Open", 1024), place(TRA, 0, 4, B, 98, 5), place(TRA, 0, 4, B, 98, 4), place(TRA, 1, 4, S, 105, 8),
            place(TRA, 0, 4, B, None, 1), place(TRA, 0, 4, B, 110, 1, entire=True), ("Cancel", TRA, 0, 4, 1), place(TRA, 0, 4, B, None, 1), place(TRA, 0, 4, B, None, 8)]


def at_random(seed, calls, government_rule):
    r = random.Random(seed)
    c = [("Start", LIST)]
    phase = [(PRE, calls // 3), (TRA, calls // 2), (POST, calls - calls // 3 - calls // 2)]
    for session, n in phase:
        for _ in range(n):
            k = r.random()
            if k < 0.1: c.append(("Cancel", session, r.randrange(4), r.choice([4, 5]), r.randrange(1, 30)))
            elif k < 0.13: c.append(("Withdraw", r.randrange(4), r.choice([0, 1, 4, 5]), r.choice([1, 50_000])))
            else:
                lots = r.randrange(1, 8) * (10 if government_rule else 1)
                price = None if session == POST or r.random() < 0.1 and session == TRA else r.randrange(95, 106)
                c.append(place(session, r.randrange(4), r.choice([4, 5]), r.choice([B, S]), price, lots,
                               entire=session == TRA and r.random() < 0.15, keep=session == PRE or r.random() < 0.8))
        if session != POST: c.append(("Open", 1024) if session == PRE else ("EndTrading",))
    return c


def edge_floor(floor):
    floor.session, floor.given = TRA, 99_998
    floor.q[4, B] = [Bid(k, 0, 100, 2) for k in range(1, 65)]
    floor.r.blocked[0, 0] = 100 * 128


SCRIPTS = [
    ("FullDay", "A day under the corporate rule: every form of bid in every session, and most refusals.", corporate, plenty(), full_day(), None),
    ("SecondDay", "Openings of several tickers with ties, matching, averages, and a second day.", corporate, plenty(), second_day(), None),
    ("Governed", "A day under the government rule.", government, plenty(), governed(), None),
    ("Edges", "One number left, and a full queue.", corporate, plenty(), edges(), edge_floor),
    ("Blocked", "A floor made over a register with something blocked cannot start.", corporate, plenty(blocked=7), blocked(), None),
    ("Capped", "A cap of 1,000 on currency 2, by a layer with the tag 9.", corporate, plenty(cap=1000, tag=9), capped(), None),
    ("Mixed", "Calls drawn at random, corporate rule.", corporate, plenty(each=2_000), at_random(7, 90, False), None),
    ("MixedTens", "Calls drawn at random, government rule.", government, plenty(each=40_000), at_random(11, 60, True), None),
]

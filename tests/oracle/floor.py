"""A trading floor in plain Python, written from the rules alone. It is the independent model that the scripts are worked out with."""

MAXP, MAXN, MAXA = 10_000_000, 1_000_000, 10**16
FLOOR = {1: "BadListing", 2: "SomethingBlocked", 3: "WrongSession", 4: "ShortStrip", 5: "NoHolderOrTicker", 6: "BeyondLimits",
         7: "FormNotTaken", 8: "NoAverage", 9: "NumbersSpent", 10: "QueueFull", 11: "NoSuchBid"}
RULE = {21: "NotWholeSteps", 22: "OffBest", 23: "OffSettlement", 24: "OppositeBid"}
REG = {31: "NoAccount", 32: "BadAmount", 33: "OverTotal", 34: "TooLittleFree", 35: "OverCap", 36: "TooLittleBlocked"}


class Refused(Exception):
    def __init__(self, number, detail=None):
        self.number, self.detail = number, detail


class Register:
    def __init__(self, free=None, blocked=None, cap=None, tag=None):
        self.free, self.blocked = dict(free or {}), dict(blocked or {})
        self.cap = cap or (lambda h, a: MAXA)
        self.tag = tag or (lambda h, a, n: 0)

    def f(self, h, a): return self.free.get((h, a), 0)
    def b(self, h, a): return self.blocked.get((h, a), 0)
    def refuse(self, n, h, a, tag=0): raise Refused(n, (h, a, tag))

    def account(self, h, a):
        if h > 15 or a > 11: self.refuse(31, h, a)

    def amount(self, h, a, n):
        if n < 1 or n > MAXA: self.refuse(32, h, a)

    def deposit(self, h, a, n):
        self.account(h, a); self.amount(h, a, n)
        if sum(self.f(i, a) + self.b(i, a) for i in range(16)) + n > MAXA: self.refuse(33, h, a)
        self.free[h, a] = self.f(h, a) + n

    def withdraw(self, h, a, n):
        self.account(h, a); self.amount(h, a, n)
        if self.f(h, a) < n: self.refuse(34, h, a)
        self.free[h, a] -= n

    def can_block(self, h, a, n):
        self.account(h, a); self.amount(h, a, n)
        if self.f(h, a) < n: self.refuse(34, h, a)
        if self.b(h, a) + n > self.cap(h, a): self.refuse(35, h, a, self.tag(h, a, self.b(h, a) + n))

    def block(self, h, a, n):
        self.can_block(h, a, n)
        self.free[h, a] -= n
        self.blocked[h, a] = self.b(h, a) + n

    def pay(self, h, a, n, payee):
        assert h <= 15 and payee <= 15 and a <= 11 and self.b(h, a) >= n, "a movement that a register would refuse"
        if n == 0: return
        self.blocked[h, a] = self.b(h, a) - n
        self.free[payee, a] = self.f(payee, a) + n

    def release(self, h, a, n): self.pay(h, a, n, h)


def corporate(q):
    p, b, s, t = q["price"], q["bb"], q["bs"], q["settlement"]
    if p is not None and ((b is not None and 100 * p < 90 * b) or (s is not None and 100 * p > 110 * s)): return 22
    if p is not None and t and (100 * p < 85 * t or 100 * p > 115 * t): return 23
    return None


def government(q):
    p, b, s = q["price"], q["bb"], q["bs"]
    if q["lots"] % 10: return 21
    if p is not None and q["side"] == "Buy" and b is not None and 100 * p < 95 * b: return 22
    if p is not None and q["side"] == "Sell" and s is not None and 100 * p > 105 * s: return 22
    if q["opposite"]: return 24
    return None


class Bid:
    def __init__(self, number, holder, price, lots): self.number, self.holder, self.price, self.lots = number, holder, price, lots


class Floor:
    def __init__(self, register, rule):
        self.r, self.rule = register, rule
        self.session, self.listing, self.given = "Closed", [(0, 0)] * 8, 0
        self.q = {(t, s): [] for t in range(4, 12) for s in ("Buy", "Sell")}
        self.day = {t: [] for t in range(4, 12)}

    def currency(self, t): return self.listing[t - 4][0]
    def asset(self, t, side): return self.currency(t) if side == "Buy" else t

    def average(self, t):
        lots = sum(n for _, n in self.day[t])
        return None if lots == 0 else sum(p * n for p, n in self.day[t]) // lots

    def key(self, side):
        if self.session == "PostTrading": return lambda b: b.number
        return lambda b: ((-b.price if side == "Buy" else b.price), b.number)

    # every call: ('ok', answer, trades) or raises
    def call(self, c):
        return getattr(self, c[0])(*c[1:])

    def Start(self, listing):
        if self.session != "Closed": raise Refused(3)
        if any(c > 3 or s > MAXP for c, s in listing): raise Refused(1)
        if any(self.r.b(h, a) for h in range(16) for a in range(12)): raise Refused(2)
        self.session, self.listing, self.given = "PreTrading", listing, 0
        self.day = {t: [] for t in range(4, 12)}
        return ("Done",), []

    def Deposit(self, h, a, n): self.r.deposit(h, a, n); return ("Done",), []
    def Withdraw(self, h, a, n): self.r.withdraw(h, a, n); return ("Done",), []

    def settle(self, t, buyer, seller, price, lots, held):
        self.r.pay(seller, t, lots, buyer)
        self.r.pay(buyer, self.currency(t), price * lots, seller)
        self.r.release(buyer, self.currency(t), (held - price) * lots)

    def Place(self, shown, bid, room):
        h, t, side, price, lots, entire, keep = bid
        post = self.session == "PostTrading"
        if shown == "Closed" or shown != self.session: raise Refused(3)
        if room < 64: raise Refused(4)
        if h > 15 or t < 4 or t > 11: raise Refused(5)
        if (price is not None and not 1 <= price <= MAXP) or not 1 <= lots <= MAXN: raise Refused(6)
        if self.session == "PreTrading" and (price is None or entire or not keep): raise Refused(7)
        if post and (price is not None or entire): raise Refused(7)
        if post and self.average(t) is None: raise Refused(8)
        if self.given == 100_000: raise Refused(9)
        other = "Sell" if side == "Buy" else "Buy"
        mine, theirs = self.q[t, side], self.q[t, other]
        best = lambda q: q[0].price if q and not post else None
        v = self.rule(dict(side=side, price=price, lots=lots, bb=best(self.q[t, "Buy"]), bs=best(self.q[t, "Sell"]),
                           settlement=self.listing[t - 4][1], opposite=any(b.holder == h for b in theirs)))
        if v: raise Refused(v)
        limit = self.average(t) if post else price
        fills, left = [], lots
        if self.session != "PreTrading":
            for b in theirs:
                if left == 0 or (limit is not None and (b.price > limit if side == "Buy" else b.price < limit)): break
                n = min(left, b.lots); fills.append((b, n)); left -= n
            if entire and left: fills, left = [], lots
        stands = left if limit is not None and not entire and keep else 0
        if stands and len(mine) == 64: raise Refused(10)
        owed = lots if side == "Sell" else (sum(b.price * n for b, n in fills) if limit is None else limit * lots)
        if owed: self.r.block(h, self.asset(t, side), owed)
        self.given += 1
        trades = []
        for b, n in fills:
            buyer, seller, bn, sn = (h, b.holder, self.given, b.number) if side == "Buy" else (b.holder, h, b.number, self.given)
            held = b.price if side == "Sell" or limit is None else limit
            self.settle(t, buyer, seller, b.price, n, held)
            b.lots -= n
            trades.append((t, buyer, seller, bn, sn, b.price, n))
            if self.session == "Trading": self.day[t].append((b.price, n))
        self.q[t, other] = [b for b in theirs if b.lots]
        if stands:
            mine.append(Bid(self.given, h, limit, left)); mine.sort(key=self.key(side))
        elif left and (side == "Sell" or limit is not None):
            self.r.release(h, self.asset(t, side), left if side == "Sell" else limit * left)
        return ("Placed", self.given, lots - left, stands, len(trades)), trades

    def Cancel(self, shown, h, t, k):
        if shown == "Closed" or shown != self.session: raise Refused(3)
        if h > 15 or t < 4 or t > 11: raise Refused(5)
        for side in ("Buy", "Sell"):
            for b in self.q[t, side]:
                if b.number == k and b.holder == h:
                    self.q[t, side].remove(b); self.free_bid(t, side, b)
                    return ("Cancelled", b.lots), []
        raise Refused(11)

    def free_bid(self, t, side, b):
        self.r.release(b.holder, self.asset(t, side), b.lots if side == "Sell" else b.price * b.lots)

    def Open(self, room):
        if self.session != "PreTrading": raise Refused(3)
        if room < 1024: raise Refused(4)
        trades = []
        for t in range(4, 12):
            buys, sells = self.q[t, "Buy"], self.q[t, "Sell"]
            D = lambda p: sum(b.lots for b in buys if b.price >= p)
            S = lambda p: sum(s.lots for s in sells if s.price <= p)
            prices = {b.price for b in buys + sells}
            if not prices: continue
            p = min(prices, key=lambda p: (-min(D(p), S(p)), abs(D(p) - S(p)), p))
            todo = min(D(p), S(p))
            while todo:
                b, s = buys[0], sells[0]
                n = min(todo, b.lots, s.lots)
                self.settle(t, b.holder, s.holder, p, n, b.price)
                trades.append((t, b.holder, s.holder, b.number, s.number, p, n))
                self.day[t].append((p, n))
                b.lots -= n; s.lots -= n; todo -= n
                if not b.lots: buys.pop(0)
                if not s.lots: sells.pop(0)
        self.session = "Trading"
        return ("Opened", len(trades)), trades

    def void(self):
        for (t, side), q in self.q.items():
            for b in q: self.free_bid(t, side, b)
            self.q[t, side] = []

    def EndTrading(self):
        if self.session != "Trading": raise Refused(3)
        self.void(); self.session = "PostTrading"
        return ("Done",), []

    def EndPostTrading(self):
        if self.session != "PostTrading": raise Refused(3)
        self.void(); self.session = "Closed"
        return ("Done",), []


class Tally:
    """What calls, answers and trades say by themselves."""
    def __init__(self, register):
        self.sums, self.listing, self.trades, self.standing, self.running = dict(register.free), [(0, 0)] * 8, [], [], False

    def add(self, h, a, n): self.sums[h, a] = self.sums.get((h, a), 0) + n

    def feed(self, c, answer, trades):
        if answer[0] == "Refused": return
        kind = c[0]
        if kind == "Start": self.listing, self.trades = c[1], []
        if kind == "Deposit": self.add(c[1], c[2], c[3])
        if kind == "Withdraw": self.add(c[1], c[2], -c[3])
        if kind == "Open": self.running = True
        for t, buyer, seller, bn, sn, p, n in trades:
            m = self.listing[t - 4][0]
            self.add(seller, t, -n); self.add(buyer, t, n); self.add(buyer, m, -p * n); self.add(seller, m, p * n)
            for k in self.standing:
                if k["number"] in (bn, sn): k["lots"] -= n
            self.standing = [k for k in self.standing if k["lots"] > 0]
            if self.running: self.trades.append((t, p, n))
        if kind == "Place" and answer[3] > 0: self.standing.append(dict(number=answer[1], bid=c[2], lots=answer[3]))
        if kind == "Cancel": self.standing = [k for k in self.standing if k["number"] != c[4]]
        if kind == "EndTrading": self.running = False
        if kind in ("EndTrading", "EndPostTrading"): self.standing = []

    def obliges(self, k):
        h, t, side, price, _, _, _ = k["bid"]
        if side == "Sell": return (h, t, k["lots"])
        if price is None:
            own = [(p, n) for u, p, n in self.trades if u == t]
            price = sum(p * n for p, n in own) // sum(n for _, n in own)
        return (h, self.listing[t - 4][0], price * k["lots"])


def run(register, rule, calls):
    import copy
    start = copy.deepcopy(register.free), copy.deepcopy(register.blocked)
    floor, tally, out = Floor(register, rule), Tally(register), []
    quiet = not any(register.blocked.values())
    kinds = {"Place": "Bid"}
    for c in calls:
        try:
            answer, trades = floor.call(c)
        except Refused as e:
            ticker = c[2][1] if c[0] == "Place" else c[3] if c[0] == "Cancel" else 0
            answer, trades = ("Refused", e.number, e.detail, kinds.get(c[0], c[0]), ticker), []
        out.append((c, answer, trades))
        tally.feed(c, answer, trades)
        if quiet:  # the accounts come out after every call
            for h in range(16):
                for a in range(12):
                    assert register.f(h, a) + register.b(h, a) == tally.sums.get((h, a), 0), (c, h, a)
                    assert register.b(h, a) == sum(n for i, j, n in map(tally.obliges, tally.standing) if (i, j) == (h, a)), (c, h, a)
    return floor, tally, out, start

"""What accounts are answered, and their rows and texts, by docs/RULES.md and docs/FORMATS.md alone: an
account is its ledger, lists of dated facts that only grow, and each balance is a sum over them.
Nothing of it is shared with the program: blocks are priced one by one, a switch is looked for minute by
minute, and rows are made anew from all facts.

Zone, Book and Shelf have the periods, the prices and the civil time of a moment. Office answers
commands, and gives the rows of the tables, balances, statements and exports."""
import datetime
import functools
import json
import re
import tomllib

INITIAL, UPDATE, TERMINATION, EVENT = 1, 2, 3, 4
DEBIT, REFUND, CHECK, ENQUIRY = 0, 1, 2, 3
UNITS = {"time": "CC-Time", "octets": "CC-Total-Octets", "events": "CC-Service-Specific-Units"}
NO_END = 4_102_444_800
# The version of the tables.
LATEST = 3
MOST_BLOCKS = 10**9
MINUTE, DAY = 60, 86_400
# The order in which the parts of a report are rated.
PARTS = (None, 0, 2, 1)


def text_of(value):
    """A value as compact JSON, members in the order of their names."""
    return json.dumps(value, sort_keys=True, separators=(",", ":"), ensure_ascii=False)


def started(before, units, block):
    """How many multiples of the block are at least what was used before, and less than what is used
    then."""
    return sum(1 for _ in range(-(-before // block) * block, before + units, block))


def shares(amounts, total):
    """What each of the amounts pays of a total, the first ones first."""
    given = []
    for amount in amounts:
        given.append(min(amount, total))
        total -= given[-1]
    return given


class Zone:
    """A zone by the text that a book has of it."""

    CHANGE = r",M(\d+)\.(\d)\.(\d)([^,]*)"
    RULE = re.compile(r"[A-Za-z]{3,6}([^A-Za-z,]+)[A-Za-z]{3,6}([^,]*)" + 2 * CHANGE)

    def __init__(self, text):
        found = self.RULE.fullmatch(text)
        self.rules = None
        if found is None:
            sign = -1 if text[0] == "-" else 1
            hours, minutes = text[1:].split(":")
            self.standard = sign * (int(hours) * 60 + int(minutes)) * 60
            return
        parts = found.groups()
        self.standard = self.west(parts[0])
        self.summer = self.west(parts[1]) if parts[1] else self.standard + 3600
        self.rules = [(*map(int, parts[at:at + 3]), self.hour(parts[at + 3])) for at in (2, 6)]

    @staticmethod
    def west(text):
        sign = 1 if text[0] == "-" else -1
        hours, _, minutes = text.lstrip("+-").partition(":")
        return sign * (int(hours) * 3600 + int(minutes or 0) * 60)

    @staticmethod
    def hour(text):
        hours, _, minutes = text.lstrip("/").partition(":")
        return int(hours) * 3600 + int(minutes or 0) * 60 if text else 7200

    @staticmethod
    @functools.cache
    def on(year, rule):
        """The seconds since 1970 that a clock shows at a rule's change."""
        month, week, day, seconds = rule
        first = datetime.date(year, month, 1)
        shown = [first + datetime.timedelta(at) for at in range(31)]
        days = [it for it in shown if it.month == month and it.isoweekday() % 7 == day]
        chosen = days[-1] if week == 5 else days[week - 1]
        return (chosen - datetime.date(1970, 1, 1)).days * DAY + seconds

    def changes(self, year):
        """The changes of a year: each moment, with the offset from then on."""
        if self.rules is None:
            return []
        begins = self.on(year, self.rules[0]) - self.standard
        ends = self.on(year, self.rules[1]) - self.summer
        return [(begins, self.summer), (ends, self.standard)]

    def offset(self, moment):
        """How far the clock is ahead of UTC at a moment."""
        if self.rules is None:
            return self.standard
        year = datetime.datetime.fromtimestamp(moment, datetime.timezone.utc).year
        years = (year - 1, year, year + 1)
        past = [it for year in years for it in self.changes(year) if it[0] <= moment]
        return max(past)[1]

    def clock(self, moment):
        """The seconds since 1970 that the clock shows."""
        return moment + self.offset(moment)

    def date(self, moment):
        return datetime.date(1970, 1, 1) + datetime.timedelta(self.clock(moment) // DAY)

    def cycle(self, kind, moment):
        """The number of the cycle of a moment."""
        date = self.date(moment)
        if kind == "day":
            return (date - datetime.date(1969, 12, 31)).days
        return 12 * (date.year - 1969) + date.month - 1 if kind == "month" else 0

    def day_end(self, moment, days):
        """The end of the day that is so many days later, where the clock reads 00:00; in a gap or a
        fold, with the offset before the change."""
        shown = (self.clock(moment) // DAY + days + 1) * DAY
        offsets = {self.standard} if self.rules is None else {self.standard, self.summer}
        fits = [shown - it for it in offsets if self.offset(shown - it) == it]
        if fits:
            return min(fits)
        return shown - min(offsets)


class Book:
    """A tariff book, read from its text."""

    def __init__(self, text):
        told = tomllib.loads(text)
        self.zone, self.validity, self.currency = Zone(told["zone"]), told["validity"], told["currency"]
        self.week = {}
        for entry in told["week"]:
            begins, ends = (int(it[:2]) * 60 + int(it[3:]) for it in (entry["from"], entry["to"]))
            for day in entry["days"]:
                self.week.update({(day, minute): entry["period"] for minute in range(begins, ends)})
        self.groups = {group["id"]: group for group in told["group"]}
        for group in self.groups.values():
            group["tiers"] = {price["period"]: price["tiers"] for price in group["price"]}

    def period(self, moment):
        """The tariff period at a moment."""
        clock = self.zone.clock(moment - moment % MINUTE)
        return self.week[(clock // DAY + 3) % 7 + 1, clock % DAY // MINUTE]

    def other(self, moment, end):
        """The first whole minute after a moment and before an end whose period is another."""
        here = self.period(moment)
        minutes = range(moment - moment % MINUTE + MINUTE, end, MINUTE)
        return next((it for it in minutes if self.period(it) != here), None)

    def switch(self, moment):
        return self.other(moment, moment + self.validity)

    def validity_from(self, moment):
        """How long a grant is valid."""
        switch = self.switch(moment)
        second = None if switch is None else self.other(switch, moment + self.validity)
        return self.validity if second is None else second - moment

    def price(self, group, period, place):
        """The price of the block at a place of the counter."""
        tiers = self.groups[group]["tiers"][period]
        return next(it["price"] for it in tiers if it is tiers[-1] or place <= it["upto"])


class Shelf:
    """Tariff books, each from a moment on."""

    def __init__(self, text):
        self.books, self.texts = [(0, Book(text))], [text]

    def add(self, moment, text):
        self.books.append((moment, Book(text)))
        self.texts.append(text)

    def number(self, moment):
        return max(at for at, (begins, _) in enumerate(self.books, 1) if begins <= moment)

    def numbered(self, number):
        return self.books[number - 1][1]

    def at(self, moment):
        return self.numbered(self.number(moment))


class Bucket:
    """A bucket as it was credited."""

    def __init__(self, number, kind, begins, until, scope, credited):
        self.number, self.kind, self.begins, self.until = number, kind, begins, until
        self.scope, self.credited = scope, credited


class Grant:
    """A grant with what it holds."""

    def __init__(self, session, group, book, before, after, holds):
        self.session, self.group, self.book = session, group, book
        self.before, self.after, self.holds, self.ended = before, after, holds, False


class Account:
    """An account as its ledger."""

    def __init__(self, name, shelf):
        self.name, self.shelf = name, shelf
        self.barred, self.as_of = False, 0
        self.buckets, self.grants, self.uses, self.charges = [], [], [], []
        self.touches, self.closed, self.requests, self.kept = {}, set(), {}, {}

    # ---- what the ledger says at a moment

    def is_live(self, session, at):
        touched = self.touches.get(session)
        if touched is None or session in self.closed:
            return False
        return at < touched + 2 * self.shelf.at(touched).validity

    def held(self, bucket, at):
        open_grants = (it for it in self.grants if not it.ended and self.is_live(it.session, at))
        return sum(it.holds.get(bucket.number, 0) for it in open_grants)

    def charged(self, bucket):
        return sum(amount for number, amount in self.charges if number == bucket.number)

    def left(self, bucket, at):
        return bucket.credited - self.charged(bucket) - self.held(bucket, at)

    def eligible(self, kind, group, at):
        """The buckets of a kind that pay for a group, in order, with what each has available."""
        fit = [it for it in self.buckets if it.kind == kind and it.begins <= at < it.until]
        fit = [it for it in fit if it.scope in ((None, group) if kind == "money" else (group,))]
        return [(it.number, self.left(it, at)) for it in sorted(fit, key=lambda it: (it.until, it.number))]

    def funds(self, kind, group, at):
        return sum(amount for _, amount in self.eligible(kind, group, at))

    def used(self, session, group):
        return sum(it["units"] for it in self.uses if (it["session"], it["group"]) == (session, group))

    def cycle(self, group, at):
        book = self.shelf.at(at)
        return book.zone.cycle(book.groups[group]["cycle"], at)

    def counter(self, group, at):
        cycle = self.cycle(group, at)
        return sum(it["blocks"] for it in self.uses if (it["group"], it["cycle"]) == (group, cycle))

    def reservation(self, session, group):
        found = [it for it in self.grants if (it.session, it.group) == (session, group) and not it.ended]
        return found[-1] if found else None

    # ---- what calls add to it

    def credit(self, kind, begins, until, scope, amount):
        bucket = Bucket(len(self.buckets) + 1, kind, begins, until, scope, amount)
        self.buckets.append(bucket)
        return bucket.number

    def in_order(self, grant, kind):
        """What a grant holds of a kind, in the order of the buckets."""
        kinds = {it.number: it for it in self.buckets if it.kind == kind}
        held = [(kinds[number], amount) for number, amount in grant.holds.items() if number in kinds]
        return [(it.number, amount) for it, amount in sorted(held, key=lambda it: (it[0].until, it[0].number))]

    def take(self, rows, total):
        """Charges a total to buckets in this order, and says what they paid."""
        paid = shares([amount for _, amount in rows], total)
        self.charges += [(number, amount) for (number, _), amount in zip(rows, paid) if amount]
        return sum(paid)

    def rated(self, book, group, at, before, parts, covered):
        """The price of the blocks that parts start, each a pair of units and period, of which the
        first are covered; and how many they are."""
        place, price, blocks, size = self.counter(group, at), 0, 0, book.groups[group]["block"]
        for units, period in parts:
            for _ in range(started(before, units, size)):
                blocks += 1
                if blocks > covered:
                    price += book.price(group, period, place + blocks)
            before += units
        return price, blocks

    def pay(self, book, session, group, at, parts, grant):
        """Settles a use: what allowances cover of it, and what money pays of the rest."""
        held = {kind: [] if grant is None else self.in_order(grant, kind) for kind in ("blocks", "money")}
        rows = {kind: held[kind] + self.eligible(kind, group, at) for kind in ("blocks", "money")}
        before = self.used(session, group)
        blocks = self.rated(book, group, at, before, parts, 0)[1]
        covered = min(blocks, sum(amount for _, amount in rows["blocks"]))
        price = self.rated(book, group, at, before, parts, covered)[0]
        self.take(rows["blocks"], covered)
        collected = self.take(rows["money"], price)
        self.uses.append({"moment": at, "session": session, "group": group, "blocks": blocks,
                          "units": sum(units for units, _ in parts), "cycle": self.cycle(group, at),
                          "rated": price, "collected": collected, "covered": covered})

    def settle(self, session, group, at, used):
        """Settles a report, and ends the group's reservation."""
        grant = self.reservation(session, group)
        if used is not None:
            here = self.shelf.at(at)
            book = here if grant is None else self.shelf.numbered(grant.book)
            parts = []
            for tag in PARTS:
                for part in used:
                    if part.get("Tariff-Change-Usage") == tag:
                        period = here.period(at) if grant is None else grant.after if tag == 1 else grant.before
                        parts.append((next(part[it] for it in UNITS.values() if it in part), period))
            self.pay(book, session, group, at, parts, grant)
        if grant is not None:
            grant.ended = True

    def reserve(self, session, group, at, wanted):
        """The service that is answered to wanted units, of which what is covered is held."""
        book = self.shelf.at(at)
        told, switch = book.groups[group], book.switch(at)
        wanted = min(told["slice"] if wanted is None else wanted, told["max_grant"])
        before, size, place = self.used(session, group), told["block"], self.counter(group, at)
        periods = book.period(at), book.period(at if switch is None else switch)
        blocks = started(before, wanted, size)
        covered = min(blocks, self.funds("blocks", group, at))
        funds, price, paid = self.funds("money", group, at), 0, 0
        while covered + paid < blocks:
            dearer = max(book.price(group, it, place + covered + paid + 1) for it in periods)
            if price + dearer > funds:
                break
            price, paid = price + dearer, paid + 1
        is_all = covered + paid == blocks
        units = wanted if is_all else -(-before // size) * size + (covered + paid) * size - before
        if units == 0:
            return {"Rating-Group": group, "Result-Code": 4012}
        holds = {}
        for kind, total in (("blocks", covered), ("money", price)):
            rows = self.eligible(kind, group, at)
            given = shares([amount for _, amount in rows], total)
            holds |= {number: amount for (number, _), amount in zip(rows, given) if amount}
        self.grants.append(Grant(session, group, self.shelf.number(at), *periods, holds))
        granted = {UNITS[told["unit"]]: units}
        if switch is not None:
            granted["Tariff-Time-Change"] = switch
        service = {"Granted-Service-Unit": granted, "Rating-Group": group, "Result-Code": 2001,
                   "Validity-Time": book.validity_from(at)}
        if units < wanted:
            service["Final-Unit-Indication"] = final_unit(told)
        return service

    # ---- rows

    def columns(self, bucket, at):
        """What of a bucket is available, reserved, charged and expired at a moment."""
        left = self.left(bucket, at)
        available = left if at < bucket.until else 0
        return available, self.held(bucket, at), self.charged(bucket), left - available

    def bucket_rows(self):
        return [(self.name, it.number, it.begins, it.until, it.scope, it.credited, *self.columns(it, self.as_of))
                for it in self.buckets]

    def group_rows(self):
        """Rows of groups, of holds and of the books of reservations."""
        known = dict.fromkeys([(it.session, it.group) for it in self.grants]
                              + [(it["session"], it["group"]) for it in self.uses])
        groups, holds, books = [], [], []
        for session, group in known:
            grant = self.reservation(session, group) if self.is_live(session, self.as_of) else None
            periods = (0, None, None) if grant is None else (1, grant.before, grant.after)
            key = (self.name, session, group)
            groups.append((*key, self.used(session, group), *periods))
            if grant is not None:
                holds += [(*key, *it) for it in grant.holds.items()]
                books.append((*key, grant.book))
        return groups, holds, books

    def session_rows(self):
        rows = []
        for session, (number, moment) in self.requests.items():
            state = 1 if self.is_live(session, self.as_of) else 2 if session in self.touches else 3
            rows.append((self.name, session, number, moment, state))
        return rows


    # ---- texts

    def balance(self, at):
        told = []
        for it in self.buckets:
            available, reserved, charged, expired = self.columns(it, at)
            row = {"Available": available, "Charged": charged, "Credited": it.credited, "Expired": expired,
                   "From": it.begins, "Number": it.number, "Reserved": reserved, "Until": it.until}
            row |= {} if it.scope is None else {"Scope": it.scope}
            told.append(row | ({"Unit": "blocks"} if it.kind == "blocks" else {}))
        return {"Account": self.name, "Barred": self.barred, "Buckets": told, "Moment": at}

    def uses_of(self, month):
        """The uses of a month, which is six digits."""
        zone, number = self.shelf.numbered(1).zone, 12 * (int(month[:4]) - 1969) + int(month[4:]) - 1
        return [it for it in self.uses if zone.cycle("month", it["moment"]) == number]

    def statement(self, month, at):
        uses, places = self.uses_of(month), (10, 10, 10, 19, 19, 19)
        rows = [(it["moment"], it["group"], it["blocks"], *amounts_of(it)) for it in uses]
        lines = [f"ACCOUNT {self.name} MONTH {month} MOMENT {at}",
                 line_of(places, ("MOMENT", "GROUP", "BLOCKS", "RATED", "COLLECTED", "UNCOLLECTED"))]
        lines += [line_of(places, row) for row in rows]
        sums = [sum(row[at] for row in rows) for at in range(2, 6)]
        lines.append(line_of((21, 10, 19, 19, 19), ("TOTAL", *sums)))
        names = ("CREDITED", "AVAILABLE", "RESERVED", "CHARGED", "EXPIRED")
        money, blocks = ([it for it in self.buckets if it.kind == kind] for kind in ("money", "blocks"))
        lines.append(line_of((10, *[16] * 5), ("BUCKET", *names)))
        lines += [line_of((10, *[16] * 5), (it.number, it.credited, *self.columns(it, at))) for it in money]
        if blocks:
            lines.append(line_of((10, 10, *[16] * 5), ("ALLOWANCE", "GROUP", *names)))
            lines += [line_of((10, 10, *[16] * 5), (it.number, it.scope, it.credited, *self.columns(it, at)))
                      for it in blocks]
        lines.append(f"COLLECTED TO DATE {sum(self.charged(it) for it in money)}")
        if blocks:
            lines.append(f"COVERED TO DATE {sum(self.charged(it) for it in blocks)}")
        return "".join(f"{line}\n" for line in lines)

    def export(self, month):
        lines = ["moment,session,group,blocks,rated,collected,uncollected,covered"]
        for it in self.uses_of(month):
            row = (it["moment"], it["session"], it["group"], it["blocks"], *amounts_of(it), it["covered"])
            lines.append(",".join(map(str, row)))
        return "".join(f"{line}\n" for line in lines)


def amounts_of(use):
    """What a use is rated at, and what of it was collected and not."""
    return use["rated"], use["collected"], use["rated"] - use["collected"]


def line_of(places, values):
    """Values as columns, each set right."""
    return " ".join(str(value).rjust(place) for place, value in zip(places, values))


def final_unit(group):
    if group["final"] == "terminate":
        return {"Final-Unit-Action": 0}
    server = {"Redirect-Address-Type": 2, "Redirect-Server-Address": group["redirect"]}
    return {"Final-Unit-Action": 1, "Redirect-Server": server}


def content_of(asked):
    """A request's content: a refund's money in micro-units, services that aren't there as none."""
    told = json.loads(text_of(asked))
    if told["CC-Request-Type"] == TERMINATION:
        told.setdefault("Multiple-Services-Credit-Control", [])
    if told.get("Requested-Action") == REFUND:
        told["Requested-Service-Unit"]["CC-Money"]["Unit-Value"] = {"Exponent": -6, "Value-Digits": micros_of(told)}
    return text_of(told)


def micros_of(asked):
    value = asked["Requested-Service-Unit"]["CC-Money"]["Unit-Value"]
    return value["Value-Digits"] * 10 ** (6 + value.get("Exponent", 0))


class Office:
    """Accounts, vouchers and the moment of the last accepted command."""

    def __init__(self, book):
        self.shelf, self.accounts, self.vouchers, self.last = Shelf(book), {}, {}, 0

    def moment(self, handed):
        return max(handed, self.last)

    def accept(self, account, at):
        self.last = at
        if account is not None:
            account.as_of = at

    # ---- operators

    def open(self, name, handed):
        at = self.moment(handed)
        if name in self.accounts:
            return {"Refusal": "O1"}
        self.accounts[name] = Account(name, self.shelf)
        self.accept(self.accounts[name], at)
        return {"Result-Code": 2001}

    def bar(self, name, barred, handed):
        if name not in self.accounts:
            return {"Refusal": "O2"}
        account = self.accounts[name]
        account.barred = barred
        self.accept(account, self.moment(handed))
        return {"Result-Code": 2001}

    def sweep(self, handed):
        at = self.moment(handed)
        for account in self.accounts.values():
            account.as_of = at
        self.last = at
        return {"Accounts": len(self.accounts), "Result-Code": 2001}

    def referenced(self, name, content, at, make):
        """What a command with a reference is answered, which makes a bucket if nothing refuses it."""
        if name not in self.accounts:
            return {"Refusal": "O2"}
        account, told = self.accounts[name], text_of(content)
        key = (2, content["Reference"], 0)
        if key in account.kept:
            first, answer = account.kept[key]
            return json.loads(answer) if first == told else {"Refusal": "O5"}
        made = make(account)
        if isinstance(made, str):
            return {"Refusal": made}
        answer = {"Bucket": made, "Result-Code": 2001}
        account.kept[key] = told, text_of(answer)
        self.accept(account, at)
        return answer

    def give(self, name, kind, content, handed):
        """A credit of money or of blocks."""
        at = self.moment(handed)

        def make(account):
            begins, until = content.get("From", at), content.get("Until", NO_END)
            if begins >= until or until <= at:
                return "O6"
            scope = content.get("Scope")
            if kind == "blocks" and scope not in self.shelf.at(at).groups:
                return "O7"
            amount = content["Amount" if kind == "money" else "Blocks"]
            return account.credit(kind, begins, until, scope, amount)

        return self.referenced(name, content, at, make)

    def load(self, code, amount, days, scope, handed):
        """A voucher is added: whether it is new, was there, or is there with other terms."""
        terms = (amount, days, scope)
        if code in self.vouchers:
            return "present" if self.vouchers[code][0] == terms else "conflicting"
        self.vouchers[code] = [terms, None]
        self.accept(None, self.moment(handed))
        return "new"

    def redeem(self, code, name, reference, handed):
        at = self.moment(handed)

        def make(account):
            if code not in self.vouchers:
                return "O3"
            (amount, days, scope), spent = self.vouchers[code]
            if spent is not None:
                return "O4"
            until = NO_END if days is None else self.shelf.at(at).zone.day_end(at, days)
            if days is not None and until >= NO_END:
                return "O6"
            self.vouchers[code][1] = name
            return account.credit("money", at, until, scope, amount)

        content = {"Reference": reference, "Subscription-Id-Data": name, "Voucher-Code": code}
        return self.referenced(name, content, at, make)

    # ---- requests

    def ask(self, asked, handed):
        """What a request is answered, as a text."""
        at = self.moment(handed)
        name = asked["Subscription-Id"]["Subscription-Id-Data"]
        told = {it: asked[it] for it in ("Session-Id", "CC-Request-Type", "CC-Request-Number")}
        account = self.accounts.get(name)
        if account is None:
            return text_of(told | {"Result-Code": 5030})
        is_read = asked.get("Requested-Action") in (CHECK, ENQUIRY)
        key, content = (1, asked["Session-Id"], asked["CC-Request-Number"]), content_of(asked)
        if not is_read and key in account.kept:
            if account.kept[key][0] == content:
                return account.kept[key][1]
            return text_of(told | {"Failed-AVP": "CC-Request-Number", "Result-Code": 5004})
        refused = self.refusal(account, asked, at, is_read)
        if refused is not None:
            return text_of(told | refused)
        answer = text_of(told | self.decide(account, asked, at))
        if not is_read:
            account.kept[key] = content, answer
            account.requests[asked["Session-Id"]] = asked["CC-Request-Number"], at
            self.accept(account, at)
        return answer

    def refusal(self, account, asked, at, is_read):
        """Why a request is refused, if it is."""
        kind, session, number = (asked[it] for it in ("CC-Request-Type", "Session-Id", "CC-Request-Number"))
        if not is_read and kind in (INITIAL, EVENT) and session in account.requests:
            return {"Failed-AVP": "Session-Id", "Result-Code": 5004}
        if kind in (UPDATE, TERMINATION):
            if not account.is_live(session, at):
                return {"Result-Code": 5002}
            if number <= account.requests[session][0]:
                return {"Failed-AVP": "CC-Request-Number", "Result-Code": 5004}
        if asked.get("Requested-Action") == REFUND:
            money = asked["Requested-Service-Unit"]["CC-Money"]
            if money["Currency-Code"] != self.shelf.at(at).currency:
                return {"Failed-AVP": "Currency-Code", "Result-Code": 5004}
            return None
        for service in asked.get("Multiple-Services-Credit-Control", []):
            failed = self.units_failed(account, asked, service, at)
            if failed is not None:
                return {"Failed-AVP": failed, "Result-Code": 5004}
        return None

    def units_failed(self, account, asked, service, at):
        """The member of a service whose units don't fit its group, if one doesn't."""
        group = self.shelf.at(at).groups.get(service["Rating-Group"])
        if group is None:
            return None
        unit, size = UNITS[group["unit"]], group["block"]
        wanted = service.get("Requested-Service-Unit")
        if wanted is not None:
            if any(it in wanted for it in UNITS.values()) and unit not in wanted:
                return "Requested-Service-Unit"
            asks = wanted.get(unit, group["slice"])
            if asked["CC-Request-Type"] == EVENT and -(-asks // size) > MOST_BLOCKS:
                return "Requested-Service-Unit"
        used = service.get("Used-Service-Unit")
        if used is not None:
            if any(unit not in part for part in used):
                return "Used-Service-Unit"
            before, units = account.used(asked["Session-Id"], group["id"]), sum(part[unit] for part in used)
            if -(-(before + units) // size) + -before // size > MOST_BLOCKS:
                return "Used-Service-Unit"
        return None

    def decide(self, account, asked, at):
        kind = asked["CC-Request-Type"]
        if kind == EVENT:
            return self.event(account, asked, at)
        services = asked.get("Multiple-Services-Credit-Control", [])
        if kind == INITIAL:
            return self.initial(account, asked["Session-Id"], services, at)
        return self.going_on(account, asked["Session-Id"], services, at, kind)

    def wanted(self, service):
        return next((service["Requested-Service-Unit"][it] for it in UNITS.values()
                     if it in service["Requested-Service-Unit"]), None)

    def granted(self, account, session, service, at):
        group = service["Rating-Group"]
        if group not in self.shelf.at(at).groups:
            return {"Rating-Group": group, "Result-Code": 5031}
        if account.barred:
            return {"Rating-Group": group, "Result-Code": 4010}
        return account.reserve(session, group, at, self.wanted(service))

    def initial(self, account, session, services, at):
        if account.barred:
            return {"Result-Code": 4010}
        account.touches[session] = at
        told = [self.granted(account, session, service, at) for service in services]
        if all(it["Result-Code"] != 2001 for it in told):
            del account.touches[session]
            return {"Result-Code": told[0]["Result-Code"]}
        return {"Multiple-Services-Credit-Control": told, "Result-Code": 2001}

    def going_on(self, account, session, services, at, kind):
        groups = self.shelf.at(at).groups
        for service in services:
            if service["Rating-Group"] in groups:
                account.settle(session, service["Rating-Group"], at, service.get("Used-Service-Unit"))
        account.touches[session] = at
        told = []
        for service in services:
            group = service["Rating-Group"]
            if "Requested-Service-Unit" in service:
                told.append(self.granted(account, session, service, at))
            else:
                told.append({"Rating-Group": group, "Result-Code": 2001 if group in groups else 5031})
        if kind == TERMINATION:
            for grant in account.grants:
                grant.ended = grant.ended or grant.session == session
            account.closed.add(session)
        return {"Multiple-Services-Credit-Control": told, "Result-Code": 2001}

    def event(self, account, asked, at):
        action = asked["Requested-Action"]
        if action == REFUND:
            account.credit("money", at, NO_END, None, micros_of(asked))
            return {"Result-Code": 2001}
        service, book = asked["Multiple-Services-Credit-Control"][0], self.shelf.at(at)
        group = service["Rating-Group"]
        if action == DEBIT and account.barred:
            return {"Result-Code": 4010}
        if group not in book.groups:
            return {"Result-Code": 5031}
        told = book.groups[group]
        units = self.wanted(service) or told["slice"]
        parts, blocks = [(units, book.period(at))], started(0, units, told["block"])
        covered = 0 if action == ENQUIRY else min(blocks, account.funds("blocks", group, at))
        price = account.rated(book, group, at, 0, parts, covered)[0]
        if action == ENQUIRY:
            cost = {"Currency-Code": book.currency, "Unit-Value": {"Exponent": -6, "Value-Digits": price}}
            return {"Cost-Information": cost, "Result-Code": 2001}
        is_paid = price <= account.funds("money", group, at)
        if action == CHECK:
            return {"Check-Balance-Result": 0 if is_paid else 1, "Result-Code": 2001}
        if not is_paid:
            return {"Result-Code": 4012}
        account.pay(book, asked["Session-Id"], group, at, parts, None)
        granted = {"Granted-Service-Unit": {UNITS[told["unit"]]: units}, "Rating-Group": group, "Result-Code": 2001}
        return {"Multiple-Services-Credit-Control": [granted], "Result-Code": 2001}

    # ---- rows

    def tables(self):
        """The rows of each table, with all columns in their order."""
        tables = {it: [] for it in ("accounts", "buckets", "counters", "sessions", "session_groups", "holds",
                                    "answers", "charges", "grant_books", "allowance_buckets", "covered")}
        for name, account in self.accounts.items():
            tables["accounts"].append((name, int(account.barred), account.as_of, len(account.buckets) + 1,
                                       len(account.uses) + 1))
            tables["buckets"] += account.bucket_rows()
            tables["allowance_buckets"] += [(name, it.number) for it in account.buckets if it.kind == "blocks"]
            cycles = dict.fromkeys((it["group"], it["cycle"]) for it in account.uses)
            for group, cycle in cycles:
                of_it = (it["blocks"] for it in account.uses if (it["group"], it["cycle"]) == (group, cycle))
                tables["counters"].append((name, group, cycle, sum(of_it)))
            tables["sessions"] += account.session_rows()
            for table, rows in zip(("session_groups", "holds", "grant_books"), account.group_rows()):
                tables[table] += rows
            tables["answers"] += [(name, *key, *texts) for key, texts in account.kept.items()]
            for number, it in enumerate(account.uses, 1):
                tables["charges"].append((name, number, it["moment"], it["session"], it["group"], it["blocks"],
                                          *amounts_of(it)))
                if it["covered"]:
                    tables["covered"].append((name, number, it["covered"]))
        later = zip(self.shelf.books[1:], self.shelf.texts[1:])
        tables["books"] = [(number, begins, text) for number, ((begins, _), text) in enumerate(later, 2)]
        tables["meta"] = [(1, LATEST, self.shelf.texts[0], self.last)]
        tables["vouchers"] = [(code, *terms, spent) for code, (terms, spent) in self.vouchers.items()]
        return tables

"""What subscribers of an office ask for in a day: requests as their gateways send them.

Each subscriber draws from a source of chance of its own, so that a seed gives the same day again as
long as the program answers the same."""
import random

from ledgers import (
    CHECK, DEBIT, ENQUIRY, EVENT, INITIAL, REFUND, TERMINATION, UNITS, UPDATE,
)
from offices import subscription

MIB = 1 << 20
# What is wanted of a group at once, by its kind of unit.
WANTED = {"time": (30, 1800), "octets": (MIB // 2, 60 * MIB), "events": (1, 6)}
AMOUNTS = (250_000, 1_000_000, 5_000_000, 20_000_000)
# Free blocks that are given at once.
FREE = (1, 120)
DONE = 2001


def vouchers(chance, count):
    """Vouchers under their codes: an amount, days or none, a scope or none."""
    codes = chance.sample(range(10**11), count)
    return {
        f"{code:012}": (
            chance.choice(AMOUNTS),
            chance.choice((None, 1, 30, 90)),
            chance.choice((None, None, 10, 20, 30)),
        )
        for code in codes
    }


def is_read(asked):
    """Whether a request only reads: it is answered anew each time."""
    return asked.get("Requested-Action") in (CHECK, ENQUIRY)


class Subscriber:
    """An account and who uses it: at most one session at a time, and events."""

    def __init__(self, shelf, number, seed):
        self.chance = random.Random(f"{seed} {number}")
        self.shelf, self.number = shelf, number
        self.book, self.session = shelf.at(0), None
        self.given = self.credits = self.allowances = self.cards = 0

    def happens(self, share):
        """Whether something happens that does so this often."""
        return self.chance.random() < share

    def credit(self, moment, amount, hours=None, scope=None):
        """A credit's body; its money ends so many hours later."""
        self.credits += 1
        body = {"Amount": amount, "Reference": f"cash-{self.credits}"}
        if hours:
            body["Until"] = moment + hours * 3600
        if scope is not None:
            body["Scope"] = scope
        return body

    def allowance(self, moment, group):
        """An allowance's body; at times its blocks end within some hours."""
        self.allowances += 1
        body = {"Blocks": self.chance.randint(*FREE), "Scope": group}
        body["Reference"] = f"free-{self.allowances}"
        if self.happens(0.5):
            body["Until"] = moment + self.chance.randint(1, 10 * 3600)
        return body

    def any_group(self, moment):
        """A group of the book of a moment."""
        return self.chance.choice(sorted(self.shelf.at(moment).groups))

    def reference(self):
        """The reference of a redemption."""
        self.cards += 1
        return f"card-{self.cards}"

    def first_credits(self, moment):
        """What the account is given in the morning: money, and for some a gift with an end."""
        yield self.credit(moment, self.chance.choice(AMOUNTS))
        if self.happens(0.5):
            hours, scope = self.chance.randint(2, 30), self.chance.choice((None, 10, 20, 30))
            yield self.credit(moment, self.chance.randint(1, 2_000_000), hours, scope)

    def requests(self, moment):
        """The requests of a moment, each to be sent once the one before it is answered. Groups are
        those of the book of the moment."""
        self.book = self.shelf.at(moment)
        if self.session is None and self.happens(0.2):
            yield self.initial()
        elif self.session is not None and self.happens(0.7):
            yield self.report(moment)
        if self.happens(0.12):
            yield from self.events()

    def unit(self, group):
        """The name of the member that has a group's units."""
        return UNITS[self.book.groups[group]["unit"]]

    def name(self, kind):
        """A new Session-Id."""
        self.given += 1
        return f"{self.number};{kind};{self.given}"

    def request(self, name, kind, number, **members):
        """A request of this account."""
        told = {"Session-Id": name, "CC-Request-Type": kind, "CC-Request-Number": number}
        told["Subscription-Id"] = subscription(self.number)
        return told | {key.replace("_", "-"): value for key, value in members.items()}

    def wanted(self, group):
        """Units of a group that are asked for; at times its slice."""
        kind = self.book.groups[group]["unit"]
        if self.happens(0.2):
            return {}
        return {self.unit(group): self.chance.randint(*WANTED[kind])}

    def initial(self):
        """An initial request of one or two groups."""
        groups = self.chance.sample(sorted(self.book.groups), self.chance.choice((1, 1, 1, 2)))
        services = [
            {"Rating-Group": group, "Requested-Service-Unit": self.wanted(group)}
            for group in groups
        ]
        return self.request(
            self.name("call"), INITIAL, 0, Multiple_Services_Credit_Control=services)

    def report(self, moment):
        """An update or the termination of the session, with what was used since the last."""
        name, number, groups, _ = self.session
        kind = UPDATE if self.happens(0.6) else TERMINATION
        named = groups[1:] if len(groups) > 1 and self.happens(0.2) else groups
        services = [self.service(kind, group, moment) for group in named]
        return self.request(name, kind, number + 1, Multiple_Services_Credit_Control=services)

    def service(self, kind, group, moment):
        """What one group used, and what it asks for next."""
        told = {"Rating-Group": group}
        if self.happens(0.95):
            told["Used-Service-Unit"] = self.used(group, moment)
        if kind == UPDATE and self.happens(0.9):
            told["Requested-Service-Unit"] = self.wanted(group)
        return told

    def used(self, group, moment):
        """The parts of a report: mostly within the grant, two where a switch was passed."""
        units, switch = self.session[3].get(group, (0, None))
        unit, block = self.unit(group), self.book.groups[group]["block"]
        amount = units if self.happens(0.3) else self.chance.randint(0, units)
        if self.happens(0.05):
            amount += self.chance.randint(1, 3 * block)
        if switch is None or moment < switch:
            return [{unit: amount}]
        before = self.chance.randint(0, amount)
        return [
            {unit: before, "Tariff-Change-Usage": 0},
            {unit: amount - before, "Tariff-Change-Usage": 1},
        ]

    def events(self):
        """An event; a debit comes after a check of the same units."""
        action = self.chance.choice((DEBIT, DEBIT, DEBIT, REFUND, ENQUIRY))
        if action == REFUND:
            yield self.refund()
            return
        group = self.chance.choice(sorted(self.book.groups))
        units = self.wanted(group)
        for each in (CHECK, DEBIT) if action == DEBIT else (ENQUIRY,):
            service = {"Rating-Group": group, "Requested-Service-Unit": units}
            yield self.request(
                self.name("event"), EVENT, 0, Requested_Action=each,
                Multiple_Services_Credit_Control=[service])

    def refund(self):
        """Some money back."""
        value = {"Value-Digits": self.chance.randint(1, 99), "Exponent": -self.chance.randint(2, 6)}
        money = {"Unit-Value": value, "Currency-Code": self.book.currency}
        return self.request(
            self.name("refund"), EVENT, 0, Requested_Action=REFUND,
            Requested_Service_Unit={"CC-Money": money})

    def heard(self, asked, answer):
        """Notes the session's grants, or that there is none any more."""
        kind, done = asked["CC-Request-Type"], answer["Result-Code"] == DONE
        if kind == EVENT:
            return
        if not done or kind == TERMINATION or self.happens(0.03):
            self.session = None
            return
        _, _, groups, grants = self.session or (None, None, [], {})
        for service in answer["Multiple-Services-Credit-Control"]:
            group, units = service["Rating-Group"], service.get("Granted-Service-Unit", {})
            told = units.get(self.unit(group), 0), units.get("Tariff-Time-Change")
            grants = {**grants, group: told}
        groups = groups or list(grants)
        self.session = asked["Session-Id"], asked["CC-Request-Number"], groups, grants

#!/usr/bin/env python3
"""make_rows.py OUT : the rows of day_sheet, always the same, sorted by agent, customer, modem, time.
make_rows.py OUT second : those of a second record file, of another office.

67-byte records, no newlines: agent 16, customer 20, modem 10, time 5 characters; amount sign and 8 digits,
commission sign and 6 digits, both in hundredths.
"""
import sys

AGENTS = [  # name, commission in thousandths, customers
    ("ALDER AND SONS", 30, ["BRIDGE FERRY", "FEN MILL", "HARBOUR OFFICE", "OLD PUMP HOUSE"]),
    ("BIRCH WIRELESS", 25, ["CANAL STREET 4", "GLASSWORKS", "NORTH DEPOT", "QUARRY ROAD SHOP", "TANNERY"]),
    ("CURLEW BAY KIOSK", 40, ["BEACH CAFE", "LIGHTHOUSE"]),
    ("DUNLIN TRADE", 28, ["CORN EXCHANGE", "DAIRY", "MARKET HALL", "SADDLER", "WEST GATE GARAGE"]),
    ("EIDER SUPPLY", 35, ["ICE HOUSE", "NET LOFT", "SLIPWAY"]),
    ("FULMAR STORES", 30, ["BAKERY", "POST OFFICE", "STATION BUFFET", "TOWN LIBRARY"]),
]
OFFICE = [
    ("GANNET PHONES", 30, ["CLIFF HOTEL", "PIER HEAD"]),
    ("HERON POINT", 25, ["BOATYARD", "LOCK COTTAGE", "REED MILL"]),
]
AMOUNTS = [500, 500, 1000, 1000, 1000, 1500, 2000, 2000, 2500, 3000, 5000, 10000]

seed = 20240602


def draw(n):
    """A number below n (a plain linear congruential generator)."""
    global seed
    seed = (seed * 1103515245 + 12345) % 2**31
    return (seed >> 16) % n


def rows(agents):
    modem = 10400
    for agent, rate, customers in agents:
        for customer in customers:
            for _ in range(1 + draw(4)):
                modem += 1 + draw(9)
                minute = 7 * 60 + draw(120)
                for _ in range(1 + draw(8)):
                    minute += 5 + draw(90)
                    amount = AMOUNTS[draw(len(AMOUNTS))]
                    if draw(25) == 0:
                        amount = -amount  # taken back
                    size = (abs(amount) * rate + 500) // 1000
                    commission = size if amount > 0 else -size
                    time = "%02d:%02d" % divmod(minute, 60)
                    yield "%-16s%-20s%-10s%-5s%+09d%+07d" % (
                        agent, customer, "MD-%05d" % modem, time, amount, commission)


with open(sys.argv[1], "w", newline="") as out:
    for row in rows(OFFICE if sys.argv[2:] == ["second"] else AGENTS):
        assert len(row) == 67
        out.write(row)

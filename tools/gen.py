#!/usr/bin/env python3
"""Writes a seeded sheet of bench records on standard output.

usage: gen.py SEED LINES [--wild]

The sheet has LINES lines: short scenes of good records, about a quarter of
the lines spoilt in one way or another. --wild mixes in lines of random bytes.
The last line feed is sometimes left out.
"""

import random
import sys

ALL = (1 << 62) - 1
CODES = ["02", "20", "52", "D8", "C7"]
GOOD_BYTES = [9] + list(range(0x20, 0x7F))
BAD_BYTES = [b for b in range(256) if b not in GOOD_BYTES and b != 10]
NOT_HEX = "/:@G`afgz -+.xO~"
NOT_DECIMAL = "/:AFa -+.,eO~"
WORDS = [
    "", " ", "reach", "lift", "restore", "open", "writeoff", "Chip", "CHIP", "chip ",
    " chip", "chi", "chips", "Look", "LOOK", "look ", " look", "loo", "looks", "Key",
    "key ", "ke", "keys", "Power", "power ", "powe", "powers", "Judge", "judge ",
    "judg", "judges", "no", "ok", "seen", "#", "chip,JW", "key 1", "judge 20 000000",
]
# Bits each register can show, part by part; WEL and BUSY can't be given.
BITS = {"JW": (0xFC, 0xFB, 0xE4), "XA": (0xBC, 0x00, 0x00)}


def unit_start(unit):
    if unit < 16:
        return unit << 12
    if unit < 46:
        return (unit - 15) << 16
    return 0x1F0000 + ((unit - 46) << 12)


# The first and last bytes of every unit, and those of the 32 KB halves.
EDGES = sorted(
    {unit_start(u) for u in range(62)}
    | {a for a in range(0, 0x200000, 0x8000)}
    | {unit_start(u) - 1 for u in range(1, 62)}
    | {a - 1 for a in range(0x8000, 0x200001, 0x8000)}
)


class Deck:
    """Deals every card once before any comes again."""

    def __init__(self, rng, cards):
        self.rng, self.cards, self.left = rng, list(cards), []

    def deal(self):
        if not self.left:
            self.left = self.cards[:]
            self.rng.shuffle(self.left)
        return self.left.pop()


class Sheet:
    def __init__(self, seed, wild):
        rng = self.rng = random.Random(seed)
        self.wild = wild
        self.spoil_rate = rng.choice([0.25, 0.25, 0.25, 0.1, 0.4])
        self.carries = Deck(rng, range(201))
        self.small = Deck(rng, range(8))
        self.table = Deck(rng, [("JW", c) for c in range(64)] + [("XA", c) for c in range(16)])
        self.bits = Deck(
            rng,
            [(p, r, b) for p in BITS for r in range(3) for b in range(8)]
            + [(p, 3, b) for p in BITS for b in range(64)],
        )
        self.units = Deck(rng, range(62))
        self.edges = Deck(rng, EDGES)
        self.words = Deck(rng, WORDS)
        self.bad = Deck(rng, BAD_BYTES)
        self.codes = Deck(rng, [f"{c:02X}" for c in range(256) if f"{c:02X}" not in CODES])
        self.faults = Deck(rng, [1, 1, 2, 3, 3] + [4] * 8 + [5, 5])
        self.line_faults = Deck(rng, range(8))
        self.field_faults = Deck(
            rng,
            [("chip", f) for f in range(1, 9) for _ in range(4)]
            + [("key", 1)] * 4
            + [("judge", f) for f in (1, 2) for _ in range(4)],
        )
        self.scenes = Deck(
            rng, [self.at_cost] * 4 + [self.of_table] * 3 + [self.of_locks] * 2 + [self.of_bits] * 2
            + [self.of_power] * 2 + [self.loose] * 4 + [self.blind]
        )

    # Good records, as lists of fields

    def chip(self, part=None, sr=None, locks=None, wp=None, slow=None, carry=None):
        rng = self.rng
        part = part or rng.choice(["JW", "JW", "XA"])
        if sr is None:
            sr = [rng.getrandbits(8) & bits for bits in BITS[part]]
        if locks is None:
            locks = self.lock_set()
        if part == "XA":
            locks = 0
        if wp is None:
            wp = rng.getrandbits(1)
        if slow is None:
            slow = rng.choice([0, 1, 9, 10, 99, 100, 999, 1000, rng.randint(0, 1000)])
        if carry is None:
            carry = rng.choice([
                1000000, 999999, 100000, rng.randint(0, 1000000), rng.randint(200, 9999),
                66 * rng.randint(1, 9) + rng.randint(-1, 1),
            ])
        return ["chip", part] + [f"{r:02X}" for r in sr] + [
            f"{locks:016X}", str(wp), str(slow), str(carry)
        ]

    def lock_set(self):
        rng = self.rng
        kind = rng.randrange(7)
        if kind == 0:
            return ALL
        if kind == 1:
            return 0
        if kind == 2:
            return 1 << self.units.deal()
        if kind == 3:
            return ALL ^ (1 << self.units.deal())
        if kind == 4:
            low, high = sorted((rng.randrange(62), rng.randrange(62)))
            return ((2 << high) - 1) & ~((1 << low) - 1)
        if kind == 5:
            return rng.getrandbits(62) & rng.getrandbits(62) & rng.getrandbits(62)
        return rng.getrandbits(62)

    def judge(self, address=None, code=None):
        rng = self.rng
        if address is None:
            address = self.edges.deal() if rng.random() < 0.7 else rng.randrange(0x200000)
        return ["judge", code or rng.choice(CODES + CODES[:4]), f"{address:06X}"]

    def key(self):
        return ["key", str(self.rng.getrandbits(1))]

    # Scenes

    def at_cost(self):
        """The cable goes down at every place around what looking costs."""
        part = self.rng.choice(["JW", "JW", "XA"])
        carry = self.small.deal() if part == "XA" else self.carries.deal()
        yield self.chip(part, carry=carry)
        for _ in range(self.rng.randint(1, 5)):
            yield ["look"]
            yield self.judge()
            if self.rng.random() < 0.2:
                yield ["power"]
        yield ["look"]

    def of_table(self):
        """A row of the protection table, judged at the ends of what it covers."""
        part, code = self.table.deal()
        sr = [self.rng.getrandbits(8) & bits for bits in BITS[part]]
        sr[0] = sr[0] & 0x80 | (code & 31) << 2
        sr[1] = sr[1] & 0xBF | (code & 32) << 1
        sr[2] &= 0xFB
        yield self.chip(part, sr, carry=self.rng.choice([300, 5000, 1000000]))
        yield ["look"]
        k, size = code % 8, 0
        if 1 <= k <= 5:
            size = 0x1000 << min(k - 1, 3) if code & 16 else 0x10000 << (k - 1)
        edge = size if code & 8 else 0x200000 - size
        for address in (edge - 1, edge, edge - 0x1000, edge + 0xFFF):
            for command in self.rng.sample(CODES, 3):
                yield self.judge(address % 0x200000, command)
        if self.rng.random() < 0.5:
            yield ["power"]
            yield ["look"]

    def of_locks(self):
        """Lock bits in force, judged around one of their units."""
        rng = self.rng
        sr = [rng.getrandbits(8) & bits for bits in BITS["JW"]]
        sr[2] |= 4
        locks = self.lock_set()
        yield self.chip("JW", sr, locks, carry=rng.choice([66, 132, 133, 1000]))
        yield ["look"]
        for _ in range(rng.randint(3, 8)):
            start = unit_start(rng.randrange(62))
            yield self.judge((start + rng.choice([-1, 0, 0xFF, 0x100, 0xFFF, 0x1000])) % 0x200000)
        yield self.key()
        yield self.judge()
        if rng.random() < 0.6:
            yield ["power"]
            yield self.judge()
            yield ["look"]
            yield self.judge()

    def of_bits(self):
        """One bit alone in one register; some can't be set, so are refused."""
        part, register, bit = self.bits.deal()
        sr, locks = [0, 0, 0], 0
        if register < 3:
            sr[register] = 1 << bit
        else:
            locks = 1 << bit
            if part == "JW":
                sr[2] = 4
        line = self.chip(part, sr, 0)
        line[5] = f"{locks:016X}"
        yield line
        yield ["look"]
        yield self.judge()
        yield ["power"]
        yield ["look"]
        yield self.judge()

    def of_power(self):
        """Registers before and after the power goes."""
        rng = self.rng
        part = rng.choice(["JW", "JW", "JW", "XA"])
        sr = [rng.getrandbits(8) & bits for bits in BITS[part]]
        if part == "JW":
            sr[1] |= rng.choice([0x01, 0x80, 0x81, 0x41, 0xC0])
        yield self.chip(part, sr, carry=rng.choice([132, 197, 198, 1000, 1000000]))
        yield rng.choice([["look"], ["power"], self.judge()])
        for _ in range(rng.randint(1, 3)):
            yield ["power"]
            if rng.random() < 0.4:
                yield self.key()
            if rng.random() < 0.4:
                yield self.judge()
            yield ["look"]
            yield self.judge()

    def loose(self):
        for _ in range(self.rng.randint(3, 12)):
            pick = self.rng.random()
            if pick < 0.08:
                yield self.chip()
            elif pick < 0.35:
                yield ["look"]
            elif pick < 0.45:
                yield self.key()
            elif pick < 0.53:
                yield ["power"]
            else:
                yield self.judge()

    def blind(self):
        """Everything before the first look."""
        if self.rng.random() < 0.5:
            yield self.chip()
        yield self.judge()
        yield self.key()
        yield self.judge()
        yield ["power"]
        yield self.judge()
        yield ["look"]
        yield self.judge()

    # Faults

    def sample(self, word):
        return {"chip": self.chip, "judge": self.judge, "key": self.key}[word]()

    def spoil(self, fields):
        """Bytes of a line that is to be refused, made of a good one if that can be."""
        rng = self.rng
        fault = self.faults.deal()
        if fault == 1:
            return self.spoil_line("\t".join(fields).encode())
        if fault == 2:
            word = self.words.deal()
            if word == "reach" and rng.random() < 0.8:
                fields = ["reach", rng.choice(["now", "kept"]), "1F0000-1FFFFF"]
            elif rng.random() < 0.5:
                fields = [word] + fields[1:]
            else:
                fields = [word]
        elif fault == 3:
            fields = self.spoil_count(fields)
        elif fault == 5:
            address = rng.choice([
                0x200000, 0x200001, 0xFFFFFF, 0x2FFFFF, 0x1FFFFF + (1 << rng.randrange(22)),
                rng.randrange(0x200000, 0x1000000),
            ])
            fields = self.judge(address)
            if rng.random() < 0.1:
                fields[1] = self.codes.deal()
        else:
            word, at = self.field_faults.deal()
            if fields[0] != word:
                fields = self.sample(word)
            fields = self.spoil_field(fields[:], at)
            if rng.random() < 0.15:
                fields = self.spoil_field(fields, rng.randrange(1, len(fields)))
            if rng.random() < 0.05:
                fields = self.spoil_count(fields)
        return "\t".join(fields).encode()

    def spoil_line(self, line):
        rng = self.rng
        kind = self.line_faults.deal()

        def put(byte, line):
            at = rng.randint(0, len(line))
            return line[:at] + bytes([byte]) + line[at + rng.getrandbits(1):]

        def filled(length):
            filler = rng.choice([b"x", b"\t", b" ", bytes(rng.choices(GOOD_BYTES, k=length))])
            return (line + filler * length)[:length]

        if kind == 0:
            return line + b"\r"
        if kind in (1, 2):
            return put(self.bad.deal(), line)
        if kind == 3:
            return put(self.bad.deal(), put(self.bad.deal(), line))
        if kind == 4:
            return filled(rng.choice([199, 200, 200, 201, 201, 202]))
        if kind == 5:
            return filled(rng.randint(201, 600))
        long = bytearray(filled(rng.randint(196, 420)))
        for _ in range(rng.randint(1, 2)):
            at = rng.choice([rng.randrange(195, min(len(long), 205)), rng.randrange(len(long))])
            long[at] = self.bad.deal()
        return bytes(long)

    def spoil_count(self, fields):
        rng = self.rng
        fields = fields[:]
        kind = rng.randrange(6)
        if kind == 0 and len(fields) > 1:
            del fields[rng.randrange(1, len(fields))]
        elif kind == 1 and len(fields) > 1:
            fields = fields[: rng.randrange(1, len(fields))]
        elif kind == 2:
            fields.insert(rng.randint(1, len(fields)), "")
        elif kind == 3:
            fields += [""] * rng.randint(1, 4)
        elif kind == 4:
            extra = rng.choice(["0", "1", "00", "look", " ", "chip"])
            fields.insert(rng.randint(1, len(fields)), extra)
        else:
            fields += rng.choice([["1"], fields, ["x"] * rng.randint(1, 90)])
        return fields

    def spoil_field(self, fields, at):
        word = fields[0]
        if word == "chip" and at == 1:
            fields[at] = self.rng.choice(
                ["", "J", "W", "X", "jw", "xa", "Jw", "xA", "JA", "XW", "WJ", "JX", "AX", "JWJ",
                 "JW ", " JW", "  ", "XAX", "EF8015", "0", "JWXA"]
            )
        elif word == "chip" and at in (7, 8):
            digits, most = (4, 1000) if at == 7 else (7, 1000000)
            fields[at] = self.spoil_decimal(fields[at], digits, most)
        else:
            fields[at] = self.spoil_hex(fields, at)
        return fields

    def wrong_bytes(self, text, choices):
        text = list(text)
        for _ in range(self.rng.choice([1, 1, 1, 2, 3])):
            if text:
                text[self.rng.randrange(len(text))] = self.rng.choice(choices)
        return "".join(text)

    def wrong_length(self, text):
        rng = self.rng
        text = rng.choice([
            "", text[:-1], text[1:], text + "0", "0" + text, text + text, text + " ", " " + text,
            "0" * rng.randint(1, 18), text + "G",
        ])
        return self.wrong_bytes(text, NOT_HEX) if rng.random() < 0.2 else text

    def spoil_hex(self, fields, at):
        rng = self.rng
        word, text, kind = fields[0], fields[at], rng.randrange(4)
        if kind == 0:
            return self.wrong_length(text)
        if kind == 1:
            return self.wrong_bytes(text, NOT_HEX)
        if word == "key" or word == "chip" and at == 6:
            return rng.choice("23456789ABCDEF")
        if word == "judge":
            return self.codes.deal() if at == 1 else f"{rng.randrange(0x200000, 0x1000000):06X}"
        bits = 64 if at == 5 else 8
        allowed = BITS[fields[1]][at - 2] if at < 5 and fields[1] in BITS else ALL
        if fields[1] == "XA" and at == 5:
            allowed = 0
        wrong = [b for b in range(bits) if not allowed >> b & 1] or [0]
        try:
            value = int(text, 16)
        except ValueError:
            value = 0
        value = value & (1 << bits) - 1 | 1 << rng.choice(wrong)
        if kind == 2:
            value = 1 << rng.choice(wrong)
        return f"{value:0{bits // 4}X}"

    def spoil_decimal(self, text, digits, most):
        rng = self.rng
        return rng.choice([
            lambda: "",
            lambda: "0" * rng.randint(2, digits + 1),
            lambda: "0" * rng.randint(1, max(1, digits - len(text))) + text,
            lambda: str(most + 1),
            lambda: str(rng.randint(most + 1, 10 ** digits - 1)),
            lambda: str(rng.randint(10 ** digits, 10 ** (digits + 2))),
            lambda: self.wrong_bytes(text, NOT_DECIMAL),
            lambda: self.wrong_bytes(str(rng.randint(most + 1, 10 ** digits - 1)), NOT_DECIMAL),
            lambda: "0" + rng.choice("AaGx ."),
            lambda: "0" * (digits - 1) + rng.choice("AF-"),
            lambda: "+" + text[:digits - 1],
            lambda: "-" + text[:digits - 1],
            lambda: str(2 ** rng.choice([31, 32, 63, 64])),
        ])()

    def garbage(self):
        rng = self.rng
        choices = rng.choice([
            list(range(256)), GOOD_BYTES, list(b"0123456789ABCDEF\t"), list(b"chiploke\t powrjudg01"),
        ])
        line = bytes(rng.choices(choices, k=rng.choice([rng.randint(0, 20), rng.randint(0, 260)])))
        if rng.random() < 0.3:
            heads = [b"chip\t", b"look", b"key\t", b"power", b"judge\t", b"judge\t20\t", b"chip\tJW\t"]
            line = rng.choice(heads) + line
        return line.replace(b"\n", b"")

    def lines(self):
        for fields in self.records():
            if self.wild and self.rng.random() < 0.1:
                yield self.garbage()
            if self.rng.random() < self.spoil_rate:
                yield self.spoil(fields)
                if self.rng.random() < 0.5:
                    continue
            yield "\t".join(fields).encode()

    def records(self):
        """Good records without end, now and then with no chip among the first."""
        for _ in range(self.rng.choice([0, 0, 2, 8, 60])):
            yield self.rng.choice([["look"], ["power"], self.key(), self.judge(), self.judge()])
        while True:
            yield from self.scenes.deal()()


def main():
    words = [word for word in sys.argv[1:] if word != "--wild"]
    if len(words) != 2:
        sys.exit(__doc__)
    seed, count = map(int, words)
    sheet = Sheet(seed, "--wild" in sys.argv)
    lines = sheet.lines()
    text = b"".join(next(lines) + b"\n" for _ in range(count))
    if sheet.rng.random() < 0.3:
        text = text[:-1]
    sys.stdout.buffer.write(text)


main()

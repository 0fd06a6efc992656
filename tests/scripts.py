#!/usr/bin/env python3
"""Random scripts for the bench program, each made from a seed.

    scripts.py SEED               print the script of that seed
    scripts.py SEED LINES         an ordinary one of about so many lines
    scripts.py --coverage 500     make so many and print what they reached

While a script is written it is played to the plain unit, so the writer always
knows in which state the unit is.  It plays two parts: the FAR END of the line,
which speaks SECS-I and also misbehaves, and the NEAR USER, who opens, replies
and releases.  How much of each is settled by a mood.
"""

import collections
import random
import sys

sys.dont_write_bytecode = True       # leave no folder behind

import plain_bench
import plain_unit as pu
from plain_unit import (ENQ, EOT, ACK, NAK, IDLE, WAIT_EOT, DRAINING, WAIT_ACK,
                        WAIT_LENGTH, BODY, SILENCE, FREE, SENDING, PUT_OUT,
                        AWAITED, OPEN, ENDED, COMPLETE, REPLYING, REPLIED)

RECEIVING = (WAIT_LENGTH, BODY, SILENCE)
MOST_ON_A_LINE = 511          # "B " and 511 bytes in hex are 1,024 bytes

# ---------------------------------------------------------------------------
# Moods
# ---------------------------------------------------------------------------

# How often each kind of block is chosen by the far end (those for which the
# state has no use fall away).
USUAL_KINDS = dict(primary=10, first=8, go_on=24, answer=24, restart=3,
                   like_complete=1, again=3, again_data=1, recent=2, empty=4,
                   stale=2, off=5, stray=1, number0=1, all_ff=0.3, early=4,
                   overtake=30, to_report=1)

USUAL = dict(
    right=0.90,        # the far end does what the line waits for
    user=0.22,         # a step is a call of the near user
    look=0.08,         # a step looks (V, or a reply that can only be refused)
    junk=0.02,         # a step is an unreadable line
    odd=0.03,          # a step is a readable line of an odd form
    wait=0.05,         # a step waits, near the end of some timer
    contend=0.05,      # ENQ while the unit waits for EOT
    lose_ack=0.1,      # the far end's ACK is lost
    contend_out=0.5,   # ENQ while the unit waits for EOT with a last block
                       # that was out before: the far end has its reply ready
    ask=0.06,          # the user asks while the line is receiving
    good_user=0.85,    # the user's call is one that makes sense
    open=3, reply=5, release=3,      # what the user likes to do
    damage=0.04,       # a block is damaged on its way
    misroute=0.03,     # a block has another R-bit or device ID
    split=0.3,         # a block is cut over several lines
    many=0.05,         # several blocks on one line
    start=0.003,       # a new start in the middle
    refused_start=0.003,
    single=0.6,        # a new message of the far end has one block only
    last_block=0.3,    # a continuing block is the last
    data="any",
    user_data="any",
    wants_reply=0.7,   # W in primaries, both ways
    patience=0.05,     # a step tries where a timer ends, see there
    long_message=0.0015,
    in_vain=0.002,     # several replies are waited for in vain, see there
    kinds=USUAL_KINDS,
)


def mood(**changes):
    kinds = dict(USUAL_KINDS)
    kinds.update(changes.pop("kinds", {}))
    made = dict(USUAL)
    made.update(changes)
    made["kinds"] = kinds
    return made


MOODS = {
    "polite": mood(right=0.99, damage=0.0, misroute=0.0, junk=0.0, wait=0.02,
                   lose_ack=0.01,
                   kinds=dict(again=0.3, stale=0.2, off=0.3, stray=0.1,
                              empty=0.2, restart=0.3, number0=0.1)),
    "usual": mood(),
    "noisy": mood(right=0.75, damage=0.2, split=0.5, wait=0.08),
    "hostile": mood(right=0.55, patience=0.1, damage=0.1, misroute=0.12, good_user=0.5,
                    wait=0.08, kinds=dict(off=14, stray=6, stale=8, empty=6,
                                          again=8, restart=8, recent=6,
                                          number0=3, early=4)),
    "quiet": mood(right=0.6, wait=0.3, patience=0.15, user=0.2),
    "contention": mood(contend=0.5, ask=0.3, user=0.35, open=6, release=4,
                       lose_ack=0.3,
                       user_data="long"),
    "long": mood(right=0.985, wait=0.01, damage=0.01, misroute=0.01,
                 user=0.07, single=0.05, last_block=0.03, data="full",
                 many=0.1, look=0.04, start=0.001, long_message=0.02,
                 lose_ack=0.4, open=8,
                 kinds=dict(go_on=60, primary=1, first=4, again=1, off=1,
                            restart=0.3, stale=0.5, empty=0.2, overtake=2)),
    "small": mood(right=0.98, wait=0.01, damage=0.01, misroute=0.01,
                  user=0.08, single=0.05, last_block=0.01, data="tiny",
                  many=0.7, start=0.001,
                  kinds=dict(go_on=60, primary=1, first=4, restart=0.3,
                             off=2, empty=0.1)),
    "wrap": mood(user=0.4, open=8, release=6, single=0.9, data="tiny",
                 user_data="tiny", wants_reply=0.5),
    "full": mood(user=0.35, open=8, reply=2, release=0.5, wants_reply=0.95,
                 good_user=0.8, last_block=0.1, lose_ack=0.4,
                 kinds=dict(primary=20, first=16, answer=2, restart=6,
                            like_complete=4, overtake=8)),
    "replies": mood(user=0.4, reply=12, open=1, release=4, wants_reply=0.9,
                    kinds=dict(primary=30), user_data="long", contend=0.2,
                    ask=0.2, right=0.8),
    "chatter": mood(junk=0.25, odd=0.25, look=0.15, start=0.02,
                    refused_start=0.05),
    "overtaken": mood(lose_ack=0.5, contend_out=0.8, wants_reply=0.9, user=0.3,
                      open=8, release=5, right=0.95, contend=0.25, ask=0.1,
                      kinds=dict(primary=8, first=4, recent=4, early=20)),
    "reporting": mood(misroute=0.3, ask=0.25, user=0.2, open=8, release=6,
                      wants_reply=0.9, right=0.93, wait=0.06, lose_ack=0.15,
                      patience=0.06, in_vain=0.05, long_message=0.012,
                      look=0.1, split=0.5, good_user=0.75,
                      kinds=dict(answer=6, to_report=6, again=6, recent=6)),
    "edges": mood(wait=0.2, patience=0.25, right=0.97, user=0.2, damage=0.0, misroute=0.01,
                  single=0.4, last_block=0.15, split=0.6,
                  kinds=dict(stale=6, answer=30, go_on=40, restart=4)),
}
MOOD_NAMES = sorted(MOODS) + ["overtaken"] * 2 + ["reporting"] * 4


# ---------------------------------------------------------------------------
# The writer
# ---------------------------------------------------------------------------

class Writer:
    def __init__(self, rng, make_unit=pu.Unit):
        self.rng = rng
        self.bench = plain_bench.Bench(make_unit)
        self.lines = []
        self.answers = []
        self.set_mood(rng.choice(MOOD_NAMES))
        self.pending = b""        # rest of a block that was cut over lines
        self.sent = []            # the latest blocks of the far end
        self.counter = rng.randrange(1, 60000)
        self.note = 20            # the note printed last
        self.before = []          # the states of the places, one step ago

    # ---- small helps ------------------------------------------------------

    def set_mood(self, name):
        self.mood_name = name
        self.mood = MOODS[name]

    @property
    def unit(self):
        return self.bench.unit

    def chance(self, p):
        return self.rng.random() < p

    def put(self, text):
        """Write one line and play it."""
        if isinstance(text, str):
            text = text.encode("latin-1")
        answer = self.bench.line(text)
        self.lines.append(text)
        self.answers.append(answer)
        if answer[-2:].isdigit():
            self.note = int(answer[-2:])
        if self.unit is None or self.unit.phase not in RECEIVING:
            self.pending = b""
        return answer

    def hex(self, data):
        if not data:
            return "-"
        text = data.hex()
        kind = self.rng.random()
        if kind < 0.9:
            return text.upper()
        if kind < 0.95:
            return text
        return "".join(self.rng.choice((c, c.upper())) for c in text)

    def put_bytes(self, data):
        for i in range(0, len(data), MOST_ON_A_LINE):
            self.put("B " + self.hex(data[i:i + MOST_ON_A_LINE]))

    def pick(self, weights):
        """A key of the dictionary, by weight."""
        keys = [k for k in weights if weights[k] > 0]
        return self.rng.choices(keys, [weights[k] for k in keys])[0]

    # ---- starts -----------------------------------------------------------

    def settings(self):
        rng = self.rng

        def timer(highest):
            kind = rng.random()
            if kind < 0.85:
                return rng.randint(1, 3)
            if kind < 0.95:
                return rng.randint(1, highest)
            return highest

        t1, t2 = timer(100), timer(125)
        t3, t4 = timer(120), timer(120)
        rty = rng.choice((0, 0, 1, 1, 2, 3, 3, 31, rng.randint(0, 31)))
        device = rng.choice((0, 1, 255, 256, 32767, rng.randint(0, 32767),
                             rng.randint(0, 32767)))
        duplicates = 1 if self.chance(0.7) else 0
        last = rng.choice((0, 0, 1, 254, 255, 256, 65535, 65534, 65533,
                           rng.randint(65520, 65535), rng.randint(0, 65535)))
        if self.mood_name == "wrap":
            last = rng.randint(65525, 65535)
        if self.mood_name == "overtaken":
            rty = rng.choice((1, 1, 2, 3, 31))
        if self.mood_name == "reporting":
            rty = rng.choice((0, 0, 0, 1, 1, 2, 3))
            t3 = rng.choice((1, 1, 1, 2))
            last = rng.choice((last, rng.randint(65530, 65535)))
        return [t1, t2, t3, t4, rty, device, duplicates, last]

    def start_line(self, settings):
        numbers = [str(n) for n in settings]
        if self.chance(0.05):
            i = self.rng.randrange(8)
            numbers[i] = "0" * self.rng.randint(1, 9) + numbers[i]
        roles = {"overtaken": "HHHE", "reporting": "EEEEEH"}
        return self.rng.choice(roles.get(self.mood_name, "HE")) + " " + " ".join(numbers)

    def start(self):
        answer = self.put(self.start_line(self.settings()))
        assert answer == "0 - 20", answer
        self.sent = []

    def refused_start(self):
        """One setting, or two, just out of range or far out."""
        settings = self.settings()
        out = [(0, 101, 65535), (0, 126, 250), (0, 121, 1200), (0, 121, 450),
               (32, 33, 255, 256), (32768, 65535), (2, 3, 256, 65535)]
        for _ in range(self.rng.choice((1, 1, 1, 2))):
            i = self.rng.randrange(7)
            settings[i] = self.rng.choice(out[i])
        self.put(self.start_line(settings))

    # ---- the far end: making blocks ---------------------------------------

    def some_data(self, least=0, most=244):
        """Data for one block of the far end."""
        rng = self.rng
        style = self.mood["data"]
        if style == "full" and self.chance(0.85):
            size = 244
        elif style == "tiny" and self.chance(0.9):
            size = rng.choice((1, 1, 1, 2))
        else:
            size = rng.choice((0, 1, 1, 2, 5, 20, 100, 243, 244, 244,
                               rng.randint(0, 244), rng.randint(0, 30)))
        size = max(least, min(most, size))
        if self.chance(0.03):
            return b"\xff" * size
        return rng.randbytes(size)

    def header(self, w, stream, function, e, number, system):
        """A header on its right way to the unit."""
        u = self.unit
        r = 1 if u.host else 0
        return bytes([r << 7 | u.device >> 8, u.device & 0xFF,
                      w << 7 | stream, function,
                      e << 7 | number >> 8, number & 0xFF]) + system

    def fresh_system(self):
        kind = self.rng.random()
        if kind < 0.1:
            # Now and then the same bytes as a transaction of the unit's own:
            # the two ends number for themselves.
            used = [p.system for p in self.unit.own if p.state != FREE]
            if used:
                return self.rng.choice(used)
        if kind < 0.15:
            return bytes([0, 0, 0, self.rng.randrange(4)])
        self.counter += 1
        if kind < 0.2:
            return self.rng.randbytes(4)
        return bytes([self.counter >> 8 & 0xFF, self.counter & 0xFF, 0, 7])

    def w_bit(self):
        return 1 if self.chance(self.mood["wants_reply"]) else 0

    def odd_function(self):
        return self.rng.choice((1, 1, 3, 5, 253, 255, 255,
                                self.rng.randrange(1, 256, 2)))

    def stream(self):
        return self.rng.choice((0, 1, 1, 2, 127, self.rng.randrange(128)))

    def opened(self):
        """The open messages, own replies and incoming."""
        return [p for p in self.unit.own + self.unit.incoming
                if p.state == OPEN]

    def primary(self, e, system=None):
        number = 0 if e and self.chance(0.3) else 1
        system = system or self.fresh_system()
        return self.header(self.w_bit(), self.stream(), self.odd_function(),
                           e, number, system) + self.some_data(0 if e else 1)

    def continuing(self, place, e=None, data=None):
        """The block that an open message waits for."""
        f = place.first
        room = pu.AREA - len(place.data)
        if e is None:
            e = 1 if self.chance(self.mood["last_block"]) else 0
            if room <= 244 and self.chance(0.6):
                e = 1
        if data is None:
            data = self.some_data(1)
            if room <= 244 and self.chance(0.85):
                # Close to the limit: exactly on it, one beside it.
                size = room + self.rng.choice((0, 0, 0, 1, 1, -1, -2, 2))
                data = self.rng.randbytes(max(1, min(244, size)))
        return self.header(f.w, f.stream, f.function, e, place.next_number,
                           f.system) + data

    def replying(self, place, e=None):
        """The first block of an answer to an own place."""
        rng = self.rng
        if e is None:
            e = 1 if self.chance(max(self.mood["single"], 0.1)) else 0
        stream, function = place.stream, (place.function + 1) & 0xFF
        kind = rng.random()
        if kind < 0.15:
            function = 0
        elif kind < 0.28:
            function = rng.choice((function + 2, function - 2,
                                   rng.randrange(0, 256, 2))) & 0xFE
        if self.chance(0.16):
            stream = rng.choice(((stream + 1) & 127, rng.randrange(128)))
        w = 1 if self.chance(0.3) else 0
        number = 0 if e and self.chance(0.3) else 1
        return self.header(w, stream, function, e, number,
                           place.system) + self.some_data(0 if e else 1)

    def spoil_header(self, content):
        """A block of which one thing in the header is off."""
        h = bytearray(content)
        what = self.rng.randrange(9)
        if what == 0:
            h[2] ^= 0x80                                     # W
        elif what == 1:
            h[2] ^= 1 << self.rng.randrange(7)               # stream
        elif what == 2:
            h[3] = (h[3] + self.rng.choice((2, 254, 128))) & 0xFF   # function
        elif what == 3:
            h[3] ^= 1                                        # odd or even
        elif what == 4:
            h[5] = (h[5] + self.rng.choice((1, 255, 2))) & 0xFF     # number
        elif what == 5:
            h[4] ^= 1 << self.rng.randrange(7)               # upper number
        elif what == 6:
            h[6 + self.rng.randrange(4)] ^= 1 << self.rng.randrange(8)
        elif what == 7:
            h[4] &= 0x80
            h[5] = self.rng.choice((0, 1))                   # number 0 or 1
        else:
            h[4] ^= 0x80                                     # E
        return bytes(h)

    def misroute(self, content):
        h = bytearray(content)
        what = self.rng.randrange(3)
        if what == 0:
            h[0] ^= 0x80
        elif what == 1:
            h[0] ^= 1 << self.rng.randrange(7)
        else:
            h[1] ^= 1 << self.rng.randrange(8)
        return bytes(h)

    def block(self):
        """Header and data of the block that the far end sends now."""
        rng, u = self.rng, self.unit
        opened = self.opened()
        awaited = [p for p in u.own if p.state == AWAITED]
        open_in = [p for p in u.incoming if p.state == OPEN]
        complete = [p for p in u.incoming
                    if p.state in (COMPLETE, REPLYING, REPLIED)]
        not_awaited = [p for p in u.own if p.state in (OPEN, ENDED)]
        not_awaited += [p for p in u.own if p.state == FREE and p.system]
        early = [p for p in u.own if p.state == SENDING]
        out = [p for p in u.own if p.state == PUT_OUT]

        weights = dict(self.mood["kinds"])
        if not opened:
            weights["go_on"] = weights["off"] = 0
        if not awaited:
            weights["answer"] = 0
        if not open_in:
            weights["restart"] = 0
        if not complete:
            weights["like_complete"] = 0
        if not not_awaited:
            weights["stale"] = 0
        if not early:
            weights["early"] = 0
        if not out:
            weights["overtake"] = 0
        if u.host or not u.last:
            weights["to_report"] = 0
        if not self.sent:
            weights["again"] = weights["again_data"] = weights["recent"] = 0
        if 22 <= self.note <= 27:
            # Was the header saved, was the message broken?
            for name in ("again", "again_data", "go_on", "stale"):
                weights[name] *= 2
        places = u.incoming
        if any(p.state == OPEN and any(q.state == FREE for q in places[:i])
               for i, p in enumerate(places)):
            weights["restart"] *= 4
        if len(open_in) + len(complete) == 4 and self.mood_name != "full":
            weights["primary"] *= 3 if out else 0.3
            weights["first"] *= 0.3
        kind = self.pick(weights)

        if kind == "primary":
            content = self.primary(1)
        elif kind == "first":
            content = self.primary(0)
        elif kind == "go_on":
            content = self.continuing(rng.choice(opened))
        elif kind == "answer":
            content = self.replying(rng.choice(awaited))
        elif kind == "restart":
            # The sender gave its message up and begins it anew.
            first = rng.choice(open_in).first
            e = 1 if self.chance(0.4) else 0
            if self.chance(0.5):
                content = self.header(first.w, first.stream, first.function,
                                      e, 1, first.system)
                content += self.some_data(0 if self.chance(0.2) else 1)
            else:
                content = self.primary(e, first.system)
        elif kind == "like_complete":
            content = self.primary(rng.choice((0, 1)),
                                   rng.choice(complete).first.system)
        elif kind == "again":
            content = self.sent[-1]
        elif kind == "again_data":
            # The saved header once more, whatever came between; other data.
            content = (u.saved or self.sent[-1][:10]) + self.some_data()
        elif kind == "recent":
            content = rng.choice(self.sent)
        elif kind == "empty":
            if opened and self.chance(0.6):
                content = self.continuing(rng.choice(opened), data=b"")
            elif (out or awaited) and self.chance(0.6):
                content = self.replying(rng.choice(out or awaited), 0)[:10]
            elif open_in and self.chance(0.5):
                content = self.primary(0, rng.choice(open_in).first.system)[:10]
            else:
                content = self.primary(0)[:10]
        elif kind == "stale":
            content = self.replying(rng.choice(not_awaited))
        elif kind == "early":
            content = self.replying(rng.choice(early))
        elif kind == "overtake":
            # The reply, though its ACK has not been heard; now and then one
            # that breaks, or one thing in it is off.
            content = self.replying(out[0])
            sooner = [c for c in self.sent if c[6:10] == out[0].system]
            if sooner and self.chance(0.5):
                content = sooner[-1]     # it came before: a duplicate, or not
            elif self.chance(0.1):
                content = self.replying(out[0], 0)[:10]
            elif self.chance(0.1):
                content = self.spoil_header(content)
        elif kind == "to_report":
            # As if a report, the last number given, had asked for a reply.
            content = self.header(rng.randrange(2), 9, rng.choice((0, 2, 10, 12)),
                                  1, rng.choice((0, 1)),
                                  bytes([0, 0, u.last >> 8, u.last & 0xFF]))
        elif kind == "off":
            content = self.spoil_header(self.continuing(rng.choice(opened)))
        elif kind == "stray":
            content = self.header(rng.randrange(2), rng.randrange(128),
                                  rng.randrange(256), rng.randrange(2),
                                  rng.choice((0, 1, 2, 255, 256, 257, 32767,
                                              rng.randrange(32768))),
                                  self.fresh_system()) + self.some_data()
        elif kind == "number0":
            if (out or awaited) and self.chance(0.5):
                content = self.replying(rng.choice(out or awaited), 0)
            else:
                content = self.primary(0)
            content = content[:4] + bytes(2) + content[6:]
        else:
            content = b"\xff" * 254
        if awaited and self.chance(0.05):
            content = self.spoil_header(self.replying(rng.choice(awaited)))
        if self.chance(self.mood["misroute"]):
            content = self.misroute(content)
        self.sent = (self.sent + [content])[-4:]
        return content

    def damaged(self, content):
        """The block as it comes out of a bad cable."""
        raw = bytearray(pu.on_the_line(content))
        what = self.rng.randrange(9)
        if what == 0:
            raw[-1] = (raw[-1] + self.rng.choice((1, 255))) & 0xFF
        elif what == 1:
            raw[-2] = (raw[-2] + self.rng.choice((1, 255))) & 0xFF
        elif what == 2:
            raw[self.rng.randrange(1, len(raw))] ^= 1 << self.rng.randrange(8)
        elif what == 3:
            del raw[self.rng.randrange(1, len(raw))]
        elif what == 4:
            raw.insert(self.rng.randrange(1, len(raw)), self.rng.randrange(256))
        elif what == 5:
            raw[0] = self.rng.choice((0, 1, ENQ, EOT, ACK, 9, 255, 255))
        elif what == 6:
            # The length byte added to the sum.
            total = (sum(content) + len(content)) & 0xFFFF
            raw[-2:] = bytes([total >> 8, total & 0xFF])
        elif what == 7:
            raw[-2], raw[-1] = raw[-1], raw[-2]
        else:
            del raw[self.rng.randrange(1, len(raw)):]
        return bytes(raw)

    def raw_block(self):
        content = self.block()
        if self.chance(self.mood["damage"]):
            return self.damaged(content)
        return pu.on_the_line(content)

    def run_of_blocks(self):
        """Several blocks of one open message, for one line."""
        place = self.rng.choice(self.opened())
        f, total = place.first, len(place.data)
        number, out = place.next_number, b""
        while number < 32767:
            data = self.some_data(1)
            if total + len(data) > pu.AREA and self.chance(0.7):
                data = data[:max(1, pu.AREA - total)]
            last = total + len(data) == pu.AREA and self.chance(0.7)
            content = self.header(f.w, f.stream, f.function, 1 if last else 0,
                                  number, f.system) + data
            more = bytes([ENQ]) + pu.on_the_line(content)
            if len(out) + len(more) > MOST_ON_A_LINE:
                break
            out += more
            self.sent = (self.sent + [content])[-4:]
            number += 1
            total += len(data)
            if last or self.chance(0.03):
                break
        return out

    # ---- the far end: on the line -----------------------------------------

    def give(self, raw):
        """Put bytes on the line, all at once or in parts."""
        if len(raw) > 1 and self.chance(self.mood["split"]):
            at = self.rng.choice((1, 1, 2, len(raw) - 1, len(raw) - 2,
                                  self.rng.randrange(1, len(raw))))
            at = max(1, at)
            self.put_bytes(raw[:at])
            if self.unit.phase in RECEIVING:
                self.pending = raw[at:]
        else:
            self.put_bytes(raw)

    def stray_byte(self):
        return self.rng.choice((ENQ, EOT, ACK, NAK, 0, 9, 10, 254, 255,
                                self.rng.randrange(256)))

    def stray_bytes(self):
        n = self.rng.choice((1, 1, 1, 2, 3, self.rng.randint(1, 12)))
        self.put_bytes(bytes(self.stray_byte() for _ in range(n)))

    def left(self):
        """Ticks until each running timer runs out: line first."""
        u, line, places = self.unit, [], []
        if u.phase in (WAIT_EOT, WAIT_ACK, WAIT_LENGTH):
            line.append(u.t2 - u.timer + 1)
        elif u.phase in (BODY, SILENCE):
            line.append(u.t1 - u.timer + 1)
        for p in u.own + u.incoming:
            if p.state == AWAITED:
                places.append(u.t3 - p.timer + 1)
            elif p.state == OPEN:
                places.append(u.t4 - p.timer + 1)
        return line, places

    def wait(self):
        """Ticks: a few, or close to a run-out."""
        rng = self.rng
        line, places = self.left()
        kind = rng.random()
        if line and kind < 0.6:
            count = rng.choice(line) + rng.choice((-1, -1, 0, 0, 1))
        elif places and kind < 0.85:
            count = rng.choice(places) + rng.choice((-1, -1, 0, 0, 1))
        elif line and kind < 0.9:
            # Long enough for a send that nobody answers to fail, or nearly.
            u = self.unit
            count = (u.t2 + 1) * (u.rty + 1) + rng.choice((-1, 0, 1))
        elif kind < 0.995:
            count = rng.randint(0, 4)
        else:
            count = rng.choice((100, 1000, 1201, 5000))
        self.put("T %d" % max(0, count))

    def long_wait(self):
        self.put("T %d" % self.rng.choice((100000, 99999, 10000)))

    def far_step(self):
        """What the far end does next."""
        phase = self.unit.phase
        right = self.chance(self.mood["right"])
        if phase == IDLE:
            self.far_idle(right)
        elif phase == WAIT_EOT:
            self.far_eot(right)
        elif phase == DRAINING:
            self.far_draining(right)
        elif phase == WAIT_ACK:
            self.far_ack(right)
        elif phase == SILENCE:
            self.far_silence(right)
        else:
            self.far_receiving(right)

    def far_idle(self, right):
        if not right:
            if self.chance(0.3):
                self.put("D")
            elif self.chance(0.3):
                self.wait()
            else:
                self.stray_bytes()
            return
        if self.opened() and self.chance(self.mood["many"]):
            self.give(self.run_of_blocks())
            return
        if (all(p.state != FREE for p in self.unit.incoming)
                and self.chance(0.1)):
            self.lose_an_ack()
        self.give(bytes([ENQ]) + self.raw_block())

    def far_eot(self, right):
        rng = self.rng
        been_out = any(p.state == PUT_OUT for p in self.unit.own)
        if self.chance(self.mood["contend_out" if been_out else "contend"]):
            if self.chance(0.4):
                self.put_bytes(bytes([ENQ]))
            else:
                # A whole block behind the ENQ; at the equipment this is
                # noise while it waits for EOT.
                tail = bytes([EOT]) if self.chance(0.3) else b""
                self.give(bytes([ENQ]) + self.raw_block() + tail)
        elif right:
            self.put_bytes(bytes([EOT]))
        elif self.chance(0.5):
            self.wait()
        elif self.chance(0.2):
            self.put("D")
        else:
            self.put_bytes(bytes([rng.choice((ACK, NAK, ENQ, 0, 255,
                                              rng.randrange(256)))]))

    def far_draining(self, right):
        if right or self.chance(0.4):
            self.put("D")
        elif self.chance(0.4):
            self.wait()
        else:
            self.stray_bytes()

    def far_ack(self, right):
        rng = self.rng
        if self.chance(self.mood["lose_ack"]):
            if self.chance(0.6):
                self.put("T %d" % self.left()[0][0])
            else:
                self.put_bytes(bytes([NAK]))
        elif right:
            raw = bytes([ACK])
            if self.chance(0.1):
                # The far end has something to send too, at once.
                raw += bytes([ENQ]) + self.raw_block()
            self.put_bytes(raw)
        elif self.chance(0.4):
            self.wait()
        elif self.chance(0.2):
            self.put("D")
        else:
            self.put_bytes(bytes([rng.choice((NAK, NAK, ENQ, EOT, 0, 255,
                                              rng.randrange(256)))]))

    def far_receiving(self, right):
        u, rng = self.unit, self.rng
        if self.chance(self.mood["ask"]):
            self.user_ask()
            return
        if right:
            if self.pending:
                raw, self.pending = self.pending, b""
                self.give(raw)
            elif u.phase == WAIT_LENGTH:
                self.give(self.raw_block())
            else:
                # A block that nobody meant to send: fill it up.
                need = u.length - len(u.body)
                if need >= 0:
                    fill = rng.randbytes(need)
                    total = sum(u.body) + sum(fill)
                    fill += bytes([total >> 8, total & 0xFF])
                else:
                    fill = rng.randbytes(need + 2)
                self.put_bytes(fill)
            return
        what = rng.random()
        if what < 0.5:
            self.wait()
        elif what < 0.6:
            self.put("D")
        elif what < 0.8:
            self.stray_bytes()
        elif u.phase == WAIT_LENGTH:
            self.put_bytes(bytes([rng.choice((0, 4, 5, 6, 9, 10, 11, 254, 255,
                                              21))]))
        elif self.pending and len(self.pending) > 1:
            self.pending = self.pending[1:]              # a byte is lost

    def far_silence(self, right):
        if self.chance(self.mood["ask"]):
            self.user_ask()
        elif right:
            line, _ = self.left()
            self.put("T %d" % max(0, line[0] + self.rng.choice((0, 0, -1, 1))))
        elif self.chance(0.6):
            if self.pending and self.chance(0.5):
                raw, self.pending = self.pending, b""
                self.put_bytes(raw)
            else:
                self.stray_bytes()
        else:
            self.wait()

    # ---- the near user ----------------------------------------------------

    def user_data(self, head):
        """Data for a line that begins with `head`."""
        rng = self.rng
        most = (1024 - len(head)) // 2
        style = self.mood["user_data"]
        if style == "tiny":
            size = rng.choice((0, 0, 1, 2))
        elif style == "long":
            size = rng.choice((0, 245, 300, 488, 489, most))
        else:
            size = rng.choice((0, 0, 1, 3, 10, 243, 244, 245, 246, 487, 488,
                               489, most, rng.randint(0, 300)))
        return rng.randbytes(min(size, most))

    def place_number(self):
        return self.rng.choice((0, 0, 0, 1, 1, 2, 2, 3, 3, 4, 5, 255))

    def user_open(self, good):
        rng = self.rng
        stream, function = self.stream(), self.odd_function()
        if not good:
            what = rng.randrange(4)
            if what == 0:
                stream = rng.choice((128, 129, 255))
            elif what == 1:
                function = rng.choice((0, 2, 254, rng.randrange(0, 256, 2)))
            elif what == 2:
                stream, function = 128, 0
        head = "O %d %d %d %d " % (
            rng.choice((0, 0, 1, 255, 256, 65535, rng.randrange(65536))),
            self.w_bit(), stream, function)
        self.put(head + self.hex(self.user_data(head)))

    def user_reply(self, good):
        rng, u = self.rng, self.unit
        ready = [i for i in range(4) if u.incoming[i].state == COMPLETE
                 and u.incoming[i].first.w == 1]
        if good and ready:
            i = rng.choice(ready)
            function = u.incoming[i].first.function + 1
            if function > 255 or self.chance(0.2):
                function = 0
        else:
            i = self.place_number()
            function = rng.choice((0, 1, 2, 4, 254, 255, rng.randrange(256)))
            if i < 4 and u.incoming[i].state != FREE and self.chance(0.7):
                f = u.incoming[i].first.function
                function = rng.choice((f, f + 1, f + 1, f + 2, f - 1, f + 3, 0))
                function &= 0xFF
        head = "R %d %d " % (i, function)
        self.put(head + self.hex(self.user_data(head)))

    def user_release(self, good):
        rng, u = self.rng, self.unit
        ready = ["L O %d" % i for i in range(4) if u.own[i].state == ENDED]
        ready += ["L I %d" % i for i in range(4)
                  if u.incoming[i].state in (COMPLETE, REPLIED)]
        if good and ready:
            self.put(rng.choice(ready))
        elif self.chance(0.5):
            # Something in use that must not be released yet.
            busy = ["L O %d" % i for i in range(4)
                    if u.own[i].state in (SENDING, PUT_OUT, AWAITED, OPEN)]
            busy += ["L I %d" % i for i in range(4)
                     if u.incoming[i].state in (OPEN, REPLYING)]
            self.put(rng.choice(busy or ["L O 0"]))
        else:
            self.put("L %s %d" % (rng.choice("OI"), self.place_number()))

    def user_step(self):
        u = self.unit
        good = self.chance(self.mood["good_user"])
        weights = dict(open=self.mood["open"], reply=self.mood["reply"],
                       release=self.mood["release"])
        if good:
            if u.sending is not None and self.chance(0.8):
                weights["open"] = weights["reply"] = 0
            if not any(p.state == COMPLETE and p.first.w for p in u.incoming):
                weights["reply"] = 0
            if not any(p.state == FREE for p in u.own) and self.chance(0.8):
                weights["open"] = 0
            if not (any(p.state == ENDED for p in u.own)
                    or any(p.state in (COMPLETE, REPLIED)
                           for p in u.incoming)):
                weights["release"] = 0
            if not any(weights.values()):
                self.far_step()
                return
        what = self.pick(weights)
        if what == "open":
            self.user_open(good)
        elif what == "reply":
            self.user_reply(good)
        else:
            self.user_release(good)

    def user_ask(self):
        """The user wants to send while the line is receiving."""
        if self.chance(0.4) and any(p.state == COMPLETE and p.first.w
                                    for p in self.unit.incoming):
            self.user_reply(True)
        else:
            self.user_open(self.chance(0.9))

    def look(self):
        """Read what can be read.  A reply with function 1 fits no primary;
        its refusal tells the state of the place and changes nothing."""
        if self.chance(0.1):
            self.put("K")
        elif self.chance(0.6):
            self.put("V %d" % self.rng.randrange(4))
        elif self.chance(0.8):
            self.put("R %d 1 -" % self.rng.randrange(4))
        else:
            self.put("V %d" % self.rng.choice((4, 5, 255, 256)))

    # ---- odd and unreadable lines -----------------------------------------

    def fair_line(self):
        """A line that would do something if it were read."""
        rng = self.rng
        return rng.choice((
            "B 05", "B 04", "B 06", "B 15", "T 1", "T 30", "D", "V 0", "K",
            "O 0 1 1 1 -", "O 1 0 2 3 0102", "R 0 2 -", "R 1 0 00",
            "L O 0", "L I 0", "L O 1", "L I 1", self.start_line(self.settings())))

    def odd_line(self):
        """Readable, but of a form that one may get wrong."""
        rng = self.rng
        what = rng.randrange(10)
        if what == 0:
            self.put("B -")
        elif what == 1:
            self.put("T " + rng.choice(("0", "00", "0" * 1022)))
        elif what == 2:
            self.put("D")
        elif what == 3:
            self.put("V 0%d" % rng.randrange(4))
        elif what == 4:
            # 1,024 bytes exactly, filled up with leading zeros.
            head, tail = rng.choice((("T ", "1"), ("V ", "0"), ("L O ", "0"),
                                     ("L I ", "1"), ("R ", "0 2 -"),
                                     ("O ", "1 0 1 1 -"),
                                     ("O 0 1 ", "1 1 0A")))
            self.put(head + "0" * (1024 - len(head) - len(tail)) + tail)
        elif what == 5:
            # 1,024 bytes exactly, all of them taken by the line.
            self.put("B " + self.hex(bytes(self.stray_byte()
                                           for _ in range(511))))
        elif what == 6:
            self.put("O 0 0 01 01 " + rng.choice(("aB", "Ff00", "-")))
        elif what == 7:
            self.put("O 65535 1 127 255 -")
        elif what == 8:
            self.put(rng.choice(("V 4", "V 255", "L O 4", "L I 255",
                                 "R 255 0 -", "R 4 0 -", "O 0 1 255 255 -",
                                 "O 0 1 128 1 -", "O 0 0 1 0 -")))
        else:
            self.refused_start()

    def unreadable(self):
        rng = self.rng
        fixed = (
            b"", b" ", b"\t", b"\r", b"\x00", b"?", b"-", b"#", b"0",
            b"B", b"B ", b"B 0", b"B 0G", b"B 05-", b"B --", b"B 05 05",
            b"B 5", b"B 050", b"B 0x05", b"B +5", b"B  05", b"B 05 ",
            b" B 05", b"B\t05", b"b 05", b"B 05\r", b"B 05\x00", b"B05",
            b"B \xef\xbc\x90\xef\xbc\x95", b"BB 05", b"B 0 5",
            b"T", b"T ", b"T -", b"T -1", b"T +1", b"T 100001", b"T 1_0",
            b"T 0x10", b"T 1.0", b"T 1e1", b"T \xd9\xa1", b"T \xb2",
            b"T 1 1", b"t 1", b"T 1\r", b"T\x0b1", b"T 1\x0c", b"T  1",
            b"T 1 ", b"T 99999999999999999999", b"T 4294967297",
            b"T 18446744073709551617", b"T 0000100001",
            b"D ", b"D 0", b"d", b" D", b"D\r", b"DD", b"D -",
            b"V", b"V ", b"V 256", b"V -1", b"V O 0", b"V 0 0", b"v 0",
            b"V +0", b"V 00256", b"V 65536", b"V -", b"V I 0",
            b"K ", b"K 0", b"K -", b"k", b"KK", b" K", b"K\r", b"K\t", b"K0",
            b"K K", b"K  ", b"K\x00", b"KV 0",
            b"L", b"L O", b"L I", b"L 0", b"L X 0", b"L o 0", b"L i 0",
            b"L O 256", b"L I 256", b"L O 0 0", b"L OI 0", b"L  0", b"L 0 O",
            b"L O -", b"L O 0\r", b"L O  0",
            b"O", b"O 0 1 1 1", b"O 0 1 1 1 ", b"O 0 2 1 1 -",
            b"O 65536 1 1 1 -", b"O 0 1 256 1 -", b"O 0 1 1 256 -",
            b"O 0 1 1 1 0", b"O 0 1 1 1 - -", b"O -1 1 1 1 -",
            b"O 0 1 1 1 00 ", b"O 0 - 1 1 -", b"o 0 1 1 1 -", b"O 0 1 1 -",
            b"O 0 1 1 1 0102 03", b"O 0 255 1 1 -", b"O 0 1 128 257 -",
            b"R", b"R 0", b"R 0 2", b"R 256 2 -", b"R 0 256 -", b"R 0 2 0",
            b"R 0 2 - ", b"R I 0 2 -", b"r 0 2 -", b"R -1 2 -", b"R 0 2 zz",
            b"H", b"E", b"H 5 50 45 45 3 1 1", b"H 5 50 45 45 3 1 1 0 0",
            b"H 5 50 45 45 3 1 1 65536", b"H 65536 50 45 45 3 1 1 0",
            b"E 5 50 45 45 3 65536 1 0", b"E 5 50 45 45 3 1 65536 0",
            b"h 5 50 45 45 3 1 1 0", b"e 5 50 45 45 3 1 1 0",
            b"H 5 50 45 45 3 1 1 -1", b"H 5 50 45 45 3 1 1 0 ",
            b"H  5 50 45 45 3 1 1 0", b"H 0 50 45 45 3 1 1 65536",
            b"E 5 50 45 45 99999 1 1 0", b"HE 5 50 45 45 3 1 1 0",
            b"H 5 50 45 45 3 1 1 -", b"H 5 65536 45 45 3 1 1 0",
            b"E 5 50 65536 45 3 1 1 0", b"E 5 50 45 70000 3 1 1 0",
        )
        if self.chance(0.6):
            self.put(rng.choice(fixed))
            return
        fair = self.fair_line().encode("ascii")
        what = rng.randrange(7)
        if what == 0:
            text = fair + rng.choice((b" ", b"\r", b"\t", b"\x00", b"\xff",
                                      b"\xc2\xa0", b"\x0c", b"\x1c", b"\x85"))
        elif what == 1:
            text = rng.choice((b" ", b"\xef\xbb\xbf", b"\x00", b"+")) + fair
        elif what == 2:
            text = fair.lower()
        elif what == 3:
            text = fair.replace(b" ", b"  ", 1) if b" " in fair else fair + b" "
        elif what == 4:
            text = fair.replace(b" ", b"\t", 1) if b" " in fair else fair + b"\t"
        elif what == 5:
            # 1,025 bytes or many more; without that it would be readable.
            length = rng.choice((1025, 1025, 1026, 2000, 5000))
            text = rng.choice((b"T " + b"0" * (length - 3) + b"1",
                               b"L O " + b"0" * (length - 4),
                               b"B " + b"05" * (length // 2),
                               b"O " + b"0" * (length - 10) + b"0 1 1 1 -",
                               b"B " + b"04" * 512 + b"06" * (length - 1025)))
        else:
            text = rng.randbytes(rng.choice((1, 2, 5, 50, 1024, 1025)))
            text = text.replace(b"\n", b"N")
        self.put(text)

    # ---- scenes of several lines --------------------------------------------

    def patience(self):
        """Where does a timer end?  Part of its time goes by, something
        happens, and then it is waited for to the tick."""
        u, rng = self.unit, self.rng
        running = [p for p in u.own + u.incoming if p.state in (AWAITED, OPEN)]
        line, _ = self.left()
        if line and (not running or self.chance(0.6)):
            place, left = None, line[0]
        elif running:
            place = rng.choice(running)
            left = (u.t3 if place.state == AWAITED else u.t4) - place.timer + 1
        else:
            self.far_step()
            return
        self.put("T %d" % rng.choice((left - 1, left // 2, left // 2,
                                      rng.randrange(left))))
        self.disturb(place)
        if place is None:
            line, _ = self.left()
            left = line[0] if line else 0
        elif place.state == AWAITED:
            left = u.t3 - place.timer + 1
        elif place.state == OPEN:
            left = u.t4 - place.timer + 1
        else:
            left = 0
        if left:
            self.put("T %d" % (left - 1))
            if place is not None:
                if self.chance(0.3) and u.phase == IDLE:
                    # The awaited block, just in time.
                    if place.state == OPEN:
                        content = self.continuing(place)
                    elif place.state == AWAITED:
                        content = self.replying(place)
                    else:
                        return
                    self.sent = (self.sent + [content])[-4:]
                    self.put_bytes(bytes([ENQ]) + pu.on_the_line(content))
                else:
                    self.look_at(place)
                    self.put("T 1")
                    self.look_at(place)
            elif self.chance(0.8):
                self.put("T 1")

    def disturb(self, place):
        """Something that may or may not touch a timer."""
        u, rng = self.unit, self.rng
        what = rng.random()
        if what < 0.1:
            self.put("D")
        elif what < 0.15:
            self.unreadable()
        elif what < 0.25:
            self.user_step()
        elif u.phase == IDLE and place is not None and what < 0.75:
            # A block that is like one of this message, but is not the next.
            if self.chance(0.5) and u.saved:
                content = u.saved + self.some_data()
            elif self.chance(0.3):
                content = self.misroute(self.sent[-1] if self.sent
                                        else self.primary(1))
            elif place.state == OPEN:
                content = self.spoil_header(self.continuing(place))
            else:
                content = self.spoil_header(self.replying(place))
            self.sent = (self.sent + [content])[-4:]
            self.put_bytes(bytes([ENQ]) + pu.on_the_line(content))
        elif u.phase in (WAIT_EOT, DRAINING) and what < 0.6:
            self.put_bytes(bytes([rng.choice((ENQ, ACK, NAK, 0, 255))]))
        elif u.phase == WAIT_LENGTH and what < 0.6:
            self.put_bytes(bytes([rng.choice((9, 0, 255, 10, 100))]))
        else:
            self.far_step()

    def look_at(self, place):
        if place in self.unit.own:
            self.put("V %d" % self.unit.own.index(place))
        else:
            self.put("R %d 1 -" % self.unit.incoming.index(place))

    def lose_an_ack(self):
        """A primary of the host is out, its ACK is lost, and the retry's ENQ
        will give way to what comes next."""
        u = self.unit
        if (u.host and u.rty > 0 and u.phase == IDLE
                and any(p.state == FREE for p in u.own)):
            self.put("O 7 1 1 1 -")
            self.put_bytes(bytes([EOT]))
            self.put("D")
            self.put_bytes(bytes([NAK]))

    def in_vain(self):
        """Several replies are waited for in vain, their T3 to end on one tick
        or on ticks near each other; meanwhile the line is idle, receiving
        with or without a request, or sending, so that reports start, are held
        or wait."""
        u, rng = self.unit, self.rng
        if u.phase != IDLE or u.sending is not None:
            self.far_step()
            return
        for i in range(4):
            if u.own[i].state == ENDED and self.chance(0.8):
                self.put("L O %d" % i)
        if self.chance(0.5):
            self.something_to_answer()
        for _ in range(rng.choice((1, 2, 3, 4, 4))):
            if all(p.state != FREE for p in u.own) or u.sending is not None:
                break
            head = "O %d 1 %d %d " % (rng.choice((0, 7, 65535)), self.stream(),
                                      self.odd_function())
            size = rng.choice((0, 0, 1, 245, 489))
            self.put(head + self.hex(rng.randbytes(size)))
            while u.phase == WAIT_EOT:
                self.put_bytes(bytes([EOT]))
                self.put("D")
                self.put_bytes(bytes([ACK]))
            if self.chance(0.3):
                self.put("T %d" % rng.randint(1, 3))
        waits = [u.t3 - p.timer + 1 for p in u.own if p.state == AWAITED]
        if not waits or u.phase != IDLE:
            return
        # Shortly before the first ends, or so that T1 or T2 ends with it.
        near = rng.choice((1, 1, 2, u.t1 + 1, u.t2 + 1, u.t2 + 1, u.t2))
        self.put("T %d" % max(0, min(waits) - near))
        what = rng.randrange(8)
        if what == 0:
            self.user_open(True)
        elif what == 1:
            self.user_ask()
        elif what in (2, 3):
            self.put_bytes(bytes([ENQ]))
            if what == 3:
                self.user_ask()
        elif what == 4:
            self.put_bytes(bytes([ENQ, rng.choice((9, 10, 10, 255))]))
            if self.chance(0.3):
                self.user_ask()
        elif what == 5:
            # A report is on its way when T3 runs out.
            self.put_bytes(bytes([ENQ]) + pu.on_the_line(
                self.misroute(self.primary(1))))
        elif what == 6:
            # A message is held, and a misrouted block ends the receive.
            self.put_bytes(bytes([ENQ]))
            if self.chance(0.6):
                self.user_reply(True)
            else:
                self.user_ask()
            if u.phase == WAIT_LENGTH:
                self.put_bytes(pu.on_the_line(self.misroute(self.primary(1))))
        if u.phase == WAIT_EOT and self.chance(0.4):
            self.put_bytes(bytes([EOT]))
            if self.chance(0.6):
                self.put("D")
        self.put("T %d" % near)
        if self.chance(0.5):
            self.put("T %d" % rng.randint(1, 3))
        if self.chance(0.3) and any(p.state == ENDED for p in u.own):
            # Released before its report leaves.
            self.user_release(True)

    def something_to_answer(self):
        """A message of the far end that asks for a reply, of one block."""
        if self.unit.phase == IDLE:
            content = self.header(1, self.stream(), 1, 1, 1,
                                  self.fresh_system()) + self.some_data()
            self.sent = (self.sent + [content])[-4:]
            self.put_bytes(bytes([ENQ]) + pu.on_the_line(content))

    def long_message(self):
        """One message is brought close to 4,096 bytes without a pause; the
        steps that follow decide how it ends."""
        if (not self.opened() and self.unit.phase == IDLE
                and self.mood_name == "reporting"):
            awaited = [p for p in self.unit.own if p.state == AWAITED]
            if awaited and self.chance(0.5):
                content = self.replying(self.rng.choice(awaited), 0)
            else:
                content = self.primary(0)
            self.put_bytes(bytes([ENQ]) + pu.on_the_line(content))
        opened = self.opened()
        if not opened or self.unit.phase != IDLE:
            self.far_step()
            return
        place = self.rng.choice(opened)
        self.put_bytes(bytes([ENQ]) + pu.on_the_line(
            self.continuing(place, 0, self.rng.randbytes(
                self.rng.randint(1, 244)))))
        while (self.unit.phase == IDLE and place.state == OPEN
               and pu.AREA - len(place.data) > 244):
            content = self.continuing(place, 0, self.rng.randbytes(244))
            self.put_bytes(bytes([ENQ]) + pu.on_the_line(content))
        if self.unit.phase == IDLE and place.state == OPEN:
            room = pu.AREA - len(place.data)
            size = room + self.rng.choice((0, 0, 1, 1, -1))
            size = max(1, min(244, size))
            if self.chance(0.4):
                self.lose_an_ack()
            content = self.continuing(place, self.rng.choice((0, 1)),
                                      self.rng.randbytes(size))
            self.sent = (self.sent + [content])[-4:]
            if self.unit.phase == IDLE and self.chance(0.3):
                # A request, or a reply, is held when the message turns out
                # too long.
                if self.chance(0.5):
                    self.something_to_answer()
                self.put_bytes(bytes([ENQ]))
                if self.chance(0.5):
                    self.user_reply(True)
                else:
                    self.user_ask()
                self.put_bytes(pu.on_the_line(content))
            else:
                self.put_bytes(bytes([ENQ]) + pu.on_the_line(content))
            self.look_at(place)
            if self.unit.phase == IDLE and self.chance(0.7):
                if self.chance(0.5) or place.state != OPEN:
                    content = self.unit.saved + self.rng.randbytes(1)
                    if self.chance(0.4):
                        # As if the message went on.
                        content = content[:5] + bytes([(content[5] + 1) & 255]
                                                      ) + content[6:]
                else:
                    content = self.continuing(place)
                self.put_bytes(bytes([ENQ]) + pu.on_the_line(content))
                self.look_at(place)

    # ---- a whole script -----------------------------------------------------

    def step(self):
        m, roll = self.mood, self.rng.random()
        for name, act in (("junk", self.unreadable), ("odd", self.odd_line),
                          ("look", self.look), ("start", self.start),
                          ("refused_start", self.refused_start),
                          ("wait", self.wait), ("patience", self.patience),
                          ("long_message", self.long_message),
                          ("in_vain", self.in_vain),
                          ("user", self.user_step)):
            if roll < m[name]:
                act()
                return
            roll -= m[name]
        self.far_step()

    def look_after(self):
        """Look at places that a step changed."""
        states = [p.state for p in self.unit.own + self.unit.incoming]
        changed = [i for i, (a, b) in enumerate(zip(self.before, states))
                   if a != b]
        for i in changed:
            if i < 4 and states[i] == ENDED and self.chance(0.7):
                self.put("V %d" % i)
            elif i >= 4 and self.chance(0.15):
                self.put("R %d 1 -" % (i - 4))
        self.before = states

    def last_looks(self):
        for i in range(4):
            self.put("V %d" % i)
        for i in range(4):
            self.put("R %d 1 -" % i)
        self.put("K")

    def steps(self, count):
        goal = len(self.lines) + count
        while len(self.lines) < goal:
            self.step()
            self.look_after()
            if self.chance(0.004):
                self.set_mood(self.rng.choice(MOOD_NAMES))
            if self.chance(0.0003):
                self.long_wait()
        self.last_looks()


def make(seed, length=None, make_unit=pu.Unit):
    """The script of a seed: its lines, and what the plain bench prints.

    It begins with a start that is accepted, so it may stand behind any other
    script in one input.
    """
    rng = random.Random(seed)
    writer = Writer(rng, make_unit)
    writer.start()
    writer.steps(length or rng.randint(100, 400))
    return writer.lines, writer.answers


def make_cold(seed, make_unit=pu.Unit):
    """A script that must be run alone: it begins with lines before the first
    start, refused starts among them."""
    rng = random.Random("cold %d" % seed)
    writer = Writer(rng, make_unit)
    for _ in range(rng.randint(0, 30)):
        what = rng.random()
        if what < 0.3:
            writer.refused_start()
        elif what < 0.6:
            text = writer.fair_line()
            if text[0] not in "HE":
                writer.put(text)
        else:
            writer.put(rng.choice((b"", b"V 9", b"B -", b"T 0", b"D", b"V 256",
                                   b"H 5 50 45 45 3 1 1 65536", b"T 100001",
                                   b"h 1 1 1 1 1 1 1 1", b"H 1 1 1 1 1 1 1",
                                   b"\xff", b"R 0 1 -", b"L O 0",
                                   b"0" * 1025, b"E 0 0 0 0 0 0 0 65536")))
    if rng.random() < 0.8:
        writer.start()
        writer.steps(rng.randint(1, 60))
    return writer.lines, writer.answers


def make_cycle(seed, make_unit=pu.Unit):
    """A long script in which all 65,535 transaction numbers are given, so
    that the pass-over of numbers comes up: numbers of places in use, and that
    of the latest own transaction that got a verdict.  There are eight
    variants; seeds 250 apart give one after the other."""
    variant = seed // 250 % 8
    rng = random.Random("cycle %d" % seed)
    writer = Writer(rng, make_unit)
    put = writer.put
    last = rng.choice((0, 65535, rng.randrange(65536)))
    put("%s 1 %d 120 120 0 5 1 %d" % (rng.choice("HEE"), rng.choice((1, 2)),
                                      last))
    u = writer.unit

    def before(number, steps):
        """The number so many before another one (0 is no number)."""
        return (number - 1 - steps) % 65535 + 1

    def primary(w, end="B 06"):
        put("O 7 %d 1 1 -" % w)
        put("B 04")
        put("D")
        put(end)

    def settle():
        """Reports on their way or waiting are sent, one after the other."""
        while u.sending is not None:
            put("B 04")
            put("D")
            put("B 06")

    def report(end="B 06"):
        """Equipment: a misrouted block, and the report that takes a number."""
        content = writer.misroute(writer.header(1, 1, 1, 1, 1, bytes(4)))
        put("B " + (bytes([ENQ]) + pu.on_the_line(content)).hex().upper())
        put("B 04")
        put("D")
        put(end)

    def answer(place, how):
        """Ends the waiting of an own place: reply, broken or no reply."""
        system = place.system
        if how == "late":
            put("T %d" % (u.t3 - place.timer + 1))
            settle()
            return
        if how == "broken":
            content = writer.header(0, 1, 2, 0, 1, system)
        else:
            function = {"answered": 2, "declined": 0, "other": 4}[how]
            content = writer.header(0, 1, function, 1, 1, system)
        put("B " + (bytes([ENQ]) + pu.on_the_line(content)).hex().upper())

    def release_all():
        for i in range(4):
            put("V %d" % i)
            put("L O %d" % i)

    # Places are held through the whole cycle, waiting for a reply (T3 is
    # 1,200 ticks, and the cycle itself takes none) or with their verdict.
    held = {0: 3, 2: 2, 7: 3}.get(variant, 1)
    for i in range(held):
        primary(1)
    first = u.own[0].number
    if variant in (0, 7):
        answer(u.own[1], "declined")
    if variant == 7:
        put("O 7 1 1 1 -")               # a number for a send that fails
        put("B 04")
        put("D")
        put("B 15")
        put("L O 3")
    ending = rng.choice(("answered", "declined", "other", "late"))
    steps = {0: 1, 1: 1, 2: 1, 3: 2, 4: 2, 5: 1, 6: 2, 7: 1}[variant]
    if not u.host:
        # As many numbers go to reports of replies that do not come.
        steps += {1: 1, 2: 2, 3: 1, 4: 1 if ending == "late" else 0}.get(
            variant, 0)
    stop = before(first, steps)
    # At the equipment reports take some of the numbers, all or none.
    reports = 0 if u.host else rng.choice((0.1, 0.5, 1, 1))
    while u.last != stop:
        if rng.random() < reports:
            report()
        else:
            primary(0)
            put("L O %d" % held)

    if variant == 0:
        # Three numbers in use in a row are passed over, the middle one in a
        # place that has its verdict.
        pass
    elif variant == 1:
        # The latest to get a verdict is passed over, also after its release.
        answer(u.own[0], "late")
        release_all()
    elif variant == 2:
        # Two verdicts on one tick: the higher place is the later one.
        answer(u.own[0], "late")
        release_all()
    elif variant == 3:
        # A send fails on the tick on which a reply is given up: the line
        # goes first, the place is the later one.
        put("T %d" % (u.t3 - u.own[0].timer + 1 - (u.t2 + 1)))
        put("O 7 0 1 1 -")
        put("T %d" % (u.t2 + 1))
        settle()
        release_all()
    elif variant == 4:
        # The latest by a reply, then a newer one by a send that fails: the
        # former may be used again.
        answer(u.own[0], ending)
        release_all()
        primary(1, "B 15")
        release_all()
    elif variant == 5:
        # The latest by a reply of whatever kind is passed over.
        answer(u.own[0], rng.choice(("answered", "declined", "other",
                                     "broken")))
        release_all()
    elif variant == 6:
        # The latest by a broken reply, then a newer one that is sent.
        answer(u.own[0], "broken")
        release_all()
        primary(0)
        release_all()
    else:
        # In use with and without a verdict; one was released meanwhile.
        put("L O 1")
    # What numbers come next, past the old ones.
    for _ in range(6):
        end = rng.choice(("B 06", "B 06", "B 15"))
        if rng.random() < (0 if u.host else 0.5):
            report(end)
        else:
            primary(rng.choice((0, 1)), end)
        for i in range(4):
            put("V %d" % i)
            if rng.random() < 0.4:
                put("L O %d" % i)
    writer.last_looks()
    return writer.lines, writer.answers


def kind_of(seed):
    """Which kind of script a seed gives."""
    if seed % 250 == 125:
        return "cycle"           # all transaction numbers, some 330,000 lines
    if seed % 20 == 0:
        return "cold"            # to be run alone
    if seed % 100 == 7:
        return "long"            # thousands of lines
    return "ordinary"


def script(seed, make_unit=pu.Unit):
    """The script of a seed, of whatever kind: its lines and what the plain
    bench prints for them."""
    kind = kind_of(seed)
    if kind == "cycle":
        return make_cycle(seed, make_unit)
    if kind == "cold":
        return make_cold(seed, make_unit)
    if kind == "long":
        return make(seed, 2000 + seed * 7 % 3000, make_unit)
    return make(seed, None, make_unit)


# ---------------------------------------------------------------------------
# Coverage: what a heap of scripts has reached
# ---------------------------------------------------------------------------

COUNT = collections.Counter()


def byte_kind(b):
    return {ENQ: "ENQ", EOT: "EOT", ACK: "ACK", NAK: "NAK"}.get(b, "other")


class WatchedUnit(pu.Unit):
    """The plain unit with eyes: it counts what happens and changes nothing."""

    def byte(self, b):
        COUNT["byte: %s, %s" % (self.phase, byte_kind(b))] += 1
        if self.phase == WAIT_LENGTH and b in (9, 10, 254, 255):
            COUNT["length byte %d" % b] += 1
        limit = self.t1 if self.phase in (BODY, SILENCE) else self.t2
        if self.phase not in (IDLE, DRAINING) and self.timer == limit:
            COUNT["byte just in time: " + self.phase] += 1
        gives_way = self.phase == WAIT_EOT and b == ENQ and self.host
        if gives_way:
            COUNT["gives way"] += 1
            if self.sending.at:
                COUNT["gives way with a later block"] += 1
            if self.tries:
                COUNT["gives way after retries"] += 1
            self.sending.gave_way = True
        result = super().byte(b)
        COUNT["note %d" % result[2]] += 1
        return result

    def tick(self):
        before = [p.state for p in self.own + self.incoming]
        phase, waiting = self.phase, len(self.waiting)
        sending = self.sending
        result = super().tick()
        if result[1] == b"\x15\x05" and sending is None:
            COUNT["verdict 6 with a NAK on one tick"] += 1
        ended = 0
        for i, p in enumerate(self.own + self.incoming):
            if before[i] == AWAITED and p.state == ENDED:
                COUNT["T3 run-out"] += 1
                ended += 1
            if before[i] == OPEN and p.state == ENDED:
                COUNT["T4 run-out, own reply"] += 1
                ended += 1
            if before[i] == OPEN and p.state == FREE:
                COUNT["T4 run-out, incoming"] += 1
        if ended > 1:
            COUNT["several verdicts on one tick"] += 1
        if not self.host and sending and sending is not self.sending and any(
                before[i] == AWAITED and p.state == ENDED
                and p.verdict == pu.V_NO_REPLY for i, p in enumerate(self.own)):
            COUNT["failure and verdict 6 on one tick, %s waiting"
                  % ("some" if waiting else "none")] += 1
        if phase == DRAINING and ended:
            COUNT["T3 or T4 run-out while draining"] += 1
        COUNT["note %d" % result[2]] += 1
        return result

    def drained(self):
        COUNT["drained: " + self.phase] += 1
        return super().drained()

    def retry(self):
        tries = self.tries + 1
        COUNT["retry" if tries <= self.rty else "retries used up"] += 1
        if tries <= self.rty and self.sending.owner is None:
            COUNT["retry of a report"] += 1
        if tries == 31:
            COUNT["tries 31"] += 1
        return super().retry()

    def kind(self):
        """Of the message that is being sent or held."""
        owner = self.sending.owner
        return ("report" if owner is None
                else "own" if isinstance(owner, pu.OwnPlace) else "reply")

    def report(self, function, header):
        name = "S9F%d" % function
        if self.host:
            COUNT["host, no report: " + name] += 1
        elif self.sending is None:
            COUNT["report starts at its cause: %s, %s" % (name, self.phase)] += 1
        else:
            where = "receiving" if self.phase in RECEIVING else "sending"
            COUNT["report waits: %s, %s %s" % (name, where, self.kind())] += 1
        if function == 9 and header[5] > 1:
            COUNT["S9F9 of several blocks"] += 1
        out = super().report(function, header)
        if self.waiting:
            COUNT["reports waiting: %d" % len(self.waiting)] += 1
        return out

    def oldest_report(self):
        if self.waiting:
            COUNT["oldest report starts behind: " + self.ended] += 1
            function, header = self.waiting[0]
            if function == 9 and not any(p.last_header == header
                                         for p in self.own if p.state != FREE):
                COUNT["place released before its S9F9 starts"] += 1
        return super().oldest_report()

    def start_report(self, function, header):
        last = self.last
        out = super().start_report(function, header)
        if self.last < last:
            COUNT["number wrap by a report"] += 1
        if self.last != last + 1 and not (last == 65535 and self.last == 1):
            COUNT["number passed over by a report"] += 1
        return out

    def send_failed(self):
        block, name = self.sending.at, self.kind()
        self.ended = name + " failed"
        COUNT["send failed: " + name] += 1
        if block:
            COUNT["send failed at a later block: " + name] += 1
            if self.waiting:
                COUNT["failed at a later block with reports waiting"] += 1
        super().send_failed()

    def block_acknowledged(self):
        if self.waiting and self.sending.at + 1 < len(self.sending.blocks):
            COUNT["reports waiting between two blocks"] += 1
        return super().block_acknowledged()

    def message_sent(self):
        name = self.kind()
        self.ended = name + " sent"
        COUNT["message sent: " + name] += 1
        COUNT["message sent in %d blocks" % len(self.sending.blocks)] += 1
        if hasattr(self.sending, "gave_way"):
            COUNT["gave way, then sent: " + name] += 1
        super().message_sent()

    def end_receive(self, answer):
        out = super().end_receive(answer)
        if len(out) > 1:
            how = ("report" if self.sending.owner is None
                   else "gave way" if hasattr(self.sending, "gave_way")
                   else "asked")
            COUNT["held block (%s) sent behind %s"
                  % (how, "ACK" if answer == ACK else "NAK")] += 1
        return out

    def judge(self, content):
        h = pu.Header(content[:10])
        cont = self.find_continued(h) if self.is_ours(h) else None
        wait = self.find_awaited(h) if self.is_ours(h) else None
        limit = (cont and cont.timer == self.t4
                 or wait and wait.state == AWAITED and wait.timer == self.t3)
        what = ("open reply" if isinstance(cont, pu.OwnPlace)
                else "open incoming" if cont
                else "overtaking reply" if wait and wait.state == PUT_OUT
                else "awaited reply" if wait else "none")
        out = [p for p in self.own if p.state == PUT_OUT]
        early = [p for p in self.own
                 if p.state == SENDING and p.system == h.system]
        to_report = (not self.host and self.is_ours(h) and h.stream == 9
                     and h.system == bytes([0, 0, self.last >> 8, self.last & 255])
                     and not any(p.system == h.system for p in self.own))
        note = super().judge(content)
        if to_report and h.function % 2 == 0:
            COUNT["reply to a report: %d" % note] += 1
        if out and what != "overtaking reply":
            COUNT["judged %d with a block held that was out" % note] += 1
        if early and note == 24:
            COUNT["reply to a primary that was not out yet"] += 1
        COUNT["judged %d: %s" % (note, what)] += 1
        if note == 21:
            if limit:
                COUNT["block just in time for " + what] += 1
            if h.number > 255:
                COUNT["kept with number above 255"] += 1
            if h.number == 0:
                COUNT["kept with number 0"] += 1
        if h.number == 0 and h.e == 0 and note == 24:
            COUNT["number 0 with E = 0 is 24"] += 1
        return note

    def withdraw(self, place):
        if place.state == PUT_OUT:
            COUNT["withdrawn"] += 1
            if self.sending.at:
                COUNT["withdrawn, a later block"] += 1
        super().withdraw(place)

    def place_for_primary(self, header):
        place = super().place_for_primary(header)
        if place is not None and place.state == OPEN:
            COUNT["thrown out (rule 6)"] += 1
            if any(p.state == FREE for p in
                   self.incoming[:self.incoming.index(place)]):
                COUNT["thrown out with a lower place free"] += 1
            if header.e:
                COUNT["thrown out, new one completes"] += 1
        elif any(p.state in (COMPLETE, REPLYING, REPLIED)
                 and p.first.system == header.system for p in self.incoming):
            COUNT["new primary like a complete one"] += 1
        return place

    def complete(self, place):
        name = "reply" if isinstance(place, pu.OwnPlace) else "incoming"
        COUNT["complete: " + name] += 1
        if len(place.data) == pu.AREA:
            COUNT["complete with exactly 4,096 bytes: " + name] += 1
        super().complete(place)

    def give_verdict(self, place, verdict):
        COUNT["verdict %d" % verdict] += 1
        super().give_verdict(place, verdict)

    def open(self, *args):
        last, phase = self.last, self.phase
        reporting = self.sending is not None and self.sending.owner is None
        result = super().open(*args)
        COUNT["refusal %d: primary" % result[0]] += 1
        if reporting:
            COUNT["refusal %d with a report on its way: primary, %s"
                  % (result[0], "held" if phase in RECEIVING else "sent")] += 1
        if result[0] == 0:
            COUNT["accepted primary: " + phase] += 1
            if self.last < last:
                COUNT["number wrap"] += 1
            if self.last != last + 1 and not (last == 65535 and self.last == 1):
                COUNT["number passed over"] += 1
        return result

    def reply(self, index, function, data):
        phase = self.phase
        reporting = self.sending is not None and self.sending.owner is None
        result = super().reply(index, function, data)
        COUNT["refusal %d: reply" % result[0]] += 1
        if reporting:
            COUNT["refusal %d with a report on its way: reply, %s"
                  % (result[0], "held" if phase in RECEIVING else "sent")] += 1
        if result[0] == 0:
            COUNT["accepted reply: " + phase] += 1
            if self.incoming[index].first.function == 255:
                COUNT["accepted reply to F255"] += 1
        return result

    def release(self, own, index):
        state = "above 3"
        if index < 4:
            state = (self.own if own else self.incoming)[index].state
        result = super().release(own, index)
        COUNT["refusal %d: release %s, %s"
              % (result[0], "own" if own else "incoming", state)] += 1
        return result


def expected():
    """All that must not be at 0."""
    names = ["note %d" % n for n in range(20, 32)]
    names += ["verdict %d" % v for v in range(1, 8)]
    names += ["printed V with %d" % v for v in range(8)]
    names += ["printed refusal %d" % r for r in (4, 5, 7, 8, 9, 10, 11)]
    names += ["refusal %d: primary" % r for r in (0, 5, 7, 8)]
    names += ["refusal %d: reply" % r for r in (0, 5, 7, 9, 10, 11)]
    names += ["refusal 9: release own, " + s
              for s in (FREE, SENDING, PUT_OUT, AWAITED, OPEN, "above 3")]
    names += ["refusal 0: release own, " + ENDED]
    names += ["refusal 9: release incoming, " + s
              for s in (FREE, OPEN, REPLYING, "above 3")]
    names += ["refusal 0: release incoming, " + s for s in (COMPLETE, REPLIED)]
    names += ["byte: %s, %s" % (p, k)
              for p in (IDLE, WAIT_EOT, DRAINING, WAIT_ACK, WAIT_LENGTH, BODY,
                        SILENCE)
              for k in ("ENQ", "EOT", "ACK", "NAK", "other")]
    names += ["drained: " + p
              for p in (IDLE, WAIT_EOT, DRAINING, WAIT_ACK, WAIT_LENGTH, BODY,
                        SILENCE)]
    names += ["length byte %d" % n for n in (9, 10, 254, 255)]
    names += ["byte just in time: " + p
              for p in (WAIT_EOT, WAIT_ACK, WAIT_LENGTH, BODY, SILENCE)]
    names += ["block just in time for " + w
              for w in ("open reply", "open incoming", "awaited reply")]
    names += ["judged 21: " + w for w in ("open reply", "open incoming",
                                          "awaited reply", "none")]
    names += ["judged 26: open reply", "judged 26: open incoming"]
    names += ["judged 27: " + w for w in ("open reply", "open incoming",
                                          "awaited reply", "none")]
    names += ["judged 25: none", "judged 24: none", "judged 22: none"]
    names += ["judged %d: overtaking reply" % n for n in (21, 23, 27)]
    names += ["withdrawn", "withdrawn, a later block",
              "reply to a primary that was not out yet"]
    names += ["judged %d with a block held that was out" % n
              for n in range(21, 28)]
    names += ["held block (%s) sent behind %s" % (how, a)
              for how in ("asked", "gave way", "report") for a in ("ACK", "NAK")]
    names += ["host, no report: S9F%d" % f for f in (1, 9, 11)]
    names += ["report starts at its cause: S9F%d, %s" % (f, p)
              for f, p in ((1, BODY), (11, BODY), (9, IDLE), (9, WAIT_LENGTH),
                           (9, BODY), (9, SILENCE))]
    names += ["report waits: S9F%d, receiving %s" % (f, k)
              for f in (1, 9, 11) for k in ("own", "reply")]
    names += ["report waits: S9F%d, receiving report" % f for f in (1, 9)]
    names += ["report waits: S9F9, sending " + k
              for k in ("own", "reply", "report")]
    names += ["reports waiting: %d" % n for n in (1, 2, 3, 4, 5)]
    names += ["oldest report starts behind: %s %s" % (k, how)
              for k in ("own", "reply", "report") for how in ("sent", "failed")]
    names += ["refusal 7 with a report on its way: %s, %s" % (k, how)
              for k in ("primary", "reply") for how in ("held", "sent")]
    names += ["accepted primary: " + p for p in (IDLE, WAIT_LENGTH, BODY, SILENCE)]
    names += ["accepted reply: " + p for p in (IDLE, WAIT_LENGTH, BODY, SILENCE)]
    names += ["complete: reply", "complete: incoming",
              "complete with exactly 4,096 bytes: reply",
              "complete with exactly 4,096 bytes: incoming",
              "T3 run-out", "T4 run-out, own reply", "T4 run-out, incoming",
              "T3 or T4 run-out while draining",
              "several verdicts on one tick", "number wrap",
              "thrown out (rule 6)", "thrown out with a lower place free",
              "thrown out, new one completes",
              "new primary like a complete one",
              "gives way", "gives way after retries",
              "gives way with a later block",
              "gave way, then sent: own", "gave way, then sent: reply",
              "send failed: own", "send failed: reply",
              "send failed at a later block: own",
              "send failed at a later block: reply",
              "message sent: own", "message sent: reply",
              "message sent in 1 blocks", "message sent in 2 blocks",
              "message sent in 3 blocks", "retry", "retries used up",
              "tries 31", "accepted reply to F255",
              "kept with number above 255", "kept with number 0",
              "number 0 with E = 0 is 24",
              "number passed over",
              "printed K", "retry of a report", "S9F9 of several blocks",
              "place released before its S9F9 starts",
              "number wrap by a report", "number passed over by a report",
              "reports waiting between two blocks",
              "failed at a later block with reports waiting",
              "verdict 6 with a NAK on one tick",
              "failure and verdict 6 on one tick, none waiting",
              "failure and verdict 6 on one tick, some waiting",
              "reply to a report: 24", "send failed: report",
              "message sent: report",
              "printed ?", "printed ? for a line of 1,025 bytes",
              "read a line of 1,024 bytes", "start accepted",
              "refused start while running"]
    return names


def coverage(how_many):
    COUNT.clear()
    total = 0
    for seed in range(1, how_many + 1):
        if kind_of(seed) == "cycle" and seed not in (125, 375):
            continue             # two of these long ones, one of each end
        withdrawn, reports = COUNT["withdrawn"], COUNT["message sent: report"]
        lines, answers = script(seed, WatchedUnit)
        total += len(lines)
        if COUNT["withdrawn"] > withdrawn:
            COUNT["scripts with a block withdrawn"] += 1
        if COUNT["message sent: report"] > reports:
            COUNT["scripts with a report sent"] += 1
        for text, answer in zip(lines, answers):
            first = answer.split(" ")[0]
            if first == "V":
                COUNT["printed V with " + answer.split(" ")[2]] += 1
            elif first == "K":
                COUNT["printed K"] += 1
            elif first == "?":
                COUNT["printed ?"] += 1
                if len(text) == 1025:
                    COUNT["printed ? for a line of 1,025 bytes"] += 1
            else:
                COUNT["printed refusal " + first] += 1
                if first == "4":
                    COUNT["refused start while running"] += 1
                if text[:1] in b"HE" and first == "0":
                    COUNT["start accepted"] += 1
            if len(text) == 1024 and first != "?":
                COUNT["read a line of 1,024 bytes"] += 1
    must = expected()
    missing = [name for name in must if COUNT[name] == 0]
    for name in must + sorted(set(COUNT) - set(must)):
        print("%9d  %s" % (COUNT[name], name))
    print("%d scripts, %d lines; not reached: %s"
          % (how_many, total, ", ".join(missing) or "nothing"))
    return 1 if missing else 0


def main():
    args = sys.argv[1:]
    if args and args[0] == "--coverage":
        return coverage(int(args[1]) if len(args) > 1 else 500)
    if len(args) == 1:
        lines, _ = script(int(args[0]))
    elif len(args) == 2:
        lines, _ = make(int(args[0]), int(args[1]))
    else:
        print(__doc__, end="")
        return 2
    sys.stdout.buffer.write(b"".join(text + b"\n" for text in lines))
    return 0


if __name__ == "__main__":
    sys.exit(main())

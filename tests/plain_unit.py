"""The link unit, written a second time, straight from the rules of 01 and of
requests 1 and 2 of 02 (a reply that overtakes the ACK; the equipment tells the
host what was thrown out).

Nothing here is shared with the proved program.  The aim is that a reader can
hold this file beside 01 and check it sentence by sentence.  Comments name the
sentence of 01 or 02 (or the number of the reading) that a piece is there for.

Every call answers a triple: refusal number or 0, bytes put out, note.
"""

# "The handshake codes are ENQ 05, EOT 04, ACK 06 and NAK 15 (hex)."
ENQ, EOT, ACK, NAK = 0x05, 0x04, 0x06, 0x15

# The states of the line, by the names 01 gives them under "The line".
IDLE = "idle"
WAIT_EOT = "waiting for EOT"
DRAINING = "draining"
WAIT_ACK = "waiting for ACK"
WAIT_LENGTH = "waiting for length"
BODY = "body"
SILENCE = "silence"

# The states of an own place.
FREE = "free"
SENDING = "its primary is being sent or held"
PUT_OUT = "sent or held, but its last block has been out: a reply is awaited"
AWAITED = "a reply is awaited, T3 runs"
OPEN = "an open message, T4 runs"        # an open reply, or an open incoming
ENDED = "has its verdict"

# The states of an incoming place are FREE, OPEN and these three.
COMPLETE = "complete"
REPLYING = "its reply is being sent or held"
REPLIED = "its reply has ended, sent or failed"

# Notes.
NOTHING = 20
KEPT = 21
MISROUTED = 22
DUPLICATE = 23
UNEXPECTED = 24
NO_PLACE = 25
TOO_LONG = 26
EMPTY = 27
NO_LENGTH = 28
GAP_IN_BODY = 29
BAD_LENGTH = 30
BAD_SUM = 31

# "Verdicts of an own place".
V_OPEN, V_SENT, V_ANSWERED, V_DECLINED = 0, 1, 2, 3
V_OTHER, V_BROKEN, V_NO_REPLY, V_FAILED = 4, 5, 6, 7

AREA = 4096          # bytes in one area of the lent room
FULL = 244           # data bytes in a filled block

# 02, request 2: "A misrouted block gives S9F1, verdict 6 gives S9F9, a message
# over the limit gives S9F11".
S9_MISROUTED, S9_NO_REPLY, S9_TOO_LONG = 1, 9, 11
MOST_WAITING = 8             # "Up to 8 reports wait"
MOST_DROPPED = 4294967295    # where the count of those dropped stops


def byte_sum(content):
    """The 16-bit sum of the N bytes; the length byte is not in it."""
    return sum(content)


def on_the_line(content):
    """A block on the line: length, the N bytes, the sum high byte first."""
    total = byte_sum(content)
    return bytes([len(content)]) + content + bytes([total >> 8, total & 0xFF])


def cut(first_two, w, stream, function, system, data):
    """Cut a message into blocks (each is header and data, nothing else).

    Blocks are filled: each but the last carries 244 data bytes.  Numbers
    start at 1, only the last has E = 1, the rest of the header is the same in
    each.  No data gives one block, N = 10.
    """
    parts = [data[i:i + FULL] for i in range(0, len(data), FULL)]
    if not parts:
        parts = [b""]
    blocks = []
    for k, part in enumerate(parts, start=1):
        e = 1 if k == len(parts) else 0
        header = first_two + bytes([w << 7 | stream, function,
                                    e << 7 | k >> 8, k & 0xFF]) + system
        blocks.append(header + part)
    return blocks


class Header:
    """The ten header bytes taken apart."""

    def __init__(self, raw):
        self.raw = bytes(raw)
        self.r = raw[0] >> 7
        self.device = (raw[0] & 0x7F) << 8 | raw[1]
        self.w = raw[2] >> 7
        self.stream = raw[2] & 0x7F
        self.function = raw[3]
        self.e = raw[4] >> 7
        self.number = (raw[4] & 0x7F) << 8 | raw[5]
        self.system = bytes(raw[6:10])

    def begins(self):
        """The number rule of a first block: 1, or 0 with E = 1."""
        return self.number == 1 or (self.number == 0 and self.e == 1)


class OwnPlace:
    """One of the four places for transactions that we began."""

    def __init__(self):
        self.state = FREE
        self.verdict = V_OPEN
        self.number = 0           # the transaction number
        self.system = b""         # source ID, then the number
        self.w = 0
        self.stream = 0
        self.function = 0
        self.last_header = b""    # of its primary's last block: for S9F9
        self.timer = 0            # T3 while awaited, T4 while a reply is open
        # The reply, from its first block on.
        self.first = None         # Header of the first block
        self.next_number = 0
        self.data = b""


class IncomingPlace:
    """One of the four places for primaries of the other end."""

    def __init__(self):
        self.state = FREE
        self.timer = 0            # T4
        self.first = None
        self.next_number = 0
        self.data = b""


class Outgoing:
    """The one message that is being sent or held, a report among them."""

    def __init__(self, blocks, owner):
        self.blocks = blocks
        self.at = 0               # index of the block under way
        self.owner = owner        # an OwnPlace or an IncomingPlace, or None:
                                  # "Reports take no own place"


def settings_in_range(t1, t2, t3, t4, rty, device, duplicates, last):
    """The table of settings: refusal 4 exactly if this is False."""
    return (1 <= t1 <= 100 and 1 <= t2 <= 125 and 1 <= t3 <= 120
            and 1 <= t4 <= 120 and 0 <= rty <= 31 and 0 <= device <= 32767
            and 0 <= duplicates <= 1 and 0 <= last <= 65535)


class Unit:
    def __init__(self, host, t1, t2, t3, t4, rty, device, duplicates, last):
        assert settings_in_range(t1, t2, t3, t4, rty, device, duplicates, last)
        # Panel steps become ticks of 0.1 s: T1 is in steps of 0.1 s, T2 of
        # 0.2 s, T3 and T4 of 1 s.
        self.t1 = t1
        self.t2 = t2 * 2
        self.t3 = t3 * 10
        self.t4 = t4 * 10
        self.rty = rty
        self.host = host          # the host is the slave
        self.device = device
        self.duplicates = duplicates == 1
        self.last = last          # the transaction number last given

        self.phase = IDLE
        self.timer = 0            # the line timer, T1 or T2 by the phase
        self.tries = 0
        self.length = 0           # N of the block being received
        self.body = bytearray()
        self.silence_note = 0     # what led into silence

        self.sending = None       # an Outgoing, while a message is sent or held
        self.own = [OwnPlace() for _ in range(4)]
        self.incoming = [IncomingPlace() for _ in range(4)]
        self.saved = None         # saved header; "none at a start"
        self.latest = None        # number of the latest own transaction that
                                  # got a verdict (reading 21: stays)
        self.waiting = []         # reports that wait, the oldest first: each a
                                  # function of stream 9 and ten header bytes
        self.dropped = 0          # the count of those that found no room there

    # ---- what the other end must put in the first two header bytes --------

    def outgoing_first_two(self):
        """What we send: R = 1 means to the host, so a host sends R = 0."""
        r = 0 if self.host else 1
        return bytes([r << 7 | self.device >> 8, self.device & 0xFF])

    def is_ours(self, header):
        """R-bit and device ID are this link's incoming ones."""
        return header.r == (1 if self.host else 0) and header.device == self.device

    # ---- sending ----------------------------------------------------------

    def begin_block(self):
        """First ENQ of a block, with a count of tries of its own."""
        self.tries = 0
        return self.put_enq()

    def put_enq(self):
        self.phase = WAIT_EOT
        self.timer = 0
        return bytes([ENQ])

    def retry(self):
        """One try more.  Above RTY the send has failed and the line is idle,
        else ENQ goes out again."""
        self.tries += 1
        if self.tries > self.rty:
            self.phase = IDLE
            self.send_failed()
            return self.oldest_report()
        return self.put_enq()

    def send_failed(self):
        owner = self.sending.owner
        self.sending = None
        if owner is None:
            pass       # reports "are sent once": one that failed is over
        elif isinstance(owner, OwnPlace):
            # Reading 20: verdict 7 also if earlier blocks were acknowledged.
            self.give_verdict(owner, V_FAILED)
        else:
            # "A reply of ours ends sent or failed in its incoming place."
            owner.state = REPLIED

    def put_block_out(self):
        """The whole block leaves.  02: "A primary with W = 1 now awaits its
        reply from the call that first puts out the bytes of its last block."
        No timer runs yet; at a retry nothing is left to change."""
        sending = self.sending
        self.phase = DRAINING
        if (isinstance(sending.owner, OwnPlace) and sending.owner.w == 1
                and sending.at == len(sending.blocks) - 1):
            sending.owner.state = PUT_OUT
        return on_the_line(sending.blocks[sending.at])

    def withdraw(self, place):
        """02: "If the reply's first block is kept, or breaks the reply, while
        that block is held, the held block is withdrawn and counts as sent,
        and no T3 runs."  The block is that of the place whose reply it is:
        a place is PUT_OUT only while its primary is the message being sent."""
        if place.state == PUT_OUT:
            assert self.sending.owner is place
            self.sending = None

    def block_acknowledged(self):
        """The block is sent.  The message's next block goes out with ENQ in
        the same call."""
        self.sending.at += 1
        if self.sending.at < len(self.sending.blocks):
            return self.begin_block()
        # Reading 9: after the ACK of the last block the line is idle.
        self.phase = IDLE
        self.message_sent()
        return self.oldest_report()

    def message_sent(self):
        owner = self.sending.owner
        self.sending = None
        if owner is None:
            pass                         # a report: W = 0, and no place
        elif not isinstance(owner, OwnPlace):
            owner.state = REPLIED
        elif owner.w == 0:
            self.give_verdict(owner, V_SENT)
        else:
            # T3 "runs from the ACK of the primary's last block"; that the
            # reply is awaited began earlier, see put_block_out.
            owner.state = AWAITED
            owner.timer = 0

    # ---- reports of the equipment (02, request 2) --------------------------

    def report(self, function, header):
        """There is something to tell the host.  While nothing is being sent
        or held the report starts now, else it waits; "a ninth is dropped, and
        a count of those ... goes up by one".  "The equipment side" reports: a
        host does not."""
        if self.host:
            return b""
        if self.sending is None:
            return self.start_report(function, header)
        if len(self.waiting) < MOST_WAITING:
            self.waiting.append((function, header))
        elif self.dropped < MOST_DROPPED:
            self.dropped += 1
        return b""

    def oldest_report(self):
        """"The oldest goes first, in the call that frees the line": a message
        has just ended, sent or failed, and the line is idle."""
        if not self.waiting:
            return b""
        return self.start_report(*self.waiting.pop(0))

    def start_report(self, function, header):
        """"All with W = 0, source ID 0 and a new transaction number, taken
        when the report starts.  The body is the two bytes hex 21 0A, then the
        ten header bytes of the offending block".  Twelve bytes: one block."""
        self.last = self.next_transaction_number()
        system = bytes([0, 0, self.last >> 8, self.last & 0xFF])
        blocks = cut(self.outgoing_first_two(), 0, 9, function, system,
                     bytes([0x21, 0x0A]) + header)
        return self.ask_to_send(blocks, None)

    # ---- receiving --------------------------------------------------------

    def begin_receive(self):
        self.phase = WAIT_LENGTH
        self.timer = 0
        return bytes([EOT])

    def end_receive(self, answer):
        """ACK or NAK, then the line is idle.  A held block is sent at once
        with a fresh count of tries: its ENQ leaves in this same call, behind
        the ACK or NAK (reading 7 and 8)."""
        self.phase = IDLE
        out = bytes([answer])
        if self.sending is not None:
            out += self.begin_block()
        return out

    def begin_silence(self, note):
        # Reading 10: the byte that leads into silence has note 20; the NAK
        # has the note of what led into it.
        self.phase = SILENCE
        self.timer = 0
        self.silence_note = note

    # ---- the three calls on the line --------------------------------------

    def byte(self, b):
        """One byte in."""
        phase = self.phase

        if phase == IDLE:
            if b == ENQ:
                return 0, self.begin_receive(), NOTHING
            return 0, b"", NOTHING                       # dropped

        if phase == WAIT_EOT:
            if b == EOT:
                return 0, self.put_block_out(), NOTHING
            if b == ENQ and self.host:
                # The slave gives way.  The block is held: it stays in
                # self.sending, at the same index (reading 8), and goes out
                # when the receive is over.
                return 0, self.begin_receive(), NOTHING
            return 0, b"", NOTHING       # dropped, the timer is not touched

        if phase == DRAINING:
            return 0, b"", NOTHING                       # dropped

        if phase == WAIT_ACK:
            if b == ACK:
                return 0, self.block_acknowledged(), NOTHING
            return 0, self.retry(), NOTHING    # reading 6: an ENQ likewise

        if phase == WAIT_LENGTH:
            if 10 <= b <= 254:
                self.phase = BODY
                self.timer = 0           # reading 4: T1 starts with the length
                self.length = b
                self.body = bytearray()
            else:
                self.begin_silence(BAD_LENGTH)
            return 0, b"", NOTHING

        if phase == BODY:
            self.timer = 0               # "each byte restarts T1"
            self.body.append(b)
            if len(self.body) < self.length + 2:
                return 0, b"", NOTHING
            content = bytes(self.body[:self.length])
            said = self.body[-2] << 8 | self.body[-1]
            if byte_sum(content) != said:
                self.begin_silence(BAD_SUM)
                return 0, b"", NOTHING
            # The block is judged first: one that it withdraws is no more
            # held, and no ENQ of it follows the ACK; a report that it starts
            # is held, and its ENQ follows.
            note = self.judge(content)
            return 0, self.end_receive(ACK), note

        # Silence: "bytes are dropped and restart T1".
        self.timer = 0
        return 0, b"", NOTHING

    def tick(self):
        """One tick: the line first, then own places 0 to 3, then incoming
        places 0 to 3."""
        out, note = b"", NOTHING
        phase = self.phase
        if phase != IDLE and phase != DRAINING:
            self.timer += 1
            # "it runs out on the tick that makes it exceed its limit"
            if phase == WAIT_EOT or phase == WAIT_ACK:
                if self.timer > self.t2:
                    out = self.retry()
            elif phase == WAIT_LENGTH:
                if self.timer > self.t2:
                    out, note = self.end_receive(NAK), NO_LENGTH
            elif self.timer > self.t1:
                note = GAP_IN_BODY if phase == BODY else self.silence_note
                out = self.end_receive(NAK)

        for place in self.own:
            if place.state == AWAITED:
                place.timer += 1
                if place.timer > self.t3:
                    self.give_verdict(place, V_NO_REPLY)
                    # Alone, behind the line's NAK, or none while it receives.
                    out += self.report(S9_NO_REPLY, place.last_header)
            elif place.state == OPEN:
                place.timer += 1
                if place.timer > self.t4:
                    self.give_verdict(place, V_BROKEN)

        for place in self.incoming:
            if place.state == OPEN:
                place.timer += 1
                if place.timer > self.t4:
                    place.state = FREE     # "A broken incoming message frees
                                           # its place."
        # Reading 5: T3 and T4 have no note of their own.
        return 0, out, note

    def drained(self):
        """The last block byte has left the wire.  At any other time than
        draining this does nothing."""
        if self.phase == DRAINING:
            self.phase = WAIT_ACK
            self.timer = 0
        return 0, b"", NOTHING

    # ---- judging a block that goes up -------------------------------------

    def judge(self, content):
        """The seven rules, in their order.  Answers the note."""
        header = Header(content[:10])
        data = content[10:]

        # Rule 1.  The saved header is kept.
        if not self.is_ours(header):
            self.report(S9_MISROUTED, header.raw)
            return MISROUTED

        # Rule 2.
        if self.duplicates and header.raw == self.saved:
            return DUPLICATE
        self.saved = header.raw

        # Rule 3.
        continued = self.find_continued(header)
        awaited = self.find_awaited(header)
        if continued is None and awaited is None:
            if not (header.function % 2 == 1 and header.begins()):
                return UNEXPECTED

        # Rule 4.
        if not data and (header.e == 0 or header.number > 1):
            if continued is not None:
                self.break_message(continued)
            elif awaited is not None:
                self.withdraw(awaited)
                self.break_message(awaited)
            return EMPTY

        # Rule 5.  Only a continuing block can exceed the area.
        if continued is not None and len(continued.data) + len(data) > AREA:
            self.break_message(continued)
            self.report(S9_TOO_LONG, header.raw)
            return TOO_LONG

        # Rule 6, and where the block is kept.
        if continued is not None:
            place = continued
            place.data += data
        elif awaited is not None:
            place = awaited
            self.withdraw(place)
            self.begin_message(place, header, data)
        else:
            place = self.place_for_primary(header)
            if place is None:
                return NO_PLACE
            self.begin_message(place, header, data)

        # Rule 7.
        place.next_number = header.number + 1
        if header.e == 0:
            place.timer = 0
        else:
            self.complete(place)
        return KEPT

    def find_continued(self, header):
        """The open message that this block continues, if there is one:
        system bytes, W, stream, function and next number.  (The device ID was
        looked at by rule 1; the link has but one.)"""
        for place in self.own + self.incoming:
            if (place.state == OPEN
                    and header.system == place.first.system
                    and header.w == place.first.w
                    and header.stream == place.first.stream
                    and header.function == place.first.function
                    and header.number == place.next_number):
                return place
        return None

    def find_awaited(self, header):
        """The own place whose awaited reply this block begins, if any: same
        system bytes, even function, number 1, or 0 with E = 1.  Reading 13:
        stream, W and the function's value are not looked at here."""
        for place in self.own:
            if (place.state in (PUT_OUT, AWAITED)
                    and header.system == place.system
                    and header.function % 2 == 0
                    and header.begins()):
                return place
        return None

    def place_for_primary(self, header):
        """Rule 6."""
        for place in self.incoming:
            if place.state == OPEN and place.first.system == header.system:
                return place             # thrown out, its very place is taken
        for place in self.incoming:
            if place.state == FREE:
                return place
        return None

    def begin_message(self, place, header, data):
        place.state = OPEN
        place.first = header
        place.data = data

    def break_message(self, place):
        if isinstance(place, OwnPlace):
            self.give_verdict(place, V_BROKEN)
        else:
            place.state = FREE

    def complete(self, place):
        if not isinstance(place, OwnPlace):
            place.state = COMPLETE
            return
        reply = place.first
        if reply.stream != place.stream:
            self.give_verdict(place, V_OTHER)
        elif reply.function == place.function + 1:
            # Reading 19: 255 + 1 is no function, so F255 never comes here.
            self.give_verdict(place, V_ANSWERED)
        elif reply.function == 0:
            self.give_verdict(place, V_DECLINED)
        else:
            self.give_verdict(place, V_OTHER)

    def give_verdict(self, place, verdict):
        place.state = ENDED
        place.verdict = verdict
        self.latest = place.number

    # ---- the user's calls --------------------------------------------------

    def next_transaction_number(self):
        """The next after the last given, to a primary or a report, 65,535
        being followed by 1.  Numbers in own places in use are passed over,
        and that of the latest own transaction to get a verdict; that of a
        report, which has no place and gets no verdict, is not."""
        passed_over = [p.number for p in self.own if p.state != FREE]
        passed_over.append(self.latest)
        number = self.last
        while True:
            number = 1 if number == 65535 else number + 1
            if number not in passed_over:
                return number

    def ask_to_send(self, blocks, owner):
        """An idle line puts out ENQ at once.  Reading 7: a line that is
        receiving holds the block, and nothing is put out."""
        self.sending = Outgoing(blocks, owner)
        if self.phase == IDLE:
            return self.begin_block()
        return b""

    def open(self, source, w, stream, function, data):
        """A primary of ours.  Order of refusals: 5, 6, 7, 8.  "Refusal 7 also
        covers a report on its way", here and in a reply."""
        if stream > 127 or function % 2 == 0:
            return 5, b"", NOTHING
        if len(data) > AREA:
            return 6, b"", NOTHING
        if self.sending is not None:
            return 7, b"", NOTHING
        free = [p for p in self.own if p.state == FREE]
        if not free:
            return 8, b"", NOTHING

        number = self.next_transaction_number()
        self.last = number
        place = free[0]                  # "the lowest free own place"
        place.state = SENDING
        place.verdict = V_OPEN
        place.number = number
        # "System bytes: the caller's 16-bit source ID, then the number."
        place.system = bytes([source >> 8, source & 0xFF,
                              number >> 8, number & 0xFF])
        place.w = w
        place.stream = stream
        place.function = function
        blocks = cut(self.outgoing_first_two(), w, stream, function,
                     place.system, data)
        place.last_header = blocks[-1][:10]
        return 0, self.ask_to_send(blocks, place), NOTHING

    def reply(self, index, function, data):
        """A reply of ours.  Order of refusals: 9, 10, 11, 5, 6, 7."""
        if index > 3:
            return 9, b"", NOTHING
        place = self.incoming[index]
        if place.state in (FREE, OPEN, REPLYING):
            return 9, b"", NOTHING
        if place.first.w == 0:
            return 10, b"", NOTHING
        if place.state == REPLIED:
            return 11, b"", NOTHING
        # "After F255 only a function 0 reply passes": 256 is no function.
        if function != place.first.function + 1 and function != 0:
            return 5, b"", NOTHING
        if len(data) > AREA:
            return 6, b"", NOTHING
        if self.sending is not None:
            return 7, b"", NOTHING

        place.state = REPLYING
        # "A reply of ours has W = 0"; reading 24: the primary's stream.
        blocks = cut(self.outgoing_first_two(), 0, place.first.stream,
                     function, place.first.system, data)
        return 0, self.ask_to_send(blocks, place), NOTHING

    def release(self, own, index):
        """Release an own place (own is True) or an incoming one."""
        if index > 3:
            return 9, b"", NOTHING
        if own:
            place = self.own[index]
            may = place.state == ENDED
        else:
            place = self.incoming[index]
            may = place.state in (COMPLETE, REPLIED)
        if not may:
            return 9, b"", NOTHING
        place.state = FREE
        return 0, b"", NOTHING

    def verdict(self, index):
        """The verdict of an own place, or None for a free place or one above
        3 (the bench prints refusal 9 for it)."""
        if index > 3 or self.own[index].state == FREE:
            return None
        return self.own[index].verdict

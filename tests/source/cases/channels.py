"""What a generator knows of a channel, so that most of its calls are of handles that there are, and few wait. Nothing is judged by it."""
from cases.case import MOST

BROADCAST = {
    "send": "sender", "subscribe": "sender", "clone-sender": "sender", "sender-len": "sender", "receiver-count": "sender", "downgrade": "sender",
    "resubscribe": "receiver", "try-recv": "receiver", "recv": "receiver", "receiver-len": "receiver",
    "upgrade": "weak", "clone-weak": "weak", "drop": "any",
}
WATCH = {
    "send": "sender", "send-replace": "sender", "modify": "sender", "subscribe": "sender", "clone-sender": "sender", "receiver-count": "sender",
    "is-closed": "sender", "closed": "sender",
    "clone-receiver": "receiver", "update": "receiver", "has-changed": "receiver", "changed": "receiver", "mark-changed": "receiver",
    "mark-unchanged": "receiver", "borrow": "any", "drop": "any",
}
# The kind of the handle that a call makes.
MAKES = {
    "subscribe": "receiver", "resubscribe": "receiver", "clone-receiver": "receiver", "clone-sender": "sender", "upgrade": "sender",
    "downgrade": "weak", "clone-weak": "weak",
}
# How often each call is made, by what a run is about.
STYLES = {
    "even": {},
    "lag": {"send": 30, "try-recv": 4, "recv": 3, "drop": 0.3, "send-replace": 9, "modify": 9, "changed": 3},
    "read": {"send": 14, "try-recv": 12, "recv": 12, "changed": 9, "update": 6, "drop": 0.5},
    "churn": {"subscribe": 7, "resubscribe": 5, "clone-sender": 4, "clone-receiver": 7, "drop": 12, "send": 5},
    "weak": {"downgrade": 7, "upgrade": 9, "clone-weak": 6, "drop": 9, "ends": 0.6, "send": 3},
    "close": {"drop": 14, "ends": 1, "try-recv": 6, "recv": 6, "update": 5, "has-changed": 5, "changed": 5},
    "marks": {"mark-changed": 8, "mark-unchanged": 6, "clone-receiver": 8, "changed": 8, "has-changed": 8, "update": 5, "send": 5, "modify": 8},
}
USUAL = {"send": 8, "try-recv": 5, "recv": 4, "modify": 4, "update": 3, "changed": 3}
CAPACITIES = (1, 1, 2, 2, 3, 4, 4, 5, 7, 8, 9, 16, 33, 64, 1000, 65535, 65536)


class Channel:
    """The handles of a channel, with the positions of receivers and the marks of watches."""

    def __init__(self, random):
        self.is_watch = random.random() < 0.42
        self.words = WATCH if self.is_watch else BROADCAST
        self.capacity = random.choice(CAPACITIES)
        self.value = random.choice((0, 1, 7, random.randrange(1000), MOST["value"]))
        self.alive = {"sender": [0], "receiver": [1], "weak": []}
        self.gone, self.made, self.sent = [], 2, 0
        self.receivers, self.seen = [1], {1: 0}

    def head(self):
        return f"watch {self.value}" if self.is_watch else f"broadcast {self.capacity}"

    def weight(self, word, style):
        """How often this call is made now: seldom where no handle is of its kind, or where a drop would leave none."""
        usual = style.get(word, USUAL.get(word, 1))
        if not any(self.alive.values()):
            return usual * 0.03
        if word == "drop":
            is_last = len(self.alive["sender"]) < 2 or len(self.alive["receiver"]) < 2
            return usual * style.get("ends", 0.1) if is_last else usual
        return usual if self.words[word] == "any" or self.alive[self.words[word]] else usual * 0.03

    def handle(self, random, kind):
        """Mostly a handle of this kind, and sometimes one of another, one that was dropped, or one that wasn't made."""
        chance = random.random()
        found = self.alive[kind] if kind != "any" else [it for alive in self.alive.values() for it in alive]
        if chance > 0.06 and found:
            return random.choice(found[-3:] if chance > 0.7 else found)
        if chance < 0.02:
            return random.choice((self.made, self.made + 1, self.made + random.randrange(40), 65535, 65536, MOST["handle"]))
        if chance < 0.035 and self.gone:
            return random.choice(self.gone)
        return random.randrange(self.made)

    def waits(self, word, handle):
        """Whether this call may wait, as far as is known here."""
        if word in ("recv", "changed"):
            return handle in self.alive["receiver"] and self.seen[handle] == self.sent and bool(self.alive["sender"])
        return word == "closed" and handle in self.alive["sender"] and bool(self.alive["receiver"])

    def made_by(self, word, handle):
        """The number of the handle that this call makes, or None."""
        kind = self.words[word]
        if word not in MAKES or handle not in self.alive[kind] or word == "upgrade" and not self.alive["sender"]:
            return None
        return self.made

    def call(self, word, handle, told):
        """Keeps what the call changes."""
        made = self.made_by(word, handle)
        if made is not None:
            self.made += 1
            self.alive[MAKES[word]].append(made)
            if MAKES[word] == "receiver":
                self.receivers.append(made)
            self.seen[made] = self.seen[handle] if word == "clone-receiver" else self.sent
        elif word == "drop":
            for alive in self.alive.values():
                if handle in alive:
                    alive.remove(handle)
                    self.gone.append(handle)
        elif word in ("send", "send-replace", "modify"):
            if handle in self.alive["sender"] and told and (word != "send" or self.alive["receiver"]):
                self.sent += 1
        elif handle in self.alive["receiver"]:
            self.read(word, handle)

    def read(self, word, handle):
        if word in ("update", "changed", "mark-unchanged"):
            self.seen[handle] = self.sent
        elif word == "mark-changed":
            self.seen[handle] = -1
        elif word in ("recv", "try-recv") and self.seen[handle] < self.sent:
            oldest = self.sent - (1 << (self.capacity - 1).bit_length())
            self.seen[handle] = oldest if self.seen[handle] < oldest else self.seen[handle] + 1

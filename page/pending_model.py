"""Shared flows and states, written down a second time from docs/RULES.md: what is pending, cached and waiting after some lines of a script.

It is told which lines were bad or refused, and nothing else of their answers.
"""

import copy


class Flow:
    def __init__(self, replay, extra, policy):
        self.replay, self.capacity, self.policy = replay, replay + extra, policy
        self.cache, self.parties, self.waiting = [], {}, []

    @property
    def places(self):
        return max(self.capacity, 1)

    def has_room(self):
        return all(len(pending) < self.places for _, pending in self.parties.values())

    def accept(self, value):
        """The values that were lost by it, by who lost them."""
        lost = {}
        for name, (_, pending) in self.parties.items():
            if self.policy == "oldest" and len(pending) == self.capacity:
                lost[name] = pending.pop(0)
            pending.append(value)
        self.cache = [*self.cache, value][-self.replay :] if self.replay else []
        return lost

    def emit(self, value):
        """What becomes of an emission: a word, and what was lost by it."""
        if not self.parties:
            return "accepted", self.accept(value)
        if self.capacity == 0:
            return "handed" if self.has_room() and not self.waiting else "waiting", {}
        if self.has_room() or self.policy == "oldest":
            return "accepted", self.accept(value)
        return ("waiting" if self.policy == "suspend" else "dropped"), {}

    def settle(self):
        while self.waiting and self.has_room():
            self.accept(self.waiting.pop(0)[1])


class State:
    def __init__(self, value):
        self.value, self.parties = value, {}


class Model:
    def __init__(self):
        self.hosts, self.host_of = {}, {}

    def read(self, words):
        command, name, *rest = words
        if command == "shared":
            self.hosts[name] = Flow(int(rest[0]), int(rest[1]), rest[2])
        elif command == "state":
            self.hosts[name] = State(int(rest[0]))
        elif command in ("sub", "collect") and name in self.hosts:
            self.join(self.hosts[name], *rest)
        elif command in ("next", "cancel") and name in self.host_of:
            getattr(self, command)(self.host_of[name], name)
        elif command in ("try", "emit", "reset", "set", "cas") and name in self.hosts:
            getattr(self, f"{command}_")(self.hosts[name], *rest)
        elif command == "withdraw":
            for host in self.hosts.values():
                if isinstance(host, Flow):
                    host.waiting = [it for it in host.waiting if it[0] != name]

    def join(self, host, name, _="with", prelude=None):
        self.host_of[name] = host
        host.parties[name] = [None] if isinstance(host, State) else ([int(it) for it in prelude.split(",")] if prelude else [], list(host.cache))

    def next(self, host, name):
        if name not in host.parties:
            return
        if isinstance(host, State):
            host.parties[name] = [host.value]
            return
        prelude, pending = host.parties[name]
        if prelude:
            prelude.pop(0)
        elif pending:
            pending.pop(0)
            host.settle()

    def cancel(self, host, name):
        if host.parties.pop(name, None) is not None and isinstance(host, Flow):
            host.settle()

    def try_(self, host, value):
        if not host.parties or host.capacity > 0:
            host.emit(int(value))

    def emit_(self, host, ticket, value):
        became, _ = host.emit(int(value))
        if became == "handed":
            host.accept(int(value))
        if became == "waiting":
            host.waiting.append((ticket, int(value)))

    def reset_(self, host):
        host.cache = []

    def set_(self, host, value):
        host.value = int(value)

    def cas_(self, host, old, new):
        host.value = int(new) if host.value == int(old) else host.value


def model_after(lines):
    """The model after these lines, each as its words; of bad and refused ones nothing is to be here."""
    model = Model()
    for words in lines:
        model.read(words)
    return model


def told(host):
    """What the panel is to show of a host: what it keeps, each who receives, who waits, and what the next emission does."""
    if isinstance(host, State):
        parties = {name: {"prelude": [], "pending": [host.value] if given != host.value else [], "free": int(given == host.value)} for name, [given] in host.parties.items()}
        return {"kept": [host.value], "parties": parties, "waits": {}, "next": ""}
    parties = {
        name: {"prelude": prelude[:], "pending": pending[:12], "free": max(0, min(host.places, 12) - len(pending))}
        for name, (prelude, pending) in host.parties.items()
    }
    return {"kept": host.cache[-12:], "parties": parties, "waits": dict(host.waiting), "next": sentence(host)}


def sentence(host):
    full = ", ".join(name for name, (_, pending) in host.parties.items() if len(pending) >= host.places)
    became, lost = copy.deepcopy(host).emit(0)
    if lost:
        return f"Full: the next emission takes {' and '.join(f'{value} away from {name}' for name, value in lost.items())}."
    if became == "accepted":
        return "There is room: the next emission is accepted." if host.parties else "Nobody receives: the next emission is accepted, and waits for nobody."
    if became == "dropped":
        return f"Full for {full}: the next emission is dropped."
    if became == "handed":
        return "No places: the next emission is handed over, and done once all have taken it."
    return f"{f'Full for {full}' if full else 'Others wait'}: the next emission waits; a try is refused."

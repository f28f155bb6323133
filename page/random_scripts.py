"""Random scripts: mostly commands that make sense, on few names, and now and then any words."""

import random


class Scripts:
    """Makes scripts. The same seed makes the same."""

    def __init__(self, seed):
        self.random = random.Random(seed)

    def pick(self, *choices):
        return self.random.choice(choices)

    def number(self):
        return str(self.pick(0, 1, 1, 2, 2, 3, 4, 7, 100, self.random.randrange(2**64)))

    def few(self):
        return str(self.random.randrange(4))

    def items(self):
        return ",".join(self.pick("p", self.few(), self.few(), self.number()) for _ in range(self.random.randrange(1, 5)))

    def source(self):
        return self.pick(f"of {self.items()}", "of", f"range {self.few()} {self.few()}", "range 0 40", f"fail {self.few()} {self.items()}")

    def stage(self):
        kind = self.pick("add", "even", "twice", "take", "drop", "distinct", "catch end", "catch", "done", "zip", "combine", "concat")
        more = {"add": self.number, "take": self.few, "drop": self.few, "catch": self.few, "done": self.few, "zip": self.source, "combine": self.source}
        return f"{kind} {more[kind]()}" if kind in more else kind

    def policy(self):
        return self.pick("suspend", "suspend", "oldest", "latest")

    def start(self):
        plan = ",".join(f"{10 * self.random.randrange(9)}:{self.few()}:{self.pick(2, 8)}:{self.pick('start', 'stop', 'clear')}" for _ in range(3))
        return self.pick("eager", "lazy", f"while {self.pick(0, 20)} {self.pick('never', 30)}", f"plan {plan}")

    def name(self, kind):
        """A name of a kind, mostly of the right one, and one of few: most lines are to meet something."""
        return f"{kind if self.random.random() < 0.98 else self.pick(*'fsacebgt')}{self.random.randrange(2)}"

    def ticket(self):
        return f"e{self.random.randrange(self.emissions + 1)}"

    def emit(self):
        self.emissions += 1
        return f"emit {self.name('f')} e{self.emissions} {self.number()}"

    def prelude(self):
        return f" with {self.few()},{self.number()}" if self.random.random() < 0.2 else ""

    def making(self, number):
        """What makes the things of this number, and their parties."""
        return [
            f"shared f{number} {self.few()} {self.pick(0, 1, 1, 2)} {self.policy()}",
            f"sub f{number} a{number}{self.prelude()}",
            f"state s{number} {self.few()}",
            f"collect s{number} c{number}",
            f"buffer b{number} {self.pick(0, 1, 2, 3)} {self.policy()} {self.source()}",
            f"share g{number} {self.few()} {self.few()} {self.policy()} {self.start()} {self.source()}",
            f"stated t{number} {self.few()} {self.start()} {self.source()}",
        ]

    def pipe(self):
        return " | ".join([self.source(), *(self.stage() for _ in range(self.random.randrange(4)))])

    def line(self, moment):
        name, pick = self.name, self.pick
        kinds = [
            (9, lambda: f"next {name(pick(*'aaaacb'))}"),
            (7, lambda: f"try {name('f')} {self.number()}"),
            (5, self.emit),
            (5, lambda: f"{pick('poll', 'poll', 'withdraw')} {self.ticket()}"),
            (4, lambda: f"tick {name(pick(*'gt'))} {moment}"),
            (1, lambda: f"sub {name(pick(*'ffg'))} x{moment}{self.prelude()}"),
            (1, lambda: f"cancel {name(pick(*'ac'))}"),
            (2, lambda: f"{pick('reset', 'cache', 'count')} {name(pick(*'ffg'))}"),
            (1, lambda: f"set {name('s')} {pick(self.few(), self.number())}"),
            (1, lambda: f"value {name(pick(*'st'))}"),
            (1, lambda: f"cas {name('s')} {self.few()} {self.few()}"),
            (1, lambda: f"collect {name(pick(*'st'))} y{moment}"),
            (2, lambda: f"fill {name('b')}"),
            (1, lambda: f"cold {self.pipe()}"),
            (1, lambda: pick(*self.making(self.random.randrange(3)))),
            (1, lambda: pick("", f"# {self.number()}")),
            (1, lambda: " ".join(pick("try", "f0", "|", "é", "<b>", "\t", "7", "") for _ in range(3))),
        ]
        weights, makers = zip(*kinds)
        return self.random.choices(makers, weights)[0]()

    def script(self):
        self.emissions = 0
        begin = self.making(0) + self.random.sample(self.making(1), 5)
        lines = [*begin, *(self.line(10 * moment) for moment in range(self.random.randrange(5, 60)))]
        return "\n".join(lines) + self.pick("\n", "")

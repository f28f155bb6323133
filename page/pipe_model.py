"""The stages of a pipe, written down a second time from docs/SCRIPTS.md, with who came of whom: what the page's pictures are held to.

A value is (number, parents), where a parent is (row, place) among the values of a row, or (row, "end"). The rows are counted as they
are drawn, from the top: a second source has one of its own, above the row that comes out of its stage.
"""

WORD = 2**64


class Row:
    def __init__(self, number, values, fault):
        self.number, self.values, self.fault = number, values, fault

    def all(self):
        return [(value, (self.number, place)) for place, (value, _) in enumerate(self.values)]

    def answer(self):
        end = "finished" if self.fault is None else f"failed {self.fault}"
        return f"[{','.join(str(value) for value, _ in self.values)}] {end}"


def source(number, words):
    numbers = lambda items: [(int(it), []) for it in items.split(",") if it != "p"]
    if words[0] == "range":
        return Row(number, [(it, []) for it in range(int(words[1]), int(words[2]))], None)
    if words[0] == "fail":
        return Row(number, numbers(words[2]) if len(words) > 2 else [], int(words[1]))
    return Row(number, numbers(words[1]) if len(words) > 1 else [], None)


def one_sided(row, name, words):
    """The values of a stage with one source, and its fault."""
    given, end = row.all(), (row.number, "end")
    each = lambda function: [(new % WORD, [came]) for value, came in given for new in function(value)]
    same = each(lambda value: [value])
    if name == "add":
        return each(lambda value: [value + int(words[0])]), row.fault
    if name == "even":
        return each(lambda value: [value] * (value % 2 == 0)), row.fault
    if name == "twice":
        return each(lambda value: [value, value]), row.fault
    if name == "take":
        return same[: int(words[0])], None if len(same) >= int(words[0]) else row.fault
    if name == "drop":
        return same[int(words[0]) :], row.fault
    if name == "distinct":
        return [it for place, it in enumerate(same) if place == 0 or same[place - 1][0] != it[0]], row.fault
    if name == "done":
        return (same + [(int(words[0]), [end])], None) if row.fault is None else (same, row.fault)
    if name == "concat" and words:
        return (same[:1], int(words[0])) if same else (same, row.fault)
    if name == "concat":
        return each(lambda value: [value, value + 1]), row.fault
    if row.fault is None:
        return same, None
    if words[0] == "fault":
        return same, int(words[1])
    return (same, None) if words[0] == "end" else (same + [(int(words[0]), [end])], None)


def zipped(left, right):
    pairs = [((one + other) % WORD, [a, b]) for (one, a), (other, b) in zip(left.all(), right.all())]
    return pairs, left.fault if len(left.values) <= len(right.values) else right.fault


def combined(left, right):
    sides, latest, given, ended, turn = [left.all(), right.all()], [None, None], [], [False, False], 0
    while not all(ended):
        side = (left, right)[turn]
        if not ended[turn] and sides[turn]:
            latest[turn] = sides[turn].pop(0)
            if None not in latest:
                given.append(((latest[0][0] + latest[1][0]) % WORD, [latest[0][1], latest[1][1]]))
        elif not ended[turn]:
            if side.fault is not None:
                return given, side.fault
            ended[turn] = True
        turn = 1 - turn
    return given, None


def rows_of(line):
    """The rows of `cold PIPE`, from the top down; nothing where it is refused."""
    parts = [it.split() for it in line.removeprefix("cold ").split("|")]
    rows = [source(0, parts[0])]
    for name, *words in parts[1:]:
        if name == "take" and int(words[0]) == 0:
            return None
        before = rows[-1]
        if name in ("zip", "combine"):
            rows.append(source(len(rows), words))
            values, fault = (zipped if name == "zip" else combined)(before, rows[-1])
        else:
            values, fault = one_sided(before, name, words)
        rows.append(Row(len(rows), values, fault))
    return rows

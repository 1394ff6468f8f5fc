"""The clause machine: what it answers, how many conflicts it counts, and its log.

It repeats the first rule that fits: a falsified clause, the one of least number, ends it or is turned into a learnt clause by
resolutions; a clause that isn't true with one unassigned literal, the one of least number, puts it on the trail; the first
unassigned variable of the order goes on the trail as false, one level higher; else the values are a model.
"""

import heapq


def resolved(first, second, variable):
    """What two clauses resolve to on a variable."""
    one, other = 2 * variable, 2 * variable + 1
    if not (one in first and other in second):
        one, other = other, one
    assert one in first and other in second
    return list(dict.fromkeys([x for x in first if x != one] + [x for x in second if x != other]))


class Machine:
    def __init__(self, variables, clauses, order):
        self.clauses, self.order = [], order
        self.holders = [[] for _ in range(2 * variables + 2)]  # for each literal, the clauses that hold it
        self.true, self.false = [], []  # how many literals of each clause are true, and false
        self.value = [None] * (2 * variables + 2)  # of each literal
        self.level, self.reason, self.at = {}, {}, {}  # of each variable on the trail, with its place
        self.trail, self.top = [], 0
        self.waiting, self.falsified = [], []  # numbers of clauses that may have one unassigned literal, and none
        for clause in clauses:
            self.append(clause)

    def append(self, clause):
        number = len(self.clauses)
        self.clauses.append(clause)
        for literal in clause:
            self.holders[literal].append(number)
        self.true.append(sum(self.value[literal] is True for literal in clause))
        self.false.append(sum(self.value[literal] is False for literal in clause))
        self.look(number)

    def look(self, number):
        if not self.true[number]:
            open_ones = len(self.clauses[number]) - self.false[number]
            if open_ones <= 1:
                heapq.heappush(self.waiting if open_ones else self.falsified, number)

    def next_of(self, heap, open_ones):
        """The least clause that isn't true and has so many unassigned literals."""
        while heap:
            number = heap[0]
            if not self.true[number] and len(self.clauses[number]) - self.false[number] == open_ones:
                return number
            heapq.heappop(heap)
        return None

    def put(self, literal, reason):
        variable = literal // 2
        self.level[variable], self.reason[variable], self.at[variable] = self.top, reason, len(self.trail)
        self.trail.append(literal)
        self.set(literal, True, 1)

    def set(self, literal, value, step):
        self.value[literal], self.value[literal ^ 1] = (True, False) if value else (None, None)
        for number in self.holders[literal]:
            self.true[number] += step
            self.look(number)
        for number in self.holders[literal ^ 1]:
            self.false[number] += step
            self.look(number)

    def cut(self, level):
        while self.trail and self.level[self.trail[-1] // 2] > level:
            self.set(self.trail.pop(), False, -1)
        self.top = level

    def latest(self, clause):
        """The variable of the clause that came on the trail last."""
        return max((literal // 2 for literal in clause), key=lambda v: self.at[v])

    def learn(self, number):
        clause, steps = self.clauses[number], []
        last = self.level[self.trail[-1] // 2]
        while sum(self.level[literal // 2] == last for literal in clause) > 1:
            variable = self.latest(clause)
            steps.append((self.reason[variable], variable))
            clause = resolved(clause, self.clauses[self.reason[variable]], variable)
        self.cut(max([self.level[literal // 2] for literal in clause if self.level[literal // 2] != last], default=0))
        self.append(clause)
        return number, steps

    def close(self, number):
        """The chain that ends with the empty clause."""
        clause, steps = self.clauses[number], []
        while clause:
            variable = self.latest(clause)
            steps.append((self.reason[variable], variable))
            clause = resolved(clause, self.clauses[self.reason[variable]], variable)
        return number, steps


def solve(variables, clauses, order, bound):
    """("model", values by variable), ("refuted", log) or ("spent", None), and the number of conflicts counted."""
    machine, log, conflicts = Machine(variables, clauses, order), [], 0
    next_decision = 0
    while True:
        number = machine.next_of(machine.falsified, 0)
        if number is not None:
            if machine.top == 0:
                log.append(machine.close(number))
                return "refuted", log, conflicts
            conflicts += 1
            if conflicts == bound:
                return "spent", None, conflicts
            log.append(machine.learn(number))
            next_decision = 0
            continue
        number = machine.next_of(machine.waiting, 1)
        if number is not None:
            (literal,) = [x for x in machine.clauses[number] if machine.value[x] is None]
            machine.put(literal, number)
            continue
        while next_decision < len(order) and machine.value[2 * order[next_decision]] is not None:
            next_decision += 1
        if next_decision == len(order):
            return "model", {v: machine.value[2 * v] for v in order}, conflicts
        machine.top += 1
        machine.put(2 * order[next_decision] + 1, None)

"""The search book of docs/RULES.md, over any rig: moves, rest, after, covers, hopeless and choice, as in rigs.py."""

MOST_ROWS = 65536
NONE, ROUND, OPEN, FULL = range(4)
NAMES = ("none", "round", "open", "full")


class Step:
    """A state on the path, the moves that are untried in it, and the move tried last."""

    def __init__(self, state, moves):
        self.state = state
        self.untried = set(range(moves))
        self.move = None

    def try_next(self, rig):
        """The state after the rig's choice, or after the lowest untried move where the choice is not untried."""
        choice = rig.choice(self.state, self.untried)
        self.move = choice if choice in self.untried else min(self.untried)
        self.untried.remove(self.move)
        return rig.after(self.state, self.move)


class Book:
    """A search that is granted its visits in portions. Of its rows only the number matters."""

    def __init__(self, rows):
        self.usable = min(rows, MOST_ROWS)
        self.wipe()

    def wipe(self):
        self.verdict = OPEN
        self.taken = 0
        self.fresh = True
        self.due = None  # the state to be entered
        self.path = []
        self.dead = set()
        self.round = None

    def grant(self, rig, visits):
        """The verdict, and how many visits were made."""
        before = self.taken
        if self.fresh:
            self.fresh, self.due = False, rig.rest
        while self.verdict == OPEN:
            if self.due is None:
                self.due = self.leave(rig)
            if not self.enter(rig, before + visits):
                break
        return self.verdict, self.taken - before

    def leave(self, rig):
        """The state that the next lawful move leads to, from as far back on the path as needed; None from nowhere."""
        while self.path:
            end = self.path[-1]
            if end.untried:
                state = end.try_next(rig)
                if state is not None:
                    return state
            else:
                self.dead.add(self.path.pop().state)
        return None

    def enter(self, rig, most):
        """Enters the state that is due, with so many rows at most; whether this used nothing up."""
        state = self.due
        if state is None:
            self.verdict = NONE
        elif rig.hopeless(state):
            self.due = None
        elif self.close(rig, state):
            self.verdict = ROUND
        elif state in self.dead:
            self.due = None
        elif self.taken == self.usable:
            self.verdict = FULL
        elif self.taken == most:
            return False
        else:
            self.path.append(Step(state, rig.moves))
            self.taken += 1
            self.due = None
        return True

    def close(self, rig, state):
        """Whether the state covers one on the path; the round leads there from the latest such state."""
        for at in range(len(self.path) - 1, -1, -1):
            if rig.covers(state, self.path[at].state):
                self.round = [step.move for step in self.path[at:]]
                return True
        return False

"""Frames by chance that are about something: some components are made on purpose, and all others, which a check has to pass over, come from a
store of values that are made once."""

from sheets import FRAME, T
# sheets knows where the folder of the cases is
from generate import some_value

STORED_VALUES = 40


class Store:
    """Values of types by chance, made once."""

    def __init__(self, chance):
        self.chance, self.values = chance, {}

    def one_of(self, name):
        if name not in self.values:
            self.values[name] = [some_value(name, self.chance, self.chance.one_of([0, 0, 20, 60])) for _ in range(STORED_VALUES)]
        return self.chance.one_of(self.values[name])


class Drawing:
    """How frames are drawn. made: by the name of a sequence the components that are made on purpose; presence: how many of a hundred of the
    other optional ones are there."""

    made, presence = {}, 0

    def __init__(self, chance, store):
        self.chance, self.store = chance, store

    def sequence(self, name, **given):
        """A value of a sequence with these components in it; those that are None are not there, and all others are by chance."""
        told = self.made[name] | set(given)
        tree = {component: value for component, value in given.items() if value is not None}
        for component, part, optional in T[name].components:
            if component not in told and (not optional or self.chance.holds(self.presence)):
                tree[component] = self.store.one_of(part)
        return {component: tree[component] for component, _, _ in T[name].components if component in tree}

    def another(self):
        """A frame of any kind."""
        index = self.chance.between(0, len(FRAME.alternatives) - 1)
        return (index, self.store.one_of(FRAME.alternatives[index][1]))

"""How much of the inputs has a claim, by a sample: a figure to compare programs by, and no claim."""
import itertools
import random

from rows import meets

END, MOST = 10, 1000


def sample(names):
    """The inputs from -10 to 10 for each name, or a thousand of them, the same ones each time."""
    if (2 * END + 1) ** len(names) <= MOST:
        return [dict(zip(names, values)) for values in itertools.product(range(-END, END + 1), repeat=len(names))]
    dice = random.Random(0)
    return [{name: dice.randint(-END, END) for name in names} for _ in range(MOST)]


def share(names, *groups):
    """For each group of lines the share of the sample that meets one of them."""
    stores = sample(names)
    return [sum(any(meets(line.rows, store) for line in lines) for store in stores) / len(stores) for lines in groups]

"""The extractor: a prover is rewound through three challenges in each of its two rounds, which gives a full tree with nine leaves. From the tree comes a vector
that opens 16 times the commitment, and the judge says so. The first argument is the shared object that the script `shared` makes."""

import sys

from wovenrock import Library

KEY = [8121, 377, 5024, 11903, 1066, 9999, 42, 7310]
MESSAGE = [1, -1, 0, 1, -1, 0, 1, 1]


class Tree:
    """For each branching node a round polynomial and three challenges, for each leaf a final element."""

    def __init__(self, library, settings):
        self.library, self.settings = library, settings
        self.rounds = [None] * settings.nodes
        self.challenges = [None] * settings.nodes
        self.leaves = [None] * settings.leaves

    def visit(self, node, done, key, message):
        """Fills the part of the tree from a node on. The prover is its two tables and how often they are folded; a fold gives new ones, so that the prover is
        rewound by using the old ones again."""
        settings = self.settings
        if done == settings.depth:
            self.leaves[node - settings.nodes] = self.library.end(settings, done, message)
            return
        self.rounds[node] = self.library.round(settings, done, key, message)
        self.challenges[node] = [(node + step) % (2 * settings.degree) for step in (0, 1, 3)]
        for child, exponent in enumerate(self.challenges[node]):
            folded = self.library.fold(settings, done, exponent, key, message)
            self.visit(3 * node + 1 + child, done + 1, *folded)


def flat(rows):
    return [number for row in rows for number in row]


def main(path):
    library = Library(path)
    # Twice the bound of an extracted vector, 2 * (8*2*2)^2 * 1 = 2048, is below the modulus, so that the opening binds.
    settings = library.settings(2, 2, 12289, 1)
    commitment = library.commit(settings, KEY, MESSAGE)
    print("commitment:", *commitment)

    tree = Tree(library, settings)
    tree.visit(0, 0, KEY, MESSAGE)
    for number, leaf in enumerate(tree.leaves):
        print(f"leaf {number}:", *leaf)

    w = library.extract(settings, commitment, KEY, flat(tree.rounds), flat(tree.challenges), flat(tree.leaves))
    print("w:", *w)
    yes = library.judge(settings, commitment, settings.slack, KEY, w)
    print(f"opens {settings.slack} times the commitment:", "yes" if yes else "no")

    # All leaves are folds of one message, so w is 16 times that message.
    if w != [settings.slack * m for m in MESSAGE]:
        sys.exit("w is not the message's multiple")
    print(f"w is {settings.slack} times the message")
    return 0 if yes else 1


if __name__ == "__main__":
    sys.exit(main(sys.argv[1]))

#!/usr/bin/env python3
"""What `diff` tells, judged by an independent model: tests/diff_model.py PROGRAM [--seed S] [--cases N] [--most M] [BEFORE AFTER WORD ..]

A case is a network made at random, a changed copy of it (networks.py), and words of `diff` about the two; or the two files with the words
after them. The changes are of rules, rows, routes, hosts and ids, and some are none: rules that are written otherwise, rows in another
order. Every answer is judged as those of `reach` are (reach_model.py), by cells of both networks' cuts: a refusal must be that of the
words, of BEFORE, of AFTER or of the query, in this order; what a row tells must be the change of each header of its cells, and headers in
no row must fare alike in both networks, but for stops that are others. The last line is 'N passed, M failed'.

    tests/diff_model.py --tell BEFORE AFTER WORD ..    the answer as the model makes it of all cells (few cuts alone), and its status
    tests/diff_model.py --itself                       whether true texts of the model are taken, and damaged ones are not
"""

import json
import sys

import model
import networks
import rows_model
from answers import BARRIER, ID

CHANGED = rf"(?:(?:opened|closed) {ID} {BARRIER}|moved {ID} {ID})"


def many_hosts(rng):
    """Two networks that have some five hundred hosts between them, of which none starts anything."""
    whole = json.loads(networks.network(rng))
    told = []
    for first in (0, rng.choice((1, 100, 230, 250))):
        hosts = [{"NetworkInterfaceId": f"eni-{k}", "SubnetId": "subnet-0-0"} for k in range(first, first + rng.choice((245, 260)))]
        told.append(json.dumps({**whole, "NetworkInterfaces": [*whole["NetworkInterfaces"], *hosts]}).encode())
    return told


class Diff(rows_model.Question):
    """What a change opens and closes."""

    command, files, more = "diff", 2, "more changes"
    text, narrow = rows_model.text_of("vpc-diff 1", "more changes", CHANGED), 0.5

    @staticmethod
    def status(rows):
        return 1 if rows else 0

    def is_told(self, start, header):
        """The change of what becomes of the header."""
        answers = [model.journey_toward(it, start, self.goal, header, self.back_at(it, start)) for it in self.networks]
        return model.change(*answers), answers

    @staticmethod
    def untold(told, start):
        """Another change: turned round, of another end, or of the phase."""
        word, end, *stop = told.split(" ")
        if word == "moved":
            return f"moved {stop[0]} {end}"
        return " ".join({"opened": ["closed", end, *stop], "closed": ["closed", "eni-x" if end == start else start, *stop]}[word])

    @staticmethod
    def texts(rng):
        if rng.random() < 0.02:
            return many_hosts(rng)
        text = networks.network(rng)
        texts = [text, networks.changed(rng, text)]
        if rng.random() < 0.5:
            texts.reverse()
        chance = rng.random()
        if chance < 0.04:
            texts[rng.randrange(2)] = b"{}"
        elif chance < 0.08:
            for place in rng.choice(((0,), (1,), (0, 1))):
                texts[place] = rng.choice((None, *rows_model.SPOILED))
        return texts


if __name__ == "__main__":
    sys.exit(rows_model.main(Diff, __doc__))

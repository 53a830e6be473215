#!/usr/bin/env python3
"""What `reach` tells, judged by an independent model: tests/reach_model.py PROGRAM [--seed S] [--cases N] [--most M] [FILE WORD ..]

A case is a network made at random (networks.py) and words of `reach` about it; or FILE with the words after it. Every answer is judged
by model.py, which was written from docs/WALK.md: a refusal must be that of the words. Of rows are judged the text, the words that it
repeats, its numbers, the order, that the rows of a start share no header, and that each begins and ends at cuts or where what was asked for
does; so each holds whole cells. Then the journey of the cells' headers: one in a row reaches that row's end, one in none reaches nothing;
where rows were left out, the header named next reaches an end, is in no row, and no one before it is left out. All cells are asked by their
low corners where there are M at most; else the corners of each row, the cells around it, and cells drawn at random, by a corner or by any
header of theirs. The last line is 'N passed, M failed'.

    tests/reach_model.py --tell FILE WORD ..    the answer as the model makes it of all cells (few cuts alone), and its status
    tests/reach_model.py --itself               whether true texts of the model are taken, and damaged ones are not
"""

import sys

import model
import networks
import rows_model
from answers import ID


class Reach(rows_model.Question):
    """All that gets through."""

    command, files, more = "reach", 1, "more reach"
    text = rows_model.text_of("vpc-reach 1", "more reach", ID)

    @staticmethod
    def status(rows):
        return 0 if rows else 1

    def is_told(self, start, header):
        """The end that the header reaches."""
        answer = model.journey(self.networks[0], start, self.goal, header, self.back_at(self.networks[0], start))
        return None if answer.stop else model.name_of(answer.reached), [answer]

    @staticmethod
    def untold(told, start):
        """Another end."""
        return "internet" if told != "internet" else start if start != "internet" else "eni-x"

    @staticmethod
    def texts(rng):
        return [networks.network(rng)]


if __name__ == "__main__":
    sys.exit(rows_model.main(Reach, __doc__))

"""Budgets of patterns at the place of an accepted pattern, and beside it."""
from __future__ import annotations

import random
from typing import Optional

from .case import Call
from .running import AnswerOf

OVER_BUDGET = 6


def stops(answer_of: AnswerOf, call: Call, patterns: int) -> bool:
    """Whether the run of a call ends for want of patterns, with this budget for each phase."""
    case = call.with_value("patterns", patterns).in_plain_words()
    return answer_of(case.words, case.files).status == OVER_BUDGET


def least_budget(answer_of: AnswerOf, call: Call, most: int) -> Optional[int]:
    """The least budget of patterns with which the run of a call doesn't stop for want of them; None if it stops with the most."""
    enough = 1
    while stops(answer_of, call, enough):
        if enough == most:
            return None
        enough = min(2 * enough, most)
    short = enough // 2
    while enough - short > 1:
        middle = (short + enough) // 2
        if stops(answer_of, call, middle):
            short = middle
        else:
            enough = middle
    return enough


def beside_a_place(rng: random.Random, answer_of: AnswerOf, call: Call) -> Call:
    """The call with the least budget of patterns that is enough, or with one beside it; as it is, if its own budget isn't enough."""
    most = call.value_of("patterns")
    least = None if most is None else least_budget(answer_of, call, most)
    return call if least is None else call.with_value("patterns", max(1, least + rng.choice([-1, -1, 0, 0, 1])))

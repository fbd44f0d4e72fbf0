"""The cases: more than 5,000 by rule, and random mixes, whose number can be set.

Teams keep baselines of their stacks, which name cases by number. So a new case is added after the others of its rule,
and draws its random bytes separately: all other cases stay unchanged."""
from __future__ import annotations

from typing import List

from .._case import Case
from ._addresses import add_addresses, add_quotes
from ._builder import Builder
from ._datagrams import add_datagrams, add_lengths
from ._errors import add_errors_of_sends
from ._fragments import add_fragments, add_keys_of_one_sum
from ._headers import add_headers
from ._held import add_held
from ._limits import add_ages_after_others, add_ends_of_another, add_ends_of_several, add_limits
from ._long import add_long
from ._mixes import add_mixes, add_runs
from ._overlaps import add_overlaps, add_overlaps_without_checksum
from ._pings import add_pings, add_pings_with_options
from ._users import add_empty_datagrams, add_many_sends, add_peers, add_sockets_after_datagrams, add_users

MIXES, RUNS = 400, 300


def make(seed: int = 1, mixes: int = MIXES, is_long: bool = False) -> List[Case]:
    """All cases of a seed, in the order of their rules; is_long: with long runs."""
    to = Builder(seed)
    for add in (add_headers, add_addresses, add_datagrams, add_fragments, add_overlaps, add_limits, add_users):
        add(to)
    add_runs(to, RUNS)
    add_pings(to)
    with to.apart():
        add_overlaps_without_checksum(to)
        add_ends_of_another(to)
        add_peers(to)
        add_ends_of_several(to)
        add_keys_of_one_sum(to)
        add_ages_after_others(to)
        add_sockets_after_datagrams(to)
        add_empty_datagrams(to)
        add_quotes(to)
        add_pings_with_options(to)
        add_held(to)
        add_lengths(to)
        add_many_sends(to)
        add_errors_of_sends(to)
    add_mixes(to, mixes)
    if is_long:
        with to.apart():
            add_long(to)
    return to.cases


def make_mixes(seed: int, count: int) -> List[Case]:
    """Only random mixes, for a sweep over seeds."""
    to = Builder(seed)
    add_mixes(to, count)
    return to.cases

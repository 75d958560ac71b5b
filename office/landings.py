"""What a passenger does after each landing of a plan."""
from dataclasses import dataclass

from sheet import Ride


@dataclass(frozen=True)
class Landing:
    """A stretch of minutes, none left out, in which rides of the plan may land at a stop; and what can be taken there in them.

    `choices` are the plan's rides from that stop, from the first whose gate closes at or after the stretch's first minute to the first of
    which this is true of its last. Each is for those who land by then, but too late for the choice before it. At the target there are none.
    """

    stop: int
    first: int
    last: int
    rides: tuple[Ride, ...]
    choices: tuple[Ride, ...]

    def parts(self):
        """For each choice the first and the last minute of landing that lead to it."""
        first = self.first
        for choice in self.choices:
            last = min(choice.closes, self.last)
            yield first, last, choice
            first = last + 1


def landings(rides, plan):
    """The landings of some of the plan's rides, by their first minute. Landings that share a minute at a stop are one: what is taken
    there hangs on the stop and the minute alone."""
    merged = []
    for ride in sorted(rides, key=lambda ride: (ride.land, ride.arrival)):
        if merged and merged[-1][-1].land == ride.land and ride.arrival <= max(other.last for other in merged[-1]):
            merged[-1].append(ride)
        else:
            merged.append([ride])
    return sorted((landing_of(group, plan) for group in merged), key=lambda landing: (landing.first, landing.stop))


def landing_of(group, plan):
    stop, first, last = group[0].land, group[0].arrival, max(ride.last for ride in group)
    choices = []
    for ride in plan:  # by departure
        if ride.board == stop and first <= ride.closes and not (choices and last <= choices[-1].closes):
            choices.append(ride)
    return Landing(stop, first, last, tuple(group), tuple(choices))

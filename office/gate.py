"""A query's gate time: when the gates of rides close, and this in a clerk's words."""
from counted import counted


def closing(departure, query):
    """The last minute in which one who lands, or stands at the source, still gets a ride that departs then."""
    return departure - (query.gate or 0)


def early(query):
    """A sentence on how early gates close; none where they are open until departure."""
    return [f"Gates close {minutes(query)} before departure."] if query.gate else []


def be_there(query, closes):
    """A sentence for one who waits for a ride, with the marked time at which its gate closes; none where that is the departure."""
    return ["Be at the gate by ", closes, ". "] if query.gate else []


def still_yours(query):
    """A sentence on the first boat that one gets who looks at the clock while stepping ashore."""
    if not query.gate:
        return "A boat that leaves in that very minute is still yours."
    return f"A boat that leaves {minutes(query)} later is still yours; one that leaves sooner is not, for its gate is closed."


def cut(query):
    """Where the bars of a drawing are cut."""
    return "where a boat's gate closes" if query.gate else "where a boat leaves"


def drawn(query):
    """A sentence on how a drawing shows gates; none where it does not."""
    return [f"The upright stroke ahead of a departure is its gate, which closes {minutes(query)} before."] if query.gate else []


def minutes(query):
    return counted(query.gate, "minute")

"""Why a query is refused, in words."""
import re

NO_JOURNEY = 8
STOP = re.compile(r"\bstop ([0-9]+)")


def reason_lines(timetable, answer):
    """The words of `explain`, and the names of the stops that these call by number."""
    numbers = {int(number) for number in STOP.findall(answer.words)}
    yield from (line for line in answer.words.splitlines() if line != f"refused {answer.sheet.refusal}")
    yield from (f"stop {number} is {name}" for number, name in enumerate(timetable.stop_names) if name and number in numbers)

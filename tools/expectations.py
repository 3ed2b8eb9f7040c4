"""What the lines of a scenario expect, held against a trace.

A comment `# expect -> OUTCOME` behind a call is wanted each time the line runs. With `;` between several outcomes the
line has to run as often, and each time the next one is wanted. `# expect never` wants that the line doesn't run. An
outcome is written as in a trace, and names stand for numbers; words may be left out at its end, `*` is any word, and
`handle` a number above 0. A call that blocked is held against what its `resume` answered."""

from dataclasses import dataclass


@dataclass
class Expectation:
    """The outcomes that are wanted, each as its words; none where the line isn't to run."""
    outcomes: list

    @classmethod
    def read(cls, text, value):
        """What stands behind `expect`; `value` says what stands for a name."""
        if text.strip() == "never":
            return cls([])
        found = [outcome.strip().removeprefix("->").split() for outcome in text.split(";")]
        if not text.startswith("->") or not all(found):
            raise ValueError(f"`expect {text.strip()}` has neither `->` and an outcome, nor `never`")
        return cls([[words[0], *(wanted_word(word, value) for word in words[1:])] for words in found])

    def wanted(self, time):
        """What is wanted at a time from 0; None where the line is to run no more."""
        if len(self.outcomes) == 1:
            return self.outcomes[0]
        return self.outcomes[time] if time < len(self.outcomes) else None


def wanted_word(word, value):
    """The 32 bits of a number, or of that for which a name stands; `*` and `handle` stay."""
    if word in ("*", "handle"):
        return word
    try:
        return int(value(word), 0) % (1 << 32)
    except ValueError as error:
        raise ValueError(f"`{word}` is no number of an outcome") from error


def fits(wanted, outcome):
    """Whether an outcome is as these words say."""
    def is_so(word, value):
        if word == "handle":
            return 0 < value < 1 << 31
        return word == "*" or word == value % (1 << 32)
    return wanted[0] == outcome[0] and len(wanted) <= len(outcome) and all(map(is_so, wanted[1:], outcome[1:]))


def shown(wanted):
    if wanted is None:
        return "no further call"
    return " ".join(word if isinstance(word, str) else str(word - (word >> 31 << 32)) for word in wanted)


def differences(expected, runs, origin, names):
    """What differs from what the lines expect, a text each. `origin` gives the file, line and text of a line's place, and
    `names` are those of the actors."""
    times = dict.fromkeys(expected, 0)
    for event in (event for run in runs for event in run.events if event.place in expected):
        wanted = expected[event.place].wanted(times[event.place])
        times[event.place] += 1
        if wanted is None or not fits(wanted, event.outcome):
            name, came = names[event.actor], f"{event.answer()} (line {event.lines[-1]} of the trace, {event.text()})"
            yield f"{origin(event.place)}\n  {name} wanted {shown(wanted)}\n  {name} was answered {came}"
    for place, expectation in expected.items():
        count, wanted = times[place], len(expectation.outcomes)
        if count < wanted:
            yield f"{origin(place)}\n  " + (f"ran {count} times, and {wanted} were wanted" if count else "never ran")


def wanted_end(wanted, runs, names):
    """What differs from the verdict and the panics that a scenario wants at the end of its last run: quiet and none where
    it says nothing."""
    verdict, panics = wanted.get("verdict", "quiet"), sorted(wanted.get("panics", []))
    if runs[-1].verdict != verdict:
        yield f"ends {runs[-1].verdict}, and {verdict} was wanted"
    came = sorted(names[actor] for actor in runs[-1].panicked)
    for name in sorted(set(came) - set(panics)):
        yield f"{name} panicked, which wasn't wanted"
    for name in sorted(set(panics) - set(came)):
        yield f"{name} didn't panic, which was wanted"

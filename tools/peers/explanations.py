"""What `mtrr-explain` says of a file, and what the definitions have, in one form."""
from second_reading import NAMES, UNDEFINED, parts_of

PROBLEMS = {"reserved bit": "reserved bits are set", "unsupported type": "no type", "broken mask": "the mask has a gap"}


def explained(form, said):
    """An answer in this form, or as it is where it has none."""
    try:
        return form(said)
    except (LookupError, TypeError, ValueError):
        return said


def pairs_of(said):
    return [pair["pair"] for pair in said["pairs"]]


def faults_explained(said):
    """Each register at fault with each problem, and where pages were looked at each run without a defined type, with its pairs."""
    faults = {(int(fault["register"]["number"], 16), fault["problem"]) for fault in said["faults"]}
    runs = [(int(run["first"], 16), int(run["last"], 16), run["pages"], pairs_of(run)) for run in said["undefined"]]
    return sorted(faults), said["looked"], runs


def faults_wanted(answers):
    faults = [(number, PROBLEMS[reason]) for number, reasons in answers.own_faults for reason in reasons]
    return sorted(faults), not answers.own_faults, [] if answers.own_faults else undefined_runs(answers)


def undefined_runs(answers):
    """The longest runs of pages of no defined type that the same pairs match."""
    runs = []
    ends = [first for first, _ in answers.pieces[1:]] + [answers.registers.pages()]
    for (first, kind), end in zip(answers.pieces, ends):
        if kind is not UNDEFINED:
            continue
        pairs = answers.matching(first)
        if runs and runs[-1][1] == first and runs[-1][2] == pairs:
            first = runs.pop()[0]
        runs.append((first, end, pairs))
    return [(first << 12, (end << 12) - 1, end - first, pairs) for first, end, pairs in runs]


def page_explained(said):
    """The rule, the type, the pairs, and each entry of the PAT with the type in effect."""
    return said["rule"], said["type"], pairs_of(said), [(one["pat"], one["effective"]) for one in said["effective"]]


def page_wanted(answers, page):
    rule, kind = answers.decided(page)
    pairs = [] if rule in ("off", "fixed") else answers.matching(page)
    if kind is UNDEFINED:
        return rule, "undefined", pairs, []
    entries = parts_of(answers.registers.pat)
    return rule, NAMES[kind], pairs, [(NAMES[entry], NAMES[answers.reading.effective(kind, entry)]) for entry in entries]

"""Samples, which are made in memory."""

from program import USAGE, Run, Status, test

# How many persons, and the summary: the area, its subentry, the two units and the persons, of whom those with odd numbers
# are in the open unit.
SAMPLES = [
    ("sample 1", "entries 5\nfound 1\nhidden 0\n"),
    ("sample 3", "entries 7\nfound 2\nhidden 1\n"),
    ("sample 4", "entries 8\nfound 2\nhidden 2\n"),
    ("sample 5", "entries 9\nfound 3\nhidden 2\n"),
    ("sample 00040", "entries 44\nfound 20\nhidden 20\n"),
]

# Lines that ask for no sample.
NO_SAMPLES = ["sample", "sample 0", "sample 20001", "sample 4 4"]


@test
def half_of_the_persons_of_a_sample_are_found():
    return [Run(line, put) for line, put in SAMPLES]


@test
def a_sample_of_many_persons_is_served():
    return [Run("sample 2000", "entries 2004\nfound 1000\nhidden 1000\n")]


@test
def words_for_no_sample_get_the_usage():
    return [Run(line, USAGE, status=Status.USAGE) for line in NO_SAMPLES]

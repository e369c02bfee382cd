"""How the program ends, and what it prints, where it does not come to its end."""

from program import USAGE, Run, Status, test

# Lines that are no command.
NO_COMMANDS = [
    "",
    "replay",
    "replay d",
    "replay d s t",
    "serve d",
    "serve d 127.0.0.1:389 --queues 0",
    "serve d 127.0.0.1:389 --queues 65537",
    "serve d 127.0.0.1:389 --idle 0",
    "serve d 127.0.0.1:389 --limit 0",
    "serve d 127.0.0.1:389 --limit 2147483648",
    "replay d s --limit 2",
    "replay d s --dump=x",
    "check",
    "check d s",
    "dump d --turns 1",
    "replay d s --turns",
    "-h",
]

# A script, and what its refusal prints.
BAD_SCRIPTS = [
    ("send 1 00\nopen 1\n", "bad script line 1\n"),
    ("open 1\nopen 1\nnothing\n", "bad script line 2\n"),
    ("open 1\n\n# a word\nsend 1 0\nsend 1 0g\n", "bad script line 4\n"),
    ("open 1\nend 1\nsend 1 00\n", "bad script line 3\n"),
    ("open 0\n", "bad script line 1\n"),
    ("open 4294967296\n", "bad script line 1\n"),
]

# Lines that name a file which is not there.
NOT_THERE = ["replay d other", "replay other s", "check other", "dump other"]


# How the program is called, a line for each command.
HELP = """usage: aclserver COMMAND

  serve DATA ADDRESS [--sessions N] [--turns N] [--queues MIB] [--idle SECONDS] [--limit N] [--changes FILE]
  replay DATA SCRIPT [--dump] [--turns N]
  check DATA [--changes FILE | --why]
  dump DATA [--changes FILE]
  explain DATA WHO TARGET ITEM PERMISSION
  prove DATA WHO TARGET ITEM PERMISSION
  verify DATA CERTIFICATE
  rights DATA WHO TARGET
  ask DATA REQUESTS [--script]
  sample N
  --help
  --version
"""


@test
def the_program_says_how_it_is_called_and_which_version_it_is():
    return [
        Run("--help", HELP),
        Run("--version", "aclserver 1.0\n"),
        Run("--help --", HELP, "nothing stands behind the delimiter"),
        Run("--help check", USAGE, "no operand", Status.USAGE),
        Run("check d --help", USAGE, "an option that check does not have", Status.USAGE),
    ]


@test
def words_that_are_no_command_get_the_usage():
    return [Run(line, USAGE, status=Status.USAGE, script="send 1 00\n") for line in NO_COMMANDS]


@test
def a_script_that_breaks_the_grammar_is_named_by_its_first_bad_line():
    return [Run("replay d s", put, status=Status.BAD_SCRIPT, script=script) for script, put in BAD_SCRIPTS]


@test
def a_file_that_is_not_there_is_a_fault_of_the_data():
    return [Run(line, "data fault\n", status=Status.SHELF_FAULT, script="open 1\n") for line in NOT_THERE]

"""Messages that are sent and answered in several tests (RFC 4511), as lines of scripts and of replays."""

# A script of an anonymous bind with messageID 1 (RFC 4511 4.2), and the line of its replay.
BIND_SCRIPT = "open 1\nsend 1 300c020101600702010304008000\n"

BOUND_LINE = "1 300c02010161070a010004000400\n"

# The line of a replay whose connection gets the notice of disconnection (RFC 4511 4.4.1).
NOTICE_LINE = "1 3024020100781f0a0102040004008a16312e332e362e312e342e312e313436362e3230303336 closed\n"

"""What an office, a file and a connection take at most. The reference model, the scripts that reach a limit and
front/shared/limits.js are held to these numbers."""

# an office
MOST_UNITS, LAST_UNIT, MOST_CONTAINERS = 200_000, 100_000_000, 100_000
DEEPEST = 64

# its desk
LONGEST_NAME = 100
MOST_TICKETS, MOST_ORDERS, MOST_RUNS, MOST_PERMITS = 1_000_000, 10_000_000, 1_000_000, 100

# its settings, which `init` checks
HIGHEST = dict(seats=200, daily=50, hands=10, run=100)

# a file and its source; the header is row 1
LAST_ROW, MOST_BYTES, LONGEST_SOURCE = 20_001, 65_535, 64

# a connection
LONGEST_HEAD, MOST_FIELDS, LONGEST_BODY = 16_384, 64, 8_388_608
MOST_ANSWERS = 10_000

"""The largest sizes, as in `bindings/c/rabbitsteel.h`."""

BOOK_MAX = 2568  # bytes of a book
NAMES_MAX = 64  # names of a book, their levels, and heads of its tables
RULES_MAX = 256  # rules of a book
STATES_MAX = 2048  # states of its tables
MOVES_MAX = 5120  # moves of its tables
MOVES_LEN = 15360  # numbers of its moves, three to a move: from, label, to
CHAIN_MAX = 1024  # links of a chain
DERIVED_MAX = 16  # links of a chain whose derivation is written or checked
STEPS_MAX = 4096  # steps of a derivation that is written
STEPS_LEN = 16384  # bytes lent for its steps, four to a step
BINDS_MAX = 16  # links of a chain that is asked whether it binds a role
NETWORK_LEN = 18496  # bytes of the largest network: 64 names, 17 places

SILENT = 128  # the label of a silent move; labels below it are role bytes

"""The numbers given back (01, Numbers given back; 02 adds 30 to 36)."""


class Refused(Exception):
    """A number of the table; starred numbers carry their record, the others 0."""

    def __init__(self, number, record=0):
        super().__init__(number, record)
        self.number = number
        self.record = record


RECORDS_NOT_WHOLE = 1
UNNAMED_BYTE = 2
PROVER_SETTING = 3
K_OR_LIMIT = 4
RECORD_FIELD = 5
PASS_RULE = 6
INDICATED_VOLUME = 7
RUN_FACTOR = 8
NO_GROUP = 9
TICKET_FIELD = 10
CLOSING_BELOW_OPENING = 11
NOT_FINITE = 12
READING_RANGE = 13
BUFFER_LENGTH = 14
NOT_A_REPORT = 15
BOOK_NOT_SOUND = 20
UNKNOWN_SHIPPER = 21
NUMBER_ZERO = 22
ALREADY_WAITING = 23
CEILING_REACHED = 24
COMMONS_FULL = 25
NOT_WAITING = 26
NOTHING_TO_TAKE = 27
BOOK_NOT_EMPTY = 30
FIGURES_OUTSIDE_RULES = 31
TABLE_RECORD = 32
NO_SUCH_PAIR = 33
FAULT_CODE = 34
WRONG_KIND = 35
COUNT_NOT_WHOLE = 36

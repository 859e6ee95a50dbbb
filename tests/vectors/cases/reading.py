"""Reading one ballot."""

from vector import R, note, section
from words import LARGEST

# The ballot table by hand, by phase; 3 stands for every odd phase from it on, 4
# for every even one.  One row for each value code 0, 1, 2 (blank) and 3; in a
# row one digit for each status code 0, 1 (decided) and 2: the number given when
# such a ballot is read.
BALLOT_TABLE = {
    0: ("666", "666", "666", "666"),
    1: ("066", "066", "666", "666"),
    2: ("066", "066", "066", "666"),
    3: ("006", "006", "666", "666"),
    4: ("006", "006", "066", "666"),
}
RULE_TEXT = {
    0: "Phase 0 never stands.",
    1: "Phase 1: value 0 or 1, undecided.",
    2: "Phase 2: any value, undecided.",
    3: "Odd from 3: value 0 or 1, either status.",
    4: "Even from 4: any value; blank only when undecided.",
}


def cases():
    readings()
    reading_edges()


def readings():
    section("Reading one ballot")
    note("The example of document 01: sender 1, phase 300, value 1, decided: 01 01 01 01 2C.")
    R(3, bytes.fromhex("010101012c"), 0, "010101012c")
    note(RULE_TEXT[0])
    for value, status in ((0, 0), (1, 1), (2, 0)):
        R(3, bytes([2, value, status, 0, 0]), int(BALLOT_TABLE[0][value][status]))
    for phase in (1, 2, 3, 4):
        note(RULE_TEXT[phase] + "  Value codes 0 to 3, each with status codes 0, 1, 2.")
        for value, status, number in whole_table(phase):
            R(3, bytes([2, value, status, 0, phase]), number)


def reading_edges():
    note("The last phases, 65,534 and 65,535, by the same rules.")
    R(3, bytes.fromhex("000200fffe"), 0)
    R(3, bytes.fromhex("000201fffe"), 6)
    R(3, bytes.fromhex("000101ffff"), 0)
    R(3, bytes.fromhex("000200ffff"), 6)
    note("""Phase is two bytes, high byte first.  256, 257 and 258 may be decided; their low bytes
            alone, 0, 1 and 2, may not.  513 may not be blank; the other way
            round it is 258, which may.""")
    R(3, bytes.fromhex("0101010100"), 0)
    R(3, bytes.fromhex("0101010101"), 0)
    R(3, bytes.fromhex("0100010102"), 0)
    R(3, bytes.fromhex("0102000201"), 6)
    note("A code far outside is 6: status 255.")
    R(3, bytes.fromhex("0101ff0003"), 6)
    note("Sender below n, also at n 2 and n 32.")
    R(2, bytes.fromhex("0201000001"), 6)
    R(31, bytes.fromhex("1f01000001"), 6)
    R(32, bytes.fromhex("1f01000001"), 0, "1f01000001")
    R(32, bytes.fromhex("2001000001"), 6)
    note("""1: n not 2 to 32.  258 and 65538 would be 2 if they were cut.  The refusal comes with a
            ballot of zero fields: value 0, not blank.""")
    for n in (0, 1, 33, 258, 65538, LARGEST):
        R(n, bytes.fromhex("0001000001"), 1, "0000000000")
    note("5: not five bytes.")
    for length in (0, 4, 6, 10):
        R(3, bytes.fromhex("01010000010101000001")[:length], 5, "0000000000")
    note("1, then 5, then 6.")
    R(1, b"", 1)
    R(33, bytes.fromhex("0103000000"), 1)
    R(3, bytes.fromhex("03ffff000003"), 5)


def whole_table(phase):
    """Value code, status code and the number typed by hand, for one phase."""
    for value in range(4):
        for status in range(3):
            yield value, status, int(BALLOT_TABLE[phase][value][status])

"""The calls that the program catalogue_cases makes, each with its answer, written by hand from request 9.

A line: the call, its operands, the size of the area (or the version, or the address), and the answer: 0 where it is done,
a refusal's number, or where the image stands. The files are made by catalogue_files.py.

The order of refusals is 12, 2, 15, 16, 17, 18, 19, then 8, 9, 10. A comment names what else is wrong, where the order decides.
"""
A, B, C = '0020AFC412E5', '0020AFC412E6', '0020AFC412E7'
# Of the 65 cards of `cards-65` and `cards-65-twice`, whose addresses end in 00h to 40h; the latter lists FIFTH again at its end.
FIRST, FIFTH, LAST = '0020AFC41200', '0020AFC41205', '0020AFC41240'


def at(start, where=''):
    """What is printed of an image that starts there. A card's head takes 9 bytes, a number 5, an image 3 and 128."""
    return where + '128 bytes at %d' % start


def override(start):
    return at(start, 'override, ')


def main(start):
    return at(start, 'main, ')


DAMAGED = ('nine', 'not-rising', 'count-off', 'count-of-3', 'behind', 'no-version', 'no-image', 'image-first', 'number-alone',
           'address-of-5', 'image-of-127', 'damaged-and-cut')
EARLY = ('empty', 'cut', 'no-count', 'count-cut', 'head-cut')
SOUND = ('none', 'one', 'two', 'others', 'eight', 'last-number', 'from-0', 'unknown', 'cards-64', 'equal')

CHECKS = [
    *[('check', f, '-', '-', 0) for f in SOUND],
    *[('check', f, '-', '-', 15) for f in DAMAGED],
    *[('check', f, '-', '-', 16) for f in EARLY],
    ('check', 'twice-off', '-', '-', 15),  # 15 before 19: the count is off, and A is listed twice
    ('check', 'cards-65-twice-off', '-', '-', 15),  # 15 before 18 and 19
    ('check', 'twice-cut', '-', '-', 16),  # 16 before 19: no count, and A is listed twice
    ('check', 'cards-65-twice-cut', '-', '-', 16),  # 16 before 18 and 19
    ('check', 'cards-65', '-', '-', 18),
    ('check', 'cards-65-twice', '-', '-', 18),  # 18 before 19
    ('check', 'cards-64-twice', '-', '-', 19),  # 64 cards go in
    ('check', 'twice', '-', '-', 19),
]

LATEST = [
    ('latest', 'one', A, '-', at(17)),
    ('latest', 'two', A, '-', at(153)),  # the second image: 145 bytes before it, a number and its own head
    ('latest', 'unknown', A, '-', at(179)),
    ('latest', 'equal', A, '-', at(301)),  # the second of A's two equal images; 148 bytes of an unknown field stand before A
    ('latest', 'equal', B, '-', at(718)),  # the third of B, equal to its first and to both of A
    ('latest', 'behind', A, '-', 15),
    ('latest', 'damaged-and-cut', A, '-', 15),  # 15 before 16
    ('latest', 'behind', B, '-', 15),  # 15 before 17: B is not listed
    ('latest', 'damaged-and-cut', B, '-', 15),  # 15 before 16 and 17
    ('latest', 'cards-65-twice-off', FIFTH, '-', 15),  # 15 before 18 and 19
    ('latest', 'cut', A, '-', 16),
    ('latest', 'cut', B, '-', 16),  # 16 before 17: B is not listed
    ('latest', 'twice-cut', A, '-', 16),  # 16 before 19
    ('latest', 'cards-65-twice-cut', FIFTH, '-', 16),  # 16 before 18 and 19
    ('latest', 'one', B, '-', 17),
    ('latest', 'none', A, '-', 17),
    ('latest', 'cards-65', A, '-', 17),  # 17 before 18: 65 cards, and A is none of them
    ('latest', 'twice', C, '-', 17),  # 17 before 19: A is listed twice, and C is not
    ('latest', 'cards-65-twice', A, '-', 17),  # 17 before 18 and 19
    ('latest', 'cards-65', FIRST, '-', 18),
    ('latest', 'cards-65', LAST, '-', 18),  # the 65th card is listed too
    ('latest', 'cards-65-twice', FIRST, '-', 18),  # 18 before 19: another address is listed twice
    ('latest', 'cards-65-twice', FIFTH, '-', 18),  # 18 before 19: the address itself is
    ('latest', 'twice', A, '-', 19),
    ('latest', 'twice', B, '-', 19),  # B is listed once, A twice
]

GIVEN = [
    ('given', 'unknown', A, '1', at(32)),
    ('given', 'unknown', A, '3', at(179)),
    ('given', 'from-0', A, '0', at(17)),
    ('given', 'from-0', A, '300', at(153)),
    ('given', 'last-number', A, '65535', at(17)),
    ('given', 'equal', A, '1', at(165)),  # of A's two equal images the first; the unknown field before it holds the same bytes
    ('given', 'equal', A, '2', at(301)),  # the second
    ('given', 'equal', B, '1', at(446)),  # equal to both of A
    ('given', 'equal', B, '2', at(582)),
    ('given', 'equal', B, '3', at(718)),  # equal to B's first
    ('given', 'nine', A, '1', 15),
    ('given', 'damaged-and-cut', A, '1', 15),  # 15 before 16
    ('given', 'nine', B, '1', 15),  # 15 before 17: no such card
    ('given', 'behind', A, '2', 15),  # 15 before 17: no such version
    ('given', 'cards-65-twice-off', FIFTH, '1', 15),  # 15 before 18 and 19
    ('given', 'empty', A, '1', 16),
    ('given', 'cut', B, '1', 16),  # 16 before 17: no such card
    ('given', 'no-count', A, '2', 16),  # 16 before 17: no such version
    ('given', 'twice-cut', A, '1', 16),  # 16 before 19
    ('given', 'cards-65-twice-cut', FIFTH, '1', 16),  # 16 before 18 and 19
    ('given', 'unknown', A, '2', 17),
    ('given', 'unknown', B, '3', 17),  # A has a version 3, B has not
    ('given', 'cards-65', A, '1', 17),  # 17 before 18: no such card
    ('given', 'cards-65', FIRST, '2', 17),  # 17 before 18: no such version
    ('given', 'twice', C, '1', 17),  # 17 before 19: no such card
    ('given', 'twice', B, '2', 17),  # 17 before 19: no such version
    ('given', 'twice', A, '2', 17),  # 17 before 19: in neither listing of A
    ('given', 'full-second', A, '2', 17),  # 17 before 19: only the second listing of A has version 2
    ('given', 'full-second', B, '65535', 17),  # 17 before 19: only the second listing of B has it
    ('given', 'full-first', B, '1', 17),  # 17 before 19: the first listing of B has version 65535 alone
    ('given', 'cards-65-twice', FIFTH, '2', 17),  # 17 before 18 and 19
    ('given', 'cards-65', FIRST, '1', 18),
    ('given', 'cards-65-twice', FIFTH, '1', 18),  # 18 before 19
    ('given', 'twice', A, '1', 19),
    ('given', 'twice', B, '1', 19),  # B is listed once, A twice
    ('given', 'full-second', A, '1', 19),  # the first listing of A has version 1
    ('given', 'full-first', A, '8', 19),  # the first listing of A has version 8
]

# The operands: the override, the main file, the address.
LOOKUPS = [
    # The override lists the card: the main file is not looked at.
    ('lookup', 'one', 'two', A, override(17)),
    ('lookup', 'one', 'behind', A, override(17)),
    ('lookup', 'one', 'cut', A, override(17)),
    ('lookup', 'two', 'cards-65-twice', A, override(153)),
    ('lookup', 'equal', 'one', A, override(301)),  # the second of A's two equal images
    ('lookup', 'equal', 'equal', B, override(718)),  # the third of B, in the override
    # The override lacks it.
    ('lookup', 'others', 'two', A, main(153)),
    ('lookup', 'one', 'others', B, main(17)),
    ('lookup', 'none', 'unknown', B, main(335)),
    ('lookup', 'none', 'equal', A, main(301)),  # the second of A's two equal images
    ('lookup', 'one', 'equal', B, main(718)),  # the third of B; the override has the same bytes for A
    # The override's 15 and 16 come first.
    ('lookup', 'behind', 'two', A, 15),
    ('lookup', 'behind', 'others', B, 15),  # it lacks the card, and the main file has it
    ('lookup', 'behind', 'one', B, 15),  # 15 before 17: neither has it
    ('lookup', 'damaged-and-cut', 'one', A, 15),  # 15 before 16
    ('lookup', 'behind', 'cut', B, 15),  # before the main file's 16
    ('lookup', 'cards-65-twice-off', 'one', FIFTH, 15),  # 15 before 18 and 19
    ('lookup', 'cut', 'one', A, 16),
    ('lookup', 'cut', 'one', B, 16),  # 16 before 17: neither has it
    ('lookup', 'cut', 'behind', B, 16),  # before the main file's 15
    ('lookup', 'cards-65-twice-cut', 'one', FIFTH, 16),  # 16 before 18 and 19
    # The override lists the card: its own 18, then its own 19.
    ('lookup', 'cards-65', 'one', FIRST, 18),
    ('lookup', 'cards-65', 'behind', FIRST, 18),  # the main file's damage is not looked at
    ('lookup', 'cards-65-twice', 'one', FIFTH, 18),  # 18 before 19
    ('lookup', 'twice', 'one', A, 19),
    ('lookup', 'twice', 'cut', B, 19),  # B is listed once; the main file's early end is not looked at
    ('lookup', 'twice', 'cards-65', A, 19),  # nor its 65 cards
    # The override lacks it: the main file's 15 and 16.
    ('lookup', 'one', 'behind', B, 15),
    ('lookup', 'none', 'damaged-and-cut', A, 15),  # 15 before 16
    ('lookup', 'twice', 'behind', C, 15),  # 15 before 17, and before the override's 19
    ('lookup', 'cards-65', 'behind', A, 15),  # before the override's 18
    ('lookup', 'one', 'cut', B, 16),  # 16 before 17
    ('lookup', 'twice', 'cut', C, 16),  # 16 before 17, and before the override's 19
    ('lookup', 'cards-65', 'cut', A, 16),  # before the override's 18
    ('lookup', 'none', 'cards-65-twice-cut', FIFTH, 16),  # 16 before 18 and 19
    # Neither lists it.
    ('lookup', 'none', 'one', B, 17),
    ('lookup', 'cards-65', 'one', B, 17),  # 17 before the override's 18
    ('lookup', 'one', 'cards-65', B, 17),  # 17 before the main file's 18
    ('lookup', 'twice', 'one', C, 17),  # 17 before the override's 19
    ('lookup', 'one', 'twice', C, 17),  # 17 before the main file's 19
    ('lookup', 'cards-65-twice', 'twice', C, 17),  # 17 before 18 and 19 of both
    # The main file lists it: 18 of either file, then 19 of either.
    ('lookup', 'cards-65', 'one', A, 18),
    ('lookup', 'none', 'cards-65', FIRST, 18),
    ('lookup', 'cards-65', 'twice', A, 18),  # the override's 18 before the main file's 19
    ('lookup', 'twice', 'cards-65', FIRST, 18),  # the main file's 18 before the override's 19
    ('lookup', 'cards-65-twice', 'one', A, 18),  # 18 before 19 in the override
    ('lookup', 'none', 'cards-65-twice', FIFTH, 18),  # 18 before 19 in the main file
    ('lookup', 'twice', 'others', C, 19),  # the override's 19
    ('lookup', 'one', 'twice', B, 19),  # the main file's, which lists A twice and B once
    ('lookup', 'none', 'twice', A, 19),
]

ADDITIONS = [
    ('add', 'none', 'a1', '150', 0),
    ('add', 'one', 'a2', '295', 0),
    ('add', 'one', 'b1', '295', 0),
    ('add', 'unknown', 'a2', '60000', 0),
    ('add', 'unknown', 'b1', '60000', 0),
    ('add', 'others', 'a1', '60000', 0),
    ('add', 'from-0', 'a1', '60000', 0),
    ('add', 'none', 'a1', '149', 12),
    ('add', 'one', 'a2', '294', 12),
    ('add', 'one', 'bytes-127', '294', 12),  # 12 before 2
    ('add', 'cut', 'bytes-127', '0', 12),  # 12 before 2 and 16
    ('add', 'behind', 'a2', '295', 12),  # 12 before 15: the file has 151 bytes
    ('add', 'twice', 'word-07', '584', 12),  # 12 before 19 and 8: the file has 440
    ('add', 'one', 'bytes-127', '60000', 2),
    ('add', 'one', 'bytes-129', '60000', 2),
    ('add', 'nine', 'empty', '60000', 2),  # 2 before 15
    ('add', 'cut', 'bytes-127', '60000', 2),  # 2 before 16
    ('add', 'cards-65-twice', 'bytes-129', '60000', 2),  # 2 before 18 and 19
    ('add', 'nine', 'a1', '60000', 15),
    ('add', 'damaged-and-cut', 'a1', '60000', 15),  # 15 before 16
    ('add', 'cards-65-twice-off', 'a1', '60000', 15),  # 15 before 18 and 19
    ('add', 'behind', 'word-07', '60000', 15),  # 15 before 8
    ('add', 'empty', 'a1', '60000', 16),
    ('add', 'cards-65-twice-cut', 'a1', '60000', 16),  # 16 before 18 and 19
    ('add', 'cut', 'word-07', '60000', 16),  # 16 before 8
    # 18: no room for a card, version or number, or more than 64 cards in the file.
    ('add', 'eight', 'a1', '60000', 18),
    ('add', 'last-number', 'a1', '60000', 18),
    ('add', 'cards-64', 'a1', '60000', 18),
    ('add', 'cards-65', 'a1', '60000', 18),
    ('add', 'cards-65', 'image-06', '60000', 18),  # the card is listed and has one version; the file has 65 cards
    ('add', 'full-twice', 'a1', '60000', 18),  # 18 before 19: A has 8 versions, C is listed twice
    ('add', 'full-twice', 'b1', '60000', 18),  # 18 before 19: B has the last number
    ('add', 'cards-64-twice', 'a1', '60000', 18),  # 18 before 19: 64 cards, and A is none of them
    ('add', 'fields-twice', 'c1', 'most', 18),  # 18 before 19: with three more fields than 65,533 the count does not go in
    ('add', 'cards-65-twice', 'a1', '60000', 18),  # 18 before 19: 65 cards
    ('add', 'cards-65-twice', 'image-06', '60000', 18),  # 18 before 19: 65 cards; the card is listed
    ('add', 'full-first', 'a1', '60000', 18),  # 18 before 19: the first listing of A has 8 versions
    ('add', 'full-first', 'b1', '60000', 18),  # 18 before 19: the first listing of B has the last number
    ('add', 'eight', 'word-07', '60000', 18),  # 18 before 8
    ('add', 'last-number', 'word-0F', '60000', 18),  # 18 before 9
    ('add', 'eight', 'word-17', '60000', 18),  # 18 before 10
    ('add', 'cards-65-twice', 'word-07', '60000', 18),  # 18 before 19 and 8
    ('add', 'twice', 'a1', '60000', 19),
    ('add', 'twice', 'b1', '60000', 19),  # another address is listed twice
    ('add', 'twice', 'c1', '60000', 19),  # the card is new
    ('add', 'full-twice', 'c1', '60000', 19),  # C has room; the others have none
    ('add', 'cards-64-twice', 'image-06', '60000', 19),  # the card is listed: no 65th is needed
    ('add', 'fields-twice', 'a1', 'most', 19),  # two more fields than 65,533 go in
    ('add', 'full-second', 'a1', '60000', 19),  # only the second listing of A has 8 versions
    ('add', 'full-second', 'b1', '60000', 19),  # only the second listing of B has the last number
    ('add', 'twice', 'word-07', '60000', 19),  # 19 before 8
    ('add', 'twice', 'word-0F', '60000', 19),  # 19 before 9
    ('add', 'twice', 'word-17', '60000', 19),  # 19 before 10
    ('add', 'one', 'word-07', '60000', 8),
    ('add', 'one', 'words-07-0F', '60000', 8),  # 8 before 9
    ('add', 'one', 'words-07-17', '60000', 8),  # 8 before 10
    ('add', 'none', 'words-07-0F-17', '60000', 8),  # 8 before 9 and 10
    ('add', 'one', 'word-0F', '60000', 9),
    ('add', 'one', 'words-0F-17', '60000', 9),  # 9 before 10
    ('add', 'one', 'word-17', '60000', 10),
]

DROPS = [
    ('drop', 'two', A, '286', 0),
    ('drop', 'one', A, '150', 0),
    ('drop', 'unknown', A, '60000', 0),
    ('drop', 'unknown', B, '60000', 0),
    ('drop', 'two', A, '285', 12),
    ('drop', 'behind', A, '150', 12),  # 12 before 15: the file has 151 bytes
    ('drop', 'cut', A, '99', 12),  # 12 before 16: the file has 100
    ('drop', 'one', B, '149', 12),  # 12 before 17
    ('drop', 'twice', A, '439', 12),  # 12 before 19: the file has 440
    ('drop', 'count-off', A, '60000', 15),
    ('drop', 'damaged-and-cut', A, '60000', 15),  # 15 before 16
    ('drop', 'count-off', B, '60000', 15),  # 15 before 17: B is not listed
    ('drop', 'cards-65-twice-off', FIFTH, '60000', 15),  # 15 before 18 and 19
    ('drop', 'no-count', A, '60000', 16),
    ('drop', 'no-count', B, '60000', 16),  # 16 before 17: B is not listed
    ('drop', 'twice-cut', A, '60000', 16),  # 16 before 19
    ('drop', 'cards-65-twice-cut', FIFTH, '60000', 16),  # 16 before 18 and 19
    ('drop', 'one', B, '60000', 17),
    ('drop', 'none', A, '60000', 17),
    ('drop', 'cards-65', A, '60000', 17),  # 17 before 18: 65 cards, and A is none of them
    ('drop', 'twice', C, '60000', 17),  # 17 before 19: A is listed twice, and C is not
    ('drop', 'cards-65-twice', A, '60000', 17),  # 17 before 18 and 19
    ('drop', 'cards-65', FIRST, '60000', 18),
    ('drop', 'cards-65-twice', FIFTH, '60000', 18),  # 18 before 19
    ('drop', 'twice', A, '60000', 19),
    ('drop', 'twice', B, '60000', 19),  # B is listed once, A twice
]

ARCHIVES = [
    ('import', 'empty', '-', '5', 0),
    ('import', 'row-1', '-', '150', 0),
    ('import', 'row-64', '-', '9285', 0),
    ('import', 'empty', '-', '4', 12),
    ('import', 'row-64', '-', '9284', 12),
    ('import', 'row-cut', '-', '149', 12),  # 12 before 2: one whole image, and a piece
    ('import', 'row-65', '-', '9429', 12),  # 12 before 18
    ('import', 'row-twice-07', '-', '439', 12),  # 12 before 19 and 8
    ('import', 'row-cut', '-', '60000', 2),
    ('import', 'row-65-twice-07-cut', '-', '60000', 2),  # 2 before 18, 19 and 8
    ('import', 'row-twice-cut', '-', '60000', 2),  # 2 before 19
    ('import', 'row-65', '-', '60000', 18),
    ('import', 'row-65-twice-07', '-', '60000', 18),  # 18 before 19 and 8
    ('import', 'row-twice', '-', '60000', 19),
    ('import', 'row-twice-07', '-', '60000', 19),  # 19 before 8
    # The lowest number of any image, wherever it stands in the row.
    ('import', 'row-07', '-', '60000', 8),  # sound, 8, 9
    ('import', 'row-0F-07', '-', '60000', 8),
    ('import', 'row-07-17', '-', '60000', 8),
    ('import', 'row-17-07', '-', '60000', 8),
    ('import', 'row-17-0F-07', '-', '60000', 8),
    ('import', 'row-0F', '-', '60000', 9),
    ('import', 'row-0F-17', '-', '60000', 9),
    ('import', 'row-17-0F', '-', '60000', 9),
    ('import', 'row-17', '-', '60000', 10),
    ('export', 'none', '-', '8192', 0),
    ('export', 'cards-64', '-', '8192', 0),
    ('export', 'unknown', '-', '8192', 0),
    ('export', 'one', '-', '8191', 12),
    ('export', 'behind', '-', '8191', 12),  # 12 before 15
    ('export', 'cut', '-', '8191', 12),  # 12 before 16
    ('export', 'cards-65-twice', '-', '8191', 12),  # 12 before 18 and 19
    ('export', 'behind', '-', '8192', 15),
    ('export', 'damaged-and-cut', '-', '8192', 15),  # 15 before 16
    ('export', 'cards-65-twice-off', '-', '8192', 15),  # 15 before 18 and 19
    ('export', 'cut', '-', '8192', 16),
    ('export', 'cards-65-twice-cut', '-', '8192', 16),  # 16 before 18 and 19
    ('export', 'cards-65', '-', '8192', 18),
    ('export', 'cards-65-twice', '-', '8192', 18),  # 18 before 19
    ('export', 'twice', '-', '8192', 19),
]

LINES = CHECKS + LATEST + GIVEN + LOOKUPS + ADDITIONS + DROPS + ARCHIVES

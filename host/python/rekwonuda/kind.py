"""What a value is."""

from enum import IntEnum


class Kind(IntEnum):
    """What the value of a property or a cell is, and where the rows of a table stand.

    NUMBER: the value itself.
    EMPTY: no value, or no rows.
    ITEM: the number of the heap item that holds it.
    SUBNODE: the number of the subnode that holds it.
    MISSING: no value; by its existence bit the row does not have the cell.
    """

    NUMBER = 0
    EMPTY = 1
    ITEM = 2
    SUBNODE = 3
    MISSING = 4

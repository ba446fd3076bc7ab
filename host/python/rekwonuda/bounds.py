"""Bounds that include/rekwonuda.h states."""

from .edition import Edition

SHORTEST_IMAGE = 564
"""The shortest image that is taken, in bytes."""

LONGEST_IMAGE = 1 << 30
"""The longest image that is taken, in bytes: 1 GiB."""

LARGEST_BLOCK = Edition.BITS32.largest_block
"""The most bytes that a block holds, and a heap, in either edition."""

MOST_NODES = 4_096
"""The most nodes that are looked up in one call."""

MOST_COLUMNS = 255
"""The most columns that a table has."""

"""A reader of Outlook .pst files of both editions, the 64-bit ("Unicode") and the older 32-bit
("ANSI") one, in which nothing is taken on trust.

A file may hold any bytes. A call answers, or it raises a `Refusal`: the first fault met, and its place.
That something is absent is an answer and no refusal.

Every answer and every refusal is that of the proved library `rkw`, which is called in the shared library
librkw.so.0 by ctypes. This package gives its calls Python's types. Code of its own, tested and not
proved, are the text of a refusal, what an `Edition` says of versions and bounds, how a file is read, and
what is put together from several answers: the iterators `Image.nodes`, `Image.blocks`, `Heap.properties`
and `Table.columns`, the scan of `Table.find_column`, the pieces of `Image.find_nodes`, the buffers of
`Image.read_block` and `Image.read_node`, where `Image.hanging` begins, and that a table lacks its rows.
The words of a refusal are the shared library's, and not proved either.

What a call is lent are bytes objects, which do not change, and calls keep nothing: they may run in
several threads at once, on one image too.

The first call loads the shared library. Its path is the one that the environment variable
REKWONUDA_LIBRARY names; without it, the library is sought in PREFIX/lib for a package that is installed
in PREFIX/lib/python3.11/dist-packages, in target/lib of the repository, and where the system's loader
looks. Where none can be loaded `LibraryNotFound` is raised; where it is not of the version that this
package is for, `LibraryOfOtherVersion`.
"""

from .bare import checksum, signature
from .bounds import LARGEST_BLOCK, LONGEST_IMAGE, SHORTEST_IMAGE
from .edition import Edition
from .entry import Block, Header, Lookup, Node, PageReference
from .heap import Heap, Property
from .image import Image
from .kind import Kind
from .library import VERSION, LibraryNotFound, LibraryOfOtherVersion
from .method import Method
from .refusal import Fault, Refusal
from .table import ROW_ID, Cell, Column, Table, TableRecord, tag_of

__version__ = "0.1.0"

__all__ = [
    "LARGEST_BLOCK",
    "LONGEST_IMAGE",
    "ROW_ID",
    "SHORTEST_IMAGE",
    "VERSION",
    "Block",
    "Cell",
    "Column",
    "Edition",
    "Fault",
    "Header",
    "Heap",
    "Image",
    "Kind",
    "LibraryNotFound",
    "LibraryOfOtherVersion",
    "Lookup",
    "Method",
    "Node",
    "PageReference",
    "Property",
    "Refusal",
    "Table",
    "TableRecord",
    "checksum",
    "signature",
    "tag_of",
]

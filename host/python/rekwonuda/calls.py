"""The calls of include/rekwonuda.h, which says what they mean."""

from ctypes import POINTER, c_char, c_char_p, c_uint8, c_uint16, c_uint32, c_uint64

from .answers import (
    Answer,
    BlockAnswer,
    CellAnswer,
    CellsAnswer,
    ColumnAnswer,
    CountAnswer,
    DataAnswer,
    HeaderAnswer,
    ItemAnswer,
    LengthAnswer,
    NodeAnswer,
    PropertyAnswer,
    RowAnswer,
    SizeAnswer,
    TableAnswer,
)
from .call import Area, Call, Number

LENT = Area(c_char_p)
BUFFER = Area(POINTER(c_char))
WORDS = Area(POINTER(c_uint64))

UNSIGNED_8 = Number(c_uint8)
UNSIGNED_16 = Number(c_uint16)
UNSIGNED_32 = Number(c_uint32)
UNSIGNED_64 = Number(c_uint64)

HEADER = Call("rkw_header", HeaderAnswer, image=LENT)
CHECK_NODES = Call("rkw_check_nodes", Answer, image=LENT)
CHECK_BLOCKS = Call("rkw_check_blocks", Answer, image=LENT)
FIND_NODE = Call("rkw_find_node", NodeAnswer, image=LENT, node=UNSIGNED_64)
FIND_NODES = Call("rkw_find_nodes", Answer, image=LENT, nodes=WORDS, places=WORDS)
FIND_BLOCK = Call("rkw_find_block", BlockAnswer, image=LENT, block=UNSIGNED_64)
NEXT_NODE = Call("rkw_next_node", NodeAnswer, image=LENT, from_=UNSIGNED_64)
NEXT_BLOCK = Call("rkw_next_block", BlockAnswer, image=LENT, from_=UNSIGNED_64)
TEST_BLOCK = Call("rkw_test_block", SizeAnswer, image=LENT, block=UNSIGNED_64)
READ_BLOCK = Call("rkw_read_block", LengthAnswer, image=LENT, block=UNSIGNED_64, out=BUFFER)
READ_NODE = Call("rkw_read_node", DataAnswer, image=LENT, node=UNSIGNED_64, out=BUFFER)
ENCODE = Call("rkw_encode", Answer, method=UNSIGNED_8, block=UNSIGNED_64, bytes=BUFFER)
DECODE = Call("rkw_decode", Answer, method=UNSIGNED_8, block=UNSIGNED_64, bytes=BUFFER)
TEST_HEAP = Call("rkw_test_heap", Answer, block=LENT)
TEST_ITEM = Call("rkw_test_item", Answer, block=LENT, item=UNSIGNED_32)
ITEM = Call("rkw_item", ItemAnswer, block=LENT, item=UNSIGNED_32)
FIND_PROPERTY = Call("rkw_find_property", PropertyAnswer, block=LENT, id=UNSIGNED_16)
TABLE = Call("rkw_table", TableAnswer, block=LENT)
COLUMN = Call("rkw_column", ColumnAnswer, block=LENT, index=UNSIGNED_32)
COUNT_ROWS = Call("rkw_count_rows", CountAnswer, block=LENT, rows=LENT)
CELL = Call("rkw_cell", CellAnswer, block=LENT, rows=LENT, row=UNSIGNED_32, tag=UNSIGNED_32)
FIND_ROW = Call("rkw_find_row", RowAnswer, block=LENT, id=UNSIGNED_32)
FIND_ROW32 = Call("rkw_find_row32", RowAnswer, block=LENT, id=UNSIGNED_32)
READ_ROW = Call("rkw_read_row", CellsAnswer, block=LENT, rows=LENT, row=UNSIGNED_32, places=WORDS)
CHECKSUM = Call("rkw_checksum", int, bytes=LENT)
SIGNATURE = Call("rkw_signature", int, offset=UNSIGNED_64, number=UNSIGNED_64)
ROOM = Call("rkw_room", int, size=UNSIGNED_32)
ROOM32 = Call("rkw_room32", int, size=UNSIGNED_32)
REFUSAL_WORDS = Call("rkw_refusal_words", bytes, refusal=UNSIGNED_64, place=UNSIGNED_64)

/* Rekwonuda: a reader of Outlook .pst files of both editions, the 64-bit ("Unicode") and the older
 * 32-bit ("ANSI") one.
 *
 * What may be given. Any bytes and any numbers. Nothing needs checking beforehand: no call crashes,
 * reads or writes outside what it was lent, or runs on without end, whatever the bytes say. The one
 * duty of a caller is that a pointer and the length behind it are true: so many bytes can be read
 * there, and written where the parameter is not const. An empty area may come with any pointer that
 * is not null.
 *
 * While a call runs, the image (or block, or rows) that it was lent must not change, and `out` or
 * `places` must not overlap it. A call keeps nothing: it may run in several threads at once, on one
 * image too.
 *
 * Every answer but a bare number begins with these three fields:
 *   refusal  0 where the call is answered, else the number of the first fault met (below)
 *   place    the place of that fault: an offset in the image, or 0
 *   more     what else the refusal says: for 11 and 21 the index of the first entry of the page that
 *            is at fault, counted from 0, for 17 the length needed or, of a list of nodes and of a row
 *            of cells, a number of places, otherwise 0
 * A field that an answer does not use is 0. A refused call leaves every byte of a buffer as it was.
 * "Absent" is an ordinary answer and no refusal: `found` is 0 where it is absent, 1 where it is there.
 * All offsets are in bytes and begin at 0.
 *
 * The version in the header tells the edition: 23 is the 64-bit edition, 14 and 15 are the 32-bit one.
 * Each call on an image goes by it; rkw_header hands it out as `edition`. Answers have the same fields
 * for both. What differs:
 *                                                 64-bit       32-bit
 *   most bytes of a block                          8,176        8,180
 *   most blocks of a data tree                     1,021        2,043
 *   most bytes of a node's data                8,347,696   16,711,740
 *   checksums of the header, at                4 and 524            4
 *   its sentinel and encoding method, at     512 and 513  460 and 461
 *   its end-of-file number, at                       184          168
 * Calls on a block that a heap stands on are not told the edition, and take up to 8,180 bytes. Of the row
 * index of a table, in which the editions differ, there are two calls, rkw_find_row and rkw_find_row32.
 *
 * Bit 0 (value 1) of a block number is reserved. Where block numbers are compared, in the block tree,
 * in a block's trailer and with the number asked for, they are compared with that bit cleared: two
 * entries of the block tree that differ only there are equal, which is refused with 11, and
 * rkw_find_block, rkw_test_block and rkw_read_block answer alike for two numbers that differ only
 * there; rkw_next_block takes the number that it is given with all its bits. The bit counts where a
 * number goes into a signature or a cyclic key, and in page numbers and node numbers. In a 32-bit file
 * block numbers are stored in four bytes, and one that is asked for is compared whole: where
 * rkw_check_blocks accepts, rkw_find_block answers absent for 2^32 and above.
 *
 * The header says where the file ends: its end-of-file number, eight bytes at 184, in a 32-bit file four
 * at 168, which rkw_header hands out as `end`. An image shorter than that is refused with 1 and that
 * place by the last test of the header. Every page that is read, and the room of every block that is
 * tested or read, must end at or before both that number and the end of the image, else it is refused
 * with 6 or 13. A number of 0 is accepted by rkw_header; every page is then refused with 6.
 *
 * An image may be longer than its header says. The bytes that hang on behind that number, and behind
 * the first 564, change no answer, no refusal and no byte of a buffer while the length of the image
 * stays within its bounds. Said exactly: two images begin with the same bytes, at least 564 of them and
 * at least as many as the end-of-file number says, and both are at most 1,073,741,824 bytes long, or
 * neither is; then every call that takes an image gives the same for both. So one thing may differ: an
 * image that grows over 1,073,741,824 bytes is refused with 1, place 0.
 *
 * Refusals, each with its place:
 *    1  the image is under 564 or over 1,073,741,824 bytes long; 0. Or it is shorter than the header's
 *       end-of-file number says, which is tested after 5; 184, in a 32-bit file 168
 *    2  the magic bytes are wrong; 0 or 8
 *    3  the version is none of 14, 15 and 23; 10
 *    4  a checksum of the header differs; 4 or 524, in a 32-bit file 4
 *    5  the header's sentinel or encoding method is wrong; 512 or 513, in a 32-bit file 460 or 461.
 *       From rkw_encode and rkw_decode: the method is over 2; 0
 *    6  the offset of a page is not allowed, or the page goes past the end of the file; that offset
 *    7  the kind of a page is wrong; the page's offset
 *    8  the number or signature of a page is wrong; the page's offset
 *    9  the checksum of a page differs; the page's offset
 *   10  the counts or the level of a page are wrong; the page's offset
 *   11  the key of an entry is not above the one before it; the page's offset, and `more` is the
 *       index of the first entry at fault
 *   12  a block to be tested or read is not in the block tree; 0
 *   13  the offset or size of a block is not allowed, or its room goes past the end of the file; the
 *       block's offset
 *   14  the trailer of a block is wrong; the block's offset
 *   15  the checksum of a block differs; the block's offset
 *   16  the shape of a data tree is wrong; the offset of its root block
 *   17  the buffer is shorter than the data; 0, and `more` is the length needed. From rkw_find_nodes:
 *       the list is over 4,096 numbers; 0, and `more` is 4,096; or the area has fewer places than
 *       the list has numbers; 0, and `more` is how many it has. From rkw_read_row: the area has fewer
 *       places than the table has columns; 0, and `more` is how many it has
 *   18  the shape of a heap is wrong; 0
 *   19  the number of a heap item is wrong; 0
 *   20  the shape of a property tree is wrong; 0
 *   21  a key lies outside the range of its page; the page's offset, and `more` is the index of the
 *       first entry at fault. The root page may hold any key. The page behind an entry of an index
 *       page may hold those from that entry's key, included, to the next entry's, excluded, and
 *       behind the last entry up to where the range of the index page ends
 *   23  the shape of a table is wrong; 0
 * There is no 22.
 * Of 11 and 21 the one at the first entry at fault comes, and 11 where both hold of that entry. So
 * 11 never comes with index 0.
 */
#ifndef REKWONUDA_H
#define REKWONUDA_H

#include <stddef.h>
#include <stdint.h>

#ifdef __cplusplus
extern "C" {
#endif

/* The version that this header belongs to: major times 10,000, minor times 100 and patch, added up.
 * While major is 0, a struct may have other fields from one minor version to the next: a program that
 * links the shared library compares RKW_VERSION with rkw_version() before it calls anything else. */
#define RKW_VERSION 100
#define RKW_VERSION_TEXT "0.1.0"

/* The refusals by name. */
enum rkw_refusal {
    RKW_ANSWERED = 0,
    RKW_REFUSED_IMAGE_LENGTH = 1,
    RKW_REFUSED_MAGIC = 2,
    RKW_REFUSED_VERSION = 3,
    RKW_REFUSED_HEADER_CHECKSUM = 4,
    RKW_REFUSED_ENCODING = 5,
    RKW_REFUSED_PAGE_OFFSET = 6,
    RKW_REFUSED_PAGE_KIND = 7,
    RKW_REFUSED_PAGE_NUMBER = 8,
    RKW_REFUSED_PAGE_CHECKSUM = 9,
    RKW_REFUSED_PAGE_COUNTS = 10,
    RKW_REFUSED_KEY_ORDER = 11,
    RKW_REFUSED_BLOCK_UNLISTED = 12,
    RKW_REFUSED_BLOCK_OFFSET = 13,
    RKW_REFUSED_BLOCK_TRAILER = 14,
    RKW_REFUSED_BLOCK_CHECKSUM = 15,
    RKW_REFUSED_DATA_TREE = 16,
    RKW_REFUSED_SHORT_BUFFER = 17,
    RKW_REFUSED_HEAP_SHAPE = 18,
    RKW_REFUSED_HEAP_ITEM = 19,
    RKW_REFUSED_PROPERTY_TREE = 20,
    RKW_REFUSED_KEY_RANGE = 21,
    RKW_REFUSED_TABLE_SHAPE = 23
};

/* How block data is encoded: the `method` of a header, and of rkw_encode and rkw_decode. */
enum rkw_method {
    RKW_METHOD_NONE = 0,
    RKW_METHOD_PERMUTE = 1,
    RKW_METHOD_CYCLIC = 2
};

/* What a value is: the `kind` of a property and of a cell, and the `rows_kind` of a table. */
enum rkw_kind {
    RKW_KIND_NUMBER = 0,
    RKW_KIND_EMPTY = 1,
    RKW_KIND_ITEM = 2,
    RKW_KIND_SUBNODE = 3,
    RKW_KIND_MISSING = 4
};

/* Accepted or done (refusal 0), or refused. */
struct rkw_answer {
    uint64_t refusal, place, more;
};

/* What the header says. method: how block data is encoded, 0 not at all, 1 permute, 2 cyclic.
 * nodes_number, nodes_offset: the number and the offset of the root page of the node tree;
 * blocks_number, blocks_offset: of the root page of the block tree. end: the end-of-file number, at
 * most the length of the image. edition: 64 or 32. */
struct rkw_header_answer {
    uint64_t refusal, place, more;
    uint64_t method, nodes_number, nodes_offset, blocks_number, blocks_offset, end, edition;
};

/* A node. found: 1 or 0. pages: how many pages were read, also where the node is absent.
 * node: its number; data: the number of its data block as stored, 0 or 1 for none; subnode: the
 * number of its subnode block as stored, 0 for none; parent: the number of its parent node as stored,
 * which is not tested: there need be no such node. */
struct rkw_node_answer {
    uint64_t refusal, place, more;
    uint64_t found, pages, node, data, subnode, parent;
};

/* A block as it is listed. found and pages as for a node. block: its number as stored;
 * offset: where it starts in the image; size: its bytes; references: its reference count as stored,
 * which is not tested. */
struct rkw_block_answer {
    uint64_t refusal, place, more;
    uint64_t found, pages, block, offset, size, references;
};

/* size: how many bytes the block holds. */
struct rkw_size_answer {
    uint64_t refusal, place, more;
    uint64_t size;
};

/* length: how many bytes now stand at the front of `out`. */
struct rkw_length_answer {
    uint64_t refusal, place, more;
    uint64_t length;
};

/* The data of a node. found: 1 or 0. length: how many bytes now stand at the front of `out`; 0 for a
 * node without data. */
struct rkw_data_answer {
    uint64_t refusal, place, more;
    uint64_t found, length;
};

/* Where an item stands in the caller's block: its first byte, and how many bytes it has. */
struct rkw_item_answer {
    uint64_t refusal, place, more;
    uint64_t start, length;
};

/* A property. found: 1 or 0. type: its type code. kind says what value is: 0, the value itself, as
 * a number; 1, nothing: the property is empty, and value is 0; 2, the number of the heap item that
 * holds the value; 3, the number of the subnode that holds it. */
struct rkw_property_answer {
    uint64_t refusal, place, more;
    uint64_t found, type, kind, value;
};

/* A table. columns: how many columns it has, at most 255. row_size: how many bytes a row has.
 * existence: where in a row its existence bytes begin; they go up to its end. rows_kind says where the
 * rows stand: 1, nowhere: there are none, and rows_value is 0; 2, in the heap item whose number is
 * rows_value; 3, in the subnode whose number is rows_value. */
struct rkw_table_answer {
    uint64_t refusal, place, more;
    uint64_t columns, row_size, existence, rows_kind, rows_value;
};

/* A column. found: 1 or 0. tag: a property id in its high two bytes, a type code in its low two.
 * offset, width: where in a row its cell begins, and how many bytes it has. bit: the existence bit that
 * says whether a row has the cell: bit 0 is the highest (value 80 hex) of the first existence byte. */
struct rkw_column_answer {
    uint64_t refusal, place, more;
    uint64_t found, tag, offset, width, bit;
};

/* rows: how many rows the table has. */
struct rkw_count_answer {
    uint64_t refusal, place, more;
    uint64_t rows;
};

/* A cell. found: 1 or 0. kind says what value is: 0, the value itself, as a number; 1, nothing: the
 * cell is empty, and value is 0; 2, the number of the heap item that holds the value; 3, the number of
 * the subnode that holds it; 4, nothing: the row has no such cell by its existence bit, and value is 0.
 * Unless it is missing, a cell is of kind 1, 2 or 3 where its column's type is 0D, 1E, 1F, 48 or 102 hex
 * or has bit 1000 hex, otherwise of kind 0. */
struct rkw_cell_answer {
    uint64_t refusal, place, more;
    uint64_t found, kind, value;
};

/* The row that the row index names for an id. found: 1 or 0. row: its number as stored, from 0; whether
 * the table has so many rows is not tested. */
struct rkw_row_answer {
    uint64_t refusal, place, more;
    uint64_t found, row;
};

/* The cells of a row. found: 1 or 0. cells: how many places of the area now hold one. */
struct rkw_cells_answer {
    uint64_t refusal, place, more;
    uint64_t found, cells;
};

/* The image: the bytes of a .pst file, from its first. */

/* Tests the header and says what stands in it. Refusals 1 to 5. */
struct rkw_header_answer rkw_header(const uint8_t *image, size_t len);

/* Checks the header and then the whole node tree, or the whole block tree. Refusals 1 to 11, and 21. */
struct rkw_answer rkw_check_nodes(const uint8_t *image, size_t len);
struct rkw_answer rkw_check_blocks(const uint8_t *image, size_t len);

/* Looks up a node by the low four bytes of its number. The header and every page on the way are
 * checked in full. Refusals 1 to 11, and 21. */
struct rkw_node_answer rkw_find_node(const uint8_t *image, size_t len, uint64_t node);

/* Looks up a list of `count` nodes, at most 4,096, each as rkw_find_node does, and puts the answers
 * into `places`: the i-th number's answer is the i-th place. A place is nine words, those of a struct
 * rkw_node_answer in its order, so that an area of such structs can be lent; an area of `words` words
 * has words / 9 places, rounded down. A refused header or page is told in the places of the numbers
 * that met it, not by the call. Numbers may come twice, in any order. Words behind the last place of
 * the list stay as they were. An empty list is answered whatever the image holds. `nodes` and `image`
 * must not overlap `places`.
 * Refusal 17, place 0, and no word is written: over 4,096 numbers, and `more` is 4,096; then fewer
 * places than numbers, and `more` is the count of numbers. */
struct rkw_answer rkw_find_nodes(const uint8_t *image, size_t len, const uint64_t *nodes, size_t count, uint64_t *places, size_t words);

/* Looks up a block by its number, bit 0 left out, with the same checks; answers the number as stored.
 * Refusals 1 to 11, and 21. */
struct rkw_block_answer rkw_find_block(const uint8_t *image, size_t len, uint64_t block);

/* The first node, or block, whose number is at least `from`, answered as by the lookup. Of a node the
 * low four bytes of both numbers are compared; of a block its number with bit 0 cleared, and `from` as
 * given, so that one above a block's number is behind it. Going from 0, each time one above the number
 * found, goes through a whole checked tree in order; there is none behind node 0xFFFFFFFF and block
 * 0xFFFFFFFFFFFFFFFF, so end there too. The header and every page read are checked in full; of a tree
 * whose root has level n at most 2n + 1 pages are read. Refusals 1 to 11, and 21. */
struct rkw_node_answer rkw_next_node(const uint8_t *image, size_t len, uint64_t from);
struct rkw_block_answer rkw_next_block(const uint8_t *image, size_t len, uint64_t from);

/* Looks up a block and tests its place, trailer and checksum. Refusals 1 to 15, and 21. */
struct rkw_size_answer rkw_test_block(const uint8_t *image, size_t len, uint64_t block);

/* Tests a block and puts its bytes at the front of `out`: decoded by the header's method, or as they
 * are stored where the block is internal (bit 1, of value 2, of its number). What follows them in
 * `out` stays as it was. No block has more than 8,176 bytes, in a 32-bit file 8,180. Refusals 1 to 15,
 * 17 and 21. */
struct rkw_length_answer rkw_read_block(const uint8_t *image, size_t len, uint64_t block, uint8_t *out, size_t out_len);

/* Looks up a node and puts its data at the front of `out`: the bytes of its data block, or, where that
 * is internal, of the blocks that it lists, one right behind the other, each tested and decoded. What
 * follows them in `out` stays as it was. The data of a node has at most 8,347,696 bytes, in a 32-bit
 * file 16,711,740; called with out_len 0, the call says in `more` of refusal 17 how many there are.
 * Refusals 1 to 17, and 21. */
struct rkw_data_answer rkw_read_node(const uint8_t *image, size_t len, uint64_t node, uint8_t *out, size_t out_len);

/* Encodes, or decodes, `bytes` in place as the data of that block: method 0 leaves them, 1 is permute,
 * 2 is cyclic. Works on any length and under any block number. Refusal 5, place 0. */
struct rkw_answer rkw_encode(uint8_t method, uint64_t block, uint8_t *bytes, size_t len);
struct rkw_answer rkw_decode(uint8_t method, uint64_t block, uint8_t *bytes, size_t len);

/* The block: the bytes of one block with a heap on it, decoded, as rkw_read_block hands them out: 12 to
 * 8,180 of them, whatever the edition. */

/* Tests the shape of the heap. Refusal 18. */
struct rkw_answer rkw_test_heap(const uint8_t *block, size_t len);

/* Tests the heap and then the number of an item. Refusals 18 and 19. */
struct rkw_answer rkw_test_item(const uint8_t *block, size_t len, uint32_t item);

/* Says where an item stands in the caller's block; nothing is copied. An item may be empty: it then
 * has a start, and length 0. Refusals as by rkw_test_item. */
struct rkw_item_answer rkw_item(const uint8_t *block, size_t len, uint32_t item);

/* Looks up a property by its id. Where the value is an item (kind 2), the item's number has been
 * tested as rkw_test_item tests it. Refusals 18 to 20. */
struct rkw_property_answer rkw_find_property(const uint8_t *block, size_t len, uint16_t id);

/* The table: a block with a heap on it that holds a table context, and where the rows stand in a
 * subnode, the bytes of its block too, decoded. Tables whose heap or rows take several blocks are not
 * covered.
 *
 * Every call on a table tests it first, in this order: the shape of the heap (18); its client kind,
 * byte 3 of the block, which is 7C hex (23); the number of the item that holds the table record, which
 * is the heap's user root (19); the table record (23): it begins with 7C hex, has exactly 22 bytes and 8
 * for each column, a row has at least one byte, and its existence bytes begin in the row or at its end;
 * the columns (23): each lies in the row before the existence bytes, its bit lies in those, it has 4
 * bytes where its type is one of references (kinds 1, 2 and 3 of a cell), otherwise 1, 2, 4 or 8, and no
 * two share a tag, a byte of the row or a bit. There may be no column. */

/* Says what the table record says. Refusals 18, 19 and 23. */
struct rkw_table_answer rkw_table(const uint8_t *block, size_t len);

/* The column of that index, from 0, in the order in which they are stored; absent past the last.
 * Refusals 18, 19 and 23. */
struct rkw_column_answer rkw_column(const uint8_t *block, size_t len, uint32_t index);

/* Counts the rows: as many as whole rows fit into the rows' bytes. What is left over does not count.
 * Where the rows stand in a heap item (rows_kind 2), its number is tested (19). Where they stand in a
 * subnode (rows_kind 3), `rows` is the bytes of that subnode's block, at most 8,180 (23); in all other
 * cases `rows` is not looked at and may be empty. Whether these bytes are those of that subnode is not
 * known here. Refusals 18, 19 and 23. */
struct rkw_count_answer rkw_count_rows(const uint8_t *block, size_t len, const uint8_t *rows, size_t rows_len);

/* The cell of a row, from 0, in the column of that tag. After the tests of rkw_count_rows: absent where
 * the table has no such row, or no such column; then missing (kind 4) where the existence bit is not
 * set; then the value. Where that is an item (kind 2), the item's number has been tested (19). The row
 * index is not looked at. Refusals 18, 19 and 23. */
struct rkw_cell_answer rkw_cell(const uint8_t *block, size_t len, const uint8_t *rows, size_t rows_len, uint32_t row, uint32_t tag);

/* Looks up in the row index which row has that id: rkw_find_row in a table of a 64-bit file, whose index
 * has entries of 4 bytes, rkw_find_row32 in one of a 32-bit file, whose index has entries of 2. After the
 * tests of every table call: the number of the item that holds the index's record (19), and the record
 * (23): exactly 8 bytes, B5 hex, key size 4, entry size 4 or 2, at most 3 index levels, and the number of
 * the root item. Absent where that is 0. Then, item by item on the way, its number (19), and its shape
 * (23): not empty, whole records, ids strictly ascending and in range. The rows are not looked at. An
 * index of the other edition is refused by its entry size (23). Refusals 18, 19 and 23. */
struct rkw_row_answer rkw_find_row(const uint8_t *block, size_t len, uint32_t id);
struct rkw_row_answer rkw_find_row32(const uint8_t *block, size_t len, uint32_t id);

/* Puts all cells of a row, from 0, into `places`, in the order of the columns. A place is six words,
 * those of a struct rkw_cell_answer in its order, so that an area of such structs can be lent; an area of
 * `words` words has words / 6 places, rounded down. Each place is what rkw_cell answers for that row and
 * the column's tag: a refusal by the number of a value's item (19) stands in its place, and is not told by
 * the call. Words behind the place of the last column stay as they were. After the tests of
 * rkw_count_rows: absent where the table has no such row, and nothing is written, whatever the area.
 * `block` and `rows` must not overlap `places`.
 * Refusals 18, 19, 23, and then 17, place 0: fewer places than columns, and `more` is the count of
 * columns. No word is written where the call is refused. */
struct rkw_cells_answer rkw_read_row(const uint8_t *block, size_t len, const uint8_t *rows, size_t rows_len, uint32_t row, uint64_t *places, size_t words);

/* The checksum of the bytes: polynomial EDB88320 hex, reflected, start 0, no inversion. Under 2^32. */
uint64_t rkw_checksum(const uint8_t *bytes, size_t len);

/* The signature of a page or block at that offset and with that number. Under 65,536. */
uint64_t rkw_signature(uint64_t offset, uint64_t number);

/* The room that a block with so many bytes of data takes in a file: the smallest multiple of 64 that
 * holds size + 16, and in a 32-bit file, by rkw_room32, size + 12. */
uint64_t rkw_room(uint32_t size);
uint64_t rkw_room32(uint32_t size);

/* Two calls that are not proved: they are a small C file, host/c/words.c, beside the proved library in
 * librkw.a and librkw.so as `make install` installs them. The archive that `rt lib` writes is without
 * them. */

/* The version of the library, as RKW_VERSION counts it. */
uint64_t rkw_version(void);

/* Says in words what is wrong, by the number and the place of a refusal: one line of ASCII text, without
 * a dot at its end, which is never null and is not to be freed. Of 0 it says that the call is answered,
 * and of a number that is none of the refusals, that it has no name. */
const char *rkw_refusal_words(uint64_t refusal, uint64_t place);

#ifdef __cplusplus
}
#endif

#endif

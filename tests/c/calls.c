/* Calls every function of include/rekwonuda.h on a sample and prints what it got.
 * samples/mini.img has two real root-to-leaf paths and no block. A copy of it is given one: block 4,
 * whose 108 bytes are a small heap with two properties. A longer copy goes on behind the sample's end
 * with a page and a block that its trees name there. A 32-bit image is made whole. The table calls get
 * a heap of their own. */
#include "rekwonuda.h"

#include <inttypes.h>
#include <stdio.h>
#include <string.h>

enum { IMAGE = 27648, BLOCK = 4, OFFSET = 0x5800, SIZE = 108, ROOM = 128, ITEM = 0x60, LEAF = 0x5600 };
enum { LISTED = 4, MOST = 4096, WORDS = 9, AREA = WORDS * (MOST + 1), VERSION = 10, METHOD = 513, END = 184 };
enum { COLUMNS = 4, CELL = 6, ROW = 18, LARGEST = 8180 };
enum { TIME = 0x0E060040, NAME = 0x3001001F, FLAG = 0x360A000B, ID = 0x67F20003 };

/* Behind the sample's end: page 132, which the node tree's root names for nodes from 0x804F on, and right
 * behind it block 0x34, which the block tree lists with 140 bytes. */
enum { NEXT_PAGE = 28160, NEXT_NUMBER = 132, NEXT_BLOCK = 28672, NEXT_SIZE = 140, NEXT_ROOM = 192, LONGER = 28864 };

/* The 32-bit image: a leaf page for each tree, block 6, which lists block 4 twice, and block 4. */
enum { OLD_NODES = 0x4400, OLD_BLOCKS = 0x4600, OLD_TREE = 0x4800, OLD_BLOCK = 0x4840, OLD_END = 0x4880 };
enum { OLD_SIZE = 52, OLD_ROOM = 64, OLD_END_AT = 168, OLD_ROOTS = 184, OLD_SENTINEL = 460, OLD_METHOD = 461 };

/* How many bytes a block number has in a file. */
enum { WIDTH = 8, OLD_WIDTH = 4 };

static uint8_t image[IMAGE + 1];
static uint8_t filled[IMAGE];
static uint8_t longer[LONGER];
static uint8_t keyed[IMAGE];
static uint8_t old[OLD_END + 1];
static uint8_t out[SIZE + 4];

/* Nodes to look up: one found, one absent, one refused, and the first again; and room for one number
 * too many, each with a place. */
static uint64_t numbers[MOST + 1] = {0x122, 0x20, 0x804F, 0x122};
static uint64_t places[AREA];

/* The heap: three items, at 12, 20 and 36, and their map at 96. */
static uint8_t heap[SIZE] = {
    96, 0, 0xEC, 0xBC, 0x20, 0, 0, 0, 0, 0, 0, 0,
    0xB5, 2, 6, 0, 0x40, 0, 0, 0,
    0x38, 0x0E, 3, 0, 5, 0, 0, 0, 0x01, 0x30, 0x1F, 0, ITEM, 0, 0, 0,
};
static const uint8_t map[] = {3, 0, 0, 0, 12, 0, 20, 0, 36, 0, 96, 0};

/* A heap without items, whose map stands right behind its head, and one byte more than a heap has. */
static const uint8_t largest[LARGEST + 1] = {12, 0, 0xEC, 0xBC, 0, 0, 0, 0, 0, 0, 0, 0, 0, 0, 0, 0, 12, 0};

/* A table: five items, at 12, 66, 74, 106 and 180, and their map at 188. */
static uint8_t table[] = {
    188, 0, 0xEC, 0x7C, 0x20, 0, 0, 0, 0, 0, 0, 0, /* the user root is item 0x20 */
    /* Item 0x20, the table record: four columns; 4- and 8-byte cells end at 16, 2-byte ones at 16,
     * 1-byte ones and so all cells at 17, the row at 18; row index in item 0x40, rows in item 0x80. */
    0x7C, COLUMNS, 16, 0, 16, 0, 17, 0, ROW, 0, 0x40, 0, 0, 0, 0x80, 0, 0, 0, 0, 0, 0, 0,
    0x40, 0, 0x06, 0x0E, 8, 0, 8, 3, /* TIME: at 8, 8 bytes, bit 3 */
    0x1F, 0, 0x01, 0x30, 4, 0, 4, 1, /* NAME: at 4, 4 bytes, bit 1 */
    0x0B, 0, 0x0A, 0x36, 16, 0, 1, 2, /* FLAG: at 16, 1 byte, bit 2 */
    0x03, 0, 0xF2, 0x67, 0, 0, 4, 0, /* ID: at 0, 4 bytes, bit 0 */
    /* Item 0x40, the row index: keys of 4 bytes, entries of 4, no index level, root in item 0x60. */
    0xB5, 4, 4, 0, 0x60, 0, 0, 0,
    /* Item 0x60: an id and the number of its row, four times. */
    0x62, 0x80, 0, 0, 2, 0, 0, 0, 0x82, 0x80, 0, 0, 0, 0, 0, 0,
    0xA2, 0x80, 0, 0, 1, 0, 0, 0, 0xC2, 0x80, 0, 0, 3, 0, 0, 0,
    /* Item 0x80, four rows of 18 bytes, each ID, NAME, TIME, FLAG and its existence byte, and two bytes
     * left over. NAME stands in item 0xA0; is empty; stands in subnode 0x813F; and stands in an item that
     * there is not. Row 1 has no TIME. */
    0x82, 0x80, 0, 0, 0xA0, 0, 0, 0, 8, 7, 6, 5, 4, 3, 2, 1, 1, 0xF0,
    0xA2, 0x80, 0, 0, 0, 0, 0, 0, 9, 9, 9, 9, 9, 9, 9, 9, 0, 0xE0,
    0x62, 0x80, 0, 0, 0x3F, 0x81, 0, 0, 0, 0, 0, 0, 0, 0, 0, 0, 0, 0xF0,
    0xC2, 0x80, 0, 0, 0, 0x10, 0, 0, 0, 0, 0, 0, 0, 0, 0, 0, 0, 0xF0,
    0xFF, 0xFF,
    't', 0, 'e', 0, 'x', 0, 't', 0, /* item 0xA0 */
    5, 0, 0, 0, 12, 0, 66, 0, 74, 0, 106, 0, 180, 0, 188, 0,
};

/* Where some bytes of the table stand, for a test to change. */
enum { CLIENT_KIND = 3, USER_ROOT = 4, INDEX_ITEM = 22, ROWS = 26, FIRST_BIT = 41, KEY_SIZE = 67, TABLE = 204 };
enum { ENTRY_SIZE = 68, INDEX = 74, INDEX_END = 198 };
_Static_assert(sizeof table == TABLE, "the map ends the table");

/* Rows as the block of a subnode holds them: those of item 0x80, and behind them nothing. */
static uint8_t rows[LARGEST + 1];
static uint64_t cells[CELL * COLUMNS + 5];

static void field(const char *name, uint64_t value) { printf(" %s %" PRIu64, name, value); }

static void refusal(const char *call, uint64_t number, uint64_t place, uint64_t more)
{
    printf("%s:", call);
    field("refusal", number);
    field("place", place);
    field("more", more);
}

static void verdict(const char *call, struct rkw_answer a)
{
    refusal(call, a.refusal, a.place, a.more);
    printf("\n");
}

static void bytes(const char *name, const uint8_t *from, size_t length)
{
    printf(" %s %s", name, length ? "" : "none");
    for (size_t i = 0; i < length; i++) printf("%02x", from[i]);
    printf("\n");
}

static void put(uint8_t *at, unsigned width, uint64_t value)
{
    for (unsigned i = 0; i < width; i++) at[i] = (uint8_t)(value >> (8 * i));
}

/* Writes the trailer of a block whose bytes stand in the image already. In a 32-bit file its number comes
 * before its checksum. */
static void seal_block(uint8_t *in, size_t offset, size_t size, size_t room, uint64_t number, unsigned width)
{
    uint8_t *trailer = in + offset + room - 8 - width;
    put(trailer, 2, size);
    put(trailer + 2, 2, rkw_signature(offset, number));
    put(trailer + (width == WIDTH ? 4 : 8), 4, rkw_checksum(in + offset, size));
    put(trailer + (width == WIDTH ? 8 : 4), width, number);
}

/* Writes the trailer of a page whose bytes stand in the image already. */
static void seal_page(uint8_t *in, size_t offset, uint8_t kind, uint64_t number, unsigned width)
{
    uint8_t *page = in + offset;
    size_t trailer = width == WIDTH ? 496 : 500;
    put(page + trailer, 1, kind);
    put(page + trailer + 1, 1, kind);
    put(page + trailer + 2, 2, rkw_signature(offset, number));
    put(page + (width == WIDTH ? 500 : 508), 4, rkw_checksum(page, trailer));
    put(page + 504, width, number);
}

static void make_block(void)
{
    memset(heap + 36, '.', 60);
    memcpy(heap + 36, "text", 4);
    memcpy(heap + 96, map, sizeof map);
    memcpy(filled, image, IMAGE);
    memcpy(filled + OFFSET, heap, SIZE);
    seal_block(filled, OFFSET, SIZE, ROOM, BLOCK, WIDTH);
}

/* The page is a leaf with one entry, node 0x804F without data. */
static void make_longer(void)
{
    memset(longer, 0xAA, LONGER);
    memcpy(longer, filled, IMAGE);
    uint8_t *page = longer + NEXT_PAGE;
    memset(page, 0, 512);
    put(page, 8, 0x804F);
    page[488] = 1;
    page[489] = 15;
    page[490] = 32;
    seal_page(longer, NEXT_PAGE, 0x81, NEXT_NUMBER, WIDTH);
    seal_block(longer, NEXT_BLOCK, NEXT_SIZE, NEXT_ROOM, 0x34, WIDTH);
}

/* Puts 32-bit numbers one behind the other. */
static void put_all(uint8_t *at, const uint32_t *numbers, size_t count)
{
    for (size_t i = 0; i < count; i++) put(at + 4 * i, 4, numbers[i]);
}

static void seal_old(void) { put(old + 4, 4, rkw_checksum(old + 8, 471)); }

static void make_old_header(void)
{
    static const uint32_t roots[] = {10, OLD_NODES, 11, OLD_BLOCKS};
    memcpy(old, "!BDN\0\0\0\0SM\016", 12);
    put(old + OLD_END_AT, 4, OLD_END);
    put_all(old + OLD_ROOTS, roots, 4);
    old[OLD_SENTINEL] = 0x80;
    old[OLD_METHOD] = 1;
    seal_old();
}

/* Nodes 0x21 and 0x122, with data block, subnode block and parent; blocks 4 and 6, with offset, and size and
 * references in one number. */
static void make_old(void)
{
    static const uint32_t nodes[] = {0x21, 4, 0, 0, 0x122, 6, 0x16, 0x122};
    static const uint32_t blocks[] = {4, OLD_BLOCK, 3 << 16 | OLD_SIZE, 6, OLD_TREE, 2 << 16 | 16};
    static const uint32_t tree[] = {2 << 16 | 0x0101, 2 * OLD_SIZE, 4, 4};
    static const uint8_t node_counts[] = {2, 31, 16, 0}, block_counts[] = {2, 41, 12, 0};
    make_old_header();
    put_all(old + OLD_NODES, nodes, 8);
    memcpy(old + OLD_NODES + 496, node_counts, 4);
    seal_page(old, OLD_NODES, 0x81, 10, OLD_WIDTH);
    put_all(old + OLD_BLOCKS, blocks, 6);
    memcpy(old + OLD_BLOCKS + 496, block_counts, 4);
    seal_page(old, OLD_BLOCKS, 0x80, 11, OLD_WIDTH);
    put_all(old + OLD_TREE, tree, 4);
    seal_block(old, OLD_TREE, 16, OLD_ROOM, 6, OLD_WIDTH);
    for (unsigned i = 0; i < OLD_SIZE; i++) old[OLD_BLOCK + i] = (uint8_t)i;
    rkw_encode(1, 4, old + OLD_BLOCK, OLD_SIZE);
    seal_block(old, OLD_BLOCK, OLD_SIZE, OLD_ROOM, 4, OLD_WIDTH);
}

static void call_header(const uint8_t *in, size_t length)
{
    struct rkw_header_answer a = rkw_header(in, length);
    refusal("rkw_header", a.refusal, a.place, a.more);
    field("method", a.method);
    field("nodes_number", a.nodes_number);
    field("nodes_offset", a.nodes_offset);
    field("blocks_number", a.blocks_number);
    field("blocks_offset", a.blocks_offset);
    field("end", a.end);
    field("edition", a.edition);
    printf("\n");
}

static void node(const char *call, struct rkw_node_answer a)
{
    refusal(call, a.refusal, a.place, a.more);
    field("found", a.found);
    field("pages", a.pages);
    field("node", a.node);
    field("data", a.data);
    field("subnode", a.subnode);
    field("parent", a.parent);
    printf("\n");
}

/* Looks up the first `count` numbers with an area of `words` words, and prints up to which word the
 * area changed, and the places of an answered list. */
static void call_find_nodes(const uint8_t *in, size_t count, size_t words)
{
    memset(places, 0xAA, sizeof places);
    struct rkw_answer a = rkw_find_nodes(in, IMAGE, numbers, count, places, words);
    size_t written = AREA;
    while (written && places[written - 1] == UINT64_C(0xAAAAAAAAAAAAAAAA)) written--;
    refusal("rkw_find_nodes", a.refusal, a.place, a.more);
    field("written", written);
    printf("\n");
    for (size_t i = 0; !a.refusal && i < count; i++) {
        struct rkw_node_answer place;
        memcpy(&place, places + WORDS * i, sizeof place);
        node("place", place);
    }
}

static void block(const char *call, struct rkw_block_answer a)
{
    refusal(call, a.refusal, a.place, a.more);
    field("found", a.found);
    field("pages", a.pages);
    field("block", a.block);
    field("offset", a.offset);
    field("size", a.size);
    field("references", a.references);
    printf("\n");
}

static void call_test_block(const uint8_t *in, size_t length, uint64_t number)
{
    struct rkw_size_answer a = rkw_test_block(in, length, number);
    refusal("rkw_test_block", a.refusal, a.place, a.more);
    field("size", a.size);
    printf("\n");
}

static void call_read_block(const uint8_t *in, size_t length, size_t room)
{
    memset(out, 0xAA, sizeof out);
    struct rkw_length_answer a = rkw_read_block(in, length, BLOCK, out, room);
    refusal("rkw_read_block", a.refusal, a.place, a.more);
    field("length", a.length);
    bytes("out", out, sizeof out);
}

static void call_read_node(const uint8_t *in, size_t length, uint64_t node, size_t room)
{
    memset(out, 0xAA, sizeof out);
    struct rkw_data_answer a = rkw_read_node(in, length, node, out, room);
    refusal("rkw_read_node", a.refusal, a.place, a.more);
    field("found", a.found);
    field("length", a.length);
    bytes("out", out, sizeof out);
}

static void call_coding(uint8_t method)
{
    uint8_t b[16];
    for (unsigned i = 0; i < sizeof b; i++) b[i] = (uint8_t)i;
    struct rkw_answer a = rkw_encode(method, 0x1518, b, sizeof b);
    refusal("rkw_encode", a.refusal, a.place, a.more);
    bytes("bytes", b, sizeof b);
    a = rkw_decode(method, 0x1518, b, sizeof b);
    refusal("rkw_decode", a.refusal, a.place, a.more);
    bytes("bytes", b, sizeof b);
}

static void call_item(uint32_t item)
{
    struct rkw_item_answer a = rkw_item(heap, SIZE, item);
    refusal("rkw_item", a.refusal, a.place, a.more);
    field("start", a.start);
    field("length", a.length);
    bytes("bytes", heap + a.start, a.length);
}

static void call_find_property(uint16_t id)
{
    struct rkw_property_answer a = rkw_find_property(heap, SIZE, id);
    refusal("rkw_find_property", a.refusal, a.place, a.more);
    field("found", a.found);
    field("type", a.type);
    field("kind", a.kind);
    field("value", a.value);
    printf("\n");
}

static void call_table(size_t length)
{
    struct rkw_table_answer a = rkw_table(table, length);
    refusal("rkw_table", a.refusal, a.place, a.more);
    field("columns", a.columns);
    field("row_size", a.row_size);
    field("existence", a.existence);
    field("rows_kind", a.rows_kind);
    field("rows_value", a.rows_value);
    printf("\n");
}

static void call_column(uint32_t index)
{
    struct rkw_column_answer a = rkw_column(table, TABLE, index);
    refusal("rkw_column", a.refusal, a.place, a.more);
    field("found", a.found);
    field("tag", a.tag);
    field("offset", a.offset);
    field("width", a.width);
    field("bit", a.bit);
    printf("\n");
}

static void call_count_rows(size_t rows_length)
{
    struct rkw_count_answer a = rkw_count_rows(table, TABLE, rows, rows_length);
    refusal("rkw_count_rows", a.refusal, a.place, a.more);
    field("rows", a.rows);
    printf("\n");
}

static void cell(const char *call, struct rkw_cell_answer a)
{
    refusal(call, a.refusal, a.place, a.more);
    field("found", a.found);
    field("kind", a.kind);
    field("value", a.value);
    printf("\n");
}

static void call_cell(size_t rows_length, uint32_t row, uint32_t tag)
{
    cell("rkw_cell", rkw_cell(table, TABLE, rows, rows_length, row, tag));
}

static void row(const char *call, struct rkw_row_answer a)
{
    refusal(call, a.refusal, a.place, a.more);
    field("found", a.found);
    field("row", a.row);
    printf("\n");
}

/* Reads a row with an area of `words` words, and prints up to which word the area changed, and the
 * places of the cells. */
static void call_read_row(size_t rows_length, uint32_t row, size_t words)
{
    memset(cells, 0xAA, sizeof cells);
    struct rkw_cells_answer a = rkw_read_row(table, TABLE, rows, rows_length, row, cells, words);
    size_t written = sizeof cells / sizeof cells[0];
    while (written && cells[written - 1] == UINT64_C(0xAAAAAAAAAAAAAAAA)) written--;
    refusal("rkw_read_row", a.refusal, a.place, a.more);
    field("found", a.found);
    field("cells", a.cells);
    field("written", written);
    printf("\n");
    for (size_t i = 0; i < a.cells; i++) {
        struct rkw_cell_answer place;
        memcpy(&place, cells + CELL * i, sizeof place);
        cell("place", place);
    }
}

/* Calls each of the table calls with another byte at that place of the table. */
static void call_changed(size_t place, uint8_t byte)
{
    uint8_t before = table[place];
    table[place] = byte;
    call_table(TABLE);
    call_column(0);
    call_count_rows(0);
    call_cell(0, 0, ID);
    row("rkw_find_row", rkw_find_row(table, TABLE, 0x8082));
    call_read_row(0, 0, CELL * COLUMNS);
    table[place] = before;
}

/* A copy with another key in an entry of the node tree's first leaf, which is sealed again. */
static void call_keyed(unsigned entry, uint64_t key)
{
    memcpy(keyed, image, IMAGE);
    put(keyed + LEAF + 32 * entry, 8, key);
    put(keyed + LEAF + 500, 4, rkw_checksum(keyed + LEAF, 496));
    verdict("rkw_check_nodes", rkw_check_nodes(keyed, IMAGE));
    node("rkw_find_node", rkw_find_node(keyed, IMAGE, 0x122));
}

/* The longer image, or so much of it, with that end-of-file number and a header sealed again. */
static void call_end(size_t length, uint64_t number)
{
    put(longer + END, 8, number);
    put(longer + 4, 4, rkw_checksum(longer + 8, 471));
    put(longer + 524, 4, rkw_checksum(longer + 8, 516));
    call_header(longer, length);
    node("rkw_find_node", rkw_find_node(longer, length, 0x804F));
    call_test_block(longer, length, 0x34);
}

/* What every call on an image answers, and what it leaves in a buffer, one behind the other. */
struct told {
    uint8_t bytes[1 << 13];
    size_t length;
};

static void keep(struct told *told, const void *from, size_t length)
{
    memcpy(told->bytes + told->length, from, length);
    told->length += length;
}

static void keep_number(struct told *told, const uint8_t *in, size_t length, uint64_t number)
{
    struct rkw_node_answer nodes[] = {rkw_find_node(in, length, number), rkw_next_node(in, length, number)};
    struct rkw_block_answer blocks[] = {rkw_find_block(in, length, number), rkw_next_block(in, length, number)};
    struct rkw_size_answer size = rkw_test_block(in, length, number);
    keep(told, nodes, sizeof nodes);
    keep(told, blocks, sizeof blocks);
    keep(told, &size, sizeof size);
    memset(out, 0xAA, sizeof out);
    struct rkw_length_answer block = rkw_read_block(in, length, number, out, sizeof out);
    keep(told, &block, sizeof block);
    keep(told, out, sizeof out);
    memset(out, 0xAA, sizeof out);
    struct rkw_data_answer data = rkw_read_node(in, length, number, out, sizeof out);
    keep(told, &data, sizeof data);
    keep(told, out, sizeof out);
}

static void keep_all(struct told *told, const uint8_t *in, size_t length)
{
    static const uint64_t asked[] = {0, BLOCK, 0x34, 0x61, 0x122, 0x60D, 0x804F, UINT64_MAX};
    told->length = 0;
    struct rkw_header_answer header = rkw_header(in, length);
    struct rkw_answer checks[] = {rkw_check_nodes(in, length), rkw_check_blocks(in, length)};
    keep(told, &header, sizeof header);
    keep(told, checks, sizeof checks);
    memset(places, 0xAA, sizeof places);
    struct rkw_answer list = rkw_find_nodes(in, length, numbers, LISTED, places, AREA);
    keep(told, &list, sizeof list);
    keep(told, places, WORDS * (LISTED + 1) * sizeof places[0]);
    for (size_t i = 0; i < sizeof asked / sizeof asked[0]; i++) keep_number(told, in, length, asked[i]);
}

/* Whether the first `length` bytes of the longer image are answered in every call as the sample is. */
static void call_hanging(size_t length)
{
    static struct told one, other;
    keep_all(&one, filled, IMAGE);
    keep_all(&other, longer, length);
    int same = one.length == other.length && !memcmp(one.bytes, other.bytes, one.length);
    printf("%zu bytes behind the sample: %s\n", length - IMAGE, same ? "all answers the same" : "other answers");
}

static int load(const char *name)
{
    FILE *file = fopen(name, "rb");
    if (!file) return 0;
    size_t n = fread(image, 1, sizeof image, file);
    fclose(file);
    return n == IMAGE;
}

static void call_trees(void)
{
    call_header(image, IMAGE);
    verdict("rkw_check_nodes", rkw_check_nodes(image, IMAGE));
    verdict("rkw_check_blocks", rkw_check_blocks(image, IMAGE));
    node("rkw_find_node", rkw_find_node(image, IMAGE, 0x122));
    node("rkw_find_node", rkw_find_node(image, IMAGE, 0x20));
    node("rkw_find_node", rkw_find_node(image, IMAGE, 0x804F));
    block("rkw_find_block", rkw_find_block(image, IMAGE, 0x40));
    block("rkw_find_block", rkw_find_block(image, IMAGE, 0x41));
    block("rkw_find_block", rkw_find_block(image, IMAGE, 3));
    block("rkw_find_block", rkw_find_block(image, IMAGE, 0x74));
    node("rkw_next_node", rkw_next_node(image, IMAGE, 0x122));
    node("rkw_next_node", rkw_next_node(image, IMAGE, 0x123));
    node("rkw_next_node", rkw_next_node(image, IMAGE, 0x62C));
    block("rkw_next_block", rkw_next_block(image, IMAGE, 0));
    block("rkw_next_block", rkw_next_block(image, IMAGE, 0x39));
    block("rkw_next_block", rkw_next_block(image, IMAGE, 0x41));
    block("rkw_next_block", rkw_next_block(image, IMAGE, 0x71));
}

static void call_lists(void)
{
    call_find_nodes(image, LISTED, WORDS * LISTED + 5);
    call_find_nodes(image, LISTED, WORDS * LISTED - 1);
    call_find_nodes(image, MOST + 1, AREA);
    call_find_nodes(image, MOST + 1, 0);
    call_find_nodes(image, 0, AREA);
    memcpy(keyed, image, IMAGE);
    keyed[VERSION] = 16;
    call_find_nodes(keyed, LISTED, WORDS * LISTED);
}

/* The leaf's 14 keys run from 0x21 to 0x62B, and its range from 0x21 to below 0x64C. */
static void call_keys(void)
{
    call_keyed(3, 0x122);
    call_keyed(1, 0x20);
    call_keyed(0, 0x20);
    call_keyed(13, 0x64C);
    call_keyed(13, 0x64B);
}

static void call_blocks(void)
{
    call_test_block(image, IMAGE, BLOCK);
    call_test_block(filled, IMAGE, BLOCK);
    call_test_block(filled, IMAGE, BLOCK + 1);
    call_read_block(filled, IMAGE, sizeof out);
    call_read_block(filled, IMAGE, SIZE - 1);
    call_read_node(filled, IMAGE, 0x60D, sizeof out);
    call_read_node(filled, IMAGE, 0x60D, 0);
    call_read_node(filled, IMAGE, 0x1E1, 0);
    call_read_node(filled, IMAGE, 0x20, 0);
    call_read_node(filled, IMAGE, 0x60E, sizeof out);
    call_coding(2);
    call_coding(3);
}

static void call_old_trees(void)
{
    call_header(old, OLD_END);
    verdict("rkw_check_nodes", rkw_check_nodes(old, OLD_END));
    verdict("rkw_check_blocks", rkw_check_blocks(old, OLD_END));
    node("rkw_find_node", rkw_find_node(old, OLD_END, 0x122 | UINT64_C(1) << 32));
    node("rkw_find_node", rkw_find_node(old, OLD_END, 0x20));
    node("rkw_next_node", rkw_next_node(old, OLD_END, 0x22));
    block("rkw_find_block", rkw_find_block(old, OLD_END, 5));
    block("rkw_find_block", rkw_find_block(old, OLD_END, 4 | UINT64_C(1) << 32));
    block("rkw_next_block", rkw_next_block(old, OLD_END, 5));
    block("rkw_next_block", rkw_next_block(old, OLD_END, UINT64_C(1) << 32));
    call_test_block(old, OLD_END, 4);
    call_test_block(old, OLD_END, 4 | UINT64_C(1) << 32);
    call_read_block(old, OLD_END, sizeof out);
    call_read_node(old, OLD_END, 0x122, sizeof out);
    call_read_node(old, OLD_END, 0x122, 2 * OLD_SIZE - 1);
}

/* Calls with another byte at that place of the 32-bit image's header, which is sealed again. */
static void call_old_byte(size_t place, uint8_t byte)
{
    uint8_t before = old[place];
    old[place] = byte;
    seal_old();
    call_header(old, OLD_END);
    call_test_block(old, OLD_END, 4);
    old[place] = before;
    seal_old();
}

/* Versions 15, 16 and 23; then the bytes of the header that stand elsewhere than in a 64-bit file. The low
 * byte of the end-of-file number is 0x80. */
static void call_old(void)
{
    call_old_trees();
    call_old_byte(VERSION, 15);
    call_old_byte(VERSION, 16);
    call_old_byte(VERSION, 23);
    call_old_byte(OLD_SENTINEL, 0);
    call_old_byte(OLD_METHOD, 3);
    call_old_byte(OLD_END_AT, 0x81);
    call_old_byte(OLD_END_AT, 0x7F);
    old[OLD_ROOTS] = 12;
    call_header(old, OLD_END);
    seal_old();
    node("rkw_find_node", rkw_find_node(old, OLD_END, 0x122));
}

/* The page ends at 28672, the block at 28864; both lie in the longer image, and in the file where its
 * header says so. */
static void call_ends(void)
{
    call_end(LONGER, LONGER);
    call_hanging(LONGER);
    call_end(LONGER, LONGER - 1);
    call_end(LONGER, NEXT_BLOCK);
    call_end(LONGER, NEXT_BLOCK - 1);
    call_end(IMAGE, IMAGE - 1);
    call_end(LONGER, 0);
    call_end(LONGER, LONGER + 1);
    call_end(LONGER - 1, LONGER);
    call_end(IMAGE, UINT64_MAX);
    longer[METHOD] = 3;
    call_end(IMAGE, UINT64_MAX);
    longer[METHOD] = 0;
    call_end(LONGER, IMAGE);
    call_hanging(IMAGE);
    call_hanging(IMAGE + 1);
    call_hanging(LONGER - 1);
    call_hanging(LONGER);
}

static void call_heap(void)
{
    verdict("rkw_test_heap", rkw_test_heap(heap, SIZE));
    verdict("rkw_test_heap", rkw_test_heap(heap, 0));
    verdict("rkw_test_heap", rkw_test_heap(largest, LARGEST));
    verdict("rkw_test_heap", rkw_test_heap(largest, sizeof largest));
    verdict("rkw_test_item", rkw_test_item(heap, SIZE, ITEM));
    verdict("rkw_test_item", rkw_test_item(heap, SIZE, 0));
    call_item(ITEM);
    call_item(0);
    call_find_property(0x0E38);
    call_find_property(0x3001);
    call_find_property(0x3002);
}

static void call_tables(void)
{
    call_table(TABLE);
    call_table(0);
    call_column(0);
    call_column(COLUMNS - 1);
    call_column(COLUMNS);
    call_count_rows(0);
    for (uint32_t row = 0; row <= 4; row++) call_cell(0, row, NAME);
    call_cell(0, 0, TIME);
    call_cell(0, 1, TIME);
    call_cell(0, 0, FLAG);
    call_cell(0, 0, ID + 1);
    row("rkw_find_row", rkw_find_row(table, TABLE, 0x8062));
    row("rkw_find_row", rkw_find_row(table, TABLE, 0x8063));
    row("rkw_find_row32", rkw_find_row32(table, TABLE, 0x8062));
    call_read_row(0, 1, sizeof cells / sizeof cells[0]);
    call_read_row(0, 3, CELL * COLUMNS);
    call_read_row(0, 0, CELL * COLUMNS - 1);
    call_read_row(0, 4, 0);
}

/* Each rule once that a call can break: a wrong client kind, user root, column, row index item, key size
 * of the row index, and rows' item. */
static void call_wrong_tables(void)
{
    call_changed(CLIENT_KIND, 0xBC);
    call_changed(USER_ROOT, 0);
    call_changed(FIRST_BIT, 2);
    call_changed(INDEX_ITEM, 0);
    call_changed(KEY_SIZE, 2);
    call_changed(ROWS, 0xC0);
}

/* The table with the row index of a 32-bit file in item 0x60: an id and two bytes for the number of its row,
 * three times. */
static void call_old_table(void)
{
    static const uint8_t index[] = {
        0x62, 0x80, 0, 0, 2, 0, 0x82, 0x80, 0, 0, 0xFF, 0xFF, 0xA2, 0x80, 0, 0, 1, 0,
    };
    table[ENTRY_SIZE] = 2;
    memcpy(table + INDEX, index, sizeof index);
    table[INDEX_END] = INDEX + sizeof index;
    row("rkw_find_row32", rkw_find_row32(table, TABLE, 0x8062));
    row("rkw_find_row32", rkw_find_row32(table, TABLE, 0x8082));
    row("rkw_find_row32", rkw_find_row32(table, TABLE, 0x8063));
    row("rkw_find_row32", rkw_find_row32(table, TABLE - 1, 0x8062));
    row("rkw_find_row", rkw_find_row(table, TABLE, 0x8062));
}

/* The table without rows, and with its rows in a subnode, of which two and a half are given. */
static void call_rows(void)
{
    memcpy(rows, table + 106, 4 * ROW + 2);
    table[ROWS] = 0;
    call_table(TABLE);
    call_count_rows(sizeof rows);
    call_cell(sizeof rows, 0, ID);
    call_read_row(sizeof rows, 0, 0);
    table[ROWS] = 0x5F;
    call_table(TABLE);
    call_count_rows(2 * ROW + 9);
    call_count_rows(LARGEST);
    call_count_rows(sizeof rows);
    call_cell(2 * ROW + 9, 1, ID);
    call_cell(2 * ROW + 9, 2, ID);
    call_cell(sizeof rows, 0, ID);
    call_read_row(2 * ROW + 9, 0, CELL * COLUMNS);
    call_read_row(sizeof rows, 0, 0);
    table[ROWS] = 0x80;
}

int main(int count, char **words)
{
    if (count != 2 || !load(words[1])) {
        fprintf(stderr, "usage: calls samples/mini.img\n");
        return 2;
    }
    make_block();
    make_longer();
    make_old();
    call_trees();
    call_lists();
    call_keys();
    call_blocks();
    call_ends();
    call_old();
    call_heap();
    call_tables();
    call_wrong_tables();
    call_rows();
    call_old_table();
    printf("rkw_checksum: %" PRIu64 "\n", rkw_checksum((const uint8_t *)"\x80", 1));
    printf("rkw_signature: %" PRIu64 "\n", rkw_signature(0x908A00, 0x1518));
    printf("rkw_room: %" PRIu64 "\n", rkw_room(4092));
    printf("rkw_room32: %" PRIu64 " %" PRIu64 "\n", rkw_room32(OLD_SIZE), rkw_room32(OLD_SIZE + 1));
    printf("rkw_room32: %" PRIu64 "\n", rkw_room32(LARGEST));
    return 0;
}

/* The two calls of rekwonuda.h that are not proved. */
#include "rekwonuda.h"

uint64_t rkw_version(void)
{
    return RKW_VERSION;
}

static const char *words_in_header(uint64_t refusal, uint64_t place)
{
    switch (refusal) {
    case RKW_REFUSED_IMAGE_LENGTH:
        return place == 0 ? "the image is under 564 or over 1,073,741,824 bytes long"
                          : "the image is shorter than its header says, as of a file that was cut short";
    case RKW_REFUSED_MAGIC:
        return place == 0 ? "the file does not begin with the mark of a .pst file"
                          : "the second mark of a .pst file is not there";
    case RKW_REFUSED_VERSION:
        return "the version is none of 14, 15 and 23";
    case RKW_REFUSED_HEADER_CHECKSUM:
        return place == 4 ? "the first checksum of the header differs"
                          : "the second checksum of the header differs";
    default:
        break;
    }
    switch (place) {
    case 512:
    case 460:
        return "the header's sentinel byte is wrong";
    case 513:
    case 461:
        return "the header names an encoding method that there is not";
    default:
        return "the encoding method is over 2";
    }
}

static const char *words_in_tree(uint64_t refusal)
{
    switch (refusal) {
    case RKW_REFUSED_PAGE_OFFSET:
        return "a reference names a place where no page can stand";
    case RKW_REFUSED_PAGE_KIND:
        return "what stands there is not a page of this tree";
    case RKW_REFUSED_PAGE_NUMBER:
        return "the number or signature of a page is wrong: another page stands there";
    case RKW_REFUSED_PAGE_CHECKSUM:
        return "the checksum of a page differs: its bytes are not those that were written";
    case RKW_REFUSED_PAGE_COUNTS:
        return "the counts or the level of a page are wrong";
    case RKW_REFUSED_KEY_ORDER:
        return "an entry's key is not above the one before it, as in a page that was shuffled or "
               "overwritten";
    case RKW_REFUSED_KEY_RANGE:
        return "a key lies outside its page's range, as in a stale page: one of another place or time";
    default:
        return "a fault without a name";
    }
}

static const char *words_in_block(uint64_t refusal)
{
    switch (refusal) {
    case RKW_REFUSED_BLOCK_UNLISTED:
        return "a block that is referred to is not in the block tree";
    case RKW_REFUSED_BLOCK_OFFSET:
        return "a block is listed with an offset or size that no block can have";
    case RKW_REFUSED_BLOCK_TRAILER:
        return "the trailer of a block is wrong: something else stands there";
    case RKW_REFUSED_BLOCK_CHECKSUM:
        return "the checksum of a block differs: its bytes are not those that were written";
    case RKW_REFUSED_DATA_TREE:
        return "the shape of a data tree is wrong";
    case RKW_REFUSED_SHORT_BUFFER:
        return "the buffer is shorter than the data";
    case RKW_REFUSED_HEAP_SHAPE:
        return "the shape of a heap is wrong";
    case RKW_REFUSED_HEAP_ITEM:
        return "a number names no item of the heap";
    case RKW_REFUSED_PROPERTY_TREE:
        return "the shape of a property tree is wrong";
    case RKW_REFUSED_TABLE_SHAPE:
        return "the shape of a table is wrong";
    default:
        return words_in_tree(refusal);
    }
}

const char *rkw_refusal_words(uint64_t refusal, uint64_t place)
{
    if (refusal == RKW_ANSWERED)
        return "the call is answered";
    return refusal <= RKW_REFUSED_ENCODING ? words_in_header(refusal, place) : words_in_block(refusal);
}

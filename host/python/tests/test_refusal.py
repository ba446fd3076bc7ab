"""What a refusal is and says."""

import copy
import pickle

import pytest

from rekwonuda import Fault, Image, Refusal

SAID = {
    (9, 0x6A00, 0): "refusal 9: the checksum of a page differs: its bytes are not those that were "
    "written; at 0x6a00 (27136)",
    (17, 0, 108): "refusal 17: the buffer is shorter than the data; 108 bytes are needed",
    (2, 0, 0): "refusal 2: the file does not begin with the mark of a .pst file; at 0x0 (0)",
    (1, 0, 0): "refusal 1: the image is under 564 or over 1,073,741,824 bytes long",
    (1, 184, 0): "refusal 1: the image is shorter than its header says, as of a file that was cut "
    "short; at 0xb8 (184)",
    (3, 10, 0): "refusal 3: the version is none of 14, 15 and 23; at 0xa (10)",
    (5, 0, 0): "refusal 5: the encoding method is over 2",
    (23, 0, 0): "refusal 23: the shape of a table is wrong",
    (21, 0x4E00, 0): "refusal 21: a key lies outside its page's range, as in a stale page: one of "
    "another place or time; entry 0 (counted from 0) of the page at 0x4e00 (19968)",
    (11, 0x4E00, 3): "refusal 11: an entry's key is not above the one before it, as in a page that was "
    "shuffled or overwritten; entry 3 (counted from 0) of the page at 0x4e00 (19968)",
    (99, 1, 0): "refusal 99: a fault without a name; at 0x1 (1)",
}


@pytest.mark.parametrize("numbers", SAID)
def test_a_refusal_says_what_is_wrong_and_where(numbers: tuple[int, int, int]) -> None:
    assert str(Refusal(*numbers)) == SAID[numbers]


def test_a_refusal_that_is_raised_carries_its_numbers() -> None:
    with pytest.raises(Refusal) as raised:
        Image(b"").header()
    refusal = raised.value
    assert (refusal.number, refusal.place, refusal.more) == (1, 0, 0)
    assert refusal.fault is Fault.IMAGE_LENGTH
    assert refusal.words == "the image is under 564 or over 1,073,741,824 bytes long"


def test_faults_have_names_and_words() -> None:
    for fault in Fault:
        refusal = Refusal(fault)
        assert refusal.fault is fault
        assert refusal.words != Refusal(99).words
    for number in (0, 22, 24, 99):
        assert Refusal(number).fault is None


def test_refusals_are_equal_where_their_numbers_are() -> None:
    refusal = Refusal(11, 512, 3)
    for same in (Refusal(11, 512, 3), copy.copy(refusal), pickle.loads(pickle.dumps(refusal))):
        assert same == refusal
        assert hash(same) == hash(refusal)
    for other in (Refusal(21, 512, 3), Refusal(11, 513, 3), Refusal(11, 512, 4), (11, 512, 3)):
        assert other != refusal

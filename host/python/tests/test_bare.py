"""Checksums, signatures, encodings and editions."""

import zlib

import pytest
from copies import signature_of, sum_of

from rekwonuda import LARGEST_BLOCK, Edition, Method, checksum, signature

TEXT = b"Leave in August"


def test_checksums_are_those_of_the_rule() -> None:
    assert checksum(b"") == 0
    assert checksum(b"\x80") == 0xEDB8_8320
    for data in (TEXT, bytes(range(256)) * 33, zlib.compress(TEXT)):
        assert checksum(bytearray(data)) == sum_of(data)


def test_signatures_are_those_of_the_rule() -> None:
    assert signature(0x0090_8A00, 0x1518) == 0x9F88
    for offset, number in ((0, 0), (0x4400, 0x205), ((1 << 64) - 1, 1 << 63)):
        assert signature(offset, number) == signature_of(offset, number)


@pytest.mark.parametrize("method", Method)
def test_what_is_encoded_is_decoded_again(method: Method) -> None:
    encoded = method.encode(0x1518, TEXT)
    assert (encoded == TEXT) == (method is Method.NONE)
    assert method.decode(0x1518, bytearray(encoded)) == TEXT
    assert method.encode(0x1518, b"") == b""


def test_an_encoding_is_that_of_the_rule() -> None:
    assert Method.CYCLIC.encode(0x1518, bytes(range(4))).hex() == "3798ae32"


def test_editions_have_their_bounds() -> None:
    small, large = Edition.BITS32, Edition.BITS64
    assert [small.width, large.width] == [4, 8]
    assert [small.largest_block, large.largest_block] == [8_180, 8_176]
    assert max(small.largest_block, large.largest_block) == LARGEST_BLOCK
    assert [small.most_listed, large.most_listed] == [2_043, 1_021]
    assert [small.longest_data, large.longest_data] == [16_711_740, 8_347_696]
    assert [small.room(52), small.room(53), large.room(48), large.room(49)] == [64, 128, 64, 128]


def test_editions_are_told_by_the_version() -> None:
    told = {version: Edition.of_version(version) for version in (13, 14, 15, 16, 23, 24)}
    named = {14: Edition.BITS32, 15: Edition.BITS32, 23: Edition.BITS64}
    assert told == {version: named.get(version) for version in told}

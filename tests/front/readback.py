"""Report records read back: each way in which 32 bytes are no report, and the words for it."""

import struct

from harness import ROOT, Tally, called

GOOD = (ROOT / "examples" / "report-7.record").read_bytes()
# Where a value is put, how it is packed, the value, and what is said of it.
WRONG = (
    (0, "<I", 0, "request number is 0, range 1 to 4,294,967,295"),
    (4, "<H", 10003, "job factor is 1.0003, range the rounded mean of the five"),
    (6, "<B", 0, "first run used is 0, range 1 to the fifth from the last of 6 runs"),
    (6, "<B", 3, "first run used is 3, range 1 to the fifth from the last of 6 runs"),
    (7, "<B", 4, "runs in job are 4, range 5 to 20"),
    (7, "<B", 21, "runs in job are 21, range 5 to 20"),
    (8, "<H", 7999, "factor 1 of the five is 0.7999, range 0.8000 to 1.2000"),
    (16, "<H", 12001, "factor 5 of the five is 1.2001, range 0.8000 to 1.2000"),
    (18, "<B", 1, "bytes 18 to 31 are 01 00 00 00 00 00 00 00 00 00 00 00 00 00, range 00"),
    (31, "<B", 255, "bytes 18 to 31 are 00 00 00 00 00 00 00 00 00 00 00 00 00 ff, range 00"),
)


def test():
    tally = Tally("records read back")
    status, out, _ = called("read", "--hex", GOOD.hex())
    tally.same(status, 0, "a report")
    for number, factor in enumerate(("1.0000", "1.0001", "1.0002", "1.0003", "1.0005"), 2):
        tally.holds(out, f"Run factor, run {number}         {factor}\n", "a report")
    for place, packing, value, words in WRONG:
        record = bytearray(GOOD)
        struct.pack_into(packing, record, place, value)
        found = called("read", "--hex", record.hex(" "))
        tally.same(found, (1, "", f"--hex: refused 15: not a report\n   {words}\n"), words)
    for size in (0, 31, 33, 64):
        told = f"record has {size if size <= 32 else 'more than 32'} bytes, range 32"
        found = called("read", "--hex", bytes(size).hex())
        tally.same(found, (1, "", f"--hex: refused 14: report buffer not 32 bytes\n   {told}\n"), told)
    return tally

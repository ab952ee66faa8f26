# not_started.py CAPTURE: prints how many have not started, by the replies of a capture. A desk of target/librei2.so takes them.
import ctypes as c, pathlib, sys

if len(sys.argv) != 2:
    sys.exit("usage: not_started.py CAPTURE")

class Desk(c.Structure):  # rei2_desk
    _fields_ = [("bits", c.c_uint64), ("count", c.c_uint32)]

class DeskAnswer(c.Structure):  # rei2_desk_answer
    _fields_ = [("desk", Desk), ("refusal", c.c_uint32), ("offset", c.c_uint32), ("spoiled", c.c_uint32), ("seat", c.c_uint32)]

class Counts(c.Structure):  # rei2_counts
    _fields_ = [("opened", c.c_size_t), ("collected", c.c_size_t), ("dynamic", c.c_size_t), ("refused", c.c_size_t)]

class Captured(c.Structure):  # rei2_captured_answer
    _fields_ = [("desk", Desk), ("refusal", c.c_uint32), ("counts", Counts)]

class Looked(c.Structure):  # rei2_looked_answer
    _fields_ = [("refusal", c.c_uint32), ("held", c.c_uint32)]

lib = c.CDLL(str(pathlib.Path(__file__).resolve().parents[2] / "target" / "librei2.so"))
lent, table = [c.c_void_p, c.c_size_t], [c.c_void_p]  # a slice is pointer and count, the tally only a pointer
lib.rei2_reset.argtypes, lib.rei2_reset.restype = lent + [Desk] + table, DeskAnswer
lib.rei2_capture.argtypes, lib.rei2_capture.restype = lent + [Desk] + lent + lent + table + lent, Captured
lib.rei2_look.argtypes, lib.rei2_look.restype = table + [c.c_uint8, c.c_uint8], Looked

capture = open(sys.argv[1], "rb").read()
seats, cells, marks = (c.c_uint32 * 5 * 16)(), (c.c_uint8 * 13056)(), (c.c_uint32 * 256)()  # a seat is five numbers
tally = (c.c_uint32 * 3 * 33)()  # a row for each letter, a number for each status
desk = lib.rei2_reset(seats, len(seats), Desk(), tally).desk
answer = lib.rei2_capture(seats, len(seats), desk, cells, len(cells), marks, len(marks), tally, capture, len(capture))
if answer.refusal:
    sys.exit(f"{sys.argv[1]}: refused with {answer.refusal}")
print(sum(lib.rei2_look(tally, ord("P"), ord(status)).held for status in "RE"), "not started")

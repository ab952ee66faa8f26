# list.py CAPTURE: prints the list of a capture. rei2_list in target/librei2.so makes it.
import ctypes as c, pathlib, sys

if len(sys.argv) != 2:
    sys.exit("usage: list.py CAPTURE")

class Listed(c.Structure):  # rei2_listed_answer
    _fields_ = [("refusal", c.c_uint32), ("size", c.c_size_t)]

call = c.CDLL(str(pathlib.Path(__file__).resolve().parents[2] / "target" / "librei2.so")).rei2_list
call.argtypes, call.restype = [c.c_void_p, c.c_size_t] * 4, Listed  # four slices: pointer and count
capture = open(sys.argv[1], "rb").read()
cells, marks, out = (c.c_uint8 * 13056)(), (c.c_uint32 * 256)(), (c.c_uint8 * 14687)()  # as rei2_limits says
answer = call(capture, len(capture), cells, len(cells), marks, len(marks), out, len(out))
if answer.refusal:
    sys.exit(f"{sys.argv[1]}: refused with {answer.refusal}")
sys.stdout.buffer.write(bytes(out)[:answer.size])

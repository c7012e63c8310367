# An example of calling the shared library: reads a site file, plans it, and prints the answer's number and the rows.
#
#     ./build
#     python3 docs/example.py samples/p1.site
import ctypes
import os
import sys


class Site(ctypes.Structure):
    _fields_ = [("cells", ctypes.c_uint16), ("slots", ctypes.c_uint16), ("channels", ctypes.c_uint16),
                ("loads", ctypes.c_uint16 * 32), ("reach", ctypes.c_uint32 * 32), ("blocked", ctypes.c_uint64 * 32),
                ("rule", ctypes.c_uint16)]


class Answer(ctypes.Structure):
    _fields_ = [("number", ctypes.c_uint64), ("value", ctypes.c_uint64 * 3)]


class Edited(ctypes.Structure):
    _fields_ = [("site", Site), ("answer", Answer)]


dist = os.path.join(os.path.dirname(os.path.abspath(__file__)), "..", "dist")
library = ctypes.CDLL(os.path.join(dist, "libduggfrask.so"))
library.dugg_read_site.argtypes = [ctypes.c_char_p, ctypes.c_size_t]
library.dugg_read_site.restype = Edited
library.dugg_plan.argtypes = [Site, ctypes.c_char_p, ctypes.c_size_t]
library.dugg_plan.restype = Answer

with open(sys.argv[1], "rb") as file:
    data = file.read()
read = library.dugg_read_site(data, len(data))
if read.answer.number:
    sys.exit("refused %d at byte %d" % (read.answer.number, read.answer.value[0]))
width = read.site.slots * read.site.channels
table = ctypes.create_string_buffer(read.site.cells * width)
plan = library.dugg_plan(read.site, table, len(table))
print("plan answers %d" % plan.number)
if plan.number:
    sys.exit("cell %d is short of %d" % (plan.value[0], plan.value[1]))
for i in range(read.site.cells):
    print("cell %d:" % (i + 1), "".join(str(byte) for byte in table.raw[i * width:(i + 1) * width]))

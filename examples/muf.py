"""Prints the circuit MUF, in MHz, of the circuit file on standard input.

Usage: muf.py LIBRARY < FILE, the library being the shared one that
oracle/exports.sh makes.
"""
import ctypes
import struct
import sys

CIRCUIT, POINTS, DECILES, STATE, IEDP, HOUR, ALLMUF = 657, 6, 81, 155, 151, 54, 4
library = ctypes.CDLL(sys.argv[1])


def call(name, *arguments):
    """A list goes as a pointer and a length; a refusal ends the program."""
    given = []
    for a in arguments:
        if isinstance(a, ctypes.Array):
            given += [a, ctypes.c_size_t(len(a))]
        else:
            given.append(ctypes.c_uint32(a))
    function = getattr(library, name)
    function.restype = ctypes.c_uint32
    number = function(*given)
    if number:
        sys.exit(f"refused {number}")


def words(values):
    values = list(values)
    return (ctypes.c_uint32 * len(values))(*values)


data = sys.stdin.buffer.read(4097)
circuit = words([0] * CIRCUIT)
call("port_read", (ctypes.c_uint8 * len(data)).from_buffer_copy(data), circuit)

# a point's fifteen words: fi 3, yi 3, hi 3, Es fs 3, hs, clat, clck
km = circuit[0]
points = [circuit[POINTS + 15 * k : POINTS + 15 * k + 15] for k in range(km)]
state = words([0] * STATE)
call("port_from_layers", words(w for p in points for w in p[:9]), state)
state[IEDP] = 0xFFFFFFFF if circuit[1] == 0 else 0  # shape 0: iedp -1
call("port_ionset", state)

hour = words([0] * HOUR)
call(
    "port_curmuf",
    state,
    words(w for p in points for w in p[9:13]),
    (ctypes.c_float * (CIRCUIT - DECILES)).from_buffer_copy(circuit, 4 * DECILES),
    words(p[13] for p in points),
    words(p[14] for p in points),
    words(circuit[2:6]),  # gcd, gcdkm, amind, ssn
    hour,
)
print("%.3f MHz" % struct.unpack("<f", struct.pack("<I", hour[ALLMUF])))

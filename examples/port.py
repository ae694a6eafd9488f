# The module port of CPython and MicroPython: port 0, as mpy has it built in.
import sys
def count():
    return 1
def get(port):
    line = sys.stdin.readline()
    return int(line) if line else None
def put(port, number):
    print("port", number, file=sys.stderr)

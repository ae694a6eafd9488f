# The modules of a board: a main module and what it imports.
module("main.py")
module("blink.py", opt=1)

# Modules over the image of the board's.
module("twice.py")

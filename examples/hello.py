print("hello")
print("from mpy")

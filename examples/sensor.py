import port

limit = 20


def read(number):
    value = port.get(number)
    if value is None:
        return 0
    return value


for number in range(port.count()):
    if read(number) > limit:
        print("high", number)

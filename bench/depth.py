def ways(steps):
    "In how many ways one goes so many steps by one, two or three at a time."
    if steps < 0:
        return 0
    if steps == 0:
        return 1
    return ways(steps - 1) + ways(steps - 2) + ways(steps - 3)


print(ways(19))

def add(a, b=1, c=2):
    return a + b + c


def run(n):
    s = 0
    for i in range(n):
        s = add(s % 1000, b=i % 5) + add(1)
    return s


print(run(400000))

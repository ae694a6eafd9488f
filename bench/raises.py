def check(n):
    if n % 3 == 0:
        raise ValueError(n)
    return n


def run(n):
    caught = 0
    s = 0
    for i in range(n):
        try:
            s = s + check(i) % 5
        except ValueError:
            caught = caught + 1
        finally:
            s = s % 100000
    return caught, s


print(run(150000))

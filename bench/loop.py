def loop(n):
    i = 0
    s = 0
    while i < n:
        if s > 1000000:
            s = s - 1000000
        s = s + i % 7
        i = i + 1
    return s


print(loop(3000000))

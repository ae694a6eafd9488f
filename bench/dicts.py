def count(n):
    d = {}
    i = 0
    while i < n:
        k = i % 600 * 791 % 1024
        d[k] = d.get(k, 0) + 1
        i = i + 1
    return len(d), d[0]


print(count(300000))

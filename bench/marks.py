def marked(n):
    "How many numbers below n have a square among their factors."
    flags = [False] * n
    for i in range(2, n):
        if i * i >= n:
            break
        for j in range(i * i, n, i * i):
            flags[j] = True
    count = 0
    for flag in flags:
        if flag:
            count = count + 1
    return count


print(marked(600000))

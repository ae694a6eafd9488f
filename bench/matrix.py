def product(a, b, n):
    out = []
    for i in range(n):
        row = [0] * n
        for j in range(n):
            s = 0
            for k in range(n):
                s = (s + a[i][k] * b[k][j]) % 10000
            row[j] = s
        out.append(row)
    return out


def square(n):
    rows = []
    for i in range(n):
        row = []
        for j in range(n):
            row.append((i * 31 + j * 17) % 100)
        rows.append(row)
    return rows


a = square(80)
print(product(a, a, 80)[79][79])

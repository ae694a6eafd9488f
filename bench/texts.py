def words(n):
    out = []
    for i in range(n):
        out.append(str(i) + "-" + str(i % 97 * 31))
    s = ",".join(out)
    return len(s), len(s.split(",")), s.find("7777-")


print(words(60000))

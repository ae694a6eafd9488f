for n in range(5):
    print(n, "high" if n > LIMIT else "low")

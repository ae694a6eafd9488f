def squares(n):
    out = []
    for i in range(n):
        try:
            if i == 2:
                raise ValueError("two")
            out.append(i * i)
        except ValueError as e:
            print("left out:", e.args[0])
        finally:
            print("seen", i)
    return out


print(squares(4))

def run(times):
    for turn in range(times):
        print("on" if turn % 2 == 0 else "off")

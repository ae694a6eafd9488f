NEED = {"basil": 2, "mint": 3}


def litres(name):
    return NEED[name]

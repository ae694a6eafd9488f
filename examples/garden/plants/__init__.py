NAMES = ("basil", "mint")

LIMIT = 3
NAMES = ("low", "high")

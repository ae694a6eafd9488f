import plants.water
from plants import NAMES

for name in NAMES:
    print(name, plants.water.litres(name))

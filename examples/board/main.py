import blink

blink.run(3)

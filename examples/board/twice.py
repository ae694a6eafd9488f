import blink

blink.run(2)

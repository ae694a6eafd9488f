import port
import settings


def read_all(n):
    "Reads up to n values of port 0, and tells it each turn."
    out = []
    for i in range(n):
        try:
            v = port.get(0)
            if v is None:
                break
            out.append(v)
        except OSError as e:
            print("fault", e.args[0])
        finally:
            port.put(0, i)
    return out

from sensor import read_all
import settings


def main():
    vals = read_all(5)
    assert len(vals) <= 5, "too many"
    for v in vals:
        print(settings.NAMES[1 if v > settings.LIMIT else 0], v)


if __name__ == "__main__":
    main()

"""Prints the listing of a tape on standard input, as tape_list does."""

import sys

from tape import listing


def main():
    octets = sys.stdin.buffer.read()
    text = "".join(line + "\n" for line in listing(octets))
    sys.stdout.buffer.write(text.encode("ascii"))


if __name__ == "__main__":
    main()

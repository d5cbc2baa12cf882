# Prints: a line of two numbers, many times.
import sys


def main():
    turns = 100000
    write = sys.stdout.write
    x = 1
    i = 0
    while i < turns:
        x = (x * 1664525 + 1013904223) & 0xFFFFFFFF
        write("%d %d\n" % (i, x))
        i += 1


main()

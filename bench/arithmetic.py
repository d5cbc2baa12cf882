# Arithmetic in local variables: numbers of a linear generator, mixed into one.


def main():
    turns = 400000
    x = 1
    total = 0
    i = 0
    while i < turns:
        x = (x * 1664525 + 1013904223) & 0xFFFFFFFF
        total = (total + ((x >> 16) ^ (x & 255))) & 0xFFFFFFFF
        if x % 3 == 0:
            total = (total * 5 + 1) & 0xFFFFFFFF
        i += 1
    print(total)


main()

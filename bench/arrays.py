# Loops over a global list and a global variable: a sieve for primes.
composite = [0] * 5000
found = 0


def main():
    global found
    turns = 20
    t = 0
    while t < turns:
        found = 0
        i = 2
        while i < 5000:
            composite[i] = 0
            i += 1
        i = 2
        while i < 5000:
            if composite[i] == 0:
                found += 1
                k = i + i
                while k < 5000:
                    composite[k] = 1
                    k += i
            i += 1
        t += 1
    print(found)


main()

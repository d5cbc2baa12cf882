# Calls of a function by itself: Fibonacci numbers, the slow way.


def fibonacci(n):
    if n < 2:
        return n
    return fibonacci(n - 1) + fibonacci(n - 2)


def main():
    turns = 200
    total = 0
    t = 0
    while t < turns:
        total += fibonacci(15)
        t += 1
    print(total)


main()

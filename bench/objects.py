# Objects: a list is made, turned round, added up and let go.


class Item:
    __slots__ = ("value", "next")


def main():
    turns = 200
    total = 0
    t = 0
    while t < turns:
        first = None
        i = 0
        while i < 300:
            one = Item()
            one.value = i
            one.next = first
            first = one
            i += 1
        turned = None
        while first:
            one = first.next
            first.next = turned
            turned = first
            first = one
        while turned:
            total = total * 3 % 1000003 + turned.value
            one = turned.next
            turned = one
        t += 1
    print(total)


main()

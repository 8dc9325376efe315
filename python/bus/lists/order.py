"""Transfers put in an order in which the first of each pair stands above the second, as a request needs it."""


class Circle(Exception):
    """Pairs that go round in a circle: the numbers, each before the next, the first again at the end."""

    def __init__(self, numbers):
        self.numbers = numbers
        super().__init__(numbers)


def in_order(count, pairs):
    """The numbers of so many transfers, the first of each pair before the second.

    Otherwise the order stays as it is: a transfer moves up only, to right above the first one that needs it.
    """
    needs = {number: sorted({a for a, b in pairs if b == number}) for number in range(count)}
    order, under_way = [], []

    def put(number):
        if number in under_way:
            raise Circle([number, *reversed(under_way[under_way.index(number) :])])
        under_way.append(number)
        for earlier in needs[number]:
            if earlier not in order:
                put(earlier)
        under_way.pop()
        order.append(number)

    for number in range(count):
        if number not in order:
            put(number)
    return order

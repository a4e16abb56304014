"""Lists of a small random network that bench/judged-lists has judged: the compiled one, what comes of changes to it, and lists by chance."""

import functools
import ipaddress
import random

from walked_lists import IN_BLOCK, Case, Listed, Word


def spelled(listed: Listed) -> list[str]:
    """The addresses of containers."""
    rows = [[*words, *[0] * (6 - len(words))] for words in listed]
    values = [functools.reduce(lambda value, word: value << 16 | word, row, IN_BLOCK) for row in rows]
    return [str(ipaddress.IPv6Address(value)) for value in values]


def each_list(draw: random.Random, case: Case) -> list[list[str]]:
    """Lists to be judged: the compiled one or one by chance, and what comes of changes."""
    words = case.words

    def by_chance() -> Listed:
        row = [draw.choice(words) for _ in range(draw.choice((0, 1, 1, 2, 2, 3)))] + [0xF1]
        if draw.random() < 0.2:
            row.append(draw.choice(words))
        return [row] if set(row[:-1]) <= case.stands_before and draw.random() < 0.7 else [[word] for word in row]

    listed: Listed = []
    for sid in case.chosen.path:
        number = int(sid.prefix.split(":")[2], 16)
        listed = [*listed[:-1], [*listed[-1], number]] if sid.stays else [*listed, [number]]
    listed = listed or by_chance()
    found = [listed, by_chance(), by_chance()]
    for change in (taken_out, doubled, swapped, replaced, replaced, lengthened, cut, joined, shortened):
        other = change(draw, [list(container) for container in listed], words)
        if draw.random() < 0.2:
            other = draw.choice((taken_out, doubled, swapped, replaced, cut))(draw, other, words)
        found.append([row[at : at + 6] for row in other for at in range(0, len(row), 6)])
    rows = [spelled(one) for one in found]
    at = draw.randrange(len(listed))
    value = int(ipaddress.IPv6Address(rows[0][at])) ^ 1 << draw.randrange(128)
    return [*rows, [*rows[0][:at], str(ipaddress.IPv6Address(value)), *rows[0][at + 1 :]]]


def place_in(draw: random.Random, listed: Listed) -> tuple[Listed, int, int]:
    """A place of a list, by its container and its number there."""
    at = draw.randrange(len(listed))
    return listed, at, draw.randrange(len(listed[at]))


def taken_out(draw: random.Random, listed: Listed, _: list[Word]) -> Listed:
    """Without one SID."""
    listed, at, number = place_in(draw, listed)
    del listed[at][number]
    return [row for row in listed if row] or [[0xF1]]


def doubled(draw: random.Random, listed: Listed, _: list[Word]) -> Listed:
    """One SID twice."""
    listed, at, number = place_in(draw, listed)
    again = listed[at][number]
    if draw.random() < 0.5:
        listed.insert(at + 1, [again])
    else:
        listed[at].insert(number, again)
    return listed


def swapped(draw: random.Random, listed: Listed, _: list[Word]) -> Listed:
    """Two SIDs that follow one another change places."""
    places = [(at, number) for at, row in enumerate(listed) for number in range(len(row))]
    if len(places) > 1:
        one = draw.randrange(len(places) - 1)
        (a, m), (b, n) = places[one : one + 2]
        listed[a][m], listed[b][n] = listed[b][n], listed[a][m]
    return listed


def replaced(draw: random.Random, listed: Listed, words: list[Word]) -> Listed:
    """Another SID in the place of one."""
    listed, at, number = place_in(draw, listed)
    listed[at][number] = draw.choice(words)
    return listed


def lengthened(draw: random.Random, listed: Listed, words: list[Word]) -> Listed:
    """One SID more behind the last."""
    return [*listed[:-1], [*listed[-1], draw.choice(words)]]


def cut(draw: random.Random, listed: Listed, _: list[Word]) -> Listed:
    """A container in two."""
    listed, at, number = place_in(draw, listed)
    return [row for row in (*listed[:at], listed[at][:number], listed[at][number:], *listed[at + 1 :]) if row]


def joined(draw: random.Random, listed: Listed, _: list[Word]) -> Listed:
    """Two containers in one."""
    at = draw.randrange(len(listed))
    return [*listed[:at], [word for row in listed[at : at + 2] for word in row], *listed[at + 2 :]]


def shortened(draw: random.Random, listed: Listed, _: list[Word]) -> Listed:
    """Without a container, or the last SIDs of one."""
    listed, at, number = place_in(draw, listed)
    if number:
        listed[at] = listed[at][:number]
    elif len(listed) > 1:
        del listed[at]
    return listed

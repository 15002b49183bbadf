"""Trees spoilt in one place, to compare two checkers on: a line left out, doubled, moved, or one of its words changed."""
from __future__ import annotations

import random
import re

RULES = 'balance pipe equal zero way inner fall order rise ratio sign reach along drop'.split()
LINES = ['open', 'end', 'close empty s0', 'close cut 0', 'close balance 0', 'arc 0', 'group 0', 'take 0 0', 'state 0 closed', 'halve q0',
         'half q0 hi 0', 'half q0 lo 0', 'gastree 1', 'gastree 2', 'lo q0 1 balance 0', 'close cut', 'open ', '']


def other_number(word: str, rng: random.Random) -> str:
    number = int(word)
    return str(rng.choice([number + 1, number - 1, -number, number * 16, number // 2, 0, 2 ** 127, 2 ** 32, number + rng.randint(-9, 9)]))


def other_word(word: str, rng: random.Random) -> str:
    if re.fullmatch(r'-?[0-9]+', word):
        return other_number(word, rng)
    if re.fullmatch(r'[qs][0-9]+', word):
        return rng.choice('qs') + str(max(0, int(word[1:]) + rng.randint(-1, 1)))
    for group in (RULES, ['lo', 'hi'], ['open', 'closed', 'active', 'bypass']):
        if word in group:
            return rng.choice(group)
    return rng.choice(['lo', 'close', '', '00', '-0', 'q', word + ' ', word.upper()])


def spoil(tree: str, rng: random.Random) -> str:
    """The tree with one change; it may still pass."""
    lines = tree.split('\n')[:-1]
    at, kind = rng.randrange(len(lines)), rng.randrange(8)
    if kind == 0:
        del lines[at]
    elif kind == 1:
        lines.insert(at, lines[at])
    elif kind == 2:
        other = rng.randrange(len(lines))
        lines[at], lines[other] = lines[other], lines[at]
    elif kind == 3:
        lines[at:at] = [rng.choice(LINES)]
    elif kind == 4:
        return tree[:rng.randrange(len(tree))]
    else:
        words = lines[at].split(' ')
        place = rng.randrange(len(words))
        words[place] = other_word(words[place], rng)
        lines[at] = ' '.join(words)
    return ''.join(line + '\n' for line in lines)


def spoil_problem(problem: str, rng: random.Random) -> str:
    """The problem with one word, line or byte changed; it may still be one."""
    lines = problem.split('\n')[:-1]
    at, kind = rng.randrange(len(lines)), rng.randrange(5)
    if kind == 0:
        del lines[at]
    elif kind == 1:
        lines.insert(rng.randrange(len(lines) + 1), lines[at])
    elif kind == 2:
        return problem[:rng.randrange(len(problem))]
    else:
        words = lines[at].split(' ')
        place = rng.randrange(len(words))
        word = words[place]
        words[place] = other_number(word, rng) if re.fullmatch('-?[0-9]+', word) else rng.choice([word + 'x', '', 'n0', 'a0', 'on', 'closed', '\x07'])
        lines[at] = ' '.join(words)
    return ''.join(line + '\n' for line in lines)

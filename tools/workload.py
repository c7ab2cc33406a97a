"""The requests of a seed, by the rule of the numbers: prints stream, kind, address and byte of each."""
import sys

seed, requests, streams, logical = map(int, sys.argv[1:5])
x = seed


def draw():
    global x
    x = (x * 6364136223846793005 + 1442695040888963407) % 2**64
    return x >> 33


for i in range(requests):
    if i and i % 64 == 0:
        print(i % streams, "f", 0, 0)
        continue
    kind, at = draw() % 8, draw() % logical
    print(i % streams, "wwwwrrrd"[kind], at, draw() % 32 if kind < 4 else 0)

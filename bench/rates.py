"""How many pairs a second Python answers, one by one (pair_at) and as a page, and the ratio of the two.

    PYTHONPATH=python python3 -B bench/rates.py        from the repository's root, in a built checkout

Plans of 2,048 windows: a dense one, with counts of 0 to 2, and a line, in which each window overlaps the next alone and there are 2,048
counts. The 10,000 pairs are random, and the same for both. Answers are compared before rates are told. Rates are of medians of 21 rounds,
turn by turn, in the processor time of the thread. The first page of a plan, which makes an answer of each count that is new, is timed
alone.
"""
import random
import statistics
import time

import poddreshi

WINDOWS, PAIRS, ROUNDS = 2048, 10_000, 21


def plans(generator: random.Random) -> dict:
    """Windows of two shapes, as offsets and lengths."""
    dense = sorted((generator.randrange(100_000), generator.randrange(1, 100_000)) for _ in range(WINDOWS))
    return {"dense": dense, "line": [(2 * v, 3) for v in range(WINDOWS)]}


def seconds(call) -> float:
    start = time.thread_time()
    call()
    return time.thread_time() - start


def row(shape: str, windows: list, pairs: list) -> str:
    tags = poddreshi.tags(poddreshi.pack(12, windows)).tags
    poddreshi.page(tags, [])  # loads the library

    def singly():
        return [poddreshi.pair_at(tags, *pair) for pair in pairs]

    def page():
        return poddreshi.page(tags, pairs)

    first = seconds(page)
    if singly() != page():
        raise SystemExit(f"bench/rates.py: a page of the {shape} plan differs from its pairs")
    times = [(seconds(singly), seconds(page)) for _ in range(ROUNDS)]
    one, many = (statistics.median(column) for column in zip(*times))
    rates = [f"{PAIRS / each:,.0f}" for each in (one, many, first)]
    return f"| {shape} | {WINDOWS} | {PAIRS:,} | {' | '.join(rates)} | {one / many:.1f} | {one / first:.1f} |"


def main() -> None:
    generator = random.Random(4)
    print("| plan | n | pairs | pair_at, a second | page, a second | first page | page / pair_at | first page / pair_at |")
    print("|---|---|---|---|---|---|---|---|")
    pairs = [(generator.randrange(WINDOWS), generator.randrange(WINDOWS)) for _ in range(PAIRS)]
    for shape, windows in plans(generator).items():
        print(row(shape, windows, pairs))


if __name__ == "__main__":
    main()

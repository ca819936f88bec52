"""Pictures written and read by one Python thread, and by two that each take half of them.

    bash clients/staticlib.sh capi && bash clients/build.sh
    python3 bench/threads/threads.py [FACTOR [NAME]]

The module loads the library by ctypes.CDLL, which releases the interpreter's lock for each call, so that the library's
part of two calls goes on two cores. The module's own part holds the lock: the checks of the arguments, the buffer that is
cleared before it is lent, and the copy of what the call filled into bytes or an array. A picture of 1 x 1 shows what the
checks cost. The plane and the palette are bytes, which the module lends as they are.

All is as in main.rs: a thread makes one call that does not count and waits for the other, and the time is from the first
start after that to the last end. What each has got is compared after every round with what one call gives. Rounds are
interleaved, and of each side the least time counts; the spread is the least and the greatest ratio among five parts of the
rounds. The last column is the same ratio, in the same rounds, of zlib.crc32 over a megabyte, which releases the lock too and
does nothing else with it. FACTOR times as many rounds are made, and only of the workloads with NAME in their names.
"""
import math
import os
import sys
import threading
import zlib
from time import perf_counter

sys.path.insert(0, os.path.join(os.path.dirname(os.path.abspath(__file__)), '../../clients/python'))
from bmp_writer import encode, read

PARTS = 5
ROUNDS = 100
ROUND = 0.02  # About as many seconds as one thread takes for the pictures of a round.
PALETTE = bytes(v for k in range(256) for v in (k, 255 - k, 128, 255))
MEGABYTE = bytes(range(256)) * 4096


def surface(side):
    """The surface of bench/speed."""
    squares = [(x / side - 0.5) * (x / side - 0.5) * 400.0 for x in range(side)]
    return bytes(int(square / (0.4 + y / side) + y / side * 60.0) for y in range(side) for square in squares)


def checksum():
    return zlib.crc32(MEGABYTE)


def run(threads, calls, call, expected):
    """Seconds for each call, from the first start to the last end."""
    barrier, ends = threading.Barrier(threads), [None] * threads

    def work(place):
        got = call()
        barrier.wait()
        start = perf_counter()
        for _ in range(calls // threads):
            got = call()
        ends[place] = start, perf_counter(), got

    started = [threading.Thread(target=work, args=(place,)) for place in range(threads)]
    for thread in started:
        thread.start()
    for thread in started:
        thread.join()
    assert all(got == expected for _, _, got in ends), f'what {threads} threads got differs'
    return (max(end for _, end, _ in ends) - min(start for start, _, _ in ends)) / calls


def calls_of_a_round(call, expected):
    once = min(run(1, 1, call, expected) for _ in range(5))
    return 2 * math.ceil(ROUND / 2 / once)


def measure(call, rounds):
    """Of each part the least seconds: one thread, two threads, and the same of the checksum."""
    sides = [(work, work(), threads) for work in (call, checksum) for threads in (1, 2)]
    counts = [calls_of_a_round(work, expected) for work, expected, _ in sides]
    parts = []
    for _ in range(PARTS):
        least = [math.inf] * 4
        for k in range(-(-rounds // PARTS)):
            for side in (0, 1, 2, 3) if k % 2 else (1, 0, 3, 2):
                work, expected, threads = sides[side]
                least[side] = min(least[side], run(threads, counts[side], work, expected))
        parts.append(least)
    return parts


def main():
    factor = int(sys.argv[1]) if len(sys.argv) > 1 else 1
    name_part = sys.argv[2] if len(sys.argv) > 2 else ''
    print('| workload | one thread, µs a picture | two threads, µs a picture | two / one | spread | crc32, two / one |')
    print('|---|---|---|---|---|---|')
    for side in 1000, 200, 1:
        plane = surface(side)

        def write():
            return encode(plane, side, side, palette_rgba=PALETTE)

        file, _ = write()
        for verb, call in ('written', write), ('read', lambda: read(file)):
            workload = f'Pal8 surface, {side} x {side}, {verb}'
            if name_part in workload:
                parts = measure(call, factor * ROUNDS)
                one, two, checksum_one, checksum_two = map(min, zip(*parts))
                ratios = [part[1] / part[0] for part in parts]
                print(f'| {workload} | {one * 1e6:.2f} | {two * 1e6:.2f} | {two / one:.2f} '
                      f'| {min(ratios):.2f} to {max(ratios):.2f} | {checksum_two / checksum_one:.2f} |', flush=True)
    print(f'\ncores: {os.cpu_count()}')


if __name__ == '__main__':
    main()

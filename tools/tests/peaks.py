"""peaks.py LEAST MOST FOLDER PROGRAM [OPTION ..]: whether a run's peak of resident memory grows as its fixes do.

FOLDER has folders that are named by their number of fixes, and hold the tracks of a run. Between each of them and the
next, by size, every further fix has to take LEAST to MOST bytes, and the first run MOST bytes for each fix and a base. Of
each run the least of three peaks counts, since threads that meet otherwise may hold more for a while. Prints the peaks;
the status is 0 where all is as it has to be.

A peak that the system tells of a child is at least that of the process which starts it: so this imports little, and is
best run by `python3 -I -S`, and a run that holds no more than `true` is no measurement."""

import os
import sys

RUNS = 3
BASE = 6 << 20


def peak(words):
    """The peak of a run, in bytes."""
    null = [(os.POSIX_SPAWN_OPEN, 1, os.devnull, os.O_WRONLY, 0)]
    child = os.posix_spawnp(words[0], words, os.environ, file_actions=null)
    _, status, usage = os.wait4(child, 0)
    if status:
        sys.exit(f"{words} ended with {os.waitstatus_to_exitcode(status)}")
    return usage.ru_maxrss * 1024


def peaks_of(folder, command):
    """The number of fixes of each run and the least of its peaks."""
    for count in sorted(map(int, os.listdir(folder))):
        files = sorted(os.listdir(f"{folder}/{count}"))
        words = [*command, *(f"{folder}/{count}/{file}" for file in files)]
        yield count, min(peak(words) for _ in range(RUNS))


def main():
    least, most = map(int, sys.argv[1:3])
    folder, *command = sys.argv[3:]
    peaks, floor = list(peaks_of(folder, command)), peak(["true"])
    for count, bytes_held in peaks:
        print(f"{count} fixes: {bytes_held / 1e6:.1f} MB, {bytes_held / count:.1f} bytes for each")
    (first, base), further = peaks[0], []
    for (fewer, before), (count, after) in zip(peaks, peaks[1:]):
        further.append((after - before) / (count - fewer))
        print(f"from {fewer} to {count} fixes: {further[-1]:.1f} bytes for each further fix")
    is_well = floor < base <= most * first + BASE and all(least <= each <= most for each in further)
    sys.exit(not (is_well and further))


if __name__ == "__main__":
    main()

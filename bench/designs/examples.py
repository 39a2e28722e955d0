#!/usr/bin/env python3
"""examples.py PROGRAM FOLDER ROUNDS: run of each example from start to end of the process; ms of processor and of the clock, least and median"""
import os, sys, time, glob, statistics

prog, folder, R = sys.argv[1], sys.argv[2], int(sys.argv[3])
null = os.open("/dev/null", os.O_WRONLY)


def once(args):
    t = time.perf_counter()
    pid = os.posix_spawn(prog, [prog] + args, os.environ, file_actions=[(os.POSIX_SPAWN_DUP2, null, 1), (os.POSIX_SPAWN_DUP2, null, 2)])
    _, st, ru = os.wait4(pid, 0)
    return (ru.ru_utime + ru.ru_stime) * 1000, (time.perf_counter() - t) * 1000, st


for stim in sorted(glob.glob(folder + "/*.stim")):
    n = os.path.basename(stim)[:-5]
    for words in (["run"], ["run", "--event"]):
        x = [once(words + [folder + "/" + n + ".vhd", n, stim]) for _ in range(R)]
        print(
            "%-20s %-12s cpu least %.2f median %.2f ms; clock least %.2f median %.2f ms; status %d"
            % (
                n,
                " ".join(words),
                min(a for a, _, _ in x),
                statistics.median(a for a, _, _ in x),
                min(b for _, b, _ in x),
                statistics.median(b for _, b, _ in x),
                x[0][2],
            )
        )
x = [once(["--help"]) for _ in range(R)]
print("--help", min(a for a, _, _ in x), min(b for _, b, _ in x))

"""Records rows in memory by test_trail and by SQLite's own library (peer.cpp), alternately, and compares their
throughput."""

import subprocess
import sys

SAMPLES = 5


def rows_a_second(words, rows):
    """The throughput of a program, whose output ends in `N us`."""
    output = subprocess.run([*words, str(rows)], check=True, capture_output=True, text=True).stdout
    return rows / (max(int(output.split()[-2]), 1) / 1_000_000)


def main():
    programs = {"trail": ["crates/test_trail/out/test_trail", "time"], "sqlite": [sys.argv[1]]}
    for rows in [int(word) for word in sys.argv[2:]]:
        best = dict.fromkeys(programs, 0.0)
        for _ in range(SAMPLES):
            for name, words in programs.items():
                best[name] = max(best[name], rows_a_second(words, rows))
        print(
            f"{rows} rows: the trail {best['trail']:.0f} a second, SQLite {best['sqlite']:.0f}, "
            f"ratio of the best samples {best['trail'] / best['sqlite']:.2f}",
            flush=True,
        )


if __name__ == "__main__":
    main()

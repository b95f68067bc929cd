"""Writes OUTDIR/stdin and OUTDIR/stdout for the program 'strict': the input of 'plain', read strictly.

Behind it is an entry that is cut inside its two length bytes; the input of 'plain' ends whole.
"""

import corpus
import make_plain
from reference import programs


def main():
    directory = corpus.output_directory()
    stdin = corpus.joined(make_plain.all_messages(), b"\x00")
    stdout = programs.strict(stdin)
    corpus.write_files(directory, {"stdin": stdin, "stdout": stdout})
    corpus.report_refusals(stdout)
    corpus.report(f"  written back the same {stdout.count(' same')}, differing {stdout.count(' differs')}")


if __name__ == "__main__":
    main()

"""Writes the corpus of 'in_place': the rules' example after some refused entries, and some hundred entries more, for one receiver.

The program feeds the file to one receiver by each of two calls, so its lines stand there twice.
"""

import random

import corpus
import eras
import make_bench
import hover_play
import padded_play
import wide_play
from histories import History, rest
from reference import programs

SEED = 20260207


def history():
    sent, rng = History(), random.Random(SEED)
    ready = bytes.fromhex(make_bench.EXAMPLE[0])
    sent.send_all(rng.sample(list(make_bench.before_ready(ready)), 20))
    sent.send(ready)
    make_bench.example(sent)
    make_bench.dismissals(sent, rng)
    make_bench.walk(sent, rng, make_bench.IDS, 250)
    sent.era = eras.PRESSED
    rest(sent)
    padded_play.strokes(sent)
    padded_play.faults_between(sent)
    padded_play.walk(sent, random.Random(SEED + 1), make_bench.IDS, 60)
    sent.era = eras.NARROW
    hover_play.hovering_hands(sent)
    hover_play.dismissals(sent)
    hover_play.walk(sent, random.Random(SEED + 2), make_bench.IDS, 60)
    sent.era = eras.TODAY
    wide_play.few_allowed(sent, (64, 256))
    wide_play.walk(sent, random.Random(SEED + 3), list(range(256)), 20)
    return sent


def main():
    directory = corpus.output_directory()
    sent = history()
    stdin = corpus.joined(sent.entries)
    stdout = programs.in_place(stdin)
    corpus.write_files(directory, {"stdin": stdin, "stdout": stdout * 2})
    corpus.report_refusals(stdout)
    sent.coverage.report()


if __name__ == "__main__":
    main()

"""The parts of `bench/killed`: what requests answer, streams of them, runs that are killed, and what the next run finds."""

"""The parts of `bench/served`: its streams, and runs of the program of which it is counted what they take."""

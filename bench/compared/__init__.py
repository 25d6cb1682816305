"""The parts of `bench/compare` and `bench/plot`: who is compared, by which work, on which machine, and the table of what came."""

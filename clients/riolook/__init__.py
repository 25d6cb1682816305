"""What `look` is made of: a pair of files as it is read, whose each block is, and the map that is drawn of it."""

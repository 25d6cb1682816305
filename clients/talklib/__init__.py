"""What `talk` is made of: its lines, paths of rio, completion and history, import and export, and the count of blocks."""

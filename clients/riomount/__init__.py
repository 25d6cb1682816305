"""A volume of rio as a file system: the parts of the script `mount`.

    serving      looks at the words, starts rio, mounts, and tells how it ended
    operations   what the kernel asks for, in requests of rio
    openfiles    the files that are open, also those whose name is gone
    errors       what is refused, as the errno that a file system has for it
    names        names of 1 to 255 bytes and paths, and the names of rio that stand for them
    attributes   modes, owners and times, in a table by inode
    tables       the files of rio that the two tables lie in
    space        the requests that change a volume, and its free blocks by the rule of blocks

Only `serving` takes libfuse.
"""

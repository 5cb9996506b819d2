"""From four program files to a task, and from the program's answer to words.

Nothing here is trusted: a made task is filled again and compared with the four programs, and what
is said of a merge is what the program `safemerge` answers.
"""

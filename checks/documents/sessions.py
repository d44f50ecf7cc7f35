"""A session that a document shows, line by line, beside the one that the gate replays."""


def lines_of(path):
    return path.read_text().splitlines()


def difference(shown, commands, replies):
    """What the shown lines have otherwise than the commands and the replies, in words; nothing where they are the
    same."""
    commands, replies = list(commands), list(replies)
    for line in shown:
        if commands and line == commands[0]:
            commands.pop(0)
        elif replies and line == replies[0]:
            replies.pop(0)
        else:
            return f"shows '{line}', which is neither the next command nor the next reply"
    return f"leaves out '{(commands + replies)[0]}'" if commands or replies else ""

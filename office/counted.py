"""A number with its thing, in one or many."""


def counted(count, thing):
    return f"{count} {thing}{'' if count == 1 else 's'}"

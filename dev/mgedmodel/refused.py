"""Why a command is refused, or a text is no model."""


class Refused(Exception):
    """A command is refused; the text is what the transcript prints. A command of a model has a fault; the first word of
    the text is its kind."""


def refuse_unless(holds, text):
    if not holds:
        raise Refused(text)


def syntax_unless(holds):
    refuse_unless(holds, "syntax")

"""Texts of a store as the page and the terminal have them: nothing stands in one that isn't seen."""

from adsd_tools.shown import shown, text_of


def told(text, most=None):
    """A text, or bytes of one, with an escape for each character that isn't seen, cut off behind `most` of them."""
    made = shown(text_of(text) if isinstance(text, bytes) else text)
    return made if most is None or len(made) <= most else made[:most] + ".."


def all_told(made):
    """What is answered, with each text in it told so; numbers and words of the answer itself stay."""
    if isinstance(made, str):
        return made if made.isascii() and made.isprintable() else told(made)
    if isinstance(made, dict):
        return {key: all_told(one) for key, one in made.items()}
    if isinstance(made, (list, tuple)):
        return [all_told(one) for one in made]
    return made

"""What is wrong with a text of CEL, and where."""


class TextMistake(Exception):
    """A mistake at a place of the text, counted in characters from 0; the number is that of the engine's refusal, if the
    engine would refuse the text for it."""

    def __init__(self, place: int, message: str, number: int = 0):
        super().__init__(message)
        self.place = place
        self.message = message
        self.number = number

"""Sentences that the sources must meet: tried on the sources as they are, and on wrong ones that must be refused."""
import sys

from .edits import Misfit, edited
from .tokens import Unread


class Judge:
    """A test by sentences, each a function that yields what is wrong with what `read` makes of the texts."""

    def __init__(self, name, sentences, read):
        self.name, self.sentences, self.read = name, sentences, read

    def tell(self, text):
        print(f"{self.name}: {text}")

    def fail(self, text):
        print(f"{self.name}: WRONG: {text}", file=sys.stderr)

    def wrongs(self, texts):
        """What is wrong with the texts, by the name of the sentence that they do not meet."""
        subject = self.read(texts)
        found = {sentence.__name__: list(sentence(subject)) for sentence in self.sentences}
        return {name: messages for name, messages in found.items() if messages}

    def holds(self, texts):
        """Whether the texts meet all sentences; each sentence is printed, and what is wrong."""
        found = self.wrongs(texts)
        for sentence in self.sentences:
            self.tell(f"{sentence.__name__}: {' '.join(sentence.__doc__.split())}")
            for message in found.get(sentence.__name__, []):
                self.fail(f"{sentence.__name__}: {message}")
        return not found

    def refusals(self, texts, path):
        """The sentences that refuse a wrong source; none is a fault."""
        try:
            found = self.wrongs(edited(texts, path.read_text()))
        except (Misfit, Unread) as error:
            self.fail(f"{path.name} cannot be tried: {error}")
            return set()
        if found:
            self.tell(f"{path.stem} is refused by {', '.join(found)}")
        else:
            self.fail(f"{path.name} is not refused")
        return set(found)

    def refuses(self, texts, folder):
        """Whether each wrong source of a folder is refused, and each sentence refuses one of them at least."""
        refused = [self.refusals(texts, path) for path in sorted(folder.iterdir())]
        idle = {sentence.__name__ for sentence in self.sentences}.difference(*refused)
        for name in sorted(idle):
            self.fail(f"{name} refuses no wrong source")
        self.tell(f"{sum(map(bool, refused))} wrong sources refused")
        return not idle and all(refused)

    def passes(self, texts, folder):
        """Whether the texts are right and the wrong sources of a folder are refused."""
        try:
            return self.holds(texts) and self.refuses(texts, folder)
        except Unread as error:
            self.fail(error)
            return False

"""A Fahrenheit and a pressure channel beside `live` of the same two singles: the same answer, for
every number of tenths and of psi, and where they are refused."""

from cases.panels import SPANS, in_range
from shown import few

KINDS = (b"fahrenheit", b"pressure")
REFUSED = (b"refused 12 0", b"refused 13 0")


class BesideLive:
    def __init__(self):
        self.live = {}
        self.channels = {}

    def take(self, entry, line, answer):
        words = (*line.removesuffix(b"\r").split(b" ")[1:],)
        if entry == "live":
            self.live[words] = answer
        elif entry == "channels" and words[::2] == KINDS:
            self.channels[words[1::2]] = answer

    def missing(self):
        both = {words: answer for words, answer in self.channels.items() if words in self.live}
        for words, answer in both.items():
            if self.live[words] != answer:
                yield f"channels {b' '.join(words).decode('latin-1')} answered as live"
        told = [answer.split(b" ")[1:] for answer in both.values() if answer.startswith(b"ok ")]
        for place, entry in enumerate(SPANS):
            found = {int(values[place]) for values in told}
            never = [number for number in in_range(entry) if number not in found]
            if never:
                yield f"channels beside live {('TENTHS', 'PSI')[place]} {few(never)}"
        for answer in REFUSED:
            if answer not in both.values():
                yield f"channels beside live {answer.decode('ascii')}"

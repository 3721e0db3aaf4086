"""Random programs of functions, arrays, texts, formats, records and files, all in one."""

from formats import Formats
from functions import Functions
from records import Records
from streams import Streams
from texts import Texts


class Mixed(Functions, Formats, Texts, Streams, Records):
    """No element is read by getline, since some awks make it where there is nothing to read, nor is RS empty, since gawk
    then cuts texts otherwise too. What is printed can read a record, so a target doesn't depend on it.
    """

    def __init__(self, seed):
        super().__init__(seed)
        self.separator = self.separator or "\\n"

    def target(self):
        return self.pick('"o1"', '"o1"', '"o2"', f'("o" {self.below(4)})')

    def read_place(self):
        return self.text_name()

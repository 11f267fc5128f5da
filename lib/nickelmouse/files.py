"""The files of a run."""
import os
from dataclasses import dataclass

from nickelmouse.minizinc import read_bytes


@dataclass(frozen=True)
class Files:
    """The files of a run, in their folder."""
    folder: str

    def path(self, name):
        """The path of one of them."""
        return os.path.join(self.folder, name)

    def write(self, name, text):
        """Writes one of them."""
        with open(self.path(name), 'wb') as file:
            file.write(text)

    def read(self, name):
        """The bytes of one of them; none, where it is not there."""
        return read_bytes(self.path(name))

    def remove(self, *names):
        """Removes some of them."""
        for name in names:
            if os.path.exists(self.path(name)):
                os.remove(self.path(name))

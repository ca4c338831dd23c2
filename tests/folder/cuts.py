"""What a power cut may leave of a folder, by the calls of the system that a program made before it."""
import os


class File:
    """The bytes of a file, and whether they were flushed since they were last written."""

    def __init__(self, text, is_flushed):
        self.text, self.is_flushed = text, is_flushed


def contents(folder):
    """Returns the files of a folder with their bytes."""
    found = {}
    for name in os.listdir(folder) if os.path.isdir(folder) else []:
        with open(os.path.join(folder, name), 'rb') as file:
            found[name] = file.read()
    return found


class Disk:
    """A folder: the names that it has, those that it had when it was flushed, and the changes of names since then."""

    def __init__(self, files, folder):
        self.folder = folder
        self.names = {name: File(text, True) for name, text in files.items()}
        self.flushed, self.changes = dict(self.names), []

    def call(self, letter, path, other=None):
        """Takes a call of the system: open for writing, write, sync, rename or unlink. Others, and those that concern no file of the
        folder, change nothing here."""
        above, name = os.path.split(path)
        if letter == 's' and name == self.folder:
            self.flushed, self.changes = dict(self.names), []
        elif os.path.basename(above) != self.folder:
            return
        elif letter == 'o':
            file = self.names.setdefault(name, File(None, False))
            file.is_flushed = False
            self.changes.append((name, file))
        elif letter in 'ws':
            self.names[name].is_flushed = letter == 's'
        elif letter == 'r':
            file = self.names.pop(name)
            self.names[os.path.basename(other)] = file
            self.changes.append((name, None, os.path.basename(other), file))
        elif letter == 'u' and name in self.names:
            self.names.pop(name)
            self.changes.append((name, None))

    def left(self, now, chosen):
        """Returns files that may be left, given those that the folder has now. Of the changes of names some are left, in any
        order; of bytes that were not flushed all, half, none, or as many zeros."""
        if sorted(self.names) != sorted(now):
            raise ValueError(f'the calls make {sorted(self.names)}, there are {sorted(now)}')
        for name, file in self.names.items():
            file.text = now[name]
        count = chosen.randint(0, len(self.changes))
        changes = self.changes[:count] if chosen.random() < 0.5 else [change for change in self.changes if chosen.random() < 0.7]
        left = dict(self.flushed)
        for change in changes:
            for name, file in zip(change[::2], change[1::2]):
                left.pop(name, None)
                if file is not None:
                    left[name] = file
        made = {}
        for name, file in left.items():
            text = file.text or b''
            made[name] = text if file.is_flushed else chosen.choice([text, text[:len(text) // 2], b'', bytes(len(text))])
        return made

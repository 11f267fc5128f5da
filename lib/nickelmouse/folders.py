"""A folder that is gone when we are, however we end."""
import os
import shutil
import subprocess
import tempfile

# Ends when nobody can write to its standard input any more, which is when we end; then the folder goes.
KEEPER = ['sh', '-c', 'trap "" INT TERM HUP; read _; rm -rf "$1"', 'sh']


class Temporary:
    """A new folder, below another one or where temporary files belong, which is removed at the end, also where we are killed."""

    def __init__(self, below=None):
        self.below = None if below is None else os.path.realpath(below)

    def __enter__(self):
        self.folder = folder = tempfile.mkdtemp(prefix='nickelmouse-', dir=self.below)
        try:
            self.keeper = subprocess.Popen([*KEEPER, folder], stdin=subprocess.PIPE, stdout=subprocess.DEVNULL, stderr=subprocess.DEVNULL,
                                           start_new_session=True, cwd='/')
        except OSError:
            os.rmdir(folder)
            raise
        # Other temporary files of ours lie within.
        self.former, tempfile.tempdir = tempfile.tempdir, folder
        return folder

    def __exit__(self, *_):
        tempfile.tempdir = self.former
        shutil.rmtree(self.folder, ignore_errors=True)
        if not os.path.exists(self.folder):
            self.keeper.kill()
        self.keeper.stdin.close()
        self.keeper.wait()

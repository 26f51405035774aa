"""Writing a file whole or not at all."""

import os
import shutil
import sys
import tempfile

from .problem import BadInput


def fill_closed_descriptors():
    """Opens the null device in the place of closed standard descriptors, or the next file that is opened would get their numbers."""
    for descriptor in (0, 1, 2):
        try:
            os.fstat(descriptor)
        except OSError:
            os.open(os.devnull, os.O_RDWR)
    if sys.stderr is None:
        sys.stderr = open(os.devnull, "w", encoding="utf-8")  # noqa: SIM115, it is open until the end


def write(path, data):
    """Puts the bytes under a temporary name beside the target and renames, so that a reader never sees a part. `-` is standard output."""
    if path == "-":
        if sys.stdout is None:
            raise BadInput("standard output: cannot be written: it is closed")
        sys.stdout.flush()
        sys.stdout.buffer.write(data)
        sys.stdout.buffer.flush()
        return
    target = os.path.realpath(path)
    if os.path.exists(target) and not os.path.isfile(target):
        raise BadInput(f"{path}: not a regular file; expected a file's name, or - for standard output")
    # A file is replaced by a new one under its name, which the folder's permissions alone would allow.
    if os.path.exists(target) and (not os.stat(target).st_mode & 0o222 or not os.access(target, os.W_OK)):
        raise BadInput(f"{path}: is there and is read-only; it was not replaced")
    try:
        handle, temporary = tempfile.mkstemp(prefix=".bend-", dir=os.path.dirname(target))
    except OSError as wrong:
        raise BadInput(f"{path}: cannot be written: {wrong.strerror}") from None
    try:
        with os.fdopen(handle, "wb") as out:
            out.write(data)
            out.flush()
            os.fsync(out.fileno())
        os.chmod(temporary, _mode(target))
        os.replace(temporary, target)
    except OSError as wrong:
        os.unlink(temporary)
        raise BadInput(f"{path}: cannot be written: {wrong.strerror}") from None
    except BaseException:
        os.unlink(temporary)
        raise


def write_folder(path, files):
    """Puts named files into a new folder: made under a temporary name beside the target and renamed, so that all of them are there or none."""
    target = os.path.realpath(path)
    if os.path.lexists(target) and not (os.path.isdir(target) and not os.listdir(target)):
        raise BadInput(f"{path}: is there already; expected the name of a new folder, or of an empty one")
    try:
        temporary = tempfile.mkdtemp(prefix=".bend-", dir=os.path.dirname(target))
    except OSError as wrong:
        raise BadInput(f"{path}: cannot be written: {wrong.strerror}") from None
    try:
        for name, data in files:
            write(os.path.join(temporary, name), data)
        os.chmod(temporary, 0o777 & ~_mask())
        os.rename(temporary, target)
    except OSError as wrong:
        shutil.rmtree(temporary)
        raise BadInput(f"{path}: cannot be written: {wrong.strerror}") from None
    except BaseException:
        shutil.rmtree(temporary)
        raise


def _mask():
    mask = os.umask(0)
    os.umask(mask)
    return mask


def _mode(target):
    """The mode an ordinary new file would get, or the one the file already has: a temporary file starts out closed to others."""
    try:
        return os.stat(target).st_mode & 0o7777
    except FileNotFoundError:
        return 0o666 & ~_mask()

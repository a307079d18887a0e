"""Putting a program at a path, whole and tried, or not at all."""
import os
import tempfile


def bytes_at(path):
    with open(path, "rb") as file:
        return file.read()


def write_whole(path, content, is_right=None):
    """Writes a program's bytes at a path, and answers the path. They are written beside it first, where `is_right` may refuse
    them by an exception; then what was at the path stays, and nothing is left beside it."""
    os.makedirs(os.path.dirname(path), exist_ok=True)
    number, new = tempfile.mkstemp(dir=os.path.dirname(path))
    try:
        with os.fdopen(number, "wb") as file:
            file.write(content)
        os.chmod(new, 0o755)
        if is_right is not None:
            is_right(new)
        os.replace(new, path)
    except BaseException:
        os.unlink(new)
        raise
    return path

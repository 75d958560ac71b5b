"""Files read whole, and sets of files written all or not at all, or only for a while."""
import contextlib
import os
import pathlib
import tempfile

from messages import Trouble, reason


@contextlib.contextmanager
def named(path):
    """Puts a file's name to the errors that have none, such as that of a full device."""
    try:
        yield
    except OSError as error:
        error.filename = error.filename or str(path)
        raise


def read_file(path):
    with named(path):
        return pathlib.Path(path).read_bytes()


@contextlib.contextmanager
def passing(contents):
    """A folder with the bytes of each file name, which is gone afterwards."""
    with tempfile.TemporaryDirectory() as folder:
        for name, content in contents.items():
            path = pathlib.Path(folder, name)
            with named(path):
                path.write_bytes(content)
        yield folder


def make_folders(paths, made):
    """Makes the folders that are missing, and adds them to those made."""
    for path in paths:
        for folder in reversed([path, *path.parents]):
            if not folder.exists():
                folder.mkdir()
                made.append(folder)


def write_flushed(path, content):
    with named(path), open(path, "xb") as file:
        file.write(content)
        file.flush()
        os.fsync(file.fileno())


def put_in_place(temporary):
    """Renames each file to its place: the one step that could stop half-way, and says so."""
    for count, (path, new) in enumerate(temporary.items()):
        try:
            os.replace(new, path)
        except OSError as error:
            raise Trouble(f"{path}: {error.strerror}; {count} of {len(temporary)} files are new, the others as before") from None


def write_files(contents):
    """Writes the bytes of each path. Until all are written beside their places and flushed, no file that was there is changed."""
    for path in contents:
        if path.is_dir():
            raise Trouble(f"{path}: a folder is where a file belongs")
    made, temporary = [], {path: path.with_name(f".{path.name}.{os.getpid()}.new") for path in contents}
    try:
        make_folders((path.parent for path in contents), made)
        for path, content in contents.items():
            write_flushed(temporary[path], content)
        put_in_place(temporary)
    except OSError as error:
        raise Trouble(f"{reason(error)}; nothing was written") from None
    finally:
        for new in temporary.values():
            with contextlib.suppress(OSError):
                new.unlink()
        for folder in reversed(made):  # only those that are empty go
            with contextlib.suppress(OSError):
                folder.rmdir()

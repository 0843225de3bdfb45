"""Files that are written whole or not at all."""
import os
import pathlib
import shutil
import threading
from typing import Iterable


def replace(place: pathlib.Path, parts: Iterable[bytes]) -> None:
    """Writes a file beside its place first, and renames it then, so that none is left half written.
    A file that it replaces keeps its mode, and a link the file to which it leads.
    """
    place = pathlib.Path(os.path.realpath(place))
    fresh = place.with_name(f".{place.name}.{os.getpid()}.{threading.get_ident()}")
    try:
        with open(fresh, "wb") as file:
            file.writelines(parts)
        if place.exists():
            shutil.copymode(place, fresh)
        fresh.replace(place)
    except BaseException:
        if fresh.exists():
            fresh.unlink()
        raise

"""What the server does beside its answers, in a thread of its own."""
import threading
from abc import ABC, abstractmethod
from typing import Any, Dict


class Background(ABC):
    """Work that waits on `changed` for something to do. `kept` is what it has of documents, by
    their URIs.
    """

    def __init__(self, *kept: Dict[str, Any]) -> None:
        self.kept = kept
        self.changed = threading.Condition()
        self.is_over = False

    def start(self) -> None:
        threading.Thread(target=self.work, daemon=True).start()

    @abstractmethod
    def work(self) -> None:
        """Works until `is_over`."""

    def forget(self, uri: str) -> None:
        """Nothing is kept of a document any more."""
        with self.changed:
            for some in self.kept:
                some.pop(uri, None)

    def end(self) -> None:
        with self.changed:
            self.is_over = True
            self.changed.notify()

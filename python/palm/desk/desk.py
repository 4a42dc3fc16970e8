"""All that is open: sessions, their searches, and the scenes that can be opened."""

from __future__ import annotations

import threading
from importlib import resources
from typing import Any, Dict, Optional, Tuple

from palm.desk.pool import Pool
from palm.desk.search import Search
from palm.desk.session import DeskSession, Outcome

SCENES = {
    "planner": "Site planner",
    "pc": "A computer by wishes",
    "shifts": "A week of shifts",
    "ft06": "Job shop FT06",
    "sudoku": "Sudoku",
}


class Desk:
    """The sessions by number."""

    def __init__(self, pool: Optional[Pool] = None) -> None:
        self.pool = pool or Pool()
        self.sessions: Dict[int, DeskSession] = {}
        self.searches: Dict[int, Search] = {}
        self.scenes = SCENES
        self._lock = threading.Lock()
        self._latest = 0

    def open(self, name: str, text: bytes) -> Tuple[DeskSession, Outcome]:
        """A session with the lines of a file."""
        with self._lock:
            self._latest += 1
            session = DeskSession(self._latest, name, self.pool)
        lines = text.split(b"\n")
        try:
            outcome = session.open(lines if lines[-1] else lines[:-1])
        except BaseException:
            session.close()
            raise
        self.sessions[session.number] = session
        return session, outcome

    def open_scene(self, scene: str) -> Tuple[DeskSession, Outcome]:
        """A session with the lines of a scene."""
        text = resources.files("palm.desk").joinpath("scenes").joinpath(f"{scene}.palm").read_bytes()
        return self.open(self.scenes[scene], text)

    def search(self, session: DeskSession, kind: str, target: str, seconds: float) -> Search:
        """Begins a search; the one before it ends."""
        before = self.searches.get(session.number)
        if before:
            before.stop()
        search = self.searches[session.number] = Search(session, kind, target, seconds)
        return search

    def close(self, number: int) -> None:
        """Ends a session and its search."""
        search = self.searches.pop(number, None)
        if search:
            search.stop()
        self.sessions.pop(number).close()

    def told(self) -> Dict[str, Any]:
        """What is open, and what can be opened."""
        sessions = [{"session": session.number, "name": session.name} for session in self.sessions.values()]
        return {"sessions": sessions, "scenes": self.scenes, "processes": self.pool.most}

    def end(self) -> None:
        """Ends all of it."""
        for search in tuple(self.searches.values()):
            search.stop()
        self.pool.end_all()

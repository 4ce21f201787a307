"""What a page is made of."""

from typing import Dict, List, Optional, Set, Tuple

from adsd_tools.lines import Event

from .cards import Card, Seen
from .front import Snapshot
from .names import Principals
from .state import State
from .tokens import Token


class Made:
    """What a page is made of."""

    def __init__(self, title: str, state: State, token: Token, who: Principals, sees: Set[int], reasons: Dict[int, Seen],
                 cards: List[Card], of: Dict[int, Card], numbers: List[Tuple[int, int]]) -> None:
        self.title, self.state, self.token, self.who = title, state, token, who
        self.sees, self.reasons, self.cards, self.of, self.numbers = sees, reasons, cards, of, numbers
        self.shots: List[Snapshot] = []
        self.left_out, self.how = 0, ""
        self.events: Optional[List[Event]] = None
        self.protected: Set[int] = set()
        self.notes: List[str] = []
        self.incomplete: List[str] = []

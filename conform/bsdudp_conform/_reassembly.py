"""The reference machine's unfinished datagrams (RFC 791 3.2), with the freedom of `_freedom`."""
from __future__ import annotations

from typing import Dict, List, NamedTuple, Optional, Set, Tuple

from ._freedom import Path
from ._read import Header

MOST_DATA = 65515
NOBODY = -1


class Piece(NamedTuple):
    """A fragment as it was kept."""

    begin: int
    end: int
    more: bool


class Unfinished:
    """One datagram: its bytes by offset, and which piece has each."""

    def __init__(self, now: int) -> None:
        self.born = now
        self.data = bytearray()
        self.owner: List[int] = []
        self.held = 0
        self.pieces: List[Piece] = []
        self.end: Optional[int] = None
        self.marks: Set[int] = set()
        self.empty: List[Piece] = []
        self.runs: List[Tuple[int, int]] = []  # ranges that arrived in order, as Linux keeps them

    @property
    def top(self) -> int:
        """The offset after the last byte."""
        return len(self.owner)

    def meets(self, begin: int, end: int) -> bool:
        """Whether a byte of the range is there."""
        there = self.owner[begin:end]
        return there.count(NOBODY) != len(there)

    def make_room(self, end: int) -> None:
        if end > self.top:
            self.data.extend(bytes(end - self.top))
            self.owner.extend([NOBODY] * (end - self.top))

    def lay(self, begin: int, data: bytes, wins: Optional[List[int]]) -> bool:
        """Stores a piece's bytes at the offsets `wins`, or at all free ones if it's None. Returns whether a byte was
        stored."""
        me = len(self.pieces) - 1
        if wins is None and not data:
            return False
        if wins is None:
            self.make_room(begin + len(data))
            self.data[begin : begin + len(data)] = data
            self.owner[begin : begin + len(data)] = [me] * len(data)
            self.held += len(data)
            return True
        for place in wins:
            self.make_room(place + 1)
            self.held += self.owner[place] == NOBODY
            self.data[place] = data[place - begin]
            self.owner[place] = me
        return bool(wins)

    def lows(self) -> Dict[int, int]:
        """Each piece's least offset."""
        found: Dict[int, int] = {}
        for place, who in enumerate(self.owner):
            if who != NOBODY:
                found.setdefault(who, place)
        return found

    def follows(self, piece: Piece) -> None:
        """Adds a piece to the runs."""
        if self.runs and piece.begin == self.runs[-1][1]:
            self.runs[-1] = (self.runs[-1][0], piece.end)
        else:
            self.runs = sorted([*self.runs, (piece.begin, piece.end)])

    def whole_by_highest(self) -> Optional[int]:
        """The length if the piece with the highest offset says that none follows."""
        length = self.top
        if not length or self.held != length or any(it.begin > length for it in self.empty):
            return None
        last = [it.more for it in self.empty if it.begin == length]
        more = last[-1] if last else self.pieces[self.owner[length - 1]].more
        return None if more else length

    def whole_by_latest(self) -> Optional[int]:
        """The length according to the last fragment that arrived."""
        end = self.end
        if end is None or end > self.top or NOBODY in self.owner[:end]:
            return None
        return end


Key = Tuple[int, int, int, int]


class Reassembly:
    """All unfinished datagrams, the oldest first."""

    def __init__(self, path: Path) -> None:
        self.choose = path.choose
        self.open: Dict[Key, Unfinished] = {}

    def expired(self, now: int) -> List[Tuple[Key, Unfinished]]:
        """Drops what is too old."""
        gone = []
        while self.open:
            key, oldest = next(iter(self.open.items()))
            age = now - oldest.born
            if age < 5000 or age < int(self.choose("expire")) * 1000:  # type: ignore[arg-type]
                break
            gone.append((key, self.open.pop(key)))
        return gone

    def arrive(self, header: Header, now: int) -> Optional[bytes]:
        """Processes a fragment. Returns the datagram's data if it's whole now."""
        key, begin, data = header.key, header.offset, header.data
        if data and begin + len(data) > MOST_DATA:
            return None
        if header.more and len(data) % 8:
            odd = self.choose("odd")
            if odd == "refuse":
                return None
            if odd == "round down":
                data = data[: len(data) // 8 * 8]
        if not data and not self.takes_empty(key):
            return None
        if not self.has_room(key):
            return None
        it = self.open.get(key)
        if it is None:
            it = self.open[key] = Unfinished(now)
        it.marks.add(header.tos & 3)
        piece = Piece(begin, begin + len(data), header.more)
        if self.disagrees(it, piece) and self.choose("ends") == "drop all":
            del self.open[key]
            return None
        if not self.keep(key, it, piece, data):
            return None
        return self.whole(key, it)

    def takes_empty(self, key: Key) -> bool:
        empty = self.choose("empty")
        if empty == "drop all":
            self.open.pop(key, None)
        return empty in ("take", "hold the place")

    def has_room(self, key: Key) -> bool:
        """Whether another one may begin, after others were dropped for it."""
        if key in self.open or len(self.open) < 3:
            return True
        what, most = self.choose("kept")  # type: ignore[misc]
        if what == "all" or len(self.open) < int(most):
            return True
        if what == "refuse":
            return False
        for old in list(self.open)[: 1 if what == "oldest" else None]:
            del self.open[old]
        return True

    @staticmethod
    def disagrees(it: Unfinished, piece: Piece) -> bool:
        """Whether the ends that fragments report don't agree."""
        if piece.more:
            return it.end is not None and piece.end > it.end
        return piece.end < it.top or it.end not in (None, piece.end)

    def keep(self, key: Key, it: Unfinished, piece: Piece, data: bytes) -> bool:
        """Inserts a piece over the present ones. Returns False if it's dropped, or if all of them are."""
        if self.place_is_held(it, piece):
            return False
        wins: Optional[List[int]] = None
        if it.meets(piece.begin, piece.end):
            overlap = self.choose("overlap")
            repeat = any(begin <= piece.begin and piece.end <= end for begin, end in it.runs)
            if overlap == "drop all but repeats" and not piece.more:
                it.end = piece.end  # a repeat's bytes are dropped, but its end counts
            if overlap == "drop new" or overlap == "drop all but repeats" and repeat:
                return False
            if overlap == "drop all but exact repeats" and piece in it.pieces:
                return False
            if str(overlap).startswith("drop all"):
                del self.open[key]
                return False
            wins = self.won(it, piece, str(overlap))
        it.pieces.append(piece)
        it.follows(piece)
        if not data and (piece.begin >= it.top or it.owner[piece.begin] == NOBODY):
            it.empty.append(piece)
        stayed = it.lay(piece.begin, data, wins)
        if not piece.more and (stayed or not data):
            it.end = piece.end
        return True

    def place_is_held(self, it: Unfinished, piece: Piece) -> bool:
        """Whether a fragment is dropped because an empty one is inside it, or it's an empty one inside another."""
        if piece.begin == piece.end:
            clash = any(old.begin <= piece.begin < max(old.end, old.begin + 1) for old in it.pieces)
        else:
            clash = bool(it.empty) and any(piece.begin <= old.begin < piece.end for old in it.empty)
        return clash and self.choose("empty") == "hold the place"

    @staticmethod
    def won(it: Unfinished, piece: Piece, overlap: str) -> List[int]:
        """The offsets at which the newcomer's bytes count."""
        places = range(piece.begin, piece.end)
        if overlap == "last":
            return list(places)
        free = [place >= it.top or it.owner[place] == NOBODY for place in places]
        if overlap == "first":
            return [place for place, nobody in zip(places, free) if nobody]
        lows = it.lows()
        return [place for place, nobody in zip(places, free) if nobody or lows[it.owner[place]] > piece.begin]

    def whole(self, key: Key, it: Unfinished) -> Optional[bytes]:
        """The data if it's complete."""
        by_highest, by_latest = it.whole_by_highest(), it.whole_by_latest()
        length = by_highest
        if by_highest != by_latest and self.choose("ends") != "highest":
            length = by_latest
        if length is None:
            return None
        del self.open[key]
        if 0 in it.marks and len(it.marks) > 1:
            ecn = self.choose("ecn")
            if ecn == "drop mixed" or ecn == "drop CE" and 3 in it.marks:
                return None
        return bytes(it.data[:length])

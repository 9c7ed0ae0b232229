"""How often somebody may try to sign in: so many failures in so many seconds from one address."""

import time
from collections import OrderedDict, deque
from typing import Callable

MOST_ADDRESSES = 10_000


class Attempts:
    def __init__(self, most: int = 20, seconds: float = 300, clock: Callable[[], float] = time.monotonic):
        self.most, self.seconds, self.clock = most, seconds, clock
        self.failures: OrderedDict[str, deque[float]] = OrderedDict()

    def wait(self, address: str) -> int:
        """How many seconds the address has to wait; 0 where it may try."""
        times = self.failures.get(address)
        if times is None:
            return 0
        while times and times[0] <= self.clock() - self.seconds:
            times.popleft()
        if len(times) < self.most:
            return 0
        return max(1, round(times[0] + self.seconds - self.clock()))

    def failed(self, address: str) -> None:
        self.failures.setdefault(address, deque(maxlen=self.most)).append(self.clock())
        self.failures.move_to_end(address)
        if len(self.failures) > MOST_ADDRESSES:
            self.failures.popitem(last=False)

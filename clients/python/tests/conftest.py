from __future__ import annotations

from collections.abc import Iterator

import pytest

from fake import FakeDaemon


@pytest.fixture
def daemon() -> Iterator[FakeDaemon]:
    made = FakeDaemon("127.0.0.1", 0, 1)
    yield made
    made.close()

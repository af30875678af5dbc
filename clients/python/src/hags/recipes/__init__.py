"""Recipes: what programs mostly build on groups. docs/recipes.md says how each is used, and what it promises."""

from .barrier import Barrier
from .leader import Leader
from .lock import Lock
from .shares import Share, Shares
from .value import Value
from .watch import Change, Watch

__all__ = ["Barrier", "Change", "Leader", "Lock", "Share", "Shares", "Value", "Watch"]

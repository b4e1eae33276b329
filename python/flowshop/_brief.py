"""Classes of which help() shows what they have for their users, and not what Python gives to every class of their
kind."""

from abc import ABCMeta
from typing import Iterable


class Brief(type):
    """The class of such classes. Their objects have all names as ever."""

    def __dir__(cls) -> Iterable[str]:
        """The public names of a class that are not those of Python."""
        package = __name__.partition(".")[0]
        own = [each for each in cls.__mro__ if each.__module__.partition(".")[0] == package]
        return sorted({name for each in own for name in vars(each) if not name.startswith("_")})


class BriefABC(Brief, ABCMeta):
    """The same of a class that is also one of collections.abc."""

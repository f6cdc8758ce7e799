"""Values: immutable objects with named fields, as frozen dataclasses are."""

from typing import TYPE_CHECKING, Any, ClassVar, Dict, Mapping, Sequence, Tuple, Type

if TYPE_CHECKING:
    from dataclasses import dataclass as dataclass
else:

    def dataclass(**_):
        """Stands for `dataclasses.dataclass`, by which type checkers know the fields of a class. `Value` has the methods for all
        classes, since to make them for each takes longer than all else of the import."""
        return lambda kind: kind


class _OfDataclass:
    """An attribute that a dataclass with the same fields has. Its class is made when it is first asked for."""

    def __init__(self, read: str) -> None:
        self.read = read

    def __get__(self, value: object, kind: "Type[Value]") -> Any:
        import dataclasses
        import inspect

        own = {name: annotation for base in reversed(kind.__mro__) for name, annotation in getattr(base, "__annotations__", {}).items()}
        fields = [(name, own[name], dataclasses.field(default=getattr(kind, name, dataclasses.MISSING))) for name in kind._names]
        made = dataclasses.make_dataclass(kind.__name__, fields, frozen=True)
        return inspect.signature(made) if self.read == "__signature__" else getattr(made, self.read)


class Value:
    """An immutable value. The fields of a class are its annotations, with their defaults, or those of the class that it is like.
    Values are equal if they are of one class and have equal fields. `dataclasses.fields`, `replace` and `asdict` take values."""

    _names: ClassVar[Tuple[str, ...]] = ()
    __match_args__: ClassVar[Tuple[str, ...]] = ()
    if not TYPE_CHECKING:
        __dataclass_fields__ = _OfDataclass("__dataclass_fields__")
        __signature__ = _OfDataclass("__signature__")

    def __init_subclass__(cls) -> None:
        names = [name for name, kind in cls.__annotations__.items() if getattr(kind, "__origin__", None) is not ClassVar]
        if names:
            cls._names = tuple(names)
            setattr(cls, "__match_args__", cls._names)

    if not TYPE_CHECKING:

        def __init__(self, *values, **named):
            self.__dict__.update(zip(self._names, self._given(values, named)))
            self.__post_init__()

    def __post_init__(self) -> None:
        """Makes the fields what they are kept as, in `__dict__`."""

    @classmethod
    def _given(cls, values: Sequence[Any], named: Mapping[str, Any]) -> Sequence[Any]:
        """Returns a value for each field: those that are given by place or by name, and defaults."""
        names = cls._names
        if not named and len(values) == len(names):
            return values
        found = dict(zip(names, values))
        if len(values) > len(names) or found.keys() & named.keys() or named.keys() - set(names):
            raise TypeError(f"{cls.__name__}() takes {', '.join(names)}, each once")
        found.update(named)
        lacking = [name for name in names if name not in found and not hasattr(cls, name)]
        if lacking:
            raise TypeError(f"{cls.__name__}() lacks {', '.join(lacking)}")
        return [found[name] if name in found else getattr(cls, name) for name in names]

    def __setattr__(self, name: str, value: object) -> None:
        from dataclasses import FrozenInstanceError

        raise FrozenInstanceError(f"cannot assign to field {name!r}")

    def __delattr__(self, name: str) -> None:
        from dataclasses import FrozenInstanceError

        raise FrozenInstanceError(f"cannot delete field {name!r}")

    def __eq__(self, other: object) -> bool:
        if type(other) is not type(self):
            return NotImplemented
        return self.__dict__ == other.__dict__

    def __hash__(self) -> int:
        own: Dict[str, Any] = self.__dict__
        return hash((type(self), *[own[name] for name in self._names]))

    def __repr__(self) -> str:
        own: Dict[str, Any] = self.__dict__
        return f"{type(self).__qualname__}({', '.join([f'{name}={own[name]!r}' for name in self._names])})"

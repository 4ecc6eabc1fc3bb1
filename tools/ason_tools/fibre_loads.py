"""The load of fibres: how many of their labels are in use, reserved, held by other calls, and free."""

from dataclasses import dataclass

from .circuits import Fibre, Holder
from .scene import Scene


@dataclass(frozen=True)
class Load:
    """How the labels of a fibre are taken. Of the drawn calls they are used or reserved."""

    used: int
    reserved: int
    others: int
    labels: int

    @property
    def taken(self) -> int:
        return self.used + self.reserved + self.others

    @property
    def share(self) -> float:
        """The share of the labels that somebody holds."""
        return self.taken / self.labels


def loads(scene: Scene) -> dict[Fibre, Load]:
    """The load of each fibre of the network."""
    fibres = [((link.id, sender), link.labels) for link in scene.plan.links for sender in link.ends]
    return {fibre: _load(scene, scene.usage.holders.get(fibre, {}), labels) for fibre, labels in fibres}


def _load(scene: Scene, held: dict[int, list[Holder]], labels: int) -> Load:
    drawn = [[it for it in holders if it.circuit is not None and scene.has(it.circuit)] for holders in held.values()]
    used = sum(any(it.is_connected for it in mine) for mine in drawn)
    reserved = sum(bool(mine) for mine in drawn) - used
    return Load(used, reserved, len(held) - used - reserved, labels)

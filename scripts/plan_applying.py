"""What all changes of a plan have in common when they are applied to a bundle."""

from __future__ import annotations

from collections.abc import Callable, Iterable
from typing import Any

from scripts.bundles import LISTS, Row, harmless
from scripts.plan_changes import UNKNOWN, Change, Plan, Untold, shown
from scripts.plan_rows import Bundle, inner
from scripts.plan_rules import Rules


class Applying:
    """A plan and a bundle, and the lines about what isn't applied."""

    def __init__(self, plan: Plan, bundle: Bundle) -> None:
        self.plan, self.bundle, self.rules = plan, bundle, Rules(bundle)
        plan.default_group = bundle.default_group
        self.lines: list[str] = []
        self.told: set[str] = set()

    def tell(self, address: Any, why: object) -> None:
        self.told.add(shown(address))
        self.lines.append(f"not applied: {shown(address)}: {harmless(why, 'line')}")

    def tell_unknown(self, change: Change, name: str, more: str = "") -> None:
        self.tell(change.address, f"{name} {UNKNOWN}{more}")

    def attempt(self, change: Change, act: Callable[[], Any]) -> bool:
        """Does something, or tells why it can't be applied."""
        try:
            act()
        except Untold as why:
            self.tell(change.address, why)
            return False
        return True

    def attempt_each(self, change: Change, *acts: Callable[[], Any]) -> None:
        """What can't be applied of a change doesn't keep the rest of it from being applied."""
        for act in acts:
            self.attempt(change, act)

    def refuse_unknown(self, change: Change, names: Iterable[str]) -> None:
        for name in names:
            if change.is_unknown(name):
                raise Untold(f"{name} {UNKNOWN}")

    def refuse_used(self, used: list[Any]) -> None:
        if used:
            first = ", ".join(map(shown, used[:3]))
            raise Untold(f"{first}{' and others' * (len(used) > 3)} would still need it")

    def named(self, change: Change, kind: str, name: str) -> Row:
        """The row of the bundle whose id is an attribute of a resource."""
        return self.bundle.row(kind, self.plan.one(change, name, kind))

    def own(self, change: Change, kind: str) -> Row:
        """The row of the bundle that a resource is."""
        is_new = change.does("create")
        return self.bundle.row(kind, self.plan.own_id(change) if is_new else change.after.get("id"))

    def home(self) -> Row:
        """The object of an account to which new VPCs belong, and gateways of none: the one whose
        rows the plan is about."""
        if len(self.bundle.objects) == 1:
            return self.bundle.objects[0]
        known = {it.id_before() for it in self.plan.changes}
        found = [
            part
            for part in self.bundle.objects
            if any(
                row.get(key) in known for name, key in LISTS.items() for row in part.get(name) or []
                if isinstance(row.get(key), str)
            )
        ]
        if len(found) != 1:
            raise Untold("which of the bundle's accounts it is made in isn't told")
        return found[0]

    def vpc_of(self, change: Change) -> Any:
        """The id of a resource's VPC: the default one where none is told."""
        return self.plan.one(change, "vpc_id", "VpcId") or self.bundle.default_vpc()

    def untie(self, name: str, key: str, found: Any) -> Row:
        """Takes a subnet's or a gateway's association away from the row that has it, and gives
        it."""
        for row in self.bundle.rows(name):
            for it in inner(row, "Associations"):
                if it.get(key) == found:
                    row["Associations"] = [that for that in row["Associations"] if that is not it]
                    return dict(it)
        return {}

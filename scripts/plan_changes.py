"""What a Terraform plan does with each resource, and what its expressions refer to."""

from __future__ import annotations

import hashlib
import json
import re
from collections.abc import Callable, Iterable
from typing import Any, NamedTuple, Optional, Union

from scripts.bundles import NoBundle, Row, harmless, json_in, member, no_number, rows
from scripts.commands import Refused

# What the id of a resource is of.
KINDS = {
    "aws_vpc": "VpcId",
    "aws_subnet": "SubnetId",
    "aws_network_interface": "NetworkInterfaceId",
    "aws_route_table": "RouteTableId",
    "aws_default_route_table": "RouteTableId",
    "aws_network_acl": "NetworkAclId",
    "aws_default_network_acl": "NetworkAclId",
    "aws_security_group": "GroupId",
    "aws_default_security_group": "GroupId",
    "aws_vpn_gateway": "VpnGatewayId",
    "aws_vpc_endpoint": "VpcEndpointId",
}
# What comes with a VPC, by the attributes that name it.
OF_VPC = {
    "default_security_group_id": "GroupId",
    "default_network_acl_id": "NetworkAclId",
    "default_route_table_id": "RouteTableId",
    "main_route_table_id": "RouteTableId",
}
# The attributes by which a resource names what of a VPC it adopts.
ADOPTED = {
    "aws_default_network_acl": "default_network_acl_id",
    "aws_default_route_table": "default_route_table_id",
}
UNKNOWN = "isn't known before the apply"

# A part of an address or a reference: a name, or a key within a tuple.
Part = Union[str, tuple[Any]]
Parts = list[Part]
# The modules of an address, each with its key.
ModulePath = tuple[tuple[Any, Any], ...]


class Untold(Exception):
    """Why something can't be applied."""


class NewId(str):
    """The name that stands for an id that isn't known yet, and what it is the id of."""

    kind: Optional[str]

    def __new__(cls, text: str, kind: Optional[str]) -> NewId:
        made = super().__new__(cls, id_text(text))
        made.kind = kind
        return made


def id_text(address: str) -> str:
    """An address as an id: up to 256 visible characters, and no two addresses alike."""
    visible = "".join(it if "!" <= it <= "~" else "_" for it in address)
    if visible == address and len(visible) <= 200:
        return address
    digest = hashlib.sha256(address.encode("utf-8", "surrogatepass")).hexdigest()
    return f"{visible[:180]}~{digest[:12]}"


def shown(value: object) -> str:
    """Words as they are; what are none in the form of JSON, so that a line stays one."""
    return harmless(value, "words")


def float_of(text: str) -> Any:
    """A number with a point or an exponent, where a float holds it."""
    return float(text) if abs(float(text)) != float("inf") else no_number(text)


def json_of(path: str, what: str) -> Any:
    try:
        return json_in(path, float_of)
    except NoBundle as why:
        raise Refused(f"{shown(path)} is no {what}: {why}") from None


def items(value: Any) -> list[Any]:
    """A list as it is, and nothing where there is none."""
    if value is None:
        return []
    if not isinstance(value, list):
        raise Untold(f"{shown(value)[:60]} is no list")
    return value


def has_true(value: Any) -> bool:
    if isinstance(value, dict):
        value = list(value.values())
    return any(map(has_true, value)) if isinstance(value, list) else value is True


def flat(values: Iterable[Any]) -> list[Any]:
    found = (inner for it in values for inner in (flat(it) if isinstance(it, list) else [it]))
    return [it for it in found if not isinstance(it, (dict, list))]


# ---- addresses of resources

CHOOSING = (["count", "index"], ["each", "key"], ["each", "value"])
TOKEN = re.compile(r'\.?([^.\[\]"]+)|\[(-?\d+|"(?:[^"\\]|\\.)*")\]')


def tokens(text: str) -> Parts:
    """An address or a reference in its parts: names, and keys within a tuple."""
    found: Parts = []
    end = 0
    for it in TOKEN.finditer(text):
        if it.start() != end:
            break
        end = it.end()
        found.append(it.group(1) if it.group(1) is not None else (key_of(it.group(2)),))
    return found if end == len(text) else [text]


def key_of(text: str) -> Any:
    """A key within brackets: a number, or a text in quotation marks."""
    try:
        return json.loads(text)
    except ValueError:
        return text


def keyed(parts: Parts) -> tuple[Any, Parts]:
    """The key with which parts begin, if they do, and the others."""
    first = parts[0] if parts else None
    return (first[0], parts[1:]) if isinstance(first, tuple) else (None, parts)


def plain(names: Parts) -> list[Any]:
    return [it[0] if isinstance(it, tuple) else it for it in names]


def written(parts: Parts) -> str:
    """Parts as an address has them."""
    words = (f"[{json.dumps(it[0])}]" if isinstance(it, tuple) else f".{it}" for it in parts)
    return "".join(words).removeprefix(".")


def module_path(address: Optional[str]) -> ModulePath:
    """The modules of an address, each with its key."""
    path: list[tuple[Any, Any]] = []
    parts = tokens(address) if address else []
    while len(parts) > 1 and parts[0] == "module":
        key, rest = keyed(parts[2:])
        path.append((parts[1], key))
        parts = rest
    return tuple(path)


def heads(references: Iterable[Any]) -> list[Parts]:
    """Each reference once: a plan has behind each the parts with which it begins."""
    found: list[Parts] = []
    last: Parts = []
    for parts in (tokens(it) for it in references if isinstance(it, str)):
        if last[: len(parts)] != parts or last == parts:
            found.append(parts)
        last = parts
    return found


# ---- changes


class Change:
    """What a plan does with one resource."""

    def __init__(self, row: Row) -> None:
        change: Row = row["change"] if isinstance(row.get("change"), dict) else {}
        self.address: Any = row.get("address")
        self.type: Any = row.get("type")
        self.name: Any = row.get("name")
        actions = change.get("actions")
        named = (self.address, self.type, self.name)
        if not all(isinstance(it, str) for it in named) or not isinstance(actions, list):
            what = "no address, type, name and actions"
            raise Refused(f"a row of its resource_changes tells {what}")
        self.key = row.get("index") if isinstance(row.get("index"), (str, int)) else None
        module = row.get("module_address")
        self.path = module_path(module if isinstance(module, str) else "")
        self.is_managed = row.get("mode") in (None, "managed")
        self.is_deposed = row.get("deposed") is not None
        self.actions = actions
        self.before, self.after, self.unknown = (
            it if isinstance(it, dict) else Row()
            for it in (change.get("before"), change.get("after"), change.get("after_unknown"))
        )

    def does(self, *actions: str) -> bool:
        return any(it in self.actions for it in actions)

    def id_before(self) -> Optional[str]:
        found = self.before.get("id")
        return found if isinstance(found, str) else None

    def is_unknown(self, *names: Any) -> bool:
        """Whether a value isn't known, or a part of it isn't."""
        return has_true(member(self.unknown, *names))

    def differs(self, name: str) -> bool:
        return self.is_unknown(name) or self.before.get(name) != self.after.get(name)


class Scope(NamedTuple):
    """By what count.index and each are told in a resource or a module: its key, what it is for each
    of, where, and how many there are."""

    key: Any
    expression: Any
    path: ModulePath
    many: Optional[int] = None


def own_interfaces(change: Change) -> list[tuple[str, int, Row]]:
    """The blocks by which an instance takes interfaces that are there already: the attribute, the
    block's number, and the block."""
    return [
        (name, number, it) for name in ("network_interface", "primary_network_interface")
        for number, it in enumerate(rows(change.after, name))
    ]


def first_interface(change: Change) -> NewId:
    """The name of the interface that comes with a new instance."""
    return NewId(f"{change.address}.primary_network_interface_id", "NetworkInterfaceId")


def of_vpc(vpc: str, attribute: str) -> NewId:
    """The name of what comes with a new VPC."""
    is_main = attribute == "main_route_table_id"
    name = "default_route_table_id" if is_main else attribute
    return NewId(f"{vpc}.{name}", OF_VPC[name])


def plan_value(path: str) -> Row:
    """The value of a file that is a plan."""
    value = json_of(path, "plan")
    why = why_no_plan(value)
    if why:
        raise Refused(f"{shown(path)} is no plan: {why}")
    found: Row = value
    return found


def why_no_plan(value: Any) -> str:
    if not isinstance(value, dict) or not isinstance(value.get("format_version"), str):
        return "it is not what `terraform show -json` prints"
    if not any(name in value for name in ("resource_changes", "planned_values")):
        return "it has neither resource_changes nor planned_values"
    if value["format_version"].split(".")[0] not in ("0", "1"):
        return f"its format_version is {shown(value['format_version'])}"
    if value.get("errored") is True:
        return "making it failed, as its errored says"
    found = value.get("resource_changes") or []
    if not isinstance(found, list) or not all(isinstance(it, dict) for it in found):
        return "its resource_changes is no list of objects"
    return ""


class Plan:
    """The changes of a plan, and what its expressions refer to."""

    def __init__(self, path: str) -> None:
        value = plan_value(path)
        try:
            found = map(Change, value.get("resource_changes") or [])
            self.changes = [it for it in found if it.is_managed]
        except Refused as why:
            raise Refused(f"{shown(path)} is no plan: {why}") from None
        self.put_off = [
            member(it, "resource_change", "address") for it in rows(value, "deferred_changes")
        ]
        self.root = member(value, "configuration", "root_module")
        self.variables = value.get("variables")
        # (to look up the default group of a VPC, which a plan may adopt)
        self.default_group: Callable[[Any], Row] = lambda vpc: {}
        self.data: dict[tuple[Any, ...], Any] = {}
        self.instances: dict[tuple[ModulePath, Any, Any], dict[Any, Change]] = {}
        self.read_prior(member(value, "prior_state", "values", "root_module"))
        for it in self.changes:
            if not it.is_deposed and it.does("create", "update", "no-op"):
                self.instances.setdefault((it.path, it.type, it.name), {})[it.key] = it
        self.leaving = {it.id_before() for it in self.changes if it.does("delete")}
        stay = {
            path for (path, _, _), found in self.instances.items()
            if any(not it.does("delete") or it.does("create") for it in found.values())
        }
        self.modules = {path[:depth] for path in stay for depth in range(1, len(path) + 1)}

    def read_prior(self, module: Any) -> None:
        """What the state had: data, and resources that the plan passes over."""
        for it in rows(module, "resources"):
            path, key = module_path(module.get("address")), it.get("index")
            if it.get("mode") == "data":
                self.data[path, it.get("type"), it.get("name"), key] = it.get("values")
            elif isinstance(it.get("values"), dict) and isinstance(it.get("address"), str):
                change = {"actions": ["no-op"], "after": it["values"]}
                row = {**it, "module_address": module.get("address"), "change": change}
                row["index"] = key if isinstance(key, (str, int)) else None
                name = (path, it.get("type"), it.get("name"))
                self.instances.setdefault(name, {})[key] = Change(row)
        for it in rows(module, "child_modules"):
            self.read_prior(it)

    def told_addresses(self) -> set[str]:
        """The private addresses and prefixes that the plan gives to somebody."""
        names = "private_ip private_ips private_ip_list secondary_private_ips ipv4_prefixes".split()
        values = [it.after.get(name) for it in self.changes for name in names]
        placed = (row for it in self.changes for row in rows(it.after, "subnet_configuration"))
        values += [it.get("ipv4") for it in placed]
        return {it for it in flat(values) if isinstance(it, str)}

    # -- expressions

    def module_at(self, path: ModulePath) -> Any:
        found = self.root
        for name, _ in path:
            found = member(found, "module_calls", name, "module")
        return found

    def resource_at(self, change: Change) -> Row:
        for it in rows(self.module_at(change.path), "resources"):
            names = (it.get("type"), it.get("name"))
            if names == (change.type, change.name) and it.get("mode") in (None, "managed"):
                return it
        return {}

    def expression(self, change: Change, name: Any) -> Any:
        """The expression of an attribute; None where it isn't configured."""
        return member(self.resource_at(change), "expressions", name)

    def is_told(self, change: Change, name: str) -> bool:
        """Whether an attribute is configured."""
        return self.expression(change, name) is not None

    def looked_up(self, change: Change, name: str, otherwise: str) -> list[Any]:
        """The values that an attribute's expression refers to, each once: ids to come, and what is
        known."""
        found = self.expression(change, name)
        if found is None:
            raise Untold(otherwise)
        try:
            values = self.evaluated(found, change.path, self.scope_of(change), 0)
            return list(dict.fromkeys(flat(values)))
        except Untold as why:
            raise Untold(f"{otherwise}: {why}") from None

    def evaluated(self, expression: Any, path: ModulePath, scope: Scope, depth: int) -> list[Any]:
        if depth > 40:
            raise Untold("its references lead too far")
        parts = expression if isinstance(expression, list) else []
        if isinstance(expression, dict):
            if "constant_value" in expression:
                return [expression["constant_value"]]
            if "references" in expression:
                found = heads(items(expression["references"]))
                return self.of_heads(found, path, scope, depth)
            parts = list(expression.values())
        return [value for it in parts for value in self.evaluated(it, path, scope, depth + 1)]

    def of_heads(self, found: list[Parts], path: ModulePath, scope: Scope, depth: int) -> list[Any]:
        # (one that chooses among the instances of a resource is no value of its own)
        chosen = [it for it in found if it not in CHOOSING]
        own = len(chosen) < len(found)
        if own and any(len(it) == 2 and (path, it[0], it[1]) in self.instances for it in chosen):
            found = chosen
        return [value for it in found for value in self.of_head(it, path, scope, own, depth + 1)]

    def of_head(
        self, parts: Parts, path: ModulePath, scope: Scope, own: bool, depth: int
    ) -> list[Any]:
        """What a reference of a module stands for."""
        first, rest = parts[0], parts[1:]
        if first == "var" and rest:
            return self.variable(path, rest[0], rest[1:], depth)
        if parts in (["count", "index"], ["each", "key"]):
            return [scope.key]
        if parts[:2] == ["each", "value"]:
            return self.each_value(parts[2:], scope, own, depth)
        if first == "module" and len(rest) > 1:
            return self.output(path, rest, depth)
        if first == "data" and len(rest) > 1:
            key, names = keyed(rest[2:])
            found = self.data.get((path, rest[0], rest[1], key))
            return [self.known(member(found, *plain(names)), parts)]
        if len(rest) > 0 and (path, first, rest[0]) in self.instances:
            instances = self.instances[path, first, rest[0]]
            return self.of_resource(instances, rest[1:], scope, own, depth)
        return [self.known(None, parts)]

    def known(self, value: Any, parts: Parts) -> Any:
        if value is None:
            raise Untold(f"a plan doesn't tell {written(parts)}")
        return value

    def of_resource(
        self, instances: dict[Any, Change], parts: Parts, scope: Scope, own: bool, depth: int
    ) -> list[Any]:
        key, names = keyed(parts)
        is_one = key is not None or names or set(instances) == {None}
        chosen = [key] if is_one else list(instances)
        if len(chosen) > 1 and own:
            # (by the number or the key of the resource that refers to it)
            is_numbered = not isinstance(scope.key, str)
            if scope.key not in instances or is_numbered and len(instances) != scope.many:
                raise Untold("which of several it refers to isn't told")
            chosen = [scope.key]
        if any(it not in instances for it in chosen):
            raise Untold("it refers to what the plan doesn't have")
        wanted = plain(names) or ["id"]
        return [value for it in chosen for value in self.attribute(instances[it], wanted, depth)]

    def attribute(self, change: Change, names: list[Any], depth: int) -> list[Any]:
        """What an attribute of a resource will be."""
        found = member(change.after, *names)
        if found is not None and not change.is_unknown(*names):
            return found if isinstance(found, list) else [found]
        if names == ["id"]:
            return [self.own_id(change)]
        if change.type == "aws_vpc" and names[0] in OF_VPC:
            return [of_vpc(self.own_id(change), names[0])]
        is_first = names == ["primary_network_interface_id"]
        if change.type == "aws_instance" and is_first and not own_interfaces(change):
            return [first_interface(change)]
        expression = self.expression(change, names[0])
        if expression is None or len(names) > 1:
            raise Untold(f"{change.address}.{names[0]} {UNKNOWN}")
        return self.evaluated(expression, change.path, self.scope_of(change), depth + 1)

    def scope_of(self, change: Change) -> Scope:
        many = len(self.instances.get((change.path, change.type, change.name), ()))
        each = member(self.resource_at(change), "for_each_expression")
        return Scope(change.key, each, change.path, many)

    def own_id(self, change: Change) -> str:
        """The id of a resource, or the name that stands for it."""
        known = change.after.get("id")
        if isinstance(known, str) and known:
            return known
        if change.type in ADOPTED:
            return self.one(change, ADOPTED[change.type], KINDS[change.type]) or ""
        if change.type == "aws_default_security_group":
            vpc = self.one(change, "vpc_id", "VpcId")
            if isinstance(vpc, NewId):
                return of_vpc(vpc, "default_security_group_id")
            return str(self.default_group(vpc)["GroupId"])
        return NewId(change.address, KINDS.get(change.type, change.type))

    def each_value(self, names: Parts, scope: Scope, own: bool, depth: int) -> list[Any]:
        """What `each.value` stands for: the member of what a resource is made for each of."""
        key, path, wanted = scope.key, scope.path, plain(names)
        references = member(scope.expression, "references")
        found = heads(references) if isinstance(references, list) else []
        if len(found) == 1 and len(found[0]) == 2 and (path, *found[0]) in self.instances:
            instances = self.instances[path, found[0][0], found[0][1]]
            if key not in instances or len(instances) != scope.many:
                raise Untold("each.value isn't told")
            return self.attribute(instances[key], wanted or ["id"], depth)
        values: list[Any] = []
        if scope.expression:
            values = self.evaluated(scope.expression, path, Scope(None, None, path), depth)
        if len(values) == 1 and isinstance(values[0], dict):
            value = member(values[0], key, *wanted)
            return [self.known(value, ["each", "value", *names])]
        if values and key in values or own and not names:
            return [key]
        raise Untold("each.value isn't told")

    def variable(self, path: ModulePath, name: Any, names: Parts, depth: int) -> list[Any]:
        if not path:
            told = member(self.variables, name)
            otherwise = member(self.root, "variables", name, "default")
            value = member(told, "value") if told else otherwise
            return [self.known(member(value, *plain(names)), ["var", name, *names])]
        call = member(self.module_at(path[:-1]), "module_calls", path[-1][0])
        expression = member(call, "expressions", name)
        if expression is None:
            value = member(call, "module", "variables", name, "default")
            return [self.known(member(value, *plain(names)), ["var", name, *names])]
        beside = [it for it in self.modules if len(it) == len(path) and it[:-1] == path[:-1]]
        many = sum(it[-1][0] == path[-1][0] for it in beside)
        each = member(call, "for_each_expression")
        scope = Scope(path[-1][1], each, path[:-1], many)
        return self.parts_of(self.within(expression, names), path[:-1], scope, names, depth)

    def output(self, path: ModulePath, parts: Parts, depth: int) -> list[Any]:
        """What an output of a module stands for, of all its instances where no key chooses one."""
        name: Any = parts[0]
        key, rest = keyed(parts[1:])
        expression = None
        if rest:
            call = member(self.module_at(path), "module_calls", name, "module")
            expression = member(call, "outputs", rest[0], "expression")
        if expression is None:
            self.known(None, ["module", *parts])
        beside = [it for it in self.modules if it[:-1] == path and it[-1][0] == name]
        keys = [it[-1][1] for it in beside] or [None]
        keys = [key] if key is not None else keys
        inner, scope = self.within(expression, rest[1:]), Scope(None, None, path)
        return [
            value for it in keys
            for value in self.parts_of(inner, (*path, (name, it)), scope, rest[1:], depth)
        ]

    def within(self, expression: Any, names: Parts) -> Any:
        """The expression of a part of what an expression makes, where it is that of a whole
        resource."""
        references = member(expression, "references")
        found = heads(references) if names and isinstance(references, list) else []
        if len(found) == 1 and len(found[0]) == 2:
            return {"references": [written([*found[0], *names])]}
        return expression

    def parts_of(
        self, expression: Any, path: ModulePath, scope: Scope, names: Parts, depth: int
    ) -> list[Any]:
        """The values of an expression. Which of several a part of it is, isn't told."""
        values = self.evaluated(expression, path, scope, depth)
        if not names:
            return values
        if len(values) == 1:
            found = member(values[0], *plain(names))
            if found is not None:
                return [found]
            if isinstance(values[0], str):
                return values
        raise Untold(f"which part of a value it refers to isn't told: {written(names)}")

    # -- attributes

    def one(self, change: Change, name: str, kind: Optional[str]) -> Optional[str]:
        """An attribute that is one id; None where it has none."""
        known = change.after.get(name)
        if not change.is_unknown(name):
            return known if known else None
        if self.resource_at(change) and not self.is_told(change, name):
            # (the provider's own word of what isn't configured)
            return None
        values = self.looked_up(change, name, f"{name} {UNKNOWN}")
        found = {it for it in values if isinstance(it, NewId)}
        fitting = sorted(it for it in found if kind is None or it.kind == kind)
        if len(fitting) != 1 or len(found) > 1 and kind is None:
            several = f", and may be {' or '.join(fitting)}" * (len(fitting) > 1)
            raise Untold(f"{name} {UNKNOWN}{several}")
        return next(it for it in found if it == fitting[0])

    def all_of(
        self, change: Change, name: str, kind: str, is_kind: Callable[[Any], bool]
    ) -> list[Any]:
        """An attribute that is a list of ids."""
        known = items(change.after.get(name))
        if not change.is_unknown(name):
            return known
        found = self.looked_up(change, name, f"{name} {UNKNOWN}")
        odd = [it for it in found if not is_of(it, kind, is_kind)]
        # (what goes with this plan is not kept)
        old = items(change.before.get(name)) if change.does("update") else []
        gone = [it for it in old if it not in found and shown(it) not in self.leaving]
        if odd or gone or not found:
            doubt = f", and may or may not keep {', '.join(map(shown, gone))}" * bool(gone)
            raise Untold(f"{name} {UNKNOWN}{doubt}")
        return found

    def one_among(
        self, change: Change, name: str, kind: Optional[str], is_kind: Callable[[Any], bool]
    ) -> NewId:
        """The id to come of a kind that is the only one of this kind to which an attribute made of
        blocks refers."""
        found = self.looked_up(change, name, UNKNOWN)
        fitting = [it for it in found if is_of(it, kind, is_kind)]
        if len(fitting) == 1 and isinstance(fitting[0], NewId):
            return fitting[0]
        several = f", and may be of {', '.join(fitting)}" * (len(fitting) > 1)
        raise Untold(f"{UNKNOWN}{several}")


def is_of(value: Any, kind: Optional[str], is_kind: Callable[[Any], bool]) -> bool:
    """Whether an id is of a kind: by what is known of one to come, or of others in the bundle."""
    return value.kind == kind if isinstance(value, NewId) else is_kind(value)

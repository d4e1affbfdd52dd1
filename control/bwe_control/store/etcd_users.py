"""The roles and users of an etcd cluster: who may write which key of a network."""

from __future__ import annotations

import secrets
from collections.abc import Callable, Iterator, Sequence
from dataclasses import dataclass
from typing import TYPE_CHECKING, Any

from bwe_control.errors import InputError, StoreError, StoreRefused
from bwe_control.keys import Keys
from bwe_control.store.etcd import key_bytes, range_end
from bwe_control.store.etcd_wire import NEEDS_LEADER, Wire, endpoints_of, rpc
from bwe_control.store.interface import Select

if TYPE_CHECKING:
    from bwe_control.store.opening import Tls

MOST_OF_A_NAME = 64  # letters of a certificate's CN
READS, WRITES, BOTH = 0, 1, 2


@dataclass(frozen=True)
class Role:
    """A user, its one role of the same name, and what that may do."""

    name: str
    permissions: tuple[tuple[int, Select], ...]


def roles_of(keys: Keys, reporters: Sequence[str]) -> list[Role]:
    """The roles of a network; each name is that of a user, and so the CN of its certificate."""
    everything = Select(keys.all, True)
    own = [Select(it) for it in (keys.accepted, keys.leader, keys.posted)]
    own += [Select(keys.slices, True), Select(keys.refusals, True)]
    allocator = ((READS, everything), *((WRITES, it) for it in own))
    operator = ((READS, everything), (WRITES, Select(keys.document)))
    return [
        Role(f"{keys.network}:operator", operator),
        Role(f"{keys.network}:allocator", allocator),
        *(_reporter(keys, name) for name in reporters),
    ]


def _reporter(keys: Keys, name: str) -> Role:
    reads = [keys.limits(name), keys.refused(name), keys.posted]
    permissions = ((BOTH, Select(keys.report(name))), *((READS, Select(it)) for it in reads))
    return Role(f"{keys.network}:reporter:{name}", permissions)


def make_users(store: str, tls: Tls | None, keys: Keys, reporters: Sequence[str]) -> Iterator[str]:
    """Makes what is not there yet and turns authentication on; a line for each user."""
    if not store.startswith("etcd:") or tls is None:
        raise InputError("--users is for a store of etcd, and with root's --ca, --cert and --key")
    roles = roles_of(keys, reporters)
    for role in roles:
        if len(role.name) > MOST_OF_A_NAME:
            raise InputError(
                f"{role.name} is longer than 64 letters, the most of a certificate's CN"
            )
    wire = Wire(endpoints_of(store.removeprefix("etcd:")), tls)
    try:
        yield from _made(_Auth(wire), roles)
    finally:
        wire.close()


def _made(auth: _Auth, roles: list[Role]) -> Iterator[str]:
    for role in roles:
        auth.add_role(role)
        auth.add_user(role.name, role.name)
        yield f"user {role.name}"
    auth.add_user("root", "root")
    auth.enable()
    yield "authentication is on"


class _Auth:
    """The calls of etcd about roles and users; what is there already stays as it is."""

    def __init__(self, wire: Wire) -> None:
        self._wire = wire

    def add_role(self, role: Role) -> None:
        self._call("RoleAdd", rpc.AuthRoleAddRequest(name=role.name))
        for kind, select in role.permissions:
            request = rpc.AuthRoleGrantPermissionRequest(name=role.name)
            request.perm.permType = _kind(kind)
            request.perm.key, request.perm.range_end = key_bytes(select.key), range_end(select)
            self._call("RoleGrantPermission", request)

    def add_user(self, name: str, role: str) -> None:
        """A user comes by certificate; the password that etcd wants is thrown away."""
        if role == "root":
            self._call("RoleAdd", rpc.AuthRoleAddRequest(name=role))
        self._call("UserAdd", rpc.AuthUserAddRequest(name=name, password=secrets.token_hex(32)))
        self._call("UserGrantRole", rpc.AuthUserGrantRoleRequest(user=name, role=role))

    def enable(self) -> None:
        self._call("AuthEnable", rpc.AuthEnableRequest())

    def _call(self, method: str, request: Any) -> None:
        def called(channel: Any, seconds: float) -> Any:
            call: Callable[..., Any] = getattr(rpc.AuthStub(channel), method)
            return call(request, timeout=2 * seconds, metadata=NEEDS_LEADER)

        try:
            self._wire.read(called)
        except StoreError as fault:
            if "already" not in str(fault):
                raise StoreRefused(str(fault)) from fault


def _kind(kind: int) -> Any:
    from etcd3.etcdrpc import auth_pb2

    return {
        READS: auth_pb2.Permission.READ,
        WRITES: auth_pb2.Permission.WRITE,
        BOTH: auth_pb2.Permission.READWRITE,
    }[kind]

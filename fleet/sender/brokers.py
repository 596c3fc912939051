"""What a broker reads, of each kind: its configuration, and who may do what. It is in the folder of certificates.

A machine reads its own requests and writes its own replies; a sender reads all replies and writes all requests. The name
in a certificate says who somebody is. What is done about a name is noted here, and the broker reads it when it is told
to, by what `bootfleet` prints."""

from __future__ import annotations

import json
import os
import re
import shutil
import subprocess
from abc import ABC, abstractmethod
from pathlib import Path
from typing import Any, Callable, Dict, List, Set

CRL = "crl.pem"
"""The file of revoked certificates."""


class BrokerError(Exception):
    """Why a broker can't be set up so."""


class Broker(ABC):
    """A broker, by the folder of what it reads."""

    kind = ""
    user = ""
    """The user of the system as whom it runs."""
    knows_machines = False
    """Whether it has to be told of each machine."""

    def __init__(self, folder: Path) -> None:
        self.folder = folder.resolve()

    @property
    @abstractmethod
    def configuration(self) -> Path:
        """The file that it is started by."""

    @abstractmethod
    def write(self, host: str, port: int) -> None:
        """Writes the configuration, unless it is there: somebody may have changed it."""

    @abstractmethod
    def how_to_start(self) -> str:
        """What whoever starts it has to do."""

    @abstractmethod
    def check_name(self, name: str) -> None:
        """Raises BrokerError if nobody can have this name."""

    @abstractmethod
    def senders(self) -> Set[str]:
        """The names of all senders."""

    def is_sender(self, name: str) -> bool:
        """Whether a sender has this name."""
        return name in self.senders()

    @abstractmethod
    def let_machines(self, names: List[str]) -> None:
        """Gives machines their rights."""

    @abstractmethod
    def let_sender(self, name: str) -> None:
        """Gives a sender its rights, which it hasn't yet."""

    @abstractmethod
    def take_rights(self, name: str) -> None:
        """Takes a machine's or a sender's rights away, as far as they are its own."""

    @abstractmethod
    def revoked_changed(self) -> None:
        """The file of revoked certificates was made anew."""

    @abstractmethod
    def how_to_let(self) -> str:
        """What makes the broker see whom it has to let in."""

    @abstractmethod
    def how_to_revoke(self, names: List[str]) -> List[str]:
        """What makes the broker see who has no rights any more."""


MOSQUITTO_CONF = """\
# The broker of a fleet, for mosquitto 2.0: TLS alone, and nobody without a certificate of the fleet's own authority.
listener {port}{bind}
cafile {folder}/broker/ca.pem
crlfile {folder}/crl.pem
certfile {folder}/broker/own.pem
keyfile {folder}/broker/own.key
require_certificate true
use_identity_as_username true
use_username_as_clientid true
allow_anonymous false
acl_file {folder}/acl
# Nothing is kept: what is lost is sent again.
persistence false
retain_available false
max_queued_messages 1000
max_queued_bytes 67108864
max_packet_size 1048576
"""

ACL = """\
# A machine reads what it is asked, and writes what it replies, and nothing else.
pattern read bootkeep/%u/request
pattern write bootkeep/%u/reply
"""

ACL_OF_SENDER = """
user {name}
topic write bootkeep/+/request
topic read bootkeep/+/reply
"""


class Mosquitto(Broker):
    """mosquitto 2.0: the access list has the senders, and a pattern for all machines."""

    kind = user = "mosquitto"

    @property
    def configuration(self) -> Path:
        return self.folder / "mosquitto.conf"

    @property
    def acl(self) -> Path:
        return self.folder / "acl"

    def write(self, host: str, port: int) -> None:
        bind = " 127.0.0.1" if host == "localhost" else ""
        write_new(
            self.configuration, MOSQUITTO_CONF.format(folder=self.folder, port=port, bind=bind)
        )
        write_new(self.acl, ACL)

    def how_to_start(self) -> str:
        return f"{self.configuration}: start the broker by it: mosquitto -c"

    def check_name(self, name: str) -> None:
        pass

    def senders(self) -> Set[str]:
        lines = (line.split() for line in self.acl.read_text(encoding="utf-8").splitlines())
        return {words[1] for words in lines if words[:1] == ["user"] and len(words) == 2}

    def let_machines(self, names: List[str]) -> None:
        pass

    def let_sender(self, name: str) -> None:
        with self.acl.open("a", encoding="utf-8") as out:
            out.write(ACL_OF_SENDER.format(name=name))

    def take_rights(self, name: str) -> None:
        """Takes out what one user may do: the lines up to those of another one, or of all."""
        if not self.is_sender(name):
            return
        kept, is_theirs = [], False
        for line in self.acl.read_text(encoding="utf-8").splitlines(keepends=True):
            words = line.split()
            if words[:1] in (["user"], ["pattern"]):
                is_theirs = words[:2] == ["user", name]
            if not is_theirs:
                kept.append(line)
        replace(self.acl, "".join(kept))

    def revoked_changed(self) -> None:
        pass

    def how_to_let(self) -> str:
        return "let the broker read its acl anew (SIGHUP)"

    def how_to_revoke(self, names: List[str]) -> List[str]:
        told = [
            "let the broker read its files anew (SIGHUP), or start it anew: who is connected stays so"
        ]
        if not self._reads_revoked():
            told.insert(0, f"name {self.folder / CRL} in the broker's configuration: crlfile")
        return told

    def _reads_revoked(self) -> bool:
        """Whether the configuration, which may be of an earlier version, names the file of revoked certificates."""
        lines = self.configuration.read_text(encoding="utf-8").splitlines()
        return any(line.split()[:1] == ["crlfile"] for line in lines)


RABBITMQ_CONFIG = """\
%% The broker of a fleet, for RabbitMQ 3.10 with its plugin rabbitmq_mqtt: TLS alone, and nobody without a certificate of
%% the fleet's own authority. All nodes of a cluster read the same.
[{{rabbit, [
    {{tcp_listeners, []}},
    {{ssl_options, [
        {{cacertfile, "{folder}/broker/ca.pem"}},
        {{certfile, "{folder}/broker/own.pem"}},
        {{keyfile, "{folder}/broker/own.key"}},
        {{verify, verify_peer}},
        {{fail_if_no_peer_cert, true}},
        %% Read at each connection.
        {{crl_check, peer}},
        {{crl_cache, {{ssl_crl_hash_dir, {{internal, [{{dir, "{folder}/crl"}}]}}}}}}]}},
    {{ssl_cert_login_from, common_name}},
    {{load_definitions, "{folder}/definitions.json"}}]}},
 {{rabbitmq_mqtt, [
    {{tcp_listeners, []}},
    {{ssl_listeners, [{listener}]}},
    {{ssl_cert_login, true}},
    {{allow_anonymous, false}},
    {{exchange, <<"{exchange}">>}},
    %% Nothing is kept: what is lost is sent again.
    {{retained_message_store, rabbit_mqtt_retained_msg_store_noop}}]}}].
"""

VHOST, EXCHANGE = "/", "amq.topic"

SENDER_READS, SENDER_WRITES = r"^bootkeep\.\*\.reply$", r"^bootkeep\.[^.]+\.request$"
"""The topics of senders, as RabbitMQ has them. What they read they ask for by a pattern."""


class RabbitMq(Broker):
    """RabbitMQ 3.10 with its plugin for MQTT, a node or a cluster: each machine and each sender is a user without a
    password, who may use queues of its own name alone."""

    kind = user = "rabbitmq"
    knows_machines = True

    @property
    def configuration(self) -> Path:
        return self.folder / "advanced.config"

    @property
    def definitions(self) -> Path:
        return self.folder / "definitions.json"

    def write(self, host: str, port: int) -> None:
        listener = f'{{"127.0.0.1", {port}}}' if host == "localhost" else str(port)
        text = RABBITMQ_CONFIG.format(folder=self.folder, listener=listener, exchange=EXCHANGE)
        write_new(self.configuration, text)
        empty: Dict[str, List[Any]] = {"users": [], "vhosts": [{"name": VHOST}]}
        empty.update({"permissions": [], "topic_permissions": []})
        write_new(self.definitions, json.dumps(empty, indent=1) + "\n")

    def how_to_start(self) -> str:
        return (
            f"{self.configuration}: enable the plugin rabbitmq_mqtt, and start each node with"
            " RABBITMQ_ADVANCED_CONFIG_FILE as this"
        )

    def check_name(self, name: str) -> None:
        if "." in name:
            raise BrokerError(f"{name}: RabbitMQ takes a dot for the end of a level of a topic")

    def senders(self) -> Set[str]:
        rights = self._read()["topic_permissions"]
        return {it["user"] for it in rights if it["write"] == SENDER_WRITES}

    def let_machines(self, names: List[str]) -> None:
        held = self._without(names)
        for name in names:
            level = re.escape(name)
            reads, writes = (rf"^bootkeep\.{level}\.{it}$" for it in ("request", "reply"))
            self._let(held, name, reads, writes)
        self._write(held)

    def let_sender(self, name: str) -> None:
        held = self._without([name])
        self._let(held, name, SENDER_READS, SENDER_WRITES)
        self._write(held)

    @staticmethod
    def _let(held: Dict[str, Any], name: str, reads: str, writes: str) -> None:
        """Adds a user to what is defined."""
        queue = rf"mqtt-subscription-{re.escape(name)}qos[01]"
        both = rf"^({queue}|{re.escape(EXCHANGE)})$"
        of_user = {"user": name, "vhost": VHOST}
        held["users"].append({"name": name, "password_hash": "", "tags": []})
        held["permissions"].append(
            {**of_user, "configure": f"^{queue}$", "write": both, "read": both}
        )
        held["topic_permissions"].append(
            {**of_user, "exchange": EXCHANGE, "write": writes, "read": reads}
        )

    def take_rights(self, name: str) -> None:
        self._write(self._without([name]))

    def _read(self) -> Dict[str, Any]:
        held: Dict[str, Any] = json.loads(self.definitions.read_text(encoding="utf-8"))
        return held

    def _write(self, held: Dict[str, Any]) -> None:
        replace(self.definitions, json.dumps(held, indent=1) + "\n")

    def _without(self, names: List[str]) -> Dict[str, Any]:
        """All that is defined, but for what is of these users."""
        held, left_out = self._read(), set(names)
        for part, key in (
            ("users", "name"),
            ("permissions", "user"),
            ("topic_permissions", "user"),
        ):
            held[part] = [it for it in held[part] if it[key] not in left_out]
        return held

    def revoked_changed(self) -> None:
        """Copies the file of revoked certificates to where Erlang looks for it, by the hash of who issued them."""
        made = self.folder / CRL
        words = ["openssl", "crl", "-hash", "-noout", "-in", str(made)]
        asked = subprocess.run(words, capture_output=True, text=True, check=True)
        (self.folder / "crl").mkdir(exist_ok=True)
        new = self.folder / "crl" / ".new"
        shutil.copy(made, new)
        os.replace(new, self.folder / "crl" / f"{asked.stdout.strip()}.r0")

    def how_to_let(self) -> str:
        return f"let the broker read it: rabbitmqctl import_definitions {self.definitions}"

    def how_to_revoke(self, names: List[str]) -> List[str]:
        return [
            f"take it out of the broker: rabbitmqctl delete_user {name}; who is connected stays so"
            for name in names
        ]


KINDS: Dict[str, Callable[[Path], Broker]] = {
    Mosquitto.kind: Mosquitto,
    RabbitMq.kind: RabbitMq,
}


def broker_of(folder: Path) -> Broker:
    """The broker whose files are in a folder."""
    if (folder / "definitions.json").exists():
        return RabbitMq(folder)
    return Mosquitto(folder)


def replace(path: Path, text: str) -> None:
    """Writes a file as a whole, with the access that it has."""
    new = path.with_name(f".{path.name}.new")
    new.write_text(text, encoding="utf-8")
    shutil.copymode(path, new)
    os.replace(new, path)


def write_new(path: Path, text: str) -> None:
    """Writes a file, unless it is there: somebody may have changed it."""
    if not path.exists():
        path.write_text(text, encoding="utf-8")

"""A cluster of RabbitMQ on one host, by what `bootfleet init --broker-kind rabbitmq` wrote, and what stands before it: an
address from which each connection goes to a node that is there, as balancers of a network do it."""

from __future__ import annotations

import asyncio
import random
import secrets
import socket
import threading
import time
from pathlib import Path
from typing import List

from processes import Processes

SERVER = Path("/usr/lib/rabbitmq/bin/rabbitmq-server")
CONTROL = Path("/usr/lib/rabbitmq/bin/rabbitmqctl")

STARTED_WITHIN = 600
"""For how many seconds a node may be starting."""

NODES = 3

ERLANG = "+S 1:1 +sbwt none -start_epmd false -kernel inet_dist_use_interface {127,0,0,1}"
"""What Erlang is told of each node: one thread, and nothing that outlives it or that other hosts could reach."""


class Cluster:
    """The nodes, each with a folder of its own, and what Erlang needs to know of them."""

    def __init__(
        self, work: Path, configuration: Path, port: int, ports: List[int], processes: Processes
    ) -> None:
        self.work, self.processes = work, processes
        self.ports, self.names = ports[:NODES], [f"b{at}" for at in range(1, NODES + 1)]
        self.between, self.mapper = ports[NODES : 2 * NODES], ports[2 * NODES]
        cookie = work / ".erlang.cookie"
        cookie.write_text(secrets.token_hex(16))
        cookie.chmod(0o400)
        (work / "plugins").write_text("[rabbitmq_mqtt].\n")
        lines = ["cluster_formation.peer_discovery_backend = classic_config"]
        lines += [
            f"cluster_formation.classic_config.nodes.{at} = {name}@localhost"
            for at, name in enumerate(self.names, 1)
        ]
        (work / "cluster.conf").write_text("\n".join(lines) + "\n")
        text = configuration.read_text()
        for name, own in zip(self.names, self.ports):
            (work / name).mkdir()
            mine = text.replace(f'"127.0.0.1", {port}', f'"127.0.0.1", {own}')
            (work / name / "advanced.config").write_text(mine)

    def environment(self, at: int) -> List[str]:
        """What a node is told, as words of env."""
        own = self.work / self.names[at]
        held = {
            "HOME": self.work,
            "RABBITMQ_NODENAME": f"{self.names[at]}@localhost",
            "RABBITMQ_DIST_PORT": self.between[at],
            "ERL_EPMD_PORT": self.mapper,
            "ERL_EPMD_ADDRESS": "127.0.0.1",
            "RABBITMQ_MNESIA_BASE": own / "db",
            "RABBITMQ_LOG_BASE": own / "log",
            "RABBITMQ_PID_FILE": own / "pid",
            "RABBITMQ_CONF_ENV_FILE": own / "none",
            "RABBITMQ_ENABLED_PLUGINS_FILE": self.work / "plugins",
            "RABBITMQ_CONFIG_FILE": self.work / "cluster.conf",
            "RABBITMQ_ADVANCED_CONFIG_FILE": own / "advanced.config",
            "RABBITMQ_SERVER_ADDITIONAL_ERL_ARGS": ERLANG,
        }
        return ["env", *(f"{name}={value}" for name, value in held.items())]

    def start_all(self) -> None:
        """Starts the nodes one after the other, of which each joins those before it."""
        mapper = ["epmd", "-port", str(self.mapper), "-address", "127.0.0.1"]
        self.processes.start("epmd", mapper)
        for at in range(NODES):
            self.start(at)
            self.await_up(at)

    def start(self, at: int) -> None:
        self.processes.start(self.names[at], [*self.environment(at), str(SERVER)])

    def kill(self, at: int) -> None:
        """Kills a node with all that it has started."""
        self.processes.kill_group(self.names[at])

    def is_up(self, at: int) -> bool:
        """Whether a node lets clients in."""
        try:
            with socket.create_connection(("127.0.0.1", self.ports[at]), 1):
                return True
        except OSError:
            return False

    def await_up(self, at: int) -> None:
        """Raises RuntimeError if a node doesn't start."""
        until = time.monotonic() + STARTED_WITHIN
        while not self.is_up(at):
            if (
                time.monotonic() > until
                or self.processes.running[self.names[at]].poll() is not None
            ):
                log = self.processes.log(self.names[at])
                raise RuntimeError(f"{self.names[at]} doesn't start: {log[-2000:]}")
            time.sleep(0.2)

    def control(self, *words: object) -> List[str]:
        """The words that have a node do something."""
        return [*self.environment(0), str(CONTROL), "-n", "b1@localhost", *map(str, words)]


class Balancer:
    """An address whose connections go to nodes that take them, drawn at random."""

    def __init__(self, port: int, ports: List[int], seed: int) -> None:
        self.port, self.ports, self.draw = port, ports, random.Random(seed)
        self.count = 0
        threading.Thread(target=lambda: asyncio.run(self._serve()), daemon=True).start()

    async def _serve(self) -> None:
        server = await asyncio.start_server(self._take, "127.0.0.1", self.port)
        await server.serve_forever()

    async def _take(self, reader: asyncio.StreamReader, writer: asyncio.StreamWriter) -> None:
        for port in self.draw.sample(self.ports, len(self.ports)):
            try:
                its_reader, its_writer = await asyncio.open_connection("127.0.0.1", port)
            except OSError:
                continue
            self.count += 1
            await asyncio.gather(pass_on(reader, its_writer), pass_on(its_reader, writer))
            return
        writer.close()


async def pass_on(reader: asyncio.StreamReader, writer: asyncio.StreamWriter) -> None:
    """Passes on what comes, until one of both ends the connection."""
    try:
        while data := await reader.read(1 << 16):
            writer.write(data)
            await writer.drain()
    except OSError:
        pass
    finally:
        writer.close()

"""The command that serves an archive to browsers and to other tt, until it is stopped."""

from __future__ import annotations

import argparse
import ipaddress

from ..errors import ToolError
from ..locks import Use
from ..opening import claim_of
from ..program import find_program
from ..stops import Stopped
from ..wording import say
from .standing import Standing
from .web import Server


def serve(options: argparse.Namespace) -> None:
    archive = Standing(options.archive, find_program(options.program), claim_of(options, Use.SERVES))
    try:
        server = Server((options.bind, options.port), archive, options.name)
    except (OSError, OverflowError) as error:
        what = getattr(error, "strerror", None) or error
        raise ToolError(f"{options.bind} port {options.port} can't be served: {what}") from None
    with server:
        if not _is_here(options.bind):
            say(
                f"whoever reaches {options.bind} can read all texts of the archive: there is neither a login nor TLS here. "
                "Put a web server with both in front, and name the host that people ask for by --name"
            )
        try:
            archive.open()  # the first who comes doesn't wait for the load
            print(f"http://{_host(options.bind)}:{server.server_port}/", flush=True)
            server.serve_forever()
        except Stopped:
            pass  # this is how it ends
        finally:
            archive.close()


def _is_here(address: str) -> bool:
    try:
        return ipaddress.ip_address(address).is_loopback
    except ValueError:
        return address == "localhost"


def _host(address: str) -> str:
    return f"[{address}]" if ":" in address else address

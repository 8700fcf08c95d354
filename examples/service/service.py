#!/usr/bin/env python3
"""Three ends of SD-JWT on one page: an office issues tickets, a wallet shows parts of them, and a door verifies.

Start it, and open http://localhost:8020/. It listens on this machine only. README.md of this folder says what it needs
and how it is built.
"""
from __future__ import annotations

import argparse
import errno
import sys
import threading

from needs import find_packages


def _arguments() -> argparse.Namespace:
    parser = argparse.ArgumentParser(description=__doc__, formatter_class=argparse.RawDescriptionHelpFormatter)
    parser.add_argument("port", nargs="?", type=int, default=8020, choices=range(65_536), metavar="PORT",
                        help="where it listens (8020); 0 takes a port that is free")
    parser.add_argument("--request-seconds", type=float, default=10, metavar="N",
                        help="the most that a whole request may take (10)")
    parser.add_argument("--visit-seconds", type=float, default=300, metavar="N",
                        help="how long a nonce of the door is good (300)")
    return parser.parse_args()


def _serve(given: argparse.Namespace) -> None:
    """Makes the three ends and serves them. Only the office's public key and what requests carry go between them."""
    from door import Door
    from office import Office
    from server import Offer, listen
    from wallet import Wallet

    office = Office()
    wallet, door = Wallet(office.public_key), Door(office.public_key, given.visit_seconds)
    routes = {
        "/office/issue": office.issue, "/wallet/look": wallet.look, "/wallet/present": wallet.present,
        "/door/ask": door.ask, "/door/admit": door.admit}
    states = {"/office": office.state, "/door": door.state}
    servers = listen(given.port, Offer(routes, states, given.request_seconds))
    for other in servers[1:]:
        threading.Thread(target=other.serve_forever, daemon=True).start()
    print(f"http://localhost:{servers[0].server_port}/", flush=True)
    servers[0].serve_forever()


def main() -> None:
    given = _arguments()
    find_packages()
    try:
        _serve(given)
    except KeyboardInterrupt:
        pass
    except OSError as fault:
        if fault.errno != errno.EADDRINUSE:
            raise
        sys.exit(f"service.py: port {given.port} is in use. Name another one, for example: service.py {given.port + 1}")


if __name__ == "__main__":
    main()

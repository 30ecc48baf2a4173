"""What a tool tells the system's manager of services, where that asked for it."""
import os
import socket


def notify(state: str) -> None:
    """Tells systemd, as `READY=1` or `STATUS=..`, where it set NOTIFY_SOCKET."""
    address = os.environ.get("NOTIFY_SOCKET")
    if address:
        with socket.socket(socket.AF_UNIX, socket.SOCK_DGRAM) as told:
            try:
                told.sendto(state.encode(), "\0" + address[1:] if address[0] == "@" else address)
            except OSError:
                pass  # a status that is not told stops no service

"""What the client of etcd takes itself, where another process answers each call at once."""
import multiprocessing
import socket

from shared.etcd import ask_all
from shared.http_client import Connection, is_whole
from shared.store_calls import Place


def respond(listener, response):
    """Answers each request on one connection at once, by the same bytes."""
    connection, _ = listener.accept()
    connection.setsockopt(socket.IPPROTO_TCP, socket.TCP_NODELAY, 1)
    asked = b""
    while piece := connection.recv(1 << 16):
        asked += piece
        if is_whole(asked):
            connection.sendall(response)
            asked = b""


def client_seconds(calls, response):
    """The seconds that the calls take where another process answers each at once by `response`."""
    with socket.create_server(("127.0.0.1", 0)) as listener:
        process = multiprocessing.get_context("fork").Process(target=respond, args=(listener, response), daemon=True)
        process.start()
        try:
            place = Place("a process", listener.getsockname()[1], "/v3/")
            with Connection(place.port) as connection:
                _, seconds = ask_all(connection, place, calls)
        finally:
            process.kill()
            process.join()
    return seconds

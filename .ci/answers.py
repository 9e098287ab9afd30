#!/usr/bin/env python3
"""A server that answers the requests that come with the pages that it is given, one a connection, whatever is asked.

    answers.py PAGE..       PAGE as Python writes bytes, without quotes; HOST stands for its own host; `-` answers nothing

It prints its host, and for each request the method, the path and how many bytes of body came.
"""
import socket
import sys

listener = socket.create_server(("127.0.0.1", 0))
host = f"127.0.0.1:{listener.getsockname()[1]}"
print(host, flush=True)
for page in sys.argv[1:]:
    connection, _ = listener.accept()
    came = b""
    while b"\r\n\r\n" not in came and (piece := connection.recv(65536)):
        came += piece
    head, _, body = came.partition(b"\r\n\r\n")
    lines = head.decode().split("\r\n")
    length = sum(int(line.split(":")[1]) for line in lines if line.lower().startswith("content-length:"))
    while len(body) < length and (piece := connection.recv(65536)):
        body += piece
    print(*lines[0].split(" ")[:2], len(body), flush=True)
    if page != "-":
        text = page.encode().decode("unicode_escape").replace("HOST", host)
        connection.sendall(text.encode().replace(b"LENGTH", str(len(text.partition("\r\n\r\n")[2])).encode()))
    connection.close()

#!/usr/bin/env python3
"""Serves the viewer's page and the stores of a folder by byte ranges, which Python's own http.server does not do.

usage: serve.py [FOLDER] [--port PORT] [--host HOST] [--open]

The page is at /, the files of FOLDER (by default the folder that you are in) are under /stores/, and /stores.json lists the stores among them. Files whose
names begin with a dot and links that lead out of FOLDER are not served. The server listens on this machine alone and takes requests for localhost alone, so
that no page of the web can read the folder through a name of its own. HOST is another address or name to listen on and to take requests for; 0.0.0.0
stands for all addresses of this machine. --open opens the page in your browser, with the store if there is just one.

Any other web server that answers ranges does as well, as nginx, lighttpd, Apache or Caddy do, with the page's files and the stores wherever you want them.
"""
import argparse
import email.utils
import http.server
import ipaddress
import json
import os
import re
import socket
import stat
import sys
import threading
import urllib.parse
import webbrowser

HERE = os.path.dirname(os.path.abspath(__file__))
RANGE = re.compile(r"bytes=([0-9]{1,15})-([0-9]{1,15})?|bytes=-([0-9]{1,15})")
PIECE = 1 << 20
LOCAL = ("localhost", "127.0.0.1", "::1")
HEAD, MOST_SIDE, TILES = 16, 16384, (2, 4, 8, 16, 32, 64, 128)


def span_of(words, length):
    """The first byte and the one after the last that a Range header asks for; None where it asks for the whole, and () for none that is there."""
    found = RANGE.fullmatch(words or "")
    if not found:
        return None
    start, last, suffix = (None if it is None else int(it) for it in found.groups())
    if suffix is not None:
        start, last = max(length - suffix, 0), length - 1
    last = length - 1 if last is None else min(last, length - 1)
    return (start, last + 1) if start <= last else ()


def tag_of(told):
    """The validator of a file by its os.stat_result: another one wherever its time or its length is."""
    return '"%x-%x"' % (told.st_mtime_ns, told.st_size)


def opened(name, root):
    """A regular file below a folder, open for reading; OSError where there is none, also where a link leads out of the folder."""
    real, root = os.path.realpath(name), os.path.realpath(root)
    if os.path.commonpath([real, root]) != root:
        raise OSError("outside of the folder")
    # A pipe or a device is not to hold the thread up.
    number = os.open(real, os.O_RDONLY | getattr(os, "O_NONBLOCK", 0) | getattr(os, "O_BINARY", 0))
    if stat.S_ISREG(os.fstat(number).st_mode):
        return open(number, "rb")
    os.close(number)
    raise OSError("no regular file")


def store_of(name, root):
    """What /stores.json has of a store, by its first 16 bytes and its length; None for another file."""
    try:
        with opened(os.path.join(root, name), root) as file:
            head, length = file.read(HEAD), os.fstat(file.fileno()).st_size
    except OSError:
        return None
    depth = {b"VTS1": 1, b"VTS2": 2}.get(head[:4])
    width, height, tile = (int.from_bytes(head[at : at + 4], "big") for at in (4, 8, 12))
    if not depth or len(head) < HEAD or not (1 <= min(width, height) and max(width, height) <= MOST_SIDE and tile in TILES):
        return None
    pages, levels, w, h = 0, 0, width, height
    while True:
        pages, levels = pages + -(-w // tile) * -(-h // tile), levels + 1
        if w <= tile and h <= tile:
            break
        w, h = (w + 1) // 2, (h + 1) // 2
    if length != HEAD + 3 * depth * tile * tile * pages:
        return None
    address = "stores/" + urllib.parse.quote(name)
    return {"name": name, "address": address, "width": width, "height": height, "channels": 3, "depth": depth, "tile": tile, "levels": levels, "bytes": length}


def stores_in(folder):
    """The stores of a folder by their names."""
    names = sorted(it for it in os.listdir(folder) if it.endswith(".vts") and not it.startswith("."))
    return [it for it in (store_of(name, folder) for name in names) if it]


class Handler(http.server.BaseHTTPRequestHandler):
    """Serves the page's files and those of a folder, whole or by one range."""

    protocol_version = "HTTP/1.1"
    folder = "."
    page = HERE
    host = LOCAL[1]
    types = {
        ".html": "text/html; charset=utf-8",
        ".css": "text/css; charset=utf-8",
        ".js": "text/javascript; charset=utf-8",
        ".json": "application/json",
        ".wasm": "application/wasm",
        ".png": "image/png",
        ".txt": "text/plain; charset=utf-8",
        ".path": "text/plain; charset=utf-8",
    }

    def setup(self):
        super().setup()
        # An answer's head and its first bytes are two writes: they are not to wait for each other's acknowledgement.
        self.connection.setsockopt(socket.IPPROTO_TCP, socket.TCP_NODELAY, 1)

    def root_of(self, path):
        """The folder that a path leads to, and its parts below it."""
        parts = urllib.parse.unquote(urllib.parse.urlsplit(path).path).split("/")[1:] or [""]
        return (self.folder, parts[1:]) if parts[0] == "stores" else (self.page, parts)

    def name_of(self, path):
        """The file that a path names, or None where it leads out of its folder or to one whose name begins with a dot."""
        root, parts = self.root_of(path)
        parts = parts[:-1] + [parts[-1] or "index.html"] if parts else [""]
        if any(it == "" or it.startswith(".") or os.sep in it or "\0" in it for it in parts):
            return None
        return os.path.join(root, *parts)

    def is_for_here(self):
        """Whether the request names this server as its host, with any port."""
        name = urllib.parse.urlsplit("//" + self.headers.get("Host", "")).hostname or ""
        if name in LOCAL or name == self.host.lower():
            return True
        if self.host not in ("0.0.0.0", "::"):
            return False
        try:
            return bool(ipaddress.ip_address(name))
        except ValueError:
            return name == socket.gethostname().lower()

    def say(self, status, **headers):
        self.send_response(status)
        for name, value in headers.items():
            self.send_header(name.replace("_", "-"), str(value))
        self.end_headers()

    def say_text(self, status, kind, text, has_body):
        data = text.encode()
        self.say(status, Content_Type=kind, Content_Length=len(data), Cache_Control="no-cache")
        if has_body:
            self.wfile.write(data)

    def do_GET(self, has_body=True):
        if not self.is_for_here():
            return self.say_text(403, self.types[".txt"], "This server takes requests for %s alone; see serve.py --host.\n" % LOCAL[0], has_body)
        if urllib.parse.urlsplit(self.path).path == "/stores.json":
            return self.say_text(200, self.types[".json"], json.dumps({"stores": stores_in(self.folder)}), has_body)
        try:
            file = opened(self.name_of(self.path) or "", self.root_of(self.path)[0])
        except (OSError, ValueError):
            return self.say(404, Content_Length=0)
        with file:
            self.say_file(file, has_body)

    def say_file(self, file, has_body):
        told = os.fstat(file.fileno())
        length, tag, date = told.st_size, tag_of(told), email.utils.formatdate(told.st_mtime, usegmt=True)
        if self.headers.get("If-None-Match") == tag:
            return self.say(304, ETag=tag)
        # A range of another file than the one that is here is no use: the whole is sent in its place.
        is_same = self.headers.get("If-Range", tag) in (tag, date)
        span = span_of(self.headers.get("Range"), length) if is_same else None
        if span == ():
            return self.say(416, Content_Range="bytes */%d" % length, Content_Length=0)
        start, end = span or (0, length)
        headers = {"Content_Range": "bytes %d-%d/%d" % (start, end - 1, length)} if span else {}
        headers.update(Accept_Ranges="bytes", ETag=tag, Last_Modified=date, Cache_Control="no-cache")
        kind = self.types.get(os.path.splitext(self.name_of(self.path))[1], "application/octet-stream")
        self.say(206 if span else 200, Content_Type=kind, Content_Length=end - start, **headers)
        file.seek(start)
        while has_body and start < end:
            piece = file.read(min(end - start, PIECE))
            # A file that is written over meanwhile has other bytes than the tag says: the answer is broken off.
            if not piece or tag_of(os.fstat(file.fileno())) != tag:
                self.close_connection = True
                break
            self.wfile.write(piece)
            start += len(piece)

    def do_HEAD(self):
        self.do_GET(has_body=False)

    def handle(self):
        try:
            super().handle()
        except (BrokenPipeError, ConnectionResetError):
            pass  # the page let a request go

    def log_message(self, *words):
        pass


class Server(http.server.ThreadingHTTPServer):
    """Many requests at a time, each of its own thread."""

    daemon_threads = True
    request_queue_size = 64


def main():
    parser = argparse.ArgumentParser(description=__doc__, formatter_class=argparse.RawDescriptionHelpFormatter)
    parser.add_argument("folder", nargs="?", default=".")
    parser.add_argument("--port", type=int, default=8000)
    parser.add_argument("--host", default=LOCAL[1])
    parser.add_argument("--open", action="store_true")
    words = parser.parse_args()
    if not os.path.isdir(words.folder):
        parser.error("no folder: " + words.folder)
    if not 0 <= words.port <= 65535:
        parser.error("port %d is not from 0 to 65535" % words.port)
    Handler.folder, Handler.host = os.path.abspath(words.folder), words.host
    try:
        Server.address_family = socket.getaddrinfo(words.host, words.port, type=socket.SOCK_STREAM)[0][0]
        server = Server((words.host, words.port), Handler)
    except OSError as error:
        sys.exit("serve.py: host %s, port %d: %s" % (words.host, words.port, error.strerror or error))
    host = "127.0.0.1" if words.host in ("0.0.0.0", "::") else "[%s]" % words.host if ":" in words.host else words.host
    base = "http://%s:%d/" % (host, server.server_address[1])
    addresses = [base + "?store=" + it["address"] for it in stores_in(Handler.folder)]
    print("the viewer is at " + base)
    for address in addresses:
        print("  " + address)
    sys.stdout.flush()
    if words.open:
        threading.Thread(target=webbrowser.open, args=(addresses[0] if len(addresses) == 1 else base,), daemon=True).start()
    try:
        server.serve_forever()
    except KeyboardInterrupt:
        pass


if __name__ == "__main__":
    main()

"""A DevTools connection that doesn't wait for answers, so that input comes at its own rate; and the frames shown."""
import base64
import json
import os
import socket
import struct
import urllib.request

CATEGORIES = ['disabled-by-default-devtools.timeline.frame', 'devtools.timeline.frame', 'devtools.timeline']


class Wire:
    def __init__(self, address):
        with urllib.request.urlopen(f'http://{address}/json') as answer:
            page = next(t for t in json.load(answer) if t['type'] == 'page')
        host, port = address.split(':')
        path = page['webSocketDebuggerUrl'].split(address, 1)[1]
        self.socket = socket.create_connection((host, int(port)))
        key = base64.b64encode(os.urandom(16)).decode()
        self.socket.sendall((f'GET {path} HTTP/1.1\r\nHost: {address}\r\nUpgrade: websocket\r\nConnection: Upgrade\r\n'
                             f'Sec-WebSocket-Key: {key}\r\nSec-WebSocket-Version: 13\r\n\r\n').encode())
        self.buffer, self.id, self.events = b'', 0, []
        while b'\r\n\r\n' not in self.buffer:
            self.buffer += self.socket.recv(65536)
        self.buffer = self.buffer.split(b'\r\n\r\n', 1)[1]

    def send(self, method, **params):
        self.id += 1
        data = json.dumps(dict(id=self.id, method=method, params=params)).encode()
        n = len(data)
        size = bytes([0x80 | n]) if n < 126 else (b'\xfe' + struct.pack('>H', n) if n < 65536 else b'\xff'
            + struct.pack('>Q', n))
        self.socket.sendall(b'\x81' + size + b'\0\0\0\0' + data)
        return self.id

    def take(self, n):
        while len(self.buffer) < n:
            self.buffer += self.socket.recv(1 << 20)
        out, self.buffer = self.buffer[:n], self.buffer[n:]
        return out

    def message(self):
        whole = b''
        while True:
            first, second = self.take(2)
            n = second & 127
            if n > 125:
                n = struct.unpack('>H' if n == 126 else '>Q', self.take(2 if n == 126 else 8))[0]
            whole += self.take(n)
            if first & 0x80:
                return json.loads(whole)

    def wait(self, number=None, event=None):
        while True:
            m = self.message()
            if 'method' in m:
                self.events.append(m)
            if number and m.get('id') == number or event and m.get('method') == event:
                return m

    def trace(self):
        self.wait(self.send('Tracing.start', transferMode='ReportEvents',
            traceConfig=dict(includedCategories=CATEGORIES)))

    def frames(self):
        """When frames were shown, in ms, and how many were dropped."""
        self.events = []
        self.wait(self.send('Tracing.end'))
        if not any(e['method'] == 'Tracing.tracingComplete' for e in self.events):
            self.wait(event='Tracing.tracingComplete')
        all_ = [e for m in self.events if m['method'] == 'Tracing.dataCollected' for e in m['params']['value']]
        shown = sorted(e['ts'] / 1000 for e in all_ if e['name'] == 'DrawFrame')
        return shown, sum(e['name'] == 'DroppedFrame' for e in all_)

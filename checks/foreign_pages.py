"""For checks/browser and checks/forms: pages from elsewhere that ask a served docket by a browser, and what the browser sent and was answered."""
import http.server
import re
import socket
import threading

ELSEWHERE = "evil.example"  # a name that Chromium is made to find at this machine
PAGE = """<!doctype html><title>begun</title><body>
<form id=form method=post enctype=text/plain target=frame action="{docket}/commands">
<input name='{{"caption":"Roe","do":"open_case","filed":"2025-06-02","key":"form","label":"form","x":"' value='"}}'></form>
<iframe name=frame></iframe><img src="{docket}/pages/backup">
<script>
const command = key => `{{"caption":"Roe","do":"open_case","filed":"2025-06-02","key":"${{key}}","label":"${{key}}"}}`;
const asked = [
  ["/commands", {{method: "POST", mode: "no-cors", headers: {{"content-type": "text/plain"}}, body: command("text")}}],
  ["/commands", {{method: "POST", mode: "no-cors", body: new URLSearchParams({{do: "open_case"}})}}],
  ["/commands", {{method: "POST", body: command("cors")}}],
  ["/pages", {{}}], ["/pages/due.json", {{}}], ["/pages/backup", {{}}], ["/pages/backup", {{mode: "no-cors"}}]];
form.submit();
(async () => {{
  const read = [];
  for (const [path, how] of asked) await fetch("{docket}" + path, how).then(got => got.text()).then(text => read.push(text), () => {{}});
  document.body.append("read: " + read.join("") + ".");
  document.title = "done";
}})();
</script>"""
# a form of a docket with a whole command, sent by the page that has it, and by a frame that has no origin
FORM = """<!doctype html><title>form</title><body>
<form id=form method=post action="{docket}/pages/commands"><input type=hidden name=do value=open_case><input type=hidden name=key value=elsewhere>
<input type=hidden name=label value=elsewhere><input type=hidden name=caption value=Roe><input type=hidden name=filed value=2025-06-02></form>
<script>form.submit()</script>"""
FRAMED = """<!doctype html><title>framed</title><body><iframe sandbox="allow-scripts allow-forms" src="/form"></iframe>"""
LINK = """<!doctype html><meta http-equiv=refresh content="0; url={docket}/pages">"""


class Elsewhere(http.server.ThreadingHTTPServer):
    """A site of its own, whose pages ask the docket at an address."""

    def __init__(self, docket):
        pages = {"/": PAGE, "/link": LINK, "/form": FORM, "/framed": FRAMED}

        class Handler(http.server.BaseHTTPRequestHandler):
            def do_GET(self):
                page = pages.get(self.path, "").format(docket=docket).encode()
                self.send_response(200 if page else 404)
                self.send_header("content-type", "text/html")
                self.end_headers()
                self.wfile.write(page)

            def log_message(self, *words):
                pass

        super().__init__(("127.0.0.1", 0), Handler)
        threading.Thread(target=self.serve_forever, daemon=True).start()


class Between:
    """A port that hands each connection on to the docket's, and keeps the head of each request with the status of its answer."""

    def __init__(self):
        self.listener, self.port_behind, self.seen = socket.create_server(("127.0.0.1", 0)), None, []
        self.port = self.listener.getsockname()[1]

    def begin(self, port):
        self.port_behind = port
        threading.Thread(target=self.run, daemon=True).start()

    def run(self):
        while True:
            client, _ = self.listener.accept()
            threading.Thread(target=self.hand_on, args=(client,), daemon=True).start()

    def hand_on(self, client):
        head, answer = b"", b""
        with client:
            client.settimeout(20)
            try:
                while b"\r\n\r\n" not in head:
                    if not (piece := client.recv(1 << 16)):
                        return
                    head += piece
                length = re.search(rb"\r\ncontent-length: *(\d+)", head, re.IGNORECASE)
                whole = head.index(b"\r\n\r\n") + 4 + (int(length[1]) if length else 0)
                while len(head) < whole:
                    head += client.recv(1 << 16)
                with socket.create_connection(("127.0.0.1", self.port_behind)) as docket:
                    docket.sendall(head)
                    while piece := docket.recv(1 << 16):
                        answer += piece
                client.sendall(answer)
            except OSError:
                pass
            finally:
                if answer:
                    self.seen.append((head, int(answer[9:12])))

    def taken(self):
        """What was seen since this was asked last: the first line, some fields, and the status."""
        seen, self.seen = self.seen, []
        return [(head.split(b" HTTP", 1)[0].decode(), *(field(head, name) for name in ("Host", "Origin", "Sec-Fetch-Site", "Sec-Fetch-Mode")), status)
                for head, status in seen]


def field(head, name):
    found = re.search(rb"\r\n" + name.encode() + rb": *([^\r]*)", head, re.IGNORECASE)
    return found[1].decode() if found else None

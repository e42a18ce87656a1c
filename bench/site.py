#!/usr/bin/env python3
"""Plays a user of examples/site in headless Chromium, over nginx with that folder's configuration.

    bench/site.py [PFX [FOLDER]]

PFX is the built program, ./pfx where none is given; pictures of the page go into FOLDER. Between nginx and pfx stands a
relay that can take a request, let pfx answer it, and throw the reply away. All waits are for what is seen. Behind the
play it prints how many views a second come straight from pfx and through nginx, and how often nginx gives a file. Where
chromedriver, chromium, nginx or openssl isn't there, it says so and ends with 0.
"""
import base64
import contextlib
import http.client
import json
import os
import shutil
import socket
import ssl
import subprocess
import sys
import tempfile
import threading
import time
import urllib.request

TOP = os.path.dirname(os.path.dirname(os.path.abspath(__file__)))
SITE = f"{TOP}/examples/site"
PROGRAM = sys.argv[1] if len(sys.argv) > 1 else f"{TOP}/pfx"
PICTURES = sys.argv[2] if len(sys.argv) > 2 else None
NEEDED = ["chromedriver", "chromium", "nginx", "openssl"]
PATH = os.environ["PATH"] + ":/usr/sbin"
PEOPLE = {"ann": "spring", "bob": "summer", "olga": "autumn"}
PATIENCE = 60
ELEMENT = "element-6066-11e4-a52e-4f735466cecf"


def free_port():
    with socket.socket() as door:
        door.bind(("127.0.0.1", 0))
        return door.getsockname()[1]


def until(what, test):
    """Waits until the test gives something, and returns that."""
    end = time.monotonic() + PATIENCE
    while time.monotonic() < end:
        got = test()
        if got:
            return got
        time.sleep(0.03)
    raise AssertionError(f"not seen in {PATIENCE} s: {what}")


def listens(port):
    try:
        socket.create_connection(("127.0.0.1", port)).close()
        return True
    except OSError:
        return False


class Server:
    """A run of pfx over one file, which can be killed and begun again."""

    def __init__(self, folder, app):
        self.words = [PROGRAM, "serve", app, f"{folder}/rows.db"]
        self.port = free_port()
        self.begin()

    def begin(self):
        self.process = subprocess.Popen([*self.words, str(self.port), "1000000000"])
        until("pfx listens", lambda: listens(self.port))

    def kill(self):
        self.process.kill()
        self.process.wait()

    def ask(self, method, path, body=None):
        link = http.client.HTTPConnection("127.0.0.1", self.port)
        link.request(method, path, json.dumps(body) if body is not None else None)
        said = json.loads(link.getresponse().read())
        link.close()
        return said

    def rows(self):
        return {it["Name"]: it["Qty"] for it in self.ask("GET", "/rows/Stock/0")["rows"]}


class Relay:
    """Passes requests on to the server, and throws the replies to the next `losing` of them that post away."""

    def __init__(self, server):
        self.server, self.losing, self.lost = server, 0, 0
        self.door = socket.create_server(("127.0.0.1", 0), backlog=128)
        self.port = self.door.getsockname()[1]
        threading.Thread(target=self.run, daemon=True).start()

    def run(self):
        while True:
            threading.Thread(target=self.pass_on, args=self.door.accept()[:1], daemon=True).start()

    def pass_on(self, client):
        with client, contextlib.suppress(OSError):
            taken = b""
            while not self.is_whole(taken):
                taken += client.recv(65536) or sys.exit()
            with socket.create_connection(("127.0.0.1", self.server.port)) as link:
                link.sendall(taken)
                reply = b"".join(iter(lambda: link.recv(65536), b""))
            if self.losing and taken.startswith(b"POST") and reply:
                self.losing, self.lost = self.losing - 1, self.lost + 1
            else:
                client.sendall(reply)

    @staticmethod
    def is_whole(taken):
        head, found, body = taken.partition(b"\r\n\r\n")
        lengths = [int(it.split(b":")[1]) for it in head.split(b"\r\n") if it.lower().startswith(b"content-length:")]
        return found and len(body) >= sum(lengths)


class Proxy:
    """nginx by the configuration of examples/site, with ports, files and folders put in."""

    def __init__(self, folder, pfx_port):
        self.port = free_port()
        with open(f"{SITE}/nginx.conf") as file:
            text = file.read()
        places = "".join(f"  {it}_temp_path {folder}/{it};\n" for it in ("client_body", "proxy", "fastcgi", "uwsgi", "scgi"))
        changes = {
            "  server { listen 80; return 301 https://$host$request_uri; }\n": "",
            "listen 443": f"listen 127.0.0.1:{self.port}",
            "127.0.0.1:8081": f"127.0.0.1:{pfx_port}",
            "root www": f"root {SITE}/www",
            "http {\n": f"http {{\n  access_log off;\n{places}",
            "rate=30r/s": "rate=10000r/s",
            "rate=6r/m": "rate=10000r/m",
        }
        for old, new in changes.items():
            assert text.count(old) == 1, f"nginx.conf has {old!r} once"
            text = text.replace(old, new)
        with open(f"{folder}/nginx.conf", "w") as file:
            file.write(f"daemon off;\npid {folder}/pid;\n{text}")
        for name, those in (("people", PEOPLE), ("desks", {"olga": "winter"})):
            with open(f"{folder}/{name}", "w") as file:
                file.writelines(f"{who}:{hashed(word)}\n" for who, word in those.items())
        certify = "openssl req -x509 -newkey rsa:2048 -nodes -days 1 -subj /CN=localhost -keyout key.pem -out cert.pem"
        subprocess.run(certify.split(), cwd=folder, check=True, stderr=subprocess.DEVNULL)
        words = ["nginx", "-p", folder, "-e", f"{folder}/nginx.log", "-c", f"{folder}/nginx.conf"]
        self.process = subprocess.Popen(words, env={**os.environ, "PATH": PATH})
        try:
            until("nginx listens", lambda: listens(self.port))
        except AssertionError:
            self.end()
            raise

    def end(self):
        self.process.terminate()
        self.process.wait()

    def ask(self, method, path, body=None, who="ann", word=None, **fields):
        link = http.client.HTTPSConnection("localhost", self.port, context=ssl._create_unverified_context())
        sign = base64.b64encode(f"{who}:{word or PEOPLE[who]}".encode()).decode()
        link.request(method, path, body, {"Authorization": f"Basic {sign}", **fields})
        reply = link.getresponse()
        text = reply.read()
        link.close()
        return reply.status, text


def hashed(word):
    return subprocess.run(["openssl", "passwd", "-apr1", word], check=True, capture_output=True, text=True).stdout.strip()


class Browser:
    """Chromium by the requests of chromedriver."""

    def __init__(self, folder):
        port = free_port()
        self.process = subprocess.Popen(["chromedriver", f"--port={port}", "--log-level=OFF"], stdout=subprocess.DEVNULL)
        self.base = f"http://127.0.0.1:{port}"
        until("chromedriver listens", lambda: listens(port))
        words = ["--headless=new", "--no-sandbox", "--disable-gpu", "--disable-dev-shm-usage", f"--user-data-dir={folder}/profile"]
        wanted = {
            "acceptInsecureCerts": True,
            "goog:chromeOptions": {"args": [*words, "--window-size=900,900"]},
            "goog:loggingPrefs": {"browser": "ALL"},
        }
        made = self.send("POST", "/session", {"capabilities": {"alwaysMatch": wanted}})
        self.base += f"/session/{made['sessionId']}"

    def send(self, method, path, body=None):
        data = json.dumps(body if body is not None else {}).encode() if method == "POST" else None
        asked = urllib.request.Request(self.base + path, data, {"Content-Type": "application/json"}, method=method)
        with urllib.request.urlopen(asked) as reply:
            return json.load(reply)["value"]

    def go(self, address):
        self.send("POST", "/url", {"url": address})

    def reload(self):
        self.send("POST", "/refresh")

    def run(self, script, *arguments):
        return self.send("POST", "/execute/sync", {"script": script, "args": list(arguments)})

    def texts(self, selector):
        """Returns the texts of what is shown under a selector."""
        return self.run("return [...document.querySelectorAll(arguments[0])].map((it) => it.innerText)", selector)

    def sees(self, selector, *texts):
        until(f"{texts} in {selector}", lambda: all(any(it in got for got in self.texts(selector)) for it in texts))

    def sees_none(self, selector):
        until(f"nothing in {selector}", lambda: not self.texts(selector))

    def find(self, selector):
        """Returns an element by a selector, or a button by its text in one."""
        script = """const [, selector, text] = arguments[0].match(/^(.*?)(?:\\|(.*))?$/s);
            return [...document.querySelectorAll(selector)].find((it) => !text || it.innerText === text) ?? null"""
        return until(selector, lambda: self.run(script, selector))[ELEMENT]

    def click(self, selector):
        self.send("POST", f"/element/{self.find(selector)}/click")

    def type(self, selector, text):
        self.send("POST", f"/element/{self.find(selector)}/value", {"text": text})

    def value(self, selector):
        return self.run("return document.querySelector(arguments[0]).value", selector)

    def keys(self, *keys):
        presses = [{"type": kind, "value": it} for it in keys for kind in ("keyDown", "keyUp")]
        self.send("POST", "/actions", {"actions": [{"type": "key", "id": "keys", "actions": presses}]})

    def size(self, width, height):
        self.send("POST", "/window/rect", {"width": width, "height": height})

    def picture(self, name):
        if PICTURES:
            with open(f"{PICTURES}/{name}.png", "wb") as file:
                file.write(base64.b64decode(self.send("GET", "/screenshot")))

    def complaints(self):
        return [it["message"] for it in self.send("POST", "/se/log", {"type": "browser"})]

    def end(self):
        with contextlib.suppress(OSError):
            self.send("DELETE", "")
        self.process.kill()
        self.process.wait()


class Play:
    """Steps over an app, each of which begins where the one before it ended."""

    seq = 0

    def __init__(self, browser, proxy, relay, server):
        self.browser, self.proxy, self.relay, self.server = browser, proxy, relay, server
        self.address = f"https://localhost:{proxy.port}/"

    def run(self):
        for name in type(self).__dict__:
            if name.startswith("step_"):
                begun = time.monotonic()
                try:
                    getattr(self, name)()
                except Exception:
                    self.browser.picture("failed")
                    print(f"FAILED: {self.app} {name[5:]}\nmessages: {self.browser.texts('.message')}")
                    raise
                print(f"{time.monotonic() - begun:5.1f} s  {self.app} {name[5:].replace('_', ' ')}", flush=True)

    def session(self):
        return "ann-" + json.loads(self.browser.run("return Object.entries(sessionStorage).find(([it]) => it.endsWith(' name'))[1]"))

    def desk(self, deed, **fields):
        self.seq += 1
        path, body = f"/desk/{deed}", json.dumps({"seq": self.seq, **fields})
        status, text = self.proxy.ask("POST", path, body, "olga", "winter", **{"Content-Type": "application/json"})
        assert status == 200, text

    def add(self, table, *rows):
        self.desk("rows", changes=[{"op": "add", "table": table, "row": it} for it in rows])

    def give(self, selector, text):
        """Gives a field a value as a user would who leaves it then."""
        self.browser.run(
            """const field = document.querySelector(arguments[0]);
            field.value = arguments[1];
            for (const it of ["input", "change", "blur"]) field.dispatchEvent(new Event(it))""",
            selector,
            text,
        )

    def open(self):
        # (from an address with a password in it no relative path can be fetched)
        self.browser.go(self.address.replace("//", f"//ann:{PEOPLE['ann']}@"))
        self.browser.go(self.address)


class Shop(Play):
    app = "shop"

    def step_opens(self):
        self.open()
        self.browser.sees("h1", "Shop")
        self.browser.sees("main p", "Taken by you: 0", "0 rows")

    def step_adds_a_row(self):
        self.browser.type("input[type=text]", "Nut")
        self.browser.click("button|Add")
        self.browser.sees("li", "Nut: 5")
        assert self.server.rows() == {"Nut": 5}, self.server.rows()

    def step_shows_a_notice_after_a_reload(self):
        name = self.session()
        self.browser.reload()
        self.browser.sees("li", "Nut: 5")
        self.browser.click("button|Add")
        self.browser.sees("[role=status]", "Not added: MissingRequired")
        assert self.session() == name and self.server.rows() == {"Nut": 5}
        self.browser.picture("notice")

    def step_repeats_what_was_lost(self):
        self.relay.losing = 2
        self.browser.click("li button|Take one")
        self.browser.sees("li", "Nut: 4")
        assert self.relay.lost == 2 and self.server.rows() == {"Nut": 4}

    def step_takes_one_press_where_a_button_is_pressed_again(self):
        self.relay.losing = 2
        self.browser.click("li button|Take one")
        self.browser.click("li button|Take one")
        self.browser.sees("li", "Nut: 3")
        self.browser.sees("main p", "Taken by you: 2")
        assert self.server.rows() == {"Nut": 3}

    def step_repeats_over_a_reload(self):
        self.relay.losing = 1
        self.browser.click("li button|Take one")
        until("the reply is lost", lambda: not self.relay.losing)
        self.browser.reload()
        self.browser.sees("main p", "Taken by you: 3")
        assert self.server.rows() == {"Nut": 2}

    def step_takes_keys_alone(self):
        tab, right, space = "\ue004", "\ue014", " "
        self.browser.run("document.querySelector('input[type=text]').focus()")
        self.browser.keys(*"Cog", tab, *[right] * 30, tab, space)
        self.browser.sees("li", "Cog: 20")
        assert self.server.rows() == {"Nut": 2, "Cog": 20}

    def step_tells_roles_and_names(self):
        script = """return [...document.querySelectorAll('main button, main input')].filter((it) => it.offsetHeight)
            .map((it) => it.innerText || it.labels[0].innerText)"""
        assert self.browser.run(script) == ["What", "Many", "Add", "Take one", "Take one"], self.browser.run(script)
        described = "return document.getElementById(document.querySelector('li button').getAttribute('aria-describedby')).innerText"
        assert self.browser.run(described) == "Cog: 20"

    def step_fits_a_phone(self):
        for width in (360, 320):
            self.browser.send("POST", "/goog/cdp/execute", {"cmd": "Emulation.setDeviceMetricsOverride", "params": {"width": width, "height": 640, "deviceScaleFactor": 1, "mobile": True}})
            assert self.browser.run("return document.documentElement.scrollWidth <= innerWidth")
            assert self.browser.run("return [...document.querySelectorAll('button, input')].every((it) => !it.offsetHeight || it.offsetHeight >= 24)")
            self.browser.picture(f"phone-{width}")
        self.browser.send("POST", "/goog/cdp/execute", {"cmd": "Emulation.clearDeviceMetricsOverride", "params": {}})

    def step_numbers_anew_beside_another_client(self):
        with contextlib.suppress(KeyError):
            last = self.server.ask("POST", f"/s/{self.session()}/event", {"seq": 4294967295, "control": "", "event": "OnSelect"})["refused"]["detail"]
            self.server.ask("POST", f"/s/{self.session()}/input", {"seq": last + 1, "control": "Many", "value": 7})
        self.browser.click("li button|Take one")
        self.browser.sees("li", "Cog: 19")
        assert self.server.rows() == {"Nut": 2, "Cog": 19}

    def step_refuses_a_row_that_moved(self):
        self.browser.run("document.querySelector('h1').dispatchEvent(new PointerEvent('pointerdown', {bubbles: true}))")
        self.add("Stock", {"Name": "Bolt", "Qty": 9})
        self.browser.run("document.querySelector('li button').click()")
        self.browser.run("document.querySelector('h1').dispatchEvent(new PointerEvent('pointerup', {bubbles: true}))")
        self.browser.sees("[role=alert]", "Another row stands there now")
        assert self.server.rows() == {"Nut": 2, "Cog": 19, "Bolt": 9}

    def step_sees_an_edit(self):
        self.desk("edit", cell="Sum.Text", text='taken & " pieces are yours"')
        self.browser.sees("main p", " pieces are yours")
        self.desk("edit", cell="Sum.OnSelect", text='Notify("pressed")')
        self.browser.reload()
        self.browser.click("main p button")
        self.browser.sees("[role=status]", "pressed")

    def step_tells_that_the_server_was_started_anew(self):
        self.browser.type("input[type=text]", "Pin")
        self.server.kill()
        self.browser.click("button|Add")
        self.browser.sees("[role=status]", "No answer from the server")
        self.browser.picture("lost")
        self.server.begin()
        self.seq = 0
        self.browser.sees("[role=alert]", "The server was started anew", "Not done: “Add”")
        self.browser.picture("anew")
        assert "Pin" not in self.server.rows() and self.browser.value("input[type=text]") == "Pin"
        self.browser.click("button|Add")
        self.browser.sees("li", "Pin: 5")

    def quantities(self):
        """Returns how many pieces there are in all."""
        pages = [self.server.ask("GET", f"/rows/Stock/{after}")["rows"] for after in (0, 100, 200, 300)]
        return sum({it["ID"]: it["Qty"] for page in pages for it in page}.values())

    def step_turns_pages(self):
        for start in (0, 125):
            self.add("Stock", *({"Name": f"Item {it:03}", "Qty": it} for it in range(start, start + 125)))
        self.browser.sees("section p", "254 rows, 1 to 100 are shown")
        self.browser.click("section button|Next")
        self.browser.sees("section p", "101 to 200 are shown")
        self.browser.click("section button|Next")
        self.browser.sees("section p", "201 to 254 are shown")
        before = self.quantities()
        self.browser.click("li button|Take one")
        until("one piece was taken", lambda: self.quantities() == before - 1)
        self.browser.picture("third-page")

    def step_has_a_session_for_each_page(self):
        name = self.session()
        first = self.browser.send("GET", "/window")
        second = self.browser.send("POST", "/window/new", {"type": "tab"})["handle"]
        self.browser.send("POST", "/window", {"handle": second})
        self.browser.go(self.address)
        self.browser.sees("h1", "Shop")
        self.browser.sees("section p", "254 rows")
        other = self.session()
        assert other != name
        self.browser.send("DELETE", "/window")
        self.browser.send("POST", "/window", {"handle": first})
        third = self.browser.send("POST", "/window/new", {"type": "tab"})["handle"]
        self.browser.send("POST", "/window", {"handle": third})
        self.browser.go(self.address)
        self.browser.sees("section p", "254 rows")
        assert self.session() == other, "the name of a closed page is taken up"

    def step_keeps_users_apart(self):
        word = self.session().removeprefix("ann-")
        view, json_type = f"/s/{word}/view", {"Content-Type": "application/json"}
        assert self.proxy.ask("GET", view)[0] == 200
        assert self.proxy.ask("GET", view, who="bob")[0] == 404
        assert self.proxy.ask("GET", view, word="wrong")[0] == 401
        assert self.proxy.ask("GET", view, Cookie="a=" + "b" * 7_000)[0] == 200
        assert self.proxy.ask("GET", f"/s/ann-{word}/view")[0] == 404
        assert self.proxy.ask("POST", f"/s/{word}/event", "{}", **{"Content-Type": "text/plain"})[0] == 403
        assert self.proxy.ask("POST", f"/s/{word}/event", " " * 40_000, **json_type)[0] == 413
        assert self.proxy.ask("GET", "/rows/Stock/0")[0] == 401
        assert self.proxy.ask("POST", "/desk/rows", "{}", **json_type)[0] == 401
        assert self.proxy.ask("GET", "/plan", who="olga", word="winter")[0] == 200

    def step_leaves_nothing_in_the_log_but_refusals(self):
        # (a refusal is a status, which Chromium notes itself; what the policy of the pages forbids would stand here too)
        noted = [it for it in self.browser.complaints() if "Failed to load resource" not in it]
        assert not noted, noted


class Order(Play):
    app = "order"

    def step_chooses_an_item(self):
        self.open()
        self.browser.sees("main p", "Total: 1.19")
        self.browser.click("li button.plain|Bolt: 0.4")
        self.browser.sees("main p", "Total: 1.9")
        assert self.browser.texts("li[aria-current=true] p") == ["Bolt: 0.4"]

    def step_tells_below_a_field(self):
        self.give("input[type=text]", "x" * 4_097)
        self.browser.sees(".field .error", "It is too long, or out of bounds.")
        assert len(self.browser.value("input[type=text]")) == 4_097
        self.give("input[type=text]", "Zoë")
        self.browser.sees("main p", "For Zoë")
        until("the field is right again", lambda: self.browser.texts(".field .error") == ["", ""])

    def step_has_fine_sliders(self):
        self.desk("edit", cell="Count.Min", text="0.05")
        self.desk("edit", cell="Count.Default", text="2.5")
        until("finer steps", lambda: self.browser.run("return document.querySelector('input[type=range]').step") == "0.01")
        self.give("input[type=range]", "0.07")
        self.browser.sees("output", "0.07")
        self.browser.sees("main p", "Total: 0.03")
        self.desk("edit", cell="Count.Max", text="1/0")
        self.browser.sees(".field .error", "⚠ division by zero")
        assert self.browser.run("return document.querySelector('input[type=range]').disabled")

    def step_waits_for_room(self):
        for it in range(255):
            self.server.ask("PUT", f"/s/other{it}")
        self.server.ask("DELETE", f"/s/{self.session()}")
        self.server.ask("PUT", "/s/other255")
        self.browser.sees("[role=alert]", "Too many use this app now.")
        self.server.ask("DELETE", "/s/other0")
        self.browser.sees("[role=alert]", "The server was started anew.")
        self.browser.sees("main p", "For you")


class Booking(Play):
    app = "booking"

    def step_opens(self):
        self.add("Rooms", {"Name": "Attic", "Seats": 4}, {"Name": "Hall", "Seats": 20}, {"Name": "Nook", "Seats": 2})
        self.open()
        self.browser.sees("h1", "Book a room")
        self.browser.sees("li", "Nook, 2 seats")

    def step_takes_a_day_and_a_number(self):
        self.give("input[type=date]", "2027-05-03")
        self.browser.run("document.querySelector('input[type=range]').focus()")
        self.browser.keys("\ue014", "\ue014")
        until("Nook is too small", lambda: not any("Nook" in it for it in self.browser.texts("li")))

    def step_wants_a_name(self):
        self.browser.click("li button|Book")
        self.browser.sees("[role=status]", "Enter your name first.")
        assert self.browser.value("input[type=date]") == "2027-05-03"

    def step_books(self):
        self.browser.type("input[type=text]", "Ann")
        self.browser.click("li button|Book")
        self.browser.sees("button", "Bookings (1)")
        until("the Hall alone is free", lambda: [it.split(",")[0] for it in self.browser.texts("li")] == ["Hall"])
        assert self.browser.texts(".message") == []
        self.browser.picture("booking")

    def step_goes_to_another_screen(self):
        self.browser.click("button|Bookings (1)")
        self.browser.sees("h1", "All bookings")
        self.browser.sees("li", "2027-05-03: Attic, Ann")
        assert self.browser.run("return document.activeElement.id") == "screen"
        self.browser.picture("bookings")

    def step_ticks(self):
        self.add("Bookings", {"Slot": "Hall 2027-05-04", "Room": "Hall", "Day": {"d": "2027-05-04"}, "Who": "Bob"})
        self.browser.sees("li", "Bob")
        self.browser.click("input[type=checkbox]")
        until("Ann's alone", lambda: len(self.browser.texts("li")) == 1)

    def step_takes_a_booking_back(self):
        self.browser.click("li button|Cancel")
        self.browser.sees_none("li")
        self.browser.sees("section p", "0 rows")

    def step_shows_errors(self):
        self.desk("edit", cell="Since.Text", text="1/0")
        self.browser.sees("p.error", "⚠ division by zero")
        self.desk("edit", cell="Back.OnSelect", text='Error({Kind: "Odd", Message: "not today"})')
        self.browser.click("button|Back")
        self.browser.sees("[role=alert]", "“Back” ended with an error: not today.")
        self.desk("edit", cell="Booked.Items", text="Filter(Bookings, 1/0 = 1)")
        self.browser.sees("section p.error", "⚠ division by zero")
        self.browser.picture("errors")


def rate(port, request, seconds=2, secure=False):
    """Returns how many requests a second are answered: each on a connection of its own, or over TLS all on one."""
    link = None
    count, end = 0, time.monotonic() + seconds
    while time.monotonic() < end:
        if link is None:
            link = socket.create_connection(("127.0.0.1", port))
            if secure:
                link = ssl._create_unverified_context().wrap_socket(link, server_hostname="localhost")
        link.sendall(request)
        taken = b""
        while not Relay.is_whole(taken):
            taken += link.recv(65536)
        count += 1
        if not secure or b"Connection: close" in taken:
            link.close()
            link = None
    return count / seconds


def speed(rows):
    """Prints how many views of so many rows a second one client gets, and how often nginx gives it a file."""
    with site("shop", relayed=False) as (proxy, _, server):
        server.ask("PUT", "/s/ann-abcdefghij")
        changes = [{"op": "add", "table": "Stock", "row": {"Name": f"Item {it}", "Qty": it}} for it in range(rows)]
        server.ask("POST", "/desk/d/rows", {"seq": 1, "changes": changes})
        sign = base64.b64encode(f"ann:{PEOPLE['ann']}".encode()).decode()
        head = f"HTTP/1.1\r\nHost: localhost\r\nAuthorization: Basic {sign}\r\n\r\n"
        straight = rate(server.port, b"GET /s/ann-abcdefghij/view HTTP/1.1\r\n\r\n")
        through = rate(proxy.port, f"GET /s/abcdefghij/view {head}".encode(), secure=True)
        plain = rate(proxy.port, f"GET /talk.js {head}".encode(), secure=True)
        print(f"one client, {rows} rows, a second: {straight:.0f} views straight, {through:.0f} through nginx; {plain:.0f} files by nginx")


@contextlib.contextmanager
def site(app, relayed=True):
    """Serves an app through nginx over a new file, with a relay between or without."""
    with tempfile.TemporaryDirectory() as folder, contextlib.ExitStack() as ends:
        os.chmod(folder, 0o755)  # nginx's workers may be nobody
        server = Server(folder, f"{TOP}/examples/{app}.json")
        ends.callback(server.kill)
        relay = Relay(server)
        proxy = Proxy(folder, relay.port if relayed else server.port)
        ends.callback(proxy.end)
        yield proxy, relay, server


def main():
    missing = [it for it in NEEDED if not shutil.which(it, path=PATH)]
    if missing:
        return print(f"skipped: no {', '.join(missing)}")
    with tempfile.TemporaryDirectory() as folder, contextlib.ExitStack() as ends:
        browser = Browser(folder)
        ends.callback(browser.end)
        for play in (Order, Booking, Shop):
            with site(play.app) as parts:
                play(browser, *parts).run()
    for rows in (1, 100):
        speed(rows)


if __name__ == "__main__":
    main()

"""The service over HTTP: who may ask what, errors as answers, and its beginning and end."""
import asyncio
import contextlib
import os
import pathlib
import signal
import sys
import time
import traceback
import urllib.parse

import edgebpf
from aiohttp import web

from edgebpf_serve.asked import Unfit, look_at_query, said_media
from edgebpf_serve.backup import remove_drafts
from edgebpf_serve.connections import Connections, feed_watchdog, notify
from edgebpf_serve.engine import Busy, NoRoom, OtherBatch, Stopped
from edgebpf_serve.limits import IDLE_SECONDS, PAUSE_SECONDS
from edgebpf_serve.named import Conflict, Missing, TooMany
from edgebpf_serve.routes import ANY_TOKEN, ROUTES, Route, description
from edgebpf_serve.runs import Gone, TookTooLong
from edgebpf_serve.service import Service, answer, is_this_machine
from edgebpf_serve.tokens import TooFast

PAGE = pathlib.Path(__file__).resolve().parent / "page.html"
MOST_WORDS = 300
ERRORS = [
    (Missing, 404), (Conflict, 409), (TooMany, 403), (TooFast, 429), (NoRoom, 507), ((Busy, Stopped, TookTooLong, edgebpf.NoMemory), 503),
    ((Unfit, OtherBatch, edgebpf.VertexRange, edgebpf.TooManyEdits, edgebpf.ArgumentLength), 422),
    ((ValueError, TypeError, RecursionError, web.RequestPayloadError), 400), (OSError, 503),
]
ASK_AGAIN = {"Retry-After": "1"}
TOKEN_SECONDS = 1.0
# So long may answers under way take when the service ends.
END_SECONDS = 10.0
SWITCH_SECONDS = 0.001
# So long it reads on what is left of a body that it refused, so that the client reads why.
LINGER_SECONDS = 1.0


def error_answer(name, words, status, **more):
    # A run that took too long would take as long again.
    heads = ASK_AGAIN if status in (429, 503, 507) and name != TookTooLong.__name__ else {}
    if status == 401:
        heads = {"WWW-Authenticate": "Bearer"}
    return answer({"error": name, **more, "words": words[:MOST_WORDS]}, status, heads)


def answer_of(service, error):
    """The answer of an error that a handler raised."""
    if isinstance(error, web.HTTPException):
        made = error_answer(type(error).__name__.removeprefix("HTTP"), error.text or error.reason, error.status)
        if "Allow" in error.headers:
            made.headers["Allow"] = error.headers["Allow"]
        return made
    if isinstance(error, edgebpf.Refused):
        return error_answer("Refused", error.words, 422, cause=error.cause, unit=error.unit)
    if isinstance(error, edgebpf.WrongText):
        return error_answer("WrongText", str(error), 422, cause=error.cause, line=error.line)
    for kinds, status in ERRORS:
        if isinstance(error, kinds):
            if kinds is OSError:
                service.log("a request failed", error=f"{type(error).__name__}: {error}")
            return error_answer("BadRequest" if status == 400 else type(error).__name__, str(error), status)
    service.log("a request failed", error=f"{type(error).__name__}: {error}", trace=traceback.format_exc()[-4000:])
    return error_answer("Internal", "the service has a mistake here; its log says more", 500)


def allow(service, request, route):
    """The token of a request, if that may make it."""
    # Browsers let the page of another site post here, and name it.
    origin, host = request.headers.get("Origin"), request.headers.get("Host", "")
    if origin is not None and urllib.parse.urlsplit(origin).netloc != host:
        raise web.HTTPForbidden(text="Origin: this page is not of this service")
    # Who owns a site may have its name lead here, and then its page is of this host to a browser. It has no token.
    if service.is_private and not service.tokens.of and host and not is_this_machine(urllib.parse.urlsplit(f"//{host}").hostname or ""):
        raise web.HTTPForbidden(text="Host: a service without tokens is asked as localhost, or by an address of this machine")
    if route.role is None:
        return None
    token = service.tokens.of_request(request)
    if token is None:
        raise web.HTTPUnauthorized(text="Authorization: a token is wanted, as Bearer TOKEN")
    if route.role != ANY_TOKEN and route.role not in token.roles:
        raise web.HTTPForbidden(text=f"this token has not the role {route.role}")
    return token


async def made(service, request, route):
    """The answer of a request."""
    begun = time.monotonic()
    service.under_way[request.protocol] = request, begun
    try:
        response = await answered(service, request, route)
    finally:
        forget(service, request)
    finish(service, route, response, time.monotonic() - begun)
    return response


async def answered(service, request, route):
    try:
        token = request["token"] = allow(service, request, route)
        if route.query is not None and request.query_string:
            look_at_query(request, route.query_of(said_media(request)))
        response = await route.handler(service, request, token)
    except (Gone, ConnectionError):
        response = None
    except Exception as error:
        response = answer_of(service, error)
        if isinstance(error, TooMany | TooFast):
            service.meter.refused.labels(type(error).__name__).inc()
        if not request.content.is_eof():
            response.force_close()
    if response is None or request.get("begun") and response.status >= 400:
        # A part of an answer is out: the client sees that it was cut off.
        if request.transport is not None:
            request.transport.abort()
        response = response or web.Response(status=503)
    return response


def forget(service, request):
    """The request of a connection is no longer under way."""
    del service.under_way[request.protocol]
    service.body_bytes -= request.get("body", 0)
    if request.protocol in service.paused:
        service.paused.remove(request.protocol)
        if request.transport is not None:
            request.protocol.resume_reading()


def finish(service, route, response, seconds):
    service.meter.statuses.labels(route.path, response.status).inc()
    if route.path != "/watch":
        service.meter.requests.labels(route.path).observe(seconds)
        if seconds > 1:
            service.log("slow request", route=route.path, status=response.status, seconds=round(seconds, 3))


def handled(service, route):
    async def handle(request):
        return await made(service, request, route)
    return handle


def without_route(handler):
    """A handler of all requests, which answers those that come to no route: to a path that is none, or with an Expect that is none."""
    async def handle(request):
        try:
            return await handler(request)
        except (web.HTTPException, ValueError) as error:
            response = answer_of(None, error)
            if not request.content.is_eof():
                response.force_close()
            return response
    return handle


async def health(service, request, token):
    return answer({"status": "alive", "version": service.engine.latest.seq})


async def ready(service, request, token):
    if service.closing.is_set() or service.engine.is_full:
        raise Busy("the service is ending" if service.closing.is_set() else "the disk is full: it reads alone")
    return answer({"status": "ready", "version": service.engine.latest.seq})


async def token_of(service, request, token):
    return answer({"name": token.name, "roles": sorted(token.roles)})


async def metrics(service, request, token):
    return web.Response(body=service.meter.text(), content_type="text/plain")


async def openapi(service, request, token):
    return answer(description(all_routes(), bool(service.tokens.of)))


async def page(service, request, token):
    policy = "default-src 'none'; script-src 'unsafe-inline'; style-src 'unsafe-inline'; connect-src 'self'; img-src data:"
    return web.Response(body=PAGE.read_bytes(), content_type="text/html", headers={"Content-Security-Policy": policy})


def all_routes():
    return [
        *ROUTES,
        # Those who watch a service, and browsers, may add what they like.
        Route("GET", "/healthz", health, None, "Whether the process is alive.", query=None),
        Route("GET", "/readyz", ready, None, "Whether it takes batches.", (200, 503), query=None),
        Route("GET", "/metrics", metrics, "read", "Numbers for Prometheus.", query=None),
        Route("GET", "/openapi.json", openapi, None, "This description.", query=None),
        Route("GET", "/token", token_of, ANY_TOKEN, "The token's name, and what it may do.", query=None),
        Route("GET", "/", page, None, "A page that tries programs on the graph.", query=None),
    ]


def application(service):
    app = web.Application(client_max_size=service.options.body)
    for route in all_routes():
        app.router.add_route(route.method, route.path, handled(service, route))
    return app


async def listening(connections, listen):
    """The server of an address: ADDRESS:PORT or unix:PATH."""
    loop = asyncio.get_running_loop()
    if listen.startswith("unix:"):
        path = listen.removeprefix("unix:")
        with contextlib.suppress(FileNotFoundError):
            if pathlib.Path(path).is_socket():
                os.unlink(path)
        return await loop.create_unix_server(connections, path, backlog=1024)
    host, _, port = listen.rpartition(":")
    return await loop.create_server(connections, host.strip("[]"), int(port), backlog=1024)


async def watch_tokens(service):
    """Reads the tokens again when another process has changed them."""
    while True:
        await asyncio.sleep(TOKEN_SECONDS)
        try:
            service.tokens.read_again()
        except Exception as error:
            service.log("tokens cannot be read", error=f"{type(error).__name__}: {error}")


async def serve(disk, options, log, begun=lambda service, server: None):
    """Serves a folder until SIGTERM or SIGINT. `begun` is called once requests are taken."""
    # The writer and the readers give the loop its turn sooner than Python would have them.
    sys.setswitchinterval(SWITCH_SECONDS)
    loop, stop = asyncio.get_running_loop(), asyncio.Event()
    for number in (signal.SIGTERM, signal.SIGINT):
        loop.add_signal_handler(number, stop.set)
    service = Service(disk, options, log)
    runner = web.AppRunner(application(service), access_log=None, keepalive_timeout=IDLE_SECONDS, lingering_time=LINGER_SECONDS,
                           auto_decompress=False)
    await runner.setup()
    # A middleware would come after the answer to an Expect.
    runner.server.request_handler = without_route(runner.server.request_handler)
    connections = Connections(runner.server, options.connections, service.meter)
    server = await listening(connections, options.listen)
    service.engine.start()
    remove_drafts(disk.folder / "backups")
    tasks = [asyncio.ensure_future(one) for one in (
        connections.look_after(), watch_tokens(service), pause_long_requests(service), feed_watchdog(service.engine))]
    log("serves", listen=options.listen, version=service.engine.latest.seq, edges=service.engine.latest.version.edges,
        recovery_seconds=round(service.engine.recovery_seconds, 3))
    notify("READY=1")
    begun(service, server)
    await stop.wait()
    notify("STOPPING=1")
    log("ends")
    server.close()
    service.closing.set()
    await under_way_ended(runner.server)
    await runner.server.shutdown(LINGER_SECONDS)
    await runner.cleanup()
    for task in tasks:
        task.cancel()
    await asyncio.to_thread(service.close)
    log("ended", version=service.engine.latest.seq)


async def pause_long_requests(service):
    """Reads nothing more of connections whose requests take long."""
    while True:
        await asyncio.sleep(PAUSE_SECONDS)
        before = time.monotonic() - PAUSE_SECONDS
        # The oldest come first.
        for protocol, (request, begun) in list(service.under_way.items()):
            if begun > before:
                break
            if protocol not in service.paused and request.content.is_eof() and request.transport is not None:
                service.paused.add(protocol)
                protocol.pause_reading()


async def under_way_ended(server):
    """Waits until no connection has a request under way, or so long as that may take."""
    until = time.monotonic() + END_SECONDS
    while any(connection._current_request for connection in server.connections) and time.monotonic() < until:
        await asyncio.sleep(0.02)

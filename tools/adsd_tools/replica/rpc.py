"""Calls of etcd by gRPC, with Debian's python3-grpcio: less work for etcd than its JSON gateway. What is asked rarely,
as a member's room, goes by the gateway still."""

import ssl
import threading

from . import protocol
from .etcd import NO_SPACE, NOT_NOW, USUAL_PORT, Denied, Etcd

KV, LEASE = "/etcdserverpb.KV/", "/etcdserverpb.Lease/"
# By the path at the gateway: the method, and the forms of what is asked and answered.
CALLS = {"kv/range": (KV + "Range", "Range", "Ranged"), "kv/put": (KV + "Put", "Put", "Answer"),
         "kv/deleterange": (KV + "DeleteRange", "Delete", "Deleted"), "kv/txn": (KV + "Txn", "Txn", "Done"),
         "kv/compaction": (KV + "Compact", "Compaction", "Answer"),
         "lease/grant": (LEASE + "LeaseGrant", "Grant", "Granted"),
         "lease/revoke": (LEASE + "LeaseRevoke", "Lease", "Answer"),
         "auth/authenticate": ("/etcdserverpb.Auth/Authenticate", "Authenticate", "Known")}
KEEP_ALIVE, WATCH = LEASE + "LeaseKeepAlive", "/etcdserverpb.Watch/Watch"
# No proxy comes between; a member that is silent for so long is asked whether it is there, one that was away is tried
# again soon, and a connection has so long (`min_reconnect_backoff`): in milliseconds. What comes may be as large as parts
# of a log are.
OPTIONS = (("grpc.enable_http_proxy", 0), ("grpc.max_receive_message_length", -1),
           ("grpc.max_send_message_length", -1), ("grpc.keepalive_time_ms", 10_000),
           ("grpc.keepalive_timeout_ms", 3000),
           ("grpc.initial_reconnect_backoff_ms", 100), ("grpc.min_reconnect_backoff_ms", 3000),
           ("grpc.max_reconnect_backoff_ms", 1000), ("grpc.use_local_subchannel_pool", 1))
# So long one stream is followed, in seconds.
FOLLOWED = 600.0


def is_there():
    """Whether gRPC can be spoken."""
    try:
        from grpc import insecure_channel  # noqa: F401
    except ImportError:
        return False
    return True


def text_of(path):
    with open(path, "rb") as file:
        return file.read()


class Told:
    """What a stream tells, one after the other. Another thread may end it."""

    def __init__(self, call):
        self.call = call

    def __iter__(self):
        import grpc

        try:
            for data in self.call:
                yield protocol.read("Told", data)
        except grpc.RpcError as why:
            raise OSError(str(why.code())) from None

    def close(self):
        self.call.cancel()

    shut = close


class Rpc(Etcd):
    """The members of one etcd, by gRPC. `files` are those of TLS: who vouches for etcd, a certificate, and its key."""

    def __init__(self, urls, tls=None, user=None, files=(None, None, None)):
        super().__init__(urls, tls, user)
        self.files, self.channel, self.methods = files, None, {}

    def other(self):
        made = super().other()
        made.files = self.files
        return made

    def is_open(self):
        return self.channel is not None or super().is_open()

    def close(self):
        super().close()
        channel, self.channel, self.methods = self.channel, None, {}
        if channel is not None:
            channel.close()

    def credentials(self):
        """What TLS is made with."""
        import grpc

        authority, certificate, key = self.files
        roots = authority or ssl.get_default_verify_paths().cafile
        held = [text_of(one) if one else None for one in (roots, (key or certificate), certificate)]
        return grpc.ssl_channel_credentials(*held)

    def opened(self):
        """The channel to the member that is asked."""
        import grpc

        if self.channel is None:
            url = self.urls[self.at]
            name = f"[{url.hostname}]" if ":" in url.hostname else url.hostname
            name = f"{name}:{url.port or USUAL_PORT}"
            if url.scheme == "https":
                self.channel = grpc.secure_channel(name, self.credentials(), OPTIONS)
            else:
                self.channel = grpc.insecure_channel(name, OPTIONS)
        return self.channel

    def method(self, name, streams):
        if name not in self.methods:
            channel = self.opened()
            self.methods[name] = (channel.stream_stream if streams else channel.unary_unary)(name)
        return self.methods[name]

    def once(self, path, asked, patience, token=""):
        if path not in CALLS and path != "lease/keepalive":
            return super().once(path, asked, patience, token)
        import grpc

        known = [("token", token)] if token else []
        try:
            if path == "lease/keepalive":
                data = protocol.written("Lease", asked)
                answers = self.method(KEEP_ALIVE, True)(iter((data,)), timeout=patience, metadata=known)
                return {"result": protocol.read("Granted", next(answers, b""))}
            name, form, answer = CALLS[path]
            said = self.method(name, False)(protocol.written(form, asked), timeout=patience, metadata=known)
            return protocol.read(answer, said)
        except grpc.RpcError as why:
            raise fault_of(why) from None

    def stream(self, asked, patience):
        """What a member tells of a watch; the first of it is waited for so long."""
        import grpc

        token, ends = self.log_in() if self.user else "", threading.Event()

        def first():
            yield protocol.written("Watch", asked)
            ends.wait(FOLLOWED)

        known = [("token", token)] if token else []
        try:
            call = self.method(WATCH, True)(first(), timeout=FOLLOWED, metadata=known)
        except ValueError as why:
            raise OSError(str(why)) from None  # (another thread has closed it)
        call.add_callback(ends.set)
        late = threading.Timer(patience, call.cancel)
        late.start()
        try:
            next(call)
        except (grpc.RpcError, StopIteration) as why:
            if self.user:
                self.user.token = None
            raise OSError(str(why)) from None
        finally:
            late.cancel()
        return Told(call)


def fault_of(why):
    """What a fault of gRPC is here."""
    code, told = why.code(), str(why.details())
    number = code.value[0] if code is not None else NOT_NOW[0]
    if NO_SPACE not in told and number in NOT_NOW:
        return OSError(told or code.name)
    return Denied(told)

#!/usr/bin/env python3
"""Connections of TLS between two processes over Python's ssl, each with OpenSSL's own AES or with the provider's.
usage: tls.py CONF CERTIFICATE KEY [BYTES]    (CONF: a fotsgure.cnf with the module's path in it)
The last line is 'N passed, M failed'."""
import os
import random
import socket
import ssl
import subprocess
import sys

CBC = [("TLSv1_2", "ECDHE-ECDSA-AES128-SHA256"), ("TLSv1_2", "ECDHE-ECDSA-AES256-SHA384"),
       ("TLSv1_2", "ECDHE-ECDSA-AES256-SHA"), ("TLSv1_1", "ECDHE-ECDSA-AES128-SHA"), ("TLSv1", "ECDHE-ECDSA-AES256-SHA")]
CONNECTIONS = [("TLSv1_3", "-", "-"), ("TLSv1_2", "ECDHE-ECDSA-AES128-GCM-SHA256", "-"),
               ("TLSv1_2", "ECDHE-ECDSA-AES256-GCM-SHA384", "-")]
CONNECTIONS += [(version, suite, order) for version, suite in CBC for order in ("encrypt-then-mac", "mac-then-encrypt")]
NO_ENCRYPT_THEN_MAC = 1 << 19  # OpenSSL's SSL_OP_NO_ENCRYPT_THEN_MAC


def context(side, version, suite, order, certificate, key):
    result = ssl.SSLContext(ssl.PROTOCOL_TLS_SERVER if side == "server" else ssl.PROTOCOL_TLS_CLIENT)
    result.minimum_version = result.maximum_version = getattr(ssl.TLSVersion, version)
    if version != "TLSv1_3":
        result.set_ciphers(f"{suite}:@SECLEVEL={1 if version == 'TLSv1_2' else 0}")
    if order == "mac-then-encrypt":
        result.options |= NO_ENCRYPT_THEN_MAC
    if side == "server":
        result.load_cert_chain(certificate, key)
    else:
        result.load_verify_locations(certificate)
    return result


def pieces(seed, count):
    """The random bytes that one side sends, in pieces."""
    numbers, at = random.Random(seed), 0
    data = numbers.randbytes(count)
    while at < count:
        size = numbers.choice((1, 7, 16, 100, 1000, 5000, 16384, 40000))
        yield data[at:at + size]
        at += size


def receive(connection, expected):
    got = bytearray()
    while len(got) < len(expected):
        part = connection.recv(len(expected) - len(got))
        if not part:
            return False
        got += part
    return got == expected


def talk(connection, mine, theirs, count):
    """Both sides send in turns, and compare what comes with what was sent."""
    sent, expected = list(pieces(mine, count)), list(pieces(theirs, count))
    for turn in range(max(len(sent), len(expected))):
        if turn < len(sent):
            connection.sendall(sent[turn])
        if turn < len(expected) and not receive(connection, expected[turn]):
            return False
    return True


def serve(made, port, count):
    with socket.create_server(("127.0.0.1", port)) as listener:
        print("ready", flush=True)
        with made.wrap_socket(listener.accept()[0], server_side=True) as connection:
            right, name = talk(connection, 1, 2, count), connection.cipher()
            connection.recv(1)
            return right, name


def connect(made, port, count):
    with made.wrap_socket(socket.create_connection(("127.0.0.1", port)), server_hostname="localhost") as connection:
        right, name = talk(connection, 2, 1, count), connection.cipher()
        connection.sendall(b".")
        return right, name


def side(which, version, suite, order, certificate, key, port, count):
    tls = context(which, version, suite, order, certificate, key)
    right, name = (serve if which == "server" else connect)(tls, int(port), int(count))
    print(right, name[0], name[1], flush=True)
    return 0 if right else 1


def start(which, arguments, conf):
    environment = dict(os.environ, OPENSSL_CONF=conf)
    return subprocess.Popen([sys.executable, __file__, "--" + which, *arguments], env=environment, text=True,
                            stdout=subprocess.PIPE, stderr=subprocess.PIPE)


def try_connection(who, arguments, conf):
    """One connection in which `who`, server, client or both, has the provider."""
    server = start("server", arguments, conf if who in ("server", "both") else "/dev/null")
    server.stdout.readline()
    client = start("client", arguments, conf if who in ("client", "both") else "/dev/null")
    output, client_errors = client.communicate()
    if client.returncode != 0:
        server.kill()  # it may still wait for a client
    _, server_errors = server.communicate()
    right = server.returncode == 0 and client.returncode == 0
    print(f"{'ok' if right else 'FAILED'}: {' '.join(arguments[:3])}, fotsgure: {who}: {output.strip()}")
    if not right:
        print(server_errors[-600:], client_errors[-600:])
    return right


def main():
    conf, certificate, key = (os.path.abspath(path) for path in sys.argv[1:4])
    count = sys.argv[4] if len(sys.argv) > 4 else "1000000"
    port, results = 20000 + os.getpid() % 10000, []
    for words in CONNECTIONS:
        for who in ("server", "client", "both"):
            port += 1
            results.append(try_connection(who, [*words, certificate, key, str(port), count], conf))
    print(f"{results.count(True)} passed, {results.count(False)} failed")
    return 0 if all(results) else 1


sys.exit(side(sys.argv[1][2:], *sys.argv[2:]) if sys.argv[1].startswith("--") else main())

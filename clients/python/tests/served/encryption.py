"""Certificates made by openssl."""
import os
import ssl
import subprocess

MAKES = """
set -e
request() {
    openssl req -newkey ec -pkeyopt ec_paramgen_curve:P-256 -nodes -keyout $1.key -subj /CN=$1 "${@:2}"
}
sign() {  # a name, an authority, and for how many days
    request $1 -addext subjectAltName=IP:127.0.0.1 -out $1.csr
    openssl x509 -req -in $1.csr -CA $2.pem -CAkey $2.key -CAcreateserial -days $3 -copy_extensions copy -out $1.pem
}
for it in ca other; do request $it -x509 -out $it.pem; done
for it in server client; do sign $it ca 2; done
sign expired ca -1
sign stranger other 2
"""


class Certificates:
    """Files in a folder: two authorities, `ca` and `other`, and what they signed."""

    def __init__(self, room):
        self.room = room
        subprocess.run(["bash", "-c", MAKES], check=True, capture_output=True, cwd=room)

    def path(self, name):
        """The certificate of this name."""
        return os.path.join(self.room, f"{name}.pem")

    def key(self, name):
        """Its key."""
        return os.path.join(self.room, f"{name}.key")

    def client(self, authority="ca", name="client"):
        """What a client is given that trusts this authority, and shows this certificate."""
        context = ssl.create_default_context(cafile=self.path(authority))
        if name is not None:
            context.load_cert_chain(self.path(name), self.key(name))
        return context

    def server(self, name="server"):
        """What a server is given that shows this certificate, and wants one of `ca`."""
        context = ssl.create_default_context(ssl.Purpose.CLIENT_AUTH, cafile=self.path("ca"))
        context.load_cert_chain(self.path(name), self.key(name))
        context.verify_mode = ssl.CERT_REQUIRED
        return context

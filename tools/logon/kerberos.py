"""A realm of Kerberos with a KDC of its own on loopback, which lasts as long as the run."""
import os
import subprocess

from peers import free_port, wait_for

REALM = "NEWAKSU.TEST"


class Realm:
    """User `ann` with the password of the runs, and the service TERMSRV/localhost."""

    def __init__(self, work):
        self.work = work / "realm"
        self.work.mkdir()
        self.user = f"ann@{REALM}"
        self.keytab = self.work / "keytab"
        self.kdc = None

    def environment(self):
        return {
            **os.environ,
            "KRB5_CONFIG": str(self.work / "krb5.conf"),
            "KRB5_KDC_PROFILE": str(self.work / "kdc.conf"),
            "KRB5_KTNAME": str(self.keytab),
            "KRB5CCNAME": f"FILE:{self.work}/cache",
        }

    def __enter__(self):
        port = free_port()
        (self.work / "krb5.conf").write_text(
            f"[libdefaults]\n default_realm = {REALM}\n dns_lookup_kdc = false\n"
            " dns_canonicalize_hostname = false\n rdns = false\n"
            f"[realms]\n {REALM} = {{\n  kdc = 127.0.0.1:{port}\n }}\n"
            f"[domain_realm]\n localhost = {REALM}\n"
        )
        (self.work / "kdc.conf").write_text(
            f"[kdcdefaults]\n kdc_listen = 127.0.0.1:{port}\n kdc_tcp_listen = 127.0.0.1:{port}\n"
            f"[realms]\n {REALM} = {{\n  database_name = {self.work}/principal\n"
            f"  key_stash_file = {self.work}/stash\n  acl_file = {self.work}/acl\n }}\n"
            f"[logging]\n kdc = FILE:{self.work}/kdc.log\n"
        )
        self.call("kdb5_util", "create", "-s", "-r", REALM, "-P", "master of this run")
        self.call("kadmin.local", "-r", REALM, "-q", "addprinc -pw secret ann")
        self.call("kadmin.local", "-r", REALM, "-q", "addprinc -randkey TERMSRV/localhost")
        self.call("kadmin.local", "-r", REALM, "-q", f"ktadd -k {self.keytab} TERMSRV/localhost")
        self.kdc = subprocess.Popen(
            ["krb5kdc", "-n", "-r", REALM],
            env=self.environment(),
            stdout=subprocess.DEVNULL,
            stderr=subprocess.DEVNULL,
        )
        wait_for(self.work / "kdc.log", "commencing operation")
        return self

    def __exit__(self, *_):
        self.kdc.terminate()
        self.kdc.wait()

    def call(self, *words):
        subprocess.run(
            words,
            env=self.environment(),
            stdin=subprocess.DEVNULL,
            stdout=subprocess.DEVNULL,
            stderr=subprocess.DEVNULL,
            check=True,
        )

#!/usr/bin/env python3
"""pysnmp as a receiver of notifications on 127.0.0.1: gate_pysnmp_receiver.py PORT ENGINE

It prints the contextName and the variables of each that it takes from the user sha256-priv: of Informs as their own
engine's, and of Traps as the engine's in hex, ENGINE. It runs until it is killed. Debian's package is
python3-pysnmp4."""
import sys
import warnings

warnings.simplefilter("ignore")
from pysnmp.carrier.asyncore.dgram import udp  # noqa: E402
from pysnmp.entity import config, engine  # noqa: E402
from pysnmp.entity.rfc3413 import ntfrcv  # noqa: E402
from pysnmp.proto.api import v2c  # noqa: E402


def told(_engine, _reference, _context_engine, context_name, bindings, _more):
    print(context_name.prettyPrint(), *(f"{name}={value.prettyPrint()}" for name, value in bindings), flush=True)


def main():
    receiver = engine.SnmpEngine()
    config.addTransport(receiver, udp.domainName, udp.UdpTransport().openServerMode(("127.0.0.1", int(sys.argv[1]))))
    for of in ({}, {"securityEngineId": v2c.OctetString(hexValue=sys.argv[2])}):
        config.addV3User(
            receiver,
            "sha256-priv",
            config.usmHMAC192SHA256AuthProtocol,
            "maplesyrup",
            config.usmAesCfb128Protocol,
            "syrupmaple",
            **of
        )
    ntfrcv.NotificationReceiver(receiver, told)
    receiver.transportDispatcher.jobStarted(1)
    receiver.transportDispatcher.runDispatcher()


main()

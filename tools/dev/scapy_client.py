"""Asks a unit behind DoIP by scapy: python3 scapy_client.py PORT REQUEST.., each in hexadecimal digits. It prints a JSON list of what scapy
reads of the identification, and of each answer: its bytes, and the service and the code that scapy finds in them; None where it finds none."""
import json
import logging
import socket
import sys
import warnings

warnings.simplefilter("ignore")
logging.getLogger("scapy").setLevel(logging.ERROR)
from scapy.contrib.automotive.doip import DoIP, UDS_DoIPSocket  # noqa: E402
from scapy.contrib.automotive.uds import UDS, UDS_NR  # noqa: E402

SECONDS, TESTER, ENTITY = 2, 0x0E00, 0x1010


def identified(port):
    """What an identification gives."""
    with socket.socket(socket.AF_INET, socket.SOCK_DGRAM) as it:
        it.settimeout(SECONDS)
        it.sendto(bytes(DoIP(payload_type=0x0001)), ("127.0.0.1", port))
        found = DoIP(it.recv(4096))
    return {"type": found.payload_type, "vin": found.vin.hex(), "address": found.logical_address, "eid": found.eid.hex()}


def answered(tester, text):
    found = tester.sr1(UDS(bytes.fromhex(text)), timeout=SECONDS, verbose=False)
    if found is None:
        return None
    return {"bytes": bytes(found).hex(), "service": found.service, "code": found.negativeResponseCode if UDS_NR in found else None}


def main():
    port = int(sys.argv[1])
    told = identified(port)
    tester = UDS_DoIPSocket("127.0.0.1", port, source_address=TESTER, target_address=ENTITY)
    print(json.dumps([told, *(answered(tester, text) for text in sys.argv[2:])]))


if __name__ == "__main__":
    main()

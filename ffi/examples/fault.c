/* The names of the faults. */
#include "fault.h"

#include <stdio.h>

const char *fault_name(enum fault fault) {
    switch (fault) {
    case FAULT_NONE:
        return "none";
    case FAULT_MEMORY:
        return "InsufficientMemory";
    case FAULT_ADDRESS:
        return "AddressNotFound";
    case FAULT_CONNECT:
        return "ConnectionRefused";
    case FAULT_TIMEOUT:
        return "TimedOut";
    case FAULT_DEADLINE:
        return "DeadlinePassed";
    case FAULT_CLOSED:
        return "ConnectionClosed";
    case FAULT_SOCKET:
        return "SocketFailed";
    case FAULT_X224:
        return "NoX224Message";
    case FAULT_NO_NLA:
        return "PeerWithoutNla";
    case FAULT_TLS:
        return "TlsHandshakeFailed";
    case FAULT_CERTIFICATE:
        return "CertificateMismatch";
    case FAULT_SETTINGS:
        return "InvalidSettings";
    case FAULT_FILE:
        return "FileNotReadable";
    case FAULT_MECHANISM:
        return "MechanismUnavailable";
    case FAULT_NOT_A_REQUEST:
        return "NotATsRequest";
    case FAULT_PASSWORD:
        return "NoPassword";
    }
    return "unknown";
}

int fault_report(enum fault fault, const char *where) {
    fprintf(stderr, "fault: %s: %s\n", fault_name(fault), where);
    return 3;
}

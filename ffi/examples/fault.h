/* What can go wrong around CredSSP: in the network, in TLS, in the files that the programs are
 * passed. */
#ifndef NEWAKSU_EXAMPLE_FAULT_H
#define NEWAKSU_EXAMPLE_FAULT_H

enum fault {
    FAULT_NONE,
    FAULT_MEMORY,        /* no memory */
    FAULT_ADDRESS,       /* a host or port that does not resolve, or cannot be bound */
    FAULT_CONNECT,       /* nobody listens at the address */
    FAULT_TIMEOUT,       /* the peer was silent for longer than CHANNEL_SECONDS */
    FAULT_DEADLINE,      /* the exchange took longer than allowed in total */
    FAULT_CLOSED,        /* the peer closed the connection inside a message */
    FAULT_SOCKET,        /* any other failure of a read or a write */
    FAULT_X224,          /* what came is not an X.224 connection request or confirm */
    FAULT_NO_NLA,        /* the peer does not request, or does not agree to, CredSSP */
    FAULT_TLS,           /* the TLS handshake failed */
    FAULT_CERTIFICATE,   /* the server's certificate is not the expected one */
    FAULT_SETTINGS,      /* a user's name that the library does not accept */
    FAULT_FILE,          /* a certificate, key or user file that cannot be read */
    FAULT_MECHANISM,     /* GSSAPI has no such mechanism, or no credentials for it */
    FAULT_NOT_A_REQUEST, /* what came is not a TSRequest, or is too long */
    FAULT_PASSWORD       /* no password can be read, or one of more than PASSWORD_BYTES bytes */
};

const char *fault_name(enum fault);

/* Prints the fault, and where it occurred, on standard error; returns the exit status of a program
 * that ends with it. */
int fault_report(enum fault, const char *where);

#endif

/* The functions of a host's mechanism, each around a GSSAPI call. */
#include "gss.h"

#include <errno.h>
#include <gssapi/gssapi.h>
#include <gssapi/gssapi_ext.h>
#include <stdio.h>
#include <stdlib.h>
#include <string.h>

struct gss {
    gss_OID mechanism;
    gss_cred_id_t credentials;
    gss_ctx_id_t context;
    gss_name_t target;   /* of a client: the service */
    gss_name_t peer;     /* of a server, once authentication is complete: the user */
    char *authenticated; /* the same as a text */
    bool server;
    bool dce_style;         /* a client will be, and a server is */
    OM_uint32 major, minor; /* of the last failure */
};

static gss_OID_desc ntlm = {10, "\x2b\x06\x01\x04\x01\x82\x37\x02\x02\x0a"};
static gss_OID_desc kerberos = {9, "\x2a\x86\x48\x86\xf7\x12\x01\x02\x02"};
static gss_OID_desc spnego = {6, "\x2b\x06\x01\x05\x05\x02"};

static gss_OID mechanism_of(const char *name) {
    if (strcmp(name, "ntlm") == 0)
        return &ntlm;
    if (strcmp(name, "kerberos") == 0)
        return &kerberos;
    return strcmp(name, "spnego") == 0 ? &spnego : GSS_C_NO_OID;
}

bool gss_knows(const char *mechanism) {
    return mechanism_of(mechanism) != GSS_C_NO_OID;
}

/* What an end of CredSSP requires of its context. */
static const OM_uint32 wanted = GSS_C_MUTUAL_FLAG | GSS_C_CONF_FLAG | GSS_C_INTEG_FLAG |
                                GSS_C_SEQUENCE_FLAG | GSS_C_REPLAY_FLAG;

/* The SECURITY_STATUS of a failure. GSS_S_FAILURE is all that NTLM and Kerberos report for a wrong
 * user or password. */
static uint32_t refuse(struct gss *gss, OM_uint32 major, OM_uint32 minor) {
    gss->major = major;
    gss->minor = minor;
    switch (GSS_ROUTINE_ERROR(major)) {
    case GSS_S_BAD_SIG:
        return NEWAKSU_E_MESSAGE_ALTERED;
    case GSS_S_DEFECTIVE_TOKEN:
        return NEWAKSU_E_INVALID_TOKEN;
    case GSS_S_NO_CRED:
        return NEWAKSU_E_NO_CREDENTIALS;
    case GSS_S_CONTEXT_EXPIRED:
    case GSS_S_CREDENTIALS_EXPIRED:
        return NEWAKSU_E_CONTEXT_EXPIRED;
    case GSS_S_FAILURE:
        return minor == ENOMEM ? NEWAKSU_E_INSUFFICIENT_MEMORY : NEWAKSU_E_LOGON_DENIED;
    default:
        return NEWAKSU_E_INTERNAL_ERROR;
    }
}

static gss_buffer_desc buffer_of(const void *bytes, size_t length) {
    return (gss_buffer_desc){.length = length, .value = (void *)bytes};
}

/* Passes what GSSAPI returned to the host, and overwrites it: it may be an opened text. */
static uint32_t hand_over(gss_buffer_t given, newaksu_bytes *bytes) {
    OM_uint32 ignored;
    uint32_t status = newaksu_bytes_append(bytes, given->value, given->length);
    if (given->value)
        explicit_bzero(given->value, given->length);
    gss_release_buffer(&ignored, given);
    return status;
}

static uint32_t step(void *context, const uint8_t *token, size_t length, newaksu_bytes *output) {
    struct gss *gss = context;
    gss_buffer_desc taken = buffer_of(token, length), given = GSS_C_EMPTY_BUFFER;
    OM_uint32 major, minor, flags = 0;
    if (gss->server)
        major = gss_accept_sec_context(&minor, &gss->context, gss->credentials, &taken,
                                       GSS_C_NO_CHANNEL_BINDINGS, &gss->peer, NULL, &given, &flags,
                                       NULL, NULL);
    else
        major =
            gss_init_sec_context(&minor, gss->credentials, &gss->context, gss->target,
                                 gss->mechanism, gss->dce_style ? wanted | GSS_C_DCE_STYLE : wanted,
                                 0, GSS_C_NO_CHANNEL_BINDINGS, &taken, NULL, &given, &flags, NULL);
    /* GSSAPI reports no flags yet if Kerberos needs another token from its client */
    if (gss->server && (major & GSS_S_CONTINUE_NEEDED))
        gss->dce_style = gss->mechanism == &kerberos;
    else if (gss->server)
        gss->dce_style = flags & GSS_C_DCE_STYLE;
    uint32_t status = hand_over(&given, output);
    if (GSS_ERROR(major))
        return refuse(gss, major, minor);
    if (status != NEWAKSU_OK)
        return status;
    if (major & GSS_S_CONTINUE_NEEDED)
        return NEWAKSU_CONTINUE_NEEDED;
    if (flags & GSS_C_ANON_FLAG)
        return NEWAKSU_E_LOGON_DENIED;
    /* without confidentiality the credentials would be sent in clear */
    return flags & GSS_C_CONF_FLAG ? NEWAKSU_OK : NEWAKSU_E_INVALID_TOKEN;
}

static uint32_t peer(void *context, newaksu_bytes *name) {
    struct gss *gss = context;
    gss_buffer_desc text = GSS_C_EMPTY_BUFFER;
    OM_uint32 minor, major = gss_display_name(&minor, gss->peer, &text, NULL);
    if (GSS_ERROR(major))
        return refuse(gss, major, minor);
    /* gss-ntlmssp counts a terminating zero too */
    const char *end = memchr(text.value, 0, text.length);
    if (end && end != (const char *)text.value + text.length - 1) {
        gss_release_buffer(&minor, &text);
        return NEWAKSU_E_INVALID_TOKEN;
    }
    gss->authenticated = strndup(text.value, text.length);
    gss_release_buffer(&minor, &text);
    if (!gss->authenticated)
        return NEWAKSU_E_INSUFFICIENT_MEMORY;
    return newaksu_bytes_append(name, gss->authenticated, strlen(gss->authenticated));
}

const char *gss_authenticated(const struct gss *gss) {
    return gss->authenticated ? gss->authenticated : "";
}

/* Seals in the layout of SSPI's buffers, with all that is not text in front of it. MIT Kerberos
 * does so if asked for two buffers. With gss_wrap it puts a part after the text, which a receiver
 * must accept too (RFC 4121 4.2.5), and WinPR does not. */
static OM_uint32 wrap_in_two(struct gss *gss, OM_uint32 *minor, gss_buffer_t text,
                             int *confidential, newaksu_bytes *blob, uint32_t *status) {
    gss_iov_buffer_desc parts[2] = {
        {GSS_IOV_BUFFER_TYPE_HEADER | GSS_IOV_BUFFER_FLAG_ALLOCATE, GSS_C_EMPTY_BUFFER},
        {GSS_IOV_BUFFER_TYPE_DATA, {.length = text->length, .value = malloc(text->length + 1)}},
    };
    OM_uint32 ignored;
    *minor = ENOMEM;
    if (!parts[1].buffer.value)
        return GSS_S_FAILURE;
    memcpy(parts[1].buffer.value, text->value, text->length);
    OM_uint32 major =
        gss_wrap_iov(minor, gss->context, 1, GSS_C_QOP_DEFAULT, confidential, parts, 2);
    for (int i = 0; i < 2 && !GSS_ERROR(major) && *status == NEWAKSU_OK; i++)
        *status = newaksu_bytes_append(blob, parts[i].buffer.value, parts[i].buffer.length);
    explicit_bzero(parts[1].buffer.value, text->length);
    free(parts[1].buffer.value);
    gss_release_iov_buffer(&ignored, parts, 1);
    return major;
}

static uint32_t seal(void *context, const uint8_t *text, size_t length, newaksu_bytes *blob) {
    struct gss *gss = context;
    gss_buffer_desc plain = buffer_of(text, length), sealed = GSS_C_EMPTY_BUFFER;
    int confidential = 0;
    uint32_t status = NEWAKSU_OK;
    OM_uint32 minor, major = wrap_in_two(gss, &minor, &plain, &confidential, blob, &status);
    /* NTLM has only gss_wrap, which puts its signature in front */
    if (GSS_ROUTINE_ERROR(major) == GSS_S_UNAVAILABLE) {
        major =
            gss_wrap(&minor, gss->context, 1, GSS_C_QOP_DEFAULT, &plain, &confidential, &sealed);
        status = hand_over(&sealed, blob);
    }
    if (GSS_ERROR(major))
        return refuse(gss, major, minor);
    return status != NEWAKSU_OK || confidential ? status : NEWAKSU_E_INTERNAL_ERROR;
}

/* Opens this layout in place. In DCE style gss_unwrap cannot. */
static OM_uint32 unwrap_in_two(struct gss *gss, OM_uint32 *minor, gss_buffer_t sealed,
                               int *confidential, newaksu_bytes *text, uint32_t *status) {
    gss_iov_buffer_desc parts[2] = {{GSS_IOV_BUFFER_TYPE_HEADER, GSS_C_EMPTY_BUFFER},
                                    {GSS_IOV_BUFFER_TYPE_DATA, *sealed}};
    OM_uint32 major =
        gss_wrap_iov_length(minor, gss->context, 1, GSS_C_QOP_DEFAULT, confidential, parts, 2);
    size_t head = parts[0].buffer.length;
    if (GSS_ERROR(major))
        return major;
    if (sealed->length < head)
        return GSS_S_DEFECTIVE_TOKEN;
    uint8_t *copy = malloc(sealed->length);
    *minor = ENOMEM;
    if (!copy)
        return GSS_S_FAILURE;
    memcpy(copy, sealed->value, sealed->length);
    parts[0].buffer = buffer_of(copy, head);
    parts[1].buffer = buffer_of(copy + head, sealed->length - head);
    major = gss_unwrap_iov(minor, gss->context, confidential, NULL, parts, 2);
    if (!GSS_ERROR(major))
        *status = newaksu_bytes_append(text, parts[1].buffer.value, parts[1].buffer.length);
    explicit_bzero(copy, sealed->length);
    free(copy);
    return major;
}

static uint32_t unseal(void *context, const uint8_t *blob, size_t length, newaksu_bytes *text) {
    struct gss *gss = context;
    gss_buffer_desc sealed = buffer_of(blob, length), plain = GSS_C_EMPTY_BUFFER;
    int confidential = 0;
    uint32_t status = NEWAKSU_OK;
    OM_uint32 minor, major;
    if (gss->dce_style)
        major = unwrap_in_two(gss, &minor, &sealed, &confidential, text, &status);
    else
        major = gss_unwrap(&minor, gss->context, &sealed, &plain, &confidential, NULL);
    if (GSS_ERROR(major))
        return refuse(gss, major, minor);
    if (!gss->dce_style)
        status = hand_over(&plain, text);
    /* a replay, or one out of order, is reported along with success */
    return confidential && !GSS_SUPPLEMENTARY_INFO(major) ? status : NEWAKSU_E_MESSAGE_ALTERED;
}

/* NTLM restarts cipher and counters after each exchange of MICs (MS-SPNG 3.3.5.1), both ways. */
static uint32_t begin_anew(struct gss *gss) {
    static gss_OID_desc reset_crypto = {11, "\x2b\x06\x01\x04\x01\xb7\x7d\x85\x0f\x01\x03"};
    for (uint32_t receives = 0; receives < 2 && gss->mechanism == &ntlm; receives++) {
        gss_buffer_desc direction = buffer_of(&receives, sizeof receives);
        OM_uint32 minor,
            major = gss_set_sec_context_option(&minor, &gss->context, &reset_crypto, &direction);
        if (GSS_ERROR(major))
            return refuse(gss, major, minor);
    }
    return NEWAKSU_OK;
}

static uint32_t sign(void *context, const uint8_t *list, size_t length, newaksu_bytes *mic) {
    struct gss *gss = context;
    gss_buffer_desc message = buffer_of(list, length), given = GSS_C_EMPTY_BUFFER;
    OM_uint32 minor, major = gss_get_mic(&minor, gss->context, GSS_C_QOP_DEFAULT, &message, &given);
    if (GSS_ERROR(major))
        return refuse(gss, major, minor);
    uint32_t status = hand_over(&given, mic);
    return status == NEWAKSU_OK ? begin_anew(gss) : status;
}

static uint32_t verify(void *context, const uint8_t *list, size_t length, const uint8_t *mic,
                       size_t mic_length) {
    struct gss *gss = context;
    gss_buffer_desc message = buffer_of(list, length), given = buffer_of(mic, mic_length);
    OM_uint32 minor, major = gss_verify_mic(&minor, gss->context, &message, &given, NULL);
    if (GSS_ERROR(major))
        return refuse(gss, major, minor);
    return GSS_SUPPLEMENTARY_INFO(major) ? NEWAKSU_E_MESSAGE_ALTERED : begin_anew(gss);
}

static uint32_t user_to_user(void *context) {
    return ((struct gss *)context)->dce_style;
}

static void release(void *context) {
    struct gss *gss = context;
    OM_uint32 ignored;
    gss_delete_sec_context(&ignored, &gss->context, GSS_C_NO_BUFFER);
    gss_release_cred(&ignored, &gss->credentials);
    gss_release_name(&ignored, &gss->target);
    gss_release_name(&ignored, &gss->peer);
    free(gss->authenticated);
    free(gss);
}

const newaksu_mechanism gss_mechanism = {step,    peer, seal,   unseal,
                                         release, sign, verify, user_to_user};

static struct gss *make(const char *mechanism) {
    struct gss *gss = calloc(1, sizeof *gss);
    if (gss)
        gss->mechanism = mechanism_of(mechanism);
    /* only NTLM version 2, unless the environment says otherwise */
    setenv("LM_COMPAT_LEVEL", "5", 0);
    return gss;
}

static bool import(struct gss *gss, const char *text, gss_OID form, gss_name_t *name) {
    gss_buffer_desc buffer = buffer_of(text, strlen(text));
    gss->major = gss_import_name(&gss->minor, &buffer, form, name);
    return !GSS_ERROR(gss->major);
}

/* For NTLM: gss-ntlmssp offers OEM texts as well as Unicode, a FreeRDP server answers with both,
 * and gss-ntlmssp refuses that answer, which means Unicode (MS-NLMP 2.2.2.5). So only Unicode is
 * offered. */
static bool offer_unicode_alone(struct gss *gss) {
    static gss_OID_desc negotiate_flags = {11, "\x2b\x06\x01\x04\x01\xb7\x7d\x85\x0f\x01\x05"};
    /* keys of 56 and 128 bits and their exchange, version, extended session security, always
     * sign, NTLM, seal, sign, target, Unicode (MS-NLMP 2.2.2.5) */
    uint32_t flags = 0xe2088235;
    gss_buffer_desc value = buffer_of(&flags, sizeof flags);
    if (gss->mechanism == &ntlm)
        gss->major = gss_set_cred_option(&gss->minor, &gss->credentials, &negotiate_flags, &value);
    return !GSS_ERROR(gss->major);
}

static bool acquire(struct gss *gss, const char *user, const char *password) {
    gss_OID_set_desc only = {1, gss->mechanism};
    gss_buffer_desc secret = buffer_of(password, strlen(password));
    gss_name_t name;
    OM_uint32 ignored;
    if (!import(gss, user, GSS_C_NT_USER_NAME, &name))
        return false;
    gss->major = gss_acquire_cred_with_password(&gss->minor, name, &secret, GSS_C_INDEFINITE, &only,
                                                GSS_C_INITIATE, &gss->credentials, NULL, NULL);
    gss_release_name(&ignored, &name);
    return !GSS_ERROR(gss->major) && offer_unicode_alone(gss);
}

enum fault gss_client(struct gss **made, const char *mechanism, const char *host, const char *user,
                      const char *password) {
    char service[300];
    struct gss *gss = *made = make(mechanism);
    if (!gss)
        return FAULT_MEMORY;
    if (snprintf(service, sizeof service, "TERMSRV@%s", host) >= (int)sizeof service)
        return FAULT_ADDRESS;
    if (!import(gss, service, GSS_C_NT_HOSTBASED_SERVICE, &gss->target))
        return FAULT_MECHANISM;
    return acquire(gss, user, password) ? FAULT_NONE : FAULT_MECHANISM;
}

void gss_use_dce_style(struct gss *gss) {
    gss->dce_style = true;
}

enum fault gss_server(struct gss **made, const char *mechanism, const char *users_file) {
    struct gss *gss = *made = make(mechanism);
    /* gss-ntlmssp reads its users from the file in this variable, at each authentication */
    if (!gss || (users_file && setenv("NTLM_USER_FILE", users_file, 1) != 0))
        return FAULT_MEMORY;
    gss->server = true;
    gss_OID_set_desc only = {1, gss->mechanism};
    gss->major = gss_acquire_cred(&gss->minor, GSS_C_NO_NAME, GSS_C_INDEFINITE, &only, GSS_C_ACCEPT,
                                  &gss->credentials, NULL, NULL);
    return GSS_ERROR(gss->major) ? FAULT_MECHANISM : FAULT_NONE;
}

static void print_status(OM_uint32 status, int kind, gss_OID mechanism) {
    OM_uint32 ignored, more = 0;
    gss_buffer_desc text = GSS_C_EMPTY_BUFFER;
    if (GSS_ERROR(gss_display_status(&ignored, status, kind, mechanism, &more, &text)))
        return;
    fprintf(stderr, ": %.*s", (int)text.length, (const char *)text.value);
    gss_release_buffer(&ignored, &text);
}

void gss_print_failure(const struct gss *gss) {
    if (!GSS_ERROR(gss->major))
        return;
    fputs("GSSAPI", stderr);
    print_status(gss->major, GSS_C_GSS_CODE, GSS_C_NO_OID);
    if (gss->minor)
        print_status(gss->minor, GSS_C_MECH_CODE, gss->mechanism);
    fputc('\n', stderr);
}

/* A request and the facts of its connection, as nginx has them and the library takes them. */
#include "ngx_http_vupresal.h"


/* ---------------------------------------------------------------- facts of the connection */

static vupresal_bytes
ngx_http_vupresal_bytes(const ngx_str_t *text)
{
    return vupresal_bytes_of(text->data, text->len);
}


static vupresal_text
ngx_http_vupresal_text(const u_char *data, size_t len)
{
    return vupresal_text_of(data, len);
}


/* The bytes of an address, and its port; an IPv4 address that is written as IPv6 counts as IPv4. */
static vupresal_bytes
ngx_http_vupresal_address(struct sockaddr *sockaddr, int32_t *port)
{
    static const u_char   mapped[12] = { 0, 0, 0, 0, 0, 0, 0, 0, 0, 0, 0xff, 0xff };
    u_char               *bytes;
    struct sockaddr_in   *sin;
    struct sockaddr_in6  *sin6;

    switch (sockaddr->sa_family) {

    case AF_INET:
        sin = (struct sockaddr_in *) sockaddr;
        *port = ntohs(sin->sin_port);
        return vupresal_bytes_of(&sin->sin_addr, 4);

    case AF_INET6:
        sin6 = (struct sockaddr_in6 *) sockaddr;
        *port = ntohs(sin6->sin6_port);
        bytes = sin6->sin6_addr.s6_addr;
        return ngx_memcmp(bytes, mapped, 12) == 0 ? vupresal_bytes_of(bytes + 12, 4) : vupresal_bytes_of(bytes, 16);

    default: /* a Unix socket */
        *port = -1;
        return vupresal_bytes_of(NULL, 0);
    }
}


/* IP:PORT as Envoy has it; absent for a Unix socket. */
static vupresal_text
ngx_http_vupresal_endpoint(vupresal_bytes address, int32_t port, u_char *room)
{
    u_char               *end;
    struct sockaddr_in    sin;
    struct sockaddr_in6   sin6;

    if (address.length == 4) {
        ngx_memzero(&sin, sizeof(sin));
        sin.sin_family = AF_INET;
        sin.sin_port = htons((in_port_t) port);
        ngx_memcpy(&sin.sin_addr, address.at, 4);
        end = room + ngx_sock_ntop((struct sockaddr *) &sin, sizeof(sin), room, NGX_HTTP_VUPRESAL_ENDPOINT_LEN, 1);

    } else if (address.length == 16) {
        ngx_memzero(&sin6, sizeof(sin6));
        sin6.sin6_family = AF_INET6;
        sin6.sin6_port = htons((in_port_t) port);
        ngx_memcpy(&sin6.sin6_addr, address.at, 16);
        end = room + ngx_sock_ntop((struct sockaddr *) &sin6, sizeof(sin6), room, NGX_HTTP_VUPRESAL_ENDPOINT_LEN, 1);

    } else {
        return (vupresal_text) VUPRESAL_NO_TEXT;
    }

    return ngx_http_vupresal_text(room, end - room);
}


#if (NGX_HTTP_SSL)

#include <openssl/x509v3.h>

/* The first name of this type among the certificate's alternative names, in the pool. */
static vupresal_text
ngx_http_vupresal_alternative_name(ngx_pool_t *pool, X509 *certificate, int type)
{
    int             i;
    u_char         *copy;
    ASN1_STRING    *text;
    GENERAL_NAME   *name;
    GENERAL_NAMES  *names;
    vupresal_text   found = VUPRESAL_NO_TEXT;

    names = X509_get_ext_d2i(certificate, NID_subject_alt_name, NULL, NULL);

    for (i = 0; names && i < sk_GENERAL_NAME_num(names); i++) {
        name = sk_GENERAL_NAME_value(names, i);

        if (name->type == type) {
            text = name->d.ia5;
            copy = ngx_pnalloc(pool, ASN1_STRING_length(text) + 1);
            if (copy != NULL) {
                ngx_memcpy(copy, ASN1_STRING_get0_data(text), ASN1_STRING_length(text));
                found = ngx_http_vupresal_text(copy, ASN1_STRING_length(text));
            }
            break;
        }
    }

    GENERAL_NAMES_free(names);
    return found;
}


static ngx_int_t
ngx_http_vupresal_add_tls(ngx_connection_t *c, vupresal_facts *facts)
{
    SSL         *ssl = c->ssl->connection;
    X509        *certificate;
    ngx_str_t    subject;
    const char  *text;

    facts->scheme = (vupresal_bytes) VUPRESAL_LITERAL("https");

    text = SSL_get_servername(ssl, TLSEXT_NAMETYPE_host_name);
    if (text != NULL) {
        facts->requested_server_name = ngx_http_vupresal_text((u_char *) text, ngx_strlen(text));
    }

    text = SSL_get_version(ssl);
    facts->tls_version = ngx_http_vupresal_text((u_char *) text, ngx_strlen(text));

    certificate = SSL_get_peer_certificate(ssl);
    facts->mtls = certificate != NULL && SSL_get_verify_result(ssl) == X509_V_OK;

    if (facts->mtls == 1) {
        if (ngx_ssl_get_subject_dn(c, c->pool, &subject) != NGX_OK) {
            X509_free(certificate);
            return NGX_ERROR;
        }

        facts->subject_peer_certificate = ngx_http_vupresal_text(subject.data, subject.len);
        facts->dns_san_peer_certificate = ngx_http_vupresal_alternative_name(c->pool, certificate, GEN_DNS);
        facts->uri_san_peer_certificate = ngx_http_vupresal_alternative_name(c->pool, certificate, GEN_URI);
    }

    X509_free(certificate);
    return NGX_OK;
}

#endif


/* The address of the peer of the connection, in the room if realip put another into its place. */
static vupresal_bytes
ngx_http_vupresal_direct_address(ngx_http_request_t *r, vupresal_bytes peer, u_char *room)
{
    int32_t                     port;
    ngx_str_t                   name = ngx_string("realip_remote_addr");
    ngx_addr_t                  addr;
    vupresal_bytes              direct;
    ngx_http_variable_value_t  *value;

    value = ngx_http_get_variable(r, &name, ngx_hash_key(name.data, name.len));

    if (value == NULL || value->not_found || value->len == 0) {
        return peer;
    }

    if (value->len == r->connection->addr_text.len
        && ngx_memcmp(value->data, r->connection->addr_text.data, value->len) == 0)
    {
        return peer;
    }

    if (ngx_parse_addr(r->pool, &addr, value->data, value->len) != NGX_OK) {
        return peer;
    }

    direct = ngx_http_vupresal_address(addr.sockaddr, &port);
    ngx_memcpy(room, direct.at, direct.length);
    return vupresal_bytes_of(room, direct.length);
}


/* The facts that a connection's pool keeps for its next requests. Of all facts only those of the client's address can change: realip
   puts another address into the place of the peer's for one request. */
typedef struct {
    vupresal_facts   facts;
    socklen_t        socklen;  /* of the client's address; 0 before the first request */
    ngx_sockaddr_t   client;
    u_char           direct[16];
    u_char           source[NGX_HTTP_VUPRESAL_ENDPOINT_LEN];
    u_char           destination[NGX_HTTP_VUPRESAL_ENDPOINT_LEN];
} ngx_http_vupresal_kept_t;


/* Marks the facts among the cleanups of the connection's pool; there is nothing to clean. */
static void
ngx_http_vupresal_mark_facts(void *data)
{
    (void) data;
}


/* The facts that do not change. */
static ngx_int_t
ngx_http_vupresal_begin_facts(ngx_connection_t *c, ngx_http_vupresal_kept_t *kept)
{
    vupresal_facts  *facts = &kept->facts;

    *facts = (vupresal_facts) VUPRESAL_NO_FACTS;
    kept->socklen = 0;

    if (ngx_connection_local_sockaddr(c, NULL, 0) != NGX_OK) {
        return NGX_ERROR;
    }

    facts->destination_ip = ngx_http_vupresal_address(c->local_sockaddr, &facts->destination_port);
    facts->destination_address = ngx_http_vupresal_endpoint(facts->destination_ip, facts->destination_port, kept->destination);
    facts->mtls = 0;
    facts->connection_id = c->number;
    facts->has_connection_id = true;

#if (NGX_HTTP_SSL)
    if (c->ssl) {
        return ngx_http_vupresal_add_tls(c, facts);
    }
#endif

    return NGX_OK;
}


/* The facts that the connection's pool keeps, which has them from the first request on; NULL where nginx has no memory. */
static ngx_http_vupresal_kept_t *
ngx_http_vupresal_kept_facts(ngx_connection_t *c)
{
    ngx_pool_cleanup_t  *cleanup;

    for (cleanup = c->pool->cleanup; cleanup; cleanup = cleanup->next) {
        if (cleanup->handler == ngx_http_vupresal_mark_facts) {
            return cleanup->data;
        }
    }

    cleanup = ngx_pool_cleanup_add(c->pool, sizeof(ngx_http_vupresal_kept_t));

    if (cleanup == NULL || ngx_http_vupresal_begin_facts(c, cleanup->data) != NGX_OK) {
        return NULL;
    }

    cleanup->handler = ngx_http_vupresal_mark_facts;
    return cleanup->data;
}


vupresal_facts *
ngx_http_vupresal_facts(ngx_http_request_t *r)
{
    ngx_connection_t          *c = r->connection;
    vupresal_facts            *facts;
    ngx_http_vupresal_kept_t  *kept = ngx_http_vupresal_kept_facts(c);

    if (kept == NULL) {
        return NULL;
    }

    facts = &kept->facts;

    if (kept->socklen == c->socklen && ngx_memcmp(&kept->client, c->sockaddr, c->socklen) == 0) {
        return facts;
    }

    kept->socklen = ngx_min(c->socklen, (socklen_t) sizeof(ngx_sockaddr_t));
    ngx_memcpy(&kept->client, c->sockaddr, kept->socklen);

    facts->remote_ip = ngx_http_vupresal_address(&kept->client.sockaddr, &facts->source_port);
    facts->direct_remote_ip = ngx_http_vupresal_direct_address(r, facts->remote_ip, kept->direct);
    facts->source_address = ngx_http_vupresal_endpoint(facts->remote_ip, facts->source_port, kept->source);
    return facts;
}


/* ---------------------------------------------------------------- the request */

/* The path as nginx compares it with locations, encoded again, with the query. */
static ngx_int_t
ngx_http_vupresal_normalised(ngx_http_request_t *r, vupresal_bytes *target)
{
    size_t   escaped;
    u_char  *data, *last;

    escaped = 2 * ngx_escape_uri(NULL, r->uri.data, r->uri.len, NGX_ESCAPE_URI);

    data = ngx_pnalloc(r->pool, r->uri.len + escaped + 1 + r->args.len);
    if (data == NULL) {
        return NGX_ERROR;
    }

    if (escaped) {
        last = (u_char *) ngx_escape_uri(data, r->uri.data, r->uri.len, NGX_ESCAPE_URI);

    } else {
        last = ngx_cpymem(data, r->uri.data, r->uri.len);
    }

    if (r->args.len) {
        *last++ = '?';
        last = ngx_cpymem(last, r->args.data, r->args.len);
    }

    *target = vupresal_bytes_of(data, last - data);
    return NGX_OK;
}


/* Whether the field has this name, which is in lower case. */
static ngx_uint_t
ngx_http_vupresal_is_named(const ngx_table_elt_t *field, const ngx_str_t *name)
{
    return field->key.len == name->len && ngx_strncasecmp(field->key.data, name->data, name->len) == 0;
}


/* Whether the field is left out. So are the ignored ones, and the one by which nginx itself reads the body: a filter sees the request
   without its framing. */
static ngx_uint_t
ngx_http_vupresal_is_left_out(const ngx_table_elt_t *field, const ngx_array_t *ignored)
{
    static const ngx_str_t  framing = ngx_string("transfer-encoding");

    ngx_uint_t              i;
    const ngx_str_t        *name;

    if (ngx_http_vupresal_is_named(field, &framing)) {
        return 1;
    }

    if (ignored == NULL) {
        return 0;
    }

    name = ignored->elts;

    for (i = 0; i < ignored->nelts; i++) {
        if (ngx_http_vupresal_is_named(field, &name[i])) {
            return 1;
        }
    }

    return 0;
}


static ngx_int_t
ngx_http_vupresal_lines(ngx_http_request_t *r, const ngx_array_t *ignored, vupresal_request *request)
{
    static const ngx_str_t  host = ngx_string("host");

    size_t            count = 1; /* room for a host */
    ngx_uint_t        i, has_host = 0;
    ngx_list_part_t  *part;
    vupresal_line    *line;
    ngx_table_elt_t  *field;

    for (part = &r->headers_in.headers.part; part; part = part->next) {
        count += part->nelts;
    }

    line = ngx_palloc(r->pool, count * sizeof(vupresal_line));
    if (line == NULL) {
        return NGX_ERROR;
    }

    request->lines = line;

    for (part = &r->headers_in.headers.part; part; part = part->next) {
        field = part->elts;

        for (i = 0; i < part->nelts; i++) {
            if (ngx_http_vupresal_is_left_out(&field[i], ignored)) {
                continue;
            }

            has_host |= ngx_http_vupresal_is_named(&field[i], &host);
            line->name = ngx_http_vupresal_bytes(&field[i].key);
            line->value = ngx_http_vupresal_bytes(&field[i].value);
            line++;
        }
    }

    /* where `:authority` of HTTP/2 is no line, it is the server's name */
    if (!has_host && r->headers_in.server.len) {
        line->name = (vupresal_bytes) VUPRESAL_LITERAL(":authority");
        line->value = ngx_http_vupresal_bytes(&r->headers_in.server);
        line++;
    }

    request->line_count = line - request->lines;
    return NGX_OK;
}


ngx_int_t
ngx_http_vupresal_request(ngx_http_request_t *r, ngx_uint_t kind, const ngx_array_t *ignored, vupresal_request *request)
{
    request->method = ngx_http_vupresal_bytes(&r->method_name);
    request->target = ngx_http_vupresal_bytes(&r->unparsed_uri);
    request->is_http11 = r->http_version >= NGX_HTTP_VERSION_11;
    request->protocol = r->http_version >= NGX_HTTP_VERSION_20 ? r->http_version / NGX_HTTP_VERSION_10 : VUPRESAL_HTTP_1;

    if (kind == NGX_HTTP_VUPRESAL_NORMALISED && ngx_http_vupresal_normalised(r, &request->target) != NGX_OK) {
        return NGX_ERROR;
    }

    return ngx_http_vupresal_lines(r, ignored, request);
}

/* What the files of the module share. */
#ifndef NGX_HTTP_VUPRESAL_H
#define NGX_HTTP_VUPRESAL_H

#include <ngx_config.h>
#include <ngx_core.h>
#include <ngx_http.h>
#include <vupresal.h>

/* What is judged as the target. */
enum { NGX_HTTP_VUPRESAL_SENT, NGX_HTTP_VUPRESAL_NORMALISED };

/* The longest text of one end of a connection: [IPv6]:PORT. */
#define NGX_HTTP_VUPRESAL_ENDPOINT_LEN (NGX_INET6_ADDRSTRLEN + sizeof("[]:65535") - 1)

/* The facts of the request's connection, until its next request; NULL where nginx has no memory. */
vupresal_facts *ngx_http_vupresal_facts(ngx_http_request_t *r);

/* The request, without the fields of these names (ngx_str_t, in lower case; NULL for none). NGX_ERROR where nginx has no memory. */
ngx_int_t ngx_http_vupresal_request(ngx_http_request_t *r, ngx_uint_t kind, const ngx_array_t *ignored, vupresal_request *request);

/* Adds the names of a directive to those that are ignored. It says what is wrong with one, and then returns NGX_CONF_ERROR. */
char *ngx_http_vupresal_add_ignored(ngx_conf_t *cf, ngx_array_t *ignored);

/* Whether both are the same names in the same order. */
ngx_uint_t ngx_http_vupresal_same_ignored(const ngx_array_t *one, const ngx_array_t *other);

/* Warns of each ignored name that is a text of the filter's message. */
void ngx_http_vupresal_warn_ignored(ngx_conf_t *cf, const ngx_array_t *ignored, const ngx_str_t *file, const ngx_str_t *message);

#endif

/* The names of fields that no filter sees, as the configuration has them. */
#include "ngx_http_vupresal.h"

/* A text of a message has its length before it, in one byte up to this one. */
#define NGX_HTTP_VUPRESAL_SHORT 127


/* Whether the byte may be in a field's name (RFC 9110, section 5.6.2). */
static ngx_uint_t
ngx_http_vupresal_is_token(u_char byte)
{
    return (byte >= '0' && byte <= '9') || (byte >= 'a' && byte <= 'z') || (byte != '\0' && ngx_strchr("!#$%&'*+-.^_`|~", byte) != NULL);
}


/* What is wrong with a name, which is in lower case; NULL if nothing is. */
static const char *
ngx_http_vupresal_wrong_name(const ngx_str_t *name)
{
    size_t  i;

    if (name->len != 0 && name->data[0] == ':') {
        return "is no field: it is part of each request";
    }

    for (i = 0; i < name->len; i++) {
        if (!ngx_http_vupresal_is_token(name->data[i])) {
            return "is not the name of a field";
        }
    }

    if (name->len == 0) {
        return "is not the name of a field";
    }

    if (name->len == 4 && ngx_memcmp(name->data, "host", 4) == 0) {
        return "cannot be ignored: a request needs its host";
    }

    return NULL;
}


char *
ngx_http_vupresal_add_ignored(ngx_conf_t *cf, ngx_array_t *ignored)
{
    ngx_str_t   *value = cf->args->elts, *name;
    ngx_uint_t   i;
    const char  *wrong;

    for (i = 1; i < cf->args->nelts; i++) {
        name = ngx_array_push(ignored);
        if (name == NULL) {
            return NGX_CONF_ERROR;
        }

        *name = value[i];
        ngx_strlow(name->data, name->data, name->len);
        wrong = ngx_http_vupresal_wrong_name(name);

        if (wrong != NULL) {
            ngx_conf_log_error(NGX_LOG_EMERG, cf, 0, "vupresal_ignore: \"%V\" %s", name, wrong);
            return NGX_CONF_ERROR;
        }
    }

    return NGX_CONF_OK;
}


ngx_uint_t
ngx_http_vupresal_same_ignored(const ngx_array_t *one, const ngx_array_t *other)
{
    ngx_uint_t  i;
    ngx_str_t  *own, *its;

    if (one == other) {
        return 1;
    }

    if (one == NULL || other == NULL || one->nelts != other->nelts) {
        return 0;
    }

    own = one->elts;
    its = other->elts;

    for (i = 0; i < one->nelts; i++) {
        if (own[i].len != its[i].len || ngx_memcmp(own[i].data, its[i].data, own[i].len) != 0) {
            return 0;
        }
    }

    return 1;
}


/* Whether the message has this text, in any case, with its length before it. */
static ngx_uint_t
ngx_http_vupresal_has_text(const ngx_str_t *message, const ngx_str_t *text)
{
    size_t  i;

    for (i = 0; i + text->len < message->len; i++) {
        if (message->data[i] == text->len && ngx_strncasecmp(&message->data[i + 1], text->data, text->len) == 0) {
            return 1;
        }
    }

    return 0;
}


/* Whether the message has the name of a field, or that of an attribute which reads it. */
static ngx_uint_t
ngx_http_vupresal_has_name(const ngx_str_t *message, const ngx_str_t *name)
{
    ngx_uint_t  i;

    static const struct {
        ngx_str_t  field;
        ngx_str_t  attribute;
    } attributes[] = {
        { ngx_string("user-agent"), ngx_string("useragent") },
        { ngx_string("x-request-id"), ngx_string("id") }
    };

    for (i = 0; i < sizeof(attributes) / sizeof(attributes[0]); i++) {
        if (name->len == attributes[i].field.len && ngx_memcmp(name->data, attributes[i].field.data, name->len) == 0
            && ngx_http_vupresal_has_text(message, &attributes[i].attribute))
        {
            return 1;
        }
    }

    return name->len <= NGX_HTTP_VUPRESAL_SHORT && ngx_http_vupresal_has_text(message, name);
}


void
ngx_http_vupresal_warn_ignored(ngx_conf_t *cf, const ngx_array_t *ignored, const ngx_str_t *file, const ngx_str_t *message)
{
    ngx_str_t   *name = ignored->elts;
    ngx_uint_t   i;

    for (i = 0; i < ignored->nelts; i++) {
        if (ngx_http_vupresal_has_name(message, &name[i])) {
            ngx_conf_log_error(NGX_LOG_WARN, cf, 0, "\"%V\" may read the field \"%V\", which vupresal_ignore leaves out: it finds none", file,
                               &name[i]);
        }
    }
}

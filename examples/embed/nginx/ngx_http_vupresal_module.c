/*
 * Decides on each request of a location by an RBAC filter, in the worker.
 *
 *   vupresal_filter FILE [NAME=N].. | off;   http, server, location. FILE has the message of an HTTP RBAC filter; a name without a
 *                                            slash at its beginning is below nginx's folder of configuration. NAME is one of
 *                                              budget  the steps that the conditions may take together for one request, 1,000,000 if
 *                                                      it is not given
 *                                              visits  the visits that measuring the conditions may take
 *                                              fields, name, value, method, target, text
 *                                                      the limits of requests, as vupresal_bounds has them. One that is not given is
 *                                                      the greatest: 64, 128, 4096, 32, 4096, 1024
 *   vupresal_target sent | normalised;       http, server, location. What is judged as the target: as the client sent it, or decoded,
 *                                            with dot segments resolved and slashes merged, as nginx compares it with locations, and
 *                                            encoded again. The query is as it was sent.
 *   vupresal_ignore NAME.. | off;            http, server, location. Fields of these names, in any case, are left out of what is judged,
 *                                            before the limits apply. A filter that reads one finds none, so a DENY on it never matches.
 *                                            The names of a level take the place of those above it, and `off` leaves none.
 *   $vupresal_verdict                        allow, deny, or the status without a decision: 400, 431, 501, 19. Empty if none was asked.
 *   $vupresal_policy                         the name of the policy that matched.
 *
 * A request that is denied is answered 403. Without a decision it is answered 400, 431, 501, or 503 where memory ran out.
 *
 * A subrequest is not judged, since nginx has no access phase for it: the verdict is that of the request that it is made for. An
 * internal redirect is judged again if its location has another filter, or ignores other fields; the same filter is asked once for a
 * request, so an error page of a denied request can be sent.
 *
 * A worker has one thread, and so has the process that reads the configuration: a worker's filters are copies by fork.
 */
#include "ngx_http_vupresal.h"

#define NGX_HTTP_VUPRESAL_BUDGET 1000000
#define NGX_HTTP_VUPRESAL_MOST_MESSAGE (16 * 1024 * 1024)
/* a status of HTTP for which nginx has no name */
#define NGX_HTTP_VUPRESAL_OUTSIDE_LIMITS 431

/* A filter, which all locations with its file and numbers share. */
typedef struct {
    ngx_str_t        file;
    uint64_t         budget;
    vupresal_bounds  bounds;
    vupresal_filter  filter;
    ngx_str_t        message; /* until the configuration is read */
    ngx_array_t      warned;  /* of ngx_array_t *: the lists of ignored names that were compared with the message */
} ngx_http_vupresal_filter_t;

typedef struct {
    ngx_array_t  filters; /* of ngx_http_vupresal_filter_t * */
} ngx_http_vupresal_main_conf_t;

typedef struct {
    ngx_http_vupresal_filter_t  *filter;  /* NULL: off */
    ngx_uint_t                   target;
    ngx_array_t                 *ignored; /* of ngx_str_t, in lower case; NULL: none */
} ngx_http_vupresal_loc_conf_t;

/* The last verdict on a request, which an internal redirect does not forget. */
typedef struct {
    ngx_http_vupresal_filter_t  *filter;
    ngx_array_t                 *ignored;
    int32_t                      status;
    vupresal_decision            decision;
} ngx_http_vupresal_verdict_t;

static void *ngx_http_vupresal_create_main_conf(ngx_conf_t *cf);
static void *ngx_http_vupresal_create_loc_conf(ngx_conf_t *cf);
static char *ngx_http_vupresal_merge_loc_conf(ngx_conf_t *cf, void *parent, void *child);
static char *ngx_http_vupresal_set_filter(ngx_conf_t *cf, ngx_command_t *cmd, void *conf);
static char *ngx_http_vupresal_set_ignored(ngx_conf_t *cf, ngx_command_t *cmd, void *conf);
static ngx_int_t ngx_http_vupresal_add_variables(ngx_conf_t *cf);
static ngx_int_t ngx_http_vupresal_init(ngx_conf_t *cf);

static ngx_conf_enum_t ngx_http_vupresal_targets[] = {
    { ngx_string("sent"), NGX_HTTP_VUPRESAL_SENT },
    { ngx_string("normalised"), NGX_HTTP_VUPRESAL_NORMALISED },
    { ngx_null_string, 0 }
};

static ngx_command_t ngx_http_vupresal_commands[] = {
    { ngx_string("vupresal_filter"),
      NGX_HTTP_MAIN_CONF|NGX_HTTP_SRV_CONF|NGX_HTTP_LOC_CONF|NGX_CONF_1MORE,
      ngx_http_vupresal_set_filter,
      NGX_HTTP_LOC_CONF_OFFSET,
      0,
      NULL },

    { ngx_string("vupresal_target"),
      NGX_HTTP_MAIN_CONF|NGX_HTTP_SRV_CONF|NGX_HTTP_LOC_CONF|NGX_CONF_TAKE1,
      ngx_conf_set_enum_slot,
      NGX_HTTP_LOC_CONF_OFFSET,
      offsetof(ngx_http_vupresal_loc_conf_t, target),
      ngx_http_vupresal_targets },

    { ngx_string("vupresal_ignore"),
      NGX_HTTP_MAIN_CONF|NGX_HTTP_SRV_CONF|NGX_HTTP_LOC_CONF|NGX_CONF_1MORE,
      ngx_http_vupresal_set_ignored,
      NGX_HTTP_LOC_CONF_OFFSET,
      0,
      NULL },

      ngx_null_command
};

static ngx_http_module_t ngx_http_vupresal_module_ctx = {
    ngx_http_vupresal_add_variables,    /* preconfiguration */
    ngx_http_vupresal_init,             /* postconfiguration */
    ngx_http_vupresal_create_main_conf, /* create main configuration */
    NULL,                               /* init main configuration */
    NULL,                               /* create server configuration */
    NULL,                               /* merge server configuration */
    ngx_http_vupresal_create_loc_conf,  /* create location configuration */
    ngx_http_vupresal_merge_loc_conf    /* merge location configuration */
};

ngx_module_t ngx_http_vupresal_module = {
    NGX_MODULE_V1,
    &ngx_http_vupresal_module_ctx, /* module context */
    ngx_http_vupresal_commands,    /* module directives */
    NGX_HTTP_MODULE,               /* module type */
    NULL,                          /* init master */
    NULL,                          /* init module */
    NULL,                          /* init process */
    NULL,                          /* init thread */
    NULL,                          /* exit thread */
    NULL,                          /* exit process */
    NULL,                          /* exit master */
    NGX_MODULE_V1_PADDING
};


/* ---------------------------------------------------------------- the verdict */

/* Marks the verdict among the cleanups of the request's pool; there is nothing to clean. */
static void
ngx_http_vupresal_mark(void *data)
{
    (void) data;
}


/* The verdict on a request, if there is one. It is found in the pool, which an internal redirect keeps, and a subrequest shares. */
static ngx_http_vupresal_verdict_t *
ngx_http_vupresal_get_verdict(ngx_http_request_t *r)
{
    ngx_pool_cleanup_t  *cleanup;

    for (cleanup = r->pool->cleanup; cleanup; cleanup = cleanup->next) {
        if (cleanup->handler == ngx_http_vupresal_mark) {
            return cleanup->data;
        }
    }

    return NULL;
}


static ngx_http_vupresal_verdict_t *
ngx_http_vupresal_add_verdict(ngx_http_request_t *r)
{
    ngx_pool_cleanup_t  *cleanup;

    cleanup = ngx_pool_cleanup_add(r->pool, sizeof(ngx_http_vupresal_verdict_t));
    if (cleanup == NULL) {
        return NULL;
    }

    cleanup->handler = ngx_http_vupresal_mark;
    return cleanup->data;
}


/* Asks the filter; NGX_ERROR where nginx has no memory. */
static ngx_int_t
ngx_http_vupresal_judge(ngx_http_request_t *r, ngx_http_vupresal_loc_conf_t *conf, ngx_http_vupresal_verdict_t *verdict)
{
    vupresal_facts    *facts;
    vupresal_request   request;

    ngx_memzero(&verdict->decision, sizeof(vupresal_decision));
    verdict->filter = conf->filter;
    verdict->ignored = conf->ignored;
    verdict->status = VUPRESAL_BAD_REQUEST;

    /* a target with a host, as a client sends it to a proxy, is not judged */
    if (r->host_start != NULL) {
        return NGX_OK;
    }

    facts = ngx_http_vupresal_facts(r);

    if (facts == NULL || ngx_http_vupresal_request(r, conf->target, conf->ignored, &request) != NGX_OK) {
        verdict->status = VUPRESAL_MEMORY;
        return NGX_ERROR;
    }

    verdict->status = vupresal_filter_decide(&conf->filter->filter, &request, facts, &verdict->decision);
    return NGX_OK;
}


/* The answer to a request that does not pass. */
static ngx_int_t
ngx_http_vupresal_refuse(ngx_http_request_t *r, int32_t status)
{
    ngx_log_error(NGX_LOG_INFO, r->connection->log, 0, "vupresal: %s", status == VUPRESAL_OK ? "denied" : vupresal_status_text(status));

    switch (status) {
    case VUPRESAL_OK:              return NGX_HTTP_FORBIDDEN;
    case VUPRESAL_BAD_REQUEST:     return NGX_HTTP_BAD_REQUEST;
    case VUPRESAL_OUTSIDE_LIMITS:  return NGX_HTTP_VUPRESAL_OUTSIDE_LIMITS;
    case VUPRESAL_TRANSFER_CODING: return NGX_HTTP_NOT_IMPLEMENTED;
    default:                       return NGX_HTTP_SERVICE_UNAVAILABLE;
    }
}


/* The access phase. */
static ngx_int_t
ngx_http_vupresal_handler(ngx_http_request_t *r)
{
    ngx_http_vupresal_verdict_t   *verdict;
    ngx_http_vupresal_loc_conf_t  *conf;

    conf = ngx_http_get_module_loc_conf(r, ngx_http_vupresal_module);

    if (conf->filter == NULL) {
        return NGX_DECLINED;
    }

    verdict = ngx_http_vupresal_get_verdict(r);

    if (verdict != NULL && verdict->filter == conf->filter && r->internal
        && ngx_http_vupresal_same_ignored(verdict->ignored, conf->ignored))
    {
        /* it was allowed; or it was refused, and this is the page for that */
        return NGX_OK;
    }

    if (verdict == NULL) {
        verdict = ngx_http_vupresal_add_verdict(r);
        if (verdict == NULL) {
            return NGX_HTTP_SERVICE_UNAVAILABLE;
        }
    }

    if (ngx_http_vupresal_judge(r, conf, verdict) != NGX_OK) {
        return NGX_HTTP_SERVICE_UNAVAILABLE;
    }

    if (verdict->status == VUPRESAL_OK && verdict->decision.is_allowed) {
        return NGX_OK;
    }

    return ngx_http_vupresal_refuse(r, verdict->status);
}


/* ---------------------------------------------------------------- variables */

static ngx_int_t
ngx_http_vupresal_no_value(ngx_http_variable_value_t *v)
{
    v->not_found = 1;
    return NGX_OK;
}


static ngx_int_t
ngx_http_vupresal_value(ngx_http_variable_value_t *v, u_char *data, size_t len)
{
    v->data = data;
    v->len = len;
    v->valid = 1;
    v->no_cacheable = 1;
    v->not_found = 0;
    return NGX_OK;
}


static ngx_int_t
ngx_http_vupresal_verdict_variable(ngx_http_request_t *r, ngx_http_variable_value_t *v, uintptr_t data)
{
    u_char                       *text;
    ngx_http_vupresal_verdict_t  *verdict = ngx_http_vupresal_get_verdict(r);

    if (verdict == NULL) {
        return ngx_http_vupresal_no_value(v);
    }

    if (verdict->status == VUPRESAL_OK && verdict->decision.is_allowed) {
        return ngx_http_vupresal_value(v, (u_char *) "allow", 5);
    }

    if (verdict->status == VUPRESAL_OK) {
        return ngx_http_vupresal_value(v, (u_char *) "deny", 4);
    }

    text = ngx_pnalloc(r->pool, NGX_INT32_LEN);
    if (text == NULL) {
        return NGX_ERROR;
    }

    return ngx_http_vupresal_value(v, text, ngx_sprintf(text, "%D", verdict->status) - text);
}


static ngx_int_t
ngx_http_vupresal_policy_variable(ngx_http_request_t *r, ngx_http_variable_value_t *v, uintptr_t data)
{
    size_t                        len;
    u_char                       *name;
    ngx_http_vupresal_verdict_t  *verdict = ngx_http_vupresal_get_verdict(r);

    if (verdict == NULL || !verdict->decision.is_matched) {
        return ngx_http_vupresal_no_value(v);
    }

    len = vupresal_filter_policy_name(&verdict->filter->filter, verdict->decision.matched, NULL, 0);

    name = ngx_pnalloc(r->pool, len + 1);
    if (name == NULL) {
        return NGX_ERROR;
    }

    vupresal_filter_policy_name(&verdict->filter->filter, verdict->decision.matched, name, len);
    return ngx_http_vupresal_value(v, name, len);
}


static ngx_http_variable_t ngx_http_vupresal_variables[] = {
    { ngx_string("vupresal_verdict"), NULL, ngx_http_vupresal_verdict_variable, 0, NGX_HTTP_VAR_NOCACHEABLE, 0 },
    { ngx_string("vupresal_policy"), NULL, ngx_http_vupresal_policy_variable, 0, NGX_HTTP_VAR_NOCACHEABLE, 0 },
      ngx_http_null_variable
};


static ngx_int_t
ngx_http_vupresal_add_variables(ngx_conf_t *cf)
{
    ngx_http_variable_t  *var, *own;

    for (own = ngx_http_vupresal_variables; own->name.len; own++) {
        var = ngx_http_add_variable(cf, &own->name, own->flags);
        if (var == NULL) {
            return NGX_ERROR;
        }

        var->get_handler = own->get_handler;
        var->data = own->data;
    }

    return NGX_OK;
}


/* ---------------------------------------------------------------- the configuration */

static void *
ngx_http_vupresal_create_main_conf(ngx_conf_t *cf)
{
    ngx_http_vupresal_main_conf_t  *conf;

    conf = ngx_pcalloc(cf->pool, sizeof(ngx_http_vupresal_main_conf_t));

    if (conf == NULL || ngx_array_init(&conf->filters, cf->pool, 4, sizeof(ngx_http_vupresal_filter_t *)) != NGX_OK) {
        return NULL;
    }

    return conf;
}


static void *
ngx_http_vupresal_create_loc_conf(ngx_conf_t *cf)
{
    ngx_http_vupresal_loc_conf_t  *conf;

    conf = ngx_palloc(cf->pool, sizeof(ngx_http_vupresal_loc_conf_t));

    if (conf != NULL) {
        conf->filter = NGX_CONF_UNSET_PTR;
        conf->target = NGX_CONF_UNSET_UINT;
        conf->ignored = NGX_CONF_UNSET_PTR;
    }

    return conf;
}


/* Warns of ignored names that the filter may read, once for each filter and list of names. */
static ngx_int_t
ngx_http_vupresal_warn(ngx_conf_t *cf, ngx_http_vupresal_filter_t *filter, ngx_array_t *ignored)
{
    ngx_uint_t     i;
    ngx_array_t  **warned = filter->warned.elts;

    for (i = 0; i < filter->warned.nelts; i++) {
        if (warned[i] == ignored) {
            return NGX_OK;
        }
    }

    warned = ngx_array_push(&filter->warned);
    if (warned == NULL) {
        return NGX_ERROR;
    }

    *warned = ignored;
    ngx_http_vupresal_warn_ignored(cf, ignored, &filter->file, &filter->message);
    return NGX_OK;
}


static char *
ngx_http_vupresal_merge_loc_conf(ngx_conf_t *cf, void *parent, void *child)
{
    ngx_http_vupresal_loc_conf_t  *prev = parent;
    ngx_http_vupresal_loc_conf_t  *conf = child;

    ngx_conf_merge_ptr_value(conf->filter, prev->filter, NULL);
    ngx_conf_merge_uint_value(conf->target, prev->target, NGX_HTTP_VUPRESAL_SENT);
    ngx_conf_merge_ptr_value(conf->ignored, prev->ignored, NULL);

    if (conf->filter != NULL && conf->ignored != NULL && ngx_http_vupresal_warn(cf, conf->filter, conf->ignored) != NGX_OK) {
        return NGX_CONF_ERROR;
    }

    return NGX_CONF_OK;
}


/* The bytes of a file, which is not kept open. */
static ngx_int_t
ngx_http_vupresal_read(ngx_conf_t *cf, ngx_str_t *name, ngx_str_t *message)
{
    ssize_t          n;
    ngx_file_t       file;
    ngx_file_info_t  info;

    ngx_memzero(&file, sizeof(ngx_file_t));
    file.name = *name;
    file.log = cf->log;
    file.fd = ngx_open_file(name->data, NGX_FILE_RDONLY, NGX_FILE_OPEN, 0);

    if (file.fd == NGX_INVALID_FILE) {
        ngx_conf_log_error(NGX_LOG_EMERG, cf, ngx_errno, ngx_open_file_n " \"%V\" failed", name);
        return NGX_ERROR;
    }

    n = NGX_ERROR;

    if (ngx_fd_info(file.fd, &info) == NGX_FILE_ERROR) {
        ngx_conf_log_error(NGX_LOG_EMERG, cf, ngx_errno, ngx_fd_info_n " \"%V\" failed", name);

    } else if (ngx_file_size(&info) > NGX_HTTP_VUPRESAL_MOST_MESSAGE) {
        ngx_conf_log_error(NGX_LOG_EMERG, cf, 0, "\"%V\" has more than 16 MiB", name);

    } else if ((message->data = ngx_alloc(ngx_file_size(&info) + 1, cf->log)) != NULL) {
        n = ngx_read_file(&file, message->data, ngx_file_size(&info), 0);
        message->len = n;
    }

    if (ngx_close_file(file.fd) == NGX_FILE_ERROR) {
        ngx_log_error(NGX_LOG_ALERT, cf->log, ngx_errno, ngx_close_file_n " \"%V\" failed", name);
    }

    return n == NGX_ERROR ? NGX_ERROR : NGX_OK;
}


static void
ngx_http_vupresal_free(void *data)
{
    ngx_http_vupresal_filter_t  *filter = data;

    vupresal_filter_free(&filter->filter);
    ngx_free(filter->message.data);
}


/* Admits the filter in a file with these numbers. It is freed with the configuration. */
static ngx_http_vupresal_filter_t *
ngx_http_vupresal_admit(ngx_conf_t *cf, ngx_str_t *name, uint64_t budget, vupresal_bounds *bounds)
{
    u_char                       place[512];
    int32_t                      status;
    ngx_str_t                   *message;
    ngx_pool_cleanup_t          *cleanup;
    ngx_http_vupresal_filter_t  *filter;

    filter = ngx_pcalloc(cf->pool, sizeof(ngx_http_vupresal_filter_t));
    cleanup = ngx_pool_cleanup_add(cf->pool, 0);

    if (filter == NULL || cleanup == NULL || ngx_array_init(&filter->warned, cf->pool, 1, sizeof(ngx_array_t *)) != NGX_OK) {
        return NULL;
    }

    filter->file = *name;
    filter->budget = budget;
    filter->bounds = *bounds;
    cleanup->handler = ngx_http_vupresal_free;
    cleanup->data = filter;
    message = &filter->message;

    if (ngx_http_vupresal_read(cf, name, message) != NGX_OK) {
        return NULL;
    }

    ngx_memzero(place, sizeof(place));
    status = vupresal_filter_admit(&filter->filter, message->data, message->len, bounds, budget, place, sizeof(place));

    if (status != VUPRESAL_OK) {
        ngx_conf_log_error(NGX_LOG_EMERG, cf, 0, "\"%V\" is refused: %s: %s", name, vupresal_status_text(status), place);
        return NULL;
    }

    return filter;
}


/* The number that a word NAME=N sets; NULL if there is none of this name. */
static uint64_t *
ngx_http_vupresal_number_of(ngx_str_t *name, uint64_t *budget, vupresal_bounds *bounds)
{
    ngx_uint_t  i;

    struct {
        ngx_str_t   name;
        uint64_t   *number;
    } known[] = {
        { ngx_string("budget"), budget },
        { ngx_string("visits"), &bounds->visits },
        { ngx_string("fields"), &bounds->fields },
        { ngx_string("name"), &bounds->name },
        { ngx_string("value"), &bounds->value },
        { ngx_string("method"), &bounds->method },
        { ngx_string("target"), &bounds->target },
        { ngx_string("text"), &bounds->text }
    };

    for (i = 0; i < sizeof(known) / sizeof(known[0]); i++) {
        if (name->len == known[i].name.len && ngx_memcmp(name->data, known[i].name.data, name->len) == 0) {
            return known[i].number;
        }
    }

    return NULL;
}


/* Reads the words after the file. */
static char *
ngx_http_vupresal_read_numbers(ngx_array_t *words, uint64_t *budget, vupresal_bounds *bounds)
{
    u_char      *equals;
    uint64_t    *number;
    ngx_int_t    read;
    ngx_str_t   *value = words->elts, name;
    ngx_uint_t   i;

    for (i = 2; i < words->nelts; i++) {
        equals = (u_char *) ngx_strchr(value[i].data, '=');
        if (equals == NULL) {
            return "has a word that is not NAME=N";
        }

        name.data = value[i].data;
        name.len = equals - name.data;
        number = ngx_http_vupresal_number_of(&name, budget, bounds);
        if (number == NULL) {
            return "has another name than budget, visits, fields, name, value, method, target and text";
        }

        read = ngx_atoi(equals + 1, value[i].len - name.len - 1);
        if (read < 1) {
            return "has a number that is not 1 or more";
        }

        *number = read;
    }

    return NGX_CONF_OK;
}


static char *
ngx_http_vupresal_set_filter(ngx_conf_t *cf, ngx_command_t *cmd, void *data)
{
    ngx_http_vupresal_loc_conf_t   *conf = data;
    ngx_http_vupresal_main_conf_t  *main;

    char                         *wrong;
    ngx_str_t                    *value = cf->args->elts;
    ngx_str_t                     name = value[1];
    uint64_t                      budget = NGX_HTTP_VUPRESAL_BUDGET;
    ngx_uint_t                    i;
    vupresal_bounds               bounds = { 64, 128, 4096, 32, 4096, 1024, 0 };
    ngx_http_vupresal_filter_t  **known;

    if (conf->filter != NGX_CONF_UNSET_PTR) {
        return "is duplicate";
    }

    if (ngx_strcmp(name.data, "off") == 0 && cf->args->nelts == 2) {
        conf->filter = NULL;
        return NGX_CONF_OK;
    }

    wrong = ngx_http_vupresal_read_numbers(cf->args, &budget, &bounds);
    if (wrong != NGX_CONF_OK) {
        return wrong;
    }

    if (ngx_conf_full_name(cf->cycle, &name, 1) != NGX_OK) {
        return NGX_CONF_ERROR;
    }

    main = ngx_http_conf_get_module_main_conf(cf, ngx_http_vupresal_module);
    known = main->filters.elts;

    for (i = 0; i < main->filters.nelts; i++) {
        if (known[i]->budget == budget && known[i]->file.len == name.len
            && ngx_memcmp(known[i]->file.data, name.data, name.len) == 0
            && ngx_memcmp(&known[i]->bounds, &bounds, sizeof(vupresal_bounds)) == 0)
        {
            conf->filter = known[i];
            return NGX_CONF_OK;
        }
    }

    conf->filter = ngx_http_vupresal_admit(cf, &name, budget, &bounds);
    if (conf->filter == NULL) {
        return NGX_CONF_ERROR;
    }

    known = ngx_array_push(&main->filters);
    if (known == NULL) {
        return NGX_CONF_ERROR;
    }

    *known = conf->filter;
    return NGX_CONF_OK;
}


static char *
ngx_http_vupresal_set_ignored(ngx_conf_t *cf, ngx_command_t *cmd, void *data)
{
    ngx_str_t                     *value = cf->args->elts;
    ngx_http_vupresal_loc_conf_t  *conf = data;

    if (conf->ignored == NULL) {
        return "is `off` at this level";
    }

    if (ngx_strcmp(value[1].data, "off") == 0 && cf->args->nelts == 2) {
        if (conf->ignored != NGX_CONF_UNSET_PTR) {
            return "has names at this level";
        }

        conf->ignored = NULL;
        return NGX_CONF_OK;
    }

    if (conf->ignored == NGX_CONF_UNSET_PTR) {
        conf->ignored = ngx_array_create(cf->pool, 4, sizeof(ngx_str_t));
        if (conf->ignored == NULL) {
            return NGX_CONF_ERROR;
        }
    }

    return ngx_http_vupresal_add_ignored(cf, conf->ignored);
}


/* Gives back the messages of the filters, with which no more names are compared. */
static void
ngx_http_vupresal_forget_messages(ngx_conf_t *cf)
{
    ngx_uint_t                       i;
    ngx_http_vupresal_filter_t     **filter;
    ngx_http_vupresal_main_conf_t   *main;

    main = ngx_http_conf_get_module_main_conf(cf, ngx_http_vupresal_module);
    filter = main->filters.elts;

    for (i = 0; i < main->filters.nelts; i++) {
        ngx_free(filter[i]->message.data);
        ngx_str_null(&filter[i]->message);
    }
}


static ngx_int_t
ngx_http_vupresal_init(ngx_conf_t *cf)
{
    ngx_http_handler_pt        *handler;
    ngx_http_core_main_conf_t  *main;

    ngx_http_vupresal_forget_messages(cf);

    if (!vupresal_is_expected()) {
        ngx_conf_log_error(NGX_LOG_EMERG, cf, 0, "vupresal: the library has another version than its header");
        return NGX_ERROR;
    }

    main = ngx_http_conf_get_module_main_conf(cf, ngx_http_core_module);

    handler = ngx_array_push(&main->phases[NGX_HTTP_ACCESS_PHASE].handlers);
    if (handler == NULL) {
        return NGX_ERROR;
    }

    *handler = ngx_http_vupresal_handler;
    return NGX_OK;
}

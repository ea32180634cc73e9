// The messages of a filter, by docs/PROFILE.md and Envoy's .proto files: for each field its number and its type.
// `*T` is a list, `{K,T}` a map, and `name?` a member of a oneof, of which a message has one.

const FIELDS = {
  Filter: "rules 1 Rules, shadow_rules 2 Rules, shadow_rules_stat_prefix 3 string",
  Rules: "action 1 Action, policies 2 {string,Policy}, audit_logging_options 3 AuditLoggingOptions",
  AuditLoggingOptions: "audit_condition 1 AuditCondition, logger_configs 2 *AuditLoggerConfig",
  AuditLoggerConfig: "audit_logger 1 Extension, is_optional 2 bool",
  Policy: "permissions 1 *Permission, principals 2 *Principal, condition 3 Expr, checked_condition 4 CheckedExpr",
  Permission: "and_rules? 1 PermissionSet, or_rules? 2 PermissionSet, any? 3 bool, header? 4 HeaderMatcher, destination_ip? 5 CidrRange, destination_port? 6 uint32, " +
    "metadata? 7 MetadataMatcher, not_rule? 8 Permission, requested_server_name? 9 StringMatcher, url_path? 10 PathMatcher, destination_port_range? 11 Int32Range, matcher? 12 Extension",
  PermissionSet: "rules 1 *Permission",
  Principal: "and_ids? 1 PrincipalSet, or_ids? 2 PrincipalSet, any? 3 bool, authenticated? 4 Authenticated, source_ip? 5 CidrRange, header? 6 HeaderMatcher, " +
    "metadata? 7 MetadataMatcher, not_id? 8 Principal, url_path? 9 PathMatcher, direct_remote_ip? 10 CidrRange, remote_ip? 11 CidrRange, filter_state? 12 FilterStateMatcher",
  PrincipalSet: "ids 1 *Principal",
  Authenticated: "principal_name 2 StringMatcher",
  HeaderMatcher: "name 1 string, exact_match? 4 string, range_match? 6 Int64Range, present_match? 7 bool, invert_match 8 bool, prefix_match? 9 string, suffix_match? 10 string, " +
    "safe_regex_match? 11 RegexMatcher, contains_match? 12 string, string_match? 13 StringMatcher, treat_missing_header_as_empty 14 bool",
  StringMatcher: "exact? 1 string, prefix? 2 string, suffix? 3 string, safe_regex? 5 RegexMatcher, ignore_case 6 bool, contains? 7 string",
  PathMatcher: "path? 1 StringMatcher",
  RegexMatcher: "google_re2? 1 GoogleRE2, regex 2 string",
  GoogleRE2: "max_program_size 1 UInt32Value",
  CidrRange: "address_prefix 1 string, prefix_len 2 UInt32Value",
  UInt32Value: "value 1 uint32",
  Int32Range: "start 1 int32, end 2 int32",
  Int64Range: "start 1 int64, end 2 int64",
  DoubleRange: "start 1 double, end 2 double",
  MetadataMatcher: "filter 1 string, path 2 *PathSegment, value 3 ValueMatcher, invert 4 bool",
  PathSegment: "key? 1 string",
  ValueMatcher:
    "null_match? 1 NullMatch, double_match? 2 DoubleMatcher, string_match? 3 StringMatcher, bool_match? 4 bool, " +
    "present_match? 5 bool, list_match? 6 ListMatcher, or_match? 7 OrMatcher",
  NullMatch: "",
  DoubleMatcher: "range? 1 DoubleRange, exact? 2 double",
  ListMatcher: "one_of? 1 ValueMatcher",
  OrMatcher: "value_matchers 1 *ValueMatcher",
  FilterStateMatcher: "key 1 string, string_match? 2 StringMatcher",
  Extension: "name 1 string, typed_config 2 Any",
  Any: "",
  CheckedExpr: "reference_map 2 {int64,Reference}, type_map 3 {int64,Type}, expr 4 Expr, source_info 5 SourceInfo, expr_version 6 string",
  Reference: "name 1 string, overload_id 3 *string, value 4 Constant",
  SourceInfo: "syntax_version 1 string, location 2 string, line_offsets 3 *int32, positions 4 {int64,int32}, macro_calls 5 {int64,Expr}",
  Type: "dyn? 1 Empty, null? 2 Null, primitive? 3 Primitive, wrapper? 4 Primitive, well_known? 5 WellKnown, list_type? 6 ListType, map_type? 7 MapType, function? 8 FunctionType, " +
    "message_type? 9 string, type_param? 10 string",
  Empty: "",
  ListType: "elem_type 1 Type",
  MapType: "key_type 1 Type, value_type 2 Type",
  FunctionType: "result_type 1 Type, arg_types 2 *Type",
  Expr:
    "id 2 int64, const_expr? 3 Constant, ident_expr? 4 Ident, select_expr? 5 Select, call_expr? 6 Call, list_expr? 7 CreateList, " +
    "struct_expr? 8 CreateStruct, comprehension_expr? 9 Comprehension",
  Constant:
    "null_value? 1 Null, bool_value? 2 bool, int64_value? 3 int64, uint64_value? 4 uint64, double_value? 5 double, " +
    "string_value? 6 string, bytes_value? 7 bytes",
  Ident: "name 1 string",
  Select: "operand 1 Expr, field 2 string, test_only 3 bool",
  Call: "target 1 Expr, function 2 string, args 3 *Expr",
  CreateList: "elements 1 *Expr, optional_indices 2 *int32",
  CreateStruct: "message_name 1 string, entries 2 *Entry",
  Entry: "id 1 int64, field_key? 2 string, map_key? 3 Expr, value 4 Expr, optional_entry 5 bool",
  Comprehension:
    "iter_var 1 string, iter_range 2 Expr, accu_var 3 string, accu_init 4 Expr, loop_condition 5 Expr, loop_step 6 Expr, " +
    "result 7 Expr, iter_var2 8 string",
};

/** The numbers of the names of enums. */
export const ENUMS = {
  Action: { ALLOW: 0, DENY: 1, LOG: 2 },
  AuditCondition: { NONE: 0, ON_DENY: 1, ON_ALLOW: 2, ON_DENY_AND_ALLOW: 3 },
  Primitive: { PRIMITIVE_TYPE_UNSPECIFIED: 0, BOOL: 1, INT64: 2, UINT64: 3, DOUBLE: 4, STRING: 5, BYTES: 6 },
  WellKnown: { WELL_KNOWN_TYPE_UNSPECIFIED: 0, ANY: 1, TIMESTAMP: 2, DURATION: 3 },
  Null: { NULL_VALUE: 0 },
};

/** Names that Envoy's message has, and the profile leaves out. */
export const RESERVED = {
  Filter: ["matcher", "shadow_matcher", "rules_stat_prefix", "track_per_rule_stats"],
  Policy: ["cel_config"],
  Permission: ["uri_template", "sourced_metadata"],
  Principal: ["sourced_metadata", "custom"],
  HeaderMatcher: ["regex_match"],
  StringMatcher: ["regex", "custom"],
  Type: ["type", "error", "abstract_type"],
  Constant: ["duration_value", "timestamp_value"],
  SourceInfo: ["extensions"],
  FilterStateMatcher: ["address_match"],
};

/** What is before the name of a message in `@type`. */
export const TYPE_URLS = { Filter: "type.googleapis.com/envoy.extensions.filters.http.rbac.v3.RBAC", Rules: "type.googleapis.com/envoy.config.rbac.v3.RBAC" };

/** How a message is written, for those who wrote something else. */
export const SHAPES = {
  Filter: "rules: {policies: {}}",
  Rules: "{action: ALLOW, policies: {}}",
  Policy: "{permissions: [{any: true}], principals: [{any: true}]}",
  Permission: "any: true",
  PermissionSet: "rules: [{any: true}]",
  Principal: "any: true",
  PrincipalSet: "ids: [{any: true}]",
  Authenticated: "principal_name: {exact: text}",
  HeaderMatcher: "{name: x-user, string_match: {exact: alice}}",
  StringMatcher: "exact: text",
  PathMatcher: "path: {prefix: /api/}",
  CidrRange: "{address_prefix: 10.0.0.0, prefix_len: 8}",
  Int32Range: "{start: 8000, end: 9000}",
  Int64Range: "{start: 1, end: 10}",
  CheckedExpr: "text: request.method == 'GET'",
  Expr: "text: request.method == 'GET'",
};

export const camel = (name) => name.replace(/_+([a-z0-9])/g, (_, letter) => letter.toUpperCase());

/** The fields of a message in ascending order of their numbers. */
export const SCHEMA = Object.fromEntries(Object.entries(FIELDS).map(([name, text]) => [name, fieldsOf(text)]));

function fieldsOf(text) {
  return [...text.matchAll(/(\w+)(\??) (\d+) (\*?)(?:\{(\w+),(\w+)\}|(\w+))/g)].map(([, name, oneof, number, list, key, value, type]) =>
    ({ name, isMember: oneof === "?", number: Number(number), isList: list === "*", key, type: type ?? value }));
}

/** Whether a type is a message. */
export const isMessage = (type) => Object.hasOwn(SCHEMA, type);

/** What people call a message. */
export const label = (type) => ({ Filter: "the HTTP RBAC filter", Rules: "RBAC", PermissionSet: "Permission.Set", PrincipalSet: "Principal.Set",
  Authenticated: "Principal.Authenticated" })[type] ?? type;

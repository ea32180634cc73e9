"""The numbers and kinds of the fields, by the public tables."""
import unittest

from policies import messages

# Each message's fields as `name number kind`; `*` marks a repeated one, and members of a oneof stand behind a bar.
TABLE = {
    "envoy.service.discovery.v3.DiscoveryRequest": "version_info 1 string, node 2 Node, resource_names 3 string*, "
    "type_url 4 string, response_nonce 5 string, error_detail 6 Status",
    "envoy.service.discovery.v3.DiscoveryResponse": "version_info 1 string, resources 2 Any*, canary 3 bool, "
    "type_url 4 string, nonce 5 string, control_plane 6 ControlPlane",
    "google.protobuf.Any": "type_url 1 string, value 2 bytes",
    "envoy.config.core.v3.Node": "id 1 string, cluster 2 string",
    "envoy.config.core.v3.TypedExtensionConfig": "name 1 string, typed_config 2 Any",
    "envoy.extensions.filters.http.rbac.v3.RBAC": "rules 1 RBAC, shadow_rules 2 RBAC, shadow_rules_stat_prefix 3 string",
    "envoy.config.rbac.v3.RBAC": "action 1 enum, policies 2 PoliciesEntry*, audit_logging_options 3 AuditLoggingOptions",
    "envoy.config.rbac.v3.RBAC.PoliciesEntry": "key 1 string, value 2 Policy",
    "envoy.config.rbac.v3.Policy": "permissions 1 Permission*, principals 2 Principal*, condition 3 Expr, "
    "checked_condition 4 CheckedExpr",
    "envoy.config.rbac.v3.Permission": "| and_rules 1 Set, or_rules 2 Set, any 3 bool, header 4 HeaderMatcher, "
    "destination_ip 5 CidrRange, destination_port 6 uint32, metadata 7 MetadataMatcher, not_rule 8 Permission, "
    "requested_server_name 9 StringMatcher, url_path 10 PathMatcher, destination_port_range 11 Int32Range, "
    "matcher 12 TypedExtensionConfig",
    "envoy.config.rbac.v3.Permission.Set": "rules 1 Permission*",
    "envoy.config.rbac.v3.Principal": "| and_ids 1 Set, or_ids 2 Set, any 3 bool, authenticated 4 Authenticated, "
    "source_ip 5 CidrRange, header 6 HeaderMatcher, metadata 7 MetadataMatcher, not_id 8 Principal, url_path 9 PathMatcher, "
    "direct_remote_ip 10 CidrRange, remote_ip 11 CidrRange, filter_state 12 FilterStateMatcher",
    "envoy.config.rbac.v3.Principal.Set": "ids 1 Principal*",
    "envoy.config.rbac.v3.Principal.Authenticated": "principal_name 2 StringMatcher",
    "envoy.type.matcher.v3.StringMatcher": "ignore_case 6 bool | exact 1 string, prefix 2 string, suffix 3 string, "
    "safe_regex 5 RegexMatcher, contains 7 string",
    "envoy.type.matcher.v3.PathMatcher": "| path 1 StringMatcher",
    "envoy.config.core.v3.CidrRange": "address_prefix 1 string, prefix_len 2 UInt32Value",
    "google.protobuf.UInt32Value": "value 1 uint32",
    "envoy.type.v3.Int32Range": "start 1 int32, end 2 int32",
    "envoy.type.v3.Int64Range": "start 1 int64, end 2 int64",
    "envoy.config.route.v3.HeaderMatcher": "name 1 string, invert_match 8 bool, treat_missing_header_as_empty 14 bool | "
    "exact_match 4 string, range_match 6 Int64Range, present_match 7 bool, prefix_match 9 string, suffix_match 10 string, "
    "safe_regex_match 11 RegexMatcher, contains_match 12 string, string_match 13 StringMatcher",
    "google.api.expr.v1alpha1.CheckedExpr": "reference_map 2 ReferenceMapEntry*, type_map 3 TypeMapEntry*, expr 4 Expr, "
    "source_info 5 SourceInfo, expr_version 6 string",
    "google.api.expr.v1alpha1.CheckedExpr.ReferenceMapEntry": "key 1 int64, value 2 Reference",
    "google.api.expr.v1alpha1.CheckedExpr.TypeMapEntry": "key 1 int64, value 2 Type",
    "google.api.expr.v1alpha1.Expr": "id 2 int64 | const_expr 3 Constant, ident_expr 4 Ident, select_expr 5 Select, "
    "call_expr 6 Call, list_expr 7 CreateList, struct_expr 8 CreateStruct, comprehension_expr 9 Comprehension",
    "google.api.expr.v1alpha1.Constant": "| null_value 1 enum, bool_value 2 bool, int64_value 3 int64, "
    "uint64_value 4 uint64, double_value 5 double, string_value 6 string, bytes_value 7 bytes",
    "google.api.expr.v1alpha1.Expr.Ident": "name 1 string",
    "google.api.expr.v1alpha1.Expr.Select": "operand 1 Expr, field 2 string, test_only 3 bool",
    "google.api.expr.v1alpha1.Expr.Call": "target 1 Expr, function 2 string, args 3 Expr*",
    "google.api.expr.v1alpha1.Expr.CreateList": "elements 1 Expr*, optional_indices 2 int32*",
    "google.api.expr.v1alpha1.Expr.CreateStruct": "message_name 1 string, entries 2 Entry*",
    "google.api.expr.v1alpha1.Expr.CreateStruct.Entry": "id 1 int64, value 4 Expr, optional_entry 5 bool | "
    "field_key 2 string, map_key 3 Expr",
    "google.api.expr.v1alpha1.Expr.Comprehension": "iter_var 1 string, iter_range 2 Expr, accu_var 3 string, "
    "accu_init 4 Expr, loop_condition 5 Expr, loop_step 6 Expr, result 7 Expr, iter_var2 8 string",
    "google.api.expr.v1alpha1.Type": "| dyn 1 Empty, null 2 enum, primitive 3 enum, wrapper 4 enum, well_known 5 enum, "
    "list_type 6 ListType, map_type 7 MapType, function 8 FunctionType, message_type 9 string, type_param 10 string",
    "google.api.expr.v1alpha1.Type.ListType": "elem_type 1 Type",
    "google.api.expr.v1alpha1.Type.MapType": "key_type 1 Type, value_type 2 Type",
    "google.api.expr.v1alpha1.Reference": "name 1 string, overload_id 3 string*, value 4 Constant",
}
ENUMS = {
    ("envoy.config.rbac.v3.RBAC", "Action"): "ALLOW DENY LOG",
    (
        "google.api.expr.v1alpha1.Type",
        "PrimitiveType",
    ): "PRIMITIVE_TYPE_UNSPECIFIED BOOL INT64 UINT64 DOUBLE STRING BYTES",
}
KINDS = {
    1: "double",
    3: "int64",
    4: "uint64",
    5: "int32",
    8: "bool",
    9: "string",
    12: "bytes",
    13: "uint32",
    14: "enum",
}


def described(field):
    """A field as in the table."""
    kind = field.message_type.name if field.message_type is not None else KINDS[field.type]
    return f"{field.name} {field.number} {kind}" + "*" * (field.label == field.LABEL_REPEATED)


class Tables(unittest.TestCase):
    """The messages hold exactly these fields."""

    def test_fields(self):
        for name, wanted in TABLE.items():
            with self.subTest(name):
                kind = messages.descriptor(name)
                plain = [described(field) for field in kind.fields if field.containing_oneof is None]
                member = [described(field) for field in kind.fields if field.containing_oneof is not None]
                self.assertEqual(len(kind.oneofs), int("|" in wanted))
                first, _, second = wanted.partition("|")
                self.assertEqual(sorted(plain), sorted(part.strip() for part in first.split(",") if part.strip()))
                self.assertEqual(sorted(member), sorted(part.strip() for part in second.split(",") if part.strip()))

    def test_enums(self):
        for (name, enum), wanted in ENUMS.items():
            values = messages.descriptor(name).enum_types_by_name[enum].values
            self.assertEqual([(value.name, value.number) for value in values], list(zip(wanted.split(), range(9))))

    def test_response_is_skipped_alike(self):
        status = messages.descriptor("google.rpc.Status")
        self.assertEqual([described(field) for field in status.fields][:2], ["code 1 int32", "message 2 string"])

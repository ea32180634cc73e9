// What to write instead of what the profile leaves out: the same words as those of tools/policy, for names that are met on this page.

const OWN_HEADER = "let the proxy put it into a header, which it removes from what clients send, and match the header";
const TEXTS = "write `exact`, `prefix`, `suffix` or `contains`";
const INSTEAD = {
  metadata: `the engine has no metadata of other filters: ${OWN_HEADER}`,
  sourced_metadata: `the engine has no metadata of other filters: ${OWN_HEADER}`,
  filter_state: `the engine has no filter state: ${OWN_HEADER}`,
  matcher: "matchers as extensions are left out: write `rules` with policies, or a condition in CEL",
  shadow_matcher: "shadow rules are never enforced: leave it out",
  source_ip: "write direct_remote_ip (the peer's address) or remote_ip (the client's address, if a proxy is between)",
  safe_regex: `${TEXTS}, or several of them under or_rules or or_ids`,
  safe_regex_match: "write `string_match` with `exact`, `prefix`, `suffix` or `contains`",
  regex: TEXTS,
  regex_match: "write `string_match` with `exact`, `prefix`, `suffix` or `contains`",
  custom: "custom matchers are left out: write a member of the profile, or a condition in CEL",
  uri_template: 'write `url_path` with a `prefix`, or a condition in CEL such as request.url_path.endsWith("/x")',
  audit_logging_options: "the engine writes no log: leave it out",
  cel_config: "CEL has no options here: leave it out, and write no string function that it would allow",
  rules_stat_prefix: "the engine keeps no statistics: leave it out",
  track_per_rule_stats: "the engine keeps no statistics: leave it out",
  null_value: "ask for a key with `in` or `has`",
  double_value: "write a whole number",
  optional_indices: "write the elements themselves",
  field_key: "the engine makes no messages: write a map",
};

/** What to write instead of a field, or undefined. */
export const insteadOf = (name) => (Object.hasOwn(INSTEAD, name) ? INSTEAD[name] : undefined);

const AROUND = "http_filters httpFilters typed_config typedConfig static_resources staticResources resources configs filter_chains virtual_hosts virtualHosts".split(" ");
// Files that tools/policy reads and this page does not, by a field that they have.
const OTHER_FORMS = [
  [["apiVersion", "kind"], "an object of Kubernetes"],
  [AROUND, "a configuration around the filter"],
  [["rbac"], "the settings of a route"],
  [["deny_rules", "allow_rules"], "a policy of gRPC"],
];

/** What a mapping is that has these names and is no filter itself, or undefined. */
export function otherForm(names) {
  const found = OTHER_FORMS.find(([fields]) => fields.some((name) => names.includes(name)));
  const instead = "write the filter alone, `rules: {policies: ..}`; tools/policy reads the whole";
  return found && `this is ${found[1]}, which this page does not read: ${instead}`;
}

// A condition alone, as a filter with one policy around it.
import { checkedMessage } from "../cel/message.js";
import { parse } from "../cel/parse.js";
import { pathKey } from "./encode.js";
import { Fault } from "./fault.js";
import { ENUMS } from "./schema.js";
import { bytesOf, message } from "./wire.js";

export const POLICY = "condition";

/** The policy of a condition, whose permissions and principals match each request. */
export function policyAround(condition, name = "checked_condition") {
  const any = (type) => [message(type, { any: true })];
  return message("Policy", { permissions: any("Permission"), principals: any("Principal"), [name]: condition });
}

/** The filter with one policy. */
export const filterOf = (name, policy, action = "ALLOW") =>
  message("Filter", { rules: message("Rules", { action: ENUMS.Action[action], policies: [[name, policy]] }) });

/** What a text of CEL says, as encodeYaml answers it. */
export function encodeCondition(text, action) {
  const path = pathKey(["rules", "policies", POLICY, "checked_condition"]);
  try {
    const tree = parse(text), filter = filterOf(POLICY, policyAround(checkedMessage(tree)), action);
    const places = Array.from({ length: text.length + 1 }, (_, index) => index), node = { kind: "scalar", value: text, at: 0, end: text.length, places };
    return { filter, bytes: bytesOf(filter), marks: new Map([[path, node]]), conditions: new Map([[path, { node, tree }]]), faults: [] };
  } catch (fault) {
    if (!(fault instanceof Fault)) throw fault;
    return { filter: message("Filter"), bytes: undefined, marks: new Map(), conditions: new Map(), faults: [fault] };
  }
}

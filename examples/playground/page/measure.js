// What a filter's conditions cost: the bound of steps, which the module tells, and the visits. It does not tell the visits, so the least number
// that admits the filter is sought.
import { filterOf } from "../encoder/condition.js";
import { bytesOf } from "../encoder/wire.js";
import { Refused } from "../vupresal.js";

const MOST_BUDGET = 100_000_000n, MOST_POLICIES = 40;

function boundOf(engine, bytes, visits) {
  let filter;
  try {
    filter = engine.admit(bytes, { budget: MOST_BUDGET, bounds: { visits } });
    return filter.bound;
  } catch (fault) {
    if (!(fault instanceof Refused)) throw fault;
    return undefined;
  } finally {
    filter?.close();
  }
}

/** The least visits that admit a filter which is admitted with enough of them. */
function leastVisits(engine, bytes) {
  let most = 1n;
  while (boundOf(engine, bytes, most) === undefined) most *= 2n;
  let least = most / 2n;
  while (most - least > 1n) {
    const middle = (least + most) / 2n;
    if (boundOf(engine, bytes, middle) === undefined) least = middle;
    else most = middle;
  }
  return most;
}

/** The bound and the visits of a filter, or undefined if the engine refuses it with so many visits and the greatest budget. */
export function costOf(engine, bytes, visits) {
  const bound = boundOf(engine, bytes, visits);
  return bound === undefined ? undefined : { bound, visits: leastVisits(engine, bytes) };
}

/** The cost of each policy that has a condition, as a filter of its own; at most 40. */
export function costsOfPolicies(engine, filter, visits) {
  const named = filter.values.get("rules")?.values?.get("policies") ?? [];
  const asked = named.filter(([, policy]) => policy.values?.has("condition") || policy.values?.has("checked_condition"));
  const costs = asked.slice(0, MOST_POLICIES).map(([name, policy]) => ({ name, ...costOf(engine, bytesOf(filterOf(name, policy)), visits) }));
  return costs.filter((it) => it.bound !== undefined);
}

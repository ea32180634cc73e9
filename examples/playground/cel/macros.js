// The macros of the language definition, expanded in the forms of cel-go 0.18; those of two variables as in cel-go 0.30.
import { Fault } from "../encoder/fault.js";
import { ACCUMULATOR, call, constant, ident, list, loop, select, startOf } from "./tree.js";

/** The expansion of `has`, or undefined where a call is none. */
export function expandedCall(name, args) {
  if (name !== "has" || args.length !== 1) return undefined;
  const [field] = args;
  if (field.kind === "call" && field.name === "_[_]") {
    throw new Fault(startOf(field), "`has` takes a field of a value, such as `has(m.f)`: for a key in brackets write `key in m`");
  }
  if (field.kind !== "select" || field.isTest) throw new Fault(startOf(field), "`has` takes a field of a value, such as `has(m.f)`");
  return select(field.operand, field.field, true, field.place);
}

/** The expansion of a loop, or undefined where a call with a target is none. */
export function expandedMethod(target, name, args, place) {
  const macro = LOOPS[`${name}/${args.length}`];
  if (!macro) return undefined;
  const [count, expand] = macro, variables = args.slice(0, count);
  for (const it of variables) {
    if (it.kind !== "ident" || it.name.startsWith(".")) throw new Fault(startOf(it), `\`${name}\` takes the name of a variable here`);
  }
  if (count === 2) checkNames(name, variables);
  const [first, second] = variables, parts = expand(first, args.slice(count), place);
  return loop({ first: first.name, second: second?.name ?? "", range: target, accumulator: ACCUMULATOR, ...parts }, place);
}

function checkNames(name, [first, second]) {
  if (first.name === second.name) throw new Fault(second.place, `\`${name}\` takes two variables of different names here`);
  for (const it of [first, second]) {
    if (it.name === ACCUMULATOR) throw new Fault(it.place, `\`${ACCUMULATOR}\` is the name of the macro's own variable: take another`);
  }
}

const goesOn = (value, place) => call("@not_strictly_false", [value], place);

const all = (_, [test], place) => ({
  init: constant("bool", true, place),
  condition: goesOn(ident(ACCUMULATOR, place), place),
  step: call("_&&_", [ident(ACCUMULATOR, place), test], place),
  result: ident(ACCUMULATOR, place),
});

const exists = (_, [test], place) => ({
  init: constant("bool", false, place),
  condition: goesOn(call("!_", [ident(ACCUMULATOR, place)], place), place),
  step: call("_||_", [ident(ACCUMULATOR, place), test], place),
  result: ident(ACCUMULATOR, place),
});

const existsOne = (_, [test], place) => {
  const oneMore = call("_+_", [ident(ACCUMULATOR, place), constant("int64", 1n, place)], place);
  return {
    init: constant("int64", 0n, place),
    condition: constant("bool", true, place),
    step: call("_?_:_", [test, oneMore, ident(ACCUMULATOR, place)], place),
    result: call("_==_", [ident(ACCUMULATOR, place), constant("int64", 1n, place)], place),
  };
};

/** The list of the results of all elements, or of those that pass a test. */
function collect(test, element, place) {
  const step = call("_+_", [ident(ACCUMULATOR, place), list([element], place)], place);
  return {
    init: list([], place),
    condition: constant("bool", true, place),
    step: test ? call("_?_:_", [test, step, ident(ACCUMULATOR, place)], place) : step,
    result: ident(ACCUMULATOR, place),
  };
}

const map = (_, [element], place) => collect(undefined, element, place);
const mapTested = (_, [test, element], place) => collect(test, element, place);
const filter = (first, [test], place) => collect(test, ident(first.name, first.place), place);

// By name and number of arguments: how many variables it names, and its parts.
const LOOPS = {
  "all/2": [1, all], "exists/2": [1, exists], "exists_one/2": [1, existsOne], "map/2": [1, map], "map/3": [1, mapTested], "filter/2": [1, filter],
  "all/3": [2, all], "exists/3": [2, exists], "exists_one/3": [2, existsOne], "existsOne/3": [2, existsOne],
  "transformList/3": [2, map], "transformList/4": [2, mapTested],
};

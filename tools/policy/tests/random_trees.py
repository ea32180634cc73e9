"""Random trees of CEL, as messages of libprotobuf."""
NAMES = ["x", "y", "request", "source", "__result__", "size", "in", "if", "request.method", "a-b", ""]
ATTRIBUTES = ["request.method", "request.path", "request.headers", "source.port", "connection.mtls"]
BINARY = "_&&_ _||_ _==_ _!=_ _<_ _<=_ _>_ _>=_ _+_ _-_ _*_ _/_ _%_ @in _[_]".split()
METHODS = ["contains", "startsWith", "endsWith", "size", "matches"]


class TreeMaker:
    """Makes random checked conditions with a filter maker's randomness."""

    def __init__(self, maker):
        self.maker = maker
        self.random = maker.random
        self.ids = 0

    def unchecked(self, expr):
        """Fills the `Expr` of a whole condition."""
        self.odd = self.random.random() < 0.2
        self.dotted = self.random.random() < 0.3
        self.accumulator = "@result" if self.random.random() < 0.3 else "__result__"
        self.tree(expr, 0)

    def checked(self, checked):
        """Fills a `CheckedExpr`."""
        self.unchecked(checked.expr)
        if self.random.random() < 0.3:
            for _ in range(self.random.randrange(3)):
                self.kind(checked.type_map[self.random.randrange(9)], 0)
        if self.random.random() < 0.1:
            checked.reference_map[self.random.randrange(9)].name = self.random.choice(ATTRIBUTES)
        if self.random.random() < 0.1:
            checked.source_info.location = "<input>"
            checked.source_info.line_offsets.extend([1, 2, 300])
        if self.random.random() < 0.1:
            checked.expr_version = "1"

    def kind(self, made, depth):
        """Fills a `Type`."""
        choice = self.random.randrange(5 if depth < 3 else 3)
        if choice < 2:
            made.primitive = self.random.randrange(1, 7)
        elif choice == 2:
            made.dyn.SetInParent()
        elif choice == 3:
            self.kind(made.list_type.elem_type, depth + 1)
        else:
            self.kind(made.map_type.key_type, depth + 1)
            self.kind(made.map_type.value_type, depth + 1)

    def tree(self, made, depth):
        """Fills an `Expr`; its ids are those of another order than the tool's."""
        self.ids += 1
        made.id = self.ids if self.random.random() < 0.98 else self.random.randrange(-5, 5)
        choice = self.random.randrange(12 if depth < 5 else 4)
        if choice < 2:
            self._constant(made.const_expr)
        elif choice < 4:
            self._attribute(made, depth)
        elif choice < 7:
            self._binary(made.call_expr, depth)
        elif choice == 7:
            self._call(made.call_expr, depth)
        elif choice == 8:
            made.list_expr.SetInParent()
            for _ in range(self.random.randrange(4)):
                self.tree(made.list_expr.elements.add(), depth + 1)
        elif choice == 9:
            self._struct(made.struct_expr, depth)
        elif choice == 10:
            made.select_expr.field = self.random.choice(
                ["a", "headers", "x_y", "in", "a-b"] if self.odd else ["a", "b"]
            )
            made.select_expr.test_only = self.random.random() < 0.5
            self.tree(made.select_expr.operand, depth + 1)
        else:
            self._loop(made.comprehension_expr, depth)

    def _constant(self, made):
        choice = self.random.randrange(7 if self.odd else 5)
        if choice == 0:
            made.bool_value = self.random.random() < 0.5
        elif choice == 1:
            made.int64_value = self.maker.number(-(2**63), 2**63 - 1)
        elif choice == 2:
            made.uint64_value = self.maker.number(0, 2**64 - 1)
        elif choice == 3:
            made.string_value = self.maker.word()
        elif choice == 4:
            made.bytes_value = self.random.choice([b"", b"\x00\xff", b'a"\\', "é".encode()])
        elif choice == 5:
            made.double_value = self.random.choice([0.0, -0.0, 1.5, 1e22, -1e-7, float("inf"), float("nan")])
        else:
            made.null_value = 0

    def _attribute(self, made, depth):
        if self.odd:
            made.ident_expr.name = self.random.choice(NAMES)
            return
        name = self.random.choice(ATTRIBUTES)
        if self.dotted:
            made.ident_expr.name = name
            return
        root, made.select_expr.field = name.split(".")
        self.ids += 1
        made.select_expr.operand.id = self.ids
        made.select_expr.operand.ident_expr.name = root

    def _binary(self, made, depth):
        made.function = self.random.choice(BINARY)
        for _ in range(2):
            self.tree(made.args.add(), depth + 1)
        if self.odd and self.random.random() < 0.1:
            self.tree(made.args.add(), depth + 1)

    def _call(self, made, depth):
        choice = self.random.randrange(4)
        if choice == 0:
            made.function = self.random.choice(["!_", "-_"] + ["@not_strictly_false"] * self.odd)
            self.tree(made.args.add(), depth + 1)
        elif choice == 1:
            made.function = "_?_:_"
            for _ in range(3):
                self.tree(made.args.add(), depth + 1)
        elif choice == 2:
            made.function = self.random.choice(["size", "f"] + ["has", "_in_", "in", ""] * self.odd)
            self.tree(made.args.add(), depth + 1)
        else:
            made.function = self.random.choice(METHODS)
            self.tree(made.target, depth + 1)
            for _ in range(self.random.randrange(2)):
                self.tree(made.args.add(), depth + 1)

    def _struct(self, made, depth):
        made.SetInParent()
        if self.odd and self.random.random() < 0.3:
            made.message_name = self.random.choice(["a.B", ".c", "if"])
        for _ in range(self.random.randrange(3)):
            entry = made.entries.add()
            self.ids += 1
            entry.id = self.ids
            if made.message_name:
                entry.field_key = "f"
            else:
                self.tree(entry.map_key, depth + 2)
            self.tree(entry.value, depth + 2)

    def _loop(self, made, depth):
        """The expansion of a macro, or with odd trees any loop."""
        made.iter_var = self.random.choice(["x", "request", "y"])
        if self.random.random() < 0.4:
            made.iter_var2 = self.random.choice(["z", "v"] + ["x", "a-b"] * self.odd)
        made.accu_var = self.accumulator
        self.tree(made.iter_range, depth + 1)
        choice = self.random.randrange(7 if self.odd else 5)
        if choice < 2:
            self._quantifier(made, "_&&_" if choice else "_||_", depth)
        elif choice == 2:
            made.accu_init.const_expr.int64_value = 0
            made.loop_condition.const_expr.bool_value = True
            self._keep(made.loop_step, lambda kept: self._one_more(kept), depth)
            made.result.call_expr.function = "_==_"
            self._accumulator(made.result.call_expr.args.add())
            made.result.call_expr.args.add().const_expr.int64_value = 1
        elif choice < 5:
            made.accu_init.list_expr.SetInParent()
            made.loop_condition.const_expr.bool_value = True
            if choice == 3:
                self._append(made.loop_step, depth)
            else:
                self._keep(made.loop_step, lambda kept: self._append(kept, depth), depth)
            self._accumulator(made.result)
        else:
            for part in (made.accu_init, made.loop_condition, made.loop_step, made.result):
                self.tree(part, depth + 2)
            made.accu_var = self.random.choice(["acc", "__result__", "x", ""])

    def _accumulator(self, made):
        self.ids += 1
        made.id = self.ids
        made.ident_expr.name = self.accumulator

    def _quantifier(self, made, operator, depth):
        made.accu_init.const_expr.bool_value = operator == "_&&_"
        made.loop_condition.call_expr.function = "@not_strictly_false"
        inner = made.loop_condition.call_expr.args.add()
        if operator == "_||_":
            inner.call_expr.function = "!_"
            inner = inner.call_expr.args.add()
        self._accumulator(inner)
        made.loop_step.call_expr.function = operator
        self._accumulator(made.loop_step.call_expr.args.add())
        self.tree(made.loop_step.call_expr.args.add(), depth + 2)
        self._accumulator(made.result)

    def _keep(self, made, fill, depth):
        """`test ? kept : accumulator`."""
        made.call_expr.function = "_?_:_"
        self.tree(made.call_expr.args.add(), depth + 2)
        fill(made.call_expr.args.add())
        self._accumulator(made.call_expr.args.add())

    def _one_more(self, made):
        made.call_expr.function = "_+_"
        self._accumulator(made.call_expr.args.add())
        made.call_expr.args.add().const_expr.int64_value = 1

    def _append(self, made, depth):
        made.call_expr.function = "_+_"
        self._accumulator(made.call_expr.args.add())
        self.tree(made.call_expr.args.add().list_expr.elements.add(), depth + 3)

"""The files of a crate for the shapes that some operations reach."""
import names
from cycles import Cycle
from models import Bad, cycles, reached, table_text

RUST = {"string": "String", "blob": "Blob", "boolean": "bool", "byte": "i8", "short": "i16", "integer": "i32", "long": "i64", "timestamp": "DateTime",
        "document": "Document"}
VALUES = {"string": "text_value", "blob": "bytes_value", "boolean": "boolean_value", "byte": "whole_value", "short": "whole_value",
          "integer": "whole_value", "long": "whole_value", "timestamp": "instant_value",
          "document": "open_value"}
KINDS = {"string": "String", "blob": "Blob", "boolean": "Boolean", "byte": "Byte", "short": "Short", "integer": "Integer", "long": "Long",
         "timestamp": "Timestamp"}


class Crate:
    def __init__(self, model, operations, name):
        self.model, self.name = model, name
        self.operations, roots = [], []
        for operation in operations:
            shape = model.shapes.get(operation)
            if operation in model.operations:
                parts = model.operations[operation]
                if parts == (None, None):
                    raise Bad(f"{operation} has neither an input nor an output")
            elif shape is not None and shape.kind == "structure":
                parts = (operation,)
            else:
                raise Bad(f"no operation or structure {operation}")
            self.operations.append((operation, parts))
            roots += [part for part in parts if part]
        self.roots = list(dict.fromkeys(roots))
        self.order = reached(model, self.roots)
        self.cycles = cycles(model, self.order)
        for shape, others in self.cycles.items():
            if len(others) > 1:
                raise Bad("shapes that hold one another aren't generated yet: " + ", ".join(others))
        self.types = [n for n in self.order if model.shapes[n].kind in ("structure", "union")]
        lower = {}
        for shape in self.types:
            made = names.pascal(shape).lower()
            if made in lower:
                raise Bad(f"{shape} and {lower[made]} would be one name")
            lower[made] = shape
        self.files = {}

    # ---- types of members

    def rust(self, target):
        if target in RUST:
            return RUST[target]
        shape = self.declared(target)
        if shape.kind in ("structure", "union"):
            return names.pascal(target)
        inner = self.rust(shape.target)
        return f"Vec<{inner}>" if shape.kind == "list" else f"BTreeMap<String, {inner}>"

    def declared(self, target):
        if target not in self.model.shapes:
            raise Bad(f"members of the type {target} aren't generated yet")
        shape = self.model.shapes[target]
        if shape.kind in ("list", "map") and shape.sparse:
            raise Bad(f"{target} is sparse: such lists and maps aren't generated yet")
        return shape

    def value(self, target):
        if target in VALUES:
            return VALUES[target]
        shape = self.declared(target)
        if shape.kind in ("structure", "union"):
            return names.snake(target) + "_value"
        return f"({shape.kind}_with {self.value(shape.target)})"

    def place(self, target):
        if target == "document":
            return "IsOpen"
        if target in KINDS:
            return f"(IsScalar scalars.{KINDS[target]})"
        shape = self.declared(target)
        if shape.kind in ("structure", "union"):
            return "Is" + names.pascal(target)
        return f"({'IsListOf' if shape.kind == 'list' else 'IsMapOf'} {self.place(shape.target)})"

    def parts(self, target):
        """The declared types of structures and unions in a member's type."""
        if target in RUST:
            return set()
        shape = self.declared(target)
        return {target} if shape.kind in ("structure", "union") else self.parts(shape.target)

    # ---- files

    def write(self):
        for shape in self.types:
            if shape in self.cycles:
                self.files.update(Cycle(self, shape).files())
            elif self.model.shapes[shape].kind == "structure":
                self.structure(shape)
            else:
                self.union(shape)
        self.lib()
        return self.files

    def imports(self, shape, targets):
        parts = sorted(set().union(*[self.parts(t) for t in targets]) - {shape})
        kinds = {self.rust(t) for t in targets}
        text = "".join(f"use crate::{names.module(p)}::{names.pascal(p)};\n" for p in parts)
        return parts, text, [w for w in ("Blob", "DateTime", "Document") if any(w in k.replace("<", " ").replace(">", " ").replace(",", " ").split() for k in kinds)], any("BTreeMap" in k for k in kinds)

    def spec(self, shape, targets, type_words, text):
        parts = sorted(set().union(*[self.parts(t) for t in targets]) - {shape})
        flat = " ".join(self.value(t) + " " + self.place(t) for t in targets).replace("(", " ").replace(")", " ").split()
        values = [w for w in ("text_value", "bytes_value", "boolean_value", "whole_value", "instant_value", "open_value", "list_with", "map_with") if w in flat]
        places = [w for w in ("IsScalar", "IsOpen", "IsListOf", "IsMapOf") if w in flat]
        lines = type_words["uses"]
        if places or True:
            lines.append("use Rattle.smithy_typed.specs.Places.{" + ", ".join(["HasShape", "HaveMember", "HaveNoMember", *places]) + "}")
        if values:
            lines.append("use Rattle.smithy_typed.specs.Values.{" + ", ".join(values) + "}")
        if "IsScalar" in places:
            lines.append("use Rattle.smithy_declarations.specs.declared.shape_type.Scalar.TheVariants as scalars")
        for part in parts:
            lines.append(f"use Rattle.{self.name}.specs.{self.spec_name(part)}.{{Is{names.pascal(part)}, {names.snake(part)}_value}}")
        module, kind = names.module(shape), names.pascal(shape)
        lines.append(f"use Rattle.{self.name}.specs.declared.{module}.{kind}.{{{kind}}}")
        self.files[f"specs/{self.spec_name(shape)}.antt"] = "\n".join(lines) + "\n\n" + text

    def spec_name(self, shape):
        return "Of" + names.pascal(shape)

    def chain(self, shape):
        text = "HaveNoMember"
        for member in reversed(self.model.shapes[shape].members):
            text = f"(HaveMember (codes \"{member.name}\") {self.place(member.target)}\n    {text})"
        return text

    def structure(self, shape):
        made = self.model.shapes[shape]
        kind, snake, module = names.pascal(shape), names.snake(shape), names.module(shape)
        fields = names.distinct([names.field(m.name) for m in made.members])
        targets = [m.target for m in made.members]
        types = [self.rust(t) for t in targets]
        parts, uses, scalars, maps = self.imports(shape, targets)
        nested = "NoField"
        for t in reversed(types):
            nested = f"Field<{t}, {nested}>"
        is_root = shape in self.roots
        out = [f"//! The structure `{shape}`."]
        if is_root:
            out += ["ghost use Rattle.std.specs.Prelude.{◌≡◌, false, OnOk};", "ghost use Rattle.smithy_shapes.specs.Site.{site_of};",
                    "ghost use Rattle.smithy_schema.specs.Consuming.{IsTaken};", "ghost use Rattle.smithy_schema.specs.Typed.{ReadsDueAs, WritesWhole};", "ghost use Rattle.smithy_schema.specs.Writing.{events};"]
            out += [f"ghost use Rattle.{self.name}.specs.{self.spec_name(shape)}.{{Is{kind}, {snake}_value}};"]
        out += ["", *uses.splitlines()]
        out += ["use smithy_schema::{Schema, SerdeError, ShapeDeserializer, ShapeSerializer, WriteFields};"]
        calls = ["is_structure_of", "read_structure", "write_structure"] + (["read_root", "write_root"] if is_root else [])
        words = (["Field", "FieldRef"] if fields else []) + ["FromFields", "NoField", "Typed", "WriteFieldList"]
        out += ["use smithy_typed::{" + ", ".join(words + sorted(calls)) + "};"]
        if scalars:
            out += ["use smithy_types::{" + ", ".join(scalars) + "};"]
        if maps:
            out += ["use std::collections::BTreeMap;"]
        out += ["", f"/// {made.doc or 'The structure `' + shape + '`.'}"]
        left = [f"    // `{name}` isn't here: {why}." for name, why in made.left_out]
        if fields:
            out += ["#[derive(Drop)]", f"pub struct {kind} {{"]
            for member, field, type_ in zip(made.members, fields, types):
                out += [f"    /// `{member.name}`" + (f": {member.doc}" if member.doc else "."), f"    pub {field}: Option<{type_}>,"]
            out += left + ["}"]
        else:
            out += left + ["#[derive(Drop)]", f"pub struct {kind} {{}}"]
        out += ["", "// Its fields, one inside another.", f"type Fields = {nested};", ""]
        out += [f"impl FromFields<Fields> for {kind} {{", f"    ghost use Rattle.{self.name}.specs.{self.spec_name(shape)}.{{{snake}_names, {snake}_fields}};", "",
                f"    ghost names = {{ {snake}_names }};", "", f"    ghost made = {{ {snake}_fields }};", ""]
        if fields:
            out += [f"    fn from_fields(list: Fields) -> {kind} {{"]
            for index, field in enumerate(fields):
                last = index == len(fields) - 1
                kept = "value" if field == "value" else f"value: {field}"
                out += [f"        let Field {{ {kept}, rest{': _' if last else ''} }} = {'list' if index == 0 else 'rest'};"]
            out += [f"        {kind} {{ " + ", ".join(fields) + " }", "    }", "}"]
        else:
            out += [f"    fn from_fields(_list: Fields) -> {kind} {{", f"        {kind} {{}}", "    }", "}"]
        out += ["", f"impl WriteFields for {kind} {{", f"    ghost use Rattle.{self.name}.specs.{self.spec_name(shape)}.{{{snake}_fields}};", "", f"    ghost fields = {{ {snake}_fields }};", "",
                "    fn write_fields<S: ShapeSerializer>(&self, sink: &mut S, shape: &Schema<'_>) -> Result<(), SerdeError> {"]
        for index, field in enumerate(reversed(fields)):
            out += [f"        let rest = FieldRef {{ value: &self.{field}, rest{': NoField' if index == 0 else ''} }};"]
        out += [f"        {'rest' if fields else 'NoField'}.write_from(sink, shape, 0)", "    }", "}", ""]
        literal = ", ".join(f'"{m.name}"' for m in made.members)
        out += self.typed(shape, f"is_structure_of::<Fields>(schema, &[{literal}])", f"read_structure::<{kind}, Fields, D>(source, schema)", "write_structure(sink, schema, self)")
        if is_root:
            out += self.root(shape)
        self.files[f"src/{module}.rt"] = "\n".join(out) + "\n"
        rows = " ∷ ".join([f"option_map {self.value(m.target)} x.{f}" for m, f in zip(made.members, fields)] + ["[]"])
        codes = " ∷ ".join([f'codes "{m.name}"' for m in made.members] + ["[]"])
        text = f"""abbrev pub {snake}_names : List (List ℕ)
{snake}_names = {codes}

-- such a structure is there, whose members have these names and are at places of these types
abbrev pub Is{kind} : Site → Type 0
Is{kind} = HasShape types.Structure {self.chain(shape)}

-- its members' values by their positions
abbrev pub {snake}_fields : {kind} → List (Option Value)
{snake}_fields x = {rows}

abbrev pub {snake}_value : {kind} → Value
{snake}_value x = structure_with ({snake}_fields x)
"""
        self.spec(shape, targets, {"uses": [
            f"-- The structure {shape}, as its type has it.",
            "use Rattle.std.specs.Prelude.{ℕ, List, []" + (", ◌∷◌, option_map, codes" if fields else "") + ", Option}",
            "use Rattle.smithy_declarations.specs.declared.shape_type.ShapeType.TheVariants as types",
            "use Rattle.smithy_declarations.specs.Value.{Value}", "use Rattle.smithy_shapes.specs.Site.{Site}",
            "use Rattle.smithy_schema.specs.Fields.{structure_with}"]}, text)

    def typed(self, shape, is_at, read, write):
        kind, snake = names.pascal(shape), names.snake(shape)
        return [f"impl Typed for {kind} {{", f"    ghost use Rattle.{self.name}.specs.{self.spec_name(shape)}.{{Is{kind}, {snake}_value}};", "",
                f"    ghost value = {{ {snake}_value }};", "", f"    ghost place = {{ Is{kind} }};", "",
                "    fn is_at(schema: &Schema<'_>) -> bool {", f"        {is_at}", "    }", "",
                f"    fn read_from<D: ShapeDeserializer>(source: &mut D, schema: &Schema<'_>) -> Result<{kind}, SerdeError> {{", f"        {read}", "    }", "",
                "    fn write_to<S: ShapeSerializer>(&self, sink: &mut S, schema: &Schema<'_>) -> Result<(), SerdeError> {", f"        {write}", "    }", "}"]

    def root(self, shape):
        kind, snake = names.pascal(shape), names.snake(shape)
        return ["", f"/// Reads `{shape}` as the root of a body. Nulls of members are dropped.",
                f"pub fn read_{snake}<D: ShapeDeserializer>(schema: &Schema<'_>, source: &mut D) -> Result<{kind}, SerdeError>",
                f"    requires place {{ Is{kind} (site_of schema.now) }}",
                "    ensures same { D.settings source.new ≡ D.settings source.old }",
                f"    ensures reads {{ ReadsDueAs (D.reading (D.with_nulls false (D.settings source.old))).wire (D.state source.old) (D.state source.new) (site_of schema.now) {snake}_value result }}",
                "    ensures takes { OnOk result (IsTaken (D.state source.old) (D.state source.new)) }",
                "{", f"    read_root::<{kind}, Fields, D>(source, schema)", "}", "",
                f"/// Writes `{shape}` as the root of a body.",
                f"pub fn write_{snake}<S: ShapeSerializer>(sink: &mut S, schema: &Schema<'_>, value: &{kind}) -> Result<(), SerdeError>",
                f"    ensures {{ WritesWhole S.after S.open_in (events (site_of schema.now) ({snake}_value value.now)) (S.state sink.old) (S.failed sink.old) (S.state sink.new) (S.failed sink.new) result }}",
                "{", "    write_root(sink, schema, value)", "}"]

    def union(self, shape):
        made = self.model.shapes[shape]
        kind, snake, module = names.pascal(shape), names.snake(shape), names.module(shape)
        variants = names.distinct([names.variant(m.name) for m in made.members])
        targets = [m.target for m in made.members]
        types = [self.rust(t) for t in targets]
        parts, uses, scalars, maps = self.imports(shape, targets)
        nested = f"LastVariant<{types[-1]}>"
        for t in reversed(types[:-1]):
            nested = f"Variant<{t}, {nested}>"
        many = len(types) > 1
        out = [f"//! The union `{shape}`.", "", *uses.splitlines(), "use smithy_schema::{Schema, SerdeError, ShapeDeserializer, ShapeSerializer};"]
        out += ["use smithy_typed::{FromVariants, LastVariant, Typed" + (", Variant" if many else "") + ", is_union_of, read_union, write_variant};"]
        if scalars:
            out += ["use smithy_types::{" + ", ".join(scalars) + "};"]
        if maps:
            out += ["use std::collections::BTreeMap;"]
        out += ["", f"/// {made.doc or 'The union `' + shape + '`.'}", "#[derive(Drop)]", f"pub enum {kind} {{"]
        for member, variant, type_ in zip(made.members, variants, types):
            out += [f"    /// `{member.name}`" + (f": {member.doc}" if member.doc else "."), f"    {variant}({type_}),"]
        out += [f"    // `{name}` isn't here: {why}." for name, why in made.left_out] + ["}"]
        out += ["", "// Its members, one inside another.", f"type Variants = {nested};", ""]
        out += [f"impl FromVariants<Variants> for {kind} {{", f"    ghost use Rattle.{self.name}.specs.{self.spec_name(shape)}.{{{snake}_names, {snake}_value}};", "",
                f"    ghost names = {{ {snake}_names }};", "", f"    ghost made = {{ {snake}_value }};", "",
                f"    fn from_variant(variant: Variants) -> {kind} {{"]
        for variant in variants[:-1]:
            out += ["        let variant = match variant {", f"            Variant::This(value) => return {kind}::{variant}(value),", "            Variant::Other(other) => other,", "        };"]
        out += [f"        {kind}::{variants[-1]}(variant.value)", "    }", "}", ""]
        literal = ", ".join(f'"{m.name}"' for m in made.members)
        arms = "".join(f"\n            {kind}::{v}(value) => write_variant(sink, schema, {i}, value)," for i, v in enumerate(variants))
        out += self.typed(shape, f"is_union_of::<Variants>(schema, &[{literal}])", f"read_union::<{kind}, Variants, D>(source, schema)", "match self {" + arms + "\n        }")
        self.files[f"src/{module}.rt"] = "\n".join(out) + "\n"
        codes = " ∷ ".join([f'codes "{m.name}"' for m in made.members] + ["[]"])
        rows = "".join(f"{snake}_value (variants.{v} x) = union {i} ({self.value(t)} x)\n" for i, (v, t) in enumerate(zip(variants, targets)))
        text = f"""abbrev pub {snake}_names : List (List ℕ)
{snake}_names = {codes}

-- such a union is there, whose members have these names and are at places of these types
abbrev pub Is{kind} : Site → Type 0
Is{kind} = HasShape types.Union {self.chain(shape)}

-- its member by the member's position
abbrev pub {snake}_value : {kind} → Value
{rows}"""
        self.spec(shape, targets, {"uses": [
            f"-- The union {shape}, as its type has it.",
            "use Rattle.std.specs.Prelude.{ℕ, List, [], ◌∷◌, codes}",
            "use Rattle.smithy_declarations.specs.declared.shape_type.ShapeType.TheVariants as types",
            "use Rattle.smithy_declarations.specs.Value.{Value, union}", "use Rattle.smithy_shapes.specs.Site.{Site}",
            f"use Rattle.{self.name}.specs.declared.{module}.{kind}.TheVariants as variants"]}, text)

    def lib(self):
        out = [f"//! Types of {self.model.service} for " + ", ".join(o for o, _ in self.operations) + ".", "#![tactic(auto)]", ""]
        modules = sorted((names.module(s), s) for s in self.types)
        out += [f"mod {m};" for m, _ in modules] + [""]
        for module, shape in modules:
            kind, snake = names.pascal(shape), names.snake(shape)
            if shape in self.roots:
                out += [f"pub use {module}::{{{kind}, read_{snake}, write_{snake}}};"]
            else:
                out += [f"pub use {module}::{kind};"]
        self.files["src/lib.rt"] = "\n".join(out) + "\n"
        self.files["specs/Lib.antt"] = "".join(f"pub mod {self.spec_name(s)}\n" for s in sorted(self.types, key=self.spec_name))
        self.files["proofs/Lib.antt"] = "".join(f"mod {names.pascal(s)}Places\nmod {names.pascal(s)}Views\n" for s in sorted(self.cycles))
        self.files["shapes.table"] = table_text(self.model, self.order)

"""The files of a union of scalars and of lists and maps of itself."""
import os

import names
from models import Bad

HERE = os.path.dirname(os.path.abspath(__file__))


def template(name, **words):
    text = open(os.path.join(HERE, "templates", name + ".txt"), encoding="utf-8").read()
    for word, value in words.items():
        text = text.replace(f"@{word}@", value)
    return text


def uses(*lines):
    return "".join(f"use Rattle.{line}\n" for line in lines)


class Cycle:
    def __init__(self, crate, shape):
        self.crate, self.shape = crate, shape
        made = crate.model.shapes[shape]
        if made.kind != "union":
            raise Bad(f"{shape} holds itself: only unions that do are generated yet")
        self.made, self.kind, self.snake, self.module = made, names.pascal(shape), names.snake(shape), names.module(shape)
        self.variants = names.distinct([names.variant(m.name) for m in made.members])
        self.holding, self.rows = {}, []
        for position, (member, variant) in enumerate(zip(made.members, self.variants)):
            inner = crate.model.shapes.get(member.target)
            if inner is None:
                self.rows.append((position, member, variant, None))
            elif inner.kind in ("list", "map") and inner.target == shape and not inner.sparse:
                if any(name == member.target for name in self.holding.values()):
                    raise Bad(f"{shape}: two members of the type {member.target} aren't generated yet")
                self.holding[position] = member.target
                self.rows.append((position, member, variant, inner))
            else:
                raise Bad(f"{shape} holds itself: its member {member.name} isn't a scalar, nor a list or a map of it")
        self.last = len(self.rows) - 1
        self.spec = f"{crate.name}.specs.{crate.spec_name(shape)}"
        self.value, self.place = f"{self.snake}_value", f"Is{self.kind}"

    # words for the targets of the lists and maps, in order
    def targets(self):
        return [f"at_{position}" for position in self.holding]

    def type_of(self, row):
        position, member, variant, inner = row
        if inner is None:
            return self.crate.rust(member.target)
        return f"Vec<{self.kind}>" if inner.kind == "list" else f"BTreeMap<String, {self.kind}>"

    def view(self, row):
        position, member, variant, inner = row
        if inner is None:
            return self.crate.value(member.target)
        return f"({inner.kind}_with {self.value})"

    def shape_type(self, inner):
        return "List" if inner.kind == "list" else "Map"

    def files(self):
        base = f"proofs/{self.module}"
        more = {}
        if any(self.crate.model.shapes[t].kind == "map" for t in self.holding.values()):
            more[f"{base}/put_{self.snake}/Answers.antt"] = uses(
                "smithy_typed.proofs.Containers.{entry_put}", f"{self.spec}.{{{self.value}}}",
                f"{self.crate.name}.proofs.{self.module}.put_{self.snake}.Goals as goal") + f"""
pub returns-clause-ok : goal.returns-clause-ok
returns-clause-ok c = rw c.in_ok-insert.ensures.entries (entry_put {self.value} c.args.entries.now.entries c.args.key c.args.value)
"""
        return {
            **more,
            f"src/{self.module}.rt": self.source(),
            f"specs/{self.crate.spec_name(self.shape)}.antt": self.specs(),
            f"proofs/{self.kind}Views.antt": self.views(),
            f"proofs/{self.kind}Places.antt": self.places(),
            f"{base}/{self.kind}Typed/is_at/Answers.antt": self.is_at_answers(),
            f"{base}/+read/Invariants.antt": self.read_invariants(),
            f"{base}/+read/Answers.antt": self.read_answers(),
            f"{base}/+write/Invariants.antt": self.write_invariants(),
            f"{base}/+write/Answers.antt": self.write_answers(),
        }

    # ---- the code

    def source(self):
        s, k = self.snake, self.kind
        out = [f"//! The union `{self.shape}`, which holds others of its kind.", "//!",
               "//! No method of a trait calls itself through another type. So functions over the calls of readers and serializers, which call one",
               "//! another, read and write it. What falls is the number of containers that may still be opened, and how deep the value nests.",
               "ghost use Rattle.std.specs.Prelude.{◌≡◌, true, false, OnOk, IfErr, string_bytes};",
               "ghost use Rattle.smithy_shapes.specs.Site.{site_of};",
               "ghost use Rattle.smithy_declarations.specs.Value.{list, map as map_value, values_of, put_entry};",
               "ghost use Rattle.smithy_schema.specs.declared.error.SerdeError.TheVariants.{NoMemory};",
               "ghost use Rattle.smithy_schema.specs.Typed.{ReadsAs, ReadsVariant, WritesAs, variant_events};",
               "ghost use Rattle.smithy_schema.specs.Writing.{events};",
               "ghost use Rattle.smithy_typed.specs.Places.{IsListOf, IsMapOf};",
               "ghost use Rattle.smithy_typed.specs.Values.{list_with, map_with, entries_with};",
               f"ghost use Rattle.{self.spec}.{{{self.place}, {self.place}Member, {self.value}, {s}_values}};", "",
               "use smithy_schema::{Scalar, Schema, SerdeError, ShapeDeserializer, ShapeSerializer, ShapeType, Step, Target};",
               "use smithy_typed::{Typed, elements_under, keys_under, member_under, values_under};"]
        words = " ".join(self.type_of(r) for r in self.rows).replace("<", " ").replace(">", " ").replace(",", " ").split()
        scalars = [w for w in ("Blob", "DateTime", "Document") if w in words]
        if scalars:
            out += ["use smithy_types::{" + ", ".join(scalars) + "};"]
        if "BTreeMap" in words:
            out += ["use std::collections::BTreeMap;"]
        out += ["", f"/// {self.made.doc or 'The union `' + self.shape + '`.'}", "#[derive(Drop)]", f"pub enum {k} {{"]
        for row in self.rows:
            out += [f"    /// `{row[1].name}`" + (f": {row[1].doc}" if row[1].doc else "."), f"    {row[2]}({self.type_of(row)}),"]
        out += [f"    // `{name}` isn't here: {why}." for name, why in self.made.left_out] + ["}", ""]
        held = "".join(f"        let Some(at_{p}) = schema.member_at({p}) else {{\n            return false;\n        }};\n" for p in self.holding)
        rows = "".join(f'                ("{m.name}", ' + (f"at_{p}.target()" if inner else f"Target::Simple(Scalar::{self.crate_kind(m)})") + "),\n" for p, m, v, inner in self.rows)
        tests = "".join(f"        if !at_{p}.holds(ShapeType::{self.shape_type(inner)}, value) {{\n            return false;\n        }}\n" for p, m, v, inner in self.rows if inner)
        is_at = f"""        let value = schema.target();
{held}        let is_declared = schema.declares(
            ShapeType::Union,
            &[
{rows}            ],
        );
        if !is_declared {{
            return false;
        }}
{tests}        true"""
        out += self.crate.typed(self.shape, is_at.lstrip(), f"read_{s}(source, schema)", f"write_{s}(sink, schema, self)")
        out += ["", self.readers(), self.writers()]
        return "\n".join(out).rstrip() + "\n"

    def crate_kind(self, member):
        from crates import KINDS
        if member.target not in KINDS:
            raise Bad(f"{self.shape} holds itself: its member {member.name} isn't a scalar")
        return KINDS[member.target]

    def read_clauses(self, place, site, reads):
        return f"""    requires due {{ (D.state source.old).due ≡ true }}
    requires nulls {{ D.dispatches_nulls (D.settings source.old) ≡ false }}
    requires place {{ {place} (site_of {site}.now) }}
    ensures same {{ D.settings source.new ≡ D.settings source.old }}
    ensures reads {{ {reads} }}
"""

    def readers(self):
        s, k, v = self.snake, self.kind, self.value
        wire = "(D.reading (D.settings source.old)).wire (D.state source.old) (D.state source.new)"
        text = f"""// Reads the value that is due.
#[cycle(read)]
fn read_{s}<D: ShapeDeserializer>(source: &mut D, schema: &Schema<'_>) -> Result<{k}, SerdeError>
{self.read_clauses(self.place, "schema", f"ReadsAs {wire} (site_of schema.now) {v} result")}{{
    source.open_struct(schema)?;
    let Step::Member(member) = source.next_member(schema)? else {{
        source.fail();
        return Err(SerdeError::InvalidInput);
    }};
    let value = read_{s}_member(source, &member)?;
    let Step::End = source.next_member(schema)? else {{
        source.fail();
        return Err(SerdeError::InvalidInput);
    }};
    Ok(value)
}}

// Reads what is due as the member of the union that has this schema.
#[cycle(read)]
fn read_{s}_member<D: ShapeDeserializer>(source: &mut D, member: &Schema<'_>) -> Result<{k}, SerdeError>
{self.read_clauses(self.place + "Member", "member", f"ReadsVariant {wire} (site_of member.now) {v} result")}{{
    let position = member.member_index();
"""
        for row in self.rows:
            position, member, variant, inner = row
            call = f"read_{names.snake(member.target)}(source, member)?" if inner else f"{self.type_of(row)}::read_from(source, member)?"
            if position < self.last:
                text += f"    if position == Some({position}) {{\n        return Ok({k}::{variant}({call}));\n    }}\n"
            else:
                text += f"    Ok({k}::{variant}({call}))\n}}\n"
        for target in self.holding.values():
            inner = self.crate.model.shapes[target]
            own = "read_" + names.snake(target)
            if inner.kind == "list":
                text += f"""
// Reads the list of values that is due.
#[cycle(read)]
fn {own}<D: ShapeDeserializer>(source: &mut D, schema: &Schema<'_>) -> Result<Vec<{k}>, SerdeError>
{self.read_clauses(f"IsListOf {self.place}", "schema", f"ReadsAs {wire} (site_of schema.now) (list_with {v}) result")}{{
    let Some(inner) = schema.member() else {{
        unreachable!()
    }};
    source.open_list(schema)?;
    let mut values = Vec::new(source.allocator());
    while source.next_element()? {{
        let value = read_{s}(source, &inner)?;
        if let Err(error) = values.push(value) {{
            source.fail();
            return Err(SerdeError::from(error));
        }}
    }}
    Ok(values)
}}
"""
            else:
                text += f"""
// Reads the map of values that is due. Of equal keys the last counts.
#[cycle(read)]
fn {own}<D: ShapeDeserializer>(source: &mut D, schema: &Schema<'_>) -> Result<BTreeMap<String, {k}>, SerdeError>
{self.read_clauses(f"IsMapOf {self.place}", "schema", f"ReadsAs {wire} (site_of schema.now) (map_with {v}) result")}{{
    let Some(inner) = schema.member() else {{
        unreachable!()
    }};
    source.open_map(schema)?;
    let mut entries = BTreeMap::new(source.allocator());
    while let Some(key) = source.next_key()? {{
        let value = read_{s}(source, &inner)?;
        if let Err(error) = put_{s}(&mut entries, key, value) {{
            source.fail();
            return Err(error);
        }}
    }}
    Ok(entries)
}}
"""
        if any(self.crate.model.shapes[t].kind == "map" for t in self.holding.values()):
            text += f"""
// Puts a value at its key, in place of any before.
fn put_{s}(entries: &mut BTreeMap<String, {k}>, key: String, value: {k}) -> Result<(), SerdeError>
    ensures ok {{ OnOk result (entries_with {v} entries.new.entries ≡ put_entry (string_bytes key) ({v} value) (entries_with {v} entries.old.entries)) }}
    ensures err {{ IfErr result (λ e. e ≡ NoMemory) }}
{{
    entries.insert(key, value)?;
    Ok(())
}}
"""
        return text

    def write_clauses(self, calls):
        return f"""    requires sound {{ S.failed sink.old ≡ false }}
    ensures writes {{ WritesAs S.after ({calls}) (S.state sink.old) (S.failed sink.new) (S.state sink.new) result }}
"""

    def writers(self):
        s, k, v = self.snake, self.kind, self.value
        text = f"""
// Writes a value: a union of the one member that it is.
#[cycle(write)]
fn write_{s}<S: ShapeSerializer>(sink: &mut S, schema: &Schema<'_>, value: &{k}) -> Result<(), SerdeError>
{self.write_clauses(f"events (site_of schema.now) ({v} value.now)")}{{
    sink.begin_struct(schema)?;
    write_{s}_member(sink, schema, value)?;
    sink.end_struct()
}}

// Writes what a value holds, under the schema of its member.
#[cycle(write)]
fn write_{s}_member<S: ShapeSerializer>(sink: &mut S, schema: &Schema<'_>, value: &{k}) -> Result<(), SerdeError>
{self.write_clauses(f"variant_events (site_of schema.now) ({v} value.now)")}{{
    match value {{
"""
        for row in self.rows:
            position, member, variant, inner = row
            under = f"&member_under(schema, {position})"
            if inner is None:
                call = f"inside.write_to(sink, {under})"
            elif inner.kind == "list":
                call = f"write_{names.snake(member.target)}(sink, {under}, inside.as_slice())"
            else:
                call = f"write_{names.snake(member.target)}(sink, {under}, inside)"
            text += f"        {k}::{variant}(inside) => {call},\n"
        text += "    }\n}\n"
        for target in self.holding.values():
            inner = self.crate.model.shapes[target]
            own = "write_" + names.snake(target)
            if inner.kind == "list":
                text += f"""
// Writes a list of values.
#[cycle(write)]
fn {own}<S: ShapeSerializer>(sink: &mut S, schema: &Schema<'_>, values: &[{k}]) -> Result<(), SerdeError>
{self.write_clauses(f"events (site_of schema.now) (list (values_of ({s}_values values.now)))")}{{
    let element_schema = elements_under(schema);
    sink.begin_list(schema, Some(values.len()))?;
    for value in values {{
        write_{s}(sink, &element_schema, value)?;
    }}
    sink.end_list()
}}
"""
            else:
                text += f"""
// Writes a map of values, in the order of the bytes of its keys.
#[cycle(write)]
fn {own}<S: ShapeSerializer>(sink: &mut S, schema: &Schema<'_>, entries: &BTreeMap<String, {k}>) -> Result<(), SerdeError>
{self.write_clauses(f"events (site_of schema.now) (map_value (entries_with {v} entries.now.entries))")}{{
    let key_schema = keys_under(schema);
    let value_schema = values_under(schema);
    sink.begin_map(schema, Some(entries.len()))?;
    let mut left = entries.iter();
    while let Some((key, value)) = left.next() {{
        sink.write_string(&key_schema, key.as_str())?;
        write_{s}(sink, &value_schema, value)?;
    }}
    sink.end_map()
}}
"""
        return text

    # ---- definitions

    def specs(self):
        s, k, v = self.snake, self.kind, self.value
        ts = self.targets()
        arrows = "Target → " * len(ts)
        steps = ""
        for position, member, variant, inner in self.rows:
            inside = f"{self.crate.value(member.target)} x" if inner is None else ("list (values_of x.items)" if inner.kind == "list" else "map_value (entries_with (λ v. v) x.entries)")
            steps += f"{s}_step ({k}-F.{variant} x) = union {position} ({inside})\n"
        rows = " ∷ ".join(f'(codes "{m.name}", ' + (f"at_{p}" if inner else f"Simple scalars.{self.crate_kind(m)}") + ")" for p, m, _, inner in self.rows) + " ∷ []"
        held = "".join(f"  pub holds_{p} : Holds table at_{p} types.{self.shape_type(inner)} value\n" for p, _, _, inner in self.rows if inner)
        product = "".join(f"(at_{p} : Target) × " for p in self.holding)
        values = [w for w in ("text_value", "bytes_value", "boolean_value", "whole_value", "instant_value", "open_value") if any(self.crate.value(m.target) == w for _, m, _, i in self.rows if i is None)]
        return f"-- The union {self.shape}, which holds others of its kind.\n" + uses(
            "std.specs.Prelude.{◌≡◌, ℕ, List, [], ◌∷◌, map as mapped, Some, codes}",
            "smithy_declarations.specs.declared.place.Target.{Target}",
            "smithy_declarations.specs.declared.place.Target.TheVariants.{Simple}",
            "smithy_declarations.specs.declared.shape_type.Scalar.TheVariants as scalars",
            "smithy_declarations.specs.declared.shape_type.ShapeType.TheVariants as types",
            "smithy_declarations.specs.Table.{Table, type_of, members_of, kind_of_target}",
            "smithy_declarations.specs.Value.{Value, list, map as map_value, union, values_of}",
            "smithy_shapes.specs.Declares.{row_of, Holds}",
            "smithy_shapes.specs.Site.{Site, member_site}",
            "smithy_typed.specs.Values.{entries_with" + "".join(", " + w for w in values) + "}",
            f"{self.crate.name}.specs.declared.{self.module}.{k} as kept",
            f"{self.crate.name}.specs.declared.{self.module}.{k}.TheOpen.{{{k}-F}}") + f"""
-- one level, with each value inside already seen as what it is in a body
abbrev pub {s}_step : {k}-F Value → Value
{steps}
abbrev pub {v} : kept.{k} → Value
{v} = kept.fold-{k} Value {s}_step

abbrev pub {s}_values : List kept.{k} → List Value
{s}_values vs = mapped {v} vs

abbrev pub {s}_members : {arrows}List (List ℕ × Target)
{s}_members {" ".join(ts)} = {rows}

-- A table has these declarations: the union, and the lists and maps of it that are its members. None of them holds nulls.
pub record Are{k} (table : Table) (value {" ".join(ts)} : Target) : Type 0 where
  pub is_union : type_of (kind_of_target table value) ≡ Some types.Union
  pub members : mapped row_of (members_of (kind_of_target table value)) ≡ {s}_members {" ".join(ts)}
{held}
-- such a union is there
abbrev pub Is{k} : Site → Type 0
Is{k} site = {product}Are{k} site.table site.place.target {" ".join(ts)}

-- a member of such a union is there
abbrev pub Is{k}Member : Site → Type 0
Is{k}Member site = (outer : Site) × (n : ℕ) × Is{k} outer × (member_site outer n ≡ Some site)
"""

    # ---- lemmas

    def views(self):
        s, k, v = self.snake, self.kind, self.value
        text, cases = "", ""
        for position, member, variant, inner in self.rows:
            if inner is None:
                view, where = self.crate.value(member.target), "variants"
                of = {"text_value": "String Global", "bytes_value": "List ℕ", "boolean_value": "Bool", "whole_value": "ℤ", "instant_value": "ℤ", "open_value": "Document"}[view]
                more = ""
            elif inner.kind == "list":
                view, where, of, more = f"list_with {v}", "views", f"Vec kept.{k} Global", ""
            else:
                view, where, of = f"map_with {v}", "views", f"BTreeMap (String Global) kept.{k}"
                more = f" ∙ ap (λ es. union {position} (map_value es)) (entries_seen {v} x.entries)"
            text += f"""pub view-{variant} : (x : {of}) → {v} ({where}.{variant} x) ≡ union {position} ({view} x)
view-{variant} x = ap {v} (sym ({where}.rolls-{variant} x)) ∙ fold-roll-{k} Value {s}_step ({k}-F.{variant} x){more}

"""
            inside = f"{self.crate.value(member.target)} x" if inner is None else ("list (values_of x.items)" if inner.kind == "list" else "map_value (entries_with (λ v. v) x.entries)")
            cases += f"step_union z ({k}-F.{variant} x) is = ({position}, {inside}, is)\n"
        words = "".join(", " + w for w in ("text_value", "bytes_value", "boolean_value", "whole_value", "instant_value", "open_value") if w in text)
        return f"-- What the variants of {k} are in a body.\n" + uses(
            "std.proofs.Common.{◌≡◌, Bool, List, ℕ, ℤ, String, Vec, Global, sym, ◌∙◌, ap}",
            "std.specs.BTreeMap.{BTreeMap}",
            "smithy_declarations.specs.Value.{Value, list, map as map_value, union, values_of}",
            "smithy_typed.specs.Values.{entries_with, list_with, map_with" + words + "}",
            "smithy_typed.proofs.Containers.{entries_seen}",
            f"{self.spec}.{{{s}_step, {v}}}",
            f"{self.crate.name}.specs.declared.{self.module}.{k} as kept",
            f"{self.crate.name}.specs.declared.{self.module}.{k}.TheOpen.{{{k}-F}}",
            f"{self.crate.name}.specs.declared.{self.module}.{k}.TheFolds.{{fold-roll-{k}, fold_out-{k}}}",
            f"{self.crate.name}.specs.declared.{self.module}.{k}.TheViews as views",
            f"{self.crate.name}.specs.declared.{self.module}.{k}.TheVariants as variants") + f"""
{text}-- each is a union of one member
step_union : (z : Value) (y : {k}-F Value) → z ≡ {s}_step y → (n : ℕ) × (v : Value) × (z ≡ union n v)
{cases}
pub is_union : (x : kept.{k}) → (n : ℕ) × (v : Value) × ({v} x ≡ union n v)
is_union x = step_union ({v} x) _ (fold_out-{k} Value {s}_step x)
"""

    def tuple_of(self, *words):
        return "(" + ", ".join(words) + ")"

    def places(self):
        s, k = self.snake, self.kind
        ts = self.targets()
        bound = " ".join(ts)
        pattern = self.tuple_of(*ts, "are")
        told = "".join(f" → member_site site {p} ≡ Some in_{p}" for p in self.holding)
        inner = " ".join(f"in_{p}" for p in self.holding)
        here = ""
        for p in self.holding:
            here += f"    let here_{p} = sym (target_there types.Union _ site all {p} in_{p} told_{p} at_{p} refl) in\n"
        substs, term = list(self.holding), "are"
        done = []
        for p in substs:
            args = " ".join(("t" if q == p else (f"in_{q}.place.target" if q in done else f"at_{q}")) for q in substs)
            term = f"subst (λ t. Are{k} site.table site.place.target {args}) here_{p} ({term})" if term != "are" else f"subst (λ t. Are{k} site.table site.place.target {args}) here_{p} are"
            done.append(p)
        fields = "".join(f"  pub at_{p} : Target\n" for p in self.holding)
        made = "".join(f"      at_{p} = at_{p};\n" for p in self.holding)
        text = f"""union_at : (table : Table) (inner : Site) (value {bound} : Target) → inner.table ≡ table → inner.place.target ≡ value → Are{k} table value {bound} → Is{k} inner
union_at table inner value {bound} same there are =
    {self.tuple_of(*ts, f"subst (λ v. Are{k} inner.table v {bound}) (sym there) (subst (λ t. Are{k} t value {bound}) (sym same) are)")}

pub {s}_union : (site : Site) → Is{k} site → IsUnion (kind_at site)
{s}_union site {pattern} = union_type (kind_at site) are.is_union

-- the union as the table declares it
pub declared : (site : Site) ({bound} : Target) → Are{k} site.table site.place.target {bound} → Declares types.Union ({s}_members {bound}) site
declared site {bound} are = record {{ kind = are.is_union; members = are.members }}

-- the targets are those of its members
pub told_by_sites : (site {inner} : Site){told} → Is{k} site → Are{k} site.table site.place.target {" ".join(f"in_{p}.place.target" for p in self.holding)}
told_by_sites site {inner} {" ".join(f"told_{p}" for p in self.holding)} {pattern} =
    let all = declared site {bound} are in
{here}    {term}

-- what is known of a member: which it is
pub record Variant (member : Site) (n : ℕ) : Type 0 where
  pub index : member.view.index ≡ Some n
  pub value : Target
{fields}  pub are : Are{k} member.table value {bound}
  pub target : (t : Target) → option_map (λ (row : List ℕ × Target). row.1) (slice_get ({s}_members {bound}) n) ≡ Some t → member.place.target ≡ t

allowed : (member : Site) → Is{k}Member member → (outer : Site) × Is{k} outer × IsMemberOf outer (Some member)
allowed member (outer, n, is, told) = (outer, is, (n, told))

pub variant_at : (member : Site) (i : ℕ) → Is{k}Member member → member.view.index ≡ Some i → Variant member i
variant_at member i is index =
    let (outer, {pattern}, told) = at_index Is{k} member (allowed member is) i index in
    record {{
      index = index;
      value = outer.place.target;
{made}      are = subst (λ t. Are{k} t outer.place.target {bound}) (sym (site_told outer i member told).0) are;
      target = target_there types.Union ({s}_members {bound}) outer (declared outer {bound} are) i member told;
    }}

count : (outer : Site) → Is{k} outer → length (members_of (kind_at outer)) ≡ {len(self.rows)}
count outer {pattern} = count_of types.Union ({s}_members {bound}) outer (declared outer {bound} are)

-- the last member is none of those before it
pub last_variant : (member : Site) → Is{k}Member member → IsBehind {self.last} member.view.index → member.view.index ≡ Some {self.last}
last_variant member is behind = at_last Is{k} member (allowed member is) {self.last} count behind
"""
        for p, member, variant, inner in self.rows:
            if inner is None:
                continue
            what = self.shape_type(inner)
            args = " ".join("member.place.target" if q == p else f"v.at_{q}" for q in self.holding)
            other = " ".join("t" if q == p else f"v.at_{q}" for q in self.holding)
            fields = "is_list" if what == "List" else "is_map"
            element, is_element = ("element", "is_element") if what == "List" else ("value", "is_value")
            text += f"""
-- the {inner.kind} at position {p}
pub place_{p} : (member : Site) → Variant member {p} → Is{what}Of Is{k} member
place_{p} member v =
    let are = subst (λ t. Are{k} member.table v.value {other}) (sym (v.target v.at_{p} refl)) v.are in
    let (inner, inside, same, there) = held_inside member types.{what} v.value are.holds_{p} in
    record {{
      {fields} = are.holds_{p}.kind;
      dense = are.holds_{p}.dense;
      {element} = inner;
      inside = inside;
      {is_element} = union_at member.table inner v.value {args} same there are;
    }}
"""
        return f"-- Where values of {k} are: the union, its members, and the lists and maps of it.\n" + uses(
            "std.proofs.Common.{◌≡◌, ℕ, List, length, Some, option_map, refl, sym, subst}",
            "std.specs.List.{slice_get}",
            "smithy_declarations.specs.declared.place.Target.{Target}",
            "smithy_declarations.specs.declared.shape_type.ShapeType.TheVariants as types",
            "smithy_declarations.specs.Table.{Table, members_of, IsUnion}",
            "smithy_shapes.specs.Site.{Site, kind_at, member_site}",
            "smithy_shapes.specs.Declares.{Declares}",
            "smithy_schema.specs.Consuming.{IsMemberOf}",
            "smithy_schema.proofs.ReadStructures.{site_told}",
            "smithy_schema.proofs.DeclaredMembers.{union_type, target_there, count_of, at_index, at_last, IsBehind}",
            "smithy_typed.specs.Places.{IsListOf, IsMapOf}",
            "smithy_typed.proofs.Containers.{held_inside}",
            f"{self.spec}.{{{s}_members, Are{k}, Is{k}, Is{k}Member}}") + "\n" + text

    # ---- answers

    def is_at_answers(self):
        s, k = self.snake, self.kind
        sites = ""
        for index, p in enumerate(self.holding):
            name = "in-Some" + ("" if index == 0 else "-member_at") + (f"-{index}" if index > 1 else "")
            sites += f"    let in_{p} = site_of c.{name}.at_{p} in\n    let told_{p} : member_site site {p} ≡ Some in_{p} = sym c.{name}.ensures in\n"
        told = "told_by_sites site " + " ".join(f"in_{p}" for p in self.holding) + " " + " ".join(f"told_{p}" for p in self.holding)
        rows = " ".join(f"in_{p}.place.target" for p in self.holding)
        inner = [(p, i) for p, _, _, i in self.rows if i is not None]
        text = f"""pub returns-then-not-is_declared : goal.returns-then-not-is_declared
returns-then-not-is_declared c =
    let site = site_of c.args.schema.now in
{sites}    let test : IsTrue false ↔ Declares types.Union ({s}_members {rows}) site = search rules in
    (λ never. cc, λ is. test.1 (declared site {rows} ({told} is)))
"""
        for index, (p, shape) in enumerate(inner):
            name = "returns-then-not-holds" + (f"-{index + 1}" if index else "")
            text += f"""
pub {name} : goal.{name}
{name} c =
    let site = site_of c.args.schema.now in
{sites}    let test : IsTrue false ↔ Holds in_{p}.table in_{p}.place.target types.{self.shape_type(shape)} site.place.target = search rules in
    (λ never. cc, λ is. test.1 (held_at site in_{p} {p} types.{self.shape_type(shape)} told_{p} ({told} is).holds_{p}))
"""
        lets = "".join(f"    let held_{p} : Holds in_{p}.table in_{p}.place.target types.{self.shape_type(shape)} site.place.target = search rules in\n" for p, shape in inner)
        record = "".join(f" holds_{p} = held_in site in_{p} {p} types.{self.shape_type(shape)} told_{p} held_{p};" for p, shape in inner)
        text += f"""
pub returns : goal.returns
returns c =
    let site = site_of c.args.schema.now in
{sites}    let all : Declares types.Union ({s}_members {rows}) site = search rules in
{lets}    (
      λ holds. ({", ".join(f"in_{p}.place.target" for p in self.holding)}, record {{ is_union = all.kind; members = all.members;{record} }}),
      λ is. refl,
    )
"""
        return uses(
            "std.proofs.Common.{◌≡◌, ◌↔◌, IsTrue, false, Some, rules, refl, sym}",
            "smithy_declarations.specs.declared.shape_type.ShapeType.TheVariants as types",
            "smithy_shapes.specs.Site.{site_of, member_site}",
            "smithy_shapes.specs.Declares.{Declares, Holds}",
            "smithy_typed.proofs.Containers.{held_in, held_at}",
            f"{self.spec}.{{{s}_members}}",
            f"{self.crate.name}.proofs.{k}Places.{{declared, told_by_sites}}",
            f"{self.crate.name}.proofs.{self.module}.{k}Typed.is_at.Goals as goal") + "\n" + text

    def measures(self, least):
        d = "let d = g.D.ShapeDeserializer in"
        return f"""{d}
    2 * ((d.reading (d.settings l.source.now)).max_depth - depth (d.state l.source.now)){" + 1" if not least else ""}"""

    def read_invariants(self):
        s, v = self.snake, self.value
        owns = [(f"read_{names.snake(t)}", self.crate.model.shapes[t].kind) for t in self.holding.values()]
        text = ""
        for name, least in [(f"read_{s}", True), (f"read_{s}_member", False)] + [(own, True) for own, _ in owns]:
            text += f"abbrev pub decreases-{name} : goal.decreases-{name}\ndecreases-{name} g l =\n    {self.measures(least)}\n\n"
        for own, kind in owns:
            name, kept = ("values", f"list_value (is_sparse (kind_of l.schema.shapes.now l.schema.place)) (mapped {v} l.values.items)") if kind == "list" else ("entries", f"map_value (is_sparse (kind_of l.schema.shapes.now l.schema.place)) (entries_with {v} l.entries.entries)")
            text += f"""-- what was read
abbrev pub invariant-{own}-loop-{name} : goal.invariant-{own}-loop-{name}
invariant-{own}-loop-{name} g l =
    let d = g.D.ShapeDeserializer in
    let c = d.settings l.fn.source in
    record {{
      same : d.settings l.source ≡ d.settings l.fn.source;
      half : InContainer (d.reading c).wire (d.reading c).wire (d.reading c).max_depth (d.state l.fn.source) (d.state l.source) l.schema.shapes.now l.schema.place in_{kind} ({kept});
    }}

abbrev pub decreases-{own}-loop-{name} : goal.decreases-{own}-loop-{name}
decreases-{own}-loop-{name} g l =
    let d = g.D.ShapeDeserializer in
    let s = d.state l.source in
    (d.reading (d.settings l.source)).wire.left s.input s.at s.inner.mark

"""
        return uses(
            "std.proofs.Common.{◌≡◌, ◌+◌, ◌*◌, ◌-◌, map as mapped}",
            "smithy_schema.specs.Reading.{depth, in_list, in_map}",
            "smithy_declarations.specs.Table.{kind_of, is_sparse}",
            "smithy_schema.proofs.ReadContainers.{InContainer}",
            "smithy_schema.proofs.ReadLists.{list_value}",
            "smithy_schema.proofs.ReadMaps.{map_value}",
            "smithy_typed.specs.Values.{entries_with}",
            f"{self.spec}.{{{v}}}",
            f"{self.crate.name}.proofs.{self.module}.+read.Given as goal") + "\n-- twice the containers that may still be opened\n" + text.rstrip() + "\n"

    def member_answers(self):
        """The answers of the function that reads a union's member."""
        f, v = f"read_{self.snake}_member", self.value
        head = """    let d = g.D.ShapeDeserializer in
    let s0 = d.settings c.args.source.now in
    let member = site_of c.args.member.now in
"""
        text, scalars, residuals = "", 0, 0
        for row in self.rows:
            position, member, variant, inner = row
            if inner is None:
                scalars += 1
                call = "read_from" + (f"-{scalars}" if scalars > 1 else "")
                made, place = f"variants.{variant}", f"v.target (Simple scalars.{self.crate_kind(member)}) refl"
            else:
                call = "read_" + names.snake(member.target)
                made, place = f"views.{variant}", f"place_{position} member v"
            residual = f"c.from_residual{'' if residuals == 0 else f'-in_err-{call}'}"
            residuals += 1
            if position < self.last:
                index = f"    let index : member.view.index ≡ Some {position} = search rules in\n"
                back = "returns-then-eq" + (f"-{position + 1}" if position else "")
            else:
                index = "".join(f"    let not_{n} : member.view.index ≢ Some {n} = search rules in\n" for n in range(self.last))
                behind = "tt"
                for n in range(self.last):
                    behind = f"(not_{n}, {behind})"
                index += f"    let index = last_variant member c.requires.place {behind} in\n"
                back = "returns"
            at = f"    let v = variant_at member {position} c.requires.place index in\n"
            if inner is None:
                asks = f"{f}-read_from-requires" + (f"-{scalars}" if scalars > 1 else "")
                text += f"""pub {asks} : goal.{asks}
{asks} g t c =
{head}{index}{at}    record {{ due = c.requires.due; nulls = c.requires.nulls; there = {place} }}

"""
            else:
                text += f"""pub {f}-{call}-requires : goal.{f}-{call}-requires
{f}-{call}-requires g t c κs within =
{head}{index}{at}    (omega (arith, c.decreases), (search rules, (c.requires.due, (c.requires.nulls, {place}))))

"""
            text += f"""pub {f}-returns-in_err-{call}-clause-reads : goal.{f}-returns-in_err-{call}-clause-reads
{f}-returns-in_err-{call}-clause-reads g t c =
{head}    let p = err_from_is_err_and {residual}.result {residual}.ensures.1 in
    rw (p.1, p.2) (inner_fails {self.view(row)} {v} (d.reading s0).wire _ _ member _ c.in_err-{call}.ensures.reads)

pub {f}-{back}-clause-reads : goal.{f}-{back}-clause-reads
{f}-{back}-clause-reads g t c =
{head}{index}    inner_variant {self.view(row)} {v} (d.reading s0).wire _ _ member {position} _ ({made} c.in_ok-{call}.field-0) index c.in_ok-{call}.ensures.reads (view-{variant} c.in_ok-{call}.field-0)

"""
        return text

    def read_answers(self):
        s, k, v = self.snake, self.kind, self.value
        words = {"read": f"read_{s}", "put": f"put_{s}", "value": v, "Is": self.place, "union": f"{s}_union"}
        text = template("read_union", **words) + "\n" + self.member_answers()
        for target in self.holding.values():
            text += template("read_" + self.crate.model.shapes[target].kind, own="read_" + names.snake(target), **words) + "\n"
        views = "".join(f", view-{variant}" for _, _, variant, _ in self.rows)[2:]
        places = "".join(f", place_{p}" for p in self.holding)
        values = "".join(", " + w for w in ("text_value", "bytes_value", "boolean_value", "whole_value", "instant_value", "open_value") if w in text)
        return uses(
            "std.proofs.Common.{◌≡◌, ◌≢◌, ap, arith, rules, refl, ◌∙◌, [], ◌∷◌, suc, length, Some, string_bytes}",
            "std.proofs.lemmas.List.{map-append}",
            "std.proofs.lemmas.Result.{err_from_is_err_and}",
            "smithy_declarations.specs.declared.shape_type.Scalar.TheVariants as scalars",
            "smithy_declarations.specs.declared.place.Target.TheVariants.{Simple}",
            "smithy_shapes.specs.Site.{site_of, kind_at}",
            "smithy_schema.specs.Reading.{Cursor, depth}",
            "smithy_schema.proofs.ReadContainers.{itself}",
            "smithy_schema.proofs.ReadLists.{begin_list, list_contains}",
            "smithy_schema.proofs.ReadMaps.{begin_map, map_contains}",
            "smithy_schema.proofs.ReadUnions.{begin_union, union_contains, union_has_members, no_first, no_end}",
            "smithy_schema.proofs.HalfRead.{fails, unkept, not_opened, goes_no_further, ends, element_passed, element_fails, list_falls, entry_passed, entry_fails, map_falls, behind_variant, variant_fails, inner_variant, inner_fails}",
            "smithy_schema.proofs.AnsweredErrors.{broke_inside, was_read}",
            "smithy_typed.specs.Values.{list_with, map_with" + values + "}",
            "smithy_typed.proofs.Containers.{elements_list, elements_there, elements_inside, entries_map, entries_there, entries_inside}",
            f"{self.spec}.{{{self.place}, {v}}}",
            f"{self.crate.name}.specs.declared.{self.module}.{k}.TheVariants as variants",
            f"{self.crate.name}.specs.declared.{self.module}.{k}.TheViews as views",
            f"{self.crate.name}.proofs.{k}Views.{{{views}}}",
            f"{self.crate.name}.proofs.{k}Places.{{{s}_union, variant_at, last_variant{places}}}",
            f"{self.crate.name}.proofs.{self.module}.+read.Goals as goal") + "\n" + text.rstrip() + "\n"

    def write_invariants(self):
        s, v = self.snake, self.value
        text = f"""-- twice the containers that are inside of one another
abbrev pub decreases-write_{s} : goal.decreases-write_{s}
decreases-write_{s} g l = 2 * nesting ({v} l.value.now) + 1

abbrev pub decreases-write_{s}_member : goal.decreases-write_{s}_member
decreases-write_{s}_member g l = 2 * nesting ({v} l.value.now)

"""
        for target in self.holding.values():
            own = "write_" + names.snake(target)
            if self.crate.model.shapes[target].kind == "list":
                text += f"""abbrev pub decreases-{own} : goal.decreases-{own}
decreases-{own} g l = 2 * nesting (list (values_of (mapped {v} l.values.now)))

-- what the rest of the list comes to, the list comes to
abbrev pub invariant-{own}-loop-value : goal.invariant-{own}-loop-value
invariant-{own}-loop-value g l =
    let sink = g.S.ShapeSerializer in
    let site = site_of l.schema in
    let all = mapped {v} l.values in
    let now = mapped {v} (drop l.value-index l.values) in
    record {{
      sound : sink.failed l.sink ≡ false;
      rest : (r : Result sink.State SerdeError) → Runs sink.after (element_events (element_of site) (values_of now) ++ end_list ∷ []) (sink.state l.sink) r
          → Runs sink.after (events site (list (values_of all))) (sink.state l.fn.sink) r;
      nests : elements_nesting (values_of now) ≤ elements_nesting (values_of all);
    }}

"""
            else:
                text += f"""abbrev pub decreases-{own} : goal.decreases-{own}
decreases-{own} g l = 2 * nesting (map_value (entries_with {v} l.entries.now.entries))

-- what the rest of the map comes to, the map comes to
abbrev pub invariant-{own}-loop-key : goal.invariant-{own}-loop-key
invariant-{own}-loop-key g l =
    let sink = g.S.ShapeSerializer in
    let site = site_of l.schema in
    record {{
      sound : sink.failed l.sink ≡ false;
      rest : (r : Result sink.State SerdeError) → Runs sink.after (entry_events (key_of site) (value_of site) (entries_with {v} l.left) ++ end_map ∷ []) (sink.state l.sink) r
          → Runs sink.after (events site (map_value (entries_with {v} l.entries.entries))) (sink.state l.fn.sink) r;
      nests : entries_nesting (entries_with {v} l.left) ≤ entries_nesting (entries_with {v} l.entries.entries);
    }}

abbrev pub decreases-{own}-loop-key : goal.decreases-{own}-loop-key
decreases-{own}-loop-key g l = length l.left

"""
        return uses(
            "std.proofs.Common.{◌≡◌, ◌≤◌, ◌+◌, ◌*◌, ◌++◌, [], ◌∷◌, false, drop, length, map as mapped, Result}",
            "smithy_schema.specs.declared.error.SerdeError.{SerdeError}",
            "smithy_shapes.specs.Site.{site_of, element_of, key_of, value_of}",
            "smithy_declarations.specs.Value.{list, map as map_value, values_of, nesting, elements_nesting, entries_nesting}",
            "smithy_schema.specs.Writing.{events, element_events, entry_events, end_list, end_map}",
            "smithy_schema.specs.Written.{Runs}",
            "smithy_typed.specs.Values.{entries_with}",
            f"{self.spec}.{{{v}}}",
            f"{self.crate.name}.proofs.{self.module}.+write.Given as goal") + "\n" + text.rstrip() + "\n"

    def variant_answers(self):
        """The answers of the function that writes what a value holds."""
        f, v = f"write_{self.snake}_member", self.value
        text, scalars = "", 0
        for position, member, variant, inner in self.rows:
            held = f"c.in-{variant}"
            under = "c.member_under" + (f"-in-{variant}" if position else "")
            back = f"pub {f}-returns-in-{variant} : goal.{f}-returns-in-{variant}\n{f}-returns-in-{variant} g t c =\n    let s = g.S.ShapeSerializer in\n    let first = s.state c.args.sink.now in\n"
            if inner is None:
                call = "c.write_to" + (f"-in-{variant}" if scalars else "")
                scalars += 1
                seen, rewrite = f"{self.crate.value(member.target)} {held}.inside", ""
            else:
                call = "c.write_" + names.snake(member.target)
                deep = f"    let deep = ap nesting (ap {v} {held}.is ∙ view-{variant} {held}.inside) in\n"
                own = f"write_{names.snake(member.target)}"
                if inner.kind == "list":
                    seen, rewrite = f"list (values_of (mapped {v} c.as_slice.result.now))", ", ← c.as_slice.ensures.value"
                    deep += f"    let same = ap (λ vs. nesting (list (values_of (mapped {v} vs)))) c.as_slice.ensures.value in\n"
                    facts = "arith, deep, same, c.decreases"
                else:
                    seen, rewrite, facts = f"map_value (entries_with {v} {held}.inside.entries)", "", "arith, deep, c.decreases"
                text += f"""pub {f}-{own}-requires : goal.{f}-{own}-requires
{f}-{own}-requires g t c κs within =
{deep}    (omega ({facts}), (search rules, c.requires.sound))

"""
            text += back + f"""    record {{
      writes = rw ({held}.is, view-{variant} {held}.inside{rewrite})
          (subst (λ at. WritesAs s.after (events at ({seen})) first (s.failed {call}.new.sink) (s.state {call}.new.sink) {call}.result) {under}.ensures {call}.ensures.writes);
    }}

"""
        return text

    def write_answers(self):
        s, k, v = self.snake, self.kind, self.value
        words = {"write": f"write_{s}", "value": v, "is_union": "is_union"}
        text = template("write_union", **words) + "\n" + self.variant_answers()
        for target in self.holding.values():
            text += template("write_" + self.crate.model.shapes[target].kind, own="write_" + names.snake(target), **words) + "\n"
        views = "".join(f", view-{variant}" for _, _, variant, _ in self.rows)
        values = "".join(", " + w for w in ("text_value", "bytes_value", "boolean_value", "whole_value", "instant_value", "open_value") if w in text)
        return uses(
            "std.proofs.Common.{◌≡◌, ap, subst, arith, rules, refl, ◌∙◌, ◌+◌, [], drop, length, map as mapped, string_bytes}",
            "std.proofs.lemmas.Result.{err_from_is_err_and}",
            "std.proofs.lemmas.List.{drop_all}",
            "smithy_shapes.specs.Site.{site_of, element_of, key_of, value_of}",
            "smithy_declarations.specs.Value.{nesting, list, map as map_value, values_of, map_entry}",
            "smithy_schema.specs.Writing.{events, end_structure, end_list, end_map}",
            "smithy_schema.specs.Typed.{WritesAs}",
            "smithy_schema.proofs.WrittenFields.{called, not_had, has_broken}",
            "smithy_schema.proofs.WrittenLemmas.{not_failed}",
            "smithy_schema.proofs.WrittenLists.{next_element, element_nests}",
            "smithy_schema.proofs.HalfWritten.{first_fails, union_fails, union_ends, list_fails, list_begun, element_fails, element_goes, map_fails, map_begun, key_fails, value_fails, entry_goes, entry_nests}",
            "smithy_typed.specs.Values.{entries_with" + values + "}",
            "smithy_typed.proofs.Containers.{counts}",
            f"{self.spec}.{{{v}}}",
            f"{self.crate.name}.proofs.{k}Views.{{is_union{views}}}",
            f"{self.crate.name}.proofs.{self.module}.+write.Goals as goal") + "\n" + text.rstrip() + "\n"

"""Shapes of a Smithy model (JSON AST) or of a service-2.json, as a table has them (docs/TABLES.md)."""
import gzip
import html
import json
import re

SCALARS = {
    "string": "string", "blob": "blob", "boolean": "boolean", "byte": "byte", "short": "short",
    "integer": "integer", "long": "long", "bigInteger": "bigInteger", "bigDecimal": "bigDecimal",
    "timestamp": "timestamp", "document": "document", "enum": "string", "intEnum": "integer",
}
FLOATS = {"float", "double"}
WORDS = set(SCALARS.values()) | FLOATS | {"float", "double"}


class Bad(Exception):
    """What is wrong with the input, in a sentence."""


class Member:
    def __init__(self, name, target, doc=None, options=()):
        self.name, self.target, self.doc, self.options = name, target, doc, list(options)


class Shape:
    """A structure, a union, a list or a map; of a list or a map `target` is what is inside."""

    def __init__(self, name, kind, doc=None):
        self.name, self.kind, self.doc = name, kind, doc
        self.members, self.left_out = [], []
        self.target, self.sparse, self.options = None, False, []


class Model:
    """Shapes by name, and operations: a name, an input and an output, each a shape's name or None."""

    def __init__(self, service):
        self.service = service
        self.shapes, self.operations = {}, {}


def plain(text, limit=160):
    """The first sentence of a documentation text, without its marks."""
    if not text:
        return None
    text = html.unescape(re.sub(r"<[^>]*>", " ", text))
    text = " ".join(text.split()).replace("`", "'")
    text = re.sub(r" ([.,;:)])", r"\1", text)
    first = re.split(r"(?<=[.!?]) ", text, maxsplit=1)[0]
    if len(first) > limit:
        first = first[:limit].rsplit(" ", 1)[0].rstrip(".,;:") + " .."
    return first or None


def load(path):
    try:
        data = open(path, "rb").read()
    except OSError as error:
        raise Bad(f"{path}: {error.strerror}")
    try:
        if data[:2] == b"\x1f\x8b":
            data = gzip.decompress(data)
        tree = json.loads(data)
    except (ValueError, OSError, EOFError):
        raise Bad(f"{path}: not JSON")
    if isinstance(tree, dict) and "smithy" in tree and isinstance(tree.get("shapes"), dict):
        return smithy_model(tree)
    if isinstance(tree, dict) and isinstance(tree.get("shapes"), dict) and "operations" in tree:
        return service_model(tree)
    raise Bad(f"{path}: neither a Smithy model nor a service-2.json")


# ---- service-2.json

TIMES = {"iso8601": "date-time", "rfc822": "http-date", "unixTimestamp": "epoch-seconds"}
OUTSIDE = {"header", "headers", "uri", "querystring", "statusCode"}


def service_model(tree):
    meta = tree.get("metadata", {})
    model = Model(meta.get("serviceId") or meta.get("serviceFullName") or "the service")
    json_names = meta.get("protocol") in ("json", "rest-json")
    rest = str(meta.get("protocol", "")).startswith("rest-")
    raw = tree["shapes"]
    roots = set()
    for name, operation in tree["operations"].items():
        parts = [operation.get(part, {}).get("shape") for part in ("input", "output")]
        model.operations[name] = tuple(parts)
        roots.update(part for part in parts if part)

    def target(reference):
        shape = raw.get(reference["shape"])
        if shape is None:
            raise Bad(f"no shape {reference['shape']}")
        kind = shape["type"]
        if kind == "structure" and shape.get("document"):
            return "document"
        if kind in ("structure", "list", "map"):
            return reference["shape"]
        if kind == "character":
            return "string"
        if kind in FLOATS or kind in SCALARS:
            return kind
        raise Bad(f"{reference['shape']}: no such type: {kind}")

    def time_of(reference):
        name = reference.get("timestampFormat")
        if name is None:
            name = raw[reference["shape"]].get("timestampFormat")
        return [f"time={TIMES[name]}"] if name in TIMES else []

    for name, shape in raw.items():
        kind = shape["type"]
        if kind == "structure" and not shape.get("document"):
            made = Shape(name, "union" if shape.get("union") else "structure", plain(shape.get("documentation")))
            for key, reference in shape.get("members", {}).items():
                inner = raw.get(reference["shape"], {})
                if inner.get("eventstream"):
                    made.left_out.append((key, "an event stream"))
                    continue
                if rest and name in roots and reference.get("location") in OUTSIDE:
                    made.left_out.append((key, "outside of the body"))
                    continue
                options = []
                location = reference.get("locationName")
                is_flat = inner.get("type") in ("list", "map") and (reference.get("flattened") or inner.get("flattened"))
                if is_flat and inner.get("type") == "list":
                    location = inner["member"].get("locationName", location)
                if location:
                    options.append(("json=" if json_names else "xml=") + location)
                if is_flat:
                    options.append("flat")
                if inner.get("type") == "timestamp":
                    options += time_of(reference)
                made.members.append(Member(key, target(reference), plain(reference.get("documentation") or inner.get("documentation")), options))
            model.shapes[name] = made
        elif kind == "list":
            made = Shape(name, "list")
            made.target, made.sparse = target(shape["member"]), bool(shape.get("sparse"))
            if shape["member"].get("locationName") and not json_names:
                made.options.append("xml=" + shape["member"]["locationName"])
            made.options += time_of(shape["member"])
            model.shapes[name] = made
        elif kind == "map":
            made = Shape(name, "map")
            made.target, made.sparse = target(shape["value"]), bool(shape.get("sparse"))
            if not json_names:
                made.options += [f"{word}={shape[part]['locationName']}" for word, part in (("key", "key"), ("value", "value")) if shape[part].get("locationName")]
            made.options += time_of(shape["value"])
            model.shapes[name] = made
    return model


# ---- Smithy models

PRELUDE = {
    "String": "string", "Blob": "blob", "Boolean": "boolean", "PrimitiveBoolean": "boolean", "Byte": "byte", "PrimitiveByte": "byte",
    "Short": "short", "PrimitiveShort": "short", "Integer": "integer", "PrimitiveInteger": "integer", "Long": "long",
    "PrimitiveLong": "long", "Float": "float", "PrimitiveFloat": "float", "Double": "double", "PrimitiveDouble": "double",
    "BigInteger": "bigInteger", "BigDecimal": "bigDecimal", "Timestamp": "timestamp", "Document": "document",
}
BOUND = {"smithy.api#httpHeader", "smithy.api#httpPrefixHeaders", "smithy.api#httpLabel", "smithy.api#httpQuery",
         "smithy.api#httpQueryParams", "smithy.api#httpResponseCode"}


def smithy_model(tree):
    raw = tree["shapes"]
    services = [(name, s) for name, s in raw.items() if s.get("type") == "service"]
    model = Model(services[0][0].split("#")[-1] if services else "the service")
    traits = services[0][1].get("traits", {}) if services else {}
    rest = any(name in traits for name in ("aws.protocols#restJson1", "aws.protocols#restXml")) and not any(
        name in traits for name in ("aws.protocols#awsJson1_0", "aws.protocols#awsJson1_1", "smithy.protocols#rpcv2Cbor"))
    short_names = {}
    for identity, shape in raw.items():
        short_names.setdefault(identity.split("#")[-1], []).append(identity)

    def short(identity):
        last = identity.split("#")[-1]
        return identity if last in WORDS or len(short_names.get(last, [])) > 1 else last

    def mixed(identity, seen=()):
        """Members and traits with those of mixins before."""
        if identity in seen:
            raise Bad(f"{identity}: a mixin of itself")
        shape = raw[identity]
        members = {}
        for mixin in shape.get("mixins", []):
            if mixin["target"] not in raw:
                raise Bad(f"no shape {mixin['target']}")
            for key, member in mixed(mixin["target"], (*seen, identity)).items():
                members[key] = member
        for key, member in shape.get("members", {}).items():
            before = members.get(key, {})
            members[key] = {"target": member["target"], "traits": {**before.get("traits", {}), **member.get("traits", {})}}
        return members

    def target(identity):
        if identity in raw:
            kind = raw[identity]["type"]
            if kind in ("structure", "union", "list", "set", "map"):
                return short(identity)
            if kind in FLOATS or kind in SCALARS:
                return SCALARS.get(kind, kind)
            raise Bad(f"{identity}: no such type: {kind}")
        name = identity.split("#")[-1]
        if identity == "smithy.api#Unit":
            return "Unit"
        if name in PRELUDE:
            return PRELUDE[name]
        raise Bad(f"no shape {identity}")

    def time_of(member):
        if target(member["target"]) != "timestamp":
            return []
        name = member.get("traits", {}).get("smithy.api#timestampFormat")
        name = name or raw.get(member["target"], {}).get("traits", {}).get("smithy.api#timestampFormat")
        return [f"time={name}"] if name else []

    roots = set()
    for identity, shape in raw.items():
        if shape.get("type") == "operation":
            parts = [shape.get(part, {}).get("target") for part in ("input", "output")]
            parts = [None if part in (None, "smithy.api#Unit") else part for part in parts]
            roots.update(part for part in parts if part)
            model.operations[short(identity)] = tuple(part and short(part) for part in parts)
    for identity, shape in raw.items():
        kind, own = shape["type"], shape.get("traits", {})
        name = short(identity)
        if kind in ("structure", "union"):
            made = Shape(name, kind, plain(own.get("smithy.api#documentation")))
            for key, member in mixed(identity).items():
                with_traits = member.get("traits", {})
                inner = raw.get(member["target"], {})
                if "smithy.api#streaming" in inner.get("traits", {}) and inner.get("type") == "union":
                    made.left_out.append((key, "an event stream"))
                    continue
                if rest and identity in roots and BOUND & set(with_traits):
                    made.left_out.append((key, "outside of the body"))
                    continue
                options = []
                if "smithy.api#jsonName" in with_traits:
                    options.append("json=" + with_traits["smithy.api#jsonName"])
                if "smithy.api#xmlName" in with_traits:
                    options.append("xml=" + with_traits["smithy.api#xmlName"])
                if "smithy.api#xmlFlattened" in with_traits:
                    options.append("flat")
                options += time_of(member)
                doc = with_traits.get("smithy.api#documentation") or inner.get("traits", {}).get("smithy.api#documentation")
                made.members.append(Member(key, target(member["target"]), plain(doc), options))
            model.shapes[name] = made
        elif kind in ("list", "set", "map"):
            made = Shape(name, "map" if kind == "map" else "list")
            inner = shape.get("value" if kind == "map" else "member")
            if inner is None:
                raise Bad(f"{identity}: its elements are those of a mixin")
            made.target, made.sparse = target(inner["target"]), "smithy.api#sparse" in own
            xml = inner.get("traits", {}).get("smithy.api#xmlName")
            if kind == "map":
                key_name = shape.get("key", {}).get("traits", {}).get("smithy.api#xmlName")
                made.options += [f"key={key_name}"] * bool(key_name) + [f"value={xml}"] * bool(xml)
            elif xml:
                made.options.append("xml=" + xml)
            made.options += time_of(inner)
            model.shapes[name] = made
    model.shapes.setdefault("Unit", Shape("Unit", "structure"))
    return model


# ---- what is reached, and what a table can't hold

def inside(shape):
    return [m.target for m in shape.members] if shape.kind in ("structure", "union") else [shape.target]


def drop_floats(model):
    """Leaves out each member that is nothing but floats, and says so."""
    floats = set(FLOATS)
    while True:
        more = set()
        for name, shape in model.shapes.items():
            if name in floats:
                continue
            targets = inside(shape)
            if shape.kind == "structure":
                continue
            if all(t in floats for t in targets):
                more.add(name)
        if not more:
            break
        floats |= more
    for shape in model.shapes.values():
        if shape.kind in ("structure", "union"):
            shape.left_out += [(m.name, "a float") for m in shape.members if m.target in floats]
            shape.members = [m for m in shape.members if m.target not in floats]
            drop_taken(shape)


def drop_taken(shape):
    """Leaves out members whose name in JSON or in a form is that of an earlier one."""
    kept, taken = [], {"json": set(), "xml": set()}
    for member in shape.members:
        names = {word: next((o[len(word) + 1:] for o in member.options if o.startswith(word + "=")), member.name) for word in taken}
        if any(names[word] in taken[word] for word in taken):
            shape.left_out.append((member.name, "a name that is taken"))
            continue
        for word in taken:
            taken[word].add(names[word])
        kept.append(member)
    shape.members = kept


def reached(model, roots):
    """The declared shapes that the roots reach, the parts before the whole."""
    done, order = set(), []

    def visit(name):
        if name in done or name not in model.shapes:
            return
        done.add(name)
        for target in inside(model.shapes[name]):
            visit(target)
        order.append(name)

    for root in roots:
        visit(root)
    return order


def cycles(model, order):
    """The structures and unions that hold themselves, each with those that it holds and that hold it."""
    holds = {}
    for name in order:
        seen, left = set(), [t for t in inside(model.shapes[name]) if t in model.shapes]
        while left:
            target = left.pop()
            if target not in seen:
                seen.add(target)
                left += [t for t in inside(model.shapes[target]) if t in model.shapes]
        holds[name] = seen
    named = [n for n in order if model.shapes[n].kind in ("structure", "union") and n in holds[n]]
    return {n: [m for m in named if m in holds[n] and n in holds[m]] for n in named}


def table_text(model, order):
    lines = []
    for name in reversed(order):
        shape = model.shapes[name]
        if shape.kind in ("structure", "union"):
            lines.append(f"{shape.kind} {name}")
            lines += [" ".join(["member", m.name, m.target, *m.options]) for m in shape.members]
        else:
            sparse = ["sparse"] if shape.sparse and shape.target != "document" else []
            lines.append(" ".join([shape.kind, name, shape.target, *sparse, *shape.options]))
    return "\n".join(lines) + "\n"

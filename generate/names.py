"""Names in Rust for the names of a model."""
import re

RUST = set("""as async await become box break const continue crate do dyn else enum extern false final fn for ghost gen if impl in let loop
macro match mod move mut override priv pub ref requires ensures return self static struct super trait true try type typeof unsafe unsized
use virtual where while yield union""".split())
# Words of the language of proofs, in which a field's name is used too.
PROOFS = set("""data record deriving module where use mod pub package open as unfoldable abbrev axiom unfold unfolding ruleset mutual
infix infixl infixr elim let in do coe fcoe tcoe hcom com rw simp search grw cc omega grind hlevel assumption ground cap no yes pos null
refl vin vproj result then now old new entry exit""".split())
# Types and traits that a generated file uses.
TYPES = set("""String Vec Option Some None Result Ok Err Box Self BTreeMap Blob DateTime Document BigInteger BigDecimal Schema SerdeError
ShapeDeserializer ShapeSerializer ShapeType Shapes WriteFields Field FieldRef FieldList FromFields NoField Typed WriteFieldList Variant
LastVariant VariantList FromVariants Fields Variants Drop Copy Clone Debug Iterator Global Type Unit Sized From Into TryFrom TryInto Default PartialEq Eq Hash Ord PartialOrd Ordering AsRef AsMut Fn FnMut FnOnce Send Sync ToString
Extend Display Deref Allocator Rc Arc Cow Abort Threads Wait Net Processes""".split())


def words(name):
    name = re.sub(r"[^0-9A-Za-z]+", "_", name)
    name = re.sub(r"([A-Z]+)([A-Z][a-z])", r"\1_\2", name)
    name = re.sub(r"([a-z0-9])([A-Z])", r"\1_\2", name)
    return [w for w in name.split("_") if w]


def snake(name):
    made = "_".join(w.lower() for w in words(name)) or "member"
    return "n" + made if made[0].isdigit() else made


def field(name):
    made = snake(name)
    return made + "_" if made in RUST or made in PROOFS else made


def module(name):
    made = snake(name)
    taken = made in RUST or made in PROOFS or made in ("std", "core", "alloc", "lib") or made.startswith("smithy_")
    return made + "_shape" if taken else made


def pascal(name):
    made = "".join(w[0].upper() + w[1:] for w in re.split(r"[^0-9A-Za-z]+", name) if w) or "Shape"
    made = "N" + made if made[0].isdigit() else made
    return made + "Shape" if made in TYPES else made


def variant(name):
    made = "".join(w[0].upper() + w[1:].lower() for w in words(name)) or "Variant"
    return made + "_" if made == "Self" else made


def distinct(names):
    """The names in order, each that was there before with a number after it."""
    seen, made = set(), []
    for name in names:
        new, number = name, 2
        while new.lower() in seen:
            new, number = f"{name}_{number}", number + 1
        seen.add(new.lower())
        made.append(new)
    return made

#!/usr/bin/env python3
"""Looks in the Rattle sources for forms that Rust and Rattle both compile and run differently.

    python3 checks/forms_apart.py

Silent with status 0 where there are none; otherwise it prints each place and ends with 1. The forms are those of the
toolchain's pages LANGUAGE.md, FROM_RUST.md ("What differs silently") and docs/MACROS.md. It reads tokens and knows no
types, so it names more than what differs: `ALLOWED` lists the places that were read and run the same, with the reason.
An entry of that list that matches nothing, or more or fewer places than it says, is an error.

It reads each crate of crates.txt but those of tests, and no file called `tests`: what tests say is seen when they run.
"""
import sys
from collections import Counter, namedtuple
from pathlib import Path

from source_code import WORDS_BEFORE_OPERANDS, Code, heads

TOP = Path(__file__).resolve().parent.parent

# A line of a file that has a form of a class, how many of its places in the file, and why it runs the same.
Allowed = namedtuple("Allowed", "path form line count reason")

DISPLAY = "crates/fixed_num/src/display.rt"
IN_BASE = "crates/fixed_radix/src/display.rt"
CAST = "crates/fixed_cast/src"
OWN_BOUND = "the bound is a trait of that crate, which the same types meet in both languages"
SIZED = "each implementation of the trait is `Copy`, and so has a size"
ADAPTERS = "crates/fixed_prog/src/adapters.rt"
ADAPTED = "no other impl has a method of that name for the type"
STD_NAMED = "std's own method is called: another choice has other parameters, or would call itself without end"
WORDS = ["u8", "u16", "u32", "u64", "i8", "i16", "i32", "i64"]

ALLOWED = [
    Allowed(DISPLAY, "text", "use std::{fmt, str};", 1, "for the trait that it implements, and its own `fmt::Error`"),
    Allowed(DISPLAY, "text", "impl<T: RawWord, const F: u32> fmt::Display for Fixed<T, F> {", 1,
            "its contract states the text, which goes to its formatter; rust/tests/decimals.rs prints by Rust"),
    Allowed(DISPLAY, "text", "impl<T: RawWord, const F: u32> fmt::Debug for Fixed<T, F> {", 1,
            "its contract states the text, which is that of `Display`"),
    Allowed(IN_BASE, "text", "use std::{fmt, str};", 1, "for the trait that it implements, and its own `fmt::Error`"),
    Allowed(IN_BASE, "text", "impl<T: RawWord, const F: u32> fmt::Display for InBase<T, F> {", 1,
            "its contract states the text, which goes to its formatter; rust/tests/radices.rs prints by Rust"),
    Allowed("crates/fixed_decimal/src/layout.rt", "text", "use std::fmt::{self, Alignment, Write};", 1,
            "its contracts state the text, which goes to a formatter"),
    Allowed(f"{CAST}/floats.rt", "impl", "impl<N: Numeric> ToFloat for N {", 1, OWN_BOUND),
    Allowed(f"{CAST}/to_num.rt", "impl", "impl<S: Source> ToNum for S {", 1, OWN_BOUND),
    *(Allowed(f"{CAST}/to_num.rt", "impl", f"fn {policy}to_num<D: Target<Self>>(self) -> {result}", 1, SIZED)
      for policy, result in [("", "D"), ("checked_", "Option<D>"), ("overflowing_", "(D, bool)"), ("wrapping_", "D"),
                             ("saturating_", "D"), ("strict_", "D"), ("unwrapped_", "D")]),
    Allowed(f"{CAST}/target.rt", "impl", "impl<S: Source, N: Numeric> Target<S> for N {", 1, OWN_BOUND),
    Allowed(f"{CAST}/mul_into.rt", "impl", "impl<A: Numeric> MulInto for A {", 1, OWN_BOUND),
    Allowed(f"{CAST}/from_num.rt", "impl", "impl<N: Numeric> FromNum for N {", 1, OWN_BOUND),
    Allowed(f"{CAST}/order.rt", "impl", "impl<M: Numeric> Order for M {", 1, OWN_BOUND),
    Allowed(f"{CAST}/source.rt", "impl", "impl<N: Numeric> Source for N {", 1, OWN_BOUND),
    Allowed(ADAPTERS, "impl", "impl<R: Read> Source for StdSource<R> {", 1, ADAPTED),
    Allowed(ADAPTERS, "impl", "impl<W: Write> Sink for StdSink<W> {", 1, ADAPTED),
    Allowed(ADAPTERS, "impl", "impl<W: Write> Sink for StdErrors<W> {", 1, ADAPTED),
    Allowed("crates/fixed_calc/src/status.rt", "drop", "Status::Script(_) => 1,", 1, "Status has no drop of its own"),
    *(Allowed("crates/fixed_machine/src/answer.rt", "drop", line, 1, "answers have no drop of their own")
      for line in ("SignedAnswer::Bits(bits) => Answer::Bits(with_sign(bits.below_zero, bits.magnitude)),",
                   "SignedAnswer::Flagged(bits, verdict) => {")),
    *(Allowed(f"crates/{crate}/src/reply.rt", "drop", line, 1, "replies have no drop of their own")
      for crate, line in [("fixed_filter", "Reply::Value(output) => Ok(output),"),
                          ("fixed_filter", "Reply::Overflow(tap) => Err(TapOverflow { tap }),"),
                          ("fixed_poly", "PolyReply::Value(value) => Ok(value),"),
                          ("fixed_poly", "PolyReply::Overflow(step) => Err(StepOverflow { step }),")]),
    Allowed("crates/fixed_filter/src/sample.rt", "impl", "impl<T: RawWord> Sample<T> for T {", 1,
            "words are sealed, and so the same types in both languages"),
    *(Allowed("crates/fixed_bits/src/bytes.rt", "method", f"impl BitWord for {word} {{", 1, STD_NAMED)
      for word in WORDS),
    *(Allowed("crates/fixed_word/src/digits.rt", "method", f"impl<L: Ledger> Digits<L> for {word} {{", 1, STD_NAMED)
      for word in WORDS[:4]),
]

INTEGERS = {sign + width for sign in "iu" for width in ("8", "16", "32", "64", "128", "size")}
NUMBERS = INTEGERS | {"f32", "f64"}
STD_TYPES = NUMBERS | {"bool", "char", "str", "Option", "Result", "Vec", "String"}

# Where a name of these stands, the form is there.
NAMES = {
    "size": """size_of size_of_val size_of_val_raw align_of align_of_val min_align_of offset_of transmute
        transmute_copy transmute_unchecked zeroed uninit MaybeUninit Layout needs_drop discriminant Discriminant
        variant_count align_to align_to_mut as_ptr as_mut_ptr as_ptr_range addr_of addr_of_mut from_raw_parts
        from_raw_parts_mut NonNull ptr_eq union""",
    "drop": "ManuallyDrop drop_in_place forget",
    "clone": "clone cloned clone_from clone_into to_owned into_owned to_vec",
    "text": """Arguments write_fmt to_string anyhow eyre root_cause downcast downcast_ref with_context""",
    "thread": """thread threads spawn mpsc mpmc sync_channel try_send try_recv recv_timeout send_timeout Sender
        Receiver SyncSender JoinHandle Mutex RwLock Condvar Barrier OnceLock OnceCell LazyLock LazyCell Arc rayon
        crossbeam crossbeam_channel park unpark thread_local try_lock try_read try_write available_parallelism""",
    "range": "RangeFrom",
    "iterator": "into_iter IntoIterator flatten flat_map chain",
    "error": "try_from try_into TryFrom TryInto Infallible TryFromIntError",
    "impl": "Index IndexMut SliceIndex Deref DerefMut specialization",
    "value": "dyn",
    "target": """cfg cfg_attr debug_assert debug_assert_eq debug_assert_ne debug_assertions target_pointer_width
        target_endian target_arch target_os target_family to_ne_bytes from_ne_bytes""",
    "name": """type_name type_name_of_val TypeId type_id Any Location caller track_caller Backtrace""",
    "hash": """DefaultHasher RandomState SipHasher Hasher BuildHasher BuildHasherDefault FoldHasher HashMap HashSet
        hash_one""",
}

# Where a name of these is called as a function or a method, the form is there.
CALLS = {
    "thread": "channel bounded unbounded scope",
    "iterator": "once empty repeat repeat_with from_fn successors",
}

# Where a method of these is called, the form is there.
METHODS = {"source": "text", "hash": "hash", "finish": "hash"}

# What each class of forms is called in the output.
TITLES = {
    "size": "sizes, layouts and addresses of values",
    "drop": "a drop of one's own, and patterns that take self apart",
    "clone": "items that are clones",
    "text": "text that is written, and its errors",
    "thread": "threads, channels and locks",
    "range": "ranges with no end",
    "iterator": "iterators that are one type",
    "error": "errors that are one type",
    "impl": "impls picked by a bound or by what has no size",
    "method": "methods that are named as std's",
    "value": "functions and closures as values",
    "array": "arrays in variants",
    "base": "fields of another value",
    "macro": "macros",
    "target": "what the build or the target decides",
    "name": "names of types and places at run time",
    "hash": "values of hashes",
}

TEXT_MACROS = set("write writeln format format_args print println eprint eprintln dbg panic todo bail ensure".split())
SAME_MACROS = {"unreachable", "prove", "prove_eq", "prove_ne", "matches"}
SAME_STEPS = set("iter iter_mut rev enumerate skip step_by bytes chars windows chunks chunks_exact lines".split())

# The methods that std has for numbers, and for its other types.
NUMBER_METHODS = set("""
    abs abs_diff add bitand bitor bitxor cast_signed cast_unsigned ceil clamp clone cmp count_ones count_zeros div
    div_ceil div_euclid div_floor eq floor fract from_be from_be_bytes from_bits from_le from_le_bytes from_str_radix
    ge gt hash ilog ilog10 ilog2 is_finite is_infinite is_nan is_negative is_positive is_power_of_two isqrt le
    leading_ones leading_zeros lt max midpoint min mul mul_add ne neg next_multiple_of next_power_of_two not
    partial_cmp pow powf powi recip rem rem_euclid reverse_bits rotate_left rotate_right round shl shr signum sqrt sub
    swap_bytes to_be to_be_bytes to_bits to_le to_le_bytes total_cmp trailing_ones trailing_zeros trunc unsigned_abs
    """.split()) | {
    f"{policy}_{operation}"
    for policy in "checked saturating wrapping overflowing strict unchecked carrying borrowing widening".split()
    for operation in """abs add add_signed add_unsigned cast_signed cast_unsigned div div_euclid ilog ilog10 ilog2
        isqrt mul neg next_multiple_of next_power_of_two pow rem rem_euclid shl shr sub sub_signed sub_unsigned
        """.split()
}
OTHER_METHODS = NUMBER_METHODS | set("""
    all and and_then any append as_bytes as_mut as_mut_slice as_ref as_slice as_str binary_search bytes chars chunks
    chunks_exact concat contains copied copy_within count dedup drain ends_with enumerate eq_ignore_ascii_case expect
    extend_from_slice fill filter find first fold for_each get get_mut insert is_alphabetic is_alphanumeric is_ascii
    is_ascii_digit is_digit is_empty is_err is_none is_ok is_some is_some_and is_whitespace iter iter_mut join last len
    len_utf8 lines map next nth ok or or_else parse pop position product push repeat replace resize retain rev reverse
    rsplit size_hint skip sort sort_by sort_by_key sort_unstable split split_at split_at_mut split_first split_last
    starts_with step_by sum swap swap_with_slice take then then_some to_ascii_lowercase to_ascii_uppercase to_digit
    to_lowercase to_uppercase trim truncate unwrap unwrap_or unwrap_or_else unzip windows xor zip
    """.split())

# Types and traits whose arguments have a size; the traits of std that a type may meet in one language alone; and those
# whose methods have their names from std.
SIZED = {"Option", "Result", "Outcome", "Vec", "PhantomData", "From", "Into", "Sum", "Product"}
STD_TRAITS = set("""Clone Copy Debug Default Display Eq Error Fn FnMut FnOnce From FromStr Hash Into Iterator Ord
    PartialEq PartialOrd Read Send Sized Sync Write BufRead Seek Any Borrow AsRef AsMut Extend FromIterator Sum Product
    ExactSizeIterator DoubleEndedIterator Unpin""".split())
OPERATORS = set("""Add Sub Mul Div Rem Neg Not Shl Shr BitAnd BitOr BitXor PartialEq Eq PartialOrd Ord Default Clone
    Copy Hash Model""".split())


# ---- the forms, each of a class, as the places where they stand


def listed_names(code):
    """The names that have a class of their own, but where a function is declared."""
    by_name = {name: form for form, names in NAMES.items() for name in names.split()}
    called = {name: form for form, names in CALLS.items() for name in names.split()}
    for at, token in enumerate(code.tokens):
        if token.kind != "name" or code.text(at - 1) == "fn":
            continue
        if token.text in by_name:
            yield by_name[token.text], at
        elif token.text in called and (code.text(at + 1) == "(" or code.text(at + 2) == "<"):
            yield called[token.text], at
        elif token.text in METHODS and code.text(at - 1) == "." and code.text(at + 1) == "(":
            yield METHODS[token.text], at


def named(code):
    """The listed names, but for the attribute `cfg(test)`, which runs the same."""
    for form, at in listed_names(code):
        is_of_tests = [code.text(at + k) for k in range(-2, 4)] == ["#", "[", "cfg", "(", "test", ")"]
        if not (form == "target" and is_of_tests):
            yield form, at


def paths(code):
    """Names that differ in a path alone: `iter::once`, `ptr::eq`, `usize::MAX`."""
    for at in code.all("iter"):
        if code.text(at - 1) not in (".", "fn"):
            yield "iterator", at
    for at in code.all("ptr", "usize", "isize"):
        if code.text(at + 1) == "::" and code.text(at + 2) in ("MIN", "MAX", "BITS", "eq", "null", "read", "write"):
            yield "size", at
    for at in code.all("const", "mut"):
        if code.text(at - 1) in ("*", "raw"):
            yield "size", at


def attributes(code):
    """The attributes of a field that holds another error."""
    for at in code.all("from", "source", "backtrace"):
        if code.text(at - 1) == "[" and code.text(at - 2) == "#":
            yield "text", at


def formatting(code):
    """Imports of `fmt`, its paths where there is no import, and text that goes anywhere but to a formatter."""
    imported = [at for span in code.imports() for at in span if code.text(at) == "fmt"]
    for at in code.all("fmt"):
        is_of_std = code.text(at - 1) == "::" and code.text(at - 2) in ("std", "core")
        if at in imported or is_of_std or not imported and code.text(at + 1) == "::":
            yield "text", at
    for at in code.all("write_str", "write_char"):
        receiver = code.type_of(code.text(at - 2), at) if code.text(at - 1) == "." else []
        if code.text(at - 1) != "fn" and "Formatter" not in receiver:
            yield "text", at


def texts_shown_for_debugging(code):
    for at, token in enumerate(code.tokens):
        if token.kind == "text" and (":?}" in token.text or ":#" in token.text):
            yield "text", at


def macros(code):
    """Macros of one's own, and calls of all but those that are known to run the same."""
    for at in code.all("macro_rules", "macro_derive", "macro"):
        yield "macro", at
    for at in code.all("!"):
        name = code.text(at - 1)
        is_call = code.is_name(at - 1) and name not in WORDS_BEFORE_OPERANDS and code.text(at + 1) in ("(", "[", "{")
        if is_call and name not in SAME_MACROS:
            yield "text" if name in TEXT_MACROS else "macro", at - 1


def functions_as_values(code):
    for at in code.all("fn"):
        if code.text(at + 1) == "(" or code.text(at - 1) == "as":
            yield "value", at


def ranges_with_no_end(code):
    for at in code.all(".."):
        is_index = code.text(at + 1) == "]" and code.ends_operand((code.around[at] or 0) - 1)
        is_pattern = code.text(at + 1) in ("=>", "=", "|", "if")
        is_last = at + 1 >= len(code.tokens) or code.text(at + 1) in (")", ",", ";", "{", "}", "]", "else")
        if code.ends_operand(at - 1) and is_last and not is_index and not is_pattern:
            yield "range", at


def bases(code):
    """A literal's base, unless it is a name or a path, which is a value of its own."""
    for at in code.all(".."):
        opening = code.around[at]
        if opening is None or code.text(opening) != "{" or code.text(at - 1) not in (",", "{"):
            continue
        words = [code.tokens[k] for k in range(at + 1, code.ends[opening])]
        if any(word.kind != "name" and word.text not in ("::", ".", ",") for word in words):
            yield "base", at


def patterns(code):
    """Each pattern of a `let`: its range, and where its value begins."""
    for at in code.all("let"):
        end = code.behind(at + 1, "=", ":", ";")
        value = code.behind(end, "=", ";") + 1
        yield range(at + 1, end), value


def may_fail(code, pattern, value):
    """Whether it is the pattern of an `if let`, a `while let`, a chain of these, or a `let` with an `else`."""
    has_else = code.text(code.behind(value, ";", "else", "{")) == "else"
    return has_else or code.text(pattern.start - 2) in ("if", "while", "&")


def arrays_in_variants(code):
    for pattern, value in patterns(code):
        for at in pattern:
            is_inside = code.around[at] != code.around[pattern.start] and code.text(code.around[at]) in ("(", "{")
            if code.text(at) == "[" and is_inside and may_fail(code, pattern, value):
                yield "array", at


def is_taken_apart(code, at):
    """Whether a pattern names every field of a value there: a name of a type with all of its fields."""
    opening = at + 1
    if not code.is_constructor(at) or code.text(opening) not in ("(", "{") or code.text(at) in ("Some", "Ok", "Err"):
        return False
    return not any(code.text(k) == ".." and code.around[k] == opening for k in range(opening, code.ends[opening]))


def own_values(code, at):
    """The parameters there that hold a value, and not a reference, of the type itself, with its name; self where no
    function is around."""
    names = {"Self"} | {head.type_name() for _, head in heads(code) if at in head.inside}
    for body, types in code.functions:
        if at in body:
            held = {name: words[0] if words else "Self" for name, words in types.items() if words or name == "self"}
            return {name: word for name, word in held.items() if word in names}
    return {"self": "Self"}


def held_types(code, span):
    """The types of the parameters that an expression holds as a whole."""
    owned = own_values(code, span.start)
    return {owned[code.text(at)] for at in span if code.text(at) in owned
            and code.text(at - 1) not in (".", "&", "mut") and code.text(at + 1) not in (".", "[", "::", "?", "(")}


def taken_apart(code, places, types):
    """Where a pattern takes a value of one of the types apart: Self by any name, and another by its own."""
    for at in places:
        is_own = "Self" in types or code.text(at) in types and code.text(at - 1) != "::"
        if is_own and is_taken_apart(code, at):
            yield "drop", at


def self_taken_apart(code):
    for pattern, value in patterns(code):
        types = held_types(code, range(value, code.behind(value, ";", "{", "else")))
        yield from taken_apart(code, pattern, types)
    for at in code.all("match"):
        body = code.behind(at + 1, "{")
        if body < len(code.tokens):
            yield from taken_apart(code, arms(code, body), held_types(code, range(at + 1, body)))


def arms(code, body):
    """The places of the patterns of a match, without those of what its arms do."""
    at = body + 1
    while at < code.ends[body]:
        arrow = min(code.behind(at, "=>"), code.ends[body])
        yield from range(at, arrow)
        at = arrow + 1
        at = code.ends[at] + 1 if code.text(at) == "{" else min(code.behind(at, ","), code.ends[body]) + 1


def parameters_taken_apart(code):
    for at in code.all("fn"):
        opening = code.behind_angles(at + 2)
        if code.is_name(at + 1) and code.text(opening) == "(":
            for part in code.parts(opening + 1, code.ends[opening]):
                if is_taken_apart(code, part.start):
                    yield "drop", part.start


def impls(code):
    """Impls with a drop of one's own, and for each type that meets a bound."""
    for at, head in heads(code):
        if not head.type:
            if head.is_of_references():
                yield "impl", at
            continue
        if head.trait_name() == "Drop":
            yield "drop", at
        is_for_each = len(head.bare_type()) == 1 and head.bare_type()[0] in head.parameters
        if is_for_each or head.bounds & STD_TRAITS or head.is_of_references():
            yield "impl", at
        if head.trait_name() in ("Debug", "Display", "Error") or "fmt" in head.of:
            yield "text", at


def methods_in(code, body):
    """The names of the functions in the brackets that open there."""
    inside = range(body, code.ends.get(body, body))
    return {code.text(at + 1) for at in inside if code.text(at) == "fn"}


def std_named_methods(code):
    """The methods of a source's traits that are named as one of std's, each with its trait."""
    for at in code.all("trait"):
        for name in methods_in(code, code.body_of(at)) & OTHER_METHODS:
            yield code.text(at + 1), name


def methods_of_std(head):
    """The names of the methods that std has for an impl's type, which are none for a type of one's own."""
    words = head.bare_type()
    before = words[: words.index("<")] if "<" in words else words
    if len(before) == 1 and before[0] in NUMBERS:
        return NUMBER_METHODS
    return OTHER_METHODS if STD_TYPES.intersection(before) else set()


def methods_named_as_std(code, std_named):
    """Impls for std's types of methods that are named as theirs."""
    for at, head in heads(code):
        if head.trait_name() in OPERATORS:
            continue
        offered = {name for trait, name in std_named if trait == head.trait_name()}
        if methods_of_std(head) & (methods_in(code, head.body) | offered):
            yield "method", at


def is_argument_in_trait(code, at):
    """Whether a trait's Self stands there as an argument of a type but those of std that need its size."""
    opening = code.angle_before(at)
    is_argument = opening is not None and code.text(at + 1) != "::"
    is_in_trait = any(at in body for body in code.traits)
    return is_argument and is_in_trait and code.text(opening - 1) not in SIZED | OPERATORS


def types_without_size(code):
    """Types that name what may have no size: a reference to Self within a type, and the output of an index."""
    for at in code.all("Self"):
        start = at - 1
        while code.text(start) in ("mut", "dyn") or code.text(start).startswith("'"):
            start -= 1
        if code.text(start) == "&" and code.text(start - 1) not in (":", "->"):
            yield "impl", at
        if is_argument_in_trait(code, at):
            yield "impl", at
    for at in code.all("Output", "Target"):
        is_of_type = code.text(at - 2) == ">" or code.is_constructor(at - 2)
        if code.text(at - 1) == "::" and is_of_type and code.text(at - 2) != "Self":
            yield "impl", at


def loops_over_options(code):
    """A loop over anything but a range with an end, the steps of an iterator, or what is written as a list."""
    for at in code.all("for"):
        start = code.behind(at + 1, "in", "{", ";", ">") + 1
        if code.text(start - 1) != "in":
            continue
        if not is_list(code, range(start, code.behind(start, "{"))):
            yield "iterator", start


def is_list(code, span):
    """Whether the expression shows that it is a range, an iterator, or a list by its type."""
    if any(code.around[at] == code.around[span.start] and code.text(at) in ("..", "..=") for at in span):
        return True
    words = [at for at in span if code.text(at) not in ("&", "mut")]
    texts = [code.text(at) for at in words]
    if texts[0] == "[" or texts[-1] == "]" and ".." in texts:
        return True
    if len(words) == 1:
        return is_type_of_list(code.type_of(texts[0], span.start))
    if len(words) == 3 and texts[:2] == ["self", "."]:
        return is_type_of_list(code.type_of_field(texts[2]))
    steps = {code.text(at) for at in span if code.text(at - 1) == "." and code.text(at + 1) == "("}
    return bool(steps & SAME_STEPS)


def is_type_of_list(words):
    """Whether a type is an array, a slice or a vector, or a reference to one."""
    bare = [word for word in words if word not in ("&", "mut") and not word.startswith("'")]
    return bare[:1] in (["["], ["Vec"])


READERS = [
    named, paths, attributes, formatting, texts_shown_for_debugging, macros, functions_as_values, ranges_with_no_end,
    bases, arrays_in_variants, self_taken_apart, parameters_taken_apart, impls, types_without_size,
    loops_over_options,
]


def found_in(source, std_named=()):
    """The forms in a source: each class with the line on which it stands, once a line. `std_named` are the methods
    of other sources' traits that are named as one of std's."""
    code = Code(source)
    found = [place for reader in READERS for place in reader(code)]
    found += methods_named_as_std(code, {*std_named, *std_named_methods(code)})
    lines = {(form, code.tokens[at].line) for form, at in found if at < len(code.tokens)}
    return sorted(lines, key=lambda place: (place[1], place[0]))


# ---- the sources


def crates():
    """The crates of the build but those of tests."""
    names = [line.split("#")[0].split(":")[0].split() for line in (TOP / "crates.txt").read_text().splitlines()]
    return [words[0] for words in names if words and not words[0].startswith("tests_")]


def sources():
    for crate in crates():
        folder = TOP / "crates" / crate / "src"
        for path in sorted(folder.rglob("*.rt")):
            if "tests" not in path.relative_to(folder).with_suffix("").parts:
                yield path


def places_in(path, source, std_named=()):
    """Each form of a source: its file, class, line number and line."""
    lines = source.splitlines()
    for form, number in found_in(source, std_named):
        yield path, form, number, lines[number - 1].strip()


def all_places():
    texts = {str(path.relative_to(TOP)): path.read_text() for path in sources()}
    std_named = {name for text in texts.values() for name in std_named_methods(Code(text))}
    return [place for path, text in texts.items() for place in places_in(path, text, std_named)]


def faults(places):
    """What is to be said: each place that is not allowed, and each entry that does not match as often as it says."""
    wanted = {(entry.path, entry.form, entry.line): entry.count for entry in ALLOWED}
    counts = Counter((path, form, line) for path, form, _, line in places)
    for path, form, number, line in places:
        if counts[path, form, line] > wanted.get((path, form, line), 0):
            yield f"{path}:{number}: {TITLES[form]}: {line}"
    for place, count in wanted.items():
        if counts[place] < count:
            path, form, line = place
            yield f"{path}: ALLOWED has {count} places of {line!r} ({TITLES[form]}), and {counts[place]} are there"


def main():
    said = list(faults(all_places()))
    print(*said, sep="\n", end="\n" if said else "")
    sys.exit(1 if said else 0)


if __name__ == "__main__":
    main()

"""What rows about the sizes of classes begin with, behind their imports."""

WORDS = """abbrev no_words : Cv
no_words = record { is_const = false; is_volatile = false }

abbrev virtual_flags : FunctionFlags
virtual_flags = record { is_virtual = true; is_pure = false; is_explicit = false; is_implicit = false }

abbrev here : ℕ → Declares → CxxFact
here scope what = record { place = record { line = 1; column = 1 }; scope = scope; name = unnamed; access = Public; what = what }
"""


def extent(name, count):
    """The statement that a class has a size and an alignment, in a unit of so many classes."""
    classes = " ∷ ".join(["None"] * count)
    return f"""
abbrev {name} : List (Option CxxSpecialisation)
{name} = {classes} ∷ []

abbrev HasExtent : ℕ → List CxxFact → ℕ → ℕ → Type 0
HasExtent class all size alignment = object_extent (record {{ facts = all; classes = {name}; patterns = [] }}) (class_type class) ≡ Ok (record {{ size = size; alignment = alignment }})
"""

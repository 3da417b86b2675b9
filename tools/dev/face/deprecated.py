"""Whether what the tables call deprecated warns in Rust and Python too, whose methods are written by hand; in C it does by what is generated."""
import re

RUST = ("rust/cache-tier/src/tier.rs", "rust/cache-tier/src/partitions.rs", "rust/cache-tier/src/rules/calls.rs")
PYTHON = ("python/src/cache_tier/tier.py", "python/src/cache_tier/partitions.py", "python/src/cache_tier/rules.py")


def in_rust(text, name):
    """Of each public function of that name the attributes and comments above it."""
    return re.findall(rf"((?:^ *(?:///|#\[).*\n)*)^ *pub fn {name}\b", text, re.M)


def in_python(text, name):
    """Of each function of that name its body."""
    return re.findall(rf"^( *)def {name}\(.*\n((?:\1 +.*\n|\n)*)", text, re.M)


def lacking(faces, root):
    """Which methods of a deprecated call don't warn."""
    read = lambda path: (root / path).read_text(encoding="utf-8")
    names = [it.name for face in faces for it in face.calls if it.deprecated]
    found = [f"{path}: {name} lacks #[deprecated]" for name in names for path in RUST for above in in_rust(read(path), name) if "#[deprecated" not in above]
    return found + [f"{path}: {name} gives no DeprecationWarning" for name in names for path in PYTHON for _, body in in_python(read(path), name) if "DeprecationWarning" not in body]

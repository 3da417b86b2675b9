"""The prover's names of a crate's functions.

A free function is `crate::module::name`, a method of an impl of a type is `crate::MODULE::Type::name` by the module that
declares the type (`crate::module::Type+Args::name` where an argument is no parameter), one of an impl of a trait is
`crate::module::TypeTrait::name` (one of an impl of Drop as the type's own), and a closure has the name of its function after a `fn`.
"""
import re

from sources import module_of

DECLARED = re.compile(r"^(?:pub(?:\([\w ]+\))? )?(?:struct|enum|union) (\w+)", re.M)


class Names:
    """How the prover names the functions of a crate's texts."""

    def __init__(self, crate, texts):
        self.crate, self.modules = crate, {}
        for path, text in texts.items():
            for kind in DECLARED.findall(text):
                self.modules.setdefault(kind, set()).add(module_of(path))

    def of(self, path, function, known):
        """Of the known names, those of a function and of its closures; none where they may be several functions'."""
        module, owner = module_of(path), function.owner
        if owner is None:
            found = [self.joined(module, function.name)]
        elif is_of_trait(owner):
            found = self.of_trait(module, function, known)
        else:
            found = self.of_type(module, function, known)
        if function.cycle:
            found = found[:1] + [self.joined(module, "+" + function.cycle)]
        elif len(found) > 1:
            return set()
        inner = tuple(closures_of(it, bool(owner)) for it in found)
        return {it for it in known if it in found or it.startswith(inner)} if found else set()

    def end_of(self, path, function):
        """The end of a function's name by which a check finds it, where the check has told no names yet."""
        owner = function.owner
        if function.cycle or owner is None:
            return self.joined(module_of(path), "+" + function.cycle if function.cycle else function.name)
        if not is_of_trait(owner):
            return f"{owner.words[0]}::{function.name}"
        return f"{spelled(plain(owner.kind), owner.parameters)}{spelled(plain(owner.trait), owner.parameters)}::{function.name}"

    def joined(self, module, *names):
        """A name from its parts."""
        return "::".join([self.crate, *module, *names])

    def of_type(self, module, function, known):
        """The names of a method of a type's own impl."""
        kind, name = function.owner.words[0], function.name
        homes = self.modules.get(kind, {module})
        if len(homes) > 1:
            homes = {it for it in homes if it == module[: len(it)]}
        whole = self.joined(module, "+".join(function.owner.words), name)
        found = [it for it in [*(self.joined(home, kind, name) for home in homes), whole] if it in known]
        return found if whole not in found else [whole]

    def of_trait(self, module, function, known):
        """The names of a method of an impl of a trait, or of a trait's own: with arguments or without, as the prover tells impls apart."""
        kind, trait, _, parameters = function.owner
        if not trait:
            return [it for it in [self.joined(module, kind, function.name)] if it in known]
        words = [spelled(one, parameters) + spelled(other, parameters) for one in (kind, plain(kind)) for other in (trait, plain(trait))]
        exact = [it for it in dict.fromkeys(self.joined(module, word, function.name) for word in words) if it in known]
        if exact:
            return exact
        # a type that is spelled otherwise: the one impl of such a trait in the module
        like = re.compile(re.escape(self.joined(module, "")) + r"[^:]*" + re.escape(spelled(plain(trait), ())) + r"[^:]*::" + re.escape(function.name))
        return [it for it in known if like.fullmatch(it)]


def is_of_trait(owner):
    """Whether the names of an impl's functions tell its trait, or are those of a trait itself."""
    return owner.trait not in ("", "Drop") or not owner.words


def closures_of(name, has_owner):
    """How the names of a function's closures begin."""
    parts = name.split("::")
    at = len(parts) - 1 - has_owner
    return "::".join([*parts[:at], "fn", *parts[at:], ""])


def plain(text):
    """A type without its arguments."""
    return re.sub(r"<.*", "", text)


def spelled(text, parameters):
    """The last names of the paths of a type, each with a capital, without parameters and lifetimes."""
    found = ""
    for word in re.findall(r"&|\[[^\[\]]*;|\[|\w+", re.sub(r"'\w+|\bmut\b|\bdyn\b|\w+::", "", text)):
        if word == "&":
            found += "Ref"
        elif word[0] == "[":
            found += "Array" + spelled(word[1:-1], parameters) if word.endswith(";") else "Slice"
        elif word not in parameters and not word.isdigit():
            found += word[0].upper() + word[1:]
    return found

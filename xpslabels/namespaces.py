"""Name spaces of elements (Namespaces in XML 1.0). The program keeps them itself: expat would spell a name space out at every element, so that
a small file with one long name space would keep it busy for a very long time."""

XML = 'http://www.w3.org/XML/1998/namespace'
SPACES = 'http://schemas.openxps.org/oxps/v1.0', 'http://schemas.microsoft.com/xps/2005/06'     # OpenXPS, and XPS before it


class Unbound(Exception):
    """A prefix that no element around declares."""


class NameSpaces:
    """What each prefix stands for, innermost last; the default is the prefix of no characters."""

    def __init__(self):
        self.spaces = {'': [''], 'xml': [XML]}
        self.declared = []                          # for each open element the prefixes that it declares

    def enter(self, name, attributes):
        """An element's name space and local name."""
        declared = [key for key in attributes if key == 'xmlns' or key.startswith('xmlns:')]
        for key in declared:
            self.spaces.setdefault(key[6:], []).append(attributes[key])
        self.declared.append(declared)
        for key in attributes:
            if ':' in key and not key.startswith('xmlns:'):
                self.space_of(key)
        return self.space_of(name)

    def leave(self):
        for key in self.declared.pop():
            self.spaces[key[6:]].pop()

    def space_of(self, name):
        """Name space and local name of a name with its prefix."""
        prefix, _, local = name.rpartition(':')
        stack = self.spaces.get(prefix)
        if not stack:
            raise Unbound(prefix)
        return stack[-1], local

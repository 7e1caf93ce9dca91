"""Notes facts about bytes that depend on the key or on data, for a machine."""
import copy


class SecretBytes:
    """Facts about such bytes. Copies of a machine share the containers, because what these say of a byte holds in each copy."""

    def __init__(self):
        self.lost = set()  # opaque bytes that count as parts of the key if they are left
        self.any_of = {}  # {byte: bytes that are all 0 if and only if it is 0}
        self.equalities = {}  # {byte: (another byte, its value if that is 0, its value if not)}

    def copied(self):
        return copy.copy(self)

    def lose(self, byte):
        """Notes and gives a byte of which nothing is known. It counts as part of the key."""
        self.lost.add(byte)
        return byte

    def about(self, byte):
        """Gives the bytes of which a byte says whether they are 0."""
        return self.any_of.get(byte) or self.equalities.get(byte, ())[:1]

    def enter_domain(self, convert):
        """Forgets all facts about bytes of another domain, but not which are lost."""
        self.equalities, self.any_of = {}, {}
        lost = self.lost
        self.lost = set()
        self.lost |= {convert(b) for b in lost}

    def forget(self, is_forgotten):
        """Forgets facts that depend on whether certain bytes are 0. `is_forgotten` says of bytes whether they are such. The bytes that the
        facts are about may not be anywhere: other bytes may get their names later."""
        self.any_of, self.equalities = ({b: fact for b, fact in facts.items() if not is_forgotten(self.about(b))} for facts in (
            self.any_of, self.equalities))

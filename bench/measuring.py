"""What searches leave behind, counted."""
import os


def nodes_in(cert):
    """The nodes of a certificate's tree that aren't open leaves, of any version; none where no certificate stands there."""
    if not os.path.exists(cert):
        return None
    nodes = None
    with open(cert, "rb") as text:
        for row in text:
            if row == b"tree\n":
                nodes = -1
            elif nodes is not None and row != b"O\n":
                nodes += 1
    return nodes

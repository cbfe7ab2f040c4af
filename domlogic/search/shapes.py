"""Everything that is known of shapes, layer upon layer: normal forms, cutting out, facts, cases."""
from domlogic.search.opening import Opening


class Shapes(Opening):
    """Normal forms, contexts of places, conjunctions, cases: what the assistants work with."""

"""Lines of quads that the measuring tools make."""


def quad_lines(size):
    """Lines of quads, which come in nodes: a type, a name, a number and a node inside with a colour."""
    written, number = 0, 0
    while written < size:
        subject, inside = '<http://example.org/item/%d>' % number, '_:b%d' % number
        lines = ('%s <http://www.w3.org/1999/02/22-rdf-syntax-ns#type> <http://example.org/Item> .\n'
                 '%s <http://example.org/name> "Item number %d" .\n'
                 '%s <http://example.org/count> "%d"^^<http://www.w3.org/2001/XMLSchema#integer> .\n'
                 '%s <http://example.org/part> %s .\n'
                 '%s <http://example.org/colour> "blue"@en .\n'
                 % (subject, subject, number, subject, number % 1000, subject, inside, inside))
        yield lines
        written, number = written + len(lines), number + 1

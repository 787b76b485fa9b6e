"""Boolean trees over named members, and the lists that users give. The tree without leaves is None."""

from collections import namedtuple

from .solids import IDENTITY

Leaf = namedtuple("Leaf", "name placement")
Node = namedtuple("Node", "op left right")


def fold(tree, of_leaf, of_node):
    """The value of a tree, from its leaves up. A list may give a tree 4,096 deep, so this has no recursion."""
    values, todo = [], [tree]
    while todo:
        part = todo.pop()
        if isinstance(part, Leaf):
            values.append(of_leaf(part))
        elif isinstance(part, Node):
            todo += [part.op, part.right, part.left]
        else:
            right, left = values.pop(), values.pop()
            values.append(of_node(part, left, right))
    return values[0]


def leaves_of(tree):
    """The leaves from left to right."""
    found, todo = [], [tree] if tree else []
    while todo:
        part = todo.pop()
        if isinstance(part, Node):
            todo += [part.right, part.left]
        else:
            found.append(part)
    return found


def with_leaves(tree, of_leaf):
    """The tree with another leaf for each."""
    return tree and fold(tree, of_leaf, Node)


def united(tree):
    """What the unions at the root unite, from left to right: leaves, and nodes that are no unions."""
    found, todo = [], [tree] if tree else []
    while todo:
        part = todo.pop()
        if isinstance(part, Node) and part.op == "u":
            todo += [part.right, part.left]
        else:
            found.append(part)
    return found


# A list is a list of products, and a product a list of pairs of operator and leaf, the first operator being `u`.


def products_after(products, items):
    """The list of products with items at its end. An item is an operator and a member."""
    products = [list(product) for product in products]
    for op, member in items:
        if op == "u" or not products:
            products.append([("u", Leaf(member, IDENTITY))])
        else:
            products[-1].append((op, Leaf(member, IDENTITY)))
    return products


def tree_of(products):
    tree = None
    for product in products:
        part = product[0][1]
        for op, leaf in product[1:]:
            part = Node(op, part, leaf)
        tree = Node("u", tree, part) if tree else part
    return tree


def products_of(tree):
    """The list that gives this tree, or None where none does."""
    parts = []
    while isinstance(tree, Node) and tree.op == "u":
        parts.append(tree.right)
        tree = tree.left
    if tree:
        parts.append(tree)
    products = [product_of(part) for part in reversed(parts)]
    return None if None in products else products


def product_of(tree):
    product = []
    while isinstance(tree, Node):
        if tree.op == "u" or isinstance(tree.right, Node):
            return None
        product.append((tree.op, tree.right))
        tree = tree.left
    return [("u", tree)] + product[::-1]

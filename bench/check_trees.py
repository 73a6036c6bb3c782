"""Sound and damaged trees, as the BTrees package finds them and as the rules of the check say.

    python3 check_trees.py

Prints a line for each tree: its name, what the rules say, and what `BTrees.check.check` and `_check()` of the package say, which
together are its check. The last line counts the trees on which the rules and the package agree. Each tree is checked by a process
of its own, since the package may end one that meets a damaged tree.

An object is (class, state); a reference is Ref(number, class). It runs with Debian's python3-btrees.
"""

import subprocess
import sys


class Ref:
    def __init__(self, oid, name):
        self.oid, self.name = oid, name


def tree(*oids):
    return [Ref(oid, "OOBTree") for oid in oids]


def leaf(oid):
    return Ref(oid, "OOBucket")


def items(first, end):
    return tuple(x for n in range(first, end) for x in ("k%02d" % n, n))


def bucket(first, end, after=None):
    return ("OOBucket", (items(first, end),) + ((leaf(after),) if after else ()))


# ---- the trees

def two_levels():
    """What a tree of LEAF 30 is after "k00" to "k30"."""
    return {1: ("OOBTree", ((leaf(2), "k15", leaf(3)), leaf(2))), 2: bucket(0, 15, 3), 3: bucket(15, 31)}


def three_levels():
    return {
        1: ("OOBTree", ((tree(2)[0], "k20", tree(3)[0]), leaf(4))),
        2: ("OOBTree", ((leaf(4), "k10", leaf(5)), leaf(4))),
        3: ("OOBTree", ((leaf(6), "k30", leaf(7)), leaf(6))),
        4: bucket(0, 10, 5), 5: bucket(10, 20, 6), 6: bucket(20, 30, 7), 7: bucket(30, 40),
    }


def changed(objects, **new):
    for name, value in new.items():
        number = int(name[1:])
        if value is None:
            del objects[number]
        else:
            objects[number] = value
    return objects


two, three = two_levels, three_levels
TREES = {
    # sound
    "two_levels": two(),
    "three_levels": three(),
    "empty": {1: ("OOBTree", None)},
    "lone_leaf": {1: ("OOBTree", (((items(0, 3),),),))},
    "bucket_alone": {1: bucket(0, 3)},
    "leaf_without_items": changed(two(), o3=("OOBucket", ((),))),
    "one_child": {1: ("OOBTree", ((leaf(2),), leaf(2))), 2: bucket(0, 3)},
    # damaged one way each
    "root_missing": changed(two(), o1=None),
    "leaf_missing": changed(two(), o3=None),
    "leaf_twice": changed(two(), o1=("OOBTree", ((leaf(2), "k15", leaf(2)), leaf(2)))),
    "leaf_of_two_parents": changed(three(), o3=("OOBTree", ((leaf(5), "k30", leaf(7)), leaf(5)))),
    "root_below_itself": changed(three(), o3=("OOBTree", ((tree(1)[0], "k30", leaf(7)), leaf(6)))),
    "leaf_of_another_class": changed(two(), o3=("OOSet", (("k15", "k16"),))),
    "empty_tree_below": changed(three(), o3=("OOBTree", None)),
    "embedded_leaf_below": changed(three(), o3=("OOBTree", (((items(20, 23),),),))),
    "keys_do_not_rise": changed(two(), o3=("OOBucket", (("k16", 0, "k15", 0),))),
    "keys_of_two_kinds": changed(two(), o3=("OOBucket", ((7, 0, "k16", 0),))),
    "leaf_of_another_kind": changed(two(), o3=("OOBucket", ((7, 0, 8, 0),))),
    "separator_of_another_kind": changed(three(), o3=("OOBTree", ((leaf(6), 30, leaf(7)), leaf(6)))),
    "key_below_its_separator": changed(two(), o3=("OOBucket", (("k14", 0, "k15", 0),))),
    "separator_is_a_key_before": changed(two(), o1=("OOBTree", ((leaf(2), "k14", leaf(3)), leaf(2)))),
    "separator_out_of_bounds": changed(three(), o2=("OOBTree", ((leaf(4), "k20", leaf(5)), leaf(4)))),
    "leaf_too_deep": changed(three(), o1=("OOBTree", ((leaf(4), "k10", tree(2)[0]), leaf(4))), o2=("OOBTree", ((leaf(5), "k20", leaf(6)), leaf(5)))),
    "leaf_too_high": changed(three(), o1=("OOBTree", ((tree(2)[0], "k20", leaf(6)), leaf(4))), o6=bucket(20, 30)),
    "first_is_another_leaf": changed(two(), o1=("OOBTree", ((leaf(2), "k15", leaf(3)), leaf(3)))),
    "first_below_is_another_leaf": changed(three(), o3=("OOBTree", ((leaf(6), "k30", leaf(7)), leaf(7)))),
    "link_is_missing": changed(three(), o5=bucket(10, 20)),
    "link_passes_a_leaf": changed(three(), o4=bucket(0, 10, 6)),
    "last_leaf_has_a_link": changed(two(), o3=bucket(15, 31, 2)),
    "bucket_alone_has_a_link": {1: bucket(0, 3, 2), 2: bucket(3, 6)},
}

# ---- the rules

ROW = {"OOBTree": ("tree", True), "OOTreeSet": ("tree", False), "OOBucket": ("leaf", True), "OOSet": ("leaf", False)}


def kind(key):
    return {int: 0, bytes: 1, str: 2}[type(key)]


def in_row(keys):
    return all(kind(a) == kind(b) and a < b for a, b in zip(keys, keys[1:]))


def leaf_node(state):
    """(keys, next), or None"""
    keys = list(state[0][::2])
    return (keys, state[1].oid if len(state) > 1 else None) if in_row(keys) else None


def node(objects, root, oid):
    """What an object is to the tree: missing, foreign, a lone leaf, a leaf or an inner object."""
    if oid not in objects:
        return ("missing",)
    name, state = objects[oid]
    if root not in objects:
        return ("foreign",)
    own = objects[root][0]
    if name != own:
        if ROW[own][0] != "tree" or ROW[name] != ("leaf", ROW[own][1]):
            return ("foreign",)
    if ROW[name][0] == "leaf":
        found = leaf_node(state)
        return ("leaf",) + found if found else ("foreign",)
    if state is None:
        return ("lone", [], None)
    if len(state) == 1:
        found = leaf_node(state[0][0])
        return ("lone",) + found if found else ("foreign",)
    keys, children = list(state[0][1::2]), [r.oid for r in state[0][::2]]
    return ("inner", keys, children, state[1].oid) if in_row(keys) else ("foreign",)


class Broken(Exception):
    pass


def walk(objects, root):
    seen, met, tour = set(), {}, []

    def visit(oid, low, high, level):
        found = node(objects, root, oid)
        if found[0] == "missing":
            raise Broken(oid, "NodeMissing")
        if oid in seen:
            raise Broken(oid, "Shared")
        if found[0] == "foreign" or (found[0] == "lone" and level > 0):
            raise Broken(oid, "NotATree")
        keys = found[1]
        if keys and kind(keys[0]) != met.setdefault("kind", kind(keys[0])):
            raise Broken(oid, "Keys")
        if any((low is not None and k < low) or (high is not None and not k < high) for k in keys):
            raise Broken(oid, "Bounds")
        if found[0] != "inner" and level != met.setdefault("depth", level):
            raise Broken(oid, "Depth")
        seen.add(oid)
        if found[0] != "inner":
            tour.append(("leaf", oid, found[2], len(keys)))
            return
        tour.append(("inner", oid, found[3], 0))
        bounds = [low] + keys + [high]
        for n, child in enumerate(found[2]):
            visit(child, bounds[n], bounds[n + 1], level + 1)

    visit(root, None, None, 0)
    leaves = [(n, t) for n, t in enumerate(tour) if t[0] == "leaf"]
    for n, t in enumerate(tour):
        if t[0] == "inner" and t[2] != next(oid for m, (_, oid, _, _) in leaves if m > n):
            raise Broken(t[1], "Links")
    for i, (n, t) in enumerate(leaves):
        if t[2] != (leaves[i + 1][1][1] if i + 1 < len(leaves) else None):
            raise Broken(t[1], "Links")
    return "sound %d %d" % (sum(t[3] for t in tour), len(tour))


def by_rules(objects):
    try:
        return walk(objects, 1)
    except Broken as e:
        return "broken O%d %s" % e.args


# ---- the package

def by_package(objects, how):
    import BTrees.OOBTree
    from BTrees.check import check

    class Jar:
        def __init__(self):
            self.objects = {}

        def get(self, ref):
            if ref.oid not in self.objects:
                cls = getattr(BTrees.OOBTree, ref.name)
                ghost = cls.__new__(cls)
                ghost._p_jar = self
                ghost._p_oid = ref.oid.to_bytes(8, "big")
                ghost._p_deactivate()
                self.objects[ref.oid] = ghost
            return self.objects[ref.oid]

        def real(self, state):
            if isinstance(state, Ref):
                return self.get(Ref(state.oid, objects[state.oid][0] if state.oid in objects else state.name))
            if isinstance(state, tuple):
                return tuple(self.real(x) for x in state)
            return state

        def setstate(self, ghost):
            ghost.__setstate__(self.real(objects[int.from_bytes(ghost._p_oid, "big")][1]))

        def register(self, ghost):
            pass

        def readCurrent(self, ghost):
            pass

    root = Jar().get(Ref(1, objects[1][0] if 1 in objects else "OOBTree"))
    root._p_activate()
    if how == "check":
        check(root)
    elif hasattr(root, "_check"):
        root._check()


def asked(name, how):
    try:
        run = subprocess.run([sys.executable, __file__, name, how], capture_output=True, timeout=20)
    except subprocess.TimeoutExpired:
        return "does not end"
    return "sound" if run.returncode == 0 else (run.stderr.decode().strip().splitlines() or ["ended by signal %d" % -run.returncode])[-1]


def main():
    agree = 0
    for name, objects in TREES.items():
        rules, values, pointers = by_rules(objects), asked(name, "check"), asked(name, "pointers")
        same = rules.startswith("sound") == (values == pointers == "sound")
        agree += same
        print("%-28s %-24s check: %s | _check: %s%s" % (name, rules, values[:60], pointers[:60], "" if same else "   DIFFERS"))
    print("%d of %d agree" % (agree, len(TREES)))


if __name__ == "__main__":
    if len(sys.argv) == 3:
        by_package(TREES[sys.argv[1]], sys.argv[2])
    else:
        main()

"""Sentences about counts and cursors in all crates: where they are made, moved, kept, summed up and told."""
from reading import flow, tree
from reading.compare import compared
from sentences.names import FRESH, LOOK, LOOKING, LOOP, RANK, RANK_IN, SCREEN, SEEK, SEEK_IN, SHOWING

# every place at which a field `seeks` or `looks` is read or given
COUNTS = {
    FRESH: ["seeks: 0", "looks: 0"],
    SEEK: ["c.looks", "seeks: c.seeks + 1", "c.seeks", "looks: looks"],
    "rows::totals": ["c.seeks", "c.looks", "seeks: seeks", "looks: looks"],
    "bycommon::put_common": ["listed.seeks", "listed.looks"],
    "panel::put_screen": ["listed.seeks", "listed.looks"],
}
# the structs that hold counts
COUNTING = ["walklaws::Cursor", "querylaws::Listed"]
# those, the query and what seeks hand on with it, with the places at which they are made
MADE = {
    "walklaws::Cursor": [FRESH, SEEK],
    "querylaws::Query": ["querylaws::Query::new"],
    "query::InHand": [LOOP],
    "querylaws::Turn": ["query::turn_of", "query::list_common"],
    "querylaws::Listed": ["rows::totals"],
}
# every place from which a function is called that looks, that makes, moves or sums up cursors, that answers by them, or
# that reads words for a rank
CALLS = {
    LOOK: LOOKING,
    SEEK: [SEEK_IN],
    FRESH: ["querylaws::Query::new"],
    "querylaws::Query::new": ["query::list_common", "kinds::by_bound", "pairs::list_starts", SCREEN],
    SEEK_IN: [LOOP],
    # kinds 3, 2 and 4, and a screen
    LOOP: ["query::list_common", "query::list_common", "kinds::by_bound", "pairs::list_starts", SCREEN],
    "query::turn_of": [LOOP, LOOP],
    "rows::totals": ["query::list_common", SCREEN],
    # pages are counted first where the room may be too small for them
    "query::list_common": ["bycommon::by_common", "bycommon::put_common"],
    "bycommon::put_common": ["bycommon::by_common", "bycommon::by_common"],
    "bycommon::by_common": ["answer::answer_one"],
    "answer::answer_one": ["ask::answer_all"],
    SCREEN: [SHOWING],
    "panel::put_screen": [SHOWING],
    SHOWING: ["jundefola::jf_screen"],
    # a rank is worked out behind the seeks, where kind 2 tells it or a phrase needs it
    RANK: [RANK_IN],
    "maprank::ones_between": [RANK, RANK],
    RANK_IN: ["kinds::by_bound", "starts::page_starts", "trying::turn_next"],
}
# what `seek_in` is given and gives back: the query, and the cursor in hand
IN_HAND = ("q", "hand")
# functions that take each of their steps once
STRAIGHT = [SEEK, SEEK_IN]


def counts_where_named(program):
    """In all crates a count is read or given only at the places of the table: `seek` alone adds to seeks, no struct
    but the cursor and the sums has a count, and no pattern takes those, a query, or what goes on with it apart."""
    found = {}
    for f in program.functions.values():
        for node in tree.every((tree.Field, tree.Given), f.body):
            if node.name in ("seeks", "looks"):
                found.setdefault(f.path, []).append(str(node))
        for apart in tree.every(tree.Apart, f.body):
            if program.meaning(f.crate, apart.type) in MADE:
                yield f"{f.path}: the pattern `{apart}` takes counts, cursors or a query out"
    yield from compared("a count stands in", found, COUNTS)
    for name, fields in program.structs.items():
        if {"seeks", "looks"} & set(fields) and name not in COUNTING:
            yield f"{name}: it has fields for counts"


def made_where_named(program):
    """In all crates cursors, queries, what seeks hand on with them and sums of counts are made only at the places of
    the table, and none of them has a default value."""
    found = {}
    for f in program.functions.values():
        for made in tree.every(tree.Made, f.body):
            found.setdefault(program.meaning(f.crate, made.type), []).append(f.path)
    yield from compared("made in", {name: found.get(name, []) for name in MADE}, MADE)
    yield from (f"{name}: it has a default value" for name in MADE if name in program.with_default)


def called_where_named(program):
    """In all crates the look, the seek, what makes, moves or sums up cursors, and what reads words for a rank are
    called only at the places of the table."""
    found = {}
    for f in program.functions.values():
        for callee, _ in program.calls(f):
            found.setdefault(callee, []).append(f.path)
    yield from compared("called in", {name: found.get(name, []) for name in CALLS}, CALLS)


def steps_once(program):
    """`seek` and `seek_in` have no branch, no loop, no closure and no `?`: each of their steps is taken once."""
    for path in STRAIGHT:
        for node in tree.every(flow.TURNS, program.function(path).body):
            yield f"{path}: `{node}`"


def cursor_kept(program):
    """`seek_in` gives the cursor in hand to the seek, and puts in its place the cursor that the seek gave back; it
    changes nothing else."""
    f = program.function(SEEK_IN)
    changes = tree.every(tree.Assign, f.body)
    yield from (f"{f.path}: `{place}` may be changed there" for place in flow.changed_by_others(f.body))
    seeks = [call for callee, call in program.calls(f) if callee == SEEK]
    if len(seeks) != 1:
        yield f"{f.path}: {len(seeks)} seeks"
        return
    cursor = [p.type for p in program.function(SEEK).parameters].index("Cursor")
    back, given = str(f.body.value), str(seeks[0].arguments[cursor])
    told = [(change.sign, str(change.target), flow.origin(program, f, change.value)) for change in changes]
    if told != [("=", f"{back}.{IN_HAND[1]}", f"{SEEK}()")]:
        yield f"{f.path}: what the seek gave back is put by {', '.join(f'`{change}`' for change in changes)}"
    if given != f"{back}.{IN_HAND[1]}":
        yield f"{f.path}: the seek is given `{given}`, and `{back}` is given back"


def query_kept(program):
    """The loop of seeks puts the cursor that a seek gave back into the slot that it came from, before anything else,
    and changes the query in no other way; nothing else in any crate changes a query's cursors, or lends them to be
    changed."""
    for f in program.functions.values():
        stores = [change for change in tree.every(tree.Assign, f.body) if in_cursors(change.target)]
        yield from (f"{f.path}: `{place}` may be changed there" for place in flow.changed_by_others(f.body)
                    if in_cursors(place))
        if f.path != LOOP:
            yield from (f"{f.path}: `{store}` changes a query's cursors" for store in stores)
        elif len(stores) == 1:
            yield from round_wrong(program, f, stores[0])
        else:
            yield f"{f.path}: it stores cursors at {len(stores)} places"


def in_cursors(place):
    """Whether a place is in a query's cursors."""
    return any(field.name == "cursors" for field in tree.every(tree.Field, place))


def round_wrong(program, f, store):
    """What is wrong with a round of the loop of seeks, which ends in that store."""
    slot, query = str(store.target), flow.root(store.target)
    changes = [change for change in tree.every(tree.Assign, f.body) if flow.root(change.target) == query]
    told = [(str(change.target), flow.origin(program, f, change.value)) for change in changes]
    if told != [(place, f"{SEEK_IN}().{field}") for place, field in zip((query, slot), IN_HAND)]:
        yield f"{f.path}: the query is changed by {', '.join(f'`{change}`' for change in changes)}"
    if query in map(flow.root, flow.changed_by_others(f.body)):
        yield f"{f.path}: the query is changed by what is called"
    starts = [str(let) for let in tree.every((tree.Let, tree.Binder), f.body) if let.name == query]
    first = [name for name in f.of_type("Query")
             if len(flow.mentions(name, f.body)) == 1 and flow.bound(f).count(name) == 1]
    if starts not in [[f"let mut {query} = {name}"] for name in first]:
        yield f"{f.path}: the query that is given is used for more than to start the loop"
    yield from between_wrong(program, f, store, changes)


def between_wrong(program, f, store, changes):
    """What is wrong between taking a cursor out of its slot and storing it there: the seek is given that cursor with
    the query, and all steps are plain ones."""
    steps = [block.statements for block in tree.every(tree.Block, f.body) if store in block.statements][0]
    taken = [i for i, step in enumerate(steps) if isinstance(step, tree.Let) and str(step.value) == str(store.target)]
    if len(taken) != 1:
        yield f"{f.path}: `{store.target}` is taken {len(taken)} times in the round that stores it"
        return
    steps = steps[taken[0]:steps.index(store)]
    for step in steps:
        plain = isinstance(step, tree.Let) or step in changes
        if not plain or tree.every(flow.TURNS + (tree.Block,), step):
            yield f"{f.path}: `{step}` between a seek and the storing of its cursor"
    given = [[(node.name, str(node.value)) for node in tree.every(tree.Given, step)] for step in steps
             if flow.origin(program, f, getattr(step, "value", step)) == f"{SEEK_IN}()"]
    if given != [[*zip(IN_HAND, (flow.root(store.target), steps[0].name))]]:
        yield f"{f.path}: the seek in that round is not given the query and the cursor of `{store.target}`"


SENTENCES = [counts_where_named, made_where_named, called_where_named, steps_once, cursor_kept, query_kept]

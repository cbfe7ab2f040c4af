"""Files that read and aren't well formed: the faults with their places."""
from domlogic.reading.sorts import declared_by, is_command, is_sorted, scope_of, term_sort, walk

BOTH_WAYS = """star_assoc star_left_assoc star_right_assoc star_mid_assoc star_unit unit_star
    star_left_unit star_right_unit plus_assoc plus_unit plus_left_assoc plus_left_unit hole_left
    hole_right app_assoc app_node app_tree app_root app_star_left app_star_right app_plus""".split()
ONE_WAY = """id cut true_in false_out and_in and_left and_right or_left or_right or_out imp_in
    imp_out not_in not_out classical forall_in forall_out exists_in exists_out eq_refl eq_subst
    distinct int_total linear concat plus_comm mono_star mono_star_left mono_star_right
    mono_plus mono_plus_left mono_node mono_tree mono_root mono_app mono_hole_adj mono_ctx_adj
    pure_out pure_in hole_adj_in hole_adj_out ctx_adj_in ctx_adj_out app_exists_part
    app_exists_ctx app_or_part app_or_ctx some cancel_app cancel_left cancel_right cancel_plus
    is_in is_out is_mono node_and tree_and root_and node_some not_null apart_star apart_plus
    apart_up forest_cases grove_cases empty_star empty_plus tree_full root_full head last
    len_empty len_zero len_tree len_star len_some len_unique len_nonneg""".split()
OF_TRIPLES = """skip assign seq if while local call frame consequence eliminate disjunction
    absurd instance name children item item_none parent parent_none create append remove""".split()
OF_VERSION_2 = ["insert_before", "insert_last"]
RULES = {*BOTH_WAYS, *(name + "_back" for name in BOTH_WAYS), *ONE_WAY, *OF_TRIPLES, *OF_VERSION_2}


def has_repeat(items):
    return len(set(items)) < len(items)


def has_unknown(parts, scope):
    """Says whether a variable, bound or not, isn't declared, or a called procedure isn't there."""
    known = {"prog": scope.program, "logic": scope.logic}
    for node in walk(parts):
        if node and node[0] in known and node[1] not in known[node[0]]:
            return True
        if node and node[0] == "call" and node[2] not in scope.procedures:
            return True
    return False


SETTING = (":=", "local", "createNode", "nodeName", "parentNode", "childNodes", "item")


def set_variables(command):
    """Gives the names that a command assigns, has as results or makes local."""
    for node in walk(command):
        if node and node[0] == "call":
            yield from (name for _, name in node[1])
        elif node and node[0] in SETTING:
            yield node[1][1]


def has_wrong_results(command):
    """Says whether the results of a call repeat or stand in its arguments."""
    calls = [node for node in walk(command) if node and node[0] == "call"]
    return any(has_repeat(call[1]) or set(call[1]) & set(walk(call[3])) for call in calls)


def command_faults(command, scope):
    if scope.params & set(set_variables(command)):
        yield "constant"
    if has_wrong_results(command):
        yield "results"


def program_variables(formula):
    return {node[1] for node in walk(formula) if node[0] == "prog"}


def is_of_version(command, theory):
    """Says whether the theory's version has all commands in it. No text has one that it doesn't."""
    return theory.version == 2 or all(node[:1] != ("insertBefore",) for node in walk(command))


def is_rule_of(theory, rule):
    return rule in RULES and (theory.version == 2 or rule not in OF_VERSION_2)


def head_faults(theory):
    """The kinds at the place of the version and the logic variables."""
    if theory.version not in (1, 2):
        yield "version"
    if has_repeat([name for name, _ in theory.logic]):
        yield "twice"


def procedure_faults(theory, place, scope):
    """The kinds at a procedure's header and body, in the order of the table."""
    procedure = theory.procedures[place]
    _, params, results, sort, pre, post, body, _ = procedure
    if not is_of_version(body, theory):
        yield "version"
    earlier = [it.name for it in theory.procedures[:place]]
    if procedure.name in earlier or has_repeat([name for name, _ in declared_by(procedure)]):
        yield "twice"
    if has_unknown((pre, post, body), scope):
        yield "unknown"
    are_sorted = is_sorted(pre, sort, scope) and is_sorted(post, sort, scope)
    if not (are_sorted and is_command(body, scope)):
        yield "sort"
    yield from command_faults(body, scope)
    visible = scope.params | {name for name, _ in results}
    if program_variables(pre) - scope.params or program_variables(post) - visible:
        yield "scope"


def is_judgement(judgement, scope):
    head, *parts, sort = judgement
    commands = [parts.pop(1)] if head == "triple" else []
    return (all(is_sorted(part, sort, scope) for part in parts)
            and all(is_command(command, scope) for command in commands))


def step_faults(theory, step, place, scope):
    """The kinds at a step, in the order of the table."""
    judgement = step.judgement
    if judgement[0] == "triple" and not is_of_version(judgement[2], theory):
        yield "version"
    if has_unknown((judgement, step.arguments), scope):
        yield "unknown"
    are_sorted = all(term_sort(argument, scope) for argument in step.arguments)
    if not (are_sorted and is_judgement(judgement, scope)):
        yield "sort"
    if judgement[0] == "triple":
        yield from command_faults(judgement[2], scope)
    if step.rule is not None and not is_rule_of(theory, step.rule):
        yield "rule"
    if step.number != place:
        yield "number"


def file_faults(theory):
    """Gives the faults with their places: first by place, then by kind."""
    yield from ((0, 0, kind) for kind in head_faults(theory))
    for at, procedure in enumerate(theory.procedures):
        scope = scope_of(theory, procedure)
        yield from ((at + 1, 0, kind) for kind in procedure_faults(theory, at, scope))
        for place, step in enumerate(procedure.steps, 1):
            yield from ((at + 1, place, kind) for kind in step_faults(theory, step, place, scope))

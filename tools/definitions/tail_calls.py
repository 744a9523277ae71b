"""Python functions that call themselves at their end, as loops: a walk through a long list then keeps no old values."""

import ast


def at_end(e, name, names, found):
    """Returns statements that return the value of an expression, or restart the loop if it is such a call."""
    if isinstance(e, ast.IfExp):
        return [ast.If(e.test, at_end(e.body, name, names, found), at_end(e.orelse, name, names, found))]
    if isinstance(e, ast.BoolOp):
        is_or = isinstance(e.op, ast.Or)
        tests = [v if is_or else ast.UnaryOp(ast.Not(), v) for v in e.values[:-1]]
        return [ast.If(t, [ast.Return(ast.Constant(is_or))], []) for t in tests] + at_end(e.values[-1], name, names, found)
    if isinstance(e, ast.Subscript) and isinstance(e.value, ast.Tuple) and isinstance(e.value.elts[0], ast.NamedExpr):
        return [ast.Expr(e.value.elts[0])] + at_end(e.value.elts[1], name, names, found)  # (x := .., ..)[1]
    if isinstance(e, ast.Call) and isinstance(e.func, ast.Name) and e.func.id == name:
        given = {k.arg: k.value for k in e.keywords}
        values = e.args + [given.get(n, ast.Constant(0)) for n in names[len(e.args):]]
        target = ast.Tuple([ast.Name(n, ast.Store()) for n in names], ast.Store())
        found.append(e)
        return [ast.Assign([target], ast.Tuple(values, ast.Load())), ast.Continue()]
    return [ast.Return(e)]


def looped(text, name):
    """Returns the function, whose text is that of a `lambda`, as a loop; None if that makes no difference."""
    function, found = ast.parse(text, mode="eval").body, []
    if any(isinstance(node, ast.Lambda) for node in ast.walk(function.body)):
        return None  # it may keep a variable that the loop changes
    names = [arg.arg for arg in function.args.args + function.args.kwonlyargs]
    body = [ast.While(ast.Constant(True), at_end(function.body, name, names, found), [])]
    made = ast.Module([ast.FunctionDef(name, function.args, body, [])], [])
    return ast.fix_missing_locations(made) if found else None

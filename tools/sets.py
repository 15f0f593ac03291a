"""Makes sets of modules that are large in one way each, for the scripts in tests/ and bench/."""


def module(declarations, name="A"):
    return f"module {name} where {{ " + " ; ".join(declarations) + " }"


def lambda_variables(count):
    return "\\" + " ".join(f"a{n}" for n in range(count)) + " -> "


def lets_below_lambdas(count):
    names = " ; ".join(f"g{n} x = a{n}" for n in range(count))
    return module([f"f = {lambda_variables(count)}let {{ {names} }} in g0 True"])


def declared_below_lambdas(count):
    elements = ", ".join("(\\x -> x) :: a -> a" for _ in range(count))
    return module([f"f = {lambda_variables(count)}[{elements}]"])


def layered(count, modules=256):
    """Modules in layers of 16, a line each. Each has `count` declarations that use those of four modules of the layer before."""
    lines = []
    for number in range(modules):
        layer = number // 16
        below = [16 * (layer - 1) + (number + step) % 16 for step in range(4)] if layer else []
        parts = [f"import qualified M{other} as Q{step}" for step, other in enumerate(below)]
        parts += ["data T a = L | N (T a) a (T a)", "size :: T a -> Int", "size L = 0", "size (N l x r) = const 1 (size l, size r)"]
        for n in range(count):
            used = f"Q{n % 4}.f{n} x" if below else "x"
            parts.append(f"f{n} x = case N L x L of {{ N l y r | True -> let {{ p = ({used}, size l) }} in fst p ; L -> x }}")
        lines.append(module(parts, f"M{number}"))
    return "\n".join(lines)


def chain(size):
    """Modules without declarations, of which each imports the next one."""
    return [module([f"import M{at + 1}"], f"M{at}") for at in range(size - 1)] + [f"module M{size - 1} where {{ }}"]


def apart(size):
    """Modules without imports and declarations."""
    return [f"module M{at} where {{ }}" for at in range(size)]


def layers(size, width, count):
    """Modules of one declaration in layers of a width. Each imports `count` of the layer before."""
    modules = []
    for at in range(size):
        below = (at // width - 1) * width
        others = sorted({below + (at * 7 + other * 13) % width for other in range(count)}) if below >= 0 else []
        modules.append(module([*(f"import M{it}" for it in others), f"x{at} = 1"], f"M{at}"))
    return modules

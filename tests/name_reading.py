#!/usr/bin/env python3
"""A reading of names that shares nothing with the program: what each name that is written in a module means, by the Report's rules of scope.

`uses_of(texts)` reads modules, each after those that it imports, and returns a `Use` for each name. It doesn't judge modules: the caller leaves
out those that are skipped.
"""
import collections
import re
import sys

sys.setrecursionlimit(1000000)

# A name that is written: its module, its place, its text, its kind, whether it is bound there, and what it means.
Use = collections.namedtuple("Use", "module line column text kind binds meaning")

WORDS = set("case class data default deriving do else if import in infix infixl infixr instance let module newtype of then type where _".split())
TOKEN = re.compile(r"""(?P<space>[ \t\n\r\f\v]+)|(?P<line>--+(?![!#$%&*+./<=>?@\\^|~:])[^\n]*)|(?P<open>\{-)
|(?P<name>(?:[A-Z][\w']*\.)*(?:[A-Z][\w']*|[a-z_][\w']*))|(?P<num>0[xX][0-9a-fA-F]+|0[oO][0-7]+|\d+)
|(?P<chr>'(?:\\(?:[^\W\d_]|[\\"'&]|\d+|o[0-7]+|x[0-9a-fA-F]+)|[^\\'])')|(?P<str>"(?:\\[ \t\n\r\f\v]+\\|\\.|[^"\\])*")
|(?P<sym>[!#$%&*+./<=>?@\\^|\-~:]+)|(?P<special>[()\[\]{},;])""", re.X | re.S)

class Tok:
    __slots__ = "kind text line col".split()
    def __init__(s, kind, text, line, col): s.kind, s.text, s.line, s.col = kind, text, line, col

def lex(src):
    at, line, start, out = 0, 1, 0, []
    while at < len(src):
        m = TOKEN.match(src, at)
        assert m, src[at:at + 30]
        kind, end = m.lastgroup, m.end()
        if kind == "open":
            depth, end = 1, at + 2
            while depth:
                if src.startswith("{-", end): depth, end = depth + 1, end + 2
                elif src.startswith("-}", end): depth, end = depth - 1, end + 2
                else: end += 1
        elif kind not in ("space", "line"):
            t = m.group()
            k = "word" if t in WORDS else kind
            if kind == "name" and t not in WORDS:
                last = t.rsplit(".", 1)[-1] if "." in t else t
                k = ("con" if last[0].isupper() else "var")
            out.append(Tok(k, t, line, at - start + 1))
        for i in range(at, end):
            if src[i] == "\n": line, start = line + 1, i + 1
        at = end
    out.append(Tok("end", "", line, at - start + 1))
    return out

class P:
    def __init__(s, toks): s.t, s.i = toks, 0
    def at(s, *texts): return s.t[s.i].text in texts and s.t[s.i].kind in ("word", "sym", "special")
    def look(s): return s.t[s.i]
    def next(s): s.i += 1; return s.t[s.i - 1]
    def eat(s, x): assert s.at(x), (x, s.look().text, s.look().line, s.look().col); return s.next()
    def items(s, item):
        s.eat("{"); out = []
        while not s.at("}"):
            if s.at(";"): s.next(); continue
            out.append(item())
        s.eat("}"); return out
    def commas(s, item, close):
        out = []
        while not s.at(close):
            out.append(item())
            if s.at(","): s.next()
        s.eat(close); return out
    def source(s):
        out = []
        while s.look().kind != "end": out.append(s.module())
        return out
    def module(s):
        s.eat("module"); name, exports = s.next(), None
        if s.at("("): s.next(); exports = s.commas(s.export, ")")
        s.eat("where"); tops = s.items(s.top)
        return (name, exports, [d for d in tops if d[0] == "import"], [d for d in tops if d[0] != "import"])
    def subs(s):
        if not s.at("("): return None
        s.next()
        if s.at(".."): s.next(); s.eat(")"); return "all"
        return s.commas(s.next, ")")
    def export(s):
        if s.at("module"): s.next(); return ("whole", s.next())
        n = s.next()
        return ("var", n) if n.kind == "var" else ("con", n, s.subs())
    def top(s):
        if s.at("import"):
            s.next(); qualified = alias = False; mode, lst = "every", []
            if s.look().text == "qualified": s.next(); qualified = True
            name = s.next()
            if s.look().text == "as": s.next(); alias = s.next()
            if s.look().text == "hiding": s.next(); mode = "hiding"
            if s.at("("): s.next(); mode = mode if mode == "hiding" else "only"; lst = s.commas(s.export, ")")
            return ("import", qualified, name, alias, mode, lst)
        if s.at("data", "newtype", "type"):
            word = s.next().text; name, params = s.next(), []
            while s.look().kind == "var": params.append(s.next())
            s.eat("=")
            if word == "type": return ("type", name, params, s.type())
            cons = [s.constr()]
            while s.at("|"): s.next(); cons.append(s.constr())
            return ("data", name, params, cons)
        return s.decl()
    def constr(s):
        name, args = s.next(), []
        while s.starts_atype(): args.append(s.atype())
        return (name, args)
    def starts_atype(s): return s.look().kind in ("con", "var") or s.at("(", "[")
    def type(s):
        if s.look().kind == "con":
            head, args = s.next(), []
            while s.starts_atype(): args.append(s.atype())
            t = ("tcon", head, args)
        else: t = s.atype()
        if s.at("->"): s.next(); return ("parts", [t, s.type()])
        return t
    def atype(s):
        if s.look().kind == "con": return ("tcon", s.next(), [])
        if s.look().kind == "var": return ("tvar", s.next())
        close = {"(": ")", "[": "]"}[s.next().text]
        return ("parts", s.commas(s.type, close))
    def decl(s):
        # a signature, a clause or a pattern binding
        save = s.i
        if s.look().kind == "var":
            names = [s.next()]
            while s.at(","): s.next(); names.append(s.next())
            if s.at("::"): s.next(); return ("sig", names, s.type())
            s.i = save
            name = s.next()
            if not s.at("@") and not s.at(":"):
                pats = []
                while not s.at("=", "|"): pats.append(s.apat())
                return ("clause", name, pats, s.rhs("="))
            s.i = save
        p = s.pat()
        return ("pat", p, s.rhs("="))
    def rhs(s, mark):
        parts = []
        if s.at(mark): s.next(); parts.append((None, s.exp()))
        else:
            while s.at("|"): s.next(); g = s.exp(); s.eat(mark); parts.append((g, s.exp()))
        local = []
        if s.at("where"): s.next(); local = s.items(s.decl)
        return (parts, local)
    def exp(s):
        e = s.opd()
        while s.at(":"): s.next(); e = ("parts", [e, s.opd()])
        if s.at("::"): s.next(); return ("typed", e, s.type())
        return e
    def opd(s):
        if s.at("\\"):
            s.next(); pats = []
            while not s.at("->"): pats.append(s.apat())
            s.next(); return ("lam", pats, s.exp_open())
        if s.at("let"): s.next(); ds = s.items(s.decl); s.eat("in"); return ("let", ds, s.exp_open())
        if s.at("if"):
            s.next(); a = s.exp(); s.eat("then"); b = s.exp(); s.eat("else"); return ("parts", [a, b, s.exp_open()])
        if s.at("case"): s.next(); e = s.exp(); s.eat("of"); return ("case", e, s.items(lambda: (s.pat(), s.rhs("->"))))
        out = [s.aexp()]
        while s.look().kind in ("con", "var", "num", "chr", "str") or s.at("(", "["): out.append(s.aexp())
        return ("parts", out)
    def exp_open(s): return s.exp()
    def aexp(s):
        k = s.look().kind
        if k == "var": return ("var", s.next())
        if k == "con": return ("con", s.next())
        if k in ("num", "chr", "str"): s.next(); return ("parts", [])
        close = {"(": ")", "[": "]"}[s.next().text]
        if s.at(":"): s.next(); s.eat(close); return ("parts", [])
        while s.at(","): s.next()
        return ("parts", s.commas(s.exp, close))
    def pat(s):
        if s.look().kind == "con":
            n, args = s.next(), []
            while s.look().kind in ("con", "var", "num", "chr", "str") or s.at("(", "[", "_", "~"): args.append(s.apat())
            p = ("pcon", n, args)
        else: p = s.apat()
        # `(:) p q` and the like: further arguments of a special constructor
        more = []
        while s.look().kind in ("con", "var", "num", "chr", "str") or s.at("(", "[", "_", "~"): more.append(s.apat())
        if more: p = ("pparts", [p] + more)
        if s.at(":"): s.next(); return ("pparts", [p, s.pat()])
        return p
    def apat(s):
        k = s.look().kind
        if k == "var":
            n = s.next()
            if s.at("@"): s.next(); return ("as", n, s.apat())
            return ("pvar", n)
        if k == "con": return ("pcon", s.next(), [])
        if k in ("num", "chr", "str") or s.at("_"): s.next(); return ("pparts", [])
        if s.at("~"): s.next(); return s.apat()
        close = {"(": ")", "[": "]"}[s.next().text]
        if s.at(":"): s.next(); s.eat(close); return ("pparts", [])
        while s.at(","): s.next()
        return ("pparts", s.commas(s.pat, close))

def binders(p):
    if p[0] == "pvar": yield p[1]
    elif p[0] == "as": yield p[1]; yield from binders(p[2])
    elif p[0] == "pcon":
        for q in p[2]: yield from binders(q)
    else:
        for q in p[1]: yield from binders(q)
def bound(ds):
    for d in ds:
        if d[0] == "clause": yield d[1]
        elif d[0] == "pat": yield from binders(d[1])
def table(names):
    out = {}
    for n in names: out.setdefault(n.text, f"{n.line}:{n.col}")
    return out
def tvars(t):
    if t[0] == "tvar": yield t[1]
    else:
        for u in (t[2] if t[0] == "tcon" else t[1]): yield from tvars(u)

PRELUDE = {"t": "Bool Char Either Int Maybe Ordering String".split(), "c": {"Bool": "False True", "Ordering": "LT EQ GT", "Maybe": "Nothing Just", "Either": "Left Right"},
  "v": """id const asTypeOf seq flip until undefined error not otherwise fst snd curry uncurry maybe either map filter takeWhile dropWhile span break any all and or concat concatMap head last tail init reverse cycle null length foldr foldl foldr1 foldl1 scanl scanr iterate repeat replicate take drop splitAt zip zipWith unzip lines words unlines unwords""".split()}
def prelude():
    """exports of a module: {(space, name): entity}, and the type of each constructor entity"""
    ex, of = {}, {}
    for t in PRELUDE["t"]: ex["t", t] = "Prelude." + t
    for t, cs in PRELUDE["c"].items():
        for c in cs.split(): ex["c", c] = "Prelude." + c; of["Prelude." + c] = "Prelude." + t
    for v in PRELUDE["v"]: ex["v", v] = "Prelude." + v
    return ex, of

class Reading:
    def __init__(s, module, known, out):
        s.name, s.exports, s.imports, s.decls = module
        s.home, s.known, s.out = s.name.text, known, out
        s.of = {}
        for m in known.values(): s.of.update(m[1])
        s.scope, s.prefixes = {}, {s.home}
        own = []
        for d in s.decls:
            if d[0] in ("data", "type"): own.append(("t", d[1].text))
            if d[0] == "data":
                for c, _ in d[3]: own.append(("c", c.text)); s.of[f"{s.home}.{c.text}"] = f"{s.home}.{d[1].text}"
        own += [("v", n.text) for n in bound(s.decls)]
        s.top = {x for k, x in own if k == "v"}
        s.own = own
        for k, x in own:
            for n in (x, f"{s.home}.{x}"): s.scope.setdefault((k, n), set()).add(f"{s.home}.{x}")
        imports = list(s.imports)
        if not any(i[2].text == "Prelude" for i in imports): imports.append(("import", False, Tok("con", "Prelude", 0, 0), False, "every", []))
        for _, qualified, name, alias, mode, lst in imports:
            ex, of = known[name.text]
            prefix = alias.text if alias else name.text
            s.prefixes.add(prefix)
            named = set()
            for it in lst:
                n = it[1].text
                if it[0] == "var": named.add(("v", n)); continue
                named.add(("t", n))
                if it[2] is None and mode == "hiding": named.add(("c", n))
                for (k, x), e in ex.items():
                    if k == "c" and ("t", n) in ex and of.get(e) == ex["t", n] and (it[2] == "all" or it[2] and x in [c.text for c in it[2]]): named.add((k, x))
            for (k, x), e in ex.items():
                if mode == "every" or ((k, x) in named) == (mode == "only"):
                    for n in ([] if qualified else [x]) + [f"{prefix}.{x}"]: s.scope.setdefault((k, n), set()).add(e)
    def add(s, tok, kind, binds, meaning):
        s.out.append(Use(s.home, tok.line, tok.col, tok.text, kind, binds, meaning))
    def global_(s, k, n):
        e = s.scope.get((k, n), set())
        return "unbound" if not e else "ambiguous" if len(e) > 1 else "entity " + next(iter(e))
    def read(s):
        s.add(s.name, "module", True, "module " + s.home)
        for it in s.exports or []:
            if it[0] == "var": s.add(it[1], "variable", False, s.global_("v", it[1].text))
            elif it[0] == "whole": s.add(it[1], "module", False, "prefix " + it[1].text if it[1].text in s.prefixes else "unbound")
            else:
                t = s.global_("t", it[1].text)
                s.add(it[1], "type", False, t)
                for c in it[2] if isinstance(it[2], list) else []:
                    found = {e for (k, n), es in s.scope.items() if k == "c" and (n == c.text or n.endswith("." + c.text)) for e in es if t == "entity " + s.of.get(e, "?")}
                    s.add(c, "constructor", False, "entity " + sorted(found)[0] if found else "unbound")
        for _, qualified, name, alias, mode, lst in s.imports:
            ex, of = s.known[name.text]
            s.add(name, "module", False, "module " + name.text)
            if alias: s.add(alias, "module", True, "prefix " + alias.text)
            get = lambda k, x: "entity " + ex[k, x] if (k, x) in ex else "unbound"
            for it in lst:
                if it[0] == "var": s.add(it[1], "variable", False, get("v", it[1].text)); continue
                s.add(it[1], "type", False, get("t", it[1].text))
                if it[2] is None and mode == "hiding": s.add(it[1], "constructor", False, get("c", it[1].text))
                for c in it[2] if isinstance(it[2], list) else []:
                    ok = ("c", c.text) in ex and ("t", it[1].text) in ex and of.get(ex["c", c.text]) == ex["t", it[1].text]
                    s.add(c, "constructor", False, get("c", c.text) if ok else "unbound")
        s.list(s.decls, {}, None)
    def binder(s, tok, group, binds):
        if group is None: m = f"entity {s.home}.{tok.text}" if tok.text in s.top else "unbound"
        else: m = "local " + group[tok.text] if tok.text in group else "unbound"
        s.add(tok, "variable", binds, m)
    def type(s, t, vs):
        if t[0] == "tvar": s.add(t[1], "type variable", False, "tyvar " + vs[t[1].text] if t[1].text in vs else "unbound")
        elif t[0] == "tcon":
            s.add(t[1], "type", False, s.global_("t", t[1].text))
            for u in t[2]: s.type(u, vs)
        else:
            for u in t[1]: s.type(u, vs)
    def list(s, ds, env, group):
        for d in ds:
            if d[0] in ("data", "type"):
                s.add(d[1], "type", True, f"entity {s.home}.{d[1].text}")
                vs = table(d[2])
                for p in d[2]: s.add(p, "type variable", True, "tyvar " + vs[p.text])
                if d[0] == "type": s.type(d[3], vs)
                else:
                    for c, args in d[3]:
                        s.add(c, "constructor", True, f"entity {s.home}.{c.text}")
                        for a in args: s.type(a, vs)
            elif d[0] == "sig":
                for n in d[1]: s.binder(n, group, False)
                s.type(d[2], table(tvars(d[2])))
            elif d[0] == "clause":
                s.binder(d[1], group, True)
                own = table(b for p in d[2] for b in binders(p))
                for p in d[2]: s.pat(p, own)
                s.rhs(d[3], {**env, **own})
            else:
                s.pat(d[1], group); s.rhs(d[2], env)
    def pat(s, p, group):
        if p[0] == "pvar": s.binder(p[1], group, True)
        elif p[0] == "as": s.binder(p[1], group, True); s.pat(p[2], group)
        elif p[0] == "pcon":
            s.add(p[1], "constructor", False, s.global_("c", p[1].text))
            for q in p[2]: s.pat(q, group)
        else:
            for q in p[1]: s.pat(q, group)
    def rhs(s, r, env):
        own = table(bound(r[1])); env = {**env, **own}
        for g, e in r[0]:
            if g: s.exp(g, env)
            s.exp(e, env)
        s.list(r[1], env, own)
    def exp(s, e, env):
        if e[0] == "var": s.add(e[1], "variable", False, "local " + env[e[1].text] if e[1].text in env else s.global_("v", e[1].text))
        elif e[0] == "con": s.add(e[1], "constructor", False, s.global_("c", e[1].text))
        elif e[0] == "parts":
            for x in e[1]: s.exp(x, env)
        elif e[0] == "typed": s.exp(e[1], env); s.type(e[2], table(tvars(e[2])))
        elif e[0] == "lam":
            own = table(b for p in e[1] for b in binders(p))
            for p in e[1]: s.pat(p, own)
            s.exp(e[2], {**env, **own})
        elif e[0] == "let":
            own = table(bound(e[1])); env = {**env, **own}
            s.list(e[1], env, own); s.exp(e[2], env)
        else:
            s.exp(e[1], env)
            for p, r in e[2]:
                own = table(binders(p)); s.pat(p, own); s.rhs(r, {**env, **own})
    def exported(s):
        if s.exports is None: ex = {(k, x): f"{s.home}.{x}" for k, x in s.own}
        else:
            ex = {}
            one = lambda k, n: next(iter(s.scope[k, n])) if len(s.scope.get((k, n), ())) == 1 else None
            for it in s.exports:
                if it[0] == "whole":
                    for (k, n), es in list(s.scope.items()):
                        if "." not in n:
                            for e in es & s.scope.get((k, f"{it[1].text}.{n}"), set()): ex[k, n] = e
                elif it[0] == "var":
                    if one("v", it[1].text): ex["v", it[1].text.rsplit(".", 1)[-1]] = one("v", it[1].text)
                else:
                    t = one("t", it[1].text)
                    if not t: continue
                    ex["t", it[1].text.rsplit(".", 1)[-1]] = t
                    for (k, n), es in s.scope.items():
                        x = n.rsplit(".", 1)[-1]
                        if k == "c" and it[2] and (it[2] == "all" or x in [c.text for c in it[2]]):
                            for e in es:
                                if s.of.get(e) == t: ex[k, x] = e
        return ex, {e: s.of[e] for e in ex.values() if e in s.of}

def uses_of(texts):
    """Returns the uses of the modules of these texts, which stand after those that they import."""
    known, found = {"Prelude": prelude()}, []
    for module in P(lex("\n".join(texts))).source():
        own = []
        reading = Reading(module, known, own)
        reading.read()
        known[reading.home] = reading.exported()
        found += own
    return found

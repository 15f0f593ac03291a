#!/usr/bin/env python3
"""Texts of types: whether one has variables, and whether it is an instance of another."""
import re

TOKEN = re.compile(r"->|[()\[\],]|[A-Za-z][\w.']*")
STRING = ["[]", "Char"]


def parse(text):
    """A type as nested lists: a name, or a constructor with its arguments."""
    tokens = TOKEN.findall(text)

    def function():
        left = applied()
        if tokens and tokens[0] == "->":
            tokens.pop(0)
            return ["->", left, function()]
        return left

    def applied():
        parts = [atom()]
        while tokens and tokens[0] not in ("->", ")", "]", ","):
            parts.append(atom())
        return parts[0] if len(parts) == 1 else parts

    def atom():
        word = tokens.pop(0)
        if word == "[":
            inner = function()
            tokens.pop(0)
            return ["[]", inner]
        if word != "(":
            return STRING if word == "String" else word
        parts = []
        while tokens[0] != ")":
            parts.append(function())
            if tokens[0] == ",":
                tokens.pop(0)
        tokens.pop(0)
        return parts[0] if len(parts) == 1 else [f"({len(parts)})", *parts]

    return function()


def has_variables(text):
    """Whether a type has variables."""
    return any(it[0].islower() for it in TOKEN.findall(text))


def is_instance(text, scheme):
    """Whether a type is what another one is with types in place of its variables."""
    found = {}

    def fits(general, special):
        if isinstance(general, str):
            if general[0].islower():
                return found.setdefault(general, special) == special
            return general == special
        return isinstance(special, list) and len(special) == len(general) and all(map(fits, general, special))

    return fits(parse(scheme), parse(text))

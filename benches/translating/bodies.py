"""Writes the actors of a source as bodies with parameters, and actors that are made of these."""
import re

TOKEN = re.compile(r"//[^\n]*|/\*.*?\*/|0[xX][0-9a-fA-F]+|\w+|[=!<>]=|.|\n", re.DOTALL)
ACTOR = re.compile(r"^(task|interrupt) (\w+) \{\n(.*?)^\}\n", re.MULTILINE | re.DOTALL)
NUMBER = re.compile(r"0[xX][0-9a-fA-F]+|\d+")


def may_be_given(tokens, at, names):
    """Whether a parameter may stand in place of a token: of a number, but not of a call's answer, of a name from outside, or of portMAX_DELAY."""
    if tokens[at] in names or tokens[at] == "portMAX_DELAY":
        return True
    if not NUMBER.fullmatch(tokens[at]):
        return False
    before = [it for it in tokens[max(at - 9, 0):at] if it.strip(" \n\t")][-2:]
    after = [it for it in tokens[at + 1:at + 9] if it.strip(" \n\t")][:3]
    is_answer = len(before) == 2 and before[1] in ("==", "!=") and before[0] == ")"
    return not is_answer and not (len(after) == 3 and after[0] in ("==", "!=") and "(" in after[1:])


def given(chance, token):
    """A value that means the same as the token."""
    if not NUMBER.fullmatch(token):
        return token
    number = int(token, 0)
    return chance.choice([token, token, f"{number} + 0", f"({number + 2} - 2)", hex(number)])


def another(chance, token):
    """A value that may mean something else than the token: for a number, for a shared variable, for a function."""
    if NUMBER.fullmatch(token):
        return str(chance.choice([int(token, 0), 0, 1, 2]))
    return chance.choice([token, {"s": "t", "t": "s", "f": "g", "g": "f", "ONE": "TWO", "TWO": "ONE"}.get(token, token)])


def places_in(chance, tokens, names):
    """The tokens in whose place there is a parameter, and where that is."""
    places, kept = {}, {token for token in tokens if chance.random() < 0.3}
    for at, token in enumerate(tokens):
        if token not in kept and chance.random() < 0.8 and may_be_given(tokens, at, names):
            places.setdefault(token, []).append(at)
    return places


def filled(tokens, places, words):
    """The body with these words in the places, one for each token there."""
    tokens = list(tokens)
    for word, token in zip(words, places):
        for at in places[token]:
            tokens[at] = word
    return "".join(tokens)


def outside_names(text):
    """What a source declares outside its actors."""
    return set(re.findall(r"^(?:const|shared|mutex|recursive|binary|counting|queue|stream|message|function) (\w+)", text, re.MULTILINE))


def with_bodies(chance, text):
    """A source in which some of the actors of `text` are there a second time, with other values; and one that means the same, whose actors are
    made of bodies with parameters."""
    names, plain, made, end = outside_names(text), [], [], 0
    for number, actor in enumerate(ACTOR.finditer(text)):
        kind, name, body = actor.groups()
        tokens = TOKEN.findall(body)
        places = places_in(chance, tokens, names)
        words = [f"p_{it}" for it in range(len(places))]
        plain.append(text[end:actor.start()])
        made.append(text[end:actor.start()])
        end, actors = actor.end(), [(name, list(places))]
        if chance.random() < 0.4:
            actors.append((f"{name}_again", [another(chance, it) for it in places]))
        if places:
            made.append(f"{kind} body_{number}({', '.join(words)}) {{\n{filled(tokens, places, words)}}}\n")
        for copy, values in actors:
            plain.append(f"{kind} {copy} {{\n{filled(tokens, places, values)}}}\n")
            made.append(f"{kind} {copy} = body_{number}({', '.join(given(chance, it) for it in values)});\n" if places else plain[-1])
    return "".join(plain) + text[end:], "".join(made) + text[end:]

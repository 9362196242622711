"""What is wrong with a module of the pages, as far as a short look at its text tells."""

import re

# names that a browser has, and words of the language
GLOBALS = set("""AbortController Array AudioContext Blob Boolean Date Error Infinity Intl JSON Map Math NaN Number
    Object Option Promise RegExp Set String TextEncoder URL Uint8Array clearInterval clearTimeout crypto document fetch
    globalThis history localStorage location navigator performance sessionStorage setInterval setTimeout undefined
    window""".split())
WORDS = set("""async await break case catch class const constructor continue default delete do else export extends
    false finally for from function get if import in instanceof let new null of return set static super switch this
    throw true try typeof void while""".split())
MARKS = re.compile(r"""//[^\n]*|/\*.*?\*/|"(?:[^"\\\n]|\\.)*"|'(?:[^'\\\n]|\\.)*'"""
                   r"""|(?:(?<=[(,=:[!&|?{};>\n])|(?<=return))\s*/(?![*/])"""
                   r"""(?:[^/\\\n\[]|\\.|\[(?:[^\]\\\n]|\\.)*\])+/[a-z]*""", re.S)
# what no module has
NEVER = {
    "a value that is compared by == or !=": r"[^=!<>]==[^=]|!=[^=]",
    "a text that is read as HTML": r"(?:inner|outer)HTML\s*\+?=[^=]|insertAdjacentHTML|document\.write",
    "a text that is run": r"\beval\(|new Function\b",
    "what is left of a search for a mistake": r"\bconsole\.|\bdebugger\b",
    "state outside of an object": r"^(?:let|var) ",
    "a var": r"\bvar ",
}


def code_of(text):
    """The text without comments, strings and patterns; of a template what is filled in stays."""
    text = re.sub(r"`(?:[^`\\]|\\.)*`", lambda it: " ".join(re.findall(r"\$\{(.*?)\}", it[0], re.S)) or "0", text)
    return MARKS.sub(lambda it: "\n" if it[0].startswith("//") else " 0 ", text)


def imports_of(text):
    """The names that a module imports, each with the module that it comes from."""
    for names, other in re.findall(r'^import \{([^}]*)\} from "\./([^"]*)";$', text, re.M):
        for name in filter(None, (it.strip() for it in names.split(","))):
            yield name.split(" as ")[0], name.split(" as ")[-1], other
    for name, other in re.findall(r'^import \* as (\w+) from "\./([^"]*)";$', text, re.M):
        yield None, name, other


def exports_of(text):
    return re.findall(r"^export (?:async )?(?:const|function|class) (\w+)", text, re.M)


def undeclared(text):
    """The names that a module uses, and that nothing in it declares: no import, constant, function or parameter."""
    code = code_of(re.sub(r"^import .*$", "", text, flags=re.M))

    def names(found):
        return {name for part in found for name in re.findall(r"\w+", part)}

    known = GLOBALS | WORDS | {own for _, own, _ in imports_of(text)}
    known |= names(re.findall(r"\b(?:const|let) (\w+|\{[^=]*?\}|\[[^=]*?\])(?= =| of|;)", code))
    known |= names(re.findall(r"\b(?:const|let) (\{.*?\}|\[.*?\])(?= = | of )", code))
    known |= names(re.findall(r"\b(?:function|class) (\w+)", code))
    # what stands in brackets before an arrow or a body
    inside = r"\(((?:[^()]|\((?:[^()]|\([^()]*\))*\))*)\)"
    known |= names(re.findall(rf"(?<!\bif )(?<!while )(?<!switch ){inside} (?:=>|\{{)", code))
    # methods, and keys of objects
    used = re.sub(r"(?:^ +|[{,] )(?:async |static |get |set )*\w+\((?:[^()]|\([^()]*\))*\) \{", " {", code, flags=re.M)
    used = re.findall(r"(?<![.\w$])([A-Za-z_$][\w$]*)\b(?!:)", re.sub(r"\.\.\.", " ", used))
    return sorted(set(used) - known)


def faults(name, modules, others):
    """What is wrong with a module among all modules; `others` is the text of the tests, which use some exports."""
    text = modules[name]
    body = re.sub(r"^import .*$", "", text, flags=re.M)
    code, found = code_of(body), []
    if not text.startswith("//"):
        found.append(f"{name} doesn't begin by what it is for")
    for exported, own, other in imports_of(text):
        if not re.search(rf"\b{own}\b", body):
            found.append(f"{name} imports {own}, and doesn't use it")
        if exported is not None and exported not in exports_of(modules[other]):
            found.append(f"{name} imports {exported}, which {other} doesn't have")
    for exported in exports_of(text):
        users = [it for it in modules if it != name and re.search(rf"\b{exported}\b", modules[it])]
        if not users and not re.search(rf"\b{exported}\b", others):
            found.append(f"{name} exports {exported} for nobody")
    found += [f"{name} has {what}" for what, form in NEVER.items() if re.search(form, code, re.M)]
    return found + [f"{name} uses {it}, which it doesn't declare" for it in undeclared(text)]

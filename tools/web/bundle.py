"""A page with its modules as one file, which opens from a folder too, where a browser loads no modules."""

import base64
import json
import re


def bundled(page, module, made):
    """The page's text: each .mjs that it imports is a function's body, the WebAssembly module stands in it in base 64, and its style sheet in
    it too. `made` says what it was made from."""
    parts, names = [], {}

    def wasm():
        text = base64.b64encode(module.read_bytes()).decode()
        return f"const moduleBytes = Uint8Array.from(atob(\"{text}\"), (it) => it.charCodeAt(0));\nconst made = {json.dumps(made)};", ["moduleBytes", "made"]

    def script(path):
        text = path.read_text()
        place = lambda found: f"const {found[1]} = {add((path.parent / found[2]).resolve())};"
        text = re.sub(r'(?m)^import (\{[^}]*\}) from "([^"]+)";$', place, text)
        given = re.findall(r"(?m)^export (?:async )?(?:function\*?|class|const) (\w+)", text)
        return re.sub(r"(?m)^export ", "", text), given

    def add(path):
        if path not in names:
            names[path] = None
            text, given = wasm() if path.name == "module.mjs" else script(path)
            names[path] = re.sub(r"\W", "_", path.name)
            parts.append(f"const {names[path]} = await (async () => {{\n{text}\nreturn {{ {', '.join(given)} }};\n}})();")
        return names[path]

    text = page.read_text()
    style = re.search(r'<link rel="stylesheet" href="([^"]+)">', text)
    source = re.search(r'<script type="module" src="([^"]+)"></script>', text)
    add((page.parent / source[1]).resolve())
    whole = "\n".join(parts).replace("</script", "<\\/script")
    text = text.replace(style[0], f"<style>\n{(page.parent / style[1]).read_text()}</style>")
    return text.replace(source[0], f'<script type="module">\n{whole}\n</script>')

"""Packs the page, its module and the examples into one file, and allows just its own script and style.

  pack.py WEB MODULE.wasm EXAMPLES PAGE.html SOURCES      SOURCES is the hash that the page carries (tools/page_sources.py)
"""
import base64
import gzip
import hashlib
import json
import re
import sys
from pathlib import Path

web, module, examples, to = map(Path, sys.argv[1:5])
scripts = sorted(examples.glob('*.script'), key=lambda file: (file.stem != 'camera', file.stem))
named = {file.stem: file for file in scripts} | {f'{file.stem}.actors': file.with_suffix('.actors') for file in sorted(examples.glob('*.outcomes'))}
texts = json.dumps({name: file.read_text() for name, file in named.items()}).replace('<', '\\u003c')
code = ''.join(f'\n{(web / name).read_text()}' for name in ('page.js', 'orders.js'))
page = (web / 'index.html').read_text()
style = re.search(r'<style>(.*?)</style>', page, re.S)[1]


def allowed(text):
    return f"'sha256-{base64.b64encode(hashlib.sha256(text.encode()).digest()).decode()}'"


policy = f"default-src 'none'; script-src {allowed(code)} 'wasm-unsafe-eval'; worker-src blob:; style-src {allowed(style)}; base-uri 'none'; form-action 'none'"
parts = {
    '<meta name="sources" content="">': f'<meta name="sources" content="{sys.argv[5]}">',
    "content=\"default-src 'none'\"": f'content="{policy}"',
    '<script id="module" type="application/octet-stream"></script>':
        f'<script id="module" type="application/octet-stream">{base64.b64encode(gzip.compress(module.read_bytes(), mtime=0)).decode()}</script>',
    '<script id="examples" type="application/json">{}</script>': f'<script id="examples" type="application/json">{texts}</script>',
    '<script src="page.js"></script>\n<script src="orders.js"></script>': f'<script>{code}</script>',
}
for old, new in parts.items():
    assert page.count(old) == 1, old
    page = page.replace(old, new)
to.write_text(page)

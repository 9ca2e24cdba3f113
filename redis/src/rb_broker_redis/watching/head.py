"""What a page begins with: its title, its style, and a policy that lets a browser run no script but the page's own, by
that script's hash, and load nothing."""
import base64
import hashlib
from html import escape
from pathlib import Path

STYLE = Path(__file__).with_name("style.css").read_text("utf-8")  # of all pages


def _hash(text: str) -> str:
    return "'sha256-" + base64.b64encode(hashlib.sha256(text.encode()).digest()).decode() + "'"


def head(title: str, style: str, script: str, allows: str = "", form_action: str = "'none'") -> str:
    """The page up to its body, which ends with this script. `allows` is what else the policy lets it do, and
    `form_action` where its forms may lead."""
    sources = f"style-src {_hash(style)}; script-src {_hash(script)}"
    policy = f"default-src 'none'; {sources}; base-uri 'none'; form-action {form_action}{allows}"
    return (
        '<!DOCTYPE html>\n<html lang="en">\n<head>\n<meta charset="utf-8">\n'
        f'<meta http-equiv="Content-Security-Policy" content="{escape(policy)}">\n'
        '<meta name="viewport" content="width=device-width, initial-scale=1">\n'
        '<meta name="color-scheme" content="light dark">\n'
        f"<title>{escape(title)}</title>\n<style>{style}</style>\n</head>\n"
    )

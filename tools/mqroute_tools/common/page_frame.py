"""What every page of HTML begins and ends with: it loads nothing and runs nothing."""
from .page_style import SHARED

POLICY = "default-src 'none'; style-src 'unsafe-inline'; base-uri 'none'; form-action 'none'"
ENDING = "</main></body></html>\n"


def beginning(title: str, style: str) -> str:
    """Up to the first heading, with the title as HTML has it. `style` stands behind the style that
    all pages share."""
    return ("<!doctype html>\n<html lang='en'><head><meta charset='utf-8'>"
            f"<meta http-equiv='Content-Security-Policy' content=\"{POLICY}\">"
            "<meta name='viewport' content='width=device-width, initial-scale=1'>"
            f"<title>{title}</title><style>\n{SHARED}{style}</style></head>\n"
            "<body><main>\n")

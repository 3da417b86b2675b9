"""The report with its picture as one page that can be mailed: nothing in it is fetched."""
import html


def html_page(name, picture, lines):
    text = html.escape("\n".join(lines))
    return ("<!DOCTYPE html>\n<html lang=\"en\"><head><meta charset=\"utf-8\">"
            f"<title>{html.escape(name)}: the size of its cache</title>\n"
            "<style>body{font-family:sans-serif;max-width:72em;margin:2em auto;padding:0 1em}svg{max-width:100%;height:auto}pre{overflow-x:auto}</style></head>\n"
            f"<body><h1>{html.escape(name)}</h1>\n{picture}\n<pre>{text}</pre></body></html>\n")

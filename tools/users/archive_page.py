"""The page of an archive (archive.py): all of its recordings, each with its services and what is displayed of them, and those that failed."""

from html import escape

from extract import path_url

STYLE = """
body{font:15px/1.5 sans-serif;margin:0 auto;padding:0 1em 4em;max-width:1280px;color:#202428;background:#fff}
h1{font-size:1.5em}h2{font-size:1.2em}table{border-collapse:collapse;width:100%}
td,th{text-align:left;vertical-align:top;padding:.3em .8em;border-bottom:1px solid #d8dce0;overflow-wrap:anywhere}
img{width:240px;height:135px;object-fit:contain;background:#404850;display:block}small{color:#586068}.fault{background:#fff0d0}
ul{margin:0;padding-left:1.2em}
"""
POLICY = "script-src 'none'; object-src 'none'; frame-src 'none'; connect-src 'none'"


def printable(path):
    """Returns a path as it is told: what isn't a printable text in it is \\xHH."""
    text = path.encode("utf-8", "surrogateescape").decode("utf-8", "backslashreplace")
    return "".join(it if it.isprintable() else f"\\x{ord(it):02x}" for it in text)


def parts(sources, done, failed):
    """Yields the page, piece by piece."""
    yield f'<!DOCTYPE html><html lang="en"><head><meta charset="utf-8"><meta http-equiv="Content-Security-Policy" content="{POLICY}">'
    yield f'<meta name="viewport" content="width=device-width"><title>An archive of recordings</title><style>{STYLE}</style></head><body>'
    left = len(sources) - len(done) - len(failed)
    told = f"{len(sources):,} recordings: {len(done):,} done, {len(failed):,} failed" + (f", {left:,} left for the next run" if left else "")
    yield f"<h1>An archive of recordings</h1><p>{told}. <small>This page is tested, and not proved.</small></p>"
    if failed:
        yield "<h2>Failed</h2><table>"
        for path, why in sorted(failed.items()):
            yield f'<tr><td>{escape(printable(path))}</td><td class="fault">{escape(str(why))}</td></tr>'
        yield "</table><h2>Done</h2>"
    yield "<table><tr><th>recording</th><th>displayed at the end</th><th>what came of it</th></tr>"
    for source in sources:
        if source.path in done:
            yield from recording_rows(source, done[source.path])
    yield "</table></body></html>"


def recording_rows(source, told):
    """Yields the rows of a recording: one for each of its services."""
    base = f"recordings/{path_url(source.folder())}"
    size = f"{source.size:,} bytes, {told['packets']:,} packets of {told['packet_size']}"
    notes = "".join(f"<li>{escape(it)}</li>" for it in told["findings"])
    links = [f'<a href="{base}/list.txt">what is in it</a>'] + ([f'<a href="{base}/data.ts">its data alone</a>'] if told["has_data"] else [])
    head = f"<b>{escape(printable(source.path))}</b><br><small>{size}</small><br>{', '.join(links)}<ul>{notes}</ul>"
    for it in told["targets"] or [None]:
        yield f"<tr><td>{head}</td>{target_cells(base, it) if it else '<td></td><td>no carousel</td>'}</tr>"
        head = ""


def target_cells(base, told):
    """Returns the cells of a service: its picture, and what came of it."""
    place, links = f"{base}/{told['folder']}", []
    links += [f'<a href="{place}/modules/index.html">modules: {told["modules"]:,}, with {told["bytes"]:,} bytes</a>'] if told["modules"] else []
    links += [f'<a href="{place}/report.html">report, lines: {told["lines"]:,}</a>'] if "lines" in told else []
    warnings = f'<div class="fault">lines that warn: {told["warnings"]:,}</div>' if told.get("warnings") else ""
    faults = "".join(f'<div class="fault">{escape(it)}</div>' for it in told["faults"])
    loads = "<br>".join(escape(it) for it in told.get("loads", []))
    picture = f'<a href="{place}/report.html"><img loading="lazy" src="{place}/display.svg" alt="what is displayed at the end"></a>'
    return f'<td>{picture if told.get("is_shown") else ""}</td><td>{escape(told["name"])}<br>{"<br>".join(links)}<br><small>{loads}</small>{warnings}{faults}</td>'

"""The themes of the definitions, in the order of a reader: what a run means first, and what this rests on later.

A theme has crates, or files of a crate, as `replay_run/Meaning`. A file that is named counts before its crate.
"""

import re
from typing import NamedTuple


class Theme(NamedTuple):
    """A theme: its title, what it is about, and its files."""

    title: str
    about: str
    files: str


THEMES = [
    Theme(
        "What a run means",
        "The pieces of output that stream, record and kept area come to.",
        "replay_run/Headline replay_run/Meaning replay_run/Play replay_run/Kept replay_run/Lines receiver_core/Outputs"
        " receiver_core/Fronts",
    ),
    Theme(
        "Words and record",
        "Which command some words are, and what a record asks for.",
        "replay_run/Words replay_run/Record",
    ),
    Theme(
        "How a run ends",
        "For each status: what was read, written and kept, and why it came.",
        "replay_run bml_ports ts_packets/Cutter",
    ),
    Theme("The receiver", "What packets, keys and time change, turn by turn.", "receiver_core"),
    Theme("The page", "Loads of documents, turns, and what comes to a page beside them.", "page"),
    Theme(
        "Documents that act",
        "What handlers, default actions, timers and scripts do to a document.",
        "acting_documents document_stages event_queue focus_keys",
    ),
    Theme("Event items", "Which event messages and changes of modules a page hears.", "event_items event_messages"),
    Theme(
        "Modules and locks",
        "What is held of the modules of a service, and what is found there.",
        "module_locks module_store",
    ),
    Theme(
        "Carousels and entities",
        "How modules come in blocks, and which parts they have.",
        "carousel_blocks dsmcc_messages multipart_entities",
    ),
    Theme("Services", "Which service is received, and its components.", "psi_tables"),
    Theme("Packets and sections", "What stands in the bytes of a stream.", "ts_packets ts_sections table_fields"),
    Theme("Documents", "Which tree bytes are, and what a document needs.", "document_load bml_reader dom_tree"),
    Theme("Styles", "Which rules a text gives, and which value an element has.", "style_cascade style_reader"),
    Theme(
        "The display list",
        "What is drawn of a document, in which lines, and into which rows its texts are broken.",
        "display_list text_lines",
    ),
    Theme(
        "What scripts see",
        "Nodes, styles, the browser object, persistent arrays and binary tables.",
        "dom_objects browser_objects persistent_arrays binary_table",
    ),
    Theme("What scripts do", "How programs run, over any host.", "es_eval es_frames es_shapes"),
    Theme(
        "Values and built-ins of scripts",
        "Numbers, texts, objects and arrays, and what is called on them.",
        "es_values es_builtins",
    ),
    Theme("Dates", "Day numbers of the calendar, moments, and the objects that tell them.", "date_objects es_date"),
    Theme("Texts of scripts", "Which program a text is.", "es_reader es_expressions es_lexer"),
    Theme("Generated streams", "What `gen` makes and writes.", "file_generator carousel_writer section_writer"),
    Theme("Texts and numbers", "Codes, words, numerals and fields.", "bml_bytes"),
]
OTHERS = Theme("Others", "What is in none of the themes.", "")
# The sources that heads of files name, as they are told.
SOURCES = {
    r"ISO/IEC 13818-1\b": "ISO/IEC 13818-1",
    r"ISO/IEC 13818-6\b": "ISO/IEC 13818-6",
    r"ARIB STD-B24,? volume 2|BML": "ARIB STD-B24 volume 2",
    r"ARIB STD-B24,? volume 3": "ARIB STD-B24 volume 3",
    r"ARIB STD-B10": "ARIB STD-B10",
    r"ECMA-262": "ECMA-262 second edition",
    r"third\s+edition": "ECMA-262 third edition",
    r"CSS level 1": "CSS level 1",
    r"CSS level 2": "CSS level 2",
    r"DOM level 1": "DOM level 1",
    r"\bXML\b": "XML",
    r"RFC 822": "RFC 822",
    r"RFC 204\d": "MIME",
    r"EUC-JP": "EUC-JP",
    r"\bPCG\b": "PCG",
    r"project's own": "this project's own rules",
}


def theme_of(crate: str, module: str, themes: list[Theme]) -> Theme:
    """The theme of a file of specs/."""
    for name in (f"{crate}/{module}", crate):
        for theme in themes:
            if name in theme.files.split():
                return theme
    return OTHERS


def sources_of(heads: list[str]) -> list[str]:
    """What the heads of some files say that they follow, in the order of `SOURCES`."""
    return [told for pattern, told in SOURCES.items() if any(re.search(pattern, head) for head in heads)]

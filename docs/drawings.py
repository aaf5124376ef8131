#!/usr/bin/env python3
"""Draws docs/pictures/crates.svg, the groups of crates with which group uses which, by crates.txt, and docs/pictures/spine.svg, what the report's promise rests on.

    python3 docs/drawings.py        writes both, and names the crates that stand in no group
"""
import html
import os
import sys

TOP = os.path.dirname(os.path.dirname(os.path.abspath(__file__)))
# the groups, each with its crates
GROUPS = {
    "definitions": "joint_machine joint_model",
    "laws": "joint_laws known_laws pin_laws computed_histories check_laws",
    "order": "order_table weak_wait seat_calls view_laws",
    "heaps": "heap_rules reachability row_marking row_heap global_handles instance_registry finaliser_queue marking_laws managed_heap peer_heap peer_mirror handle_weaken dead_parts",
    "graph": "bridge_graph xref_list component_pass compare_pass",
    "bridge": "joint_history bridge_cycle",
    "texts": "byte_streams text_words text_limits bridge_script history_report graph_listing entry_reader report_reader limited_reports log_text command_words script_generator run_summary std_streams",
    "checker": "caller_turns reader_counts run_check report_answers",
    "runs": "script_laws report_laws legal_reports summary_laws listing_laws gref_log generated_laws run_laws script_runs",
    "replay": "joint_marking joint_replay",
    "pictures": "heap_views heap_pictures picture_sheets picture_text picture_laws picture_program",
    "programs": "judged_reports bridge_program bridge_run heap_picture contract_tool weak_reads handle_cycles pass_c",
}
# crates of tests, and worked examples: nothing stands on them
TESTS = "worked_texts worked_histories worked_endings worked_answers"

# what the promise of a report rests on, top down: who says it, what is said, and what the step below gives it
SPINE = [
    ("bridge_main", "printed: the report is that of a run of the script", "a finished history of the script's lines"),
    ("run_laws", "it is a sound and complete run, each cycle ends, reads of what was freed answer gone", "one linked history, with each caller's own entries"),
    ("joint_history", "finish: what all callers made is one linked history", "what each seat's view is"),
    ("view_laws", "a seat's view is a lawful past, and at the end the whole history", "one order of all entries; what lawful pasts are"),
    ("known_laws", "who has seen a part of a history knows a lawful past; what the calls ask for holds in it", "what every lawful list keeps"),
    ("joint_laws", "the joint projection of a linked history is a run of the one machine, sound and complete", "definitions alone"),
    ("joint_machine", "the heaps, the replays of both sides, linked histories, the joint machine", ""),
]
# what stands beside a step: who gives it, what it gives
BESIDE = {
    "joint_history": [("managed_heap, peer_heap", "the state after a call is what the definitions give for its entry")],
    "view_laws": [("order_table", "entries have one order; every list is a projection of it")],
    "bridge_main": [("history_report", "the bytes are the report of the history")],
}

STYLE = (
    "<style>text{font-family:sans-serif;font-size:12px;fill:#222}.head{font-weight:bold;font-size:14px}.small{font-size:11px;fill:#555}"
    "rect{fill:#f6f8fa;stroke:#57606a}path{stroke:#57606a;fill:none}</style>"
    '<defs><marker id="to" viewBox="0 0 8 8" refX="8" refY="4" markerWidth="8" markerHeight="8" orient="auto"><path d="M0,0 L8,4 L0,8 z" style="fill:#57606a"/></marker></defs>'
)


def text(x, y, words, kind=""):
    return f'<text x="{x}" y="{y}" class="{kind}">{html.escape(words)}</text>'


def box(x, y, width, height):
    return f'<rect x="{x}" y="{y}" width="{width}" height="{height}" rx="5"/>'


def arrow(x1, y1, x2, y2):
    return f'<path d="M{x1},{y1} C{x1},{(y1 + y2) // 2} {x2},{(y1 + y2) // 2} {x2},{y2}" marker-end="url(#to)"/>'


def written(name, width, height, parts):
    path = os.path.join(TOP, "docs", "pictures", name)
    with open(path, "w", encoding="utf-8") as page:
        page.write(f'<svg xmlns="http://www.w3.org/2000/svg" width="{width}" height="{height}" viewBox="0 0 {width} {height}">\n')
        page.write(f'<rect width="{width}" height="{height}" style="fill:white;stroke:none"/>\n{STYLE}\n' + "\n".join(parts) + "\n</svg>\n")


def uses():
    """The crates with what each uses of the repository's own."""
    lines = [line for line in open(os.path.join(TOP, "crates.txt"), encoding="utf-8").read().split("\n") if line.strip() and not line.startswith("#")]
    named = {line.split(":")[0].split()[0]: line.split(":")[1].split() for line in lines}
    return {crate: [other for other in others if other in named] for crate, others in named.items()}


def groups_of(crates):
    """The groups with their crates, and which group uses which directly: those that it also uses over another one are left out."""
    groups = {name: [crate for crate in listed.split() if crate in crates] for name, listed in GROUPS.items()}
    is_test = {crate for crate in crates if crate.endswith("_tests")} | set(TESTS.split())
    for crate in crates:
        if crate not in is_test and not any(crate in listed for listed in groups.values()):
            print(f"drawings: {crate} stands in no group")
    home = {crate: name for name, listed in groups.items() for crate in listed}
    below = {name: {home[other] for crate in listed for other in crates[crate] if other in home} - {name} for name, listed in groups.items()}
    reach = {}

    def reached(name):
        if name not in reach:
            reach[name] = set()
            for other in below[name]:
                reach[name] |= {other} | reached(other)
        return reach[name]

    for name in groups:
        if name in reached(name):
            sys.exit(f"drawings: the group {name} uses itself over another one")
    direct = {name: {other for other in others if not any(other in reached(third) for third in others - {other})} for name, others in below.items()}
    return groups, direct


def draw_crates():
    groups, direct = groups_of(uses())
    level = {}

    def height_of(name):
        if name not in level:
            level[name] = 1 + max((height_of(other) for other in direct[name]), default=-1)
        return level[name]

    for name in groups:
        height_of(name)
    rows = [[name for name in groups if level[name] == at] for at in range(max(level.values()), -1, -1)]
    place, parts, top = {}, [], 20
    for row in rows:
        left, tall = 20, 0
        for name in row:
            columns = 2 if len(groups[name]) > 5 else 1
            lines = -(-len(groups[name]) // columns)
            width, height = 30 + 135 * columns, 34 + 15 * lines
            place[name] = (left, top, width, height)
            parts += [box(left, top, width, height), text(left + 10, top + 19, name, "head")]
            for at, crate in enumerate(groups[name]):
                parts.append(text(left + 10 + 140 * (at // lines), top + 37 + 15 * (at % lines), crate, "small"))
            left, tall = left + width + 40, max(tall, height)
        top += tall + 60
    for name, others in direct.items():
        for other in sorted(others):
            x, y, width, height = place[name]
            to_x, to_y, to_width, _ = place[other]
            parts.insert(0, arrow(x + width // 2, y + height, to_x + to_width // 2, to_y))
    written("crates.svg", 20 + max(x + width for x, _, width, _ in place.values()), top - 30, parts)


def draw_spine():
    parts, top = [], 20
    for at, (who, what, given) in enumerate(SPINE):
        parts += [box(20, top, 600, 50), text(32, top + 20, who, "head"), text(32, top + 38, what)]
        for other, gives in BESIDE.get(who, ()):
            parts += [box(690, top, 430, 50), text(702, top + 20, other, "head"), text(702, top + 38, gives)]
            parts.append(f'<path d="M620,{top + 25} L690,{top + 25}" marker-end="url(#to)"/>')
        if given:
            parts += [f'<path d="M300,{top + 50} L300,{top + 95}" marker-end="url(#to)"/>', text(312, top + 76, given, "small")]
        top += 95
    written("spine.svg", 1140, top - 25, parts)


draw_crates()
draw_spine()

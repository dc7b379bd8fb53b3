#!/usr/bin/env python3
"""Draws the layers of crates: reads crates.txt (or the file that is named), writes the picture's source for `dot`.

Crates of tests, samples, benches and the import are left out, and so is an edge to a crate that is reached by other edges
too. A crate that is in no layer below stops the script, so that a new one finds its place.
"""

import os
import sys

TOP = os.path.dirname(os.path.dirname(os.path.dirname(os.path.abspath(__file__))))

# Each layer's title, colour and crates, lowest first.
LAYERS = [
    ("packets", "#dbe9f6", "field_rows scion_packet"),
    ("formats", "#dbe9f6", "scion_header path_fields host_ports bfd_control"),
    ("ciphers", "#dbe9f6", "aes128_core cmac_core"),
    ("rules of a hop, a pair, a flow", "#dbe9f6", "hop_check segment_switch flow_key"),
    ("decision and answers", "#d5ecd4", "process_packet address_kinds scmp_answer bfd_answer packet_answer"),
    ("nets and walks", "#d5ecd4", "net_laws net_walks path_authorisation"),
    ("order of packets", "#fdeec9", "order_laws router_rules"),
    ("model of the pipeline", "#fdeec9", "replay_laws replay_places replay_state replay_steps pipe_model"),
    ("between threads", "#f8dcd3", "ruled_pipe packet_ledger"),
    ("laws of workers", "#fdeec9", "worker_laws worker_order run_promises"),
    ("workers", "#f8dcd3", "worker_parts worker_receiver worker_processor worker_forwarder"),
    ("threads, and the run", "#f8dcd3", "run_ends run_pipes worker_threads run_workers run_report router_run"),
    ("sockets", "#f8dcd3", "udp_devices"),
    ("text and commands", "#e6def0", "text_values metrics_text metrics_server counts_page router_config config_warnings net_check cli_io cli_route cli_replay cli_run udp_router cli_words cli_faults cli_check router_program"),
]
LEFT_OUT = {"path_trial", "path_probe", "try_net", "key_derivation", "topology", "config_text", "cli_import"}


def is_left_out(name):
    return name in LEFT_OUT or name.endswith(("_tests", "_bench")) or name.startswith("sample_")


def read_crates(path):
    """Each crate with the crates of this repository that it uses."""
    uses = {}
    with open(path, encoding="utf-8") as file:
        for line in file:
            line = line.split("#")[0].strip()
            if line:
                head, _, rest = line.partition(":")
                uses[head.split()[0]] = rest.split()
    kept = [name for name in uses if not is_left_out(name)]
    return {name: [used for used in uses[name] if used in kept] for name in kept}


def reached(uses, name):
    found = set()
    for used in uses[name]:
        found |= {used} | reached(uses, used)
    return found


def main():
    uses = read_crates(os.path.join(TOP, "crates.txt") if len(sys.argv) < 2 else sys.argv[1])
    drawn = [name for _, _, names in LAYERS for name in names.split()]
    missing = set(uses) - set(drawn)
    if missing:
        sys.exit(f"these crates have no layer: {' '.join(sorted(missing))}")
    print("// Made by docs/pictures/crates.py from crates.txt: `make pictures`.")
    print("digraph crates {")
    print('  rankdir = BT; nodesep = 0.18; ranksep = 0.35; newrank = true; fontname = "Helvetica"; fontsize = 13;')
    print('  node [shape = box, style = "rounded,filled", fillcolor = white, fontname = "Helvetica", fontsize = 13, height = 0.3, margin = "0.1,0.04"];')
    print('  edge [color = "#666666", arrowsize = 0.6, dir = back];')
    for number, (title, colour, names) in enumerate(LAYERS):
        present = [name for name in names.split() if name in uses]
        print(f"  subgraph cluster_{number} {{")
        print(f'    label = "{title}"; style = "rounded,filled"; color = "{colour}"; labeljust = r; labelloc = b; margin = 10;')
        for name in present:
            print(f"    {name};")
        print("  }")
    for name in uses:
        for used in uses[name]:
            if not any(used in reached(uses, other) for other in uses[name] if other != used):
                print(f"  {used} -> {name};")
    print("}")


main()
